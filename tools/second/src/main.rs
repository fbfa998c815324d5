//! A second program for the job streams, by another method than the proved ones: maps and sets, the whole history kept.
//! Circles are judged from the history of steps, and every job that is forgotten is tested by the definition.
//!
//!     second answer levels|plans <STREAM                  prints the answer lines
//!     second make levels|plans SEED SIZE                  prints a stream of SIZE bytes
//!     second collect levels|plans                         prints the collection of streams
//!     second answer-collection levels|plans <COLLECTION   prints the answer lines of each stream

mod book;
mod collection;
mod history;
mod make;
mod policy;
mod run;
mod scripts;

use make::Maker;
use run::{Kind, Run};
use std::io::{Read, Write};

fn main() -> Result<(), Box<dyn std::error::Error>> {
    let args: Vec<String> = std::env::args().skip(1).collect();
    let words: Vec<&str> = args.iter().map(String::as_str).collect();
    let kind = match words.get(1) {
        Some(&"levels") => Kind::Levels,
        Some(&"plans") => Kind::Plans,
        _ => return Err("name the kind: levels or plans".into()),
    };
    let input = || {
        let mut bytes = Vec::new();
        std::io::stdin().read_to_end(&mut bytes).map(|_| bytes)
    };
    let output = match words[..] {
        ["answer", _] => Run::new(kind).answers(&input()?).into_bytes(),
        ["make", _, seed, size] => Maker::stream(kind, seed.parse()?, size.parse()?),
        ["collect", _] => collection::joined(&collection::streams(kind)),
        ["answer-collection", _] => {
            collection::answers(kind, &input()?).ok_or("the collection is cut short")?.into_bytes()
        }
        _ => return Err("answer KIND, make KIND SEED SIZE, collect KIND, or answer-collection KIND".into()),
    };
    std::io::stdout().write_all(&output)?;
    Ok(())
}
