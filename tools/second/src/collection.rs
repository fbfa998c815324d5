//! A collection of streams, each behind its length in four bytes, high byte first.

use crate::make::{Maker, Random};
use crate::run::{Kind, Run, LONGEST};
use crate::scripts::{commands, words, SCRIPTS};
use std::fmt::Write;

const STREAMS: usize = 300;
const MIDDLING: usize = 60;

/// Streams of a few bytes.
#[rustfmt::skip]
const TINY: [&[u8]; 18] = [
    b"", b"S", b"V", b"B", b"\0", b"X", b"X\0", b"R\0\x01", b"W", b"W\0", b"W\0\x01", b"W\0\x01\0", b"BW\0\x01\x01", b"BBBBB",
    b"BR\0\x01\x0e", b"BR\0\x01\x0f", b"BX\0\x01X\0\x01", b"BR\x01\x01\0V",
];

/// The stream of a script whose jobs are the first of a book.
fn script(kind: Kind, text: &str) -> Vec<u8> {
    let settings: Vec<u8> = (0..=15).collect();
    let value = || match kind {
        Kind::Levels => words(&[500]),
        Kind::Plans => words(&[60, 720, 500]),
    };
    commands(text, 0, &settings, value).concat()
}

/// Scripts that fill a book: a begin is refused for the active jobs before it would sweep, and a begin sweeps.
fn filling() -> [String; 2] {
    let idle: String = (1..=60).map(|job| format!("B W{job} ")).collect();
    let readers: String = (1..=61).map(|job| format!("B R{job}.0 W{job} ")).collect();
    [idle + "B B B B B S X64 B", readers + "B B B B B B S S S B"]
}

/// The streams of a kind: tiny ones, scripts, many short ones, some in which places run short, and at the end one that
/// is full and whole, one that is full and damaged, and one that is too long.
pub fn streams(kind: Kind) -> Vec<Vec<u8>> {
    let mut random = Random::new(0);
    let mut streams: Vec<Vec<u8>> = TINY.iter().map(|bytes| bytes.to_vec()).collect();
    streams.extend(SCRIPTS.iter().map(|text| script(kind, text)));
    streams.extend(filling().iter().map(|text| script(kind, text)));
    let made = STREAMS - 3 - streams.len();
    for seed in 0..made {
        let size = if seed < made - MIDDLING { 1 + random.below(300) } else { 1000 + random.below(1501) };
        streams.push(Maker::stream(kind, seed as u64, size as usize));
    }
    streams.push(Maker::whole(kind, 1_112, LONGEST));
    streams.push(Maker::damaged(kind, 1_012, LONGEST));
    streams.push(Maker::whole(kind, 1_000, LONGEST + 1));
    streams
}

/// The bytes of a collection.
pub fn joined(streams: &[Vec<u8>]) -> Vec<u8> {
    streams.iter().flat_map(|stream| [&(stream.len() as u32).to_be_bytes(), &stream[..]].concat()).collect()
}

/// The streams of a collection.
fn parted(mut bytes: &[u8]) -> Option<Vec<&[u8]>> {
    let mut streams = Vec::new();
    while !bytes.is_empty() {
        let (length, rest) = bytes.split_first_chunk::<4>()?;
        let (stream, rest) = rest.split_at_checked(u32::from_be_bytes(*length) as usize)?;
        streams.push(stream);
        bytes = rest;
    }
    Some(streams)
}

/// The answers to a collection: for each stream a line with its place, and its answer lines.
pub fn answers(kind: Kind, bytes: &[u8]) -> Option<String> {
    let mut text = String::new();
    for (i, stream) in parted(bytes)?.into_iter().enumerate() {
        let _ = writeln!(text, "stream {}", i + 1);
        text.push_str(&Run::new(kind).answers(stream));
    }
    Some(text)
}
