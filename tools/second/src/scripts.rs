//! The bytes of commands, and scripts: a few commands that lead to a situation which random ones seldom meet.

use crate::history::{Job, Setting};

/// `B` begins a job, `R1.0` has job 1 read setting 0, `W2.0.1` has job 2 write settings 0 and 1, `X1` withdraws job 1, and
/// `S` sweeps. Of three sweeps in a row, one at least asks the policy under a spaced one.
pub const SCRIPTS: [&str; 14] = [
    // A step closes a circle: a repeated read, a write, a read by way of a third job.
    "B R1.0 B W2.0 R1.0 R1.0",
    "B R1.0 B R2.1 W1.1 W2.0 X2",
    "B R1.0 B W2.0.1 B R3.1 R3.2 B W4.2 W3 R1.2",
    // The third job is forgotten first, or withdrawn, or cut off; then the path through it is kept, or gone.
    "B R1.0 B W2.0.1 B R3.1 R3.2 B W4.2 W3 S S S R1.2",
    "B R1.0 B W2.0.1 B R3.1 R3.2 B W4.2 X3 R1.2",
    "B R1.0 B W2.0.1 B R3.1 R3.2 B W4.2 R3.2 R1.2",
    // Two jobs may each be forgotten, but not both.
    "B R1.0 B W2.0 B W3.0 S S S X1 S S S",
    // A job that only read a setting stands in for another, but not for one that wrote it.
    "B R1.0 B W2.0.1 B R3.0 R3.1 W3 B R4.0 R4.1 W4 S S S",
    // Job 4 does not stand in for job 5, seen from job 1: its path leads through job 3, which is active.
    "B R1.0 B W2.0.1 B R3.1 R3.2 B W4.2.5 B R5.1 R5.5 W5 B R6.2 R6.1 W6 S S S R1.5",
    // Jobs touch nothing; a job reads what it writes; a job reads, after a sweep, what a job behind it wrote.
    "B W1 B W2 B W3 S S S S S",
    "B R1.0 R1.0 W1.0 B R2.0 S W2 S S S",
    "B B R1.0 W2.0.1 S R1.1 S S S",
    // A setting named twice, then once; every setting, and one that is none.
    "B W1.3.3 W1.3 B R2.3 X2",
    "B W1.0.1.2.3.4.5.6.7.8.9.10.11.12.13.14 B W2.0.1.2.3.4.5.6.7.8.9.10.11.12.13.14.15 X2",
];

/// The commands of a script whose first job has the number behind `last`, with the names that its settings get.
pub fn commands(script: &str, last: Job, settings: &[Setting], mut value: impl FnMut() -> Vec<u8>) -> Vec<Vec<u8>> {
    let mut command = |word: &str| {
        let numbers: Vec<usize> = word[1..].split('.').filter_map(|number| number.parse().ok()).collect();
        let job = last + numbers.first().map_or(0, |&number| number as Job);
        let mut named_settings = numbers.iter().skip(1).map(|&number| settings[number]);
        match word.as_bytes()[0] {
            b'R' => read(job, named_settings.next().unwrap_or(0)),
            b'W' => {
                write(job, &named_settings.map(|setting| [vec![b'V', setting], value()].concat()).collect::<Vec<_>>())
            }
            b'X' => named(b'X', job),
            letter => vec![letter],
        }
    };
    script.split(' ').map(&mut command).collect()
}

/// Numbers of two bytes each.
pub fn words(numbers: &[u64]) -> Vec<u8> {
    numbers.iter().flat_map(|number| [(number >> 8) as u8, *number as u8]).collect()
}

/// A letter and a job.
pub fn named(letter: u8, job: Job) -> Vec<u8> {
    [vec![letter], words(&[job.into()])].concat()
}

pub fn read(job: Job, setting: Setting) -> Vec<u8> {
    [named(b'R', job), vec![setting]].concat()
}

pub fn write(job: Job, entries: &[Vec<u8>]) -> Vec<u8> {
    [named(b'W', job), vec![entries.len() as u8], entries.concat()].concat()
}
