//! Makes streams: random jobs, long and short, with mistakes in them, and damage. Each command is carried out as it is
//! made, so that the next one can name jobs that are active.

use crate::history::{Job, Setting};
use crate::run::{Kind, Run, LONGEST, SETTINGS};
use crate::scripts::{commands, named, read, words, write, SCRIPTS};
use std::collections::VecDeque;

/// A generator of pseudo-random numbers.
pub struct Random(u64);

impl Random {
    pub fn new(seed: u64) -> Random {
        let mut random = Random((seed + 1).wrapping_mul(0x9e37_79b9_7f4a_7c15) | 1);
        (0..8).for_each(|_| _ = random.below(2));
        random
    }

    pub fn below(&mut self, n: u64) -> u64 {
        self.0 ^= self.0 << 13;
        self.0 ^= self.0 >> 7;
        self.0 ^= self.0 << 17;
        (self.0 >> 11) % n
    }

    fn one_in(&mut self, n: u64) -> bool {
        self.below(n) == 0
    }

    fn one_of<T: Copy>(&mut self, choices: &[T]) -> T {
        choices[self.below(choices.len() as u64) as usize]
    }
}

/// How jobs behave. It changes now and then in a stream.
struct Manner {
    /// Settings are taken from the first so many.
    settings: u64,
    /// A job is begun while fewer are active.
    active: usize,
    /// So many of the oldest active jobs are long: one of `long_in` steps is of any job, the others of a short one.
    long: usize,
    long_in: u64,
    /// One of so many steps of a job is its write.
    write_in: u64,
    /// One of so many commands sweeps, withdraws, or is a mistake.
    sweep_in: u64,
    withdraw_in: u64,
    mistake_in: u64,
    /// One of so many commands, while at most one job is active, is the first of a script.
    script_in: u64,
    /// One of so many orders has entries. Where that is one of many, most jobs only read, so that no later job
    /// overwrites what they touched, and places run short.
    entries_in: u64,
}

impl Manner {
    fn new(random: &mut Random) -> Manner {
        let entries_in = random.one_of(&[1, 1, 12, 60]);
        Manner {
            settings: random.one_of(&[1, 3, 5, 8, 15, 15, 15]),
            active: random.one_of(&[1, 2, 3, 4, 4, 4, 4]),
            long: random.one_of(&[0, 1, 1, 2, 3]),
            long_in: random.one_of(&[3, 8, 20, 100]),
            write_in: 1 + random.below(if entries_in == 1 { 6 } else { 4 }),
            sweep_in: random.one_of(if entries_in == 1 { &[4, 15, 60, 1000] } else { &[300, 1000] }),
            withdraw_in: random.one_of(&[5, 15, 60, 200]),
            mistake_in: random.one_of(&[5, 20, 60, 1_000_000]),
            script_in: random.one_of(&[20, 100, 1_000_000]),
            entries_in,
        }
    }
}

/// Ends of streams at which no command stands, or one that is cut short; at the first two, a byte is changed instead.
const TAILS: [&[u8]; 8] = [b"", b"", b"V", b"\0", b"X\0", b"R\0\x01", b"W\0\x01", b"W\0\x01\x02V\0\x03"];

pub struct Maker {
    random: Random,
    kind: Kind,
    manner: Manner,
    run: Run,
    /// What is left of a script.
    script: VecDeque<Vec<u8>>,
    bytes: Vec<u8>,
}

impl Maker {
    /// A stream of so many bytes. Every fourth seed gives a damaged one.
    pub fn stream(kind: Kind, seed: u64, size: usize) -> Vec<u8> {
        if seed % 4 == 3 && size <= LONGEST {
            Maker::damaged(kind, seed, size)
        } else {
            Maker::whole(kind, seed, size)
        }
    }

    /// A stream damaged near its end: a byte is changed, or what ends it is no command.
    pub fn damaged(kind: Kind, seed: u64, size: usize) -> Vec<u8> {
        let mut random = Random::new(seed);
        let tail = random.one_of(&TAILS);
        let mut bytes = Maker::whole(kind, seed, size.saturating_sub(tail.len()));
        if tail.is_empty() && size > 0 {
            let at = size - 1 - random.below(size.min(300) as u64) as usize;
            bytes[at] = random.below(256) as u8;
        }
        bytes.extend(tail);
        bytes.truncate(size);
        bytes
    }

    /// A stream of whole commands.
    pub fn whole(kind: Kind, seed: u64, size: usize) -> Vec<u8> {
        let mut random = Random::new(2 * seed + kind as u64);
        let manner = Manner::new(&mut random);
        let mut maker = Maker { random, kind, manner, run: Run::new(kind), script: VecDeque::new(), bytes: Vec::new() };
        while maker.bytes.len() < size {
            let mut command = maker.command();
            if command.len() > size - maker.bytes.len() {
                command = vec![b'S'];
            }
            let _ = maker.run.carry_out(&command);
            maker.bytes.extend(command);
        }
        maker.bytes
    }

    fn command(&mut self) -> Vec<u8> {
        if let Some(command) = self.script.pop_front() {
            return command;
        }
        if self.random.one_in(500) {
            self.manner = Manner::new(&mut self.random);
        }
        if self.random.one_in(self.manner.mistake_in) {
            return self.mistake();
        }
        if self.random.one_in(self.manner.sweep_in) {
            return vec![b'S'];
        }
        let active = self.run.active();
        if active.len() <= 1 && self.random.one_in(self.manner.script_in) {
            self.script = self.script();
            return self.command();
        }
        if active.is_empty() || (active.len() < self.manner.active && self.random.one_in(2)) {
            return vec![b'B'];
        }
        let long = self.manner.long.min(active.len() - 1);
        let eligible = if self.random.one_in(self.manner.long_in) { &active[..] } else { &active[long..] };
        let job = self.random.one_of(eligible);
        if self.random.one_in(self.manner.withdraw_in) {
            named(b'X', job)
        } else if self.random.one_in(self.manner.write_in) {
            let count = self.count();
            let entries = self.entries(count);
            write(job, &entries)
        } else {
            let setting = self.random.below(self.manner.settings) as Setting;
            read(job, setting)
        }
    }

    /// A script with new jobs, and with its settings renamed.
    fn script(&mut self) -> VecDeque<Vec<u8>> {
        let text = self.random.one_of(&SCRIPTS);
        let mut settings = self.shuffled(SETTINGS as u64);
        settings.push(SETTINGS as Setting);
        commands(text, self.run.last(), &settings, || self.value()).into()
    }

    /// The first so many settings in any order.
    fn shuffled(&mut self, count: u64) -> Vec<Setting> {
        let mut left: Vec<Setting> = (0..count as Setting).collect();
        (0..count).rev().map(|last| left.swap_remove(self.random.below(last + 1) as usize)).collect()
    }

    /// How many entries an order has: mostly few.
    fn count(&mut self) -> u64 {
        if !self.random.one_in(self.manner.entries_in) {
            return 0;
        }
        let most = self.random.one_of(&[1, 1, 1, 2, 2, 2, 3, 4, 4, 15]);
        self.random.below(self.manner.settings.min(most) + 1)
    }

    /// Good entries of settings that differ.
    fn entries(&mut self, count: u64) -> Vec<Vec<u8>> {
        let settings = self.shuffled(self.manner.settings.max(count));
        settings[..count as usize].iter().map(|&setting| [vec![b'V', setting], self.value()].concat()).collect()
    }

    /// A good value, sometimes at an edge.
    fn value(&mut self) -> Vec<u8> {
        let any = self.random.below(1001);
        let level = self.random.one_of(&[any, any, any, any, 0, 1000]);
        let any = self.random.below(1439);
        let on = self.random.one_of(&[any, any, any, 0, 1438]);
        let any = on + 1 + self.random.below(1439 - on);
        let off = self.random.one_of(&[any, any, any, on + 1, 1439]);
        match self.kind {
            Kind::Levels => words(&[level]),
            Kind::Plans => words(&[on, off, level]),
        }
    }

    /// The bytes of no value.
    fn bad_value(&mut self) -> Vec<u8> {
        let level = 1001 + self.random.one_of(&[0, 0, 23, 64_534]);
        let on = self.random.below(1440);
        let plans =
            [[on, on, 7], [on + 1, on, 7], [on, 1440, 7], [1440, on, 7], [on, on + 1, level], [65_535, 65_535, level]];
        match self.kind {
            Kind::Levels => words(&[level]),
            Kind::Plans => words(&self.random.one_of(&plans)),
        }
    }

    /// A command that is refused, or likely to be.
    fn mistake(&mut self) -> Vec<u8> {
        let last = u64::from(self.run.last());
        let (given, any) = (self.random.below(last + 1), self.random.below(65_536));
        let stray = self.random.one_of(&[0, last + 1, given, given, given, any]) as Job;
        let active = self.run.active();
        let job = if active.is_empty() { stray } else { self.random.one_of(&active) };
        match self.random.below(14) {
            0 => named(b'X', stray),
            1 => read(stray, 0),
            2 => write(stray, &[]),
            3 => write(stray, &self.bad_entries()),
            4..=6 => vec![b'B'],
            7 | 8 => read(job, self.no_setting()),
            _ => write(job, &self.bad_entries()),
        }
    }

    fn no_setting(&mut self) -> Setting {
        let first = SETTINGS as u64;
        let any = first + self.random.below(256 - first);
        self.random.one_of(&[first, any]) as Setting
    }

    /// Entries with a mistake or two, or very many entries.
    fn bad_entries(&mut self) -> Vec<Vec<u8>> {
        if self.random.one_in(30) {
            let count = self.random.one_of(&[64, 65, 65, 255]);
            return (0..count).map(|setting| [vec![b'V', setting], self.value()].concat()).collect();
        }
        let count = 1 + self.random.below(5);
        let mut entries = self.entries(count);
        for _ in 0..1 + self.random.below(2) {
            let i = self.random.below(count) as usize;
            match self.random.below(4) {
                0 => entries[i][0] = self.random.one_of(b"RWv\0"),
                1 => entries[i][1] = self.no_setting(),
                2 => entries[i][1] = entries[0][1],
                _ => entries[i].splice(2.., self.bad_value()).for_each(drop),
            }
        }
        entries
    }
}
