//! A run of a stream: its commands decoded one after another, each answered by a line.

use crate::book::{Graph, Held, PLACES};
use crate::history::{History, Job, Setting};
use crate::policy::Policy;
use std::collections::BTreeSet;
use std::fmt::Write;

pub const SETTINGS: usize = 15;
const LIMIT: usize = 4;
pub const LONGEST: usize = 65_535;
const LAST_NUMBER: Job = 65_535;

/// The two kinds of value, each by its bytes.
#[derive(Clone, Copy, PartialEq)]
pub enum Kind {
    Levels,
    Plans,
}

impl Kind {
    pub fn width(self) -> usize {
        match self {
            Kind::Levels => 2,
            Kind::Plans => 6,
        }
    }

    /// The value that every setting has at the opening.
    fn opening(self) -> Vec<u8> {
        match self {
            Kind::Levels => vec![0x03, 0xe8],
            Kind::Plans => vec![0x01, 0x68, 0x04, 0x38, 0x03, 0xe8],
        }
    }

    fn accepts(self, bytes: &[u8]) -> bool {
        let word = |i: usize| u32::from(bytes[2 * i]) << 8 | u32::from(bytes[2 * i + 1]);
        match self {
            Kind::Levels => word(0) <= 1000,
            Kind::Plans => word(0) < word(1) && word(1) <= 1439 && word(2) <= 1000,
        }
    }
}

/// A refusal: its number, and the entry that it names.
pub struct Refused(u8, Option<usize>);

fn refused(number: u8) -> Refused {
    Refused(number, None)
}

pub struct Run {
    kind: Kind,
    graph: Graph,
    history: History,
    policy: Policy,
    row: Vec<Vec<u8>>,
    last: Job,
}

impl Run {
    pub fn new(kind: Kind) -> Run {
        Run {
            kind,
            graph: Graph::default(),
            history: History::default(),
            policy: match kind {
                Kind::Levels => Policy::levels(),
                Kind::Plans => Policy::plans(),
            },
            row: vec![kind.opening(); SETTINGS],
            last: 0,
        }
    }

    /// The jobs that are active, by rising number.
    pub fn active(&self) -> Vec<Job> {
        self.graph.active()
    }

    /// The last number given.
    pub fn last(&self) -> Job {
        self.last
    }

    fn begin(&mut self) -> Result<String, Refused> {
        if self.graph.active().len() >= LIMIT {
            return Err(refused(4));
        }
        if self.last == LAST_NUMBER {
            return Err(refused(5));
        }
        if self.graph.jobs.len() == PLACES {
            self.sweep();
        }
        if self.graph.jobs.len() == PLACES {
            return Err(refused(6));
        }
        self.last += 1;
        self.graph.jobs.insert(self.last, Held::default());
        Ok(format!(" {}", self.last))
    }

    fn cut_off(&mut self, job: Job) -> Refused {
        self.graph.remove(job);
        self.history.strike(job);
        refused(12)
    }

    fn read(&mut self, job: Job, setting: Setting) -> Result<String, Refused> {
        if !self.graph.is_active(job) {
            return Err(refused(7));
        }
        if usize::from(setting) >= SETTINGS {
            return Err(refused(8));
        }
        if self.history.closes_circle(job, &[setting], false) {
            return Err(self.cut_off(job));
        }
        self.history.add(job, &[setting], false);
        let writers: Vec<Job> = self.others(job, |held| held.writes.contains(&setting));
        self.graph.arrows.extend(writers.into_iter().map(|from| (from, job)));
        if let Some(held) = self.graph.jobs.get_mut(&job) {
            held.reads.insert(setting);
        }
        let mut text = String::from(" ");
        for byte in &self.row[usize::from(setting)] {
            let _ = write!(text, "{byte:02x}");
        }
        Ok(text)
    }

    fn others(&self, job: Job, test: impl Fn(&Held) -> bool) -> Vec<Job> {
        self.graph.jobs.iter().filter(|(&other, held)| other != job && test(held)).map(|(&other, _)| other).collect()
    }

    fn write(&mut self, job: Job, order: &[u8]) -> Result<String, Refused> {
        if !self.graph.is_active(job) {
            return Err(refused(7));
        }
        let entries: Vec<&[u8]> = order.chunks(self.kind.width() + 2).collect();
        if entries.len() > 64 || entries.iter().any(|entry| entry[0] != b'V') {
            return Err(refused(9));
        }
        let mut settings = Vec::new();
        for (i, entry) in entries.iter().enumerate() {
            let setting = entry[1];
            let bad = |number| Err(Refused(number, Some(i + 1)));
            if usize::from(setting) >= SETTINGS {
                return bad(8);
            }
            if settings.contains(&setting) {
                return bad(10);
            }
            if !self.kind.accepts(&entry[2..]) {
                return bad(11);
            }
            settings.push(setting);
        }
        if self.history.closes_circle(job, &settings, true) {
            return Err(self.cut_off(job));
        }
        self.history.add(job, &settings, true);
        let named: BTreeSet<Setting> = settings.iter().copied().collect();
        let before = self.others(job, |held| !held.touched().is_disjoint(&named));
        self.graph.arrows.extend(before.into_iter().map(|from| (from, job)));
        if let Some(held) = self.graph.jobs.get_mut(&job) {
            held.finished = true;
            held.writes = named;
        }
        for entry in entries {
            self.row[usize::from(entry[1])] = entry[2..].to_vec();
        }
        Ok(String::new())
    }

    fn withdraw(&mut self, job: Job) -> Result<String, Refused> {
        if !self.graph.is_active(job) {
            return Err(refused(7));
        }
        self.graph.remove(job);
        self.history.strike(job);
        Ok(String::new())
    }

    fn sweep(&mut self) -> usize {
        let mut forgotten = 0;
        while let Some(job) = self.policy.consult(&self.graph) {
            assert!(self.graph.may_forget(job, &self.graph.tightly_reached()), "job {job} may not be forgotten");
            self.graph.forget(job);
            forgotten += 1;
        }
        forgotten
    }

    /// The answer lines of a stream.
    pub fn answers(&mut self, bytes: &[u8]) -> String {
        if bytes.len() > LONGEST {
            return String::from("1 ? no 15 0\n");
        }
        let mut text = String::new();
        let (mut at, mut place) = (0, 0);
        while at < bytes.len() {
            place += 1;
            let rest = &bytes[at..];
            let Some(size) = self.size(rest) else {
                let _ = writeln!(text, "{place} ? no 16 {at}");
                return text;
            };
            if rest.len() < size {
                let _ = writeln!(text, "{place} ? no 17 {at}");
                return text;
            }
            let answer = self.carry_out(&rest[..size]);
            let letter = char::from(rest[0]);
            let _ = match answer {
                Ok(result) => writeln!(text, "{place} {letter} ok{result}"),
                Err(Refused(number, None)) => writeln!(text, "{place} {letter} no {number}"),
                Err(Refused(number, Some(entry))) => writeln!(text, "{place} {letter} no {number} {entry}"),
            };
            at += size;
        }
        text
    }

    /// How many bytes the command has that begins here; none where no command does.
    fn size(&self, rest: &[u8]) -> Option<usize> {
        match rest[0] {
            b'B' | b'S' => Some(1),
            b'R' => Some(4),
            b'X' => Some(3),
            b'W' => Some(4 + rest.get(3).map_or(0, |&n| usize::from(n) * (self.kind.width() + 2))),
            _ => None,
        }
    }

    /// Carries out a whole command: its result as it stands behind `ok`, or its refusal.
    pub fn carry_out(&mut self, command: &[u8]) -> Result<String, Refused> {
        let job = || Job::from(command[1]) << 8 | Job::from(command[2]);
        match command[0] {
            b'B' => self.begin(),
            b'R' => self.read(job(), command[3]),
            b'W' => self.write(job(), &command[4..]),
            b'X' => self.withdraw(job()),
            _ => Ok(format!(" {}", self.sweep())),
        }
    }
}

#[cfg(test)]
mod tests {
    use super::*;
    use crate::scripts::commands;

    fn answers(kind: Kind, bytes: &[u8]) -> String {
        Run::new(kind).answers(bytes).trim_end().replace('\n', ", ")
    }

    fn answers_to(script: &str) -> String {
        let settings: Vec<Setting> = (0..=15).collect();
        answers(Kind::Levels, &commands(script, 0, &settings, || vec![1, 2]).concat())
    }

    #[test]
    fn faults() {
        assert_eq!(answers(Kind::Levels, b""), "");
        assert_eq!(answers(Kind::Levels, &[b'S'; 65_536]), "1 ? no 15 0");
        assert_eq!(Run::new(Kind::Levels).answers(&[b'S'; 65_535]).lines().last(), Some("65535 S ok 0"));
        assert_eq!(answers(Kind::Levels, b"BV"), "1 B ok 1, 2 ? no 16 1");
        assert_eq!(answers(Kind::Levels, b"W\0\x01"), "1 ? no 17 0");
        assert_eq!(answers(Kind::Levels, b"BW\0\x01\x01V\0\0"), "1 B ok 1, 2 ? no 17 1");
        assert_eq!(answers(Kind::Levels, b"BW\0\x01\x01V\0\0\0"), "1 B ok 1, 2 W ok");
    }

    #[test]
    fn circles() {
        assert_eq!(answers_to("B R1.0 B W2.0 R1.0 X1"), "1 B ok 1, 2 R ok 03e8, 3 B ok 2, 4 W ok, 5 R no 12, 6 X no 7");
        assert_eq!(
            answers_to("B R1.0 B R2.1 W1.1 W2.0"),
            "1 B ok 1, 2 R ok 03e8, 3 B ok 2, 4 R ok 03e8, 5 W ok, 6 W no 12"
        );
        assert!(answers_to("B R1.0 B W2.0.1 B R3.1 R3.2 B W4.2 X3 R1.2").ends_with("10 X ok, 11 R ok 0102"));
        assert!(answers_to("B R1.0 B W2.0.1 B R3.1 R3.2 B W4.2 W3 S R1.2").ends_with("10 W ok, 11 S ok 1, 12 R no 12"));
    }

    #[test]
    fn sweeps_and_orders() {
        assert!(answers_to("B R1.0 B W2.0 B W3.0 S S X1 S").ends_with("7 S ok 1, 8 S ok 0, 9 X ok, 10 S ok 1"));
        assert_eq!(answers_to("B W1.3.3 X1"), "1 B ok 1, 2 W no 10 2, 3 X ok");
        assert_eq!(answers_to("B W1.0.15.0"), "1 B ok 1, 2 W no 8 2");
        assert_eq!(answers_to("B B B B B"), "1 B ok 1, 2 B ok 2, 3 B ok 3, 4 B ok 4, 5 B no 4");
    }

    #[test]
    fn plans() {
        let write = |value: &[u8]| answers(Kind::Plans, &[b"BW\0\x01\x01V\x02", value, b"BR\0\x02\x02"].concat());
        assert!(write(&[0, 0, 5, 0x9f, 3, 0xe8]).ends_with("2 W ok, 3 B ok 2, 4 R ok 0000059f03e8"));
        for bad in [[0, 7, 0, 7, 0, 0], [0, 8, 0, 7, 0, 0], [0, 0, 5, 0xa0, 0, 0], [0, 0, 0, 1, 3, 0xe9]] {
            assert!(write(&bad).ends_with("2 W no 11 1, 3 B ok 2, 4 R ok 0168043803e8"));
        }
    }

    #[test]
    fn spaced_counts_over_the_whole_run() {
        // Job 2 read what no job wrote, so it is not stale; no active job reaches it, so it may be forgotten.
        let bytes = commands("B B R2.0 W2 S S S S", 0, &[0], Vec::new).concat();
        assert!(answers(Kind::Plans, &bytes).ends_with("5 S ok 0, 6 S ok 0, 7 S ok 1, 8 S ok 0"));
    }
}
