//! The held jobs and the arrows between them, as maps and sets, with the rules of forgetting by their definitions.

use crate::history::{Job, Setting};
use std::collections::{BTreeMap, BTreeSet};

pub const PLACES: usize = 64;

#[derive(Clone, Default)]
pub struct Held {
    pub finished: bool,
    pub reads: BTreeSet<Setting>,
    pub writes: BTreeSet<Setting>,
}

impl Held {
    pub fn touched(&self) -> BTreeSet<Setting> {
        self.reads.union(&self.writes).copied().collect()
    }
}

#[derive(Default)]
pub struct Graph {
    pub jobs: BTreeMap<Job, Held>,
    pub arrows: BTreeSet<(Job, Job)>,
}

impl Graph {
    pub fn active(&self) -> Vec<Job> {
        self.jobs.iter().filter(|(_, held)| !held.finished).map(|(&job, _)| job).collect()
    }

    pub fn finished(&self) -> Vec<Job> {
        self.jobs.iter().filter(|(_, held)| held.finished).map(|(&job, _)| job).collect()
    }

    pub fn is_active(&self, job: Job) -> bool {
        self.jobs.get(&job).is_some_and(|held| !held.finished)
    }

    /// Removes a job with all its arrows.
    pub fn remove(&mut self, job: Job) {
        self.jobs.remove(&job);
        self.arrows.retain(|&(from, to)| from != job && to != job);
    }

    /// Removes a finished job, once every job before it has an arrow to every job behind it.
    pub fn forget(&mut self, job: Job) {
        let before: Vec<Job> = self.arrows.iter().filter(|arrow| arrow.1 == job).map(|arrow| arrow.0).collect();
        let behind: Vec<Job> = self.heads(job).collect();
        for &from in &before {
            self.arrows.extend(behind.iter().map(|&to| (from, to)));
        }
        self.remove(job);
    }

    /// The jobs that arrows from a job lead to.
    pub fn heads(&self, job: Job) -> impl Iterator<Item = Job> + '_ {
        self.arrows.range((job, 0)..=(job, Job::MAX)).map(|arrow| arrow.1)
    }

    /// The jobs that a path leads to; every job strictly between its ends passes the test.
    fn reached(&self, start: Job, inner: impl Fn(Job) -> bool) -> BTreeSet<Job> {
        let mut reached = BTreeSet::new();
        let mut stack = vec![start];
        while let Some(job) = stack.pop() {
            for head in self.heads(job) {
                if reached.insert(head) && inner(head) {
                    stack.push(head);
                }
            }
        }
        reached
    }

    /// For each active job, the jobs that a path leads to whose inner jobs are all finished.
    pub fn tightly_reached(&self) -> Vec<BTreeSet<Job>> {
        self.active().into_iter().map(|active| self.reached(active, |job| self.jobs[&job].finished)).collect()
    }

    /// Whether this job is finished and, for every active job with a tight path to it and every setting that it
    /// touched, another finished job with a tight path from the active one touches the setting at least as strongly.
    pub fn may_forget(&self, job: Job, tightly_reached: &[BTreeSet<Job>]) -> bool {
        let old = &self.jobs[&job];
        let stands_in = |other: &Held, setting: &Setting| {
            other.finished
                && (other.writes.contains(setting) || (!old.writes.contains(setting) && other.reads.contains(setting)))
        };
        old.finished
            && tightly_reached.iter().filter(|reached| reached.contains(&job)).all(|reached| {
                old.touched()
                    .iter()
                    .all(|setting| reached.iter().any(|other| *other != job && stands_in(&self.jobs[other], setting)))
            })
    }

    /// The jobs that a path from an active job leads to.
    pub fn reached_by_active(&self) -> BTreeSet<Job> {
        self.active().into_iter().flat_map(|active| self.reached(active, |_| true)).collect()
    }

    /// Whether every setting that the job touched was written by a finished job at the head of one of its arrows.
    pub fn is_stale(&self, job: Job) -> bool {
        self.jobs[&job].touched().iter().all(|setting| {
            self.heads(job).any(|head| self.jobs[&head].finished && self.jobs[&head].writes.contains(setting))
        })
    }
}
