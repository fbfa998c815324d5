//! Every accepted step of every job that was neither cut off nor withdrawn, forgotten jobs included, and whether one
//! step more would close a circle of conflicts.

use std::collections::{BTreeMap, BTreeSet};

pub type Job = u32;
pub type Setting = u8;

/// How a setting was touched: by a write, or by a read.
type Writes = bool;

#[derive(Default)]
pub struct History {
    time: usize,
    /// The reads, and apart from them the writes, of each setting: when, and by which job, in the order of their times.
    by_setting: BTreeMap<(Setting, Writes), Vec<(usize, Job)>>,
    /// What each job has touched, and when.
    by_job: BTreeMap<Job, Vec<(usize, Setting, Writes)>>,
}

impl History {
    /// Adds the touches of one step.
    pub fn add(&mut self, job: Job, settings: &[Setting], writes: Writes) {
        self.time += 1;
        for &setting in settings {
            self.by_setting.entry((setting, writes)).or_default().push((self.time, job));
            self.by_job.entry(job).or_default().push((self.time, setting, writes));
        }
    }

    /// Strikes out all steps of a job.
    pub fn strike(&mut self, job: Job) {
        for (_, setting, writes) in self.by_job.remove(&job).unwrap_or_default() {
            if let Some(touches) = self.by_setting.get_mut(&(setting, writes)) {
                touches.retain(|touch| touch.1 != job);
            }
        }
    }

    /// Whether a step of this job, added last, closes a circle: whether conflicts already lead from the job to another
    /// one that has a touch which the step conflicts with.
    pub fn closes_circle(&self, job: Job, settings: &[Setting], writes: Writes) -> bool {
        self.led_to(job).iter().filter(|&&other| other != job).any(|other| {
            self.by_job[other].iter().any(|(_, setting, wrote)| settings.contains(setting) && (writes || *wrote))
        })
    }

    /// The jobs that conflicts lead to from a job, in one step or several: a touch conflicts with every later one of
    /// the same setting if either is a write. (A job may be named for two touches of its own; it is there anyhow, or it
    /// is the job that the search started from.)
    fn led_to(&self, start: Job) -> BTreeSet<Job> {
        let mut reached = BTreeSet::new();
        let mut stack = vec![start];
        // Of each list of touches, those from this index on have been looked at.
        let mut seen: BTreeMap<(Setting, Writes), usize> = BTreeMap::new();
        while let Some(job) = stack.pop() {
            for &(time, setting, wrote) in self.by_job.get(&job).into_iter().flatten() {
                for list in if wrote { vec![(setting, true), (setting, false)] } else { vec![(setting, true)] } {
                    let Some(touches) = self.by_setting.get(&list) else { continue };
                    let from = touches.partition_point(|touch| touch.0 <= time);
                    let to = seen.get(&list).copied().unwrap_or(touches.len());
                    if from < to {
                        seen.insert(list, from);
                        stack
                            .extend(touches[from..to].iter().map(|touch| touch.1).filter(|&next| reached.insert(next)));
                    }
                }
            }
        }
        reached
    }
}
