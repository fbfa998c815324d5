//! The policies of the two programs.

use crate::book::Graph;
use crate::history::Job;

pub enum Policy {
    Clear,
    Stale,
    Thorough,
    Pile(Box<Policy>, Box<Policy>),
    Spaced { every: u32, kept: u32, under: Box<Policy> },
}

impl Policy {
    /// The policy of the levels program.
    pub fn levels() -> Policy {
        Policy::Pile(Box::new(Policy::Clear), Box::new(Policy::Thorough))
    }

    /// The policy of the plans program.
    pub fn plans() -> Policy {
        let spaced = Policy::Spaced { every: 3, kept: 0, under: Box::new(Policy::Thorough) };
        Policy::Pile(Box::new(Policy::Stale), Box::new(spaced))
    }

    /// The job to forget next.
    pub fn consult(&mut self, graph: &Graph) -> Option<Job> {
        match self {
            Policy::Clear => {
                let reached = graph.reached_by_active();
                graph.finished().into_iter().find(|job| !reached.contains(job))
            }
            Policy::Stale => graph.finished().into_iter().find(|&job| graph.is_stale(job)),
            Policy::Thorough => {
                let reached = graph.tightly_reached();
                graph.finished().into_iter().find(|&job| graph.may_forget(job, &reached))
            }
            Policy::Pile(first, second) => first.consult(graph).or_else(|| second.consult(graph)),
            Policy::Spaced { every, kept, under } => {
                *kept += 1;
                if *kept < *every {
                    return None;
                }
                *kept = 0;
                under.consult(graph)
            }
        }
    }
}
