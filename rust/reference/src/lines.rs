//! How many deques (document 01: lines) are in use. Request U12: after every
//! call, and after every worker's cycle inside a tick, non-empty lines and
//! orphans together number at most the largest count granted so far. So 64
//! always suffices. Half-line steals and pieces that last are included.

use std::fmt;

use crate::job::{Deque, Job, TickReport};
use crate::log::Report;
use crate::refusal::Refusal;

/// The deques in use: those of workers that are not empty, and so many muggable
/// ones (document 01: orphans).
pub fn in_use(deques: &[Deque], muggable: usize) -> usize {
    deques.iter().filter(|deque| !deque.is_empty()).count() + muggable
}

impl Job {
    /// A tick that counts the deques in use after each worker's cycle.
    pub fn tick_counted(&mut self, choices: &[u8]) -> Result<TickReport, Refusal> {
        let mut in_use = Vec::with_capacity(choices.len());
        let report = self.tick_with(choices, |job| in_use.push(job.in_use()))?;
        in_use.resize(choices.len(), self.in_use());
        Ok(TickReport { in_use, ..report })
    }
}

/// What brings a deque into use. A test bends it.
#[derive(Clone, Copy, Debug, Default, PartialEq, Eq)]
pub enum Source {
    /// The first grant above 0, and a successful steal where none is muggable.
    /// A mug only moves one.
    #[default]
    FirstGrantAndSteals,
    /// Every grant above 0 hands out task 0.
    EveryGrant,
    /// A mug leaves the deque among the muggable ones.
    MugCopies,
    /// A steal that succeeds comes before a mug.
    StealsFirst,
}

/// The rules that are not document 01's.
pub const BENT: [Source; 3] = [Source::EveryGrant, Source::MugCopies, Source::StealsFirst];

/// What is said of a count of workers.
#[derive(Clone, Copy, Debug, PartialEq, Eq)]
pub enum Said {
    /// A grant or an opening of it is accepted.
    Granted,
    /// An offer of it is accepted.
    Offered,
    /// A call is refused.
    Refused,
}

/// What a job remembers of the counts granted to it. No call looks at it, so
/// that jobs are compared without it: any two are equal.
#[derive(Clone, Copy, Debug, Default)]
pub struct Granted {
    /// The largest one before the last.
    earlier: usize,
    /// The last one.
    present: usize,
}

impl PartialEq for Granted {
    fn eq(&self, _: &Granted) -> bool {
        true
    }
}

impl Eq for Granted {}

/// Which count is the largest granted so far. A test bends it.
#[derive(Clone, Copy, Debug, Default, PartialEq, Eq)]
pub enum Largest {
    /// The request's: of all accepted grants and openings, the last one too.
    #[default]
    SoFar,
    /// The last one is left out.
    PresentLeftOut,
    /// The last one alone.
    PresentAlone,
    /// Accepted offers count, too.
    OffersToo,
    /// Refused calls count, too.
    RefusedToo,
}

use Largest::*;

/// The ideas of it that are too small, and the ones that are too large.
pub const TOO_SMALL: [Largest; 2] = [PresentLeftOut, PresentAlone];
pub const TOO_LARGE: [Largest; 2] = [OffersToo, RefusedToo];

impl Largest {
    /// What is remembered after this was said of a count.
    pub fn heard(self, granted: Granted, said: Said, count: usize) -> Granted {
        let Granted { earlier, present } = granted;
        match (self, said) {
            (_, Said::Granted) => Granted {
                earlier: earlier.max(present),
                present: count,
            },
            (OffersToo, Said::Offered) | (RefusedToo, Said::Refused) => Granted {
                earlier: earlier.max(count),
                present,
            },
            _ => granted,
        }
    }

    /// The largest of what is remembered.
    pub fn of(self, granted: Granted) -> usize {
        match self {
            PresentLeftOut => granted.earlier,
            PresentAlone => granted.present,
            _ => granted.earlier.max(granted.present),
        }
    }
}

/// More deques in use than the largest count granted so far.
#[derive(Clone, Copy, Debug, PartialEq, Eq)]
pub struct Excess {
    pub in_use: usize,
    pub largest: usize,
    /// The worker after whose cycle it is so; nothing where it is the call.
    pub worker: Option<usize>,
}

/// The check of a job after a call that did this, if it did anything: after
/// every worker's cycle, where that was counted, and after the call. A tick
/// grants nothing, so that the largest count is the same in all of it.
pub fn excess(job: &Job, did: Option<&Report>) -> Option<Excess> {
    let largest = job.largest_granted();
    let cycles = match did {
        Some(Report::Tick(report)) => &report.in_use[..],
        _ => &[],
    };
    let cycles = (0..).map(Some).zip(cycles.iter().copied());
    let mut all = cycles.chain([(None, job.in_use())]);
    let (worker, in_use) = all.find(|&(_, in_use)| in_use > largest)?;
    Some(Excess {
        in_use,
        largest,
        worker,
    })
}

impl fmt::Display for Excess {
    fn fmt(&self, out: &mut fmt::Formatter<'_>) -> fmt::Result {
        write!(out, "{} deques in use ", self.in_use)?;
        match self.worker {
            Some(worker) => write!(out, "after the cycle of worker {worker}")?,
            None => write!(out, "after the call")?,
        }
        let largest = self.largest;
        write!(out, ", and the largest count granted so far is {largest}")
    }
}
