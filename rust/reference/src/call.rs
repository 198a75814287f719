//! The calls that move a job. A log has grants and ticks alone; the list of
//! document 01's third demand may hold those of request U5 too.

use crate::job::Job;
use crate::log::{Entry, Report};
use crate::refusal::Refusal;

/// One call.
#[derive(Clone, Copy, Debug, PartialEq, Eq)]
pub enum Call<'a> {
    Grant(usize),
    Tick(&'a [u8]),
    Offer(usize),
    Open(usize),
    Withdraw,
}

impl<'a> From<Entry<'a>> for Call<'a> {
    fn from(entry: Entry<'a>) -> Call<'a> {
        match entry {
            Entry::Grant(count) => Call::Grant(count),
            Entry::Tick(choices) => Call::Tick(choices),
        }
    }
}

/// What an accepted call did, where it did more than to move the note; or the
/// refusal.
pub type Answer = Result<Option<Report>, Refusal>;

impl Call<'_> {
    /// Makes the call. An opening has a grant's report; an offer and a
    /// withdrawal have none.
    pub fn apply(self, job: &mut Job) -> Answer {
        match self {
            Call::Grant(count) => job.grant(count).map(|did| Some(Report::Grant(did))),
            Call::Tick(choices) => job.tick(choices).map(|did| Some(Report::Tick(did))),
            Call::Offer(count) => job.offer(count).map(|()| None),
            Call::Open(count) => job.open(count).map(|did| Some(Report::Grant(did))),
            Call::Withdraw => job.withdraw().map(|()| None),
        }
    }

    /// The same; a tick counts the deques in use after each worker's cycle.
    pub fn apply_counted(self, job: &mut Job) -> Answer {
        match self {
            Call::Tick(choices) => {
                let report = job.tick_counted(choices)?;
                Ok(Some(Report::Tick(report)))
            }
            _ => self.apply(job),
        }
    }
}
