//! Which withdrawn deque (document 01: orphan) is taken first. Request U8:
//! among lines orphaned by the same grant, the highest worker number is taken
//! first, and lines of an earlier grant come before them.

use std::cmp::Reverse;
use std::collections::VecDeque;

use crate::job::Deque;

/// A muggable deque, with what decides when it is taken.
#[derive(Clone, Debug, PartialEq, Eq)]
pub struct Withdrawn {
    /// The grant, by the number of quanta begun before it.
    pub grant: u32,
    /// The worker that had it.
    pub worker: usize,
    pub deque: Deque,
}

/// Which muggable deque is taken first. A test bends it.
#[derive(Clone, Copy, Debug, Default, PartialEq, Eq)]
pub enum Turn {
    /// The request's: of the earliest grant the highest worker's.
    #[default]
    HighestOfEarliest,
    /// Of the earliest grant the lowest worker's, as in document 01.
    LowestOfEarliest,
    /// Of the latest grant the highest worker's.
    HighestOfLatest,
    /// The highest worker's, whichever the grant.
    Highest,
    /// Each grant adds its deques by rising worker and then turns all round.
    AllTurned,
}

/// The rules that are not the request's.
pub const BENT: [Turn; 4] = [
    Turn::LowestOfEarliest,
    Turn::HighestOfLatest,
    Turn::Highest,
    Turn::AllTurned,
];

impl Turn {
    /// Puts the deques that wait into the order in which they are taken, after
    /// a grant has added its own by rising worker.
    pub fn arrange(self, waiting: &mut VecDeque<Withdrawn>) {
        let waiting = waiting.make_contiguous();
        match self {
            Turn::HighestOfEarliest => waiting.sort_by_key(|w| (w.grant, Reverse(w.worker))),
            Turn::LowestOfEarliest => waiting.sort_by_key(|w| (w.grant, w.worker)),
            Turn::HighestOfLatest => waiting.sort_by_key(|w| Reverse((w.grant, w.worker))),
            Turn::Highest => waiting.sort_by_key(|w| (Reverse(w.worker), w.grant)),
            Turn::AllTurned => waiting.reverse(),
        }
    }
}
