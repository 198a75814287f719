//! How long a task (document 01: piece) stays. Request U9: a front piece stays
//! until its ticks are done, and its followers come after the last one. When
//! its worker is withdrawn, or its line is picked up, the ticks done so far are
//! kept. Only a front piece may be begun. W counts work ticks, and of a piece
//! 'worked' means completed.

/// The rule of a task of several ticks. A test bends it.
#[derive(Clone, Copy, Debug, Default, PartialEq, Eq)]
pub enum Lasting {
    /// The request's.
    #[default]
    UntilDone,
    /// Its successors come after its first tick.
    SuccessorsFirst,
    /// It goes to the back of its deque after each tick but the last.
    ToTheBack,
    /// It has all its ticks again when its worker is withdrawn.
    AnewWithdrawn,
    /// It has all its ticks again when its deque is mugged.
    AnewMugged,
    /// It has all its ticks again when tasks behind it are stolen.
    AnewRobbed,
    /// A thief takes it along, with what is behind it.
    TakenAlong,
    /// It counts as worked with its first tick, also for the finish.
    BegunIsWorked,
    /// The counters line has the work ticks for the tasks worked.
    TicksAsWorked,
    /// Only its last tick is a work cycle.
    WorkedAsTicks,
    /// Only its last tick is usage.
    WorkedAsUsage,
}

use Lasting::*;

/// The rules that are not the request's.
pub const BENT: [Lasting; 10] = [
    SuccessorsFirst,
    ToTheBack,
    AnewWithdrawn,
    AnewMugged,
    AnewRobbed,
    TakenAlong,
    BegunIsWorked,
    TicksAsWorked,
    WorkedAsTicks,
    WorkedAsUsage,
];

/// What can befall the deque of a begun task.
#[derive(Clone, Copy, Debug, PartialEq, Eq)]
pub enum Event {
    /// Its worker is withdrawn.
    Withdrawn,
    /// A worker mugs it.
    Mugged,
    /// A thief takes its back half.
    Robbed,
}

/// A work cycle's place among its task's ticks.
#[derive(Clone, Copy, Debug, PartialEq, Eq)]
pub struct Tick {
    pub is_first: bool,
    pub is_last: bool,
}

impl Lasting {
    /// Whether the successors that became ready come after this tick.
    pub fn enables(self, tick: Tick) -> bool {
        match self {
            SuccessorsFirst => tick.is_first,
            _ => tick.is_last,
        }
    }

    /// Whether a task is done, as far as its successors look at it.
    pub fn enabled_by(self, left: u8, ticks: u8) -> bool {
        match self {
            SuccessorsFirst => left < ticks,
            _ => left == 0,
        }
    }

    /// Whether a task with ticks left stays at the front of its deque.
    pub fn stays(self) -> bool {
        self != ToTheBack
    }

    /// Whether the ticks done so far are kept.
    pub fn keeps(self, event: Event) -> bool {
        match event {
            Event::Withdrawn => self != AnewWithdrawn,
            Event::Mugged => self != AnewMugged,
            Event::Robbed => self != AnewRobbed,
        }
    }

    /// Whether a thief takes a begun task along.
    pub fn is_taken_along(self) -> bool {
        self == TakenAlong
    }

    /// Whether a task is worked with this tick.
    pub fn completes(self, tick: Tick) -> bool {
        match self {
            BegunIsWorked => tick.is_first,
            _ => tick.is_last,
        }
    }

    /// What the counters line has for the tasks worked, with so many completed
    /// and so many work ticks.
    pub fn worked(self, completed: usize, ticks: u64) -> u64 {
        match self {
            TicksAsWorked => ticks,
            _ => completed as u64,
        }
    }

    /// How many work cycles a work tick is.
    pub fn work(self, tick: Tick) -> u64 {
        u64::from(tick.is_last || self != WorkedAsTicks)
    }

    /// How much usage a work tick is.
    pub fn usage(self, tick: Tick) -> u64 {
        u64::from(tick.is_last || self != WorkedAsUsage)
    }
}
