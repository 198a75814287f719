//! Choices from a seed. Request U13: they are drawn from a 32-bit state s. The
//! next s is 1,664,525 x s + 1,013,904,223, wrapped modulo 2^32, and the choice
//! is the whole part of that next s / 65,536, modulo the granted count. One draw
//! is made for every granted worker in order, none when 0 are granted, and none
//! when the tick is refused by 11 or 15. A seeded tick equals a plain tick given
//! the same choices, so a seeded day of plain grants and seeded ticks, the
//! refused ones left out, can be written as an ordinary log that ends in the
//! same record.

use crate::job::{Deque, Job, TickReport};
use crate::log::Entry;
use crate::quantum::MOST_WORKERS;
use crate::refusal::Refusal;

/// The state after a draw.
pub fn next(state: u32) -> u32 {
    let whole = 1_664_525 * u64::from(state) + 1_013_904_223;
    (whole % (1 << 32)) as u32
}

/// The state after so many draws.
pub fn after(state: u32, draws: usize) -> u32 {
    (0..draws).fold(state, |state, _| next(state))
}

/// The rule of the draws. A test bends it.
#[derive(Clone, Copy, Debug, Default, PartialEq, Eq)]
pub enum Drawing {
    /// The request's: one for every granted worker, whether it steals or not,
    /// in the tick that finishes the job too.
    #[default]
    OneEach,
    /// The choice is taken from the state before the draw.
    OldState,
    /// The choice is taken from the low half of the state.
    LowHalf,
    /// The choice is modulo 64, however many workers are granted.
    ModuloMost,
    /// The last worker has the first draw.
    LastFirst,
    /// A worker draws only where it steals.
    ThievesAlone,
    /// The workers after the finisher draw nothing.
    NoneAfterFinisher,
    /// A tick of 0 workers makes one draw.
    OneForNone,
    /// A refused tick makes its draws all the same.
    RefusedToo,
    /// The state stays, so that each tick draws the same.
    StateStays,
}

use Drawing::*;

/// The rules that are not the request's.
pub const BENT: [Drawing; 9] = [
    OldState,
    LowHalf,
    ModuloMost,
    LastFirst,
    ThievesAlone,
    NoneAfterFinisher,
    OneForNone,
    RefusedToo,
    StateStays,
];

/// What a tick draws.
#[derive(Clone, Debug, PartialEq, Eq)]
pub struct Drawn {
    /// One for each granted worker.
    pub choices: Vec<u8>,
    /// The state after the last draw.
    pub state: u32,
}

impl Drawing {
    /// What a tick of the job draws from this state.
    pub fn drawn(self, job: &Job, mut state: u32) -> Drawn {
        let granted = job.allotment();
        let mut choices = Vec::with_capacity(granted);
        for worker in 0..granted {
            choices.push(self.choice(state, granted));
            if self != ThievesAlone || steals(job, worker) {
                state = next(state);
            }
        }
        if self == LastFirst {
            choices.reverse();
        }
        Drawn { choices, state }
    }

    /// The choice of the draw that finds this state.
    fn choice(self, found: u32, granted: usize) -> u8 {
        let state = if self == OldState { found } else { next(found) };
        let part = match self {
            LowHalf => state % 65_536,
            _ => state / 65_536,
        };
        let count = match self {
            ModuloMost => MOST_WORKERS,
            _ => granted,
        };
        (part as usize % count) as u8
    }

    /// The state that a tick leaves which found this one, drew that and has this
    /// answer.
    fn left(self, found: u32, drawn: Drawn, answer: &Result<TickReport, Refusal>) -> u32 {
        match (self, answer) {
            (StateStays, _) => found,
            (RefusedToo, _) => drawn.state,
            (_, Err(_)) => found,
            (OneForNone, Ok(_)) if drawn.choices.is_empty() => next(found),
            (NoneAfterFinisher, Ok(did)) => after(found, did.cycles.len()),
            (_, Ok(_)) => drawn.state,
        }
    }
}

/// Whether a worker steals in the next tick. Up to its turn nobody fills or
/// empties its deque, and of those that are empty the first workers' mug.
fn steals(job: &Job, worker: usize) -> bool {
    let (before, from) = job.deques().split_at(worker);
    let idle = before.iter().filter(|deque| deque.is_empty());
    from.first().map_or(false, Deque::is_empty) && idle.count() >= job.muggable_deques().len()
}

/// A seeded tick.
impl Job {
    /// What the next tick draws from a seed.
    pub fn drawn(&self, seed: u32) -> Drawn {
        self.rules().drawing.drawn(self, seed)
    }

    /// Does one tick with choices that are drawn from the seed, which moves on;
    /// or refuses with 11 or 15 and changes nothing, the seed neither.
    pub fn tick_seeded(&mut self, seed: &mut u32) -> Result<TickReport, Refusal> {
        self.tick_drawn(seed, Job::tick)
    }

    /// The same, and counts the deques in use after each worker's cycle.
    pub fn tick_seeded_counted(&mut self, seed: &mut u32) -> Result<TickReport, Refusal> {
        self.tick_drawn(seed, Job::tick_counted)
    }

    fn tick_drawn<F>(&mut self, seed: &mut u32, tick: F) -> Result<TickReport, Refusal>
    where
        F: Fn(&mut Job, &[u8]) -> Result<TickReport, Refusal>,
    {
        let drawn = self.drawn(*seed);
        let answer = tick(self, &drawn.choices);
        *seed = self.rules().drawing.left(*seed, drawn, &answer);
        answer
    }
}

/// A call of a seeded day.
#[derive(Clone, Copy, Debug, PartialEq, Eq)]
pub enum Step {
    Grant(usize),
    /// A seeded tick.
    Tick,
}

impl Step {
    /// Makes the call. Where it is accepted, its entry is added to the log.
    pub fn run(self, job: &mut Job, seed: &mut u32, log: &mut Vec<u8>) -> Result<(), Refusal> {
        let drawn = job.drawn(*seed);
        let entry = match self {
            Step::Grant(count) => job.grant(count).map(|_| Entry::Grant(count)),
            Step::Tick => job.tick_seeded(seed).map(|_| Entry::Tick(&drawn.choices)),
        };
        log.extend(entry?.bytes()?);
        Ok(())
    }
}

/// Makes the calls of a seeded day. Returns its log, in which the refused ones
/// are left out.
pub fn run_day(job: &mut Job, seed: &mut u32, day: &[Step]) -> Vec<u8> {
    let mut log = Vec::new();
    for step in day {
        let _ = step.run(job, seed, &mut log);
    }
    log
}
