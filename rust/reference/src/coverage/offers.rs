//! What calls reach of request U5: offers, openings and withdrawals.

use std::fmt;

use super::add;
use crate::call::{Answer, Call};
use crate::job::{GrantReport, Job, Status, TickReport, MOST_QUANTA};
use crate::log::Report;
use crate::quantum::QuantumEnd;
use crate::refusal::Refusal;

/// The branches of offer, opening and withdrawal, and of the other calls where
/// an offer is noted or was.
#[derive(Clone, Copy, Debug, PartialEq, Eq)]
pub enum OfferBranch {
    OfferDesire,
    OfferLess,
    OfferZero,
    OfferFresh,
    OfferRunning,
    OfferHeld,
    OfferLastQuantum,
    OfferAgain,
    OfferFinished,
    OfferInQuantum,
    OfferSpent,
    OfferNoted,
    OfferNotedAbove,
    OfferAbove,
    GrantNoted,
    GrantNotedAbove,
    GrantWithdrawn,
    TickNoted,
    OpenAll,
    OpenFewer,
    OpenZero,
    OpenZeroOfZero,
    OpenFirst,
    OpenGrow,
    OpenShrink,
    OpenRetried,
    OpenAboveOffer,
    OpenAboveDesire,
    OpenWithout,
    OpenWithoutInQuantum,
    OpenWithoutFinished,
    OpenWithoutSpent,
    WithdrawSome,
    WithdrawZero,
    WithdrawWithout,
    WithdrawWithoutInQuantum,
    WithdrawWithoutFinished,
    WithdrawWithoutSpent,
    AllGrown,
    AllAtCap,
    AllInefficient,
    AllDeprived,
    FewerInefficient,
    FewerDeprived,
    DesireDeprived,
    FinishOpened,
}

use OfferBranch::*;

/// Every branch with what it is.
pub const OFFER_BRANCHES: [(OfferBranch, &str); 46] = [
    (OfferDesire, "offer: of the desire"),
    (OfferLess, "offer: of less than the desire"),
    (OfferZero, "offer: of 0"),
    (OfferFresh, "offer: to a fresh job"),
    (OfferRunning, "offer: to a running job"),
    (OfferHeld, "offer: to a held job"),
    (OfferLastQuantum, "offer: before the last quantum"),
    (OfferAgain, "offer: after a withdrawal"),
    (OfferFinished, "offer: refused with 11"),
    (OfferInQuantum, "offer: refused with 12"),
    (OfferSpent, "offer: refused with 13"),
    (OfferNoted, "offer: refused with 25"),
    (OfferNotedAbove, "offer: refused with 25, above the desire"),
    (OfferAbove, "offer: refused with 14"),
    (GrantNoted, "grant: refused with 25"),
    (GrantNotedAbove, "grant: refused with 25, above the desire"),
    (GrantWithdrawn, "grant: after a withdrawal"),
    (TickNoted, "tick: refused with 15, an offer is noted"),
    (OpenAll, "open: all that was offered"),
    (OpenFewer, "open: fewer than were offered"),
    (OpenZero, "open: 0 of an offer above 0"),
    (OpenZeroOfZero, "open: 0 of 0"),
    (OpenFirst, "open: the first above 0"),
    (OpenGrow, "open: workers come"),
    (OpenShrink, "open: a deque becomes muggable"),
    (OpenRetried, "open: after one above the offer"),
    (OpenAboveOffer, "open: refused with 14, up to the desire"),
    (OpenAboveDesire, "open: refused with 14, above the desire"),
    (OpenWithout, "open: refused with 24"),
    (OpenWithoutInQuantum, "open: refused with 24, in a quantum"),
    (OpenWithoutFinished, "open: refused with 24, finished"),
    (OpenWithoutSpent, "open: refused with 24, quanta spent"),
    (WithdrawSome, "withdraw: an offer above 0"),
    (WithdrawZero, "withdraw: an offer of 0"),
    (WithdrawWithout, "withdraw: refused with 24"),
    (
        WithdrawWithoutInQuantum,
        "withdraw: refused with 24, in a quantum",
    ),
    (
        WithdrawWithoutFinished,
        "withdraw: refused with 24, finished",
    ),
    (
        WithdrawWithoutSpent,
        "withdraw: refused with 24, quanta spent",
    ),
    (AllGrown, "end: all opened, desire grows"),
    (AllAtCap, "end: all opened, desire at its top"),
    (AllInefficient, "end: all opened, inefficient"),
    (AllDeprived, "end: all opened, efficient, deprived"),
    (FewerInefficient, "end: fewer opened, inefficient"),
    (FewerDeprived, "end: fewer opened, efficient, deprived"),
    (
        DesireDeprived,
        "end: the desire offered and some opened, efficient, deprived",
    ),
    (FinishOpened, "tick: finish in an opened quantum"),
];

/// Refusals with 24 by what else is so: nothing, a quantum is open, the job is
/// finished, every quantum has begun.
const OPEN_WITHOUT: [OfferBranch; 4] = [
    OpenWithout,
    OpenWithoutInQuantum,
    OpenWithoutFinished,
    OpenWithoutSpent,
];
const WITHDRAW_WITHOUT: [OfferBranch; 4] = [
    WithdrawWithout,
    WithdrawWithoutInQuantum,
    WithdrawWithoutFinished,
    WithdrawWithoutSpent,
];

/// What a call finds.
#[derive(Clone, Copy, Debug)]
pub struct Seen {
    note: Option<usize>,
    desire: usize,
    status: Status,
    quanta_begun: u32,
    in_quantum: bool,
}

impl Seen {
    /// What the next call of a job finds.
    pub fn of(job: &Job) -> Seen {
        Seen {
            note: job.noted_offer(),
            desire: job.desire(),
            status: job.status(),
            quanta_begun: job.quanta_begun(),
            in_quantum: job.open_quantum().is_some(),
        }
    }

    /// Which of four branches a refusal with 24 is.
    fn without(self, branches: [OfferBranch; 4]) -> OfferBranch {
        let [other, in_quantum, finished, spent] = branches;
        if self.status == Status::Finished {
            finished
        } else if self.in_quantum {
            in_quantum
        } else if self.quanta_begun == MOST_QUANTA {
            spent
        } else {
            other
        }
    }
}

/// What is remembered of one job's calls.
#[derive(Clone, Copy, Debug, Default, PartialEq, Eq)]
pub struct Watch {
    /// Of an opened quantum the counts offered and opened.
    opened: Option<(usize, usize)>,
    /// An offer was withdrawn, and no other call accepted since.
    withdrawn: bool,
    /// An opening above the noted offer was refused.
    refused: bool,
}

/// How often each branch was reached.
#[derive(Clone, Debug, PartialEq, Eq)]
pub struct Offers([u64; OFFER_BRANCHES.len()]);

impl Default for Offers {
    fn default() -> Offers {
        Offers([0; OFFER_BRANCHES.len()])
    }
}

impl Watch {
    /// Remembers a call by what it found and its answer.
    fn follow(&mut self, seen: Seen, call: Call, answer: &Answer) {
        let opened = self.opened;
        let fresh = Watch::default();
        *self = match (call, answer) {
            (Call::Grant(_), Ok(_)) => fresh,
            (Call::Open(count), Ok(_)) => Watch {
                opened: seen.note.map(|offered| (offered, count)),
                ..fresh
            },
            (Call::Open(_), Err(Refusal::GrantAboveDesire)) => Watch {
                refused: true,
                ..*self
            },
            (Call::Offer(_), Ok(_)) => Watch { opened, ..fresh },
            (Call::Withdraw, Ok(_)) => Watch {
                opened,
                withdrawn: true,
                ..fresh
            },
            _ => *self,
        };
    }
}

impl Offers {
    /// How often a branch was reached.
    pub fn branch(&self, branch: OfferBranch) -> u64 {
        self.0.get(branch as usize).copied().unwrap_or(0)
    }

    /// The branches that were never reached.
    pub fn missing(&self) -> Vec<&'static str> {
        let never = |&&(branch, _): &&(OfferBranch, &str)| self.branch(branch) == 0;
        let missing = OFFER_BRANCHES.iter().filter(never);
        missing.map(|&(_, name)| name).collect()
    }

    fn reach(&mut self, branch: OfferBranch, reached: bool) {
        if reached {
            add(&mut self.0, branch as usize);
        }
    }

    /// Counts a call of a job by what it found, its answer and the job after it.
    pub fn cover(&mut self, watch: &mut Watch, seen: Seen, call: Call, answer: &Answer, job: &Job) {
        match (call, answer) {
            (Call::Offer(count), Ok(_)) => self.cover_offer(*watch, seen, count),
            (Call::Open(count), Ok(Some(Report::Grant(report)))) => {
                self.cover_open(*watch, seen, count, report);
            }
            (Call::Grant(_), Ok(_)) => self.reach(GrantWithdrawn, watch.withdrawn),
            (Call::Withdraw, Ok(_)) => {
                self.reach(WithdrawSome, seen.note > Some(0));
                self.reach(WithdrawZero, seen.note == Some(0));
            }
            (Call::Tick(_), Ok(Some(Report::Tick(report)))) => {
                self.cover_tick(*watch, seen, report, job);
            }
            (_, Err(refusal)) => self.cover_refused(seen, call, *refusal),
            _ => (),
        }
        watch.follow(seen, call, answer);
    }

    fn cover_offer(&mut self, watch: Watch, seen: Seen, count: usize) {
        self.reach(OfferDesire, count == seen.desire);
        self.reach(OfferLess, 0 < count && count < seen.desire);
        self.reach(OfferZero, count == 0);
        self.reach(OfferFresh, seen.status == Status::Fresh);
        self.reach(OfferRunning, seen.status == Status::Running);
        self.reach(OfferHeld, seen.status == Status::Held);
        self.reach(OfferLastQuantum, seen.quanta_begun + 1 == MOST_QUANTA);
        self.reach(OfferAgain, watch.withdrawn);
    }

    fn cover_open(&mut self, watch: Watch, seen: Seen, count: usize, report: &GrantReport) {
        let offered = seen.note.unwrap_or(0);
        self.reach(OpenAll, count == offered && count > 0);
        self.reach(OpenFewer, count < offered && count > 0);
        self.reach(OpenZero, count == 0 && offered > 0);
        self.reach(OpenZeroOfZero, count == 0 && offered == 0);
        self.reach(OpenFirst, report.first_above_zero);
        self.reach(OpenGrow, report.added > 0);
        self.reach(OpenShrink, report.made_muggable > 0);
        self.reach(OpenRetried, watch.refused);
    }

    fn cover_tick(&mut self, watch: Watch, seen: Seen, report: &TickReport, job: &Job) {
        if let Some((offered, opened)) = watch.opened {
            self.reach(FinishOpened, job.is_finished());
            if let Some(end) = report.quantum_end {
                let some = opened > 0 && offered == seen.desire;
                self.cover_end(end, opened < offered, some);
            }
        }
    }

    /// Counts the end of an opened quantum: whether fewer were opened than
    /// offered, and whether some were where the desire was offered.
    fn cover_end(&mut self, end: QuantumEnd, fewer: bool, some: bool) {
        match end {
            QuantumEnd::Inefficient { .. } if fewer => self.reach(FewerInefficient, true),
            QuantumEnd::Inefficient { .. } => self.reach(AllInefficient, true),
            QuantumEnd::Grown => self.reach(AllGrown, true),
            QuantumEnd::AtCap => self.reach(AllAtCap, true),
            QuantumEnd::Deprived => {
                self.reach(AllDeprived, !fewer);
                self.reach(FewerDeprived, fewer);
                self.reach(DesireDeprived, fewer && some);
            }
        }
    }

    fn cover_refused(&mut self, seen: Seen, call: Call, refusal: Refusal) {
        match (call, refusal) {
            (Call::Offer(_), Refusal::JobFinished) => self.reach(OfferFinished, true),
            (Call::Offer(_), Refusal::QuantumOpen) => self.reach(OfferInQuantum, true),
            (Call::Offer(_), Refusal::QuantaExhausted) => self.reach(OfferSpent, true),
            (Call::Offer(_), Refusal::GrantAboveDesire) => self.reach(OfferAbove, true),
            (Call::Offer(count), Refusal::OfferNoted) => {
                self.reach(OfferNoted, true);
                self.reach(OfferNotedAbove, count > seen.desire);
            }
            (Call::Grant(count), Refusal::OfferNoted) => {
                self.reach(GrantNoted, true);
                self.reach(GrantNotedAbove, count > seen.desire);
            }
            (Call::Tick(_), _) => self.reach(TickNoted, seen.note.is_some()),
            (Call::Open(count), Refusal::GrantAboveDesire) => {
                self.reach(OpenAboveOffer, count <= seen.desire);
                self.reach(OpenAboveDesire, count > seen.desire);
            }
            (Call::Open(_), _) => self.reach(seen.without(OPEN_WITHOUT), true),
            (Call::Withdraw, _) => self.reach(seen.without(WITHDRAW_WITHOUT), true),
            _ => (),
        }
    }
}

impl fmt::Display for Offers {
    fn fmt(&self, out: &mut fmt::Formatter<'_>) -> fmt::Result {
        for (branch, name) in OFFER_BRANCHES {
            writeln!(out, "{:>10}  {name}", self.branch(branch))?;
        }
        Ok(())
    }
}
