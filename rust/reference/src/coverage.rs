//! Counts which refusals and which branches the generated cases reach.

mod offers;
mod powers;

use std::fmt;

pub use offers::{OfferBranch, Offers, Seen, Watch, OFFER_BRANCHES};
pub use powers::{Powers, Ratios};

use crate::counters::counters_line;
use crate::form::{self, FORMS};
use crate::generator::offers::calls;
use crate::generator::{Case, Random};
use crate::growth::Growth;
use crate::job::{Cycle, GrantReport, Job, TickReport};
use crate::label::wording;
use crate::lasting::Tick;
use crate::log::{run_log_with, Entries, Report};
use crate::plan::{read_plan, read_plan_with, Plan};
use crate::program::split_input;
use crate::quantum::{QuantumEnd, MOST_WORKERS};
use crate::refusal::Refusal;

/// The branches of plan, grant, tick and quantum's end.
#[derive(Clone, Copy, Debug, PartialEq, Eq)]
pub enum Branch {
    PlanFormOne,
    PlanFormTwo,
    PlanFormThree,
    PlanMixed,
    PlanLongest,
    PlanGentleLongest,
    PlanFormZero,
    PlanFormFour,
    PlanFormFifteen,
    PlanNoTenths,
    PlanElevenTenths,
    PlanTwentyOneTenths,
    PlanMostTenths,
    PlanOtherBody,
    PlanGentleOtherBody,
    PlanZeroFirst,
    PlanZeroBetween,
    PlanZeroLast,
    GrantZero,
    GrantFirst,
    GrantFirstAfterZero,
    GrantGrow,
    GrantSame,
    GrantShrinkEmpty,
    GrantShrinkNonempty,
    GrantShrinkMany,
    GrantShrinkBehind,
    GrantShrinkBegun,
    WorkNoneReady,
    WorkOneReady,
    WorkTwoReady,
    WorkBegins,
    WorkGoesOn,
    WorkEnds,
    WorkEndsLongest,
    MugOne,
    MugMany,
    MugBegun,
    StealOneOfTwo,
    StealOneOfThree,
    StealMoreEven,
    StealMoreOdd,
    StealBehindBegun,
    StealVainOther,
    StealVainSelf,
    FinishAlone,
    FinishLast,
    FinishCharged,
    FinishFirst,
    FinishAtLastTick,
    FinishAtLastTickCharged,
    FinishLasting,
    EndInefficient,
    EndInefficientDeprived,
    EndGrown,
    EndAtCap,
    EndDeprived,
    EndOfZero,
    EndBegun,
    EndGrownSame,
    EndFallenSame,
}

use Branch::*;

/// Every branch with what it is.
pub const BRANCHES: [(Branch, &str); 61] = [
    (PlanFormOne, "plan: of form 1"),
    (PlanFormTwo, "plan: of form 2"),
    (PlanFormThree, "plan: of form 3"),
    (PlanMixed, "plan: tasks of one tick and of several"),
    (PlanLongest, "plan: a task of 255 ticks"),
    (PlanGentleLongest, "plan: of form 3, quanta of 16,383 ticks"),
    (PlanFormZero, "plan: refused with 2, form 0"),
    (PlanFormFour, "plan: refused with 2, form 4"),
    (PlanFormFifteen, "plan: refused with 2, form 15"),
    (PlanNoTenths, "plan: refused with 3, 0 tenths"),
    (PlanElevenTenths, "plan: refused with 3, 11 tenths"),
    (PlanTwentyOneTenths, "plan: refused with 3, 21 tenths"),
    (PlanMostTenths, "plan: refused with 3, 31 tenths"),
    (
        PlanOtherBody,
        "plan: refused with 6, the other form's length",
    ),
    (
        PlanGentleOtherBody,
        "plan: of form 3, refused with 6, form 2's length",
    ),
    (PlanZeroFirst, "plan: refused with 28, the first task"),
    (PlanZeroBetween, "plan: refused with 28, a task between"),
    (PlanZeroLast, "plan: refused with 28, the last task"),
    (GrantZero, "grant: of 0"),
    (GrantFirst, "grant: the first above 0"),
    (
        GrantFirstAfterZero,
        "grant: the first above 0, after one of 0",
    ),
    (GrantGrow, "grant: workers come"),
    (GrantSame, "grant: as many as before"),
    (GrantShrinkEmpty, "grant: an empty deque vanishes"),
    (GrantShrinkNonempty, "grant: a deque becomes muggable"),
    (GrantShrinkMany, "grant: two or more become muggable"),
    (
        GrantShrinkBehind,
        "grant: two or more become muggable, and others wait",
    ),
    (
        GrantShrinkBegun,
        "grant: a begun task's deque becomes muggable",
    ),
    (WorkNoneReady, "tick: work, no successor ready"),
    (WorkOneReady, "tick: work, one successor ready"),
    (WorkTwoReady, "tick: work, two successors ready"),
    (WorkBegins, "tick: work, the first of several ticks"),
    (
        WorkGoesOn,
        "tick: work, neither the first tick nor the last",
    ),
    (WorkEnds, "tick: work, the last of several ticks"),
    (WorkEndsLongest, "tick: work, the last of 255 ticks"),
    (MugOne, "tick: mug of one task"),
    (MugMany, "tick: mug of two or more tasks"),
    (MugBegun, "tick: mug of a begun task's deque"),
    (StealOneOfTwo, "tick: steal of one task out of two"),
    (StealOneOfThree, "tick: steal of one task out of three"),
    (StealMoreEven, "tick: steal of two or more, as many left"),
    (StealMoreOdd, "tick: steal of two or more, one more left"),
    (StealBehindBegun, "tick: steal behind a begun task"),
    (StealVainOther, "tick: steal in vain from another"),
    (StealVainSelf, "tick: steal in vain from itself"),
    (FinishAlone, "tick: finish, one worker granted"),
    (FinishLast, "tick: finish by the last of two or more"),
    (FinishCharged, "tick: finish, later workers charged"),
    (FinishFirst, "tick: finish by the first of three or more"),
    (FinishAtLastTick, "tick: finish in a quantum's last tick"),
    (
        FinishAtLastTickCharged,
        "tick: finish in a quantum's last tick, later workers charged",
    ),
    (FinishLasting, "tick: finish with the last of several ticks"),
    (EndInefficient, "end: inefficient, satisfied"),
    (EndInefficientDeprived, "end: inefficient, deprived"),
    (EndGrown, "end: efficient, satisfied, desire grows"),
    (EndAtCap, "end: efficient, satisfied, desire at its top"),
    (EndDeprived, "end: efficient, deprived"),
    (EndOfZero, "end: of a quantum of 0 workers"),
    (EndBegun, "end: of a quantum with a task begun"),
    (EndGrownSame, "end: a power up, the same desire"),
    (EndFallenSame, "end: a power down, the same desire"),
];

/// How often each thing was reached.
#[derive(Clone, Debug)]
pub struct Coverage {
    cases: u64,
    calls: u64,
    refusals: [u64; Refusal::ALL.len()],
    branches: [u64; BRANCHES.len()],
    readings: [u64; form::BENT.len()],
    statuses: [u64; 4],
    responsiveness: [u64; 8],
    ratios: Ratios,
    offers: Offers,
    allotments: [u64; MOST_WORKERS + 1],
}

impl Default for Coverage {
    fn default() -> Coverage {
        Coverage {
            cases: 0,
            calls: 0,
            refusals: [0; Refusal::ALL.len()],
            branches: [0; BRANCHES.len()],
            readings: [0; form::BENT.len()],
            statuses: [0; 4],
            responsiveness: [0; 8],
            ratios: Ratios::default(),
            offers: Offers::default(),
            allotments: [0; MOST_WORKERS + 1],
        }
    }
}

/// The place of a refusal among all of them.
fn place_of(refusal: Refusal) -> Option<usize> {
    Refusal::ALL.iter().position(|&other| other == refusal)
}

/// Adds one at a place, if it is there.
fn add(counts: &mut [u64], place: usize) {
    if let Some(count) = counts.get_mut(place) {
        *count += 1;
    }
}

impl Coverage {
    /// How often a refusal was reached.
    pub fn refusal(&self, refusal: Refusal) -> u64 {
        let count = place_of(refusal).and_then(|place| self.refusals.get(place));
        count.copied().unwrap_or(0)
    }

    /// How often a branch was reached.
    pub fn branch(&self, branch: Branch) -> u64 {
        self.branches.get(branch as usize).copied().unwrap_or(0)
    }

    /// How many plans each bent reading takes otherwise.
    pub fn readings(&self) -> &[u64] {
        &self.readings
    }

    /// How often each responsiveness from 0 to 7 was accepted in forms 1 and 2.
    pub fn responsiveness(&self) -> &[u64] {
        &self.responsiveness
    }

    /// What was reached of the ratios of form 3.
    pub fn ratios(&self) -> &Ratios {
        &self.ratios
    }

    /// What was reached of offers.
    pub fn offers(&self) -> &Offers {
        &self.offers
    }

    /// How often each allotment from 0 to 64 was granted.
    pub fn allotments(&self) -> &[u64] {
        &self.allotments
    }

    /// Runs a case through every part of the library and counts.
    pub fn cover(&mut self, case: &Case) {
        self.cases += 1;
        if let Err(refusal) = split_input(&case.input) {
            self.refuse(refusal);
        }
        self.cover_plan(&case.plan);
        match Job::accept(&case.plan) {
            Ok(job) => {
                self.cover_offers(job.clone(), &case.log);
                self.cover_log(job, case);
            }
            Err(refusal) => self.refuse(refusal),
        }
    }

    /// Makes the calls of a log on a fresh job, a quarter of its grants by way of
    /// offers. Of them 24 and 25 are counted, and what is reached of offers.
    fn cover_offers(&mut self, mut job: Job, log: &[u8]) {
        let (mut random, mut watch) = (Random::new(log.len() as u64), Watch::default());
        for entry in Entries::new(log).filter_map(Result::ok) {
            for call in calls(&mut random, &job, entry, 64) {
                let seen = Seen::of(&job);
                let answer = call.apply(&mut job);
                self.offers.cover(&mut watch, seen, call, &answer, &job);
                if let Err(refusal @ (Refusal::NoOffer | Refusal::OfferNoted)) = answer {
                    self.refuse(refusal);
                }
            }
        }
    }

    /// Runs an input as the program does and counts.
    pub fn cover_input(&mut self, input: &[u8]) {
        self.cases += 1;
        if let Ok((plan, _)) = split_input(input) {
            self.cover_plan(plan);
        }
        let accepted = split_input(input).and_then(|(plan, log)| Ok((Job::accept(plan)?, log)));
        match accepted {
            Ok((mut job, log)) => {
                self.cover_calls(&mut job, log);
            }
            Err(refusal) => self.refuse(refusal),
        }
    }

    fn cover_log(&mut self, mut job: Job, case: &Case) {
        let refused = self.cover_calls(&mut job, &case.log);
        let mut buffer = vec![0; case.buffer];
        let line = counters_line(&job, refused, &mut buffer);
        let part = wording(&case.sheet, job.status());
        let refusals = [line.err(), part.err()];
        refusals.into_iter().flatten().for_each(|r| self.refuse(r));
    }

    /// Runs a log on a fresh job, and returns how many calls were refused.
    fn cover_calls(&mut self, job: &mut Job, log: &[u8]) -> u64 {
        match job.plan().growth() {
            Growth::Factor(r) => add(&mut self.responsiveness, usize::from(r)),
            growth => self.ratios.cover_plan(growth),
        }
        let outcome = run_log_with(job, log, |job, _, answer| {
            self.calls += 1;
            match answer {
                Ok(Report::Grant(report)) => self.cover_grant(job, report),
                Ok(Report::Tick(report)) => self.cover_tick(job, report),
                Err(refusal) => self.refuse(*refusal),
            }
        });
        outcome.broken.into_iter().for_each(|r| self.refuse(r));
        add(&mut self.statuses, usize::from(job.status().number()));
        outcome.refused
    }

    fn refuse(&mut self, refusal: Refusal) {
        if let Some(place) = place_of(refusal) {
            add(&mut self.refusals, place);
        }
    }

    fn reach(&mut self, branch: Branch, reached: bool) {
        if reached {
            add(&mut self.branches, branch as usize);
        }
    }

    /// Counts what a plan is, and which bent readings take it otherwise.
    fn cover_plan(&mut self, bytes: &[u8]) {
        let form = bytes.first().map_or(0, |byte| byte >> 4);
        let read = read_plan(bytes);
        match &read {
            Ok(plan) => self.cover_accepted(form, plan),
            Err(Refusal::FormUnknown) => {
                self.reach(PlanFormZero, form == 0);
                self.reach(PlanFormFour, form == 4);
                self.reach(PlanFormFifteen, form == 15);
            }
            Err(Refusal::ResponsivenessOutOfRange) if form == 3 => self.cover_tenths(bytes),
            Err(Refusal::PlanLengthWrong) => {
                let other = has_other_length(form, bytes);
                self.reach(PlanOtherBody, other);
                self.reach(PlanGentleOtherBody, other && form == 3);
            }
            Err(Refusal::TicksZero) => self.cover_zero(bytes),
            Err(_) => (),
        }
        for (place, &(reading, _)) in form::BENT.iter().enumerate() {
            if read_plan_with(bytes, reading) != read {
                add(&mut self.readings, place);
            }
        }
    }

    fn cover_accepted(&mut self, form: u8, plan: &Plan) {
        let has = |wanted: fn(u8) -> bool| plan.tasks().iter().any(|task| wanted(task.ticks()));
        self.reach(PlanFormOne, form == 1);
        self.reach(PlanFormTwo, form == 2);
        self.reach(PlanFormThree, form == 3);
        self.reach(PlanMixed, has(|ticks| ticks == 1) && has(|ticks| ticks > 1));
        self.reach(PlanLongest, has(|ticks| ticks == 255));
        let longest = plan.quantum_length() == 16_383;
        self.reach(PlanGentleLongest, form == 3 && longest);
    }

    /// Counts the tenths of a plan of form 3 that is refused with 3.
    fn cover_tenths(&mut self, bytes: &[u8]) {
        let tenths = (bytes[0] & 15) << 1 | bytes[1] >> 7;
        self.reach(PlanNoTenths, tenths == 0);
        self.reach(PlanElevenTenths, tenths == 11);
        self.reach(PlanTwentyOneTenths, tenths == 21);
        self.reach(PlanMostTenths, tenths == 31);
    }

    /// Counts which task of a plan that is refused with 28 has no ticks.
    fn cover_zero(&mut self, bytes: &[u8]) {
        let mut ticks = bytes[5..].chunks(4).map(|task| task[3]);
        let (count, zero) = (ticks.len(), ticks.position(|ticks| ticks == 0));
        self.reach(PlanZeroFirst, zero == Some(0) && count > 1);
        self.reach(PlanZeroLast, zero == Some(count - 1) && count > 1);
        let between = |place: usize| 0 < place && place + 1 < count;
        self.reach(PlanZeroBetween, zero.map_or(false, between));
    }

    fn cover_grant(&mut self, job: &Job, report: &GrantReport) {
        let withdrawn = report.made_muggable + report.vanished;
        let first = report.first_above_zero;
        add(&mut self.allotments, job.allotment());
        self.reach(GrantZero, job.allotment() == 0);
        self.reach(GrantFirst, first);
        self.reach(GrantFirstAfterZero, first && job.quanta_begun() > 1);
        self.reach(GrantGrow, report.added > 0);
        self.reach(GrantSame, report.added == 0 && withdrawn == 0);
        self.reach(GrantShrinkEmpty, report.vanished > 0);
        let many = report.made_muggable > 1;
        self.reach(GrantShrinkNonempty, report.made_muggable > 0);
        self.reach(GrantShrinkMany, many);
        self.reach(GrantShrinkBehind, many && report.waited > 0);
        self.reach(GrantShrinkBegun, report.begun > 0);
    }

    fn cover_tick(&mut self, job: &Job, report: &TickReport) {
        for (worker, cycle) in report.cycles.iter().enumerate() {
            self.reach(cycle_branch(worker, cycle), true);
            self.cover_lasting(job, cycle);
        }
        if job.is_finished() {
            self.cover_finish(job, report);
        }
        if let Some(end) = report.quantum_end {
            self.cover_end(job, end);
        }
    }

    /// What a cycle has to do with tasks of several ticks.
    fn cover_lasting(&mut self, job: &Job, cycle: &Cycle) {
        match *cycle {
            Cycle::Work { task, tick, .. } => {
                let ticks = job.plan().tasks()[usize::from(task)].ticks();
                self.reach(WorkEnds, tick.is_last && ticks > 1);
                self.reach(WorkEndsLongest, tick.is_last && ticks == 255);
            }
            Cycle::Mug { begun, .. } => self.reach(MugBegun, begun),
            Cycle::Steal { begun, .. } => self.reach(StealBehindBegun, begun),
        }
    }

    fn cover_finish(&mut self, job: &Job, report: &TickReport) {
        let (granted, charged) = (job.allotment(), report.rested > 0);
        let length = job.plan().quantum_length();
        let last_tick = job.open_quantum().map(|q| q.ticks) == Some(length);
        self.reach(FinishAlone, granted == 1);
        self.reach(FinishLast, granted > 1 && !charged);
        self.reach(FinishCharged, charged);
        self.reach(FinishFirst, granted > 2 && report.cycles.len() == 1);
        self.reach(FinishAtLastTick, last_tick);
        self.reach(FinishAtLastTickCharged, last_tick && charged);
        let finisher = job.plan().tasks().last();
        self.reach(FinishLasting, finisher.map(|task| task.ticks()) > Some(1));
    }

    fn cover_end(&mut self, job: &Job, end: QuantumEnd) {
        let branch = match end {
            QuantumEnd::Inefficient { satisfied: true } => EndInefficient,
            QuantumEnd::Inefficient { satisfied: false } => EndInefficientDeprived,
            QuantumEnd::Grown => EndGrown,
            QuantumEnd::AtCap => EndAtCap,
            QuantumEnd::Deprived => EndDeprived,
        };
        self.reach(branch, true);
        self.reach(EndOfZero, job.allotment() == 0);
        let mut tasks = job.deques().iter().filter_map(|deque| deque.front());
        self.reach(EndBegun, tasks.any(|&task| job.is_begun(task)));
        self.ratios.cover_end(job, end);
        let growth = job.plan().growth();
        let is_desire =
            |power: Option<u32>| power.and_then(|p| growth.desire(p)) == Some(job.desire());
        let (below, above) = (job.power().checked_sub(1), job.power().checked_add(1));
        self.reach(EndGrownSame, branch == EndGrown && is_desire(below));
        let fallen = matches!(end, QuantumEnd::Inefficient { .. });
        self.reach(EndFallenSame, fallen && is_desire(above));
    }
}

/// Whether a plan of a form has as many bytes as one of another form has.
fn has_other_length(form: u8, bytes: &[u8]) -> bool {
    let count = usize::from(bytes[3] & 3) << 8 | usize::from(bytes[4]);
    let others = FORMS.iter().filter(|other| other.number != u64::from(form));
    let mut lengths = others.map(|other| 5 + other.task_bytes * (count + 1));
    lengths.any(|length| length == bytes.len())
}

/// The branch of one worker's cycle.
fn cycle_branch(worker: usize, cycle: &Cycle) -> Branch {
    match *cycle {
        Cycle::Work {
            tick:
                Tick {
                    is_first: true,
                    is_last: false,
                },
            ..
        } => WorkBegins,
        Cycle::Work {
            tick: Tick { is_last: false, .. },
            ..
        } => WorkGoesOn,
        Cycle::Work { enabled: 0, .. } => WorkNoneReady,
        Cycle::Work { enabled: 1, .. } => WorkOneReady,
        Cycle::Work { .. } => WorkTwoReady,
        Cycle::Mug { length: 1, .. } => MugOne,
        Cycle::Mug { .. } => MugMany,
        Cycle::Steal {
            victim, stolen: 0, ..
        } if victim == worker => StealVainSelf,
        Cycle::Steal { stolen: 0, .. } => StealVainOther,
        Cycle::Steal {
            stolen: 1, left: 1, ..
        } => StealOneOfTwo,
        Cycle::Steal { stolen: 1, .. } => StealOneOfThree,
        Cycle::Steal { stolen, left, .. } if stolen == left => StealMoreEven,
        Cycle::Steal { .. } => StealMoreOdd,
    }
}

impl fmt::Display for Coverage {
    fn fmt(&self, out: &mut fmt::Formatter<'_>) -> fmt::Result {
        writeln!(out, "{:>10}  cases", self.cases)?;
        writeln!(out, "{:>10}  calls", self.calls)?;
        for refusal in Refusal::ALL {
            writeln!(out, "{:>10}  refusal {refusal}", self.refusal(refusal))?;
        }
        for (branch, name) in BRANCHES {
            writeln!(out, "{:>10}  {name}", self.branch(branch))?;
        }
        for ((_, name), count) in form::BENT.iter().zip(self.readings) {
            writeln!(
                out,
                "{count:>10}  plans that a bent rule reads otherwise: {name}"
            )?;
        }
        for (status, count) in self.statuses.iter().enumerate() {
            writeln!(out, "{count:>10}  jobs left with status {status}")?;
        }
        for (r, count) in self.responsiveness.iter().enumerate().skip(2) {
            writeln!(out, "{count:>10}  plans with responsiveness {r}")?;
        }
        write!(out, "{}{}", self.ratios, self.offers)?;
        let counts = self.allotments.iter();
        let reached = counts.filter(|&&count| count > 0).count();
        writeln!(out, "{reached:>10}  different allotments of 0 to 64")?;
        write!(out, "{:>10}  things never reached", self.missing())
    }
}

impl Coverage {
    /// How many refusals, branches, bent readings and powers were never
    /// reached, those of offers too.
    pub fn missing(&self) -> usize {
        let counts = self.refusals.iter().chain(&self.branches);
        let counts = counts.chain(&self.readings);
        let missing = counts.filter(|&&count| count == 0).count();
        missing + self.ratios.missing().len() + self.offers.missing().len()
    }
}
