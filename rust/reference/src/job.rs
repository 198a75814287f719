//! The job record: "Grant", "Tick" and the statuses of document 01, and the
//! offers of request U5.

use std::collections::VecDeque;
use std::sync::Arc;

use crate::counters::DigitCount;
use crate::form::Reading;
use crate::growth::{Level, Pace};
use crate::lasting::{Event, Lasting, Tick};
use crate::lines::{self, Granted, Largest, Said, Source};
use crate::offer::{Judged, Kind, Noting};
use crate::plan::{read_plan_with, Plan};
use crate::quantum::{is_efficient, QuantumEnd};
use crate::refusal::{ask, Refusal};
use crate::rest::Rest;
use crate::seed::Drawing;
use crate::theft::Theft;
use crate::withdrawal::{Turn, Withdrawn};

/// No more quanta than this begin. Request U4: a grant passes with 4,095
/// begun and is refused with 13 where 4,096 have begun.
pub const MOST_QUANTA: u32 = 4_096;

/// Rules that a test can bend, to see that a comparison finds a job that
/// follows others. The default ones are document 01's with its requests.
#[derive(Clone, Copy, Debug, PartialEq, Eq)]
pub struct Rules {
    /// How plans are read.
    pub reading: Reading,
    /// No more quanta than this begin.
    pub most_quanta: u32,
    /// How the digits of the counters line's numbers are counted.
    pub digits: DigitCount,
    /// What a steal takes.
    pub theft: Theft,
    /// Which muggable deque is taken first.
    pub turn: Turn,
    /// What the workers after the finisher count.
    pub rest: Rest,
    /// How long a task stays.
    pub lasting: Lasting,
    /// How the desire of a plan in tenths moves.
    pub pace: Pace,
    /// How offers are noted.
    pub noting: Noting,
    /// What brings a deque into use.
    pub source: Source,
    /// Which count is the largest granted so far.
    pub largest: Largest,
    /// What a seeded tick draws.
    pub drawing: Drawing,
}

impl Default for Rules {
    fn default() -> Rules {
        Rules {
            reading: Reading::default(),
            most_quanta: MOST_QUANTA,
            digits: DigitCount::default(),
            theft: Theft::default(),
            turn: Turn::default(),
            rest: Rest::default(),
            lasting: Lasting::default(),
            pace: Pace::default(),
            noting: Noting::default(),
            source: Source::default(),
            largest: Largest::default(),
            drawing: Drawing::default(),
        }
    }
}

/// A deque (document 01: line) of ready tasks. The front is the one its
/// worker works on, the back is what others may steal.
pub type Deque = VecDeque<u16>;

/// The status, with document 01's numbers.
#[derive(Clone, Copy, Debug, PartialEq, Eq, Hash)]
pub enum Status {
    /// Nothing above 0 was ever granted.
    Fresh = 0,
    /// Neither of the others.
    Running = 1,
    /// The last allotment is 0 (document 01: held).
    Held = 2,
    /// Every task is worked: completed, in the words of request U9.
    Finished = 3,
}

impl Status {
    /// Document 01's number of this status.
    pub fn number(self) -> u8 {
        self as u8
    }
}

/// The open quantum (document 01: round).
#[derive(Clone, Copy, Debug, Default, PartialEq, Eq)]
pub struct OpenQuantum {
    /// Ticks done in this quantum.
    pub ticks: u32,
    /// Nonsteal usage (document 01: usage): its work plus mug cycles.
    pub usage: u64,
}

/// A job (document 01: job record). Comes from [`Job::accept`] or
/// [`Job::new`] only, and is moved by [`Job::grant`] and [`Job::tick`], which
/// may be a [`Job::tick_seeded`], and by [`Job::offer`], [`Job::open`] and
/// [`Job::withdraw`] only.
///
/// A finished job keeps its last quantum open as the finishing tick left it:
/// that tick is counted in `ticks`, its cycles in `usage`.
#[derive(Clone, Debug, PartialEq, Eq)]
pub struct Job {
    plan: Arc<Plan>,
    left: Vec<u8>,
    completed: usize,
    deques: Vec<Deque>,
    muggable: VecDeque<Withdrawn>,
    level: Level,
    quantum: Option<OpenQuantum>,
    judged: Judged,
    quanta_begun: u32,
    note: Option<usize>,
    granted: Granted,
    work_cycles: u64,
    mug_cycles: u64,
    steal_cycles: u64,
    successful_steals: u64,
    ever_granted: bool,
    rules: Rules,
}

/// What an accepted grant or opening did.
#[derive(Clone, Copy, Debug, Default, PartialEq, Eq)]
pub struct GrantReport {
    /// Workers that came, with empty deques.
    pub added: usize,
    /// Muggable deques that waited before it.
    pub waited: usize,
    /// Withdrawn workers whose deque became muggable.
    pub made_muggable: usize,
    /// Those of them whose front task is begun.
    pub begun: usize,
    /// Withdrawn workers whose deque was empty and vanished.
    pub vanished: usize,
    /// Whether this was the first grant above 0, which hands out task 0.
    pub first_above_zero: bool,
}

/// One worker's cycle in a tick.
#[derive(Clone, Copy, Debug, PartialEq, Eq)]
pub enum Cycle {
    /// A work cycle (document 01: work tick) on `task`, at this place among its
    /// ticks; that many of its successors became ready.
    Work {
        task: u16,
        tick: Tick,
        enabled: usize,
    },
    /// A mug cycle (document 01: mug tick) that took a deque of this length;
    /// its front task is begun or not.
    Mug { length: usize, begun: bool },
    /// A steal cycle (document 01: steal tick): so many tasks were stolen and
    /// so many left to the victim, whose front task is begun or not. In vain if
    /// none was stolen.
    Steal {
        victim: usize,
        stolen: u16,
        left: u16,
        begun: bool,
    },
}

/// What an accepted tick did.
#[derive(Clone, Debug, PartialEq, Eq)]
pub struct TickReport {
    /// The cycles that workers 0 and up took. In the tick that finishes the job
    /// the finisher's work cycle is the last.
    pub cycles: Vec<Cycle>,
    /// Workers after the finisher. They take no cycle, and each counts a steal
    /// cycle in vain.
    pub rested: usize,
    /// The deques in use after each worker's cycle, where they were counted.
    /// Those after the finisher move nothing.
    pub in_use: Vec<usize>,
    /// Set if the quantum closed with this tick.
    pub quantum_end: Option<QuantumEnd>,
}

/// Acceptance and what a job shows.
impl Job {
    /// Reads a plan and makes its fresh job; refusals 1 to 10 and 28 make none.
    pub fn accept(plan: &[u8]) -> Result<Job, Refusal> {
        Job::accept_with(plan, Rules::default())
    }

    /// The same by these rules.
    pub fn accept_with(plan: &[u8], rules: Rules) -> Result<Job, Refusal> {
        let plan = read_plan_with(plan, rules.reading)?;
        Ok(Job::new(plan).with_rules(rules))
    }

    /// A fresh job: desire 1, nothing granted.
    pub fn new(plan: Plan) -> Job {
        let rules = Rules::default();
        Job {
            level: rules.pace.start(plan.growth()),
            left: plan.tasks().iter().map(|task| task.ticks()).collect(),
            plan: Arc::new(plan),
            completed: 0,
            deques: Vec::new(),
            muggable: VecDeque::new(),
            quantum: None,
            judged: Judged::default(),
            quanta_begun: 0,
            note: None,
            granted: Granted::default(),
            work_cycles: 0,
            mug_cycles: 0,
            steal_cycles: 0,
            successful_steals: 0,
            ever_granted: false,
            rules,
        }
    }

    /// The same job, which follows these rules from now on; where no quantum has
    /// begun, it starts by them.
    pub fn with_rules(self, rules: Rules) -> Job {
        let level = match self.quanta_begun {
            0 => rules.pace.start(self.plan.growth()),
            _ => self.level,
        };
        Job {
            rules,
            level,
            ..self
        }
    }

    /// The rules that the job keeps.
    pub fn rules(&self) -> Rules {
        self.rules
    }

    /// The job's plan.
    pub fn plan(&self) -> &Plan {
        &self.plan
    }

    /// The ticks left of each task (document 01: piece), by number.
    pub fn left(&self) -> &[u8] {
        &self.left
    }

    /// Which tasks are worked, by number: no ticks are left of them.
    pub fn worked(&self) -> impl Iterator<Item = bool> + '_ {
        self.left.iter().map(|&left| left == 0)
    }

    /// How many tasks are worked.
    pub fn worked_count(&self) -> u64 {
        let lasting = self.rules.lasting;
        lasting.worked(self.completed, self.work_cycles)
    }

    /// Whether a task is begun: some of its ticks are done, and not all.
    pub fn is_begun(&self, task: u16) -> bool {
        let left = self.left[usize::from(task)];
        0 < left && left < self.ticks_of(task)
    }

    /// The ticks that a task lasts.
    fn ticks_of(&self, task: u16) -> u8 {
        self.plan.tasks()[usize::from(task)].ticks()
    }

    /// The deques (document 01: lines) of workers 0 up, each front to back.
    pub fn deques(&self) -> &[Deque] {
        &self.deques
    }

    /// The muggable deques (document 01: orphans), in the order in which they
    /// are taken.
    pub fn muggable_deques(&self) -> Vec<&Deque> {
        self.muggable.iter().map(|waiting| &waiting.deque).collect()
    }

    /// The deques in use: non-empty lines and orphans together.
    pub fn in_use(&self) -> usize {
        lines::in_use(&self.deques, self.muggable.len())
    }

    /// The largest count granted so far.
    pub fn largest_granted(&self) -> usize {
        self.rules.largest.of(self.granted)
    }

    /// The desire (document 01: wanted).
    pub fn desire(&self) -> usize {
        self.level.desire
    }

    /// The desire's power (request U14: k), in plans of all forms.
    pub fn power(&self) -> u32 {
        self.level.power
    }

    /// The allotment (document 01: granted): each worker has one deque. It
    /// stays when the quantum closes.
    pub fn allotment(&self) -> usize {
        self.deques.len()
    }

    /// The open quantum (document 01: round), if one is open.
    pub fn open_quantum(&self) -> Option<OpenQuantum> {
        self.quantum
    }

    /// Quanta begun, those of 0 workers too.
    pub fn quanta_begun(&self) -> u32 {
        self.quanta_begun
    }

    /// The noted offer, if there is one.
    pub fn noted_offer(&self) -> Option<usize> {
        self.note
    }

    /// Work cycles (document 01: work ticks).
    pub fn work_cycles(&self) -> u64 {
        self.work_cycles
    }

    /// Mug cycles (document 01: mug ticks).
    pub fn mug_cycles(&self) -> u64 {
        self.mug_cycles
    }

    /// Steal cycles (document 01: steal ticks), successful or in vain.
    pub fn steal_cycles(&self) -> u64 {
        self.steal_cycles
    }

    /// Steal cycles that took tasks.
    pub fn successful_steals(&self) -> u64 {
        self.successful_steals
    }

    /// Whether any grant above 0 was accepted.
    pub fn ever_granted(&self) -> bool {
        self.ever_granted
    }

    /// Whether every task is worked.
    pub fn is_finished(&self) -> bool {
        self.completed == self.plan.task_count()
    }

    /// The status, asked in the order 3, 0, 2, 1.
    pub fn status(&self) -> Status {
        if self.is_finished() {
            Status::Finished
        } else if !self.ever_granted {
            Status::Fresh
        } else if self.allotment() == 0 {
            Status::Held
        } else {
            Status::Running
        }
    }
}

/// Grant.
impl Job {
    /// Grants that many workers and opens a quantum, or refuses with 11 to 13,
    /// 25 or 14 and changes nothing.
    pub fn grant(&mut self, allotment: usize) -> Result<GrantReport, Refusal> {
        self.enter(Kind::Grant);
        let asked = self.ask_grant(Kind::Grant, allotment);
        self.leave(Kind::Grant, allotment, asked)?;
        Ok(self.begin(allotment))
    }

    /// What a grant does whose questions are answered with yes.
    fn begin(&mut self, allotment: usize) -> GrantReport {
        let mut report = self.resize(allotment);
        if !self.ever_granted || self.rules.source == Source::EveryGrant {
            if let Some(deque) = self.deques.first_mut() {
                deque.push_front(0);
                report.first_above_zero = !self.ever_granted;
                self.ever_granted = true;
            }
        }
        self.hear(Said::Granted, allotment);
        self.quantum = Some(OpenQuantum::default());
        self.judged = self.rules.noting.judged(allotment, allotment);
        self.quanta_begun += 1;
        report
    }

    /// Remembers a count, if it was granted.
    fn hear(&mut self, said: Said, count: usize) {
        self.granted = self.rules.largest.heard(self.granted, said, count);
    }

    /// The questions of a grant, which an offer meets too.
    fn ask_grant(&self, kind: Kind, count: usize) -> Result<(), Refusal> {
        let noting = self.rules.noting;
        let questions = noting.questions().into_iter();
        for question in questions.filter(|&question| noting.asks(kind, question)) {
            ask(self.passes(question, count), question)?;
        }
        Ok(())
    }

    /// The answer to one of them.
    fn passes(&self, question: Refusal, count: usize) -> bool {
        match question {
            Refusal::JobFinished => !self.is_finished(),
            Refusal::QuantumOpen => self.quantum.is_none(),
            Refusal::QuantaExhausted => self.quanta_begun < self.rules.most_quanta,
            Refusal::OfferNoted => self.note.is_none(),
            _ => count <= self.desire(),
        }
    }

    /// Withdraws workers from `allotment` up, or adds workers with empty
    /// deques.
    fn resize(&mut self, allotment: usize) -> GrantReport {
        let mut report = GrantReport {
            added: allotment.saturating_sub(self.deques.len()),
            waited: self.muggable.len(),
            made_muggable: 0,
            begun: 0,
            vanished: 0,
            first_above_zero: false,
        };
        let kept = allotment.min(self.deques.len());
        for (worker, deque) in (kept..).zip(self.deques.split_off(kept)) {
            if deque.is_empty() {
                report.vanished += 1;
            } else {
                let begun = self.befalls(Event::Withdrawn, &deque);
                report.made_muggable += 1;
                report.begun += usize::from(begun);
                self.muggable.push_back(Withdrawn {
                    grant: self.quanta_begun,
                    worker,
                    deque,
                });
            }
        }
        self.rules.turn.arrange(&mut self.muggable);
        self.deques.resize_with(allotment, Deque::new);
        report
    }
}

/// Offer, open and withdraw.
impl Job {
    /// Notes an offer of that many workers, or refuses as a grant of them does
    /// and changes nothing.
    pub fn offer(&mut self, count: usize) -> Result<(), Refusal> {
        self.enter(Kind::Offer);
        let asked = self.ask_grant(Kind::Offer, count);
        self.leave(Kind::Offer, count, asked)?;
        let noting = self.rules.noting;
        self.note = noting.noted(self.note, count, self.desire());
        self.overdo(Kind::Offer, count);
        Ok(())
    }

    /// Opens the noted offer with that many workers: drops the note and does
    /// what a grant of them does. Or refuses with 24 or 14 and changes nothing.
    pub fn open(&mut self, count: usize) -> Result<GrantReport, Refusal> {
        let asked = self.ask_open(count);
        let (offered, opened) = self.leave(Kind::Open, count, asked)?;
        let noting = self.rules.noting;
        self.note = noting.left(offered, opened);
        if opened == 0 && noting == Noting::ZeroOpensNothing {
            return Ok(GrantReport::default());
        }
        let report = self.begin(opened);
        self.judged = noting.judged(offered, opened);
        self.quanta_begun -= u32::from(noting == Noting::OpenNotBegun);
        Ok(report)
    }

    /// Drops the note, or refuses with 24 and changes nothing.
    pub fn withdraw(&mut self) -> Result<(), Refusal> {
        self.ask_too(Kind::Withdraw)?;
        let noting = self.rules.noting;
        let asks = noting.asks(Kind::Withdraw, Refusal::NoOffer);
        ask(self.note.is_some() || !asks, Refusal::NoOffer)?;
        self.note = self.note.filter(|_| noting == Noting::WithdrawKeeps);
        self.overdo(Kind::Withdraw, 0);
        Ok(())
    }

    /// The questions of an opening; the counts offered and opened if all answers
    /// are yes.
    fn ask_open(&self, count: usize) -> Result<(usize, usize), Refusal> {
        self.ask_too(Kind::Open)?;
        let (noting, desire) = (self.rules.noting, self.desire());
        let offered = noting.found(self.note, desire).ok_or(Refusal::NoOffer)?;
        let opened = noting.opened(offered, count, desire);
        Ok((offered, opened.ok_or(Refusal::GrantAboveDesire)?))
    }
}

/// What calls do beside, by bent rules alone.
impl Job {
    /// Before a call, or a log, the note may go.
    pub(crate) fn enter(&mut self, kind: Kind) {
        let noting = self.rules.noting;
        if noting == Noting::DroppedBy(kind) {
            self.note = None;
        } else if noting == Noting::OpenedBy(kind) {
            if let Some(offered) = self.note.take() {
                self.begin(offered);
            }
        }
    }

    /// Where a call of so many workers is refused, the note may go. Returns the
    /// answer.
    fn leave<T>(
        &mut self,
        kind: Kind,
        count: usize,
        asked: Result<T, Refusal>,
    ) -> Result<T, Refusal> {
        if asked.is_err() {
            self.hear(Said::Refused, count);
            if self.rules.noting == Noting::LostBy(kind) {
                self.note = None;
            }
        }
        asked
    }

    /// A question more, before a call's own.
    fn ask_too(&self, kind: Kind) -> Result<(), Refusal> {
        let question = self.rules.noting.asks_too(kind);
        question.map_or(Ok(()), |question| ask(self.passes(question, 0), question))
    }

    /// An accepted offer or withdrawal may do more.
    fn overdo(&mut self, kind: Kind, count: usize) {
        if kind == Kind::Offer {
            self.hear(Said::Offered, count);
        }
        match self.rules.noting {
            Noting::Begins(doing) if doing == kind => self.quanta_begun += 1,
            Noting::Opens(doing) if doing == kind => drop(self.begin(count)),
            Noting::OfferMoves if kind == Kind::Offer => drop(self.resize(count)),
            Noting::OfferStarts => self.ever_granted |= count > 0,
            _ => (),
        }
    }
}

/// Tick.
impl Job {
    /// Does one tick with one choice of a victim for each granted worker, or
    /// refuses with 11, 15, 16 or 17 and changes nothing. The choices of
    /// workers after the finisher are not looked at beyond 17.
    pub fn tick(&mut self, choices: &[u8]) -> Result<TickReport, Refusal> {
        self.tick_with(choices, |_| ())
    }

    /// The same, and shows the job after each cycle.
    pub(crate) fn tick_with<F>(
        &mut self,
        choices: &[u8],
        mut show: F,
    ) -> Result<TickReport, Refusal>
    where
        F: FnMut(&Job),
    {
        self.enter(Kind::Tick);
        let mut quantum = self.ask_tick(choices)?;
        quantum.ticks += 1;
        let mut cycles = Vec::with_capacity(choices.len());
        for (worker, &choice) in choices.iter().enumerate() {
            let cycle = self.cycle(worker, usize::from(choice));
            quantum.usage += self.count(&cycle);
            cycles.push(cycle);
            show(self);
            if self.is_finished() {
                break;
            }
        }
        let rested = choices.len() - cycles.len();
        if self.is_finished() {
            quantum.usage += self.count_rest(rested);
        }
        self.quantum = Some(quantum);
        Ok(TickReport {
            cycles,
            rested,
            in_use: Vec::new(),
            quantum_end: self.close_quantum(quantum),
        })
    }

    /// The tick's questions; the open quantum if all answers are yes.
    fn ask_tick(&self, choices: &[u8]) -> Result<OpenQuantum, Refusal> {
        self.ask_too(Kind::Tick)?;
        ask(!self.is_finished(), Refusal::JobFinished)?;
        let quantum = self.quantum.ok_or(Refusal::NoQuantumOpen)?;
        let allotment = self.allotment();
        ask(choices.len() == allotment, Refusal::ChoiceCountWrong)?;
        let below = |&choice: &u8| usize::from(choice) < allotment;
        ask(choices.iter().all(below), Refusal::ChoiceOutOfRange)?;
        Ok(quantum)
    }

    /// One worker's cycle: work, else mug, else steal.
    fn cycle(&mut self, worker: usize, choice: usize) -> Cycle {
        if let Some(task) = self.deques[worker].pop_front() {
            self.work(worker, task)
        } else if self.steals_first(choice) {
            self.steal(worker, choice)
        } else if let Some(oldest) = self.next_muggable() {
            let length = oldest.deque.len();
            let begun = self.befalls(Event::Mugged, &oldest.deque);
            self.deques[worker] = oldest.deque;
            Cycle::Mug { length, begun }
        } else {
            self.steal(worker, choice)
        }
    }

    /// Whether a worker with an empty deque steals although one is muggable.
    fn steals_first(&self, choice: usize) -> bool {
        self.rules.source == Source::StealsFirst && self.deques[choice].len() > 1
    }

    /// The muggable deque that is taken next, if there is one.
    fn next_muggable(&mut self) -> Option<Withdrawn> {
        match self.rules.source {
            Source::MugCopies => self.muggable.front().cloned(),
            _ => self.muggable.pop_front(),
        }
    }

    /// Works one tick of a task that has just left the front of the worker's
    /// deque. With ticks left it goes back there; after its last tick it stays
    /// away and its successors come. By bent rules it may be worked already.
    fn work(&mut self, worker: usize, task: u16) -> Cycle {
        let lasting = self.rules.lasting;
        let left = self.left[usize::from(task)].saturating_sub(1);
        let tick = Tick {
            is_first: left + 1 == self.ticks_of(task),
            is_last: left == 0,
        };
        self.left[usize::from(task)] = left;
        self.completed += usize::from(lasting.completes(tick));
        let mut enabled = 0;
        if lasting.enables(tick) {
            enabled = self.enable(worker, task);
        }
        if !tick.is_last && lasting.stays() {
            self.deques[worker].push_front(task);
        } else if !tick.is_last {
            self.deques[worker].push_back(task);
        }
        Cycle::Work {
            task,
            tick,
            enabled,
        }
    }

    /// Of a task's successors that became ready the second goes to the front,
    /// then the first before it. Returns how many became ready.
    fn enable(&mut self, worker: usize, task: u16) -> usize {
        let tasks = self.plan.tasks();
        let mut enabled = 0;
        for &successor in tasks[usize::from(task)].successors().iter().rev() {
            if self.is_ready(successor) {
                self.deques[worker].push_front(successor);
                enabled += 1;
            }
        }
        enabled
    }

    /// Ready: every predecessor is worked.
    fn is_ready(&self, task: u16) -> bool {
        let predecessors = self.plan.tasks()[usize::from(task)].predecessors();
        let (lasting, left) = (self.rules.lasting, &self.left);
        let done = |&p: &u16| lasting.enabled_by(left[usize::from(p)], self.ticks_of(p));
        predecessors.iter().all(done)
    }

    /// Something befalls a deque. Returns whether its front task was begun,
    /// which keeps its ticks.
    fn befalls(&mut self, event: Event, deque: &Deque) -> bool {
        let begun = deque.front().copied().filter(|&task| self.is_begun(task));
        if let (Some(task), false) = (begun, self.rules.lasting.keeps(event)) {
            self.left[usize::from(task)] = self.ticks_of(task);
        }
        begun.is_some()
    }

    /// What is taken from the victim becomes the thief's deque. That is empty
    /// before, so choosing itself is in vain.
    fn steal(&mut self, thief: usize, victim: usize) -> Cycle {
        let mut robbed = std::mem::take(&mut self.deques[victim]);
        let mut taken = self.rules.theft.take(&mut robbed);
        let (stolen, left) = (taken.len() as u16, robbed.len() as u16);
        let begun = stolen > 0 && self.befalls(Event::Robbed, &robbed);
        if begun && self.rules.lasting.is_taken_along() {
            robbed
                .pop_front()
                .into_iter()
                .for_each(|task| taken.push_front(task));
        }
        self.deques[victim] = robbed;
        if stolen > 0 {
            self.deques[thief] = taken;
        }
        Cycle::Steal {
            victim,
            stolen,
            left,
            begun,
        }
    }

    /// Counts a cycle under its own kind. Returns its part of the usage: work
    /// and mug cycles are usage, steal cycles are not.
    fn count(&mut self, cycle: &Cycle) -> u64 {
        match cycle {
            Cycle::Work { tick, .. } => {
                self.work_cycles += self.rules.lasting.work(*tick);
                self.rules.lasting.usage(*tick)
            }
            Cycle::Mug { .. } => {
                self.mug_cycles += 1;
                1
            }
            Cycle::Steal { stolen, .. } => {
                self.steal_cycles += 1;
                self.successful_steals += self.rules.theft.successes(*stolen);
                0
            }
        }
    }

    /// Counts the rest of the tick that finished the job, with so many workers
    /// after the finisher. Returns its part of the usage.
    fn count_rest(&mut self, after: usize) -> u64 {
        let charge = self.rules.rest.charge(self.allotment(), after);
        self.mug_cycles += charge.mugs;
        self.steal_cycles += charge.steals;
        self.successful_steals += charge.successes;
        charge.mugs
    }

    /// Closes the quantum after its last tick. The quantum in which the job
    /// finishes never closes.
    fn close_quantum(&mut self, quantum: OpenQuantum) -> Option<QuantumEnd> {
        let plan = &self.plan;
        if self.is_finished() || quantum.ticks < plan.quantum_length() {
            return None;
        }
        let (utilization, length) = (plan.utilization(), plan.quantum_length());
        let judged = self.judged;
        let efficient = is_efficient(utilization, length, judged.efficient, quantum.usage);
        let satisfied = judged.satisfied == self.desire();
        let pace = self.rules.pace;
        let (end, level) = pace.close(plan.growth(), self.level, efficient, satisfied);
        self.level = level;
        self.quantum = None;
        Some(end)
    }
}
