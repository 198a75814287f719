//! What a run has done.

use std::fmt;

use reference::coverage::{OfferBranch, Offers, Powers, Ratios};
use reference::{Cycle, DigitCount, GrantReport, Growth, Plan, Report, Tick, TickReport};

use crate::in_use::InUse;
use crate::pair::{Call, Reference};
use crate::seeds::Seeded;

/// A place for each number of a refusal up to the highest, 28.
const NUMBERS: usize = 29;

/// The numbers with which a plan is refused.
const OF_PLANS: [usize; 11] = [1, 2, 3, 4, 5, 6, 7, 8, 9, 10, 28];

/// Counts of a run.
#[derive(Clone, Debug, PartialEq, Eq)]
pub struct Totals {
    pub cases: u64,
    /// Plans that were accepted.
    pub plans: u64,
    /// Plans that took the place of a used job.
    pub replacements: u64,
    /// Those of them that came while an offer was noted: accepted, refused.
    pub noted_replacements: [u64; 2],
    /// Accepted plans of forms 1 and 2 by R.
    pub responsiveness: [u64; 8],
    /// Accepted plans of form 3 by R in tenths, and what all calls reached of their powers.
    pub ratios: Ratios,
    /// Those of them with a task of several ticks, and with one of 255.
    pub lasting: [u64; 2],
    /// Refusals by number; places that are no number are not used.
    pub refusals: [u64; NUMBERS],
    /// Calls after each of which the whole states were compared.
    pub calls: u64,
    /// Those of them that were refused.
    pub refused_calls: u64,
    /// Accepted ticks by the number of choices, seeded ones too.
    pub ticks: [u64; 65],
    /// Work, mug and steal cycles and successful steals of the jobs that logs moved call by call.
    pub cycles: [u64; 4],
    /// Work cycles of all calls by their place among the ticks of a task of several: the first, one between, the last.
    pub ticks_of_tasks: [u64; 3],
    /// Deques of a begun task in all calls: withdrawn, mugged, and robbed behind it.
    pub begun: [u64; 3],
    /// Steal cycles of all calls by the tasks taken: none, one, two, three, or more.
    pub thefts: [u64; 5],
    /// Accepted grants of all calls by the deques that they made muggable: none, one, two, three, or more.
    pub withdrawals: [u64; 5],
    /// Those of them that made two or more muggable while others waited.
    pub behind: u64,
    /// Ticks of all calls that finished a job, by the workers after the finisher: none, one, two, three, or more.
    pub finishes: [u64; 5],
    /// What all calls reached of offers, openings and withdrawals.
    pub offers: Offers,
    /// What all calls reached of the deques in use.
    pub in_use: InUse,
    /// What all calls reached of seeds and of written logs.
    pub seeded: Seeded,
    /// Logs run whole.
    pub logs: u64,
    /// Those of them that came while an offer was noted.
    pub noted_logs: u64,
    /// The calls in them; the states were compared at the log's end.
    pub log_calls: u64,
    /// Those of them that were refused, by number, as the reference says; the two sides' counts of them are compared.
    pub log_refusals: [u64; NUMBERS],
    /// Comparisons of whole states.
    pub states: u64,
    /// Copies that took other calls than their original.
    pub branches: u64,
    pub wordings: u64,
    pub lines: u64,
    /// The last numbers of those lines, by their digits; place 0 is not used.
    pub digits: [u64; 21],
}

impl Default for Totals {
    fn default() -> Totals {
        Totals {
            cases: 0,
            plans: 0,
            replacements: 0,
            noted_replacements: [0; 2],
            responsiveness: [0; 8],
            ratios: Ratios::default(),
            lasting: [0; 2],
            refusals: [0; NUMBERS],
            calls: 0,
            refused_calls: 0,
            ticks: [0; 65],
            cycles: [0; 4],
            ticks_of_tasks: [0; 3],
            begun: [0; 3],
            thefts: [0; 5],
            withdrawals: [0; 5],
            behind: 0,
            finishes: [0; 5],
            offers: Offers::default(),
            in_use: InUse::default(),
            seeded: Seeded::default(),
            logs: 0,
            noted_logs: 0,
            log_calls: 0,
            log_refusals: [0; NUMBERS],
            states: 0,
            branches: 0,
            wordings: 0,
            lines: 0,
            digits: [0; 21],
        }
    }
}

/// Adds one at a place, if it is there.
fn add(counts: &mut [u64], place: usize) {
    if let Some(count) = counts.get_mut(place) {
        *count += 1;
    }
}

impl Totals {
    /// Counts a refusal; 0 is none.
    pub fn count_refusal(&mut self, number: u8) {
        if number != 0 {
            add(&mut self.refusals, usize::from(number));
        }
    }

    /// Counts an accepted plan.
    pub fn count_plan(&mut self, plan: &Plan) {
        self.plans += 1;
        match plan.growth() {
            Growth::Factor(r) => add(&mut self.responsiveness, usize::from(r)),
            growth => self.ratios.cover_plan(growth),
        }
        let most = plan.tasks().iter().map(|task| task.ticks()).max();
        self.lasting[0] += u64::from(most > Some(1));
        self.lasting[1] += u64::from(most == Some(255));
    }

    /// Counts a plan given to a used job, which may have an offer, and whether it is accepted.
    pub fn count_replacement(&mut self, noted: bool, accepted: bool) {
        self.replacements += 1;
        self.noted_replacements[usize::from(!accepted)] += u64::from(noted);
    }

    /// Counts a call and its answer, with so many workers granted after it.
    pub fn count_call(&mut self, call: Call, number: u8, workers: usize) {
        self.calls += 1;
        self.refused_calls += u64::from(number != 0);
        self.count_refusal(number);
        if let (Call::Tick(_) | Call::Seeded, 0) = (call, number) {
            add(&mut self.ticks, workers);
        }
    }

    /// Counts what an accepted call did, with the job after it.
    pub fn count_report(&mut self, report: &Report, job: &Reference) {
        match report {
            Report::Grant(report) => self.count_withdrawn(report),
            Report::Tick(report) => {
                self.count_work(report);
                self.count_thefts(report);
                if job.is_finished() {
                    self.count_finish(report);
                }
                if let Some(end) = report.quantum_end {
                    self.ratios.cover_end(job, end);
                }
            }
        }
    }

    /// Counts what a tick does to tasks of several ticks.
    fn count_work(&mut self, report: &TickReport) {
        for cycle in &report.cycles {
            match *cycle {
                Cycle::Work { tick, .. } => self.count_tick(tick),
                Cycle::Mug { begun, .. } => self.begun[1] += u64::from(begun),
                Cycle::Steal { begun, .. } => self.begun[2] += u64::from(begun),
            }
        }
    }

    fn count_tick(&mut self, tick: Tick) {
        match (tick.is_first, tick.is_last) {
            (true, true) => (),
            (true, false) => self.ticks_of_tasks[0] += 1,
            (false, false) => self.ticks_of_tasks[1] += 1,
            (false, true) => self.ticks_of_tasks[2] += 1,
        }
    }

    /// Counts the steal cycles of a tick. Those of workers after the finisher are in vain.
    fn count_thefts(&mut self, report: &TickReport) {
        for cycle in &report.cycles {
            if let Cycle::Steal { stolen, .. } = *cycle {
                add(&mut self.thefts, usize::from(stolen.min(4)));
            }
        }
        self.thefts[0] += report.rested as u64;
    }

    /// Counts a tick that finished a job.
    fn count_finish(&mut self, report: &TickReport) {
        add(&mut self.finishes, report.rested.min(4));
    }

    /// Counts an accepted grant or opening by what it withdrew.
    fn count_withdrawn(&mut self, report: &GrantReport) {
        add(&mut self.withdrawals, report.made_muggable.min(4));
        self.behind += u64::from(report.made_muggable > 1 && report.waited > 0);
        self.begun[0] += report.begun as u64;
    }

    /// Counts the cycles of a job at the end of its way.
    pub fn count_cycles(&mut self, job: &Reference) {
        let counts = [
            job.work_cycles(),
            job.mug_cycles(),
            job.steal_cycles(),
            job.successful_steals(),
        ];
        for (total, count) in self.cycles.iter_mut().zip(counts) {
            *total += count;
        }
    }

    /// Counts a call of a log that was run whole, by its answer's number.
    pub fn count_in_log(&mut self, number: u8) {
        self.log_calls += 1;
        if number != 0 {
            add(&mut self.log_refusals, usize::from(number));
        }
    }

    /// Counts a counters line by the digits of its last number.
    pub fn count_line(&mut self, refused: u64) {
        self.lines += 1;
        add(&mut self.digits, DigitCount::default().of(refused));
    }

    /// Counts a log that was run whole and its answer.
    pub fn count_log(&mut self, number: u8) {
        self.logs += 1;
        self.count_refusal(number);
    }
}

impl Totals {
    /// Three lines about the plans of form 3.
    fn show_ratios(&self, out: &mut fmt::Formatter<'_>) -> fmt::Result {
        let each = |count: fn(&Powers) -> u64| -> Vec<u64> {
            let counts = self.ratios.iter().map(|(_, powers)| count(powers));
            counts.collect()
        };
        let sum = |count| each(count).iter().sum::<u64>();
        let plans = each(|powers| powers.plans);
        writeln!(
            out,
            "{:>12}  of them of form 3, by R from 12 to 20 tenths: {plans:?}",
            plans.iter().sum::<u64>()
        )?;
        writeln!(
            out,
            "{:>12}  rises of their power, {} falls, {} quanta at the top, {} efficient and deprived",
            sum(|powers| powers.rises.iter().sum()),
            sum(|powers| powers.falls.iter().sum()),
            sum(|powers| powers.capped),
            sum(|powers| powers.deprived.iter().sum())
        )?;
        writeln!(
            out,
            "{:>12}  rises from a power, falls to one and tops of theirs never reached",
            self.ratios.missing().len()
        )
    }
}

impl Totals {
    /// Two lines about plans that a used job was given.
    fn show_replacements(&self, out: &mut fmt::Formatter<'_>) -> fmt::Result {
        writeln!(
            out,
            "{:>12}  plans that took the place of a used job",
            self.replacements
        )?;
        let [accepted, refused] = self.noted_replacements;
        writeln!(
            out,
            "{accepted:>12}  of them accepted while an offer was noted, {refused} refused"
        )
    }

    /// Four lines about offers.
    fn show_offers(&self, out: &mut fmt::Formatter<'_>) -> fmt::Result {
        use OfferBranch::*;
        let of = |branches: &[OfferBranch]| -> u64 {
            let counts = branches.iter().map(|&branch| self.offers.branch(branch));
            counts.sum()
        };
        writeln!(
            out,
            "{:>12}  offers noted, {} opened whole, {} for less, {} withdrawn",
            of(&[OfferDesire, OfferLess, OfferZero]),
            of(&[OpenAll, OpenZeroOfZero]),
            of(&[OpenFewer, OpenZero]),
            of(&[WithdrawSome, WithdrawZero])
        )?;
        let [grants, offers, ticks] =
            [GrantNoted, OfferNoted, TickNoted].map(|branch| of(&[branch]));
        let above = of(&[OpenAboveOffer, OpenAboveDesire]);
        writeln!(
            out,
            "{:>12}  calls refused while one was noted: {grants} grants, {offers} offers, {ticks} ticks, {above} openings above it",
            grants + offers + ticks + above
        )?;
        writeln!(
            out,
            "{:>12}  quanta opened for less that ended inefficient, {} efficient and deprived; opened whole {}, {} and {} satisfied",
            of(&[FewerInefficient]),
            of(&[FewerDeprived]),
            of(&[AllInefficient]),
            of(&[AllDeprived]),
            of(&[AllGrown, AllAtCap])
        )?;
        writeln!(
            out,
            "{:>12}  things about offers never reached",
            self.offers.missing().len()
        )
    }
}

impl fmt::Display for Totals {
    fn fmt(&self, out: &mut fmt::Formatter<'_>) -> fmt::Result {
        let refused_plans: u64 = OF_PLANS.iter().map(|&number| self.refusals[number]).sum();
        let ticks = |from: usize, to: usize| self.ticks[from..=to].iter().sum::<u64>();
        writeln!(out, "{:>12}  cases", self.cases)?;
        writeln!(
            out,
            "{:>12}  plans accepted, those of forms 1 and 2 by R from 2 to 7: {:?}",
            self.plans,
            &self.responsiveness[2..]
        )?;
        self.show_ratios(out)?;
        let [several, longest] = self.lasting;
        writeln!(
            out,
            "{several:>12}  of them with tasks of several ticks, {longest} with one of 255"
        )?;
        writeln!(out, "{refused_plans:>12}  plans refused")?;
        self.show_replacements(out)?;
        let in_logs = self.refusals.iter().zip(self.log_refusals);
        let numbers = in_logs
            .enumerate()
            .filter(|(number, _)| matches!(number, 1..=20 | 24 | 25 | 28));
        for (number, (count, in_logs)) in numbers {
            write!(out, "{count:>12}  refusals {number}")?;
            match number {
                11..=17 | 25 => writeln!(out, ", and {in_logs} in logs run whole")?,
                _ => writeln!(out)?,
            }
        }
        writeln!(out, "{:>12}  wordings compared", self.wordings)?;
        writeln!(
            out,
            "{:>12}  counters lines compared, by the last number's digits: {:?}",
            self.lines,
            &self.digits[1..]
        )?;
        writeln!(
            out,
            "{:>12}  logs run whole, {} of them while an offer was noted, with {} calls",
            self.logs, self.noted_logs, self.log_calls
        )?;
        self.show_offers(out)?;
        write!(out, "{}{}", self.in_use, self.seeded)?;
        writeln!(out, "{:>12}  copies that took other calls", self.branches)?;
        writeln!(out, "{:>12}  comparisons of whole states", self.states)?;
        let [work, mug, steal, successes] = self.cycles;
        writeln!(out, "{work:>12}  work cycles, {mug} mug cycles, {steal} steal cycles, {successes} with success")?;
        let [first, between, last] = self.ticks_of_tasks;
        writeln!(
            out,
            "{first:>12}  first ticks of tasks of several, {between} between, {last} last ones"
        )?;
        let [withdrawn, mugged, robbed] = self.begun;
        writeln!(
            out,
            "{withdrawn:>12}  deques of a begun task withdrawn, {mugged} mugged, {robbed} robbed behind it"
        )?;
        writeln!(
            out,
            "{:>12}  steal cycles in vain; with one task taken, two, three, or more: {:?}",
            self.thefts[0],
            &self.thefts[1..]
        )?;
        writeln!(
            out,
            "{:>12}  grants that withdrew two or more deques while others waited; one deque, two, three, or more: {:?}",
            self.behind,
            &self.withdrawals[1..]
        )?;
        writeln!(
            out,
            "{:>12}  ticks that finished a job with no worker after the finisher; with one, two, three, or more: {:?}",
            self.finishes[0],
            &self.finishes[1..]
        )?;
        writeln!(out, "{:>12}  accepted ticks of no worker", ticks(0, 0))?;
        writeln!(out, "{:>12}  of 1 to 8 workers", ticks(1, 8))?;
        writeln!(out, "{:>12}  of 9 to 32 workers", ticks(9, 32))?;
        writeln!(out, "{:>12}  of 33 to 64 workers", ticks(33, 64))?;
        writeln!(out, "{:>12}  calls refused", self.refused_calls)?;
        writeln!(
            out,
            "{:>12}  calls accepted",
            self.calls - self.refused_calls
        )?;
        write!(
            out,
            "{:>12}  calls, each with whole states compared",
            self.calls
        )
    }
}
