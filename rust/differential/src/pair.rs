//! Two jobs that are given the same calls, and what is compared.

use reference::coverage::{Seen, Watch};
use reference::lines::excess;
use reference::{run_log_with, Entry, Excess, Report};

use crate::compare::{self, Part};
use crate::difference::Difference;
use crate::in_use::{deques_in_use, LIBRARY_BROKEN, REFERENCE_BROKEN};
use crate::seeds::Seeds;
use crate::totals::Totals;

pub use jirvaldo::Job as Proved;
pub use reference::Job as Reference;

/// One call.
#[derive(Clone, Copy, Debug, PartialEq, Eq)]
pub enum Call<'a> {
    Grant(u64),
    Tick(&'a [u8]),
    /// A tick whose choices are drawn from the pair's seed.
    Seeded,
    Offer(u64),
    Open(u64),
    Withdraw,
}

impl<'a> From<reference::Call<'a>> for Call<'a> {
    fn from(call: reference::Call<'a>) -> Call<'a> {
        match call {
            reference::Call::Grant(workers) => Call::Grant(workers as u64),
            reference::Call::Tick(choices) => Call::Tick(choices),
            reference::Call::Offer(workers) => Call::Offer(workers as u64),
            reference::Call::Open(workers) => Call::Open(workers as u64),
            reference::Call::Withdraw => Call::Withdraw,
        }
    }
}

impl<'a> From<Entry<'a>> for Call<'a> {
    fn from(entry: Entry<'a>) -> Call<'a> {
        Call::from(reference::Call::from(entry))
    }
}

impl<'a> Call<'a> {
    /// The same call of the reference; of a seeded tick the plain one with what is drawn.
    fn of_reference(self, drawn: &'a [u8]) -> reference::Call<'a> {
        match self {
            Call::Grant(workers) => reference::Call::Grant(at_most_usize(workers)),
            Call::Tick(choices) => reference::Call::Tick(choices),
            Call::Seeded => reference::Call::Tick(drawn),
            Call::Offer(workers) => reference::Call::Offer(at_most_usize(workers)),
            Call::Open(workers) => reference::Call::Open(at_most_usize(workers)),
            Call::Withdraw => reference::Call::Withdraw,
        }
    }

    /// The workers that it grants where it is accepted.
    fn granted(self) -> usize {
        match self {
            Call::Grant(workers) | Call::Open(workers) => at_most_usize(workers),
            _ => 0,
        }
    }
}

/// The number of a refusal of the proved library, or 0.
pub fn proved_number<T>(answer: &Result<T, jirvaldo::Refusal>) -> u8 {
    answer
        .as_ref()
        .map_or_else(|refusal| refusal.number(), |_| 0)
}

/// The number of a refusal of the reference, or 0.
pub fn reference_number<T>(answer: &Result<T, reference::Refusal>) -> u8 {
    answer
        .as_ref()
        .map_or_else(|refusal| refusal.number(), |_| 0)
}

/// What is reported where a seeded tick is not the plain one with the choices that the reference drew.
pub const NOT_PLAIN: Part = "plain tick with the choices of a seeded one";

/// The two jobs.
#[derive(Clone)]
pub struct Pair {
    pub proved: Proved,
    pub reference: Reference,
    pub seeds: Seeds,
    /// The proved job before the last call, and the number of its answer.
    pub before: Proved,
    pub answer: u8,
    /// The choices that the reference drew for the last seeded tick.
    pub drawn: Vec<u8>,
    watch: Watch,
    /// The largest count granted so far, by the calls and the proved job's answers; of a log that is run whole, by the reference's.
    largest: usize,
}

impl Pair {
    /// Two jobs of the same plan, with the seed 0.
    pub fn new(proved: Proved, reference: Reference) -> Pair {
        Pair {
            before: proved.clone(),
            answer: 0,
            proved,
            reference,
            seeds: Seeds::default(),
            drawn: Vec::new(),
            watch: Watch::default(),
            largest: 0,
        }
    }

    /// A difference, with both states.
    pub fn difference(&self, part: Part, detail: String) -> Difference {
        Difference::new(part, detail, Some(&self.proved), Some(&self.reference))
    }

    /// Checks the bound of request U12 on both sides, and compares the two whole states.
    pub fn compare(&self, totals: &mut Totals) -> Result<(), Difference> {
        totals.states += 1;
        self.check_library()?;
        self.check_reference(excess(&self.reference, None))?;
        let part = compare::states(&self.proved, &self.reference)
            .or_else(|| compare::bounds(&self.proved, &self.reference, self.largest));
        part.map_or(Ok(()), |part| Err(self.difference(part, String::new())))
    }

    /// The library has at most as many deques in use as the largest count granted so far.
    fn check_library(&self) -> Result<(), Difference> {
        let (in_use, largest) = (deques_in_use(&self.proved), self.largest);
        if in_use <= largest {
            return Ok(());
        }
        let detail = format!("{in_use} deques in use, and that count is {largest}");
        Err(self.difference(LIBRARY_BROKEN, detail))
    }

    /// So has the reference; in a call that is compared also after each worker's cycle.
    fn check_reference(&self, found: Option<Excess>) -> Result<(), Difference> {
        found.map_or(Ok(()), |excess| {
            Err(self.difference(REFERENCE_BROKEN, excess.to_string()))
        })
    }

    /// Makes a call of both and compares the answers, the seeds and the whole states. After a refused call the proved job's copy from
    /// before is compared too: then the job is as it was, and so is the reference. After an accepted seeded tick that copy takes the plain
    /// one.
    pub fn call(&mut self, call: Call, totals: &mut Totals) -> Result<(), Difference> {
        self.before.clone_from(&self.proved);
        self.seeds.before = self.seeds.proved;
        let proved = proved_number(&self.call_proved(call));
        let (reference, found) = self.call_reference(call, totals);
        self.answer = proved;
        totals.count_call(call, proved, self.reference.allotment());
        if proved != reference {
            let answers = format!("{call:?}: proved {proved}, reference {reference}");
            return Err(self.difference("answer", answers));
        }
        if let Some(part) = self.seeds.other(proved != 0) {
            return Err(self.difference(part, format!("{call:?}: {:?}", self.seeds)));
        }
        if proved != 0 && !self.is_as_before() {
            return Err(self.difference("job after a refused call", format!("{call:?}")));
        }
        if proved == 0 {
            self.largest = self.largest.max(call.granted());
        }
        let bounded = self.check_reference(found);
        let compared = bounded.and_then(|()| self.compare(totals));
        let plain = compared.and_then(|()| self.check_plain(call));
        plain.map_err(|difference| difference.after(&call))
    }

    fn call_proved(&mut self, call: Call) -> Result<(), jirvaldo::Refusal> {
        match call {
            Call::Grant(workers) => self.proved.grant(workers),
            Call::Tick(choices) => self.proved.tick(choices),
            Call::Seeded => self.proved.tick_seeded(&mut self.seeds.proved),
            Call::Offer(workers) => self.proved.offer(workers),
            Call::Open(workers) => self.proved.open(workers),
            Call::Withdraw => self.proved.withdraw(),
        }
    }

    /// Makes a call of the reference and counts what it does. Returns the number of the refusal, or 0, and where the call leaves more deques
    /// in use than it may, if it does.
    fn call_reference(&mut self, call: Call, totals: &mut Totals) -> (u8, Option<Excess>) {
        let (seen, before) = (Seen::of(&self.reference), self.reference.in_use());
        let seeded = call == Call::Seeded;
        if seeded {
            self.drawn = self.reference.drawn(self.seeds.reference).choices;
        }
        let call = call.of_reference(&self.drawn);
        let answer = if seeded {
            let seed = &mut self.seeds.reference;
            let answer = self.reference.tick_seeded_counted(seed);
            answer.map(|did| Some(Report::Tick(did)))
        } else {
            call.apply_counted(&mut self.reference)
        };
        let job = &self.reference;
        totals
            .offers
            .cover(&mut self.watch, seen, call, &answer, job);
        let did = answer.iter().flatten().next();
        if let Some(report) = did {
            totals.count_report(report, job);
        }
        if seeded {
            totals.seeded.count(&answer, job);
        }
        totals.in_use.count(before, did, job);
        totals.in_use.count_more(call, answer.is_ok(), job);
        (reference_number(&answer), excess(job, did))
    }

    /// Where the call is an accepted seeded tick, the plain tick with the choices that the reference drew leaves the job from before as
    /// that has left it.
    pub fn check_plain(&self, call: Call) -> Result<(), Difference> {
        if call != Call::Seeded || self.answer != 0 {
            return Ok(());
        }
        let mut job = self.before.clone();
        let number = proved_number(&job.tick(&self.drawn));
        let same = compare::states(&job, &self.reference).is_none()
            && compare::same_usage(&job, &self.proved);
        if number == 0 && same {
            return Ok(());
        }
        let detail = format!("{:?}, answer {number}", self.drawn);
        Err(self.difference(NOT_PLAIN, detail))
    }

    /// Whether both jobs are as the proved one was before the call.
    fn is_as_before(&self) -> bool {
        compare::states(&self.before, &self.reference).is_none()
            && compare::same_usage(&self.proved, &self.before)
    }

    /// Runs a whole log on both and compares the answers, the counts of refused calls and the whole states.
    pub fn run_log(&mut self, log: &[u8], totals: &mut Totals) -> Result<(), Difference> {
        totals.noted_logs += u64::from(self.reference.noted_offer().is_some());
        let proved = self.proved.run_log(log);
        let (mut largest, mut found) = (self.largest, None);
        let reference = run_log_with(&mut self.reference, log, |job, entry, answer| {
            totals.count_in_log(reference_number(answer));
            if answer.is_ok() {
                largest = largest.max(Call::from(*entry).granted());
            }
            found = found.or_else(|| excess(job, answer.as_ref().ok()));
        });
        self.largest = largest;
        self.check_reference(found)?;
        let broken = reference.broken.map_or(Ok(()), Err);
        let pair = (proved_number(&proved.end), proved.refused_calls);
        let other = (reference_number(&broken), reference.refused);
        totals.count_log(pair.0);
        if pair != other {
            let answers = format!("log {log:02x?}: proved {pair:?}, reference {other:?}");
            return Err(self.difference("log", answers));
        }
        self.compare(totals)
    }
}

/// The reference takes a usize: on a narrower machine what does not fit is above every desire too.
pub fn at_most_usize(workers: u64) -> usize {
    usize::try_from(workers).unwrap_or(usize::MAX)
}
