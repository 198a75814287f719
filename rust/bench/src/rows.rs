//! The rows: what each one measures, for any side.

use std::ptr;

use crate::inputs::{self, Scene};
use crate::proved;
use crate::sides::{Second, Side};
use bench::twin;
use reference::log::{Entries, Entry};

/// One side's part of a row.
pub trait Work {
    /// Brings the job back to the state before the measured part.
    fn restore(&mut self);
    /// The measured part.
    fn run(&mut self);
    /// What the measured part left, to be the same on all sides.
    fn outcome(&mut self) -> Vec<u8>;
}

/// A row of the table.
pub struct Row {
    pub name: String,
    pub operation: &'static str,
    /// How many operations one `run` does.
    pub operations: usize,
    pub works: [Box<dyn Work>; 3],
}

/// The names of the sides, in the order of a row's works.
pub const SIDES: [&str; 3] = [proved::Job::NAME, twin::Job::NAME, Second::NAME];
pub const PROVED: usize = 0;
pub const TWIN: usize = 1;
pub const REFERENCE: usize = 2;

/// A job at the start of a cache line, so that no side has luck with its place.
#[repr(align(64))]
#[derive(Clone)]
struct Lined<S>(S);

/// A value that the compiler cannot foresee.
fn hide<T: ?Sized>(item: &T) -> &T {
    let address: *const T = item;
    // SAFETY: both read what a reference names.
    unsafe { &*ptr::read_volatile(&address) }
}

/// The count line, and what a job answers to a fixed log from here on.
fn shown<S: Side>(job: &S, answers: &[u8]) -> Vec<u8> {
    let mut probe = Vec::new();
    for workers in [64u8, 8, 1, 0, 64, 2] {
        probe.extend([workers, 0x80 | workers].iter());
        probe.extend((0..workers).map(|worker| worker / 2));
    }
    let (mut later, mut refusals) = (job.clone(), 0);
    let number = later.run_log(&probe.repeat(30), &mut refusals);
    let mut shown = answers.to_vec();
    for (job, refusals) in [(job, 0), (&later, refusals)] {
        let (mut buffer, mut size) = ([0; 128], 0);
        job.line(refusals, &mut buffer, &mut size);
        shown.extend_from_slice(&buffer[..size]);
    }
    shown.extend([number, job.status(), later.status()]);
    shown
}

fn accepted<S: Side>(plan: &[u8], log: &[u8]) -> Box<Lined<S>> {
    let (mut job, mut refusals) = (Box::new(Lined(S::blank())), 0);
    assert_eq!(job.0.accept(plan), 0);
    assert_eq!(job.0.run_log(log, &mut refusals), 0);
    job
}

/// Plans are accepted, one after the other, into the same memory.
struct Accepts<S> {
    plans: Vec<Vec<u8>>,
    job: Box<Lined<S>>,
    answers: Vec<u8>,
}

impl<S: Side> Work for Accepts<S> {
    fn restore(&mut self) {}
    fn run(&mut self) {
        for (plan, answer) in self.plans.iter().zip(&mut self.answers) {
            *answer = self.job.0.accept(plan);
        }
    }
    fn outcome(&mut self) -> Vec<u8> {
        shown(&self.job.0, &self.answers)
    }
}

/// The calls of a log, made one by one.
struct Calls<S> {
    saved: Box<Lined<S>>,
    job: Box<Lined<S>>,
    log: Vec<u8>,
    calls: Vec<(usize, usize)>,
    times: usize,
    answers: u64,
}

/// Where the choices of each tick of a log stand; a grant's own byte stands for it.
fn call_places(log: &[u8]) -> Vec<(usize, usize)> {
    let start = log.as_ptr() as usize;
    let mut at = 0;
    let place = |entry| match entry {
        Ok(Entry::Grant(_)) => {
            at += 1;
            (at - 1, usize::MAX)
        }
        Ok(Entry::Tick(choices)) => {
            at = choices.as_ptr() as usize - start + choices.len();
            (at - choices.len(), choices.len())
        }
        Err(_) => unreachable!("the benchmark's logs are whole"),
    };
    Entries::new(log).map(place).collect()
}

impl<S: Side> Work for Calls<S> {
    fn restore(&mut self) {
        self.job.0.clone_from(&self.saved.0);
    }
    fn run(&mut self) {
        for _ in 0..self.times {
            for &(start, count) in &self.calls {
                let answer = if count == usize::MAX {
                    self.job.0.grant(u64::from(self.log[start]))
                } else {
                    self.job.0.tick(&self.log[start..start + count])
                };
                self.answers += u64::from(answer);
            }
        }
    }
    fn outcome(&mut self) -> Vec<u8> {
        assert_eq!(self.answers, 0, "no measured call is refused");
        shown(&self.job.0, &[])
    }
}

/// Ticks that draw their choices from a seed.
struct SeededTicks<S> {
    saved: Box<Lined<S>>,
    job: Box<Lined<S>>,
    seed: u32,
    ticks: usize,
    answers: u64,
}

impl<S: Side> Work for SeededTicks<S> {
    fn restore(&mut self) {
        self.job.0.clone_from(&self.saved.0);
        self.seed = inputs::SEED;
    }
    fn run(&mut self) {
        for _ in 0..self.ticks {
            self.answers += u64::from(self.job.0.tick_seeded(&mut self.seed));
        }
    }
    fn outcome(&mut self) -> Vec<u8> {
        assert_eq!(self.answers, 0, "no measured call is refused");
        shown(&self.job.0, &self.seed.to_be_bytes())
    }
}

/// Grants of none, one on each of several jobs; `OFFERED` where each is an offer of 64 workers and an open of none.
struct Withdrawals<S, const OFFERED: bool> {
    saved: Box<Lined<S>>,
    jobs: Vec<Lined<S>>,
    answers: u64,
}

impl<S: Side, const OFFERED: bool> Work for Withdrawals<S, OFFERED> {
    fn restore(&mut self) {
        for job in &mut self.jobs {
            job.0.clone_from(&self.saved.0);
        }
    }
    fn run(&mut self) {
        for job in &mut self.jobs {
            if OFFERED {
                self.answers += u64::from(job.0.offer(64));
                self.answers += u64::from(job.0.open(0));
            } else {
                self.answers += u64::from(job.0.grant(0));
            }
        }
    }
    fn outcome(&mut self) -> Vec<u8> {
        assert_eq!(self.answers, 0, "no measured call is refused");
        shown(&self.jobs[0].0, &[])
    }
}

/// Workers are offered and the offer is withdrawn, many times.
struct Offers<S> {
    job: Box<Lined<S>>,
    answers: u64,
}

impl<S: Side> Work for Offers<S> {
    fn restore(&mut self) {}
    fn run(&mut self) {
        for _ in 0..REPEATS {
            self.answers += u64::from(self.job.0.offer(64));
            self.answers += u64::from(self.job.0.withdraw());
        }
    }
    fn outcome(&mut self) -> Vec<u8> {
        assert_eq!(self.answers, 0, "no measured call is refused");
        shown(&self.job.0, &[])
    }
}

/// A log is run.
struct Replays<S> {
    saved: Box<Lined<S>>,
    job: Box<Lined<S>>,
    log: Vec<u8>,
    refusals: u64,
}

impl<S: Side> Work for Replays<S> {
    fn restore(&mut self) {
        self.job.0.clone_from(&self.saved.0);
    }
    fn run(&mut self) {
        let answer = self.job.0.run_log(hide(&self.log), &mut self.refusals);
        assert_eq!(answer, 0);
    }
    fn outcome(&mut self) -> Vec<u8> {
        shown(&self.job.0, &self.refusals.to_be_bytes())
    }
}

/// The count line is written, many times.
struct Lines<S> {
    job: Box<Lined<S>>,
    buffer: [u8; 128],
    size: usize,
}

impl<S: Side> Work for Lines<S> {
    fn restore(&mut self) {}
    fn run(&mut self) {
        for _ in 0..REPEATS {
            hide(&self.job.0).line(12, &mut self.buffer, &mut self.size);
        }
    }
    fn outcome(&mut self) -> Vec<u8> {
        shown(&self.job.0, &self.buffer[..self.size])
    }
}

/// The label is looked for, many times.
struct Labels<S> {
    job: Box<Lined<S>>,
    sheet: Vec<u8>,
    start: usize,
    size: usize,
}

impl<S: Side> Work for Labels<S> {
    fn restore(&mut self) {}
    fn run(&mut self) {
        for _ in 0..REPEATS {
            hide(&self.job.0).wording(hide(&self.sheet), &mut self.start, &mut self.size);
        }
    }
    fn outcome(&mut self) -> Vec<u8> {
        shown(&self.job.0, &self.sheet[self.start..self.start + self.size])
    }
}

/// How often a short call is made in one `run`.
const REPEATS: usize = 200;

/// A row with its three works, made by a function that takes the side as a type.
macro_rules! row {
    ($name:expr, $operation:expr, $operations:expr, $make:ident $(, $argument:expr)*) => {
        Row {
            name: $name.into(),
            operation: $operation,
            operations: $operations,
            works: [
                Box::new($make::<proved::Job>($($argument),*)),
                Box::new($make::<twin::Job>($($argument),*)),
                Box::new($make::<Second>($($argument),*)),
            ],
        }
    };
}

fn accepts<S: Side>(plans: &[Vec<u8>]) -> Accepts<S> {
    Accepts {
        plans: plans.to_vec(),
        job: Box::new(Lined(S::blank())),
        answers: vec![0; plans.len()],
    }
}

fn calls<S: Side>(scene: &Scene, times: usize) -> Calls<S> {
    let saved = accepted::<S>(&scene.plan, &scene.before);
    Calls {
        job: saved.clone(),
        saved,
        log: scene.timed.clone(),
        calls: call_places(&scene.timed),
        times,
        answers: 0,
    }
}

fn seeded_ticks<S: Side>(scene: &Scene, ticks: usize) -> SeededTicks<S> {
    let saved = accepted::<S>(&scene.plan, &scene.before);
    SeededTicks {
        job: saved.clone(),
        saved,
        seed: inputs::SEED,
        ticks,
        answers: 0,
    }
}

fn withdrawals<S: Side, const OFFERED: bool>(
    scene: &Scene,
    count: usize,
) -> Withdrawals<S, OFFERED> {
    let saved = accepted::<S>(&scene.plan, &scene.before);
    Withdrawals {
        jobs: (0..count).map(|_| (*saved).clone()).collect(),
        saved,
        answers: 0,
    }
}

fn by_grants<S: Side>(scene: &Scene, count: usize) -> Withdrawals<S, false> {
    withdrawals(scene, count)
}

fn by_opens<S: Side>(scene: &Scene, count: usize) -> Withdrawals<S, true> {
    withdrawals(scene, count)
}

fn offers<S: Side>(scene: &Scene) -> Offers<S> {
    Offers {
        job: accepted::<S>(&scene.plan, &scene.before),
        answers: 0,
    }
}

fn replays<S: Side>(scene: &Scene) -> Replays<S> {
    let saved = accepted::<S>(&scene.plan, &scene.before);
    Replays {
        job: saved.clone(),
        saved,
        log: scene.timed.clone(),
        refusals: 0,
    }
}

fn lines<S: Side>(scene: &Scene) -> Lines<S> {
    Lines {
        job: accepted::<S>(&scene.plan, &scene.timed),
        buffer: [0xa5; 128],
        size: 0,
    }
}

fn labels<S: Side>(scene: &Scene, sheet: &[u8]) -> Labels<S> {
    Labels {
        job: accepted::<S>(&scene.plan, &scene.timed),
        sheet: sheet.to_vec(),
        start: 0,
        size: 0,
    }
}

/// A row of ticks; the calls of the scene are one operation each.
pub fn ticks(name: &str, scene: &Scene) -> Row {
    row!(
        name,
        "tick",
        call_places(&scene.timed).len(),
        calls,
        scene,
        1
    )
}

/// The same with choices that are drawn from the seed.
fn by_seed(name: &str, scene: &Scene) -> Row {
    let ticks = call_places(&scene.timed).len();
    row!(name, "tick", ticks, seeded_ticks, scene, ticks)
}

/// A row of acceptances.
pub fn acceptances(name: &str, plans: &[Vec<u8>]) -> Row {
    row!(name, "plan", plans.len(), accepts, plans)
}

/// A row of one log.
pub fn replay(name: &str, scene: &Scene) -> Row {
    assert!(inputs::has_quanta(scene), "{name} meets 13");
    row!(name, "log", 1, replays, scene)
}

/// The table's rows.
pub fn table() -> Vec<Row> {
    let mixed = inputs::mixed_log();
    let withdrawn = inputs::withdrawn();
    let short_lines = b"waiting\nrunning\non hold\ndone\n";
    let long_lines = [&b"x".repeat(999)[..], b"\n"].concat().repeat(4);
    vec![
        acceptances("accept-1024", &inputs::plans(1024, 16)),
        acceptances("accept-lasting", &inputs::lasting_plans(1024, 16)),
        ticks("tick-work-1", &inputs::working(1)),
        ticks("tick-work-8", &inputs::working(8)),
        ticks("tick-work-64", &inputs::working(64)),
        ticks("tick-lasting-64", &inputs::lasting()),
        ticks("tick-vain-8", &inputs::in_vain(8)),
        ticks("tick-vain-64", &inputs::in_vain(64)),
        ticks("tick-steal-64", &inputs::thieves()),
        ticks("tick-steal-long", &inputs::long_deque()),
        by_seed("tick-seeded-work-64", &inputs::seeded_work()),
        by_seed("tick-seeded-vain-64", &inputs::seeded_vain()),
        by_seed("tick-seeded-steal-64", &inputs::seeded_thieves()),
        row!("grant-withdraw-64", "grant", 16, by_grants, &withdrawn, 16),
        row!("grant-and-back-64", "round trip", 50, calls, &withdrawn, 50),
        row!("offer-withdraw", "pair", REPEATS, offers, &withdrawn),
        row!("offer-open-64", "pair", 16, by_opens, &withdrawn, 16),
        row!("line", "line", REPEATS, lines, &mixed),
        row!("label", "label", REPEATS, labels, &mixed, short_lines),
        row!("label-4000", "label", REPEATS, labels, &mixed, &long_lines),
        replay("replay-mixed", &mixed),
        replay("replay-gentle", &inputs::gentle_log()),
        replay("replay-64", &inputs::wide_log()),
        replay("replay-short", &inputs::short_log()),
    ]
}

/// The rows that show how costs grow: with the number of tasks, and with the number of workers.
pub fn growth() -> Vec<Row> {
    let powers = |most: u32| (0..=most).map(|power| 1usize << power);
    let plans = |tasks: usize| inputs::plans(tasks, 16);
    let accept = powers(10).map(|tasks| acceptances(&format!("accept {}", tasks), &plans(tasks)));
    let run = powers(10).map(|tasks| replay(&format!("run {}", tasks), &inputs::whole_run(tasks)));
    let work =
        powers(6).map(|workers| ticks(&format!("work {}", workers), &inputs::working(workers)));
    let steal =
        powers(6).map(|workers| ticks(&format!("vain {}", workers), &inputs::in_vain(workers)));
    accept.chain(run).chain(work).chain(steal).collect()
}
