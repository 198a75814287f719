//! How many deques are in use at one time: the workers' non-empty ones and the muggable ones together.

use jirvaldo::inspect::{State, View};
use jirvaldo::{Job, Refusal, MOST_DEQUES, MOST_WORKERS};

use super::{gentle, job, lasting, nested, plan, refused, wide, DIAMOND};

/// A job, and the largest count that its calls granted so far.
struct Counted {
    job: Job,
    largest: usize,
}

impl Counted {
    fn new(plan: &[u8]) -> Counted {
        let job = job(plan);
        Counted { job, largest: 0 }
    }

    /// The deques in use: as many as the whole state shows, and no more than the largest count granted. They hold no task twice and none
    /// that is worked, and so no more than the plan has.
    fn deques(&self) -> usize {
        let state = State::of(&self.job);
        let busy = state.deques.iter().filter(|deque| !deque.is_empty());
        let in_use: Vec<&Vec<u16>> = busy.chain(&state.muggable).collect();
        assert_eq!(View::of(&self.job).deques_in_use(), in_use.len());
        assert!(in_use.len() <= self.largest && self.largest <= MOST_DEQUES);
        let tasks = || in_use.iter().flat_map(|deque| deque.iter());
        let mut seen = state.worked;
        for &task in tasks() {
            assert!(!std::mem::replace(&mut seen[usize::from(task)], true));
        }
        assert!(tasks().count() <= seen.len());
        in_use.len()
    }

    /// An accepted grant or open of so many: as many deques as before, and one more where it is the first above 0.
    fn given(&mut self, workers: usize, call: impl FnOnce(&mut Job, u64) -> Result<(), Refusal>) {
        let first = workers > 0 && !View::of(&self.job).started();
        let before = self.deques();
        assert_eq!(call(&mut self.job, workers as u64), Ok(()));
        self.largest = self.largest.max(workers);
        assert_eq!(self.deques(), before + usize::from(first));
    }

    fn grant(&mut self, workers: usize) {
        self.given(workers, Job::grant);
    }

    fn open(&mut self, workers: usize) {
        self.given(workers, Job::open);
    }

    /// An accepted offer or withdrawal: as many deques as before, and nothing is granted.
    fn noted(&mut self, call: impl FnOnce(&mut Job) -> Result<(), Refusal>) {
        let before = self.deques();
        assert_eq!(call(&mut self.job), Ok(()));
        assert_eq!(self.deques(), before);
    }

    /// An accepted tick: one deque more for each steal that succeeds, and at most one fewer for each work cycle.
    fn tick(&mut self, choices: &[u8]) {
        let (before, counted) = (self.deques(), self.job.counters(0));
        assert_eq!(self.job.tick(choices), Ok(()));
        let (after, now) = (self.deques(), self.job.counters(0));
        let added = before + (now.successes - counted.successes) as usize;
        let worked = (now.work - counted.work) as usize;
        assert!(after <= added && added <= after + worked);
    }
}

/// A tree that forks to 128 leaves, 255 tasks, and joins them again with 127 more; R = 2, D = 1 and L = 1.
fn fork_join() -> Vec<u8> {
    let mut tasks: Vec<Vec<u32>> = (0..127).map(|t| vec![2 * t + 1, 2 * t + 2]).collect();
    tasks.extend((0..254).map(|joined| vec![255 + joined / 2]));
    tasks.push(vec![]);
    let lists: Vec<&[u32]> = tasks.iter().map(Vec::as_slice).collect();
    plan(2, 1, 1, &lists)
}

/// Tasks that last meet 2: in two deques, with both muggable, and with one of them mugged by a worker alone, up to its last tick.
#[test]
fn two_of_tasks_that_last() {
    let mut job = Counted::new(&lasting(&plan(2, 1, 1, &DIAMOND), &[1, 2, 2, 1]));
    let quanta: [(&[u8], usize, usize); 10] = [
        (&[], 0, 0),
        (&[0], 1, 0),
        (&[0, 0], 2, 0), // task 1 is begun, and worker 1 takes task 2
        (&[], 2, 2),
        (&[0], 2, 1), // task 2 is mugged
        (&[0], 2, 1),
        (&[0], 1, 1),
        (&[0], 1, 0), // task 1 is mugged
        (&[0], 1, 0),
        (&[0], 0, 0),
    ];
    for (choices, in_use, muggable) in quanta {
        job.grant(choices.len());
        job.tick(choices);
        assert_eq!(job.deques(), in_use);
        assert_eq!(View::of(&job.job).muggable_deques(), muggable);
    }
    assert_eq!(&*job.job.line(0), "3 4 4 4 1 6 2 1 1 0");
}

/// 1, 2, 4 .. 64 workers come to have a deque each, every new one by a theft. Then a grant of 0 fills the ring of muggable deques, and as
/// many workers mug them in one tick, the highest worker's first. Where some were mugged before, the ring's oldest place is not its first.
#[test]
fn a_full_ring_of_muggable_deques() {
    for mugged_before in [0, 1, 2, 32] {
        let mut job = Counted::new(&fork_join());
        while job.largest < MOST_WORKERS {
            let workers = job.job.desire() as usize;
            job.grant(workers);
            let robbed = |worker| worker % (workers / 2).max(1);
            let choices: Vec<u8> = (0..workers).map(|w| robbed(w) as u8).collect();
            job.tick(&choices);
            assert_eq!(job.deques(), workers);
            if workers == mugged_before {
                withdrawn_and_mugged(&mut job, workers);
            }
        }
        withdrawn_and_mugged(&mut job, MOST_DEQUES);
        let counters = job.job.counters(0);
        assert_eq!((counters.work, counters.successes), (64, 63));
        assert_eq!(counters.mug, (mugged_before + MOST_DEQUES) as u64);
        while !job.job.is_finished() {
            job.grant(MOST_WORKERS);
            job.tick(&[0; MOST_WORKERS]);
        }
        assert_eq!((job.deques(), job.job.counters(0).work), (0, 382));
    }
}

/// All workers, of whom each has a deque, are withdrawn at once; as many come back, and in one tick each mugs.
fn withdrawn_and_mugged(job: &mut Counted, workers: usize) {
    let mut turned = State::of(&job.job).deques;
    turned.reverse();
    job.grant(0);
    assert_eq!(State::of(&job.job).muggable, turned);
    assert_eq!(job.deques(), workers);
    job.tick(&[]);
    job.grant(workers);
    job.tick(&vec![0; workers]);
    let state = State::of(&job.job);
    assert_eq!((state.deques, state.muggable.len()), (turned, 0));
    assert_eq!(job.deques(), workers);
}

/// In one tick worker 0 takes a task from worker 1, which then works the other one: one deque before, two in the middle, one after. Where
/// that task lasts two ticks both are still there after it.
#[test]
fn more_in_the_middle_of_a_tick() {
    for (ticks_of_9, worker_1, in_use) in [(1, vec![], 1), (2, vec![9], 2)] {
        let mut ticks = [1; 13];
        ticks[9] = ticks_of_9;
        let mut job = Counted::new(&lasting(nested(), &ticks));
        let quanta: [&[u8]; 8] = [
            &[0],
            &[0],
            &[0, 0], // worker 1 takes 4 and 2
            &[],
            &[0, 0], // worker 0 mugs these, and worker 1 mugs 5 and 6
            &[0, 0],
            &[0, 0],
            &[0, 0], // worker 0 has none left, and steals from itself
        ];
        for choices in quanta {
            job.grant(choices.len());
            job.tick(choices);
        }
        let shown = |job: &Counted| (job.deques(), job.job.counters(0).successes);
        assert_eq!(State::of(&job.job).deques, [vec![], vec![9, 6]]);
        assert_eq!(shown(&job), (1, 1));
        job.grant(2);
        job.tick(&[1, 0]);
        assert_eq!(State::of(&job.job).deques, [vec![6], worker_1]);
        assert_eq!(shown(&job), (in_use, 2));
        assert_eq!(job.largest, 2);
    }
}

/// Four are wanted and offered again and again, but never more than two are opened: what is offered, withdrawn or refused does not count.
#[test]
fn offers_count_as_they_are_opened() {
    let mut job = Counted::new(&fork_join());
    for choices in [&[0][..], &[0, 0]] {
        job.noted(|j| j.offer(choices.len() as u64));
        job.open(choices.len());
        job.tick(choices);
    }
    let mut met = 0;
    for workers in [2, 2, 1, 2, 0].into_iter().cycle() {
        assert_eq!(job.job.desire(), 4);
        job.noted(|j| j.offer(4));
        refused(&mut job.job, 25, |j| j.grant(4));
        refused(&mut job.job, 14, |j| j.open(5));
        job.noted(|j| j.withdraw());
        refused(&mut job.job, 14, |j| j.grant(5));
        job.noted(|j| j.offer(4));
        job.open(workers);
        job.tick(&vec![0; workers]);
        met += usize::from(job.deques() == 2);
        if job.job.is_finished() {
            break;
        }
    }
    assert_eq!(job.largest, 2);
    assert!(met > 100);
}

/// Plans of each form with any grants, openings and choices; each comes to have more deques in use than workers granted.
#[test]
fn any_calls_in_each_form() {
    let ticks: Vec<u8> = (0..382).map(|task| 1 + task as u8 % 3).collect();
    let lasting = lasting(&fork_join(), &ticks);
    for plan in [fork_join(), wide(40), gentle(&wide(40), 12), lasting] {
        let (mut job, mut bits) = (Counted::new(&plan), 1_u32);
        let mut below = |bound: usize| {
            bits = bits.wrapping_mul(1_664_525).wrapping_add(1_013_904_223);
            (bits >> 16) as usize % bound
        };
        let mut above_the_granted = false;
        while !job.job.is_finished() {
            let desire = job.job.desire() as usize;
            let less = below(4) / 3 * below(desire + 1);
            let workers = desire - less;
            if below(2) == 0 {
                job.grant(workers);
            } else {
                job.noted(|j| j.offer(desire as u64));
                job.open(workers);
            }
            let choices: Vec<u8> = (0..workers).map(|_| below(workers) as u8).collect();
            job.tick(&choices);
            above_the_granted |= job.deques() > workers;
        }
        assert!(above_the_granted && job.largest > 32);
    }
}
