//! Grant, offer, open, withdraw, tick and log.

use super::seed::{choice, next};
use super::{Job, Numbers, Tables, SIZES, WORKERS};

const MOST_QUANTA: u16 = 4_096;
/// The desires by responsiveness and power: the whole parts of R^k up to 64, of R = 2 to 7 and, at 12 to 20, of 1.2 to 2.0. Behind them are
/// zeros.
const DESIRES: [[u8; 32]; 32] = desires();
/// The bits of an index into these, which then needs no check.
const INDEX: u8 = 31;

const fn desires() -> [[u8; 32]; 32] {
    let mut desires = [[0; 32]; 32];
    let mut responsiveness = 2;
    while responsiveness <= 20 {
        let unit = if responsiveness < 12 { 1 } else { 10 };
        let (mut above, mut below, mut power) = (1u128, 1u128, 0);
        while above / below <= WORKERS as u128 {
            desires[responsiveness][power] = (above / below) as u8;
            above *= responsiveness as u128;
            below *= unit;
            power += 1;
        }
        responsiveness += 1;
    }
    desires
}

impl Job {
    /// A grant of any number of workers; refused with 11 to 13, 25 and 14.
    #[inline(never)]
    pub fn grant(&mut self, workers: u64) -> u8 {
        self.numbers.grant(&mut self.tables, workers)
    }

    /// An offer of any number of workers, which is noted; refused as a grant is.
    #[inline(never)]
    pub fn offer(&mut self, workers: u64) -> u8 {
        let answer = self.numbers.ask_grant(workers);
        if answer == 0 {
            self.numbers.note = workers as u8 + 1;
        }
        answer
    }

    /// The noted offer is opened with any number of workers; refused with 24 and 14.
    #[inline(never)]
    pub fn open(&mut self, workers: u64) -> u8 {
        let note = self.numbers.note;
        if note == 0 {
            return 24;
        }
        if workers >= u64::from(note) {
            return 14;
        }
        self.numbers.note = 0;
        self.numbers.begin(&mut self.tables, workers as usize);
        0
    }

    /// The noted offer is dropped; refused with 24.
    #[inline(never)]
    pub fn withdraw(&mut self) -> u8 {
        if self.numbers.note == 0 {
            return 24;
        }
        self.numbers.note = 0;
        0
    }

    /// A tick with a choice for each granted worker; refused with 11 and 15 to 17.
    #[inline(never)]
    pub fn tick(&mut self, choices: &[u8]) -> u8 {
        self.numbers.tick(&mut self.tables, choices)
    }

    /// A tick whose choices are drawn from a seed, which moves on; refused with 11 and 15.
    #[inline(never)]
    pub fn tick_seeded(&mut self, seed: &mut u32) -> u8 {
        self.numbers.tick_seeded(&mut self.tables, seed)
    }

    /// A log of any bytes; 18 where an entry is broken. `refusals` becomes the count of refused calls.
    #[inline(never)]
    pub fn run_log(&mut self, log: &[u8], refusals: &mut u64) -> u8 {
        let (tables, numbers) = (&mut self.tables, &mut self.numbers);
        let (mut refused, mut rest, mut answer) = (0, log, 0);
        while let Some((&head, after)) = rest.split_first() {
            if head < 128 {
                refused += u64::from(numbers.grant(tables, u64::from(head)) != 0);
                rest = after;
                continue;
            }
            let count = usize::from(head & 127);
            if count > after.len() {
                answer = 18;
                break;
            }
            let (choices, after) = after.split_at(count);
            refused += u64::from(numbers.tick(tables, choices) != 0);
            rest = after;
        }
        *refusals = refused;
        answer
    }
}

impl Numbers {
    #[inline(always)]
    fn grant(&mut self, tables: &mut Tables, workers: u64) -> u8 {
        let answer = self.ask_grant(workers);
        if answer == 0 {
            self.begin(tables, workers as usize);
        }
        answer
    }

    /// The questions of a grant and of an offer.
    #[inline(always)]
    fn ask_grant(&self, workers: u64) -> u8 {
        if self.done == self.tasks {
            return 11;
        }
        if self.is_open {
            return 12;
        }
        if self.begun == MOST_QUANTA {
            return 13;
        }
        if self.note != 0 {
            return 25;
        }
        if workers > u64::from(self.desire) {
            return 14;
        }
        0
    }

    /// A quantum begins with so many workers, at most the desire.
    #[inline(always)]
    fn begin(&mut self, tables: &mut Tables, granted: usize) {
        let before = usize::from(self.workers);
        if granted < before {
            // SAFETY: `before` is at most 64.
            unsafe { self.withdraw(tables, granted, before) };
        } else if granted > before {
            tables.ends[SIZES + before..SIZES + granted].fill(0);
        }
        if !self.started && granted > 0 {
            tables.ends[0] = 0;
            tables.ends[SIZES] = 1;
            self.started = true;
        }
        self.workers = granted as u8;
        self.usage = 0;
        self.is_open = true;
        self.ticks = 0;
        self.begun += 1;
    }

    /// The deques of workers `from` up to `to` that are not empty join the end of the muggable ones, the last worker's first.
    ///
    /// # Safety
    /// `to` is at most 64.
    #[inline(always)]
    unsafe fn withdraw(&mut self, tables: &mut Tables, from: usize, to: usize) {
        let ends = tables.ends.as_mut_ptr();
        let mut end = self.head + self.waiting;
        for worker in (from..to).rev() {
            let size = *ends.add(SIZES + worker);
            if size != 0 {
                let place = WORKERS + end % WORKERS;
                *ends.add(place) = *ends.add(worker);
                *ends.add(SIZES + place) = size;
                end += 1;
            }
        }
        self.waiting = end - self.head;
    }

    #[inline(always)]
    fn tick(&mut self, tables: &mut Tables, choices: &[u8]) -> u8 {
        let answer = self.ask_tick();
        if answer != 0 {
            return answer;
        }
        let workers = self.workers;
        if choices.len() != usize::from(workers) {
            return 16;
        }
        if choices
            .iter()
            .fold(false, |bad, &choice| bad | (choice >= workers))
        {
            return 17;
        }
        // SAFETY: there are at most 64 choices, each below the number of workers.
        unsafe { self.take_tick(tables, choices.iter(), |&choice| usize::from(choice)) };
        0
    }

    #[inline(always)]
    fn tick_seeded(&mut self, tables: &mut Tables, seed: &mut u32) -> u8 {
        let answer = self.ask_tick();
        if answer == 0 {
            let mut state = *seed;
            let draws = (0..usize::from(self.workers)).map(|_| {
                state = next(state);
                state
            });
            // SAFETY: there is a choice for each of the at most 64 workers, below their number.
            unsafe { self.take_tick(tables, draws, choice(self.workers)) };
            *seed = state;
        }
        answer
    }

    /// The questions of a tick, but those about its choices.
    #[inline(always)]
    fn ask_tick(&self) -> u8 {
        if self.done == self.tasks {
            return 11;
        }
        if !self.is_open {
            return 15;
        }
        0
    }

    /// A tick that is accepted: what each worker has at its turn, and how that becomes its choice.
    ///
    /// # Safety
    /// There are at most 64 turns, and each choice is below the number of workers.
    #[inline(always)]
    unsafe fn take_tick<T, C>(&mut self, tables: &mut Tables, turns: T, choice: C)
    where
        T: ExactSizeIterator,
        C: Fn(T::Item) -> usize,
    {
        if turns.len() != 0 {
            if self.is_lasting {
                self.lasting_cycles(tables, turns, choice);
            } else {
                self.cycles::<false, _, _>(tables, turns, choice);
            }
        }
        self.ticks += 1;
        if self.ticks == self.quantum_length && self.done != self.tasks {
            self.close_quantum();
        }
    }

    /// The workers' cycles; `LASTING` where a task may have more than one tick. The counts of mug and steal cycles follow at the end from the
    /// muggable deques that are left. Once the last task is worked all deques are empty, so that the workers after the finisher steal in
    /// vain, as request U6 asks.
    ///
    /// # Safety
    /// As for `take_tick`.
    #[inline(always)]
    unsafe fn cycles<const LASTING: bool, T, C>(&mut self, tables: &mut Tables, turns: T, choice: C)
    where
        T: ExactSizeIterator,
        C: Fn(T::Item) -> usize,
    {
        let workers = turns.len() as u64;
        let (waiting, mut left) = (self.waiting, self.waiting);
        let (mut works, mut stays, mut successes) = (0, 0, 0);
        for (worker, turn) in turns.enumerate() {
            let size = *tables.ends.get_unchecked(SIZES + worker);
            if size != 0 {
                works += 1;
                let task = usize::from(*tables.ends.get_unchecked(worker));
                if tables.is_last_tick::<LASTING>(task) {
                    tables.work(worker, size, task);
                } else {
                    stays += 1;
                }
            } else if left != 0 {
                tables.mug(worker, (self.head + waiting - left) % WORKERS);
                left -= 1;
            } else {
                let victim = choice(turn);
                let size = *tables.ends.get_unchecked(SIZES + victim);
                if size >= 2 {
                    tables.steal(worker, victim, size);
                    successes += 1;
                }
            }
        }
        let mugs = waiting - left;
        self.head = (self.head + mugs) % WORKERS;
        self.waiting = left;
        self.done += (works - stays) as u16;
        self.works += works;
        self.mugs += mugs as u64;
        self.steals += workers - works - mugs as u64;
        self.successes += successes;
        self.usage += works + mugs as u64;
    }

    /// The same where tasks last; a call of its own, so that a tick of form 1 stays short.
    ///
    /// # Safety
    /// As for `take_tick`.
    #[inline(never)]
    unsafe fn lasting_cycles<T, C>(&mut self, tables: &mut Tables, turns: T, choice: C)
    where
        T: ExactSizeIterator,
        C: Fn(T::Item) -> usize,
    {
        self.cycles::<true, _, _>(tables, turns, choice);
    }

    /// The quantum's end.
    #[inline(always)]
    fn close_quantum(&mut self) {
        let owed =
            u64::from(self.utilization) * u64::from(self.quantum_length) * u64::from(self.workers);
        let row = &DESIRES[usize::from(self.responsiveness & INDEX)];
        let desire = |power: u8| row[usize::from(power & INDEX)];
        if 100 * self.usage < owed {
            self.power -= 1;
            self.desire = desire(self.power);
        } else if self.workers == self.desire {
            let next = desire(self.power + 1);
            if next != 0 {
                self.power += 1;
                self.desire = next;
            }
        }
        self.is_open = false;
    }
}

impl Tables {
    /// A tick of the task is done; whether it was the last, as the only one is.
    ///
    /// # Safety
    /// The task is below 1,024 and has ticks left; one, unless `LASTING`.
    #[inline(always)]
    unsafe fn is_last_tick<const LASTING: bool>(&mut self, task: usize) -> bool {
        let mut left = 0;
        if LASTING {
            left = *self.left.get_unchecked(task) - 1;
        }
        *self.left.get_unchecked_mut(task) = left;
        left == 0
    }

    /// The front task of the worker's deque of this size had its last tick.
    ///
    /// # Safety
    /// The worker is below 64 and its deque has this size, above 0, and this task at its front.
    #[inline(always)]
    unsafe fn work(&mut self, worker: usize, size: u16, task: usize) {
        let one = *self.first.get_unchecked(task);
        let two = *self.second.get_unchecked(task);
        let mut deque = (*self.next.get_unchecked(task), size - 1);
        if two != 0 {
            deque = self.release(two, deque);
        }
        if one != 0 {
            deque = self.release(one, deque);
        }
        *self.ends.get_unchecked_mut(worker) = deque.0;
        *self.ends.get_unchecked_mut(SIZES + worker) = deque.1;
    }

    /// A predecessor of the task was worked: where it was the last one, the task goes to the front of the deque (front and size).
    ///
    /// # Safety
    /// The task is below 1,024.
    #[inline(always)]
    unsafe fn release(&mut self, task: u16, (front, size): (u16, u16)) -> (u16, u16) {
        let at = usize::from(task);
        let awaited = *self.pending.get_unchecked(at) - 1;
        *self.pending.get_unchecked_mut(at) = awaited;
        if awaited != 0 {
            return (front, size);
        }
        *self.next.get_unchecked_mut(at) = front;
        (task, size + 1)
    }

    /// The oldest muggable deque becomes the worker's.
    ///
    /// # Safety
    /// Both are below 64.
    #[inline(always)]
    unsafe fn mug(&mut self, worker: usize, head: usize) {
        *self.ends.get_unchecked_mut(worker) = *self.ends.get_unchecked(WORKERS + head);
        *self.ends.get_unchecked_mut(SIZES + worker) =
            *self.ends.get_unchecked(SIZES + WORKERS + head);
    }

    /// The back half, rounded down, of a deque of this size, two or more, becomes the thief's deque.
    ///
    /// # Safety
    /// Both are below 64.
    #[inline(always)]
    unsafe fn steal(&mut self, thief: usize, victim: usize, size: u16) {
        let taken = size / 2;
        let left = size - taken;
        let mut task = *self.ends.get_unchecked(victim);
        for _ in 0..left {
            task = *self.next.get_unchecked(usize::from(task));
        }
        *self.ends.get_unchecked_mut(SIZES + victim) = left;
        *self.ends.get_unchecked_mut(thief) = task;
        *self.ends.get_unchecked_mut(SIZES + thief) = taken;
    }
}
