//! What a job's memory holds, for consoles and tests: the deques, the worked tasks, the ticks left, the open quantum, the noted offer, the
//! plan.
//!
//! This reads the memory in plain Rust, by the view of `crates/memory/specs/Jobs.antt`, over which the library's promises are
//! stated. It is written after these definitions and not itself proved.
//!
//! ```
//! use jirvaldo::{inspect::State, Job};
//!
//! let plan = [0x15, 0x40, 0x00, 0x08, 0x03, 0x80, 0x08, 0x02, 0x40, 0x18, 0x00, 0x40, 0x18, 0x00, 0, 0, 0];
//! let mut job = Job::accept(&plan)?;
//! job.grant(1)?;
//! job.tick(&[0])?;
//! let state = State::of(&job);
//! assert_eq!(state.worked, [true, false, false, false]);
//! assert_eq!(state.deques, [vec![1, 2]]);
//! assert_eq!(state.open_ticks, Some(1));
//! assert_eq!(state.plan.successors, [vec![1, 2], vec![3], vec![3], vec![]]);
//! assert_eq!((state.plan.durations, state.left), (vec![1, 1, 1, 1], vec![0, 1, 1, 1]));
//! # Ok::<(), jirvaldo::Refusal>(())
//! ```
//!
//! A plan of form 2, one task of three ticks, after the first of them:
//!
//! ```
//! use jirvaldo::{inspect::View, Job};
//!
//! let mut job = Job::accept(&[0x25, 0x40, 0x00, 0x08, 0x00, 0, 0, 0, 3])?;
//! job.grant(1)?;
//! job.tick(&[0])?;
//! let view = View::of(&job);
//! assert_eq!((view.duration(0), view.ticks_left(0)), (3, 2));
//! assert!(!view.is_worked(0));
//! assert_eq!(view.deque(0).collect::<Vec<_>>(), [0]);
//! # Ok::<(), jirvaldo::Refusal>(())
//! ```
//!
//! A noted offer:
//!
//! ```
//! use jirvaldo::{inspect::View, Job};
//!
//! let mut job = Job::accept(&[0x15, 0x40, 0x00, 0x08, 0x00, 0, 0, 0])?;
//! assert_eq!(View::of(&job).offer(), None);
//! job.offer(0)?;
//! assert_eq!(View::of(&job).offer(), Some(0));
//! job.withdraw()?;
//! assert_eq!(View::of(&job).offer(), None);
//! # Ok::<(), jirvaldo::Refusal>(())
//! ```
//!
//! A plan of form 3, whose desire grows by tenths:
//!
//! ```
//! use jirvaldo::inspect::{Growth, View};
//! use jirvaldo::Job;
//!
//! // form 3, 15 tenths, D = 80, L = 1, N = 4; each task is followed by the next one
//! let plan = [0x37, 0xd0, 0x00, 0x04, 0x03, 0x40, 0x08, 0x00, 0x40, 0x10, 0x00, 0x40, 0x18, 0x00, 0, 0, 0];
//! let mut job = Job::accept(&plan)?;
//! assert_eq!(View::of(&job).growth(), Growth::Tenths(15));
//! for (power, desire) in [(0, 1), (1, 1), (2, 2)] {
//!     let view = View::of(&job);
//!     assert_eq!((view.power(), view.desire()), (power, desire)); // 1.5^2 is 2.25
//!     job.grant(job.desire())?;
//!     job.tick(&vec![0; desire.into()])?;
//! }
//! # Ok::<(), jirvaldo::Refusal>(())
//! ```

#![forbid(unsafe_code)]

use crate::raw::Memory;
use crate::{Job, MOST_DEQUES, MOST_WORKERS};

/// How the desire of a job grows and falls: the responsiveness (R) of its plan, and the unit. Either way the job has a power, k, which is 0
/// at first: an inefficient quantum lowers it by one, and an efficient and satisfied one raises it by one as long as the desire is then at
/// most 64.
#[derive(Clone, Copy, Debug, PartialEq, Eq)]
pub enum Growth {
    /// Forms 1 and 2: the desire is multiplied and divided by R, 2 to 7, so that it is R^k.
    Factor(u8),
    /// Form 3: R is so many tenths, 12 to 20, and the desire is the whole part of (tenths / 10)^k.
    Tenths(u8),
}

/// A look into a job, which copies nothing. Tasks and workers are numbered from 0; of a number past the last nothing is shown: no
/// successors, no ticks, an empty deque, not worked.
#[derive(Clone, Copy)]
pub struct View<'a> {
    memory: &'a Memory,
}

impl<'a> View<'a> {
    /// A look into this job.
    pub fn of(job: &'a Job) -> View<'a> {
        View {
            memory: job.memory(),
        }
    }

    fn word(self, place: usize) -> u64 {
        self.memory.words()[place]
    }
}

/// The plan.
impl<'a> View<'a> {
    /// The number of tasks (N).
    pub fn tasks(self) -> usize {
        usize::from(self.word(0) as u16)
    }

    /// How the desire grows, by the responsiveness (R).
    pub fn growth(self) -> Growth {
        let responsiveness = self.word(10) as u8;
        match self.word(18) {
            0 => Growth::Factor(responsiveness),
            _ => Growth::Tenths(responsiveness),
        }
    }

    /// The utilization in percent (D), 1 to 100.
    pub fn utilization(self) -> u8 {
        self.word(11) as u8
    }

    /// The quantum length in ticks (L), 1 to 65,535; in form 3 to 16,383.
    pub fn quantum_length(self) -> u16 {
        self.word(12) as u16
    }

    /// The successors of a task, none, one or two, in the order of the plan's fields.
    pub fn successors(self, task: usize) -> impl Iterator<Item = u16> + 'a {
        let fields = [self.memory.first(), self.memory.second()];
        let used = fields.into_iter().filter_map(move |field| field.get(task));
        used.copied().take_while(|&successor| successor != 0)
    }

    /// The ticks that a task lasts, 1 to 255; 0 past the last task.
    pub fn duration(self, task: usize) -> u8 {
        self.span(task)[0]
    }

    /// Of each task, in number order: the ticks that it lasts.
    pub fn durations(self) -> impl Iterator<Item = u8> + 'a {
        (0..self.tasks()).map(move |task| self.duration(task))
    }

    /// A task's ticks, and those left: the high and the low byte of its span. 0 past the last task.
    fn span(self, task: usize) -> [u8; 2] {
        let span = self.memory.spans().get(task);
        span.filter(|_| task < self.tasks())
            .map_or([0; 2], |span| span.to_be_bytes())
    }
}

/// The state.
impl<'a> View<'a> {
    /// Whether a task is worked: all its ticks are done.
    pub fn is_worked(self, task: usize) -> bool {
        task < self.tasks() && self.ticks_left(task) == 0
    }

    /// Of each task, in number order: it is worked.
    pub fn worked(self) -> impl Iterator<Item = bool> + 'a {
        self.left().map(|left| left == 0)
    }

    /// The ticks of a task that are not done yet, 0 to 255; 0 past the last task. Only a task at the front of a deque has some done and some
    /// left.
    pub fn ticks_left(self, task: usize) -> u8 {
        self.span(task)[1]
    }

    /// Of each task, in number order: its ticks that are not done yet.
    pub fn left(self) -> impl Iterator<Item = u8> + 'a {
        (0..self.tasks()).map(move |task| self.ticks_left(task))
    }

    /// The allotment: how many workers are granted.
    pub fn allotment(self) -> usize {
        usize::from(self.word(1) as u8)
    }

    /// The deque of a worker, from its front to its back.
    pub fn deque(self, worker: usize) -> impl Iterator<Item = u16> + 'a {
        self.deque_at((worker < self.allotment()).then_some(worker))
    }

    /// How many muggable deques wait.
    pub fn muggable_deques(self) -> usize {
        self.word(9) as usize
    }

    /// A muggable deque, from its front to its back; 0 is the oldest, the one that is mugged next.
    pub fn muggable_deque(self, age: usize) -> impl Iterator<Item = u16> + 'a {
        let ring = (self.word(8) as usize).wrapping_add(age) % MOST_DEQUES;
        self.deque_at((age < self.muggable_deques()).then_some(MOST_WORKERS + ring))
    }

    /// How many deques are in use: the non-empty ones of the granted workers and the muggable ones together. They number at most the
    /// largest count that was granted or opened so far, and so at most [`MOST_DEQUES`]. The present allotment alone does not bound them:
    /// where two workers were withdrawn and one came back, it has one deque, and the other still waits.
    ///
    /// ```
    /// use jirvaldo::{inspect::View, Job};
    ///
    /// // form 2, R = 2, D = 1, L = 1, N = 4; task 0 is followed by 1 and 2, of two ticks each, and these by 3
    /// let plan = [0x24, 0x04, 0, 0x04, 3, 0x80, 0x08, 2, 1, 0x40, 0x18, 0, 2, 0x40, 0x18, 0, 2, 0, 0, 0, 1];
    /// let mut job = Job::accept(&plan)?;
    /// assert_eq!(View::of(&job).deques_in_use(), 0);
    /// job.grant(1)?; // task 0 comes to worker 0
    /// assert_eq!(View::of(&job).deques_in_use(), 1);
    /// job.tick(&[0])?;
    /// job.grant(2)?;
    /// job.tick(&[0, 0])?; // worker 1 takes task 2 from worker 0
    /// assert_eq!(View::of(&job).deques_in_use(), 2);
    /// job.grant(0)?; // both deques wait
    /// assert_eq!(View::of(&job).deques_in_use(), 2);
    /// job.tick(&[])?;
    /// job.grant(1)?;
    /// job.tick(&[0])?; // worker 0 mugs one of them
    /// let view = View::of(&job);
    /// assert_eq!((view.allotment(), view.muggable_deques()), (1, 1));
    /// assert_eq!(view.deques_in_use(), 2);
    /// # Ok::<(), jirvaldo::Refusal>(())
    /// ```
    pub fn deques_in_use(self) -> usize {
        let workers = 0..self.allotment();
        let busy = workers.filter(|&worker| self.deque(worker).next().is_some());
        busy.count() + self.muggable_deques()
    }

    /// The deque at a place of `ends`: its front and its size stand side by side. What its links hold past the size is not read.
    fn deque_at(self, place: Option<usize>) -> impl Iterator<Item = u16> + 'a {
        let at = |list: &[u16], place: usize| list.get(place).copied().unwrap_or(0);
        let (next, ends) = (self.memory.next(), self.memory.ends());
        let size = place.map_or(0, |place| at(ends, 2 * place + 1));
        let front = place.map(|place| at(ends, 2 * place));
        let links = std::iter::successors(front, move |&task| Some(at(next, task.into())));
        links.take(size.into())
    }

    /// The desire: how many workers the job wants next.
    pub fn desire(self) -> u8 {
        self.word(13) as u8
    }

    /// The power (k): the desire is the whole part of R to this power.
    pub fn power(self) -> u8 {
        self.word(19) as u8
    }

    /// Whether any worker was ever granted.
    pub fn started(self) -> bool {
        self.word(14) != 0
    }

    /// The ticks that the open quantum has had; `None` where none is open. A finished job keeps its last quantum open.
    pub fn open_ticks(self) -> Option<u16> {
        (self.word(15) != 0).then_some(self.word(16) as u16)
    }

    /// Quanta begun, those of 0 workers too.
    pub fn quanta_begun(self) -> u16 {
        self.word(17) as u16
    }

    /// The workers of the noted offer, 0 to 64; `None` where none is noted.
    pub fn offer(self) -> Option<u8> {
        self.word(20).checked_sub(1).map(|workers| workers as u8)
    }

    /// Work cycles.
    pub fn work(self) -> u64 {
        self.word(3)
    }

    /// Mug cycles.
    pub fn mug(self) -> u64 {
        self.word(4)
    }

    /// Steal cycles.
    pub fn steal(self) -> u64 {
        self.word(5)
    }

    /// Steal cycles that took tasks.
    pub fn successes(self) -> u64 {
        self.word(6)
    }

    /// Work and mug cycles of the open quantum, or of the last one where none is open.
    pub fn usage(self) -> u64 {
        self.word(7)
    }
}

/// A plan, copied out of a job.
#[derive(Clone, Debug, PartialEq, Eq)]
pub struct Plan {
    /// How the desire grows, by the responsiveness (R).
    pub growth: Growth,
    /// The utilization in percent (D).
    pub utilization: u8,
    /// The quantum length in ticks (L).
    pub quantum_length: u16,
    /// The successors of each task, in the order of the plan's fields.
    pub successors: Vec<Vec<u16>>,
    /// The ticks that each task lasts, 1 to 255; each is 1 in a plan of form 1 or 3.
    pub durations: Vec<u8>,
}

/// All that a job shows, copied out of it. Two jobs with equal states answer every later call alike.
#[derive(Clone, Debug, PartialEq, Eq)]
pub struct State {
    /// The job's plan.
    pub plan: Plan,
    /// Of each task, in number order: it is worked.
    pub worked: Vec<bool>,
    /// Of each task, in number order: its ticks that are not done yet.
    pub left: Vec<u8>,
    /// The deques of the granted workers, each from its front to its back.
    pub deques: Vec<Vec<u16>>,
    /// The muggable deques, oldest first, in the order in which they are mugged.
    pub muggable: Vec<Vec<u16>>,
    /// The desire.
    pub desire: u8,
    /// The power (k): the desire is the whole part of R to this power.
    pub power: u8,
    /// The allotment.
    pub allotment: usize,
    /// Whether any worker was ever granted.
    pub started: bool,
    /// The ticks that the open quantum has had; `None` where none is open.
    pub open_ticks: Option<u16>,
    /// Quanta begun.
    pub quanta_begun: u16,
    /// The workers of the noted offer; `None` where none is noted.
    pub offer: Option<u8>,
    /// Work cycles.
    pub work: u64,
    /// Mug cycles.
    pub mug: u64,
    /// Steal cycles.
    pub steal: u64,
    /// Steal cycles that took tasks.
    pub successes: u64,
    /// Work and mug cycles of the open quantum, or of the last one where none is open.
    pub usage: u64,
}

impl Plan {
    /// The plan of a job.
    pub fn of(job: &Job) -> Plan {
        let view = View::of(job);
        let tasks = 0..view.tasks();
        Plan {
            growth: view.growth(),
            utilization: view.utilization(),
            quantum_length: view.quantum_length(),
            successors: tasks.map(|task| view.successors(task).collect()).collect(),
            durations: view.durations().collect(),
        }
    }
}

impl State {
    /// The state of a job.
    pub fn of(job: &Job) -> State {
        let view = View::of(job);
        let (workers, ages) = (0..view.allotment(), 0..view.muggable_deques());
        State {
            plan: Plan::of(job),
            worked: view.worked().collect(),
            left: view.left().collect(),
            deques: workers.map(|w| view.deque(w).collect()).collect(),
            muggable: ages.map(|a| view.muggable_deque(a).collect()).collect(),
            desire: view.desire(),
            power: view.power(),
            allotment: view.allotment(),
            started: view.started(),
            open_ticks: view.open_ticks(),
            quanta_begun: view.quanta_begun(),
            offer: view.offer(),
            work: view.work(),
            mug: view.mug(),
            steal: view.steal(),
            successes: view.successes(),
            usage: view.usage(),
        }
    }
}
