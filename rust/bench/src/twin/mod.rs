//! The twin: document 01's job in plain Rust with the proved library's arrays, tuned for speed. It answers with document 01's numbers, 0
//! for none, and leaves the job as it was where it refuses. Its numbers are fields of their native widths, moved in place.
//!
//! It skips bounds checks where an invariant of the job stands for them:
//! - a task number in `first`, `second`, `ends` or `next` is below 1,024: acceptance checks the first two, and the others hold only those;
//! - `workers` and `desire` are at most 64, `note` is at most the desire and one more, `head` is below 64, `waiting` is at most 64.
//!
//! A task has its ticks left in `left`, and is worked where none are. In a plan of form 1 or 3 a task's first tick is its last, so that a
//! tick of such a job does not ask for it. The desire is looked up by `responsiveness` and `power`, in plans of all forms.
//!
//! The fields are private, so nothing else can break them.

mod calls;
mod plan;
mod seed;
mod text;

/// At most this many tasks.
pub const MOST_TASKS: usize = 1024;
/// Places of workers in `ends`; as many places of a ring of muggable deques follow.
const WORKERS: usize = 64;
/// The size of the deque at a place stands so many behind its front.
const SIZES: usize = 128;

/// A job. The arrays but `left` are the proved library's, and mean the same.
#[repr(C)]
#[derive(Clone)]
pub struct Job {
    tables: Tables,
    numbers: Numbers,
}

#[repr(C)]
#[derive(Clone)]
struct Tables {
    first: [u16; MOST_TASKS],
    second: [u16; MOST_TASKS],
    pending: [u8; MOST_TASKS],
    left: [u8; MOST_TASKS],
    next: [u16; MOST_TASKS],
    ends: [u16; 256],
}

#[repr(C)]
#[derive(Clone, Copy, Default)]
struct Numbers {
    works: u64,
    mugs: u64,
    steals: u64,
    successes: u64,
    usage: u64,
    head: usize,
    waiting: usize,
    tasks: u16,
    done: u16,
    quantum_length: u16,
    ticks: u16,
    begun: u16,
    workers: u8,
    /// R, 2 to 7, or its tenths, 12 to 20.
    responsiveness: u8,
    utilization: u8,
    desire: u8,
    power: u8,
    /// The noted offer and one more; 0 where none is noted.
    note: u8,
    started: bool,
    is_open: bool,
    is_lasting: bool,
}

/// What a job shows, as values that can be compared.
#[derive(Clone, Debug, PartialEq, Eq)]
pub struct View {
    /// The ticks left of each task; none of a worked one.
    pub left: Vec<u8>,
    pub deques: Vec<Vec<u16>>,
    pub muggable: Vec<Vec<u16>>,
    pub desire: usize,
    pub power: u32,
    pub open_quantum: Option<(u32, u64)>,
    pub quanta_begun: u32,
    /// The noted offer.
    pub offer: Option<usize>,
}

impl Default for Job {
    fn default() -> Job {
        Job::blank()
    }
}

impl Job {
    /// Memory for a job, which is none until a plan is accepted. Every call but acceptance is refused, as for a finished job.
    pub fn blank() -> Job {
        Job {
            tables: Tables {
                first: [0; MOST_TASKS],
                second: [0; MOST_TASKS],
                pending: [0; MOST_TASKS],
                left: [0; MOST_TASKS],
                next: [0; MOST_TASKS],
                ends: [0; 256],
            },
            numbers: Numbers::default(),
        }
    }

    /// The tasks of the deque at a place, front first.
    fn deque(&self, place: usize) -> Vec<u16> {
        let mut task = self.tables.ends[place];
        let mut tasks = Vec::new();
        for _ in 0..self.tables.ends[SIZES + place] {
            tasks.push(task);
            task = self.tables.next[usize::from(task)];
        }
        tasks
    }

    /// What the job shows.
    pub fn view(&self) -> View {
        let numbers = &self.numbers;
        let ring = |age| WORKERS + (numbers.head + age) % WORKERS;
        let tasks = usize::from(numbers.tasks);
        View {
            left: self.tables.left[..tasks].to_vec(),
            deques: (0..usize::from(numbers.workers))
                .map(|w| self.deque(w))
                .collect(),
            muggable: (0..numbers.waiting)
                .map(|age| self.deque(ring(age)))
                .collect(),
            desire: usize::from(numbers.desire),
            power: u32::from(numbers.power),
            open_quantum: if numbers.is_open {
                Some((u32::from(numbers.ticks), numbers.usage))
            } else {
                None
            },
            quanta_begun: u32::from(numbers.begun),
            offer: usize::from(numbers.note).checked_sub(1),
        }
    }

    /// The status: 3 finished, 0 never granted, 2 held, 1 running.
    #[inline(never)]
    pub fn status(&self) -> u8 {
        self.numbers.status_number()
    }
}

impl Numbers {
    #[inline(always)]
    fn status_number(&self) -> u8 {
        if self.done == self.tasks {
            3
        } else if !self.started {
            0
        } else if self.workers == 0 {
            2
        } else {
            1
        }
    }
}
