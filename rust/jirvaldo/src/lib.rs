//! A proved A-Steal scheduler core (ACM TOCS 26(3), 2008): a safe crate over its static library.
//!
//! A plan is a task graph in bytes. [`Job::accept`] reads it and makes a [`Job`], or refuses it by number. Then by turns: a
//! [grant](Job::grant) of at most as many workers as the job [desires](Job::desire), which opens a quantum, and [ticks](Job::tick) until it
//! closes, L of them. The job is finished when every task is worked. A task lasts one tick in a plan of form 1 or 3, 1 to 255 in one of
//! form 2.
//!
//! ```
//! use jirvaldo::{Job, Refusal};
//!
//! # fn main() -> Result<(), Refusal> {
//! // form 1, R = 2, D = 80, L = 2, N = 4; task 0 is followed by 1 and 2, these by 3
//! let plan = [0x15, 0x40, 0x00, 0x08, 0x03, 0x80, 0x08, 0x02, 0x40, 0x18, 0x00, 0x40, 0x18, 0x00, 0, 0, 0];
//! let mut job = Job::accept(&plan)?;
//! job.grant(1)?;
//! job.tick(&[0])?;
//! job.tick(&[0])?; // the quantum was efficient: the job now desires 2 workers
//! job.grant(job.desire())?;
//! job.tick(&[0, 0])?; // worker 1 has nothing to work on and tries to steal from worker 0
//! job.tick(&[0, 0])?; // worker 0 finishes the job, and worker 1 counts a steal in vain
//! assert!(job.is_finished());
//! assert_eq!(&*job.line(0), "3 4 4 2 2 4 0 2 0 0");
//! # Ok(())
//! # }
//! ```
//!
//! A pool that sets workers aside before it is sure makes its grant in two steps: an [offer](Job::offer) only notes a number of workers,
//! and an [open](Job::open) grants as many or fewer. A [withdrawal](Job::withdraw) drops the offer instead.
//!
//! ```
//! use jirvaldo::{Job, Refusal};
//!
//! let mut job = Job::accept(&[0x15, 0x40, 0x00, 0x08, 0x00, 0, 0, 0])?; // one task
//! job.offer(job.desire())?;
//! assert_eq!(job.grant(1), Err(Refusal::OfferNoted)); // one offer at a time, and no grant beside it
//! job.withdraw()?;
//! job.offer(1)?;
//! job.open(0)?; // nobody came: a quantum of 0 workers
//! job.tick(&[])?;
//! job.tick(&[])?;
//! job.offer(1)?;
//! job.open(1)?;
//! job.tick(&[0])?;
//! assert!(job.is_finished());
//! # Ok::<(), Refusal>(())
//! ```
//!
//! In form 2 a task has a fourth byte, its ticks. It stays at the front of its deque until they are done; then it is worked, and its
//! successors come. A deque that is withdrawn or mugged keeps the ticks that are done.
//!
//! ```
//! use jirvaldo::{Job, Refusal};
//!
//! // form 2, R = 2, D = 80, L = 2, N = 2; task 0 lasts three ticks and is followed by 1, which lasts one
//! let mut job = Job::accept(&[0x25, 0x40, 0x00, 0x08, 0x01, 0x40, 0x08, 0x00, 3, 0, 0, 0, 1])?;
//! job.grant(1)?;
//! job.tick(&[0])?;
//! job.tick(&[0])?;
//! assert_eq!(&*job.line(0), "1 0 2 2 1 2 0 0 0 0"); // two work cycles, and no task is worked yet
//! job.grant(1)?;
//! job.tick(&[0])?;
//! assert_eq!(&*job.line(0), "1 1 2 2 1 3 0 0 0 0");
//! job.tick(&[0])?;
//! assert!(job.is_finished());
//! # Ok::<(), Refusal>(())
//! ```
//!
//! In form 3 the desire grows more gently: R is in tenths, 12 to 20, and the desire is the whole part of R to a power. The power is 0 at
//! first, one less after an inefficient quantum, and one more after an efficient and satisfied one as long as the desire is then at most
//! 64.
//!
//! ```
//! use jirvaldo::{Job, Refusal};
//!
//! // form 3, 15 tenths, D = 80, L = 1, N = 4; each task is followed by the next one
//! let plan = [0x37, 0xd0, 0x00, 0x04, 0x03, 0x40, 0x08, 0x00, 0x40, 0x10, 0x00, 0x40, 0x18, 0x00, 0, 0, 0];
//! let mut job = Job::accept(&plan)?;
//! job.grant(1)?;
//! job.tick(&[0])?; // the quantum was efficient: 1.5, so the job still desires 1 worker
//! assert_eq!(job.desire(), 1);
//! job.grant(1)?;
//! job.tick(&[0])?; // and now 2.25
//! assert_eq!(job.desire(), 2);
//! job.grant(2)?;
//! job.tick(&[0, 0])?; // one of two workers had something to work on, which is not 80 percent: back to 1.5
//! assert_eq!(job.desire(), 1);
//! # Ok::<(), Refusal>(())
//! ```
//!
//! A console without dice has the choices of its ticks drawn from a seed, by [`Job::tick_seeded`], and keeps its calls as a log in a buffer
//! of its own, by a [`LogWriter`]. Run again, the log ends in the same job.
//!
//! # What is proved and what is not
//! Every function of the static library is proved to answer and to move the job as the definitions say, for any plan, any calls and any
//! bytes. This crate adds the Rust types. Its unsafe code is one private module, which lends the library a job's memory; safe code can't
//! make a job other than by acceptance, so the one thing that the library asks for always holds. [`inspect`] reads the memory in plain
//! Rust, for consoles and tests; that reading is tested and not proved.
//!
//! # The archive
//! The build script links `libjirvaldo.a` from the directory that the environment variable `JIRVALDO_LIB_DIR` names, or else from
//! `target/jirvaldo` of the repository, where `tools/build-library` puts it. The library has no state, allocates nothing and does no
//! input or output.

#![deny(missing_docs, unsafe_code, unsafe_op_in_unsafe_fn)]

mod counters;
pub mod inspect;
mod job;
mod log_writer;
#[allow(unsafe_code)]
mod raw;
mod refusal;
mod status;

pub use counters::{Counters, Line};
pub use job::{Job, LogRun};
pub use log_writer::LogWriter;
pub use refusal::{Refusal, UnknownNumber};
pub use status::Status;

/// The most tasks that a plan may have.
pub const MOST_TASKS: usize = 1024;

/// The size of the longest plan that is accepted: no plan with more bytes is. It is of form 2; the longest of form 1 or 3 has 3,077 bytes.
pub const LONGEST_PLAN: usize = 5 + 4 * MOST_TASKS;

/// The most ticks that a task lasts, in a plan of form 2. In forms 1 and 3 each lasts one.
pub const LONGEST_TASK: usize = 255;

/// The most workers that a job ever desires.
pub const MOST_WORKERS: usize = 64;

/// The most deques that a job has in use at one time: the non-empty ones of its workers and the muggable ones together. To mirror them, lay
/// out so many places once. After each call, and inside a tick after each worker's cycle, they number at most the largest count that was
/// granted or opened so far, and that is at most this; all together they hold each task at most once. An offer that is not opened grants
/// nothing, nor does a refused call. It is proved for every plan and every list of calls, and can't be less: some jobs come to have 64.
/// [`inspect::View::deques_in_use`] counts them.
pub const MOST_DEQUES: usize = 64;

/// The most quanta that a job may begin, those without a worker too. A grant or an offer after that is [`Refusal::QuantaSpent`].
pub const MOST_QUANTA: usize = 4096;

/// The least size of a buffer for the counters line. The line itself is shorter.
pub const LINE_BUFFER: usize = 128;

/// The size of the longest log entry of a call that a job accepts: a tick of [`MOST_WORKERS`]. With so many bytes spare a [`LogWriter`] has
/// room for the next call, whichever it is.
pub const LONGEST_ENTRY: usize = 1 + MOST_WORKERS;
