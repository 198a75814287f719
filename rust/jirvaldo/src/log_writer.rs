//! The log of a job's calls, written in a lent buffer.

#![forbid(unsafe_code)]

use std::fmt;

use crate::refusal::answer;
use crate::{raw, Job, Refusal};

/// Writes a log, which [`Job::run_log`] runs, in a buffer that you lend: each call's entry behind those before it. An entry is accepted
/// whole, or it is refused by number, and then no byte changes. Bytes behind the log stay, too.
///
/// A grant takes 1 byte, a tick of g workers 1 + g. Nothing is asked of the job: write the calls that it accepted, in their order. It is
/// proved of every day of [grants](Job::grant) and [seeded ticks](Job::tick_seeded) that this log is whole, and that, run on the job as it
/// was before the day, it refuses none of its calls and ends in the same job. A log has no offers: write an accepted [`open`](Job::open)
/// as the grant that it is.
///
/// The job does not know of the log: look before a call whether [`LONGEST_ENTRY`](crate::LONGEST_ENTRY) bytes are left, which is enough for
/// each call that it accepts.
///
/// ```
/// use jirvaldo::{Job, LogWriter, Refusal, LONGEST_ENTRY};
///
/// let plan = [0x15, 0x40, 0x00, 0x08, 0x03, 0x80, 0x08, 0x02, 0x40, 0x18, 0x00, 0x40, 0x18, 0x00, 0, 0, 0];
/// let (mut job, mut seed) = (Job::accept(&plan)?, 2_026);
/// let mut buffer = [0; 256];
/// let mut log = LogWriter::new(&mut buffer);
/// while !job.is_finished() && 256 - log.size() >= LONGEST_ENTRY {
///     let before = seed;
///     match job.tick_seeded(&mut seed) {
///         Ok(()) => log.tick_seeded(&job, before)?,
///         Err(_) => {
///             let workers = job.desire();
///             job.grant(workers)?;
///             log.grant(workers)?;
///         }
///     }
/// }
/// let mut again = Job::accept(&plan)?;
/// let run = again.run_log(log.log());
/// assert_eq!((run.refused_calls, run.end), (0, Ok(())));
/// assert_eq!(*again.line(0), *job.line(0));
/// # Ok::<(), Refusal>(())
/// ```
pub struct LogWriter<'a> {
    buffer: &'a mut [u8],
    size: usize,
}

/// The log and its size.
impl<'a> LogWriter<'a> {
    /// An empty log.
    pub fn new(buffer: &'a mut [u8]) -> LogWriter<'a> {
        LogWriter::resume(buffer, 0)
    }

    /// The log that the first `size` bytes of the buffer are, to be written on. Nothing is asked of these bytes. A size above the buffer's
    /// leaves no room: every entry is refused.
    ///
    /// ```
    /// use jirvaldo::{LogWriter, Refusal};
    ///
    /// let mut buffer = [0; 3];
    /// let mut log = LogWriter::new(&mut buffer);
    /// log.grant(1)?;
    /// let size = log.size();
    /// let mut log = LogWriter::resume(&mut buffer, size);
    /// log.tick(&[0])?;
    /// assert_eq!(log.log(), [0x01, 0x81, 0x00]);
    /// assert_eq!(LogWriter::resume(&mut buffer, 4).grant(0), Err(Refusal::SmallBuffer));
    /// # Ok::<(), Refusal>(())
    /// ```
    pub fn resume(buffer: &'a mut [u8], size: usize) -> LogWriter<'a> {
        LogWriter { buffer, size }
    }

    /// The log so far: the buffer's first [`size`](LogWriter::size) bytes, or all where it has fewer.
    pub fn log(&self) -> &[u8] {
        &self.buffer[..self.size.min(self.buffer.len())]
    }

    /// How many bytes of the buffer are used, to be kept where the log is [resumed](LogWriter::resume).
    pub fn size(&self) -> usize {
        self.size
    }
}

/// The entries of the calls.
impl LogWriter<'_> {
    /// Writes a grant: its number of workers, in one byte.
    ///
    /// # Errors
    /// In this order: [`AboveDesire`](Refusal::AboveDesire) (14) where it is above 127, which no entry can say and no job accepts;
    /// [`SmallBuffer`](Refusal::SmallBuffer) (20) where no byte is left. The log is then as it was.
    ///
    /// ```
    /// use jirvaldo::{LogWriter, Refusal};
    ///
    /// let mut buffer = [0; 1];
    /// let mut log = LogWriter::new(&mut buffer);
    /// assert_eq!(log.grant(128), Err(Refusal::AboveDesire));
    /// assert_eq!(log.grant(64), Ok(()));
    /// assert_eq!(log.grant(64), Err(Refusal::SmallBuffer));
    /// assert_eq!(log.log(), [64]);
    /// ```
    #[inline]
    pub fn grant(&mut self, workers: u64) -> Result<(), Refusal> {
        answer(raw::log_grant(workers, self.buffer, &mut self.size))
    }

    /// Writes a tick: the byte 128 plus the number of its choices, then a byte for each.
    ///
    /// # Errors
    /// In this order: [`WrongChoiceCount`](Refusal::WrongChoiceCount) (16) where they are more than 127, which no entry can say and no job
    /// accepts; [`SmallBuffer`](Refusal::SmallBuffer) (20) where there is no room for all of it. The log is then as it was.
    ///
    /// ```
    /// use jirvaldo::{LogWriter, Refusal};
    ///
    /// let mut buffer = [0; 5];
    /// let mut log = LogWriter::new(&mut buffer);
    /// assert_eq!(log.tick(&[0; 128]), Err(Refusal::WrongChoiceCount));
    /// assert_eq!(log.tick(&[1, 0]), Ok(()));
    /// assert_eq!(log.tick(&[0, 1]), Err(Refusal::SmallBuffer));
    /// assert_eq!(log.log(), [0x82, 1, 0]);
    /// ```
    #[inline]
    pub fn tick(&mut self, choices: &[u8]) -> Result<(), Refusal> {
        answer(raw::log_tick(choices, self.buffer, &mut self.size))
    }

    /// Writes the tick that the seed draws for this job, as [`Job::tick_seeded`] does: one choice for each worker of its allotment. The
    /// seed is the one before the tick. A tick leaves the allotment, so this may be called before it or after it.
    ///
    /// # Errors
    /// [`SmallBuffer`](Refusal::SmallBuffer) (20) where there is no room for all of it. The log is then as it was.
    ///
    /// ```
    /// use jirvaldo::{Job, LogWriter, Refusal};
    ///
    /// let mut job = Job::accept(&[0x15, 0x40, 0x00, 0x08, 0x00, 0, 0, 0])?;
    /// job.grant(1)?;
    /// let mut seed = 7;
    /// job.tick_seeded(&mut seed)?;
    /// let mut buffer = [0; 3];
    /// let mut log = LogWriter::new(&mut buffer);
    /// assert_eq!(log.tick_seeded(&job, 7), Ok(()));
    /// assert_eq!(log.tick_seeded(&job, 7), Err(Refusal::SmallBuffer));
    /// assert_eq!(log.log(), [0x81, 0]);
    /// # Ok::<(), Refusal>(())
    /// ```
    #[inline]
    pub fn tick_seeded(&mut self, job: &Job, seed: u32) -> Result<(), Refusal> {
        let number = raw::log_tick_seeded(job.memory(), seed, self.buffer, &mut self.size);
        answer(number)
    }
}

impl fmt::Debug for LogWriter<'_> {
    fn fmt(&self, out: &mut fmt::Formatter<'_>) -> fmt::Result {
        out.debug_tuple("LogWriter").field(&self.log()).finish()
    }
}
