//! The job and its calls.

#![forbid(unsafe_code)]

use std::fmt;

use crate::raw::Memory;
use crate::refusal::{answer, refusal};
use crate::{Counters, Line, Refusal, Status, LINE_BUFFER};

/// A job: 10,920 bytes of plain data, without pointers. It comes from an accepted plan and is moved by [`grant`](Job::grant), or
/// [`offer`](Job::offer) and then [`open`](Job::open) or [`withdraw`](Job::withdraw), by [`tick`](Job::tick) or
/// [`tick_seeded`](Job::tick_seeded), and by [`run_log`](Job::run_log); each call either is accepted whole or is refused by number and
/// changes nothing.
///
/// A clone is a job of its own: the two go on independently. A job is `Send` and `Sync` and the library keeps no state beside it, so
/// different threads may move different jobs at the same time.
///
/// Jobs are not compared with `==`, since bytes of the memory that mean nothing may differ; [`inspect::State`](crate::inspect::State) is
/// what a job shows, and can be compared. `Debug` prints the counters.
#[derive(Clone)]
#[repr(C)]
pub struct Job {
    memory: Memory,
}

const _: () = assert!(std::mem::size_of::<Job>() == 10_920);

/// What a log did to a job.
#[derive(Clone, Copy, Debug, PartialEq, Eq)]
#[must_use = "a log can end inside an entry, and its calls can be refused"]
pub struct LogRun {
    /// How many of the log's grants and ticks were refused.
    pub refused_calls: u64,
    /// `Err(Refusal::BrokenEntry)` where the log ends inside an entry; the entries before it are done and counted.
    pub end: Result<(), Refusal>,
}

/// A plan becomes a job.
impl Job {
    /// The fresh job of a plan: it desires one worker and has none. A task has three bytes in a plan of form 1 or 3, and lasts one tick; in
    /// form 2 it has a fourth one, its ticks, 1 to 255. Form 3 has R in tenths, 12 to 20, and L of 14 bits.
    ///
    /// # Errors
    /// Refusals 1 to 10, [`Short`](Refusal::Short) to [`LooseEnd`](Refusal::LooseEnd), and 28, [`ZeroTicks`](Refusal::ZeroTicks), say what is
    /// wrong with the plan. 7, 8 and 28 are asked of a task in this order, before the next task.
    ///
    /// ```
    /// use jirvaldo::{Job, Refusal, Status};
    ///
    /// let plan = [0x15, 0x40, 0x00, 0x08, 0x00, 0, 0, 0]; // one task
    /// assert_eq!(Job::accept(&plan)?.status(), Status::Fresh);
    /// assert_eq!(Job::accept(&plan[..7]).err(), Some(Refusal::WrongLength));
    /// let mut plan = [0x25, 0x40, 0x00, 0x08, 0x00, 0, 0, 0, 3]; // one task of three ticks
    /// assert_eq!(Job::accept(&plan)?.status(), Status::Fresh);
    /// plan[8] = 0;
    /// assert_eq!(Job::accept(&plan).err(), Some(Refusal::ZeroTicks));
    /// let mut plan = [0x36, 0x50, 0x00, 0x08, 0x00, 0, 0, 0]; // one task, and 12 tenths
    /// assert_eq!(Job::accept(&plan)?.status(), Status::Fresh);
    /// plan[0] = 0x35; // 10 tenths
    /// assert_eq!(Job::accept(&plan).err(), Some(Refusal::BadResponsiveness));
    /// # Ok::<(), Refusal>(())
    /// ```
    #[inline]
    pub fn accept(plan: &[u8]) -> Result<Job, Refusal> {
        match Memory::accept(plan) {
            Ok(memory) => Ok(Job { memory }),
            Err(number) => Err(refusal(number)),
        }
    }

    /// The job becomes the fresh job of another plan, in place.
    ///
    /// # Errors
    /// Refusals 1 to 10 and 28, as for [`accept`](Job::accept). The job is then as it was.
    ///
    /// ```
    /// use jirvaldo::{Job, Refusal, Status};
    ///
    /// let plan = [0x15, 0x40, 0x00, 0x08, 0x00, 0, 0, 0];
    /// let mut job = Job::accept(&plan)?;
    /// job.grant(1)?;
    /// assert_eq!(job.replace(b""), Err(Refusal::Short));
    /// assert_eq!(job.status(), Status::Running);
    /// job.replace(&plan)?;
    /// assert_eq!(job.status(), Status::Fresh);
    /// # Ok::<(), Refusal>(())
    /// ```
    #[inline]
    pub fn replace(&mut self, plan: &[u8]) -> Result<(), Refusal> {
        answer(self.memory.replace(plan))
    }
}

/// Calls move the job.
impl Job {
    /// Grants that many workers and opens a quantum, the L ticks of the plan. 0 workers are a grant too. Workers from the new count up are
    /// withdrawn, and their deques, unless empty, wait to be mugged; workers that are new have empty deques.
    ///
    /// Deques of an earlier grant are mugged first; of those that one grant withdraws, the highest worker's is mugged first.
    ///
    /// # Errors
    /// In this order: [`Finished`](Refusal::Finished) (11), [`QuantumOpen`](Refusal::QuantumOpen) (12),
    /// [`QuantaSpent`](Refusal::QuantaSpent) (13), [`OfferNoted`](Refusal::OfferNoted) (25), [`AboveDesire`](Refusal::AboveDesire) (14).
    /// The job is then as it was.
    ///
    /// ```
    /// use jirvaldo::{Job, Refusal};
    ///
    /// let mut job = Job::accept(&[0x15, 0x40, 0x00, 0x08, 0x00, 0, 0, 0])?;
    /// assert_eq!(job.grant(2), Err(Refusal::AboveDesire));
    /// assert_eq!(job.grant(1), Ok(()));
    /// assert_eq!(job.grant(1), Err(Refusal::QuantumOpen));
    /// # Ok::<(), Refusal>(())
    /// ```
    #[inline]
    pub fn grant(&mut self, workers: u64) -> Result<(), Refusal> {
        answer(self.memory.grant(workers))
    }

    /// Offers that many workers, 0 included, and only notes the number: no quantum opens, and no count, deque, desire or status changes.
    /// While the offer is noted, an [`open`](Job::open) or a [`withdraw`](Job::withdraw) alone moves the job.
    ///
    /// # Errors
    /// A grant's, in the same order: [`Finished`](Refusal::Finished) (11), [`QuantumOpen`](Refusal::QuantumOpen) (12),
    /// [`QuantaSpent`](Refusal::QuantaSpent) (13), [`OfferNoted`](Refusal::OfferNoted) (25), [`AboveDesire`](Refusal::AboveDesire) (14).
    /// The job is then as it was.
    ///
    /// ```
    /// use jirvaldo::{Job, Refusal};
    ///
    /// let mut job = Job::accept(&[0x15, 0x40, 0x00, 0x08, 0x00, 0, 0, 0])?;
    /// assert_eq!(job.offer(2), Err(Refusal::AboveDesire));
    /// assert_eq!(job.offer(1), Ok(()));
    /// assert_eq!(&*job.line(0), "0 0 1 1 0 0 0 0 0 0"); // as it was
    /// assert_eq!(job.offer(1), Err(Refusal::OfferNoted));
    /// assert_eq!(job.grant(2), Err(Refusal::OfferNoted));
    /// assert_eq!(job.tick(&[]), Err(Refusal::NoQuantumOpen));
    /// # Ok::<(), Refusal>(())
    /// ```
    #[inline]
    pub fn offer(&mut self, workers: u64) -> Result<(), Refusal> {
        answer(self.memory.offer(workers))
    }

    /// Opens the noted offer with that many workers, from 0 to as many as were offered: it drops the offer and does what a
    /// [`grant`](Job::grant) of this number does. Whether the quantum is satisfied depends on it and not on the offered number.
    ///
    /// # Errors
    /// In this order: [`NoOffer`](Refusal::NoOffer) (24), [`AboveDesire`](Refusal::AboveDesire) (14) where more are opened than were
    /// offered. The job is then as it was, with its offer.
    ///
    /// ```
    /// use jirvaldo::{Job, Refusal};
    ///
    /// let mut job = Job::accept(&[0x15, 0x40, 0x00, 0x08, 0x00, 0, 0, 0])?;
    /// assert_eq!(job.open(0), Err(Refusal::NoOffer));
    /// job.offer(1)?;
    /// assert_eq!(job.open(2), Err(Refusal::AboveDesire));
    /// assert_eq!(job.open(1), Ok(()));
    /// assert_eq!(job.allotment(), 1);
    /// assert_eq!(job.open(1), Err(Refusal::NoOffer));
    /// # Ok::<(), Refusal>(())
    /// ```
    #[inline]
    pub fn open(&mut self, workers: u64) -> Result<(), Refusal> {
        answer(self.memory.open(workers))
    }

    /// Withdraws the noted offer: it is dropped, and nothing else changes.
    ///
    /// # Errors
    /// [`NoOffer`](Refusal::NoOffer) (24). The job is then as it was.
    ///
    /// ```
    /// use jirvaldo::{Job, Refusal};
    ///
    /// let mut job = Job::accept(&[0x15, 0x40, 0x00, 0x08, 0x00, 0, 0, 0])?;
    /// job.offer(1)?;
    /// assert_eq!(job.withdraw(), Ok(()));
    /// assert_eq!(job.withdraw(), Err(Refusal::NoOffer));
    /// assert_eq!(job.grant(1), Ok(()));
    /// # Ok::<(), Refusal>(())
    /// ```
    #[inline]
    pub fn withdraw(&mut self) -> Result<(), Refusal> {
        answer(self.memory.withdraw())
    }

    /// One tick: each granted worker takes a cycle, in number order. Choice i is the worker from whom worker i steals where it has nothing
    /// else to do; a choice is needed of every worker, read or not. After its L-th tick a quantum closes, and the desire moves.
    ///
    /// In forms 1 and 2 the desire is divided by R after an inefficient quantum, and multiplied by it after an efficient and satisfied one
    /// unless that exceeds 64. In form 3 it is the whole part of (t / 10)^k, with t tenths: k is 0 at first, one less after an inefficient
    /// quantum, and one more after an efficient and satisfied one as long as the desire is then at most 64.
    ///
    /// A worker that works does one tick of its deque's front task, which stays at the front until its last one; then the task is worked, and
    /// those of its successors that became ready take its place. A deque that is withdrawn or mugged keeps the ticks that are done.
    ///
    /// A worker that steals gets the back half of the chosen deque, rounded down and in its order, if that has two or more tasks, and else
    /// nothing. It is one success, however many tasks it takes. A worker after the one that finished the job counts a steal, which gets
    /// nothing; so each granted worker counts one cycle, in the last tick too.
    ///
    /// # Errors
    /// In this order: [`Finished`](Refusal::Finished) (11), [`NoQuantumOpen`](Refusal::NoQuantumOpen) (15),
    /// [`WrongChoiceCount`](Refusal::WrongChoiceCount) (16), [`BadChoice`](Refusal::BadChoice) (17). The job is then as it was.
    ///
    /// ```
    /// use jirvaldo::{Job, Refusal};
    ///
    /// let mut job = Job::accept(&[0x15, 0x40, 0x00, 0x08, 0x00, 0, 0, 0])?;
    /// assert_eq!(job.tick(&[0]), Err(Refusal::NoQuantumOpen));
    /// job.grant(1)?;
    /// assert_eq!(job.tick(&[0, 0]), Err(Refusal::WrongChoiceCount));
    /// assert_eq!(job.tick(&[1]), Err(Refusal::BadChoice));
    /// assert_eq!(job.tick(&[0]), Ok(()));
    /// assert!(job.is_finished());
    /// # Ok::<(), Refusal>(())
    /// ```
    #[inline]
    pub fn tick(&mut self, choices: &[u8]) -> Result<(), Refusal> {
        answer(self.memory.tick(choices))
    }

    /// One [`tick`](Job::tick) whose choices are drawn from a seed. A draw turns the seed s into 1,664,525 × s + 1,013,904,223, modulo
    /// 2^32; the choice is the whole part of this next s / 65,536, modulo the allotment. There is one draw for every granted worker, in
    /// order, whether it steals or not, in the tick that finishes the job too, and none where 0 are granted.
    ///
    /// The job is then as after a tick with these choices, and `seed` is the state after the last draw. Keep it beside the job: the same
    /// seed and the same grants give the same day. [`LogWriter::tick_seeded`](crate::LogWriter::tick_seeded) writes the tick's entry.
    ///
    /// # Errors
    /// In this order: [`Finished`](Refusal::Finished) (11), [`NoQuantumOpen`](Refusal::NoQuantumOpen) (15). Nothing is drawn then: the job
    /// and the seed are as they were. There is no other.
    ///
    /// ```
    /// use jirvaldo::{Job, Refusal};
    ///
    /// let mut job = Job::accept(&[0x15, 0x40, 0x00, 0x08, 0x00, 0, 0, 0])?;
    /// let mut seed = 0;
    /// assert_eq!(job.tick_seeded(&mut seed), Err(Refusal::NoQuantumOpen));
    /// assert_eq!(seed, 0);
    /// job.grant(1)?;
    /// assert_eq!(job.tick_seeded(&mut seed), Ok(()));
    /// assert_eq!(seed, 1_013_904_223); // one draw
    /// assert_eq!(job.tick_seeded(&mut seed), Err(Refusal::Finished));
    /// assert_eq!(seed, 1_013_904_223);
    /// # Ok::<(), Refusal>(())
    /// ```
    #[inline]
    pub fn tick_seeded(&mut self, seed: &mut u32) -> Result<(), Refusal> {
        answer(self.memory.tick_seeded(seed))
    }

    /// Runs the entries of a log one after the other. An entry is a grant (top bit 0, the count in the low 7 bits) or a tick (top bit 1,
    /// the number of choices in the low 7 bits, then one byte a choice). A refused call is counted, and the next entry follows.
    ///
    /// The run's `end` is `Err(Refusal::BrokenEntry)` (18) where the log ends inside an entry: nothing of that entry is done or counted.
    /// A log that moves nothing (empty, cut off in its first entry, or all its calls refused) leaves the job byte for byte as it was.
    ///
    /// A log has no offers. On a job with a noted one every grant (25) and every tick (15) of the log is refused and counted.
    ///
    /// ```
    /// use jirvaldo::{Job, Refusal};
    ///
    /// let mut job = Job::accept(&[0x15, 0x40, 0x00, 0x08, 0x00, 0, 0, 0])?;
    /// let run = job.run_log(&[0x02, 0x01, 0x82, 0x00]); // grants of 2 and of 1; a tick that lacks a choice
    /// assert_eq!((run.refused_calls, run.end), (1, Err(Refusal::BrokenEntry)));
    /// assert_eq!(job.allotment(), 1);
    /// # Ok::<(), Refusal>(())
    /// ```
    #[inline]
    pub fn run_log(&mut self, log: &[u8]) -> LogRun {
        let (number, refused_calls) = self.memory.run_log(log);
        LogRun {
            refused_calls,
            end: answer(number),
        }
    }
}

/// What a job shows.
impl Job {
    /// What the job is doing.
    #[inline]
    pub fn status(&self) -> Status {
        Status::of(self.memory.status().into())
    }

    /// Whether every task is worked.
    #[inline]
    pub fn is_finished(&self) -> bool {
        self.status() == Status::Finished
    }

    /// The most workers that the next grant may give, or the next offer name, 1 to 64.
    #[inline]
    pub fn desire(&self) -> u64 {
        self.counters(0).desire
    }

    /// How many workers the last accepted grant or open gave, 0 to 64; a tick needs as many choices.
    #[inline]
    pub fn allotment(&self) -> u64 {
        self.counters(0).allotment
    }

    /// The ten numbers of the counters line: `worked` counts tasks whose ticks are all done, `work` the ticks that are done. The last is the
    /// argument: the job does not count its refused calls, a [`LogRun`] or the caller does.
    #[inline]
    pub fn counters(&self, refused_calls: u64) -> Counters {
        Counters::of(self.memory.counters(refused_calls))
    }

    /// The wording of the job's status: that part of the sheet itself, without its byte 10. Line 0 of the sheet is for status 0, and so on;
    /// a line may be empty, and lines past the fourth are passed over.
    ///
    /// # Errors
    /// [`NoWording`](Refusal::NoWording) (19) where the sheet has no such line. A last stretch that byte 10 does not end is no line.
    ///
    /// ```
    /// use jirvaldo::{Job, Refusal};
    ///
    /// let job = Job::accept(&[0x15, 0x40, 0x00, 0x08, 0x00, 0, 0, 0])?;
    /// assert_eq!(job.wording(b"waiting\nstitching\non hold\nready\n")?, b"waiting");
    /// assert_eq!(job.wording(b"waiting"), Err(Refusal::NoWording));
    /// # Ok::<(), Refusal>(())
    /// ```
    #[inline]
    pub fn wording<'a>(&self, sheet: &'a [u8]) -> Result<&'a [u8], Refusal> {
        let (number, start, size) = self.memory.wording(sheet);
        answer(number)?;
        Ok(&sheet[start..][..size])
    }

    /// Writes the counters line, with the byte 10 that ends it, at the start of the buffer, and returns its size: how many digits the ten
    /// numbers have, one for a number that is 0, plus 10. Bytes after the line stay.
    ///
    /// # Errors
    /// [`SmallBuffer`](Refusal::SmallBuffer) (20) where the buffer has fewer than [`LINE_BUFFER`] bytes, also if the line would fit. The
    /// buffer is then as it was.
    ///
    /// ```
    /// use jirvaldo::{Job, Refusal, LINE_BUFFER};
    ///
    /// let job = Job::accept(&[0x15, 0x40, 0x00, 0x08, 0x00, 0, 0, 0])?;
    /// let mut buffer = [0; LINE_BUFFER];
    /// let size = job.write_line(0, &mut buffer)?;
    /// assert_eq!(&buffer[..size], b"0 0 1 1 0 0 0 0 0 0\n");
    /// assert_eq!(size, 10 + 10);
    /// assert_eq!(job.write_line(0, &mut buffer[1..]), Err(Refusal::SmallBuffer));
    /// # Ok::<(), Refusal>(())
    /// ```
    #[inline]
    pub fn write_line(&self, refused_calls: u64, buffer: &mut [u8]) -> Result<usize, Refusal> {
        let (number, size) = self.memory.line(refused_calls, buffer);
        answer(number).map(|()| size)
    }

    /// The counters line as text that carries its own buffer, without byte 10.
    ///
    /// ```
    /// use jirvaldo::Job;
    ///
    /// let job = Job::accept(&[0x15, 0x40, 0x00, 0x08, 0x00, 0, 0, 0])?;
    /// assert_eq!(&*job.line(7), "0 0 1 1 0 0 0 0 0 7");
    /// # Ok::<(), jirvaldo::Refusal>(())
    /// ```
    pub fn line(&self, refused_calls: u64) -> Line {
        let mut buffer = [0; LINE_BUFFER];
        let (_, size) = self.memory.line(refused_calls, &mut buffer);
        Line::of(buffer, size)
    }

    /// The memory, for `inspect` and for the log's writer.
    pub(crate) fn memory(&self) -> &Memory {
        &self.memory
    }
}

impl fmt::Debug for Job {
    fn fmt(&self, out: &mut fmt::Formatter<'_>) -> fmt::Result {
        let shown = self.counters(0);
        out.debug_struct("Job")
            .field("status", &shown.status)
            .field("worked", &shown.worked)
            .field("tasks", &shown.tasks)
            .field("desire", &shown.desire)
            .field("allotment", &shown.allotment)
            .field("work", &shown.work)
            .field("mug", &shown.mug)
            .field("steal", &shown.steal)
            .field("successes", &shown.successes)
            .finish_non_exhaustive()
    }
}

#[cfg(test)]
mod tests {
    use super::*;
    use crate::LogWriter;

    const PLAN_A: [u8; 17] = [
        0x15, 0x40, 0x00, 0x08, 0x03, 0x80, 0x08, 0x02, 0x40, 0x18, 0x00, 0x40, 0x18, 0x00, 0, 0, 0,
    ];

    /// The call is refused with this number, and every byte of the memory stays.
    fn refused(job: &mut Job, number: u8, call: impl FnOnce(&mut Job) -> Result<(), Refusal>) {
        let before = job.clone();
        assert_eq!(call(job).map_err(Refusal::number), Err(number));
        assert_eq!(job.memory, before.memory);
    }

    #[test]
    fn refused_calls_change_no_byte() -> Result<(), Refusal> {
        let mut job = Job::accept(&PLAN_A)?;
        refused(&mut job, 14, |j| j.grant(2));
        refused(&mut job, 14, |j| j.grant(u64::MAX));
        refused(&mut job, 15, |j| j.tick(&[]));
        job.grant(1)?;
        refused(&mut job, 12, |j| j.grant(1));
        refused(&mut job, 16, |j| j.tick(&[]));
        refused(&mut job, 16, |j| j.tick(&[0; 1 << 20]));
        refused(&mut job, 17, |j| j.tick(&[1]));
        job.tick(&[0])?;
        refused(&mut job, 17, |j| j.tick(&[255]));
        job.tick(&[0])?;
        job.grant(2)?;
        job.tick(&[1, 0])?;
        refused(&mut job, 17, |j| j.tick(&[0, 2]));
        job.tick(&[1, 0])?;
        refused(&mut job, 11, |j| j.grant(0));
        refused(&mut job, 11, |j| j.tick(&[0, 0]));
        Ok(())
    }

    #[test]
    fn refused_offers_change_no_byte() -> Result<(), Refusal> {
        let mut job = Job::accept(&PLAN_A)?;
        refused(&mut job, 24, |j| j.open(0));
        refused(&mut job, 24, |j| j.withdraw());
        refused(&mut job, 14, |j| j.offer(2));
        refused(&mut job, 14, |j| j.offer(u64::MAX));
        job.offer(1)?;
        refused(&mut job, 25, |j| j.offer(1));
        refused(&mut job, 25, |j| j.grant(u64::MAX));
        refused(&mut job, 15, |j| j.tick(&[]));
        refused(&mut job, 14, |j| j.open(2));
        refused(&mut job, 14, |j| j.open(u64::MAX));
        let noted = job.clone();
        let run = job.run_log(&[0x00, 0x01, 0x80, 0x81, 0x00]);
        assert_eq!((run.refused_calls, run.end), (4, Ok(())));
        assert_eq!(job.memory, noted.memory);
        job.open(1)?;
        refused(&mut job, 24, |j| j.open(1));
        refused(&mut job, 24, |j| j.withdraw());
        refused(&mut job, 12, |j| j.offer(0));
        let _ = job.run_log(&[0x81, 0x00, 0x81, 0x00, 0x01, 0x81, 0x00, 0x81, 0x00]);
        refused(&mut job, 11, |j| j.offer(0));
        refused(&mut job, 24, |j| j.open(0));
        refused(&mut job, 24, |j| j.withdraw());
        Ok(())
    }

    #[test]
    fn refused_seeded_ticks_change_no_byte() -> Result<(), Refusal> {
        let (mut job, mut seed) = (Job::accept(&PLAN_A)?, 9);
        refused(&mut job, 15, |j| j.tick_seeded(&mut seed));
        job.offer(1)?;
        refused(&mut job, 15, |j| j.tick_seeded(&mut seed));
        job.open(1)?;
        let run = job.run_log(&[0x81, 0x00, 0x81, 0x00]);
        assert_eq!(run.refused_calls, 0);
        refused(&mut job, 15, |j| j.tick_seeded(&mut seed));
        let _ = job.run_log(&[0x01, 0x81, 0x00, 0x81, 0x00]);
        refused(&mut job, 11, |j| j.tick_seeded(&mut seed));
        assert_eq!(seed, 9);
        Ok(())
    }

    /// A seeded day and its log end in the same bytes; the writer reads the job alone.
    #[test]
    fn a_seeded_day_is_its_log() -> Result<(), Refusal> {
        let (mut job, mut seed, mut buffer) = (Job::accept(&PLAN_A)?, 9, [0; 500]);
        let mut log = LogWriter::new(&mut buffer);
        while !job.is_finished() {
            let (before, desire) = (seed, job.desire());
            if job.tick_seeded(&mut seed).is_err() {
                job.grant(desire)?;
                log.grant(desire)?;
                continue;
            }
            let ticked = job.clone();
            log.tick_seeded(&job, before)?;
            assert_eq!(job.memory, ticked.memory);
        }
        let mut again = Job::accept(&PLAN_A)?;
        let run = again.run_log(log.log());
        assert_eq!((run.refused_calls, run.end), (0, Ok(())));
        assert_eq!(again.memory, job.memory);
        Ok(())
    }

    /// An offer moves the last word alone, and a withdrawal brings it back.
    #[test]
    fn an_offer_is_one_word() -> Result<(), Refusal> {
        let before = Job::accept(&PLAN_A)?;
        for workers in 0..2 {
            let mut job = before.clone();
            job.offer(workers)?;
            let (words, note) = (job.memory.words(), workers + 1);
            assert_eq!(words[..20], before.memory.words()[..20]);
            assert_eq!((words[20], before.memory.words()[20]), (note, 0));
            job.withdraw()?;
            assert_eq!(job.memory, before.memory);
        }
        Ok(())
    }

    #[test]
    fn refused_plans_change_no_byte() -> Result<(), Refusal> {
        let mut job = Job::accept(&PLAN_A)?;
        let run = job.run_log(&[0x01, 0x81, 0x00, 0x81, 0x00, 0x02, 0x82, 0x00, 0x00]);
        assert_eq!(run.refused_calls, 0);
        refused(&mut job, 1, |j| j.replace(&[]));
        refused(&mut job, 6, |j| j.replace(&PLAN_A[..16]));
        let mut late = PLAN_A;
        late[13] = 1; // an unused field of task 2
        refused(&mut job, 7, |j| j.replace(&late));
        let no_ticks = [0x25, 0x40, 0x00, 0x08, 0x00, 0, 0, 0, 0];
        refused(&mut job, 28, |j| j.replace(&no_ticks));
        let tenths = |high, low| [high, low, 0x00, 0x08, 0x00, 0, 0, 0];
        refused(&mut job, 3, |j| j.replace(&tenths(0x35, 0xd0))); // 11
        refused(&mut job, 3, |j| j.replace(&tenths(0x3a, 0xd0))); // 21
        refused(&mut job, 1, |j| j.replace(&[0x15; 4]));
        Ok(())
    }

    #[test]
    fn a_refused_log_and_shows_change_no_byte() -> Result<(), Refusal> {
        let mut job = Job::accept(&PLAN_A)?;
        let before = job.clone();
        assert_eq!(job.run_log(&[]).end, Ok(()));
        let run = job.run_log(&[0x7f, 0xff]);
        assert_eq!((run.refused_calls, run.end), (1, Err(Refusal::BrokenEntry)));
        let _ = (job.status(), job.counters(9), job.line(9));
        let _ = (job.wording(b"new\n"), job.write_line(9, &mut [0; 500]));
        assert_eq!(job.memory, before.memory);
        Ok(())
    }

    #[test]
    fn a_replaced_job_is_a_fresh_one() -> Result<(), Refusal> {
        let fresh = Job::accept(&PLAN_A)?;
        let mut job = fresh.clone();
        let _ = job.run_log(&[0x01, 0x81, 0x00, 0x81, 0x00, 0x02, 0x82, 0x00, 0x00]);
        assert_ne!(job.memory, fresh.memory);
        job.replace(&PLAN_A)?;
        assert_eq!(job.memory, fresh.memory);
        Ok(())
    }
}
