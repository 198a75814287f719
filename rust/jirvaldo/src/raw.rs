//! The library's functions and the memory that they work on: all of the crate's unsafe code.
//!
//! A [`Memory`] that leaves this module holds a job: it comes from an accepted plan, only the functions here change it, and its parts are
//! lent to nobody who could write. That is all that the library asks of it. References are never null and a `&mut` overlaps nothing, so
//! the rest of what the library asks holds of every argument that safe code can pass.

use crate::{MOST_DEQUES, MOST_TASKS, MOST_WORKERS};

/// The fronts and sizes of the workers' deques, and of the muggable ones in their ring.
const ENDS: usize = 2 * (MOST_WORKERS + MOST_DEQUES);
/// Five numbers of each task, and the deques' ends.
const PARTS: usize = 5 * MOST_TASKS + ENDS;
const WORDS: usize = 21;

/// The memory of a job, laid out as in C: `include/jirvaldo.h` has the same parts in the same order.
#[repr(C)]
#[derive(Clone)]
#[cfg_attr(test, derive(Debug, PartialEq))]
pub(crate) struct Memory {
    words: [u64; WORDS],
    parts: [u16; PARTS],
}

extern "C" {
    fn jirvaldo_core_accept(
        plan: *const u8,
        plan_size: usize,
        memory: &mut [u16; PARTS],
        words: &mut [u64; WORDS],
    ) -> u8;
    fn jirvaldo_core_grant(memory: &mut [u16; PARTS], words: &mut [u64; WORDS], workers: u64)
        -> u8;
    fn jirvaldo_core_offer(words: &mut [u64; WORDS], workers: u64) -> u8;
    fn jirvaldo_core_open(memory: &mut [u16; PARTS], words: &mut [u64; WORDS], workers: u64) -> u8;
    fn jirvaldo_core_withdraw(words: &mut [u64; WORDS]) -> u8;
    fn jirvaldo_core_tick(
        memory: &mut [u16; PARTS],
        words: &mut [u64; WORDS],
        choices: *const u8,
        choices_size: usize,
    ) -> u8;
    fn jirvaldo_core_tick_seeded(
        memory: &mut [u16; PARTS],
        words: &mut [u64; WORDS],
        seed: &mut u32,
    ) -> u8;
    fn jirvaldo_core_run_log(
        memory: &mut [u16; PARTS],
        words: &mut [u64; WORDS],
        log: *const u8,
        log_size: usize,
        refusals: &mut u64,
    ) -> u8;
    fn jirvaldo_core_log_grant(workers: u64, log: *mut u8, log_size: usize, size: &mut usize)
        -> u8;
    fn jirvaldo_core_log_tick(
        choices: *const u8,
        choices_size: usize,
        log: *mut u8,
        log_size: usize,
        size: &mut usize,
    ) -> u8;
    fn jirvaldo_core_log_tick_seeded(
        words: &[u64; WORDS],
        seed: u32,
        log: *mut u8,
        log_size: usize,
        size: &mut usize,
    ) -> u8;
    fn jirvaldo_core_status(words: &[u64; WORDS]) -> u8;
    fn jirvaldo_core_wording(
        words: &[u64; WORDS],
        sheet: *const u8,
        sheet_size: usize,
        start: &mut usize,
        size: &mut usize,
    ) -> u8;
    fn jirvaldo_core_counters(words: &[u64; WORDS], refusals: u64, numbers: &mut [u64; 10]);
    fn jirvaldo_core_line(
        words: &[u64; WORDS],
        refusals: u64,
        buffer: *mut u8,
        buffer_size: usize,
        size: &mut usize,
    ) -> u8;
}

/// The calls. Each hands back the number of the refusal, or 0.
impl Memory {
    /// The memory of the plan's fresh job, or the number.
    #[inline]
    pub(crate) fn accept(plan: &[u8]) -> Result<Memory, u8> {
        // no job yet; it does not leave this function unless the plan is accepted
        let mut memory = Memory {
            words: [0; WORDS],
            parts: [0; PARTS],
        };
        match memory.replace(plan) {
            0 => Ok(memory),
            number => Err(number),
        }
    }

    /// The memory becomes the plan's fresh job; refused, it stays.
    #[inline]
    pub(crate) fn replace(&mut self, plan: &[u8]) -> u8 {
        // SAFETY: the pointer and the size are a slice's, memory and words are parts of one `&mut self`; nothing is asked of what they hold.
        unsafe { jirvaldo_core_accept(plan.as_ptr(), plan.len(), &mut self.parts, &mut self.words) }
    }

    #[inline]
    pub(crate) fn grant(&mut self, workers: u64) -> u8 {
        // SAFETY: the memory holds a job.
        unsafe { jirvaldo_core_grant(&mut self.parts, &mut self.words, workers) }
    }

    #[inline]
    pub(crate) fn offer(&mut self, workers: u64) -> u8 {
        // SAFETY: the memory holds a job.
        unsafe { jirvaldo_core_offer(&mut self.words, workers) }
    }

    #[inline]
    pub(crate) fn open(&mut self, workers: u64) -> u8 {
        // SAFETY: the memory holds a job.
        unsafe { jirvaldo_core_open(&mut self.parts, &mut self.words, workers) }
    }

    #[inline]
    pub(crate) fn withdraw(&mut self) -> u8 {
        // SAFETY: the memory holds a job.
        unsafe { jirvaldo_core_withdraw(&mut self.words) }
    }

    #[inline]
    pub(crate) fn tick(&mut self, choices: &[u8]) -> u8 {
        // SAFETY: the memory holds a job; the pointer and the size are a slice's, which can't be a part of `&mut self`.
        unsafe {
            jirvaldo_core_tick(
                &mut self.parts,
                &mut self.words,
                choices.as_ptr(),
                choices.len(),
            )
        }
    }

    #[inline]
    pub(crate) fn tick_seeded(&mut self, seed: &mut u32) -> u8 {
        // SAFETY: the memory holds a job; the seed is a `&mut`, which can't be a part of `&mut self`.
        unsafe { jirvaldo_core_tick_seeded(&mut self.parts, &mut self.words, seed) }
    }

    /// The number, and how many calls were refused.
    #[inline]
    pub(crate) fn run_log(&mut self, log: &[u8]) -> (u8, u64) {
        let mut refusals = 0;
        // SAFETY: as for a tick; `refusals` is a local.
        let number = unsafe {
            jirvaldo_core_run_log(
                &mut self.parts,
                &mut self.words,
                log.as_ptr(),
                log.len(),
                &mut refusals,
            )
        };
        (number, refusals)
    }
}

/// Writes a grant's entry behind the log's first `size` bytes. Each of these three hands back the number of the refusal, or 0.
#[inline]
pub(crate) fn log_grant(workers: u64, log: &mut [u8], size: &mut usize) -> u8 {
    // SAFETY: the pointer and the length are a `&mut` slice's; nothing is asked of the size.
    unsafe { jirvaldo_core_log_grant(workers, log.as_mut_ptr(), log.len(), size) }
}

/// Writes a tick's entry.
#[inline]
pub(crate) fn log_tick(choices: &[u8], log: &mut [u8], size: &mut usize) -> u8 {
    let (lent, length) = (log.as_mut_ptr(), log.len());
    // SAFETY: as for a grant's; the choices are another slice, which can't be a part of a `&mut` one.
    unsafe { jirvaldo_core_log_tick(choices.as_ptr(), choices.len(), lent, length, size) }
}

/// Writes the entry of the tick that this seed draws for the job.
#[inline]
pub(crate) fn log_tick_seeded(memory: &Memory, seed: u32, log: &mut [u8], size: &mut usize) -> u8 {
    let (lent, length) = (log.as_mut_ptr(), log.len());
    // SAFETY: as for a grant's; the memory holds a job.
    unsafe { jirvaldo_core_log_tick_seeded(&memory.words, seed, lent, length, size) }
}

/// What is shown of the job.
impl Memory {
    #[inline]
    pub(crate) fn status(&self) -> u8 {
        // SAFETY: the memory holds a job.
        unsafe { jirvaldo_core_status(&self.words) }
    }

    /// The number, and where the wording starts and how many bytes it has.
    #[inline]
    pub(crate) fn wording(&self, sheet: &[u8]) -> (u8, usize, usize) {
        let (mut start, mut size) = (0, 0);
        // SAFETY: the memory holds a job; the pointer and the size are a slice's; the two places are locals.
        let number = unsafe {
            jirvaldo_core_wording(
                &self.words,
                sheet.as_ptr(),
                sheet.len(),
                &mut start,
                &mut size,
            )
        };
        (number, start, size)
    }

    #[inline]
    pub(crate) fn counters(&self, refusals: u64) -> [u64; 10] {
        let mut numbers = [0; 10];
        // SAFETY: the memory holds a job; `numbers` is a local.
        unsafe { jirvaldo_core_counters(&self.words, refusals, &mut numbers) };
        numbers
    }

    /// The number, and how many bytes of the buffer are the line.
    #[inline]
    pub(crate) fn line(&self, refusals: u64, buffer: &mut [u8]) -> (u8, usize) {
        let mut size = 0;
        // SAFETY: the memory holds a job; the pointer and the size are those of a `&mut` slice, which can't be a part of `self`.
        let number = unsafe {
            jirvaldo_core_line(
                &self.words,
                refusals,
                buffer.as_mut_ptr(),
                buffer.len(),
                &mut size,
            )
        };
        (number, size)
    }
}

/// The parts, to be read: `crates/memory/specs/Parts.antt` says where each lies.
impl Memory {
    pub(crate) fn first(&self) -> &[u16] {
        self.of_each_task(0)
    }

    pub(crate) fn second(&self) -> &[u16] {
        self.of_each_task(1)
    }

    pub(crate) fn next(&self) -> &[u16] {
        self.of_each_task(2)
    }

    pub(crate) fn ends(&self) -> &[u16] {
        &self.parts[4 * MOST_TASKS..][..ENDS]
    }

    pub(crate) fn spans(&self) -> &[u16] {
        &self.parts[4 * MOST_TASKS + ENDS..]
    }

    fn of_each_task(&self, part: usize) -> &[u16] {
        &self.parts[part * MOST_TASKS..][..MOST_TASKS]
    }

    pub(crate) fn words(&self) -> &[u64; WORDS] {
        &self.words
    }
}

#[cfg(test)]
mod tests {
    use super::*;

    /// Zeros are no job, and after a refused plan they still are none; what is shown of them all the same is not "finished". No part but
    /// the words is read here, and every word means something, so that nothing else can go wrong.
    #[test]
    fn zeros_do_not_show_as_finished() {
        let mut memory = Memory {
            words: [0; WORDS],
            parts: [0; PARTS],
        };
        assert_eq!(memory.replace(&[]), 1);
        assert_ne!(memory.status(), 3);
        assert_eq!(memory.status(), 0);
        assert_eq!(memory.counters(0), [0; 10]);
        assert_eq!(memory.wording(b"a\nb\nc\nd\n"), (0, 0, 1));
        let mut buffer = [0; 128];
        let (number, size) = memory.line(0, &mut buffer);
        assert_eq!(
            (number, &buffer[..size]),
            (0, &b"0 0 0 0 0 0 0 0 0 0\n"[..])
        );
    }
}
