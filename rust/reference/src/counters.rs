//! The counters line (document 01: count line), and how long it is (request U2
//! of document 02).

use crate::job::Job;
use crate::refusal::{ask, Refusal};

/// A buffer for the counters line has at least this many bytes.
pub const LEAST_BUFFER: usize = 128;

/// How the digits of a number are counted: 1 for 0, else the least count whose
/// power of ten is above the number. A test bends it.
#[derive(Clone, Copy, Debug, PartialEq, Eq)]
pub struct DigitCount {
    /// So many digits has 0.
    pub of_zero: usize,
    /// A power is above a number where it is at least this much more.
    pub above_by: u64,
    /// No greater count is tried.
    pub most: usize,
}

impl Default for DigitCount {
    fn default() -> DigitCount {
        DigitCount {
            of_zero: 1,
            above_by: 1,
            most: usize::MAX,
        }
    }
}

impl DigitCount {
    /// The digits of a number.
    pub fn of(self, number: u64) -> usize {
        if number == 0 {
            return self.of_zero;
        }
        let above = u128::from(number) + u128::from(self.above_by);
        let (mut count, mut power) = (0, 1);
        while power < above && count < self.most {
            count += 1;
            power *= 10;
        }
        count
    }
}

/// The ten numbers: status, tasks worked, number of tasks, desire, allotment,
/// work, mug and steal cycles, successful steals, refused calls.
pub fn ten_numbers(job: &Job, refused: u64) -> [u64; 10] {
    [
        u64::from(job.status().number()),
        job.worked_count(),
        job.plan().task_count() as u64,
        job.desire() as u64,
        job.allotment() as u64,
        job.work_cycles(),
        job.mug_cycles(),
        job.steal_cycles(),
        job.successful_steals(),
        refused,
    ]
}

/// The line as text, with its byte 10. At most 123 bytes, as no number has more
/// than 20 digits and the first five have 13 together.
pub fn counters_text(job: &Job, refused: u64) -> String {
    let numbers = ten_numbers(job, refused).map(|number| number.to_string());
    numbers.join(" ") + "\n"
}

/// How long the line is: the ten counts plus 10.
pub fn line_size(job: &Job, refused: u64) -> usize {
    let counts = ten_numbers(job, refused).map(|number| job.rules().digits.of(number));
    counts.iter().sum::<usize>() + 10
}

/// Writes the line at the start of the buffer and returns its length, or
/// refuses with 20. Bytes after the line, or all after a refusal, stay.
pub fn counters_line(job: &Job, refused: u64, buffer: &mut [u8]) -> Result<usize, Refusal> {
    ask(buffer.len() >= LEAST_BUFFER, Refusal::BufferTooSmall)?;
    let line = counters_text(job, refused);
    for (place, byte) in buffer.iter_mut().zip(line.bytes()) {
        *place = byte;
    }
    Ok(line_size(job, refused))
}
