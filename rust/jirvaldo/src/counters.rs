//! The counters of a job, as numbers and as a line.

#![forbid(unsafe_code)]

use std::fmt;
use std::ops::Deref;
use std::str;

use crate::{Status, LINE_BUFFER};

/// The ten numbers of the counters line, in its order. Work, mug and steal cycles add up to the numbers of workers granted at all accepted
/// ticks. An offer and a withdrawal change none of the ten.
#[derive(Clone, Copy, Debug, PartialEq, Eq)]
pub struct Counters {
    /// The job's status.
    pub status: Status,
    /// Tasks worked: all their ticks are done.
    pub worked: u64,
    /// Tasks of the plan (N).
    pub tasks: u64,
    /// Workers that the job desires next.
    pub desire: u64,
    /// Workers that the last accepted grant or open gave.
    pub allotment: u64,
    /// Work cycles: a worker did a tick of a task.
    pub work: u64,
    /// Mug cycles: a worker took over the deque of a withdrawn worker.
    pub mug: u64,
    /// Steal cycles: a worker tried to take tasks from another's deque, or came after the job's last task.
    pub steal: u64,
    /// Steal cycles that took tasks.
    pub successes: u64,
    /// Refused calls, as the caller counts them; see [`LogRun::refused_calls`](crate::LogRun::refused_calls).
    pub refused_calls: u64,
}

impl Counters {
    #[inline]
    pub(crate) fn of(numbers: [u64; 10]) -> Counters {
        let [status, worked, tasks, desire, allotment, work, mug, steal, successes, refused_calls] =
            numbers;
        Counters {
            status: Status::of(status),
            worked,
            tasks,
            desire,
            allotment,
            work,
            mug,
            steal,
            successes,
            refused_calls,
        }
    }
}

/// The counters line as text, without the byte 10 that ends it, held without allocation. It is a `str` by `Deref` and prints as one.
#[derive(Clone)]
pub struct Line {
    bytes: [u8; LINE_BUFFER],
    size: usize,
}

impl Line {
    /// The line that a call wrote: its size, with byte 10, and the buffer.
    pub(crate) fn of(bytes: [u8; LINE_BUFFER], written: usize) -> Line {
        let size = written.saturating_sub(1);
        Line { bytes, size }
    }
}

impl Deref for Line {
    type Target = str;

    fn deref(&self) -> &str {
        // digits and spaces
        str::from_utf8(&self.bytes[..self.size]).unwrap_or_default()
    }
}

impl fmt::Display for Line {
    fn fmt(&self, out: &mut fmt::Formatter<'_>) -> fmt::Result {
        out.pad(self)
    }
}

impl fmt::Debug for Line {
    fn fmt(&self, out: &mut fmt::Formatter<'_>) -> fmt::Result {
        fmt::Debug::fmt(&**self, out)
    }
}
