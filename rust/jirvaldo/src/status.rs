//! The status of a job.

#![forbid(unsafe_code)]

/// What a job is doing, with the numbers of the counters line and of the label sheet's lines. An open is a grant here, and an offer is none.
#[derive(Clone, Copy, Debug, PartialEq, Eq, PartialOrd, Ord, Hash)]
#[repr(u8)]
pub enum Status {
    /// 0: nothing above 0 was ever granted.
    Fresh = 0,
    /// 1: at work.
    Running = 1,
    /// 2: the last grant was of 0 workers.
    Held = 2,
    /// 3: every task is worked.
    Finished = 3,
}

impl Status {
    /// The status' number, 0 to 3.
    pub const fn number(self) -> u8 {
        self as u8
    }

    /// The status of a number of the library, which hands out no other numbers than these.
    #[inline]
    pub(crate) fn of(number: u64) -> Status {
        match number {
            0 => Status::Fresh,
            1 => Status::Running,
            2 => Status::Held,
            _ => Status::Finished,
        }
    }
}
