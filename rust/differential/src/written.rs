//! Logs that both sides write (request U13): entry by entry, and of a whole stretch of calls.

use std::fmt;

use jirvaldo::inspect::State;
use jirvaldo::LogWriter;
use reference::Entry;

use crate::compare::Part;
use crate::pair::{at_most_usize, proved_number, reference_number, Proved, Reference};

/// An entry that both write.
#[derive(Clone, Copy)]
pub enum Written<'a> {
    Grant(u64),
    Tick(&'a [u8]),
    /// The tick that a seed draws for the two jobs.
    Seeded(&'a Proved, &'a Reference, u32),
}

impl fmt::Debug for Written<'_> {
    fn fmt(&self, out: &mut fmt::Formatter<'_>) -> fmt::Result {
        match self {
            Written::Grant(workers) => write!(out, "Grant({workers})"),
            Written::Tick(choices) => write!(out, "Tick({choices:?})"),
            Written::Seeded(_, _, seed) => write!(out, "Seeded({seed})"),
        }
    }
}

impl Written<'_> {
    /// How many bytes it takes.
    pub fn size(self) -> usize {
        match self {
            Written::Grant(_) => 1,
            Written::Tick(choices) => 1 + choices.len(),
            Written::Seeded(_, job, _) => 1 + job.allotment(),
        }
    }

    /// The library writes it behind so many bytes of a buffer: the number, and the size after it.
    fn by_library(self, buffer: &mut [u8], size: usize) -> (u8, usize) {
        let mut log = LogWriter::resume(buffer, size);
        let answer = match self {
            Written::Grant(workers) => log.grant(workers),
            Written::Tick(choices) => log.tick(choices),
            Written::Seeded(job, _, seed) => log.tick_seeded(job, seed),
        };
        (proved_number(&answer), log.size())
    }

    /// So does the reference.
    fn by_reference(self, buffer: &mut [u8], mut size: usize) -> (u8, usize) {
        let mut append = |entry: Entry| reference_number(&entry.append(buffer, &mut size));
        let number = match self {
            Written::Grant(workers) => append(Entry::Grant(at_most_usize(workers))),
            Written::Tick(choices) => append(Entry::Tick(choices)),
            Written::Seeded(_, job, seed) => append(Entry::Tick(&job.drawn(seed).choices)),
        };
        (number, size)
    }
}

/// A log that both write, each in a buffer of its own.
#[derive(Clone, Debug, PartialEq, Eq)]
pub struct Log {
    proved: Vec<u8>,
    reference: Vec<u8>,
    size: usize,
}

/// What is reported where the two write something else, and where a refused entry has changed something.
pub const OTHER_ENTRY: Part = "entry of a log";
pub const CHANGED_LOG: Part = "log after a refused entry";

impl Log {
    /// A log in two copies of a buffer, of which so many bytes are used.
    pub fn new(buffer: Vec<u8>, size: usize) -> Log {
        Log {
            reference: buffer.clone(),
            proved: buffer,
            size,
        }
    }

    /// The length of the buffers, and how many bytes of them are used.
    pub fn room(&self) -> (usize, usize) {
        (self.proved.len(), self.size)
    }

    /// Both write an entry. Returns the number, or what each has done where the numbers, the sizes or any bytes of the buffers differ.
    pub fn write(&mut self, entry: Written) -> Result<u8, String> {
        let proved = entry.by_library(&mut self.proved, self.size);
        let reference = entry.by_reference(&mut self.reference, self.size);
        if proved == reference && self.proved == self.reference {
            self.size = proved.1;
            return Ok(proved.0);
        }
        let buffers = (&self.proved, &self.reference);
        Err(format!(
            "{entry:?} behind {} bytes: proved {proved:?}, reference {reference:?}; {buffers:02x?}",
            self.size
        ))
    }

    /// The bytes that are written.
    pub fn bytes(&self) -> &[u8] {
        self.proved.get(..self.size).unwrap_or_default()
    }
}

/// What is reported where the log of a stretch does not end as the stretch did.
pub const REFUSED_IN_LOG: Part = "calls refused in the log of a stretch";
pub const OTHER_END: Part = "job after the log of a stretch";

/// A stretch of calls whose log both keep.
pub struct Stretch {
    /// The library's job before the first of them.
    start: Proved,
    pub log: Log,
}

impl Stretch {
    /// From this job on, in a buffer of those bytes.
    pub fn new(start: &Proved, buffer: Vec<u8>) -> Stretch {
        Stretch {
            start: start.clone(),
            log: Log::new(buffer, 0),
        }
    }

    /// Runs the log on the job from the start. It has to be whole, to refuse nothing and to end as this job, but for a noted offer, which
    /// no log has. Returns what is wrong, with the log.
    pub fn check(self, ended: &Proved) -> Result<(), (Part, String)> {
        let mut job = self.start;
        let run = job.run_log(self.log.bytes());
        let ended = State {
            offer: None,
            ..State::of(ended)
        };
        let log = || format!("{:02x?}: {run:?}", self.log.bytes());
        if run.end.is_err() || run.refused_calls != 0 {
            Err((REFUSED_IN_LOG, log()))
        } else if State::of(&job) != ended {
            Err((OTHER_END, log()))
        } else {
            Ok(())
        }
    }
}
