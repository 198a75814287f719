//! The log (document 01: day log), read and written.

use crate::job::{GrantReport, Job, TickReport};
use crate::offer::Kind;
use crate::plan::split;
use crate::refusal::{ask, Refusal};

/// The largest count that an entry can say.
pub const MOST_IN_ENTRY: usize = 127;

/// One whole entry of a log.
#[derive(Clone, Copy, Debug, PartialEq, Eq)]
pub enum Entry<'a> {
    /// Top bit 0: a grant of the low 7 bits.
    Grant(usize),
    /// Top bit 1: a tick with as many choices as the low 7 bits say.
    Tick(&'a [u8]),
}

impl Entry<'_> {
    /// Makes the call that the entry stands for.
    pub fn apply(&self, job: &mut Job) -> Result<Report, Refusal> {
        match *self {
            Entry::Grant(allotment) => job.grant(allotment).map(Report::Grant),
            Entry::Tick(choices) => job.tick(choices).map(Report::Tick),
        }
    }

    /// Its bytes; or refuses with 14 a grant above 127 and with 16 a tick of
    /// more than 127 choices, which no entry can say.
    pub fn bytes(&self) -> Result<Vec<u8>, Refusal> {
        let (top, count, choices, refusal) = match *self {
            Entry::Grant(count) => (0, count, &[][..], Refusal::GrantAboveDesire),
            Entry::Tick(choices) => (128, choices.len(), choices, Refusal::ChoiceCountWrong),
        };
        ask(count <= MOST_IN_ENTRY, refusal)?;
        Ok([&[top + count as u8], choices].concat())
    }

    /// Appends the entry to a log in a lent buffer, of which so many bytes are
    /// used. Refuses with 14 or 16, or else with 20 where fewer bytes are left
    /// than the entry has; then the buffer and the size stay.
    pub fn append(&self, buffer: &mut [u8], size: &mut usize) -> Result<(), Refusal> {
        let entry = self.bytes()?;
        let free = buffer.get_mut(*size..).unwrap_or_default();
        let place = free.get_mut(..entry.len());
        place
            .ok_or(Refusal::BufferTooSmall)?
            .copy_from_slice(&entry);
        *size += entry.len();
        Ok(())
    }
}

/// What an accepted call did.
#[derive(Clone, Debug, PartialEq, Eq)]
pub enum Report {
    Grant(GrantReport),
    Tick(TickReport),
}

/// Reads the entries of a log one after the other. A broken entry is
/// refusal 18 and the last item.
#[derive(Clone, Debug)]
pub struct Entries<'a> {
    rest: &'a [u8],
}

impl<'a> Entries<'a> {
    /// The entries of these bytes.
    pub fn new(log: &'a [u8]) -> Entries<'a> {
        Entries { rest: log }
    }
}

impl<'a> Iterator for Entries<'a> {
    type Item = Result<Entry<'a>, Refusal>;

    fn next(&mut self) -> Option<Self::Item> {
        let (&head, rest) = self.rest.split_first()?;
        let low = usize::from(head & 0x7f);
        if head & 0x80 == 0 {
            self.rest = rest;
            return Some(Ok(Entry::Grant(low)));
        }
        let whole = split(rest, low);
        self.rest = whole.map_or(&[], |(_, after)| after);
        Some(match whole {
            Some((choices, _)) => Ok(Entry::Tick(choices)),
            None => Err(Refusal::EntryBroken),
        })
    }
}

/// What is left to say after a log has moved a job.
#[derive(Clone, Copy, Debug, PartialEq, Eq)]
pub struct LogOutcome {
    /// Calls that were refused with 11 to 17 or 25.
    pub refused: u64,
    /// Refusal 18 if the log ended inside an entry.
    pub broken: Option<Refusal>,
}

/// Runs a log on a job, fresh or not. A refused call is counted and the next
/// entry follows; a broken entry ends the log and is not counted.
pub fn run_log(job: &mut Job, log: &[u8]) -> LogOutcome {
    run_log_with(job, log, |_, _, _| ())
}

/// Like [`run_log`], and shows each entry, its answer and the job after it.
pub fn run_log_with<F>(job: &mut Job, log: &[u8], mut show: F) -> LogOutcome
where
    F: FnMut(&Job, &Entry, &Result<Report, Refusal>),
{
    let mut outcome = LogOutcome {
        refused: 0,
        broken: None,
    };
    job.enter(Kind::Log);
    for item in Entries::new(log) {
        match item {
            Ok(entry) => {
                let answer = entry.apply(job);
                outcome.refused += u64::from(answer.is_err());
                show(job, &entry, &answer);
            }
            Err(refusal) => outcome.broken = Some(refusal),
        }
    }
    outcome
}
