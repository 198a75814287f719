//! The numbered refusals.

#![forbid(unsafe_code)]

use std::error::Error;
use std::fmt;

/// Why a call was refused. A refused call changes nothing; only a log that ends inside an entry ([`BrokenEntry`](Refusal::BrokenEntry)) has
/// done the entries before it.
///
/// Questions are asked in the order of the numbers, and the first one answered with no is the refusal; but 28 is asked after 8 of the same
/// task, before 7 of the next one, 24 before 14, and 25 after 13 and before 14. Numbers 21 and 22 belong to the program `replay` (its input
/// has more than 65,536 bytes; its input ends before the plan does), so no function here returns them.
///
/// `Display` is one sentence for a maker, without the number.
///
/// ```
/// use jirvaldo::Refusal;
///
/// let refusal = Refusal::AboveDesire;
/// assert_eq!(refusal.number(), 14);
/// assert_eq!(Refusal::try_from(14), Ok(refusal));
/// assert_eq!(
///     refusal.to_string(),
///     "more workers are granted or offered than the job desires, or opened than were offered",
/// );
/// ```
#[derive(Clone, Copy, Debug, PartialEq, Eq, PartialOrd, Ord, Hash)]
#[repr(u8)]
pub enum Refusal {
    /// 1: the plan has fewer than 5 bytes.
    Short = 1,
    /// 2: the plan's form is not 1, 2 or 3.
    UnknownForm = 2,
    /// 3: the plan's R, the responsiveness, is below 2, or in form 3 not from 12 to 20 tenths.
    BadResponsiveness = 3,
    /// 4: the plan's D, the utilization in percent, is not from 1 to 100.
    BadUtilization = 4,
    /// 5: the plan's L, the quantum length, is 0.
    ZeroQuantumLength = 5,
    /// 6: the plan's length is not 5 + 3 × N bytes, or in form 2 not 5 + 4 × N.
    WrongLength = 6,
    /// 7: a task's successor count is 3, or one of its unused successor fields is not 0.
    BadFields = 7,
    /// 8: a successor is not above its task's number and below N, or a task names one twice.
    BadSuccessors = 8,
    /// 9: a task from 1 up has no predecessor, or more than two.
    BadPredecessors = 9,
    /// 10: a task other than the last has no successor.
    LooseEnd = 10,
    /// 11: the job is finished (asked of a grant, of an offer and of a tick).
    Finished = 11,
    /// 12: a quantum is open (asked of a grant and of an offer).
    QuantumOpen = 12,
    /// 13: as many quanta have begun as a job may have, [`MOST_QUANTA`](crate::MOST_QUANTA) (asked of a grant and of an offer).
    QuantaSpent = 13,
    /// 14: more workers are granted or offered than the job desires, or opened than were offered. Of a [log's
    /// entry](crate::LogWriter::grant): more than 127.
    AboveDesire = 14,
    /// 15: no quantum is open (asked of a tick).
    NoQuantumOpen = 15,
    /// 16: a tick has not exactly one choice for each granted worker. Of a [log's entry](crate::LogWriter::tick): more than 127.
    WrongChoiceCount = 16,
    /// 17: a tick's choice is not below the allotment.
    BadChoice = 17,
    /// 18: a log ends inside an entry; the entries before it are done.
    BrokenEntry = 18,
    /// 19: a label sheet has no line for the job's status.
    NoWording = 19,
    /// 20: a buffer for the counters line has fewer than 128 bytes, or a log's has no room for the entry.
    SmallBuffer = 20,
    /// 24: no offer is noted (asked of an open and of a withdrawal).
    NoOffer = 24,
    /// 25: an offer is noted (asked of a grant and of an offer, after 13 and before 14).
    OfferNoted = 25,
    /// 28: a task's ticks are 0, in a plan of form 2.
    ZeroTicks = 28,
}

use Refusal::*;

impl Refusal {
    /// Every refusal, in the order of the numbers, 1 to 20, 24, 25 and 28.
    pub const ALL: [Refusal; 23] = [
        Short,
        UnknownForm,
        BadResponsiveness,
        BadUtilization,
        ZeroQuantumLength,
        WrongLength,
        BadFields,
        BadSuccessors,
        BadPredecessors,
        LooseEnd,
        Finished,
        QuantumOpen,
        QuantaSpent,
        AboveDesire,
        NoQuantumOpen,
        WrongChoiceCount,
        BadChoice,
        BrokenEntry,
        NoWording,
        SmallBuffer,
        NoOffer,
        OfferNoted,
        ZeroTicks,
    ];

    /// The refusal's number, 1 to 20, 24, 25 or 28.
    pub const fn number(self) -> u8 {
        self as u8
    }

    const fn sentence(self) -> &'static str {
        match self {
            Short => "the plan has fewer than 5 bytes, so its header is not whole",
            UnknownForm => "the plan's form is not 1, 2 or 3",
            BadResponsiveness => {
                "the plan's R, the responsiveness, is below 2, or in form 3 not from 12 to 20 tenths"
            }
            BadUtilization => "the plan's D, the utilization in percent, is not from 1 to 100",
            ZeroQuantumLength => {
                "the plan's L, the quantum length, is 0; a quantum has at least one tick"
            }
            WrongLength => {
                "the plan is not 5 + 3 * N bytes long in form 1 or 3, or 5 + 4 * N in form 2, for its header's N tasks"
            }
            BadFields => {
                "a task's successor count is 3, or one of its unused successor fields is not 0"
            }
            BadSuccessors => {
                "a task's successor is not above the task, is not below N, or is named twice"
            }
            BadPredecessors => "a task from 1 up has no predecessor, or more than two",
            LooseEnd => "a task before the last has no successor; only the last task may have none",
            Finished => "the job is finished and takes no more grants, offers and ticks",
            QuantumOpen => "a quantum is open; tick until it closes, then grant or offer",
            QuantaSpent => "4,096 quanta have begun, the most that a job may have",
            AboveDesire => {
                "more workers are granted or offered than the job desires, or opened than were offered"
            }
            NoQuantumOpen => "no quantum is open; a grant or the opening of an offer opens one",
            WrongChoiceCount => "the tick has not exactly one choice for each granted worker",
            BadChoice => "a choice names no granted worker; each has to be below the allotment",
            BrokenEntry => "the log ends inside an entry; the entries before it are done",
            NoWording => "the sheet has no line for the job's status; byte 10 ends a line",
            SmallBuffer => {
                "the buffer for the counters line has fewer than 128 bytes, or the log's has no room for the entry"
            }
            NoOffer => "no offer is noted; offer workers before you open or withdraw",
            OfferNoted => "an offer is noted; open or withdraw it first",
            ZeroTicks => "a task's ticks are 0; a task lasts at least one tick",
        }
    }
}

impl fmt::Display for Refusal {
    fn fmt(&self, out: &mut fmt::Formatter<'_>) -> fmt::Result {
        out.pad(self.sentence())
    }
}

impl Error for Refusal {}

/// A number that is none of the library's refusals, handed back by `Refusal::try_from`.
#[derive(Clone, Copy, Debug, PartialEq, Eq)]
pub struct UnknownNumber(pub u8);

impl fmt::Display for UnknownNumber {
    fn fmt(&self, out: &mut fmt::Formatter<'_>) -> fmt::Result {
        write!(
            out,
            "{} is not the number of a refusal, 1 to 20, 24, 25 or 28",
            self.0
        )
    }
}

impl Error for UnknownNumber {}

impl TryFrom<u8> for Refusal {
    type Error = UnknownNumber;

    /// The refusal of a number from 1 to 20, or of 24, 25 or 28; every other number is handed back.
    fn try_from(number: u8) -> Result<Refusal, UnknownNumber> {
        let mut all = Refusal::ALL.into_iter();
        all.find(|refusal| refusal.number() == number)
            .ok_or(UnknownNumber(number))
    }
}

/// The answer that stands for a number of the library: 0 is none of the refusals.
#[inline]
pub(crate) fn answer(number: u8) -> Result<(), Refusal> {
    match number {
        0 => Ok(()),
        number => Err(refusal(number)),
    }
}

/// The refusal that stands for a number of the library, which is from 1 to 20, or 24, 25 or 28: the library hands out no others.
#[cold]
pub(crate) fn refusal(number: u8) -> Refusal {
    Refusal::try_from(number).expect("the archive is this version's")
}
