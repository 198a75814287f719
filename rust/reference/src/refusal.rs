//! The questions of document 01 and its requests, each with its number when the
//! answer is no.

use std::fmt;

/// A question that was answered with no. The variants stand in the order of
/// their numbers.
#[derive(Clone, Copy, Debug, PartialEq, Eq, PartialOrd, Ord, Hash)]
pub enum Refusal {
    PlanTooShort = 1,
    FormUnknown = 2,
    ResponsivenessOutOfRange = 3,
    UtilizationOutOfRange = 4,
    QuantumLengthZero = 5,
    PlanLengthWrong = 6,
    SuccessorCountWrong = 7,
    SuccessorWrong = 8,
    PredecessorCountWrong = 9,
    SinkNotUnique = 10,
    JobFinished = 11,
    QuantumOpen = 12,
    QuantaExhausted = 13,
    GrantAboveDesire = 14,
    NoQuantumOpen = 15,
    ChoiceCountWrong = 16,
    ChoiceOutOfRange = 17,
    EntryBroken = 18,
    WordingMissing = 19,
    BufferTooSmall = 20,
    InputTooLong = 21,
    InputTooShort = 22,
    NoOffer = 24,
    OfferNoted = 25,
    TicksZero = 28,
}

use Refusal::*;

impl Refusal {
    /// Every refusal, in the order of the numbers 1 to 22, 24, 25 and 28.
    pub const ALL: [Refusal; 25] = [
        PlanTooShort,
        FormUnknown,
        ResponsivenessOutOfRange,
        UtilizationOutOfRange,
        QuantumLengthZero,
        PlanLengthWrong,
        SuccessorCountWrong,
        SuccessorWrong,
        PredecessorCountWrong,
        SinkNotUnique,
        JobFinished,
        QuantumOpen,
        QuantaExhausted,
        GrantAboveDesire,
        NoQuantumOpen,
        ChoiceCountWrong,
        ChoiceOutOfRange,
        EntryBroken,
        WordingMissing,
        BufferTooSmall,
        InputTooLong,
        InputTooShort,
        NoOffer,
        OfferNoted,
        TicksZero,
    ];

    /// The number of this refusal, document 01's or a request's.
    pub fn number(self) -> u8 {
        self as u8
    }

    /// What is wrong, in a plain sentence.
    pub fn sentence(self) -> &'static str {
        match self {
            PlanTooShort => "the plan has fewer than 5 bytes",
            FormUnknown => "the plan's form is not 1, 2 or 3",
            ResponsivenessOutOfRange => {
                "the responsiveness is below 2, or in form 3 not 12 to 20 tenths"
            }
            UtilizationOutOfRange => "the utilization is not from 1 to 100 percent",
            QuantumLengthZero => "the quantum length is 0",
            PlanLengthWrong => "the plan's length does not fit its form and number of tasks",
            SuccessorCountWrong => "a task has 3 successors or an unused field that is not 0",
            SuccessorWrong => "a successor is not above its task, not a task, or named twice",
            PredecessorCountWrong => "a task after task 0 has not one or two predecessors",
            SinkNotUnique => "a task other than the last one has no successor",
            JobFinished => "the job is finished",
            QuantumOpen => "a quantum is open",
            QuantaExhausted => "4,096 quanta have begun",
            GrantAboveDesire => {
                "more workers are granted or offered than the job desires, opened than were offered, \
                 or written than a log's entry can say"
            }
            NoQuantumOpen => "no quantum is open",
            ChoiceCountWrong => {
                "there is not exactly one choice for each granted worker, \
                 or there are more than a log's entry can say"
            }
            ChoiceOutOfRange => "a choice is not below the allotment",
            EntryBroken => "the log ends inside an entry",
            WordingMissing => "the label sheet has no line for the status",
            BufferTooSmall => {
                "the buffer for the counters line has fewer than 128 bytes, \
                 or a log's has no room for the entry"
            }
            InputTooLong => "the program's input has more than 65,536 bytes",
            InputTooShort => "the program's input ends before its plan does",
            NoOffer => "no offer is noted; offer workers before you open or withdraw",
            OfferNoted => "an offer is noted; open or withdraw it first",
            TicksZero => "a task lasts 0 ticks",
        }
    }
}

impl fmt::Display for Refusal {
    fn fmt(&self, out: &mut fmt::Formatter<'_>) -> fmt::Result {
        write!(out, "{}: {}", self.number(), self.sentence())
    }
}

impl std::error::Error for Refusal {}

/// Asks one question: nothing when the answer is yes, else the refusal.
pub(crate) fn ask(answer: bool, otherwise: Refusal) -> Result<(), Refusal> {
    if answer {
        Ok(())
    } else {
        Err(otherwise)
    }
}
