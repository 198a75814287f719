//! The note of an offer. Request U5: an offer meets the grant's questions and
//! only notes its count. Opening it takes a count up to that one and then does
//! what a grant does; opening and withdrawing both drop the note. With none
//! noted these two get 24. An offer or grant while one is noted gets 25, after
//! 13 and before 14, and an opened count above the offer gets 14. Whether a
//! round is satisfied depends on the count opened.

use crate::refusal::Refusal::{self, *};

/// What is done to a job, as far as the rules of the note tell it apart.
#[derive(Clone, Copy, Debug, PartialEq, Eq)]
pub enum Kind {
    Grant,
    Tick,
    Offer,
    Open,
    Withdraw,
    /// A log, before its first entry.
    Log,
}

/// The rule of the note. A test bends it.
#[derive(Clone, Copy, Debug, Default, PartialEq, Eq)]
pub enum Noting {
    /// The request's.
    #[default]
    OneAtATime,
    /// 25 is asked before 11. No call shows it: an offer is noted where 11 to 13
    /// are answered with yes, and nothing moves before it is dropped.
    AskedFirst,
    /// 25 is asked after 14.
    AskedLast,
    /// A call does not ask this question. A second offer takes the place of the
    /// first, and an opening of no offer goes up to the desire.
    Skips(Kind, Refusal),
    /// A call asks this question before its own.
    AsksToo(Kind, Refusal),
    /// It drops the note before all else.
    DroppedBy(Kind),
    /// It opens the whole offer before all else.
    OpenedBy(Kind),
    /// It drops the note where it is refused.
    LostBy(Kind),
    /// It is a quantum begun, beside what it does.
    Begins(Kind),
    /// It opens a quantum, too: an offer of its count, a withdrawal of 0.
    Opens(Kind),
    /// A second offer passes, and the first one stays.
    FirstStays,
    /// A second offer passes and is added to the first one.
    Added,
    /// An offer of 0 is not noted.
    ZeroIsNone,
    /// An offer above the desire passes as one of the desire.
    OfferCut,
    /// An offer's workers come, and others go, at once.
    OfferMoves,
    /// After an offer above 0 a job is no longer fresh.
    OfferStarts,
    /// No offer is one of 0, for an opening.
    NoneIsZero,
    /// An opened count above the offer is the offered one.
    OpenCut,
    /// The opened count is at most the desire, and not the offer.
    UpToDesire,
    /// The opened count is the offered one, or 14.
    OfferedAlone,
    /// All that was offered is opened, whatever the count up to it.
    OpenedWhole,
    /// An opening leaves the note.
    OpenKeeps,
    /// What was offered and not opened stays noted.
    RestStays,
    /// An opening of 0 drops the note alone.
    ZeroOpensNothing,
    /// An opening is no quantum begun.
    OpenNotBegun,
    /// A withdrawal leaves the note.
    WithdrawKeeps,
    /// A quantum is satisfied by the offered count.
    SatisfiedByOffer,
    /// A quantum is efficient by the offered count.
    EfficientByOffer,
}

use Noting::*;

/// The rules that are not the request's and show in an answer or a job.
pub const BENT: [Noting; 48] = [
    AskedLast,
    Skips(Kind::Offer, JobFinished),
    Skips(Kind::Offer, QuantumOpen),
    Skips(Kind::Offer, QuantaExhausted),
    Skips(Kind::Offer, OfferNoted),
    Skips(Kind::Offer, GrantAboveDesire),
    Skips(Kind::Grant, OfferNoted),
    Skips(Kind::Open, NoOffer),
    Skips(Kind::Withdraw, NoOffer),
    AsksToo(Kind::Open, JobFinished),
    AsksToo(Kind::Open, QuantumOpen),
    AsksToo(Kind::Open, QuantaExhausted),
    AsksToo(Kind::Withdraw, JobFinished),
    AsksToo(Kind::Withdraw, QuantumOpen),
    AsksToo(Kind::Withdraw, QuantaExhausted),
    AsksToo(Kind::Tick, OfferNoted),
    DroppedBy(Kind::Grant),
    DroppedBy(Kind::Offer),
    DroppedBy(Kind::Tick),
    DroppedBy(Kind::Log),
    OpenedBy(Kind::Grant),
    OpenedBy(Kind::Tick),
    OpenedBy(Kind::Log),
    LostBy(Kind::Grant),
    LostBy(Kind::Offer),
    LostBy(Kind::Open),
    Begins(Kind::Offer),
    Begins(Kind::Withdraw),
    Opens(Kind::Offer),
    Opens(Kind::Withdraw),
    FirstStays,
    Added,
    ZeroIsNone,
    OfferCut,
    OfferMoves,
    OfferStarts,
    NoneIsZero,
    OpenCut,
    UpToDesire,
    OfferedAlone,
    OpenedWhole,
    OpenKeeps,
    RestStays,
    ZeroOpensNothing,
    OpenNotBegun,
    WithdrawKeeps,
    SatisfiedByOffer,
    EfficientByOffer,
];

/// The counts that a quantum is judged by at its end. Both are the count that
/// was granted or opened.
#[derive(Clone, Copy, Debug, Default, PartialEq, Eq)]
pub struct Judged {
    /// It is satisfied where this is the desire.
    pub satisfied: usize,
    /// It is efficient where enough of what these could do was used.
    pub efficient: usize,
}

impl Noting {
    /// The questions of a grant, which an offer meets too, in their order.
    pub fn questions(self) -> [Refusal; 5] {
        let (first, second, third) = (JobFinished, QuantumOpen, QuantaExhausted);
        match self {
            AskedFirst => [OfferNoted, first, second, third, GrantAboveDesire],
            AskedLast => [first, second, third, GrantAboveDesire, OfferNoted],
            _ => [first, second, third, OfferNoted, GrantAboveDesire],
        }
    }

    /// Whether a call asks this question of its own.
    pub fn asks(self, kind: Kind, question: Refusal) -> bool {
        let second = matches!(self, FirstStays | Added);
        match (kind, question) {
            (Kind::Offer, OfferNoted) if second => false,
            (Kind::Offer, GrantAboveDesire) if self == OfferCut => false,
            _ => self != Skips(kind, question),
        }
    }

    /// The question that a call asks before its own, if there is one.
    pub fn asks_too(self, kind: Kind) -> Option<Refusal> {
        match self {
            AsksToo(asking, question) if asking == kind => Some(question),
            _ => None,
        }
    }

    /// The note after an accepted offer.
    pub fn noted(self, note: Option<usize>, count: usize, desire: usize) -> Option<usize> {
        match self {
            FirstStays => note.or(Some(count)),
            Added => Some(count.saturating_add(note.unwrap_or(0))),
            ZeroIsNone => Some(count).filter(|&count| count > 0),
            OfferCut => Some(count.min(desire)),
            _ => Some(count),
        }
    }

    /// What an opening finds offered; nothing is 24.
    pub fn found(self, note: Option<usize>, desire: usize) -> Option<usize> {
        match self {
            NoneIsZero => note.or(Some(0)),
            Skips(Kind::Open, NoOffer) => note.or(Some(desire)),
            _ => note,
        }
    }

    /// How many workers an opening of that count opens; nothing is 14.
    pub fn opened(self, offered: usize, count: usize, desire: usize) -> Option<usize> {
        match self {
            OpenCut => Some(count.min(offered)),
            UpToDesire => Some(count).filter(|&count| count <= desire),
            OfferedAlone => Some(count).filter(|&count| count == offered),
            OpenedWhole => Some(offered).filter(|&offered| count <= offered),
            _ => Some(count).filter(|&count| count <= offered),
        }
    }

    /// The note after an opening.
    pub fn left(self, offered: usize, opened: usize) -> Option<usize> {
        match self {
            OpenKeeps => Some(offered),
            RestStays => offered.checked_sub(opened).filter(|&rest| rest > 0),
            _ => None,
        }
    }

    /// What the quantum of an opening is judged by.
    pub fn judged(self, offered: usize, opened: usize) -> Judged {
        Judged {
            satisfied: if self == SatisfiedByOffer {
                offered
            } else {
                opened
            },
            efficient: if self == EfficientByOffer {
                offered
            } else {
                opened
            },
        }
    }
}
