//! What the workers after the finisher count. Request U6: in the tick that
//! finishes a job, each of them counts an unsuccessful steal, so that work, mug
//! and steal cycles add up to the workers granted in all accepted ticks.

/// What is counted for them, and for whom else. A test bends it.
#[derive(Clone, Copy, Debug, Default, PartialEq, Eq)]
pub enum Rest {
    /// The request's: a steal cycle in vain for each worker after the finisher.
    #[default]
    EachInVain,
    /// Nothing, as in document 01.
    Nothing,
    /// One steal cycle in vain for all of them.
    OneForAll,
    /// One more, for the finisher.
    FinisherToo,
    /// One for each other worker, those before the finisher too.
    EarlierToo,
    /// One for each granted worker, the finisher and those before it too.
    AllGranted,
    /// A successful steal cycle each.
    EachSucceeds,
    /// A mug cycle each.
    EachMugs,
}

/// The rules that are not the request's.
pub const BENT: [Rest; 7] = [
    Rest::Nothing,
    Rest::OneForAll,
    Rest::FinisherToo,
    Rest::EarlierToo,
    Rest::AllGranted,
    Rest::EachSucceeds,
    Rest::EachMugs,
];

/// Cycles that are counted and not taken.
#[derive(Clone, Copy, Debug, Default, PartialEq, Eq)]
pub struct Charge {
    pub mugs: u64,
    pub steals: u64,
    /// Those of the steals that count as successful.
    pub successes: u64,
}

impl Rest {
    /// What a finishing tick counts beside the cycles taken, with so many
    /// workers granted and so many of them after the finisher.
    pub fn charge(self, granted: usize, after: usize) -> Charge {
        let (granted, after) = (granted as u64, after as u64);
        let in_vain = |steals| Charge {
            steals,
            ..Charge::default()
        };
        match self {
            Rest::EachInVain => in_vain(after),
            Rest::Nothing => in_vain(0),
            Rest::OneForAll => in_vain(after.min(1)),
            Rest::FinisherToo => in_vain(after + 1),
            Rest::EarlierToo => in_vain(granted - 1),
            Rest::AllGranted => in_vain(granted),
            Rest::EachSucceeds => Charge {
                successes: after,
                ..in_vain(after)
            },
            Rest::EachMugs => Charge {
                mugs: after,
                ..Charge::default()
            },
        }
    }
}
