//! What a steal takes. Request U1: a successful steal takes the back half of
//! the victim's line, rounded down, in its order, and it still needs two
//! pieces there. It is one success, however many pieces move.

use crate::job::Deque;

/// How much of the victim's deque is taken.
#[derive(Clone, Copy, Debug, PartialEq, Eq)]
pub enum Share {
    /// One task, as in document 01.
    One,
    /// Half, rounded down.
    Half,
    /// Half, rounded up.
    HalfOrMore,
    /// All of it.
    Whole,
}

/// The rule of a steal that succeeds. A test bends it.
#[derive(Clone, Copy, Debug, PartialEq, Eq)]
pub struct Theft {
    pub share: Share,
    /// From the front, and not from the back.
    pub from_front: bool,
    /// The thief has them the other way round.
    pub turned: bool,
    /// Each task is a success, and not the steal.
    pub each_succeeds: bool,
}

/// The request's rule.
const HALF: Theft = Theft {
    share: Share::Half,
    from_front: false,
    turned: false,
    each_succeeds: false,
};

/// Rules that differ from it in one point each.
pub const BENT: [Theft; 6] = [
    Theft {
        share: Share::One,
        ..HALF
    },
    Theft {
        share: Share::HalfOrMore,
        ..HALF
    },
    Theft {
        share: Share::Whole,
        ..HALF
    },
    Theft {
        from_front: true,
        ..HALF
    },
    Theft {
        turned: true,
        ..HALF
    },
    Theft {
        each_succeeds: true,
        ..HALF
    },
];

impl Default for Theft {
    fn default() -> Theft {
        HALF
    }
}

impl Theft {
    /// Takes tasks out of the victim's deque, one by one from its end, until
    /// as many are taken as are left, or one fewer. Nothing of fewer than two.
    pub fn take(self, victim: &mut Deque) -> Deque {
        let mut taken = Deque::new();
        if victim.len() < 2 {
            return taken;
        }
        while self.goes_on(taken.len(), victim.len()) {
            let task = if self.from_front {
                victim.pop_front()
            } else {
                victim.pop_back()
            };
            if self.from_front == self.turned {
                task.into_iter().for_each(|task| taken.push_front(task));
            } else {
                taken.extend(task);
            }
        }
        taken
    }

    /// Whether one more is taken, with so many taken and so many left.
    fn goes_on(self, taken: usize, left: usize) -> bool {
        match self.share {
            Share::One => taken == 0,
            Share::Half => taken + 1 < left,
            Share::HalfOrMore => taken < left,
            Share::Whole => left > 0,
        }
    }

    /// The successes of a steal that took so many tasks.
    pub fn successes(self, taken: u16) -> u64 {
        if self.each_succeeds {
            u64::from(taken)
        } else {
            u64::from(taken > 0)
        }
    }
}
