//! How the desire (document 01: wanted) moves. In forms 1 and 2 it is
//! multiplied and divided by R. Request U14: in form 3 it is the whole part of R
//! to the power k. k starts at 0, falls by one after an inefficient round and
//! rises by one after an efficient and satisfied one, as long as the result is
//! at most 64. k is kept for plans of all forms.

use crate::quantum::{QuantumEnd, MOST_WORKERS};

/// By what the desire of a plan grows (document 01: R).
#[derive(Clone, Copy, Debug, PartialEq, Eq)]
pub enum Growth {
    /// R of forms 1 and 2, 2 to 7.
    Factor(u8),
    /// R of form 3 in tenths, 12 to 20.
    Tenths(u8),
}

/// The ratios of form 3, in tenths.
pub const RATIOS: std::ops::RangeInclusive<u8> = 12..=20;

/// A desire and its power (request U14: k).
#[derive(Clone, Copy, Debug, PartialEq, Eq)]
pub struct Level {
    pub power: u32,
    pub desire: usize,
}

/// The rule by which a plan in tenths grows. A test bends it.
#[derive(Clone, Copy, Debug, Default, PartialEq, Eq)]
pub enum Pace {
    /// The request's.
    #[default]
    ByPower,
    /// It starts at power 1.
    FromOne,
    /// A rise multiplies the last desire, and takes the whole part.
    MultipliesTheLast,
    /// A fall divides the last desire, and takes the whole part.
    DividesTheLast,
    /// The power of two.
    OfTwo,
    /// Rounded to the nearest whole number.
    Nearest,
    /// Rounded up.
    RoundedUp,
    /// 63 in the place of 64.
    AtMostSixtyThree,
    /// No rise to 64 itself.
    BelowSixtyFour,
    /// One rise more, to 64, where the result exceeds it.
    CappedAtSixtyFour,
    /// Each row goes on with its last entry up to the 23rd.
    PaddedWithTops,
    /// Each row goes on with 0 up to the 23rd entry.
    PaddedWithZeros,
    /// After the 23rd entry comes the next ratio's row.
    IntoTheNextRow,
    /// A quantum that is efficient and deprived raises the power, too.
    DeprivedRises,
    /// An inefficient quantum leaves the power.
    InefficientStays,
    /// An inefficient and deprived quantum leaves the power.
    InefficientDeprivedStays,
    /// An inefficient quantum lowers the power by two.
    InefficientByTwo,
    /// In forms 1 and 2 the power is not kept. No program shows it.
    TenthsAlone,
}

use Pace::*;

/// The rules that are not the request's and show in a desire.
pub const BENT: [Pace; 16] = [
    FromOne,
    MultipliesTheLast,
    DividesTheLast,
    OfTwo,
    Nearest,
    RoundedUp,
    AtMostSixtyThree,
    BelowSixtyFour,
    CappedAtSixtyFour,
    PaddedWithTops,
    PaddedWithZeros,
    IntoTheNextRow,
    DeprivedRises,
    InefficientStays,
    InefficientDeprivedStays,
    InefficientByTwo,
];

/// The entries of the longest row.
pub const MOST_ENTRIES: u32 = 23;

/// A ratio in tenths to a power, over and under the stroke. Nothing where that
/// does not fit, far past the end of every row.
fn fraction(tenths: u8, power: u32) -> Option<(u128, u128)> {
    let over = u128::from(tenths).checked_pow(power)?;
    Some((over, 10_u128.checked_pow(power)?))
}

impl Growth {
    /// The desire at a power; nothing where it exceeds 64.
    pub fn desire(self, power: u32) -> Option<usize> {
        let desire = match self {
            Growth::Factor(r) => usize::from(r).checked_pow(power),
            Growth::Tenths(tenths) => Pace::default().entry(tenths, power),
        };
        desire.filter(|&desire| desire <= MOST_WORKERS)
    }

    /// The powers whose desire is at most 64.
    pub fn powers(self) -> std::ops::Range<u32> {
        let above = (0..).find(|&power| self.desire(power).is_none());
        0..above.unwrap_or(0)
    }
}

impl Pace {
    /// Where a fresh job starts.
    pub fn start(self, growth: Growth) -> Level {
        let fresh = Level {
            power: 0,
            desire: 1,
        };
        match self.of(growth) {
            FromOne => self.up(growth, fresh).unwrap_or(fresh),
            _ => fresh,
        }
    }

    /// The rule for a plan: forms 1 and 2 keep their own.
    fn of(self, growth: Growth) -> Pace {
        match growth {
            Growth::Factor(_) if self != TenthsAlone => ByPower,
            _ => self,
        }
    }

    /// What a quantum was that closes, and the level after it. Satisfied: the
    /// allotment is the desire.
    pub fn close(
        self,
        growth: Growth,
        level: Level,
        efficient: bool,
        satisfied: bool,
    ) -> (QuantumEnd, Level) {
        let pace = self.of(growth);
        let up = pace.up(growth, level);
        let end = QuantumEnd::of(efficient, satisfied, up.is_some());
        let next = match (end, pace) {
            (QuantumEnd::Inefficient { .. }, InefficientStays) => None,
            (QuantumEnd::Inefficient { satisfied: false }, InefficientDeprivedStays) => None,
            (QuantumEnd::Inefficient { .. }, _) => Some(pace.down(growth, level)),
            (QuantumEnd::Deprived, DeprivedRises) | (QuantumEnd::Grown, _) => up,
            (QuantumEnd::AtCap | QuantumEnd::Deprived, _) => None,
        };
        (end, next.unwrap_or(level))
    }

    /// One power up; nothing where the desire would exceed 64.
    fn up(self, growth: Growth, level: Level) -> Option<Level> {
        let power = level.power + 1;
        let desire = match growth {
            Growth::Factor(r) => Some(level.desire * usize::from(r)),
            Growth::Tenths(tenths) if self == MultipliesTheLast => {
                Some(level.desire * usize::from(tenths) / 10)
            }
            Growth::Tenths(tenths) => self.entry(tenths, power),
        };
        let desire = desire.filter(|&desire| desire <= MOST_WORKERS)?;
        Some(self.kept(growth, Level { power, desire }))
    }

    /// One power down. Desire 1 is never met by an inefficient quantum, so the
    /// power is above 0.
    fn down(self, growth: Growth, level: Level) -> Level {
        let by_two = u32::from(self == InefficientByTwo);
        let power = level.power.saturating_sub(1 + by_two);
        let desire = match growth {
            Growth::Factor(r) => level.desire.checked_div(usize::from(r)),
            Growth::Tenths(tenths) if self == DividesTheLast => {
                (level.desire * 10).checked_div(usize::from(tenths))
            }
            Growth::Tenths(tenths) => self.entry(tenths, power),
        };
        let desire = desire.unwrap_or(level.desire);
        self.kept(growth, Level { power, desire })
    }

    /// A level as it is kept.
    fn kept(self, growth: Growth, level: Level) -> Level {
        match (self, growth) {
            (TenthsAlone, Growth::Factor(_)) => Level { power: 0, ..level },
            _ => level,
        }
    }

    /// The entry of a ratio's row at a power, if there is one.
    fn entry(self, tenths: u8, power: u32) -> Option<usize> {
        let whole = self.whole_part(tenths, power);
        let in_row = power < MOST_ENTRIES;
        match self {
            AtMostSixtyThree => whole.map(|desire| desire.min(63)),
            CappedAtSixtyFour if whole.is_none() => {
                let last = self.whole_part(tenths, power.checked_sub(1)?)?;
                (last < MOST_WORKERS).then_some(MOST_WORKERS)
            }
            PaddedWithTops if in_row => (0..=power)
                .rev()
                .find_map(|power| self.whole_part(tenths, power)),
            PaddedWithZeros if in_row => whole.or(Some(0)),
            IntoTheNextRow if !in_row => self.whole_part(tenths + 1, power - MOST_ENTRIES),
            _ => whole,
        }
    }

    /// The whole part of a ratio to a power, where it is at most 64.
    fn whole_part(self, tenths: u8, power: u32) -> Option<usize> {
        let ratio = if self == OfTwo { 20 } else { tenths };
        let (over, under) = fraction(ratio, power)?;
        let whole = match self {
            Nearest => (2 * over + under) / (2 * under),
            RoundedUp => (over + under - 1) / under,
            _ => over / under,
        };
        let most = MOST_WORKERS - usize::from(self == BelowSixtyFour);
        usize::try_from(whole).ok().filter(|&whole| whole <= most)
    }
}
