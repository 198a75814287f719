//! "Round's end": what a quantum was when it closed.

/// At most this many workers are granted; the desire never exceeds it.
pub const MOST_WORKERS: usize = 64;

/// What a quantum (document 01: round) was when it closed.
#[derive(Clone, Copy, Debug, PartialEq, Eq)]
pub enum QuantumEnd {
    /// Inefficient, satisfied or not: the desire went down a power.
    Inefficient { satisfied: bool },
    /// Efficient and satisfied: the desire went up a power.
    Grown,
    /// Efficient and satisfied, but the result would exceed 64: it stayed.
    AtCap,
    /// Efficient and not satisfied (deprived): it stayed.
    Deprived,
}

/// Efficient: 100 x usage is at least utilization x length x allotment, with
/// nothing rounded. Usage (document 01's word too) is work plus mug cycles.
pub fn is_efficient(utilization: u64, length: u32, allotment: usize, usage: u64) -> bool {
    let capacity = u128::from(length) * allotment as u128;
    100 * u128::from(usage) >= u128::from(utilization).saturating_mul(capacity)
}

impl QuantumEnd {
    /// Which of the four ends it is, where the desire could rise or not.
    pub fn of(efficient: bool, satisfied: bool, rises: bool) -> QuantumEnd {
        if !efficient {
            QuantumEnd::Inefficient { satisfied }
        } else if !satisfied {
            QuantumEnd::Deprived
        } else if rises {
            QuantumEnd::Grown
        } else {
            QuantumEnd::AtCap
        }
    }
}
