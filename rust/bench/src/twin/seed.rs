//! Choices from a seed. The state moves on with every worker; where the worker steals, its choice is taken from the state.

use super::WORKERS;

/// By g: 2^32 / g, rounded up, modulo 2^32. The low half of its product with an x below 2^16, times g, has x % g for its high half.
const PARTS: [u32; WORKERS + 1] = parts();

const fn parts() -> [u32; WORKERS + 1] {
    let mut parts = [0; WORKERS + 1];
    let mut workers = 1;
    while workers <= WORKERS {
        parts[workers] = (u32::MAX / workers as u32).wrapping_add(1);
        workers += 1;
    }
    parts
}

/// The state after a draw.
#[inline(always)]
pub fn next(state: u32) -> u32 {
    state.wrapping_mul(1_664_525).wrapping_add(1_013_904_223)
}

/// How a state becomes a choice among so many workers, at most 64.
#[inline(always)]
pub fn choice(workers: u8) -> impl Fn(u32) -> usize {
    let part = PARTS[usize::from(workers)];
    move |state| {
        let low = (state >> 16).wrapping_mul(part);
        ((u64::from(low) * u64::from(workers)) >> 32) as usize
    }
}

#[cfg(test)]
mod tests {
    use super::*;

    /// The choice is the remainder, of every high half and among every number of workers.
    #[test]
    fn remainders() {
        for workers in 1..=WORKERS as u8 {
            let choice = choice(workers);
            for high in 0..1 << 16 {
                assert_eq!(choice(high << 16) as u32, high % u32::from(workers));
                assert_eq!(choice(high << 16 | 0xffff), choice(high << 16));
            }
        }
    }
}
