//! Which powers (request U14: k) the quanta of plans in tenths reach.

use std::fmt;

use super::add;
use crate::growth::{Growth, MOST_ENTRIES, RATIOS};
use crate::job::Job;
use crate::quantum::QuantumEnd;

const MOST: usize = MOST_ENTRIES as usize;

/// Of one ratio: how often each thing was reached.
#[derive(Clone, Debug, Default, PartialEq, Eq)]
pub struct Powers {
    pub plans: u64,
    /// Rises from each power.
    pub rises: [u64; MOST],
    /// Falls to each power.
    pub falls: [u64; MOST],
    /// Quanta of a power that were efficient and deprived.
    pub deprived: [u64; MOST],
    /// Quanta at the top that were efficient and satisfied.
    pub capped: u64,
}

/// Of each of the nine ratios.
#[derive(Clone, Debug, Default, PartialEq, Eq)]
pub struct Ratios([Powers; 9]);

impl Ratios {
    /// The ratios in tenths, each with what was reached.
    pub fn iter(&self) -> impl Iterator<Item = (u8, &Powers)> {
        RATIOS.zip(&self.0)
    }

    /// The place of a plan in tenths.
    fn of(&mut self, growth: Growth) -> Option<&mut Powers> {
        match growth {
            Growth::Factor(_) => None,
            Growth::Tenths(tenths) => self.0.get_mut(usize::from(tenths.checked_sub(12)?)),
        }
    }

    /// Counts an accepted plan.
    pub fn cover_plan(&mut self, growth: Growth) {
        if let Some(powers) = self.of(growth) {
            powers.plans += 1;
        }
    }

    /// Counts a quantum that has just closed. By bent rules a power can be past
    /// the end of every row; it is not counted.
    pub fn cover_end(&mut self, job: &Job, end: QuantumEnd) {
        let power = job.power() as usize;
        if let Some(powers) = self.of(job.plan().growth()) {
            match end {
                QuantumEnd::Grown => add(&mut powers.rises, power.wrapping_sub(1)),
                QuantumEnd::Inefficient { .. } => add(&mut powers.falls, power),
                QuantumEnd::Deprived => add(&mut powers.deprived, power),
                QuantumEnd::AtCap => powers.capped += 1,
            }
        }
    }

    /// What was never reached, though it can be: a rise from each power below
    /// the top, a fall to each power below a desire of 2 or more, a quantum at
    /// the top, and a deprived one.
    pub fn missing(&self) -> Vec<String> {
        self.iter()
            .flat_map(|(tenths, powers)| powers.missing(tenths))
            .collect()
    }
}

impl Powers {
    fn missing(&self, tenths: u8) -> Vec<String> {
        let growth = Growth::Tenths(tenths);
        let name = |what: &str| format!("{tenths} tenths: {what}");
        let mut missing = Vec::new();
        for (power, above) in growth.powers().zip(growth.powers().skip(1)) {
            let place = power as usize;
            if self.rises[place] == 0 {
                missing.push(name(&format!("no rise from power {power}")));
            }
            if growth.desire(above) > Some(1) && self.falls[place] == 0 {
                missing.push(name(&format!("no fall to power {power}")));
            }
        }
        if self.capped == 0 {
            missing.push(name("no quantum at the top"));
        }
        if self.deprived.iter().sum::<u64>() == 0 {
            missing.push(name("no deprived quantum"));
        }
        missing
    }
}

impl fmt::Display for Ratios {
    fn fmt(&self, out: &mut fmt::Formatter<'_>) -> fmt::Result {
        for (tenths, powers) in self.iter() {
            let sum = |counts: &[u64]| counts.iter().sum::<u64>();
            writeln!(
                out,
                "{:>10}  plans of {tenths} tenths: {} rises, {} falls, {} quanta at the top, {} deprived",
                powers.plans,
                sum(&powers.rises),
                sum(&powers.falls),
                powers.capped,
                sum(&powers.deprived)
            )?;
        }
        Ok(())
    }
}
