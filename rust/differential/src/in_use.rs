//! How many deques are in use (request U12): of the library's job, and how often that is as many as the request allows.

use std::fmt;

use jirvaldo::inspect::View;
use reference::{Call, Cycle, Report, TickReport};

use crate::compare::Part;
use crate::pair::{Proved, Reference};

/// What is reported where the bound does not hold.
pub const LIBRARY_BROKEN: Part =
    "the library has more deques in use than the largest count granted so far";
pub const REFERENCE_BROKEN: Part =
    "the reference has more deques in use than the largest count granted so far";

/// The deques in use of the library's job: those of workers that are not empty, and the muggable ones.
pub fn deques_in_use(proved: &Proved) -> usize {
    let view = View::of(proved);
    let workers = (0..view.allotment()).filter(|&worker| view.deque(worker).next().is_some());
    workers.count() + view.muggable_deques()
}

/// How often the bound was met, and how often its largest count is not the present one, an offered one or a refused one. The counts are the
/// reference's.
#[derive(Clone, Debug, Default, PartialEq, Eq)]
pub struct InUse {
    /// Calls after which as many deques were in use as the largest count granted so far, by that count: 1, 2, 3 to 8, 9 to 63, 64.
    pub met: [u64; 5],
    /// Those of them with muggable deques, with no others, and with a begun task.
    pub among: [u64; 3],
    /// Steals of two or more tasks that made it so.
    pub stolen: u64,
    /// Ticks inside which it was so after some worker's cycle, and neither before nor after the tick.
    pub inside: u64,
    /// Calls after which fewer workers were granted than the largest count so far.
    pub past: u64,
    /// Accepted offers of more than the largest count, and refused calls of more.
    pub more: [u64; 2],
}

impl InUse {
    /// Counts a call by the deques in use before it, what it did and the job after it.
    pub fn count(&mut self, before: usize, did: Option<&Report>, job: &Reference) {
        let (in_use, largest) = (job.in_use(), job.largest_granted());
        if largest > 0 && in_use == largest {
            self.met[range_of(largest)] += 1;
            self.count_among(job);
        }
        self.past += u64::from(largest > job.allotment());
        if let Some(Report::Tick(report)) = did {
            let outside = before == largest || in_use == largest;
            self.inside += u64::from(!outside && report.in_use.contains(&largest));
            self.count_stolen(report, largest);
        }
    }

    /// Counts what is among the deques in use.
    fn count_among(&mut self, job: &Reference) {
        let muggable = job.muggable_deques();
        let all = job.deques().iter().chain(muggable.iter().copied());
        let mut fronts = all.filter_map(|deque| deque.front());
        let begun = fronts.any(|&task| job.is_begun(task));
        let waiting = muggable.len();
        let among = [waiting > 0, waiting == job.in_use(), begun];
        for (count, is_so) in self.among.iter_mut().zip(among) {
            *count += u64::from(is_so);
        }
    }

    /// Counts the steals of two or more tasks after which as many are in use as the largest count.
    fn count_stolen(&mut self, report: &TickReport, largest: usize) {
        let cycles = report.cycles.iter().zip(&report.in_use);
        let met = |(cycle, &in_use): &(&Cycle, &usize)| {
            in_use == largest && matches!(cycle, Cycle::Steal { stolen: 2.., .. })
        };
        self.stolen += cycles.filter(met).count() as u64;
    }

    /// Counts an offer that was accepted, or a grant, an offer or an opening that was refused, where it is of more workers than the largest
    /// count.
    pub fn count_more(&mut self, call: Call, accepted: bool, job: &Reference) {
        let count = match call {
            Call::Offer(count) => count,
            Call::Grant(count) | Call::Open(count) if !accepted => count,
            _ => return,
        };
        self.more[usize::from(!accepted)] += u64::from(count > job.largest_granted());
    }

    /// How many of these things were never reached.
    pub fn missing(&self) -> usize {
        let all = [&self.met[..], &self.among, &self.more];
        let single = [self.stolen, self.inside, self.past];
        let counts = all.concat().into_iter().chain(single);
        counts.filter(|&count| count == 0).count()
    }
}

/// The place of a largest count above 0.
fn range_of(largest: usize) -> usize {
    match largest {
        0 | 1 => 0,
        2 => 1,
        3..=8 => 2,
        9..=63 => 3,
        _ => 4,
    }
}

impl fmt::Display for InUse {
    /// Five lines.
    fn fmt(&self, out: &mut fmt::Formatter<'_>) -> fmt::Result {
        writeln!(
            out,
            "{:>12}  calls that left as many deques in use as the largest count granted so far; that is 1, 2, 3 to 8, 9 to 63, 64: {:?}",
            self.met.iter().sum::<u64>(),
            self.met
        )?;
        let [muggable, alone, begun] = self.among;
        writeln!(
            out,
            "{muggable:>12}  of them with muggable deques, {alone} with no others, {begun} with a begun task"
        )?;
        writeln!(
            out,
            "{:>12}  ticks inside which it was so, and neither before nor after; {} steals of two or more tasks made it so",
            self.inside, self.stolen
        )?;
        let [offered, refused] = self.more;
        writeln!(
            out,
            "{:>12}  calls that left fewer workers granted than that count; {offered} offers and {refused} refused calls were above it",
            self.past
        )?;
        writeln!(
            out,
            "{:>12}  things about deques in use never reached",
            self.missing()
        )
    }
}
