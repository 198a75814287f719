//! Choices from a seed (request U13): the states of both sides, and how often something about seeded ticks and written logs is reached.

use std::fmt;

use reference::seed::Drawing;
use reference::{Answer, Cycle, Report, TickReport};

use crate::compare::Part;
use crate::pair::Reference;
use crate::written::Written;

/// The states that the seeded ticks of the two jobs find.
#[derive(Clone, Copy, Debug, Default, PartialEq, Eq)]
pub struct Seeds {
    pub proved: u32,
    pub reference: u32,
    /// What both were before the last call.
    pub before: u32,
}

/// What is reported where a seed is not as it has to be.
pub const OTHER_SEED: Part = "seed";
pub const MOVED_SEED: Part = "seed after a refused call";

impl Seeds {
    /// The same seed for both.
    pub fn new(seed: u32) -> Seeds {
        Seeds {
            proved: seed,
            reference: seed,
            before: seed,
        }
    }

    /// What is wrong with them after a call, if anything is.
    pub fn other(self, refused: bool) -> Option<Part> {
        if self.proved != self.reference {
            Some(OTHER_SEED)
        } else if refused && self.proved != self.before {
            Some(MOVED_SEED)
        } else {
            None
        }
    }

    /// Whether a seeded tick does what a tick with these choices does: every tick is refused with 11 or 15, or the seed draws them.
    pub fn stand_for(self, choices: &[u8], job: &Reference) -> bool {
        let takes = job.open_quantum().is_some() && !job.is_finished();
        let draws = || Drawing::default().drawn(job, self.proved).choices == choices;
        !takes || choices.len() == job.allotment() && draws()
    }
}

/// What seeded ticks and written logs reached. What a tick did is the reference's account.
#[derive(Clone, Debug, Default, PartialEq, Eq)]
pub struct Seeded {
    /// Accepted seeded ticks by the workers granted: 0, 1, 2 to 8, 9 to 63, 64.
    pub ticks: [u64; 5],
    /// Those of them in which a worker worked, one mugged, one stole with success, and one in vain; which closed a quantum.
    pub among: [u64; 5],
    /// Those that finished a job, by the workers after the finisher: none, some.
    pub finishes: [u64; 2],
    /// Refused seeded ticks of a job with workers: with 11, with 15, and with 15 while an offer was noted.
    pub refused: [u64; 3],
    /// Logs kept of stretches: from a fresh job on, and from another.
    pub starts: [u64; 2],
    /// Those of them that ended where the buffer was full, and with the calls.
    pub ends: [u64; 2],
    /// Their entries: grants, openings, plain ticks, seeded ticks written before the tick and after it.
    pub entries: [u64; 5],
    /// Entries refused with 14, 16 and 20, those of no stretch too.
    pub unwritten: [u64; 3],
    /// Entries that took a buffer's last byte, that lacked one, and that found more bytes used than there are.
    pub edges: [u64; 3],
}

/// Adds one at each place that is so.
fn add_each<const N: usize>(counts: &mut [u64; N], are_so: [bool; N]) {
    for (count, is_so) in counts.iter_mut().zip(are_so) {
        *count += u64::from(is_so);
    }
}

impl Seeded {
    /// Counts a seeded tick by its answer and the job after it.
    pub fn count(&mut self, answer: &Answer, job: &Reference) {
        let noted = job.noted_offer().is_some();
        match answer {
            Ok(Some(Report::Tick(report))) => self.count_tick(report, job),
            Err(refusal) if job.allotment() > 0 => {
                let (finished, closed) = (refusal.number() == 11, refusal.number() == 15);
                let refused = [finished, closed && !noted, closed && noted];
                add_each(&mut self.refused, refused);
            }
            _ => (),
        }
    }

    fn count_tick(&mut self, report: &TickReport, job: &Reference) {
        let range = match job.allotment() {
            0 => 0,
            1 => 1,
            2..=8 => 2,
            9..=63 => 3,
            _ => 4,
        };
        self.ticks[range] += 1;
        let any = |kind: fn(&Cycle) -> bool| report.cycles.iter().any(kind);
        let among = [
            any(|cycle| matches!(cycle, Cycle::Work { .. })),
            any(|cycle| matches!(cycle, Cycle::Mug { .. })),
            any(|cycle| matches!(cycle, Cycle::Steal { stolen: 1.., .. })),
            any(|cycle| matches!(cycle, Cycle::Steal { stolen: 0, .. })),
            report.quantum_end.is_some(),
        ];
        add_each(&mut self.among, among);
        if job.is_finished() {
            add_each(&mut self.finishes, [report.rested == 0, report.rested > 0]);
        }
    }

    /// Counts an entry by its number, with the buffer's length and how many of its bytes were used before.
    pub fn count_entry(&mut self, entry: Written, number: u8, (length, used): (usize, usize)) {
        let room = length.checked_sub(used);
        let full = number == 20;
        let refused = [number == 14, number == 16, full];
        let edges = [
            number == 0 && room == Some(entry.size()),
            full && room.map_or(false, |room| room + 1 == entry.size()),
            full && room.is_none(),
        ];
        add_each(&mut self.unwritten, refused);
        add_each(&mut self.edges, edges);
    }

    /// How many of these things were never reached.
    pub fn missing(&self) -> usize {
        let all = [
            &self.ticks[..],
            &self.among,
            &self.finishes,
            &self.refused,
            &self.starts,
            &self.ends,
            &self.entries,
            &self.unwritten,
            &self.edges,
        ];
        let counts = all.concat().into_iter();
        counts.filter(|&count| count == 0).count()
    }
}

impl fmt::Display for Seeded {
    /// Seven lines.
    fn fmt(&self, out: &mut fmt::Formatter<'_>) -> fmt::Result {
        writeln!(
            out,
            "{:>12}  seeded ticks accepted; of no worker, 1, 2 to 8, 9 to 63, 64: {:?}",
            self.ticks.iter().sum::<u64>(),
            self.ticks
        )?;
        let [work, mug, success, vain, end] = self.among;
        writeln!(
            out,
            "{work:>12}  of them with work, {mug} with a mug, {success} with a steal that succeeded, {vain} with one in vain; \
             {end} closed a quantum"
        )?;
        let [none, some] = self.finishes;
        writeln!(
            out,
            "{none:>12}  of them finished a job with no worker after the finisher, {some} with some"
        )?;
        let [finished, closed, noted] = self.refused;
        writeln!(
            out,
            "{:>12}  seeded ticks of a job with workers refused: {finished} with 11, {closed} with 15, \
             {noted} with 15 while an offer was noted",
            finished + closed + noted
        )?;
        let ([fresh, later], [full, whole]) = (self.starts, self.ends);
        writeln!(
            out,
            "{:>12}  logs kept and run, {fresh} from a fresh job on; {full} ended where the buffer was full, {whole} with the calls",
            fresh + later
        )?;
        self.show_entries(out)?;
        writeln!(
            out,
            "{:>12}  things about seeds never reached",
            self.missing()
        )
    }
}

impl Seeded {
    /// Two lines.
    fn show_entries(&self, out: &mut fmt::Formatter<'_>) -> fmt::Result {
        let [grants, openings, plain, before, after] = self.entries;
        writeln!(
            out,
            "{:>12}  entries of them: {grants} grants, {openings} openings, {plain} plain ticks, \
             {before} seeded ones before the tick, {after} after",
            self.entries.iter().sum::<u64>()
        )?;
        let [exact, short, above] = self.edges;
        writeln!(
            out,
            "{exact:>12}  entries took a buffer's last byte, {short} lacked one, {above} found more used than there are; \
             refused with 14, 16, 20: {:?}",
            self.unwritten
        )
    }
}
