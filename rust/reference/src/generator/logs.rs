//! Logs. A guided log follows a job, so that most of its calls are accepted;
//! a blind log is random bytes.

use super::random::Random;
use crate::growth::Growth;
use crate::job::{Job, MOST_QUANTA};
use crate::log::Entry;

/// How many workers are granted, given the desire.
#[derive(Clone, Copy, Debug, PartialEq, Eq)]
pub enum Grants {
    /// The desire itself.
    Full,
    /// Any count up to the desire.
    Any,
    /// The desire and 0 by turns.
    OnOff,
    /// The desire, then a half, a quarter and an eighth of it.
    Wave,
    /// One less than the desire, where that is above 0.
    OneLess,
    /// Some quanta of 0 before any worker, then the desire.
    Late,
    /// The desire, with a quantum of 0 here and there.
    Pauses,
    /// The desire for six quanta, then 0 and one to three workers by turns, so
    /// that muggable deques wait while others join them.
    Trickle,
}

/// Whom the workers choose.
#[derive(Clone, Copy, Debug, PartialEq, Eq)]
pub enum Choices {
    Any,
    Own,
    First,
    Last,
    Richest,
}

/// How a log ends.
#[derive(Clone, Copy, Debug, PartialEq, Eq)]
pub enum Ending {
    Plain,
    /// More calls than the job takes.
    Late,
    /// A tick whose choices are cut off.
    Broken,
}

/// The style of a guided log.
#[derive(Clone, Copy, Debug)]
pub struct Style {
    pub grants: Grants,
    pub choices: Choices,
    /// Out of 256 calls, how many are made without looking at the job.
    pub stray: usize,
    /// No call is begun after this many bytes.
    pub budget: usize,
    pub ending: Ending,
}

/// Every way to grant.
pub const GRANTS: [Grants; 8] = [
    Grants::Full,
    Grants::Any,
    Grants::OnOff,
    Grants::Wave,
    Grants::OneLess,
    Grants::Late,
    Grants::Pauses,
    Grants::Trickle,
];

/// Every way to choose, the likeliest twice.
pub const CHOICES: [Choices; 6] = [
    Choices::Any,
    Choices::Any,
    Choices::Own,
    Choices::First,
    Choices::Last,
    Choices::Richest,
];

/// Every ending, the likeliest twice.
pub const ENDINGS: [Ending; 4] = [Ending::Plain, Ending::Plain, Ending::Late, Ending::Broken];

/// Any style.
fn style(random: &mut Random) -> Style {
    Style {
        grants: *random.pick(&GRANTS).unwrap_or(&Grants::Full),
        choices: *random.pick(&CHOICES).unwrap_or(&Choices::Any),
        stray: *random.pick(&[0, 0, 4, 40, 120]).unwrap_or(&0),
        budget: budget(random),
        ending: *random.pick(&ENDINGS).unwrap_or(&Ending::Plain),
    }
}

/// Any style for a plan in tenths. Every second one grants the desire, which
/// takes up to 22 quanta to its top.
fn gentle_style(random: &mut Random) -> Style {
    let any = style(random);
    if random.chance(128) {
        return any;
    }
    Style {
        grants: *random
            .pick(&[Grants::Full, Grants::Full, Grants::Pauses])
            .unwrap_or(&Grants::Full),
        budget: random.between(300, 3_000),
        ..any
    }
}

/// Any style for a job.
pub fn style_for(random: &mut Random, job: &Job) -> Style {
    match job.plan().growth() {
        Growth::Factor(_) => style(random),
        Growth::Tenths(_) => gentle_style(random),
    }
}

/// Short and long.
fn budget(random: &mut Random) -> usize {
    match random.below(16) {
        0 => random.below(3),
        1..=4 => random.below(100),
        5..=11 => random.below(2_000),
        12..=14 => random.below(12_000),
        _ => random.below(60_000),
    }
}

/// A log that is written while a job follows it.
pub struct Writer {
    pub job: Job,
    pub bytes: Vec<u8>,
}

impl Writer {
    /// An empty log for a fresh job.
    pub fn new(job: Job) -> Writer {
        Writer {
            job,
            bytes: Vec::new(),
        }
    }

    /// Writes a grant; counts above 127 do not fit and are cut off.
    pub fn grant(&mut self, count: usize) {
        let count = count & 0x7f;
        self.bytes.push(count as u8);
        let _ = Entry::Grant(count).apply(&mut self.job);
    }

    /// Writes a tick; choices after the 127th do not fit and are left out.
    pub fn tick(&mut self, choices: &[u8]) {
        let choices = &choices[..choices.len().min(127)];
        self.bytes.push(0x80 | choices.len() as u8);
        self.bytes.extend_from_slice(choices);
        let _ = Entry::Tick(choices).apply(&mut self.job);
    }

    /// Whether the job takes no call any more.
    pub(super) fn at_the_end(&self) -> bool {
        let last = self.job.quanta_begun() >= MOST_QUANTA;
        self.job.is_finished() || last && self.job.open_quantum().is_none()
    }

    /// Writes calls of a style until the job takes no more or the budget is
    /// spent.
    pub fn follow(&mut self, random: &mut Random, style: &Style) {
        while self.bytes.len() < style.budget && !self.at_the_end() {
            if random.chance(style.stray) {
                self.stray(random);
            } else if self.job.open_quantum().is_some() {
                let choices = self.choices(random, style.choices);
                self.tick(&choices);
            } else {
                let count = self.count(random, style.grants);
                self.grant(count);
            }
        }
    }

    /// The count that a style grants next.
    pub(super) fn count(&self, random: &mut Random, grants: Grants) -> usize {
        let desire = self.job.desire();
        let begun = self.job.quanta_begun();
        match grants {
            Grants::Full => desire,
            Grants::Any => random.below(desire + 1),
            Grants::OnOff if begun % 2 == 1 => 0,
            Grants::OnOff => desire,
            Grants::Wave => desire >> (begun % 4),
            Grants::OneLess => desire - usize::from(desire > 1),
            Grants::Late if begun < 3 => 0,
            Grants::Late => desire,
            Grants::Pauses if random.chance(64) => 0,
            Grants::Pauses => desire,
            Grants::Trickle if begun % 12 < 6 => desire,
            Grants::Trickle if begun % 2 == 0 => 0,
            Grants::Trickle => random.between(1, 3).min(desire),
        }
    }

    /// One choice for each granted worker.
    fn choices(&self, random: &mut Random, choices: Choices) -> Vec<u8> {
        let deques = self.job.deques();
        let lengths = deques.iter().map(|deque| deque.len());
        let richest = lengths.enumerate().max_by_key(|&(_, length)| length);
        let one = |worker: usize, random: &mut Random| match choices {
            Choices::Any => random.below(deques.len()),
            Choices::Own => worker,
            Choices::First => 0,
            Choices::Last => deques.len() - 1,
            Choices::Richest => richest.map_or(0, |(worker, _)| worker),
        };
        let workers = 0..deques.len();
        workers.map(|worker| one(worker, random) as u8).collect()
    }

    /// A call that is mostly refused.
    pub fn stray(&mut self, random: &mut Random) {
        let mut choices = self.choices(random, Choices::Any);
        match random.below(7) {
            0 => self.grant(random.below(128)),
            1 => self.grant(self.job.desire() + 1),
            2 => self.grant(self.count(random, Grants::Any)),
            3 => {
                choices.pop();
                self.tick(&choices);
            }
            4 => {
                choices.push(*random.pick(&[0, 255]).unwrap_or(&0));
                self.tick(&choices);
            }
            5 => {
                let place = random.below(choices.len());
                if let Some(choice) = choices.get_mut(place) {
                    *choice = *random.pick(&[choices_end(self), 255]).unwrap_or(&255);
                }
                self.tick(&choices);
            }
            _ => self.tick(&vec![0; random.below(128)]),
        }
    }

    /// Ticks until no quantum is open.
    fn close(&mut self, random: &mut Random) {
        while self.job.open_quantum().is_some() && !self.job.is_finished() {
            let choices = self.choices(random, Choices::Any);
            self.tick(&choices);
        }
    }

    /// Writes quanta of at most that many workers until so many have begun.
    fn spend(&mut self, random: &mut Random, quanta: u32, workers: usize) {
        self.close(random);
        while self.job.quanta_begun() < quanta && !self.job.is_finished() {
            self.grant(workers.min(self.job.desire()));
            self.close(random);
        }
    }

    /// Writes grants of all kinds and a tick, which no quantum is left for.
    fn after_the_last(&mut self, random: &mut Random) {
        for _ in 0..random.between(1, 3) {
            let desire = self.job.desire();
            for count in [0, desire, desire + 1, 127] {
                self.grant(count);
            }
            let choices = self.choices(random, Choices::Any);
            self.tick(&choices);
        }
    }

    /// Writes the ending.
    pub fn end(&mut self, random: &mut Random, ending: Ending) {
        match ending {
            Ending::Plain => (),
            Ending::Late => {
                for _ in 0..random.between(1, 12) {
                    self.stray(random);
                }
            }
            Ending::Broken => {
                let announced = random.between(1, 127);
                self.bytes.push(0x80 | announced as u8);
                let there = random.below(announced);
                self.bytes.extend(vec![0; there]);
            }
        }
    }
}

/// The smallest choice that is not below the allotment.
fn choices_end(writer: &Writer) -> u8 {
    writer.job.allotment() as u8
}

/// A log of a style for a fresh job.
pub fn guided_log(random: &mut Random, job: Job, style: &Style) -> Vec<u8> {
    let mut writer = Writer::new(job);
    writer.follow(random, style);
    writer.end(random, style.ending);
    writer.bytes
}

/// Random bytes, or random small entries.
pub fn blind_log(random: &mut Random, length: usize) -> Vec<u8> {
    if random.chance(64) {
        return random.bytes(length);
    }
    let likely = [0x00, 0x01, 0x02, 0x80, 0x81, 0x81, 0x81, 0x82];
    let byte = |random: &mut Random| random.pick(&likely).copied().unwrap_or(0);
    (0..length).map(|_| byte(random)).collect()
}

/// A log that spends every quantum that may begin. The job works for a while
/// and is held, or is never begun, in quanta of 0 workers; it may have workers
/// in the last few. Then come calls that find no quantum left.
pub fn marathon_log(random: &mut Random, job: Job) -> Vec<u8> {
    let mut writer = Writer::new(job);
    let style = Style {
        grants: *random
            .pick(&[Grants::Late, Grants::Pauses])
            .unwrap_or(&Grants::Late),
        choices: Choices::Any,
        stray: 4,
        budget: random.below(90),
        ending: *random.pick(&ENDINGS).unwrap_or(&Ending::Late),
    };
    writer.follow(random, &style);
    let (last, workers) = (random.below(3) as u32, random.between(1, 4));
    writer.spend(random, MOST_QUANTA - last, 0);
    writer.spend(random, MOST_QUANTA, workers);
    writer.after_the_last(random);
    writer.end(random, style.ending);
    writer.bytes
}
