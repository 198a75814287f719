//! Whole cases: an input of the program, and the same plan and log apart.

use super::damage::damaged_plan;
use super::logs::{blind_log, guided_log, marathon_log, style_for};
use super::plans::{gentle_draft, gentle_marathon_draft, marathon_draft, sound_draft, Draft};
use super::random::Random;
use crate::job::Job;
use crate::program::{split_input, MOST_INPUT};

/// One case. Where the program refuses the input with 21 or 22, the plan and
/// the log can still be given to the library.
#[derive(Clone, Debug, PartialEq, Eq)]
pub struct Case {
    /// The program's input.
    pub input: Vec<u8>,
    /// The plan's bytes.
    pub plan: Vec<u8>,
    /// The log's bytes.
    pub log: Vec<u8>,
    /// A label sheet for the job's status after the log.
    pub sheet: Vec<u8>,
    /// The length of a buffer for the counters line.
    pub buffer: usize,
}

/// What a case is about.
#[derive(Clone, Copy, Debug, PartialEq, Eq)]
enum Kind {
    /// A sound plan and a log that follows its job.
    Guided,
    /// A sound plan and a log of random bytes.
    Blind,
    /// A damaged plan.
    Damaged,
    /// A plan length that is not the plan's.
    Announced,
    /// An input that ends early.
    Cut,
    /// An input about as long as it may be.
    Full,
    /// Every quantum that may begin, and calls after the last one.
    Marathon,
    /// Random bytes.
    Noise,
}

/// How the plans of a row of cases are drawn.
struct Drawn {
    sound: fn(&mut Random) -> Draft,
    marathon: fn(&mut Random) -> Draft,
}

/// The endless row of cases of a seed: after two of plans of forms 1 and 2 comes
/// one of form 3.
pub fn cases(seed: u64) -> impl Iterator<Item = Case> {
    let (mut older, mut gentle) = (older_cases(seed), gentle_cases(seed));
    (0usize..).filter_map(move |place| match place % 3 {
        2 => gentle.next(),
        _ => older.next(),
    })
}

/// Those of forms 1 and 2 alone.
pub fn older_cases(seed: u64) -> impl Iterator<Item = Case> {
    let drawn = Drawn {
        sound: sound_draft,
        marathon: marathon_draft,
    };
    row(seed, drawn)
}

/// Those of form 3 alone.
pub fn gentle_cases(seed: u64) -> impl Iterator<Item = Case> {
    let drawn = Drawn {
        sound: gentle_draft,
        marathon: gentle_marathon_draft,
    };
    row(!seed, drawn)
}

fn row(seed: u64, drawn: Drawn) -> impl Iterator<Item = Case> {
    let mut random = Random::new(seed);
    (0usize..).map(move |index| {
        let mut own = Random::new(random.next_u64());
        case(&mut own, index, &drawn)
    })
}

/// Long cases come rarely and at fixed places, the others at random.
fn kind(random: &mut Random, index: usize) -> Kind {
    match (index % 256, random.below(16)) {
        (8 | 72 | 136 | 200, _) => Kind::Marathon,
        (50 | 100, _) => Kind::Full,
        (_, 0 | 1) => Kind::Damaged,
        (_, 2) => Kind::Blind,
        (_, 3) if random.chance(200) => Kind::Announced,
        (_, 3) => Kind::Noise,
        (_, 4) if random.chance(128) => Kind::Cut,
        _ => Kind::Guided,
    }
}

fn case(random: &mut Random, index: usize, drawn: &Drawn) -> Case {
    let kind = kind(random, index);
    let mut draft = (drawn.sound)(random);
    if kind == Kind::Marathon {
        draft = (drawn.marathon)(random);
    }
    let plan = match kind {
        Kind::Damaged => damaged_plan(random, &draft),
        _ => draft.bytes(),
    };
    let log = log(random, kind, &plan);
    let input = input(random, kind, &plan, &log);
    let parts = split_input(&input).map(|(plan, log)| (plan.to_vec(), log.to_vec()));
    let (plan, log) = parts.unwrap_or((plan, log));
    Case {
        input,
        plan,
        log,
        sheet: sheet(random),
        buffer: *random.pick(&[0, 1, 127, 128, 129, 160]).unwrap_or(&128),
    }
}

fn log(random: &mut Random, kind: Kind, plan: &[u8]) -> Vec<u8> {
    let length = random.below(200);
    match (kind, Job::accept(plan)) {
        (Kind::Marathon, Ok(job)) => marathon_log(random, job),
        (Kind::Blind, _) | (_, Err(_)) => blind_log(random, length),
        (_, Ok(job)) => {
            let style = style_for(random, &job);
            guided_log(random, job, &style)
        }
    }
}

/// The program's input: plan length in 16 bits, plan, log.
fn input(random: &mut Random, kind: Kind, plan: &[u8], log: &[u8]) -> Vec<u8> {
    let mut announced = plan.len();
    if kind == Kind::Announced {
        let other = random.below(65_536);
        let nearby = (plan.len() + random.below(8)).saturating_sub(4);
        announced = *random.pick(&[nearby, nearby, other, 0]).unwrap_or(&0);
    }
    let mut input = (announced as u16).to_be_bytes().to_vec();
    input.extend_from_slice(plan);
    input.extend_from_slice(log);
    match kind {
        Kind::Cut => {
            let end = random.below(plan.len() + 2);
            input.truncate(*random.pick(&[end, end, 1, 0]).unwrap_or(&end));
        }
        Kind::Full => {
            let length = MOST_INPUT - 1 + random.below(3);
            let quanta_of_zero = [0x00, 0x80].into_iter().cycle();
            let missing = length.saturating_sub(input.len());
            input.extend(quanta_of_zero.take(missing));
        }
        Kind::Noise => {
            let length = random.below(40);
            input = random.bytes(length);
        }
        _ => (),
    }
    input
}

/// A label sheet of none to six lines, empty ones too; at times its last
/// stretch is not ended.
fn sheet(random: &mut Random) -> Vec<u8> {
    let words: [&[u8]; 6] = [
        b"waiting",
        b"running",
        b"on hold",
        b"done",
        b"",
        b"\xff\r\0",
    ];
    let mut sheet = Vec::new();
    for _ in 0..random.below(7) {
        sheet.extend_from_slice(random.pick(&words).copied().unwrap_or(b""));
        sheet.push(b'\n');
    }
    if random.chance(64) {
        sheet.pop();
    }
    sheet
}
