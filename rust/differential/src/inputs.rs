//! The inputs of a case, over the reference's generator: plans, logs, sheets, buffers.

use reference::generator::damage::damaged_plan;
use reference::generator::logs::{blind_log, guided_log, style_for, Style};
use reference::generator::plans::{gentle_draft, lasting, sound_draft, wide_draft, Draft};
use reference::generator::Random;

use crate::pair::Reference;

/// In quanta longer than this a log is kept short, since a held job has nothing to do in them.
const LONG_QUANTUM: u32 = 1_000;
const MOST_IN_LONG_QUANTA: usize = 2_000;

/// A sound plan, two of five of form 3.
pub fn sound(random: &mut Random) -> Draft {
    if random.chance(100) {
        gentle_draft(random)
    } else {
        sound_draft(random)
    }
}

/// A plan: sound (two of three), damaged, or noise. A fifth is of form 2, and three of eight are of form 3.
pub fn plan(random: &mut Random) -> Vec<u8> {
    let draft = match random.below(16) {
        0..=5 => gentle_draft(random),
        6..=8 => wide_draft(random),
        9 => {
            let draft = wide_draft(random);
            lasting(random, draft)
        }
        _ => sound_draft(random),
    };
    match random.below(24) {
        0..=6 => damaged_plan(random, &draft),
        7 => {
            let size = random.below(40);
            random.bytes(size)
        }
        _ => draft.bytes(),
    }
}

/// A log for a job: one that follows it (three of four), the same with some bytes changed, or one that does not look at it.
pub fn log(random: &mut Random, job: &Reference) -> Vec<u8> {
    let mut style = style_for(random, job);
    if job.plan().quantum_length() > LONG_QUANTUM {
        style.budget = style.budget.min(MOST_IN_LONG_QUANTA);
    }
    match random.below(16) {
        0 => {
            let size = random.below(400);
            blind_log(random, size)
        }
        1..=3 => {
            let log = guided_log(random, job.clone(), &style);
            edited(random, log)
        }
        _ => guided_log(random, job.clone(), &style),
    }
}

/// A short log that follows a job.
pub fn short_log(random: &mut Random, job: &Reference) -> Vec<u8> {
    let style = Style {
        budget: random.below(300),
        ..style_for(random, job)
    };
    guided_log(random, job.clone(), &style)
}

/// Of 256 grants of a case so many go by way of offers: in some cases none, in some all.
pub fn offers(random: &mut Random) -> usize {
    *random.pick(&[0, 0, 16, 64, 256]).unwrap_or(&0)
}

/// Of 256 ticks of a case so many are seeded where a seeded one does the same: in some cases none, in some all.
pub fn seeded(random: &mut Random) -> usize {
    *random.pick(&[0, 64, 64, 256]).unwrap_or(&0)
}

/// A log with up to four bytes changed, put in or taken out.
fn edited(random: &mut Random, mut log: Vec<u8>) -> Vec<u8> {
    for _ in 0..random.between(1, 4) {
        let place = random.below(log.len() + 1);
        let byte = random.next_u64() as u8;
        match random.below(3) {
            0 => log.insert(place, byte),
            1 if place < log.len() => log[place] = byte,
            _ if place < log.len() => drop(log.remove(place)),
            _ => (),
        }
    }
    log
}

/// A number of workers that no log has, or that is hardly ever accepted, where so many may be granted, offered or opened.
pub fn odd_count(random: &mut Random, most: usize) -> u64 {
    let most = most as u64;
    let wraps = [most + (1 << 8), most + (1 << 16), most + (1 << 32)];
    let others = [65, 127, 128, 255, u64::MAX, u64::MAX - 1, 1 << 63];
    let near = [most + 1, random.next_u64()];
    let all = [&wraps[..], &others[..], &near[..]].concat();
    *random.pick(&all).unwrap_or(&u64::MAX)
}

/// Choices that no log has, or that are hardly ever accepted.
pub fn odd_choices(random: &mut Random, job: &Reference) -> Vec<u8> {
    let allotment = job.allotment();
    let sizes = [
        0,
        64,
        65,
        128,
        1000,
        allotment + 1,
        allotment + 256,
        allotment + 65_536,
    ];
    let size = *random.pick(&sizes).unwrap_or(&0);
    let byte = *random.pick(&[0, 0, 63, 64, 255]).unwrap_or(&0);
    vec![byte; size]
}

/// A label sheet of none to six lines, empty and long ones too; at times its last stretch is not ended.
pub fn sheet(random: &mut Random) -> Vec<u8> {
    let mut sheet = Vec::new();
    for _ in 0..random.below(7) {
        let size = *random.pick(&[0, 1, 7, 30, 300]).unwrap_or(&0);
        let words = random.bytes(size);
        sheet.extend(words.into_iter().filter(|&byte| byte != b'\n'));
        sheet.push(b'\n');
    }
    if random.chance(80) {
        sheet.pop();
    }
    sheet
}

/// A buffer for the counters line, with random bytes in it.
pub fn buffer(random: &mut Random) -> Vec<u8> {
    let sizes = [0, 1, 20, 127, 128, 128, 129, 160, 1000];
    let size = *random.pick(&sizes).unwrap_or(&128);
    random.bytes(size)
}

/// A count of refused calls with any number of digits; often 0, the largest, a power of ten, or one below it.
pub fn refused_count(random: &mut Random) -> u64 {
    match random.below(8) {
        0 => 0,
        1 => u64::MAX,
        2..=4 => 10_u64.pow(random.below(20) as u32) - random.below(2) as u64,
        _ => {
            let narrow = random.below(64);
            random.next_u64() >> narrow
        }
    }
}

/// A buffer for the log of a stretch, often too short for all of it.
pub fn log_buffer(random: &mut Random) -> Vec<u8> {
    let sizes = [0, 1, 65, 130, 400, 1_500, 5_000, 5_000];
    let size = *random.pick(&sizes).unwrap_or(&0);
    vec![random.next_u64() as u8; size]
}

/// A number of workers that an entry can say, or not.
pub fn written_count(random: &mut Random, desire: usize) -> u64 {
    match random.below(4) {
        0 => odd_count(random, desire),
        1 => *random.pick(&[127, 128, 129]).unwrap_or(&127),
        _ => random.below(128) as u64,
    }
}

/// Any choices, as many as an entry can say, or more.
pub fn written_choices(random: &mut Random) -> Vec<u8> {
    let any = random.below(128);
    let sizes = [0, 1, 64, 127, 128, 1_000, any, any];
    let size = *random.pick(&sizes).unwrap_or(&0);
    random.bytes(size)
}

/// The length of a buffer for an entry of this size, and how many of its bytes are used: just enough or one too few are left, or any, or
/// more are used than there are.
pub fn room(random: &mut Random, size: usize) -> (usize, usize) {
    let used = random.below(5);
    let beyond = [used + 1, 1 << 16, usize::MAX - 1, usize::MAX];
    match random.below(8) {
        0..=2 => (used + size, used),
        3 | 4 => (used + size - 1, used),
        5 | 6 => (used + random.below(200), used),
        _ => (used, *random.pick(&beyond).unwrap_or(&usize::MAX)),
    }
}
