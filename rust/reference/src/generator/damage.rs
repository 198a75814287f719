//! Damaged plans: each kind of damage aims at one of the refusals 1 to 10 and
//! 28.

use super::plans::{lasting, Draft, DraftTask};
use super::random::Random;

/// A damaged plan of any kind.
pub fn damaged_plan(random: &mut Random, draft: &Draft) -> Vec<u8> {
    if draft.has_tenths {
        return damaged_gentle(random, draft);
    }
    match random.below(16) {
        0 | 1 => flipped(random, draft),
        2 | 3 => damaged_twice(random, draft),
        4..=6 => damaged_beside(random, draft),
        7 => other_body(draft),
        _ => {
            let aim = any_aim(random);
            damaged(random, draft, aim)
        }
    }
}

/// Any of the refusals of a plan, those of its form and ticks twice as often.
fn any_aim(random: &mut Random) -> u8 {
    *random
        .pick(&[1, 2, 2, 3, 4, 5, 6, 7, 8, 9, 10, 28, 28])
        .unwrap_or(&1)
}

/// Damages a sound draft so that this refusal is likely (some graphs are too
/// small for some damage, and 28 takes form 2), and packs it.
fn damaged(random: &mut Random, draft: &Draft, aim: u8) -> Vec<u8> {
    if draft.tasks.is_empty() {
        return draft.bytes();
    }
    let mut draft = draft.clone();
    let (task, count) = (random.below(draft.tasks.len()), draft.tasks.len());
    match aim {
        2 => draft.form = *random.pick(&[0, 4, 4, 9, 15, 15]).unwrap_or(&0),
        3 if draft.has_tenths => draft.responsiveness = wrong_tenths(random),
        3 => draft.responsiveness = random.below(2) as u64,
        4 => draft.utilization = *random.pick(&[0, 101, 102, 127]).unwrap_or(&0),
        5 => draft.quantum_length = 0,
        7 => wrong_count(random, &mut draft.tasks[task]),
        8 => wrong_successor(random, &mut draft.tasks[task], task, count),
        9 => wrong_predecessors(random, &mut draft),
        10 => second_sink(random, &mut draft),
        28 => draft = no_ticks(random, draft),
        _ => (),
    }
    let mut bytes = draft.bytes();
    match aim {
        1 => bytes.truncate(random.below(5)),
        6 => wrong_length(random, &mut bytes),
        _ => (),
    }
    bytes
}

/// A damaged plan of form 3, most often in its tenths.
fn damaged_gentle(random: &mut Random, draft: &Draft) -> Vec<u8> {
    match random.below(16) {
        0 | 1 => flipped(random, draft),
        2 => other_body(draft),
        3 => other_header(random, draft),
        4..=8 => damaged(random, draft, 3),
        9..=11 => {
            let mut draft = draft.clone();
            draft.responsiveness = wrong_tenths(random);
            damaged_again(random, &draft)
        }
        _ => damaged_again(random, draft),
    }
}

/// Damage of any kind but the tenths' and that of form 2.
fn damaged_again(random: &mut Random, draft: &Draft) -> Vec<u8> {
    let aim = random.pick(&[1, 2, 4, 5, 6, 7, 8, 9, 10]);
    let aim = aim.copied().unwrap_or(1);
    damaged(random, draft, aim)
}

/// Tenths that no plan has, the nearest ones most often.
fn wrong_tenths(random: &mut Random) -> u64 {
    let (low, high) = (random.below(12) as u64, random.between(21, 31) as u64);
    let tenths = [0, 2, 10, 11, 11, 11, 21, 21, 21, 22, 31, low, high];
    *random.pick(&tenths).unwrap_or(&0)
}

/// The header of form 3 under the number of form 1, or the other way round.
fn other_header(random: &mut Random, draft: &Draft) -> Vec<u8> {
    let mut draft = draft.clone();
    if random.chance(128) {
        draft.form = 1;
    } else {
        draft.has_tenths = false;
        draft.responsiveness = random.between(2, 7) as u64;
    }
    draft.bytes()
}

/// Damages a draft twice, so that the order of the questions matters.
fn damaged_twice(random: &mut Random, draft: &Draft) -> Vec<u8> {
    let mut draft = draft.clone();
    let count = draft.tasks.len();
    for _ in 0..2.min(count) {
        let task = random.below(count);
        match random.below(9) {
            0 => draft.form = 0,
            1 => draft.responsiveness = 1,
            2 => draft.utilization = 101,
            3 => draft.quantum_length = 0,
            4 => draft.count_less_one ^= 1,
            5 => wrong_count(random, &mut draft.tasks[task]),
            6 => wrong_successor(random, &mut draft.tasks[task], task, count),
            _ => draft = no_ticks(random, draft),
        }
    }
    let aim = any_aim(random);
    damaged(random, &draft, aim)
}

/// A task of 0 ticks and one damage more: at the same task, at the next one, or
/// in the graph.
fn damaged_beside(random: &mut Random, draft: &Draft) -> Vec<u8> {
    let count = draft.tasks.len();
    let mut draft = lasting_already(random, draft.clone());
    let zero = random.below(count);
    let place = (zero + random.below(2)).min(count.saturating_sub(1));
    if count == 0 {
        return draft.bytes();
    }
    match random.below(6) {
        0 | 1 => wrong_count(random, &mut draft.tasks[place]),
        2 | 3 => wrong_successor(random, &mut draft.tasks[place], place, count),
        4 => wrong_predecessors(random, &mut draft),
        _ => second_sink(random, &mut draft),
    }
    draft.tasks[zero].ticks = 0;
    draft.bytes()
}

/// The draft itself where its tasks have ticks, else its form 2.
fn lasting_already(random: &mut Random, draft: Draft) -> Draft {
    if draft.has_ticks {
        draft
    } else {
        lasting(random, draft)
    }
}

/// The first, the last or any task has 0 ticks, in form 2.
fn no_ticks(random: &mut Random, draft: Draft) -> Draft {
    let mut draft = lasting_already(random, draft);
    let last = draft.tasks.len().saturating_sub(1);
    let any = random.below(draft.tasks.len());
    let place = *random.pick(&[0, any, last]).unwrap_or(&0);
    if let Some(task) = draft.tasks.get_mut(place) {
        task.ticks = 0;
    }
    draft
}

/// The header of one form with the tasks of the other.
fn other_body(draft: &Draft) -> Vec<u8> {
    let mut draft = draft.clone();
    draft.has_ticks = !draft.has_ticks;
    draft.bytes()
}

/// Turns some bits of a packed plan around.
fn flipped(random: &mut Random, draft: &Draft) -> Vec<u8> {
    let mut bytes = draft.bytes();
    for _ in 0..random.between(1, 3) {
        let (place, bit) = (random.below(bytes.len()), random.below(8));
        bytes[place] ^= 1 << bit;
    }
    bytes
}

/// Cut short after the header, or too long by a little.
fn wrong_length(random: &mut Random, bytes: &mut Vec<u8>) {
    if random.chance(128) {
        let cut = random.between(1, bytes.len() - 5);
        bytes.truncate(bytes.len() - cut);
    } else {
        let extra = random.between(1, 4);
        let more = random.bytes(extra);
        bytes.extend(more);
    }
}

/// A count of 3 or an unused field that is not 0.
fn wrong_count(random: &mut Random, task: &mut DraftTask) {
    let other = random.between(1, 2047) as u32;
    match task.count {
        0 if random.chance(128) => task.first = other,
        0 | 1 if random.chance(128) => task.second = other,
        2 if random.chance(128) => task.count = 1,
        _ => task.count = 3,
    }
}

/// A successor that is not above its task, is no task, or is named twice.
fn wrong_successor(random: &mut Random, task: &mut DraftTask, number: usize, count: usize) {
    let low = random.between(0, number) as u32;
    let high = random.between(count, 2047) as u32;
    let wrong = *random.pick(&[low, high, count as u32]).unwrap_or(&low);
    match task.count {
        2 if random.chance(85) => task.second = task.first,
        2 if random.chance(128) => task.second = wrong,
        0 => {
            task.count = 1;
            task.first = wrong;
        }
        _ => task.first = wrong,
    }
}

/// The number of predecessors of each task.
fn predecessor_counts(draft: &Draft) -> Vec<usize> {
    let mut counts = vec![0; draft.tasks.len()];
    for task in &draft.tasks {
        for &field in &[task.first, task.second][..(task.count as usize).min(2)] {
            if let Some(count) = counts.get_mut(field as usize) {
                *count += 1;
            }
        }
    }
    counts
}

/// No predecessor or three.
fn wrong_predecessors(random: &mut Random, draft: &mut Draft) {
    let counts = predecessor_counts(draft);
    let only = |task: &DraftTask| counts.get(task.first as usize) == Some(&1);
    let mut places: Vec<usize> = (0..draft.tasks.len()).collect();
    let third = random.chance(128);
    if third {
        places.retain(|&i| third_predecessor(draft, &counts, i).is_some());
    } else {
        places.retain(|&i| draft.tasks[i].count > 0 && only(&draft.tasks[i]));
    }
    let place = match random.pick(&places) {
        Some(&place) => place,
        None => return,
    };
    if let (true, Some(target)) = (third, third_predecessor(draft, &counts, place)) {
        draft.tasks[place].count = 2;
        draft.tasks[place].second = target;
    } else {
        drop_first(&mut draft.tasks[place]);
    }
}

/// A task that has two predecessors and could get this one as a third.
fn third_predecessor(draft: &Draft, counts: &[usize], place: usize) -> Option<u32> {
    let task = &draft.tasks[place];
    let fits = |&i: &usize| task.count == 1 && counts[i] == 2 && i as u32 != task.first;
    (place + 1..counts.len()).find(fits).map(|i| i as u32)
}

/// A task other than the last that loses its only successor, which keeps
/// another predecessor.
fn second_sink(random: &mut Random, draft: &mut Draft) {
    let counts = predecessor_counts(draft);
    let shares = |task: &DraftTask| counts.get(task.first as usize) == Some(&2);
    let mut places: Vec<usize> = (0..draft.tasks.len()).collect();
    places.retain(|&i| draft.tasks[i].count == 1 && shares(&draft.tasks[i]));
    if let Some(&place) = random.pick(&places) {
        drop_first(&mut draft.tasks[place]);
    }
}

/// Removes the first successor.
fn drop_first(task: &mut DraftTask) {
    task.count = task.count.saturating_sub(1);
    task.first = task.second;
    task.second = 0;
}
