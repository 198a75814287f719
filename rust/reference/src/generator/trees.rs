//! Jobs that have as many deques in use as workers are granted: a full tree of
//! forks, then one of joins, and logs in which each thief robs another worker.

use super::graph::Graph;
use super::logs::Writer;
use super::plans::{gentle, Draft, Mix};
use super::random::Random;
use crate::job::{Deque, Job};

/// So many levels of forks, the leaves, and a join for each fork: with seven
/// levels 127 forks, 128 leaves and 127 joins.
pub fn tree(levels: u32) -> Graph {
    let forks = (1 << levels) - 1;
    let last = 3 * forks;
    let join_of = |task: usize| (last - task) as u16;
    let above = |task: usize| task.checked_sub(1).map(|below| below / 2);
    let fork = |task: usize| vec![(2 * task + 1) as u16, (2 * task + 2) as u16];
    let join = |task: usize| above(task).map(join_of).into_iter().collect();
    let (leaves, joins) = (forks..=2 * forks, (0..forks).rev());
    let graph = (0..forks).map(fork).chain(leaves.map(join));
    graph.chain(joins.map(join)).collect()
}

/// A tree's plan with quanta that any work makes efficient. The desire climbs
/// with every quantum that has it, mostly by doubling.
pub fn tree_draft(random: &mut Random) -> Draft {
    let mut draft = Draft::of_graph(&tree(random.between(6, 8) as u32));
    draft.utilization = 1;
    draft.quantum_length = *random.pick(&[1, 1, 1, 2]).unwrap_or(&1);
    draft.responsiveness = match random.below(4) {
        0 => random.between(3, 7) as u64,
        _ => 2,
    };
    match random.below(8) {
        0 | 1 => draft.lasting(|_| Mix::Few.ticks(random)),
        2 => draft.gentle(20),
        3 => gentle(random, draft),
        _ => draft,
    }
}

/// The log of a tree ends after about so many bytes.
const BUDGET: usize = 4_000;

/// Out of 256 grants after the climb, how many are not the desire.
const OTHERS: [usize; 4] = [0, 40, 120, 250];

/// A log that grants the desire up to its top. Later it at times withdraws
/// workers, and grants the desire again.
pub fn spreading_log(random: &mut Random, job: Job) -> Vec<u8> {
    let mut writer = Writer::new(job);
    let others = *random.pick(&OTHERS).unwrap_or(&0);
    let (mut power, mut climbs) = (None, true);
    while writer.bytes.len() < BUDGET && !writer.job.is_finished() {
        if writer.job.open_quantum().is_none() {
            let (desire, next) = (writer.job.desire(), Some(writer.job.power()));
            climbs &= power < next;
            power = next;
            let other = !climbs && random.chance(others);
            let count = if other { fewer(random, desire) } else { desire };
            writer.grant(count);
        }
        let choices = spread(&writer.job);
        writer.tick(&choices);
    }
    writer.bytes
}

/// None, half of the desire, or any count up to it.
fn fewer(random: &mut Random, desire: usize) -> usize {
    let any = random.between(0, desire);
    *random.pick(&[0, desire / 2, any, any]).unwrap_or(&0)
}

/// The thieves rob the workers that have a task, one after the other.
pub fn spread(job: &Job) -> Vec<u8> {
    let deques = || (0..).zip(job.deques());
    let busy = deques().filter(|(_, deque)| !deque.is_empty());
    let mut victims = busy.map(|(worker, _)| worker).cycle();
    let choice = |(worker, deque): (u8, &Deque)| match deque.front() {
        Some(_) => worker,
        None => victims.next().unwrap_or(worker),
    };
    deques().map(choice).collect()
}
