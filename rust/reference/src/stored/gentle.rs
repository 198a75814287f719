//! Jobs of plans in tenths (request U14).

use super::{input, quantum, written, EXAMPLE_LOG};
use crate::generator::edges::gentle_edge_plans;
use crate::generator::graph::MOST_TASKS;
use crate::generator::logs::Writer;
use crate::generator::plans::{Draft, MOST_GENTLE_LENGTH};
use crate::generator::{gentle_cases, Case};
use crate::growth::{Growth, RATIOS};
use crate::job::Job;

/// A generated case up to this size is taken, and so many of them.
const SMALL: usize = 160;
const GENERATED: usize = 10;

/// The jobs: plans at the edge of each question, made calls, and the small ones
/// of a seed's generated cases.
pub fn gentle(seed: u64) -> Vec<Vec<u8>> {
    let small = |case: &Case| case.input.len() <= SMALL;
    let small = gentle_cases(seed).filter(small).take(GENERATED);
    let made = [
        edges(),
        outside(),
        extremes(),
        RATIOS.map(|tenths| at_the_top(tenths, &[0])).collect(),
        tops_of_twelve(),
        tops_of_twenty(),
        fallen(),
        small.map(|case| case.input).collect(),
    ];
    made.concat()
}

/// The plans at the edge of each question, with example 1's log where there is
/// a job for it.
fn edges() -> Vec<Vec<u8>> {
    let with_log = |plan: Vec<u8>| match Job::accept(&plan) {
        Ok(_) => input(&plan, &EXAMPLE_LOG),
        Err(_) => input(&plan, &[]),
    };
    gentle_edge_plans().into_iter().map(with_log).collect()
}

/// Plans of one task with the tenths next to the ratios, and any other fields.
fn outside() -> Vec<Vec<u8>> {
    let mut inputs = Vec::new();
    for tenths in [11, 21] {
        for (utilization, length) in (1..=8).zip([1, 2, 3, 255, 256, 4_096, 16_382, 16_383]) {
            let mut draft = Draft::of_graph(&vec![vec![]]).gentle(tenths);
            (draft.utilization, draft.quantum_length) = (12 * utilization, length);
            inputs.push(input(&draft.bytes(), &[]));
        }
    }
    inputs
}

/// A chain of so many tasks in form 3, with quanta of one tick.
fn chain(tenths: u8, count: usize, utilization: u64) -> Draft {
    let next = |task: usize| (task + 1 < count).then_some(task as u16 + 1);
    let graph = (0..count).map(|task| next(task).into_iter().collect());
    gentle_draft(&graph.collect(), tenths, utilization)
}

fn gentle_draft(graph: &Vec<Vec<u16>>, tenths: u8, utilization: u64) -> Draft {
    let mut draft = Draft::of_graph(graph).gentle(tenths.into());
    draft.utilization = utilization;
    draft.quantum_length = 1;
    draft
}

/// The fewest and the most tasks, and the longest quantum, which is open after a
/// tick.
fn extremes() -> Vec<Vec<u8>> {
    let whole = |count: usize| {
        written(&chain(20, count, 100), |writer| {
            (0..3).for_each(|_| satisfied(writer))
        })
    };
    let mut inputs: Vec<Vec<u8>> = [1, 2, MOST_TASKS].map(whole).to_vec();
    let mut draft = chain(15, 2, 1);
    draft.quantum_length = MOST_GENTLE_LENGTH;
    inputs.push(written(&draft, |writer| {
        writer.grant(0);
        writer.tick(&[]);
        writer.grant(0);
    }));
    inputs
}

/// A quantum of so many workers fewer than are desired. Worker 3 robs worker 1,
/// and the others worker 0.
fn fewer(writer: &mut Writer, less: usize) {
    let workers = 0..writer.job.desire().saturating_sub(less);
    let choices = workers.map(|worker| u8::from(worker == 3));
    quantum(writer, &choices.collect::<Vec<u8>>());
}

fn satisfied(writer: &mut Writer) {
    fewer(writer, 0);
}

/// The quanta from desire 1 to the top of a ratio's row.
fn quanta_to_the_top(tenths: u8) -> usize {
    Growth::Tenths(tenths).powers().skip(1).count()
}

/// One worker of all works; the desire climbs to its top. There come quanta with
/// so many workers fewer.
fn at_the_top(tenths: u8, fewer_there: &[usize]) -> Vec<u8> {
    let quanta = quanta_to_the_top(tenths);
    let draft = chain(tenths, quanta + fewer_there.len() + 1, 1);
    written(&draft, |writer| {
        (0..quanta).for_each(|_| satisfied(writer));
        fewer_there.iter().for_each(|&less| fewer(writer, less));
    })
}

/// The longest row has no entry past its end: at its top the desire stays, also
/// around quanta of none, of one, and of one worker fewer.
fn tops_of_twelve() -> Vec<Vec<u8>> {
    let there: [&[usize]; 8] = [
        &[0, 0],
        &[0, 64],
        &[64, 0],
        &[54, 0],
        &[1, 0],
        &[0, 1],
        &[0, 54],
        &[64, 0, 64],
    ];
    there.map(|fewer| at_the_top(12, fewer)).to_vec()
}

/// 2.0 to the sixth power is 64 itself: up to it, and down from it.
fn tops_of_twenty() -> Vec<Vec<u8>> {
    let there: [&[usize]; 7] = [&[], &[64], &[63], &[62], &[32], &[64, 63], &[63, 64]];
    let up = there.map(|fewer| at_the_top(20, fewer));
    // At 64 one worker of all is not 2 percent.
    let down = [2, 3].map(|rounds| {
        written(&chain(20, 12, 2), |writer| {
            (0..quanta_to_the_top(20) + rounds).for_each(|_| satisfied(writer));
        })
    });
    up.into_iter().chain(down).collect()
}

/// Four chains between two levels of forks and of joins; the last three have the
/// same size.
fn four_chains(long: usize, short: usize) -> Vec<Vec<u16>> {
    let starts = [0, 1, 2, 3].map(|chain| 3 + chain * short + chain.min(1) * (long - short));
    let joins = 3 + long + 3 * short;
    let fork = |chain: usize| vec![starts[chain] as u16, starts[chain + 1] as u16];
    let mut graph = vec![vec![1, 2], fork(0), fork(2)];
    graph.extend((4..=joins).map(|next| vec![next as u16]));
    for (chain, size) in [long, short, short, short].into_iter().enumerate() {
        graph[starts[chain] + size - 1] = vec![(joins + chain / 2) as u16];
    }
    let last = joins + 2;
    graph.extend([vec![last as u16], vec![last as u16], vec![]]);
    graph
}

/// Each ratio with utilizations that let the desire climb to its top, to a
/// quarter of it, and to a quarter of that.
fn fallen() -> Vec<Vec<u8>> {
    let percents = [6, 25, 60];
    let pairs = RATIOS.flat_map(|tenths| percents.map(|percent| (tenths, percent)));
    // More of them fall from the top.
    let pairs = pairs.chain([(17, 7), (19, 7)]);
    pairs
        .map(|(tenths, percent)| falls(tenths, percent))
        .collect()
}

/// While all chains are worked, the desire climbs to where four workers are no
/// longer enough, or stays at its top; then one is left, and it falls to where
/// one is enough. Every second quantum of the fall has a worker fewer. At last
/// it climbs again.
fn falls(tenths: u8, percent: u64) -> Vec<u8> {
    let growth = Growth::Tenths(tenths);
    let up_to = |most: u64| {
        let desires = growth.powers().filter_map(|power| growth.desire(power));
        desires.filter(|&desire| desire as u64 <= most).count()
    };
    let climb = up_to(400 / percent) + 1;
    let down = up_to(400 / percent) - up_to(100 / percent);
    let graph = four_chains(climb + 2 * down + 4, climb - up_to(1));
    let draft = gentle_draft(&graph, tenths, percent);
    let one_is_enough = |writer: &Writer| writer.job.desire() as u64 * percent <= 100;
    written(&draft, |writer| {
        (0..climb).for_each(|_| satisfied(writer));
        for less in [0, 1].into_iter().cycle() {
            if one_is_enough(writer) || writer.job.is_finished() {
                break;
            }
            fewer(writer, less);
        }
        (0..2).for_each(|_| satisfied(writer));
    })
}
