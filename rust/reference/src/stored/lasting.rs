//! Jobs of tasks that last several ticks (request U9).

use super::{climb, logged, nested, quantum, written, MOST_FORKS, SHAPES};
use crate::generator::graph::{graph, Shape, MOST_TASKS};
use crate::generator::logs::{Writer, GRANTS};
use crate::generator::plans::{lasting, Draft, Mix};
use crate::generator::Random;
use crate::job::MOST_QUANTA;
use crate::quantum::MOST_WORKERS;

/// Each log has at most about this many bytes where it follows its job.
const BUDGET: usize = 700;

/// The jobs, those with made calls first.
pub fn lasted(random: &mut Random) -> Vec<Vec<u8>> {
    let made = [
        alone(),
        early_thieves(),
        late_thieves(),
        longer_lines(),
        picked_up(),
        long(),
        vec![all_longest(), spent()],
    ];
    let followed = [shaped(random), vec![wide(random)]];
    made.into_iter().chain(followed).flatten().collect()
}

/// A fork and its join, with these ticks and quanta of one tick.
fn fork(ticks: [u32; 4]) -> Draft {
    lasting_draft(&vec![vec![1, 2], vec![3], vec![3], vec![]], |task| {
        ticks[task]
    })
}

fn lasting_draft(graph: &Vec<Vec<u16>>, ticks: impl FnMut(usize) -> u32) -> Draft {
    let mut draft = Draft::of_graph(graph).lasting(ticks);
    draft.utilization = 1;
    draft.quantum_length = 1;
    draft
}

/// So many quanta of one tick, in which all choose worker 0.
fn quanta(writer: &mut Writer, workers: usize, count: usize) {
    for _ in 0..count {
        quantum(writer, &vec![0; workers]);
    }
}

/// One worker, up to each tick of the whole job. Every tick counts for the
/// desire.
fn alone() -> Vec<Vec<u8>> {
    let mut draft = fork([1, 12, 12, 1]);
    draft.utilization = 100;
    let one = |ticks| written(&draft, |writer| quanta(writer, 1, ticks));
    (1..=26).map(one).collect()
}

/// A thief that comes while the first task is begun and has no successor yet.
fn early_thieves() -> Vec<Vec<u8>> {
    let draft = fork([12, 1, 1, 1]);
    let one = |ticks| {
        written(&draft, |writer| {
            quanta(writer, 1, 1);
            quanta(writer, 2, ticks);
        })
    };
    (1..=14).map(one).collect()
}

/// A thief that comes when so many ticks of the front task are done, and takes
/// the one behind it.
fn late_thieves() -> Vec<Vec<u8>> {
    let draft = fork([1, 5, 4, 2]);
    let one = |done: usize, ticks: usize| {
        written(&draft, |writer| {
            quanta(writer, 1, 1 + done);
            quanta(writer, 2, ticks);
        })
    };
    (0..4)
        .flat_map(|done| (1..=8).map(move |ticks| one(done, ticks)))
        .collect()
}

/// Lines of three to six tasks that one thief robs behind a begun task, and the
/// longest, which 63 thieves rob.
fn longer_lines() -> Vec<Vec<u8>> {
    let longest = (MOST_FORKS + 1, MOST_WORKERS);
    let lines = (3..=6).map(|size| (size, 2)).chain([longest]);
    lines.map(|(size, workers)| behind(size, workers)).collect()
}

/// The desire climbs to the number of workers; worker 0 alone goes on until its
/// line has this size and its front task is begun. Then all others rob it while
/// that task lasts: of its three ticks worker 0 does the second one first.
fn behind(size: usize, workers: usize) -> Vec<u8> {
    let graph = nested(MOST_FORKS.min(size));
    let draft = lasting_draft(&graph, |_| 3);
    written(&draft, |writer| {
        climb(writer, workers);
        let grown = |writer: &Writer| {
            let line = &writer.job.deques()[0];
            line.len() == size
                && line
                    .front()
                    .map_or(false, |&task| writer.job.is_begun(task))
        };
        while !grown(writer) && !writer.job.is_finished() {
            quanta(writer, 1, 1);
        }
        quanta(writer, workers, 6);
    })
}

/// A begun task that is withdrawn after so many of its five ticks and picked
/// up, and so many ticks after that; it may be withdrawn again.
fn picked_up() -> Vec<Vec<u8>> {
    let draft = fork([5, 3, 2, 1]);
    let one = |done: usize, ticks: usize| {
        written(&draft, |writer| {
            quanta(writer, 1, done);
            quanta(writer, 0, 1);
            quanta(writer, 1, 1 + ticks);
        })
    };
    let again = |done: usize| {
        written(&draft, |writer| {
            for _ in 0..5 {
                quanta(writer, 1, 1 + done);
                quanta(writer, 0, 1);
            }
        })
    };
    let once = (1..=4).flat_map(|done| (5 - done..=8).map(move |ticks| one(done, ticks)));
    once.chain((1..=3).map(again)).collect()
}

/// One task that lasts long, up to its last tick and the one before it; and a
/// task of 255 ticks that is withdrawn after 2, 128 and 254 of them.
fn long() -> Vec<Vec<u8>> {
    let one = |ticks: u32, done: u32| {
        let draft = Draft::of_graph(&vec![vec![]]).lasting(|_| ticks);
        written(&draft, |writer| follow_alone(writer, done))
    };
    let lengths = [100, 127, 128, 129, 200, 254, 255].into_iter();
    let whole = lengths.flat_map(|ticks| [one(ticks, ticks - 1), one(ticks, ticks)]);
    let chain = Draft::of_graph(&vec![vec![1], vec![]]).lasting(|task| [255, 1][task]);
    let withdrawn = [2, 128, 254].map(|done| {
        written(&chain, |writer| {
            follow_alone(writer, done);
            for _ in 0..2 {
                writer.grant(0);
                writer.tick(&[]);
                writer.tick(&[]);
            }
            follow_alone(writer, 1 + 255 - done);
        })
    });
    whole.chain(withdrawn).collect()
}

/// So many ticks of one worker, with a grant where no quantum is open.
fn follow_alone(writer: &mut Writer, ticks: u32) {
    for _ in 0..ticks {
        if writer.job.open_quantum().is_none() {
            writer.grant(1);
        }
        writer.tick(&[0]);
    }
}

/// A fork of tasks of 255 ticks, which two workers finish.
fn all_longest() -> Vec<u8> {
    let mut draft = fork([255; 4]);
    draft.quantum_length = 200;
    written(&draft, |writer| {
        while !writer.job.is_finished() {
            if writer.job.open_quantum().is_none() {
                writer.grant(writer.job.desire().min(2));
            }
            writer.tick(&vec![0; writer.job.allotment()]);
        }
    })
}

/// A chain of tasks of 255 ticks that every quantum works on: 13.
fn spent() -> Vec<u8> {
    let chain: Vec<Vec<u16>> = (1..17).map(|next| vec![next]).collect();
    let draft = lasting_draft(&[chain, vec![vec![]]].concat(), |_| 255);
    written(&draft, |writer| quanta(writer, 1, MOST_QUANTA as usize + 1))
}

/// Every shape with every way to grant.
fn shaped(random: &mut Random) -> Vec<Vec<u8>> {
    let mut inputs = Vec::new();
    for shape in SHAPES {
        for grants in GRANTS {
            let draft = drawn(random, shape, inputs.len());
            inputs.push(logged(random, &draft, grants, inputs.len(), BUDGET));
        }
    }
    inputs
}

/// A plan of up to 30 tasks.
fn drawn(random: &mut Random, shape: Shape, index: usize) -> Draft {
    let count = random.between(4, 30);
    let mut draft = Draft::of_graph(&graph(random, shape, count));
    draft.responsiveness = 2 + index as u64 % 6;
    draft.utilization = random.between(1, 100) as u64;
    draft.quantum_length = random.between(1, 5) as u64;
    match index % 3 {
        0 => lasting(random, draft),
        1 => draft.lasting(|_| Mix::Few.ticks(random)),
        _ => draft.lasting(|_| Mix::Rare.ticks(random)),
    }
}

/// The most tasks, and many workers, who finish them.
fn wide(random: &mut Random) -> Vec<u8> {
    let mut draft = Draft::of_graph(&graph(random, Shape::Layered { width: 80 }, MOST_TASKS));
    draft.utilization = 10;
    draft.quantum_length = 2;
    let draft = draft.lasting(|_| Mix::Few.ticks(random));
    logged(random, &draft, GRANTS[0], 1, 6_000)
}
