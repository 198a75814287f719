//! The stored set: chosen cases in one stretch of bytes, for a program that
//! runs them one after the other. A case is the input's size in three bytes,
//! the input, the output's size in one byte, and the output.

mod gentle;
mod lasting;

use gentle::gentle;
use lasting::lasted;

use crate::generator::edges::edge_plans;
use crate::generator::graph::{graph, Shape, MOST_TASKS};
use crate::generator::logs::{guided_log, Grants, Style, Writer, CHOICES, ENDINGS, GRANTS};
use crate::generator::plans::{wide_draft, Draft};
use crate::generator::{older_cases, Random};
use crate::job::{Job, MOST_QUANTA};
use crate::plan::{big_endian, split};
use crate::program::{program_output, MOST_INPUT};
use crate::quantum::MOST_WORKERS;

/// The seed of the set that is kept in the repository.
pub const KEPT_SEED: u64 = 1;

/// A generated case up to this size is taken.
const SMALL: usize = 400;

/// The log of a made case that follows its job has about this size at most.
const BUDGET: usize = 3_000;

/// Generated cases are taken until the set has this size.
const ENOUGH: usize = 362_000;

const SHAPES: [Shape; 5] = [
    Shape::Chain,
    Shape::Comb,
    Shape::ForkJoin,
    Shape::Layered { width: 12 },
    Shape::Tangled { width: 12 },
];

/// The set of a seed: made cases, generated ones, the longest two, and those of
/// plans in tenths.
pub fn stored_set(seed: u64) -> Vec<u8> {
    let mut random = Random::new(seed);
    let mut set = Vec::new();
    let made = [
        bare(),
        edges(),
        spent(),
        counted(),
        robbed(),
        orphaned(),
        finished(),
        shaped(&mut random),
        wide(&mut random),
        lasted(&mut random),
    ];
    for input in made.concat() {
        store(&mut set, &input);
    }
    let small = older_cases(seed).filter(|case| case.input.len() <= SMALL);
    for case in small {
        store(&mut set, &case.input);
        if set.len() >= ENOUGH {
            break;
        }
    }
    for (size, output) in [(MOST_INPUT, "2"), (MOST_INPUT + 1, "refused")] {
        store(&mut set, &long(seed, size, output));
    }
    for input in gentle(seed) {
        store(&mut set, &input);
    }
    set
}

/// The first generated input of a size whose output begins so. A job that is
/// held at the end takes the calls that fill the input up, until its quanta
/// are spent.
fn long(seed: u64, size: usize, output: &str) -> Vec<u8> {
    let mut inputs = older_cases(seed).map(|case| case.input);
    let fits = |input: &Vec<u8>| input.len() == size && program_output(input).starts_with(output);
    inputs.find(fits).unwrap_or_default()
}

/// Adds a case at the end.
fn store(set: &mut Vec<u8>, input: &[u8]) {
    let output = program_output(input);
    set.extend_from_slice(&(input.len() as u32).to_be_bytes()[1..]);
    set.extend_from_slice(input);
    set.push(output.len() as u8);
    set.extend_from_slice(output.as_bytes());
}

/// The shortest inputs, and a log that is broken at its first entry and at
/// its second.
fn bare() -> Vec<Vec<u8>> {
    let mut random = Random::new(0);
    let plan = draft(&mut random, Shape::Chain, 3, 2).bytes();
    let logs: [&[u8]; 4] = [&[], &[0x81], &[0x01, 0x81], &[0x01, 0x81, 0x00, 0xff]];
    let short = [vec![], vec![0], vec![0, 0]];
    let broken = logs.iter().map(|log| input(&plan, log));
    short.into_iter().chain(broken).collect()
}

/// The log of document 01's example 1.
const EXAMPLE_LOG: [u8; 12] = [1, 0x81, 0, 0x81, 0, 2, 0x82, 0, 0, 0x82, 0, 0];

/// The plans at the edge of each question, each with example 1's log.
fn edges() -> Vec<Vec<u8>> {
    let plans = edge_plans().into_iter();
    plans.map(|plan| input(&plan, &EXAMPLE_LOG)).collect()
}

/// A chain of three tasks with L = 1 around the last quantum that may begin. A
/// quantum of 0 workers is `00 80`, and one that works a task is `01 81 00`.
fn spent() -> Vec<Vec<u8>> {
    let mut draft = draft(&mut Random::new(0), Shape::Chain, 3, 2);
    draft.quantum_length = 1;
    let plan = draft.bytes();
    let most = MOST_QUANTA as usize;
    let log = |before: &[u8], idle: usize, after: &[u8]| {
        let log = [before, &[0x00, 0x80].repeat(idle), after].concat();
        input(&plan, &log)
    };
    let work: &[u8] = &[0x01, 0x81, 0x00];
    vec![
        // A fresh job: every grant meets 13, also above the desire.
        log(&[], most, &[0x00, 0x01, 0x02, 0x7f, 0x80]),
        // A held one, with an orphan that no grant brings back.
        log(work, most - 1, &[0x01, 0x00, 0x80]),
        // A running one: 12 while the last quantum is open, then 13.
        log(
            work,
            most - 2,
            &[0x01, 0x01, 0x02, 0x81, 0x00, 0x01, 0x81, 0x00],
        ),
        // One that finishes in its last quantum: 11.
        log(&[], most - 3, &[work, work, work, &[0x00, 0x01]].concat()),
    ]
}

/// Jobs with so many refused calls that the counters line's last number is the
/// first or the last with its digits.
fn counted() -> Vec<Vec<u8>> {
    let plan = draft(&mut Random::new(0), Shape::Chain, 1, 2).bytes();
    let above_desire = 0x7f;
    let counts = [9, 10, 99, 100, 999, 1_000, 9_999, 10_000];
    let log = |count: &usize| input(&plan, &vec![above_desire; *count]);
    counts.iter().map(log).collect()
}

/// Forks nested in each other leave a task each in the line, and each takes a
/// join: so the most that a plan has, and then the longest line there can be.
const MOST_FORKS: usize = (MOST_TASKS - 1) / 3;

/// Lines of three to ten tasks that one thief robs, and the longest there can
/// be, which 63 thieves rob in one tick.
fn robbed() -> Vec<Vec<u8>> {
    let longest = (MOST_FORKS + 1, MOST_WORKERS);
    let lines = (3..=10).map(|size| (size, 2)).chain([longest]);
    lines
        .map(|(size, workers)| thieves(size, workers))
        .collect()
}

/// All others steal from worker 0, in the tick that gives its line this size
/// and in seven more; then two workers finish the job.
fn thieves(size: usize, workers: usize) -> Vec<u8> {
    with_line(size, workers, |writer| {
        for most in [workers; 8].into_iter().chain([2; 999]) {
            let count = writer.job.desire().min(most);
            quantum(writer, &vec![0; count]);
            if writer.job.is_finished() {
                break;
            }
        }
    })
}

/// Lines that grants withdraw, and one worker takes for so many ticks: two
/// grants with two lines each; two grants with two workers that came back in
/// between; one grant with a gap among its workers. And 64 lines that one grant
/// withdraws and five workers take.
fn orphaned() -> Vec<Vec<u8>> {
    let kinds: [(u8, &[usize]); 3] = [(0, &[2, 0]), (0, &[0, 2, 0]), (2, &[0])];
    let all = |ticks: usize| kinds.map(|(choice, grants)| orphans(choice, grants, ticks));
    (1..=15).flat_map(all).chain([all_orphaned()]).collect()
}

/// Of a line of 8 tasks workers 1 to 3 take 4, 2 and 1, or the second of them
/// robs itself and worker 3 takes 2; the grants leave nobody.
fn orphans(choice: u8, grants: &[usize], ticks: usize) -> Vec<u8> {
    with_line(8, 4, |writer| {
        quantum(writer, &[0, 0, choice, 0]);
        for &count in grants {
            quantum(writer, &vec![0; count]);
        }
        for _ in 0..ticks {
            quantum(writer, &[0]);
        }
    })
}

/// Each worker robs the one whose number is its own without the highest bit,
/// so that the longest line comes to 64 workers in one tick.
fn all_orphaned() -> Vec<u8> {
    let robbed = |worker: u8| worker ^ (0x80 >> worker.leading_zeros());
    let choices: Vec<u8> = (1..MOST_WORKERS as u8).map(robbed).collect();
    with_line(MOST_FORKS + 1, MOST_WORKERS, |writer| {
        quantum(writer, &[&[0], &choices[..]].concat());
        quantum(writer, &[]);
        for _ in 0..40 {
            quantum(writer, &[0; 5]);
        }
    })
}

/// A grant and a tick: a quantum where L = 1.
fn quantum(writer: &mut Writer, choices: &[u8]) {
    writer.grant(choices.len());
    writer.tick(choices);
}

/// The desire climbs to the number of workers; worker 0 alone goes on until one
/// more work cycle gives its line this size; then the calls.
fn with_line(size: usize, workers: usize, calls: impl Fn(&mut Writer)) -> Vec<u8> {
    let mut draft = Draft::of_graph(&nested(MOST_FORKS.min(size + 3)));
    draft.utilization = 1;
    draft.quantum_length = 1;
    written(&draft, |writer| {
        climb(writer, workers);
        while writer.job.deques()[0].len() + 1 < size {
            quantum(writer, &[0]);
        }
        calls(writer);
    })
}

/// The desire climbs to the number of workers, in steal cycles in vain.
fn climb(writer: &mut Writer, workers: usize) {
    while writer.job.desire() < workers {
        let own: Vec<u8> = (0..writer.job.desire() as u8).collect();
        quantum(writer, &own);
    }
}

/// Forks inside each other's first part: a worker alone has one task more in
/// its line after each of them. The joins take up the last fork first.
fn nested(forks: usize) -> Vec<Vec<u16>> {
    let task = |number: usize| number as u16;
    let leaf = 2 * forks;
    let mut graph = vec![Vec::new(); 3 * forks + 1];
    for fork in 0..forks {
        graph[(2 * fork).saturating_sub(1)] = vec![task(2 * fork + 1), task(2 * fork + 2)];
        graph[2 * fork + 2] = vec![task(leaf + forks - fork)];
        graph[leaf + fork] = vec![task(leaf + fork + 1)];
    }
    graph[leaf - 1] = vec![task(leaf + 1)];
    graph
}

/// Jobs that each of one, two and three workers finishes, and the first and the
/// last of 64; each in a quantum's first tick and in its last, the second.
fn finished() -> Vec<Vec<u8>> {
    let few = [(0, 1), (0, 2), (1, 2), (0, 3), (1, 3), (2, 3)];
    let most = [(0, MOST_WORKERS), (MOST_WORKERS - 1, MOST_WORKERS)];
    let both = |(worker, workers)| [6, 7].map(|chain| finished_by(worker, workers, chain));
    few.into_iter().chain(most).flat_map(both).collect()
}

/// The desire climbs along a chain of so many tasks. Of the fork after it the
/// finisher steals the second task, or as worker 0 it works both; so it has the
/// join, the last task.
fn finished_by(finisher: usize, workers: usize, chain: u16) -> Vec<u8> {
    let mut graph: Vec<Vec<u16>> = (1..=chain).map(|next| vec![next]).collect();
    let (first, second, join) = (chain + 1, chain + 2, chain + 3);
    graph.extend([vec![first, second], vec![join], vec![join], vec![]]);
    let choice = |worker: usize| if worker == finisher { 0 } else { worker as u8 };
    let mut draft = Draft::of_graph(&graph);
    draft.responsiveness = 4;
    draft.utilization = 1;
    draft.quantum_length = 2;
    written(&draft, |writer| {
        while !writer.job.is_finished() {
            if writer.job.open_quantum().is_none() {
                writer.grant(writer.job.desire().min(workers));
            }
            let workers = 0..writer.job.allotment();
            writer.tick(&workers.map(choice).collect::<Vec<u8>>());
        }
    })
}

/// Every shape with every way to grant, and every shape with the fewest and
/// the most tasks.
fn shaped(random: &mut Random) -> Vec<Vec<u8>> {
    let mut inputs = Vec::new();
    for shape in SHAPES {
        for grants in GRANTS {
            let count = random.between(8, 90);
            inputs.push(followed(random, shape, count, grants, inputs.len()));
        }
        for count in [1, 2, MOST_TASKS] {
            inputs.push(followed(random, shape, count, Grants::Full, inputs.len()));
        }
    }
    inputs
}

/// Plans for many workers, one for each responsiveness, and one with every
/// allotment.
fn wide(random: &mut Random) -> Vec<Vec<u8>> {
    let mut inputs = vec![every_allotment(random)];
    for responsiveness in 2..=7 {
        let mut draft = wide_draft(random);
        draft.responsiveness = responsiveness;
        let index = inputs.len();
        inputs.push(logged(random, &draft, GRANTS[index % 2], index, BUDGET));
    }
    inputs
}

/// The desire climbs to 64; then 64 workers are granted, and one less each
/// time down to none. All choose worker 0.
fn every_allotment(random: &mut Random) -> Vec<u8> {
    let mut draft = draft(random, Shape::Layered { width: 8 }, MOST_TASKS, 2);
    draft.utilization = 1;
    draft.quantum_length = 1;
    let counts = [1, 2, 4, 8, 16, 32].into_iter();
    written(&draft, |writer| {
        for count in counts.chain((0..=MOST_WORKERS).rev()) {
            quantum(writer, &vec![0; count]);
        }
    })
}

/// An input of a shape whose log follows the job. The index picks what the
/// grants leave open.
fn followed(
    random: &mut Random,
    shape: Shape,
    count: usize,
    grants: Grants,
    index: usize,
) -> Vec<u8> {
    let draft = draft(random, shape, count, 2 + index as u64 % 6);
    logged(random, &draft, grants, index, BUDGET)
}

fn draft(random: &mut Random, shape: Shape, count: usize, responsiveness: u64) -> Draft {
    let mut draft = Draft::of_graph(&graph(random, shape, count));
    draft.responsiveness = responsiveness;
    draft.utilization = random.between(1, 100) as u64;
    draft.quantum_length = random.between(1, 4) as u64;
    draft
}

/// An input of a draft whose log follows the job, up to about so many bytes.
fn logged(
    random: &mut Random,
    draft: &Draft,
    grants: Grants,
    index: usize,
    budget: usize,
) -> Vec<u8> {
    let style = Style {
        grants,
        choices: CHOICES[index % CHOICES.len()],
        stray: [0, 40][index % 2],
        budget,
        ending: ENDINGS[index % ENDINGS.len()],
    };
    let plan = draft.bytes();
    let log = Job::accept(&plan).map(|job| guided_log(random, job, &style));
    input(&plan, &log.unwrap_or_default())
}

/// An input of calls that are written while the draft's job follows them.
fn written(draft: &Draft, calls: impl FnOnce(&mut Writer)) -> Vec<u8> {
    let plan = draft.bytes();
    let log = Job::accept(&plan).map(|job| {
        let mut writer = Writer::new(job);
        calls(&mut writer);
        writer.bytes
    });
    input(&plan, &log.unwrap_or_default())
}

/// The program's input: plan length in 16 bits, plan, log.
fn input(plan: &[u8], log: &[u8]) -> Vec<u8> {
    [&(plan.len() as u16).to_be_bytes(), plan, log].concat()
}

/// The cases of a set, each an input with its output; nothing where the set
/// is cut off.
pub fn stored_cases(set: &[u8]) -> Option<Vec<(&[u8], &[u8])>> {
    let mut cases = Vec::new();
    let mut rest = set;
    while !rest.is_empty() {
        let (size, after) = split(rest, 3)?;
        let (input, after) = split(after, big_endian(size) as usize)?;
        let (&size, after) = after.split_first()?;
        let (output, after) = split(after, usize::from(size))?;
        cases.push((input, output));
        rest = after;
    }
    Some(cases)
}
