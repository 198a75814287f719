//! Plans and logs that bring a job to the state that a row measures.

use reference::generator::graph::{graph, Graph, Shape, MOST_TASKS};
use reference::generator::logs::Writer;
use reference::generator::plans::Draft;
use reference::generator::Random;
use reference::{run_day, run_log, run_log_with, Cycle, Entries, Job, QuantumEnd, Refusal, Report};
use reference::{Step, MOST_QUANTA};

/// A plan, the log that brings its job to the measured state, and the calls that are measured, as a log too.
pub struct Scene {
    pub plan: Vec<u8>,
    pub before: Vec<u8>,
    pub timed: Vec<u8>,
}

/// What stands at the leaves of a fork tree.
#[derive(Clone, Copy)]
pub enum Leaf {
    /// A chain of so many tasks.
    Chain(usize),
    /// A comb with so many tasks of spine: each but the last leaves a tooth, which a row collects from the last one on.
    Comb(usize),
}

/// Appends a task; its number.
fn task(graph: &mut Graph) -> usize {
    graph.push(Vec::new());
    graph.len() - 1
}

fn edge(graph: &mut Graph, from: usize, to: usize) {
    graph[from].push(to as u16);
}

/// Appends that many tasks, each before the next; the first and the last.
fn chain(graph: &mut Graph, count: usize) -> (usize, usize) {
    let first = task(graph);
    for last in first..first + count - 1 {
        let next = task(graph);
        edge(graph, last, next);
    }
    (first, first + count - 1)
}

fn comb(graph: &mut Graph, spine: usize) -> (usize, usize) {
    let (first, last) = chain(graph, spine);
    let teeth: Vec<usize> = (first..last).map(|_| task(graph)).collect();
    for (&tooth, back) in teeth.iter().zip(first..last) {
        edge(graph, back, tooth);
    }
    let (row, row_end) = chain(graph, teeth.len());
    for (&tooth, collector) in teeth.iter().rev().zip(row..) {
        edge(graph, tooth, collector);
    }
    let exit = task(graph);
    edge(graph, last, exit);
    edge(graph, row_end, exit);
    (first, exit)
}

/// Forks down to so many leaves, a power of two, and joins them.
fn tree(graph: &mut Graph, leaves: usize, leaf: Leaf) -> (usize, usize) {
    if leaves == 1 {
        return match leaf {
            Leaf::Chain(count) => chain(graph, count),
            Leaf::Comb(spine) => comb(graph, spine),
        };
    }
    let fork = task(graph);
    let (left, left_end) = tree(graph, leaves / 2, leaf);
    let (right, right_end) = tree(graph, leaves / 2, leaf);
    let join = task(graph);
    edge(graph, fork, left);
    edge(graph, fork, right);
    edge(graph, left_end, join);
    edge(graph, right_end, join);
    (fork, join)
}

/// A plan with D = 1, so that a worker in 64 is enough for an efficient quantum.
fn draft(graph: &Graph, responsiveness: usize, length: usize) -> Draft {
    let mut draft = Draft::of_graph(graph);
    draft.responsiveness = responsiveness as u64;
    draft.utilization = 1;
    draft.quantum_length = length as u64;
    draft
}

/// Its bytes in form 1.
fn plan_bytes(graph: &Graph, responsiveness: usize, length: usize) -> Vec<u8> {
    draft(graph, responsiveness, length).bytes()
}

fn writer(plan: &[u8]) -> Writer {
    Writer::new(Job::accept(plan).expect("the benchmark's plans are sound"))
}

/// R and the number of quanta in which the desire rises from 1 to so many workers, a power of two.
fn growth(workers: usize) -> (usize, usize) {
    let power = workers.trailing_zeros() as usize;
    if power % 2 == 0 {
        (4, power / 2)
    } else {
        (2, power)
    }
}

/// Choices by which a fork tree spreads: the workers with deques double with each tick.
fn spreading(workers: usize) -> Vec<u8> {
    let halved = |worker: usize| worker & !(worker + 1).next_power_of_two().wrapping_shr(1);
    (0..workers).map(|worker| halved(worker) as u8).collect()
}

/// Grants the desire, up to so many, and ticks to the quantum's end.
fn quantum(writer: &mut Writer, most: usize, choices: impl Fn(usize) -> Vec<u8>) {
    let workers = writer.job.desire().min(most);
    writer.grant(workers);
    for _ in 0..writer.job.plan().quantum_length() {
        writer.tick(&choices(workers));
    }
}

/// The work, mug and steal cycles of a scene's measured calls.
fn cycles(scene: &Scene) -> (usize, usize, usize) {
    let mut job = Job::accept(&scene.plan).expect("the benchmark's plans are sound");
    let counts = |job: &Job| [job.work_cycles(), job.mug_cycles(), job.steal_cycles()];
    run_log(&mut job, &scene.before);
    let before = counts(&job);
    run_log(&mut job, &scene.timed);
    let after = counts(&job);
    let more = |kind: usize| (after[kind] - before[kind]) as usize;
    (more(0), more(1), more(2))
}

/// How many tasks a scene's measured calls complete.
fn completed(scene: &Scene) -> usize {
    let mut job = Job::accept(&scene.plan).expect("the benchmark's plans are sound");
    let worked = |job: &Job| job.left().iter().filter(|&&left| left == 0).count();
    run_log(&mut job, &scene.before);
    let before = worked(&job);
    run_log(&mut job, &scene.timed);
    worked(&job) - before
}

/// Of each steal of a scene's measured calls that succeeds: the tasks it takes, and those it leaves, which are the links that it follows.
fn thefts(scene: &Scene) -> Vec<(u16, u16)> {
    let mut job = Job::accept(&scene.plan).expect("the benchmark's plans are sound");
    run_log(&mut job, &scene.before);
    let mut thefts = Vec::new();
    run_log_with(&mut job, &scene.timed, |_, _, answer| {
        if let Ok(Report::Tick(report)) = answer {
            thefts.extend(report.cycles.iter().filter_map(theft));
        }
    });
    thefts
}

fn theft(cycle: &Cycle) -> Option<(u16, u16)> {
    match *cycle {
        Cycle::Steal { stolen, left, .. } if stolen > 0 => Some((stolen, left)),
        _ => None,
    }
}

/// How many quanta of a scene's measured calls raise the desire, find it at its top, are deprived and are inefficient.
fn ends(scene: &Scene) -> [usize; 4] {
    let mut job = Job::accept(&scene.plan).expect("the benchmark's plans are sound");
    run_log(&mut job, &scene.before);
    let mut ends = [0; 4];
    run_log_with(&mut job, &scene.timed, |_, _, answer| {
        if let Ok(Report::Tick(report)) = answer {
            match report.quantum_end {
                Some(QuantumEnd::Grown) => ends[0] += 1,
                Some(QuantumEnd::AtCap) => ends[1] += 1,
                Some(QuantumEnd::Deprived) => ends[2] += 1,
                Some(QuantumEnd::Inefficient { .. }) => ends[3] += 1,
                None => (),
            }
        }
    });
    ends
}

/// Whether a scene grants no quantum after the last that may begin.
pub fn has_quanta(scene: &Scene) -> bool {
    let mut job = Job::accept(&scene.plan).expect("the benchmark's plans are sound");
    let mut spent = false;
    run_log(&mut job, &scene.before);
    run_log_with(&mut job, &scene.timed, |_, _, answer| {
        spent |= matches!(answer, Err(Refusal::QuantaExhausted));
    });
    !spent
}

/// The log so far, and the rest of it from now on.
fn cut(writer: &mut Writer) -> Vec<u8> {
    std::mem::take(&mut writer.bytes)
}

/// Every worker works in every measured tick: one on each leaf of a tree. The measured ticks are one quantum.
pub fn working(workers: usize) -> Scene {
    let (responsiveness, quanta) = growth(workers);
    let power = workers.trailing_zeros() as usize;
    let leaf = |length: usize| 2 * length + 3 - power;
    let tasks = |length: usize| quanta * length + 1 + 2 * (workers - 1) + workers * leaf(length);
    let length = (1..)
        .take_while(|&l| tasks(l + 1) <= MOST_TASKS)
        .last()
        .expect("a quantum fits")
        + 1;
    let mut graph = Graph::new();
    let (_, end) = chain(&mut graph, quanta * length + 1);
    let (root, _) = tree(&mut graph, workers, Leaf::Chain(leaf(length)));
    edge(&mut graph, end, root);
    let scene = two_quanta(plan_bytes(&graph, responsiveness, length), quanta, workers);
    assert_eq!(
        cycles(&scene),
        (length * workers, 0, 0),
        "every worker works"
    );
    scene
}

/// 64 workers work in every measured tick, on tasks of 1 to 15 ticks: one on each leaf of a tree, a chain of 14. The measured ticks are one
/// quantum of 32; of their 2,048 work ticks 273 are a task's last.
pub fn lasting() -> Scene {
    let mut random = Random::new(5);
    let (workers, length) = (64, 32);
    let (responsiveness, quanta) = growth(workers);
    let mut graph = Graph::new();
    let start = task(&mut graph);
    let (root, _) = tree(&mut graph, workers, Leaf::Chain(14));
    edge(&mut graph, start, root);
    let ticks = |task: usize| match graph[task].len() {
        _ if task == start => quanta * length + 1,
        2 => 1,
        _ => random.between(1, 15),
    };
    let ticks: Vec<usize> = (0..graph.len()).map(ticks).collect();
    let draft = draft(&graph, responsiveness, length).lasting(|task| ticks[task] as u32);
    let scene = two_quanta(draft.bytes(), quanta, workers);
    assert_eq!(
        cycles(&scene),
        (length * workers, 0, 0),
        "every worker works"
    );
    assert_eq!(completed(&scene), 273, "of 2,048 ticks");
    scene
}

/// 32 workers are on a comb each, and 32 steal its teeth, one of two or three tasks and then two of four: a steal that succeeds in every
/// second tick of a thief.
pub fn thieves() -> Scene {
    let mut graph = Graph::new();
    let (_, end) = chain(&mut graph, 3 * 6 + 1);
    let (root, _) = tree(&mut graph, 32, Leaf::Comb(10));
    edge(&mut graph, end, root);
    let scene = two_quanta(plan_bytes(&graph, 4, 6), 3, 64);
    assert_eq!(
        cycles(&scene),
        (6 * 64 - 3 * 32, 0, 3 * 32),
        "32 steal in every second tick"
    );
    let lines = [[(1, 1); 32], [(1, 2); 32], [(2, 2); 32]].concat();
    assert_eq!(thefts(&scene), lines, "lines of two, three and four");
    scene
}

/// The desire rises, the tree spreads in one quantum, and the next one is measured; its grant is not.
fn two_quanta(plan: Vec<u8>, quanta: usize, workers: usize) -> Scene {
    let mut writer = writer(&plan);
    for _ in 0..=quanta {
        quantum(&mut writer, workers, spreading);
    }
    writer.grant(workers);
    let before = cut(&mut writer);
    for _ in 0..writer.job.plan().quantum_length() {
        writer.tick(&spreading(workers));
    }
    Scene {
        plan,
        before,
        timed: writer.bytes,
    }
}

/// A chain: one worker works in every measured tick, and all others steal in vain.
pub fn in_vain(workers: usize) -> Scene {
    let mut random = Random::new(workers as u64);
    let (responsiveness, quanta) = growth(workers);
    let length = (MOST_TASKS - 1) / (quanta + 1);
    let mut graph = Graph::new();
    chain(&mut graph, MOST_TASKS);
    let plan = plan_bytes(&graph, responsiveness, length);
    let mut writer = writer(&plan);
    for _ in 0..quanta {
        quantum(&mut writer, workers, |workers| vec![0; workers]);
    }
    writer.grant(workers);
    let before = cut(&mut writer);
    for _ in 0..length {
        let choices: Vec<u8> = (0..workers).map(|_| random.below(workers) as u8).collect();
        writer.tick(&choices);
    }
    let scene = Scene {
        plan,
        before,
        timed: writer.bytes,
    };
    assert_eq!(
        cycles(&scene),
        (length, 0, length * (workers - 1)),
        "one works"
    );
    scene
}

/// The seed that seeded ticks draw from first.
pub const SEED: u32 = 2_026;

/// The same scene with as many seeded ticks; its log has the choices that they draw.
fn by_seed(scene: Scene) -> Scene {
    let ticks = vec![Step::Tick; Entries::new(&scene.timed).count()];
    let mut job = Job::accept(&scene.plan).expect("the benchmark's plans are sound");
    run_log(&mut job, &scene.before);
    let timed = run_day(&mut job, &mut SEED.clone(), &ticks);
    Scene { timed, ..scene }
}

/// 64 workers work in every measured tick, which draws choices for all of them.
pub fn seeded_work() -> Scene {
    let (plain, seeded) = (working(64), by_seed(working(64)));
    assert_eq!(cycles(&seeded), cycles(&plain), "every worker works");
    seeded
}

/// 63 workers steal in vain from those that they draw.
pub fn seeded_vain() -> Scene {
    let (plain, seeded) = (in_vain(64), by_seed(in_vain(64)));
    assert_eq!(cycles(&seeded), cycles(&plain), "one works");
    seeded
}

/// 32 workers are on a comb each, and 32 steal from those that they draw; about half of the steals succeed.
pub fn seeded_thieves() -> Scene {
    let scene = by_seed(thieves());
    assert_eq!(cycles(&scene), (253, 0, 131), "of 6 ticks of 64 workers");
    assert_eq!(thefts(&scene).len(), 63, "of 131 steals");
    scene
}

/// One tick in which 63 workers steal from the same deque of 300 tasks. Nine succeed, until one task is left. The links that they follow are
/// the 299 tasks taken, and one more for each of the four thefts from an odd number of tasks: 303.
pub fn long_deque() -> Scene {
    let own = |workers: usize| (0..workers as u8).collect::<Vec<u8>>();
    let mut graph = Graph::new();
    comb(&mut graph, 341);
    let plan = plan_bytes(&graph, 4, 99);
    let mut writer = writer(&plan);
    for _ in 0..3 {
        quantum(&mut writer, 64, own);
    }
    writer.grant(64);
    writer.tick(&own(64));
    let before = cut(&mut writer);
    writer.tick(&[0; 64]);
    let scene = Scene {
        plan,
        before,
        timed: writer.bytes,
    };
    assert_eq!(cycles(&scene), (1, 0, 63), "one works");
    let followed: Vec<u16> = thefts(&scene).iter().map(|&(_, left)| left).collect();
    assert_eq!(followed, [150, 75, 38, 19, 10, 5, 3, 2, 1], "300 tasks");
    scene
}

/// Quanta of one tick, and 64 deques that are not empty. Measured: 64 workers are withdrawn, a tick of none, 64 workers are granted, and
/// take the deques back in 64 mug cycles.
pub fn withdrawn() -> Scene {
    let mut graph = Graph::new();
    let (_, end) = chain(&mut graph, 4);
    let (root, _) = tree(&mut graph, 64, Leaf::Chain(13));
    edge(&mut graph, end, root);
    let plan = plan_bytes(&graph, 4, 1);
    let mut writer = writer(&plan);
    while writer.job.deques().len() < 64 || writer.job.deques().iter().any(|deque| deque.is_empty())
    {
        quantum(&mut writer, 64, spreading);
    }
    let before = cut(&mut writer);
    writer.grant(0);
    writer.tick(&[]);
    quantum(&mut writer, 64, |workers| vec![0; workers]);
    let scene = Scene {
        plan,
        before,
        timed: writer.bytes,
    };
    assert_eq!(cycles(&scene), (0, 64, 0), "every deque is taken back");
    scene
}

/// Plans of so many tasks: chains, combs, fork-joins and layers, with one and two successors in any order.
fn drafts(tasks: usize, count: usize) -> impl Iterator<Item = Draft> {
    let shapes = [
        Shape::ForkJoin,
        Shape::Layered { width: 16 },
        Shape::Tangled { width: 40 },
        Shape::Layered { width: 100 },
    ];
    let mut random = Random::new(1);
    let one = move |shape: Shape| draft(&graph(&mut random, shape, tasks), 2, 8);
    shapes.into_iter().cycle().take(count).map(one)
}

/// Such plans in form 1.
pub fn plans(tasks: usize, count: usize) -> Vec<Vec<u8>> {
    drafts(tasks, count).map(|draft| draft.bytes()).collect()
}

/// The same in form 2, with tasks of 1 to 255 ticks.
pub fn lasting_plans(tasks: usize, count: usize) -> Vec<Vec<u8>> {
    let mut random = Random::new(6);
    let mut bytes = |draft: Draft| draft.lasting(|_| random.between(1, 255) as u32).bytes();
    drafts(tasks, count).map(&mut bytes).collect()
}

/// The most bytes of a log here: as many as the program's whole input may have.
const LOG_BYTES: usize = 65_536;

/// A log of any kind of a plan that works two tasks at a time, with R = 2 and quanta of four ticks.
pub fn mixed_log() -> Scene {
    let mut random = Random::new(3);
    let graph = graph(&mut random, Shape::Layered { width: 2 }, MOST_TASKS);
    any_log(&mut random, plan_bytes(&graph, 2, 4))
}

/// The same in form 3 with 12 tenths, D = 3 and quanta of one tick, so that every second entry ends one. The desire climbs to 55, where two
/// workers at work are enough for an efficient quantum and one is not.
pub fn gentle_log() -> Scene {
    let mut random = Random::new(8);
    let graph = graph(&mut random, Shape::Layered { width: 2 }, MOST_TASKS);
    let mut draft = draft(&graph, 2, 1).gentle(12);
    draft.utilization = 3;
    let scene = any_log(&mut random, draft.bytes());
    assert_eq!(ends(&scene), [325, 105, 445, 305], "1,180 quanta");
    scene
}

/// Grants of any kind and random choices until the log is full: work, mug and steal cycles, quanta of none, some refused calls.
fn any_log(random: &mut Random, plan: Vec<u8>) -> Scene {
    let mut writer = writer(&plan);
    loop {
        let desire = writer.job.desire();
        let workers = writer.job.allotment();
        if random.chance(4) {
            writer.stray(random);
        } else if writer.job.open_quantum().is_none() {
            let any = random.below(desire + 1);
            writer.grant(*random.pick(&[desire, desire, desire, any, 0]).unwrap_or(&0));
        } else {
            let choices: Vec<u8> = (0..workers).map(|_| random.below(workers) as u8).collect();
            writer.tick(&choices);
        }
        if writer.job.is_finished() || writer.bytes.len() + 65 > LOG_BYTES {
            return Scene {
                plan,
                before: Vec::new(),
                timed: writer.bytes,
            };
        }
    }
}

/// A chain with as many workers as are wanted, 64 after three quanta: the longest run of ticks that a job can take with 64 workers.
pub fn wide_log() -> Scene {
    let mut random = Random::new(4);
    let mut graph = Graph::new();
    chain(&mut graph, MOST_TASKS);
    let plan = plan_bytes(&graph, 4, 10);
    let mut writer = writer(&plan);
    while writer.bytes.len() + 1 + 10 * 65 <= LOG_BYTES {
        let workers = writer.job.desire();
        let choices: Vec<u8> = (0..workers).map(|_| random.below(workers) as u8).collect();
        quantum(&mut writer, 64, |_| choices.clone());
    }
    Scene {
        plan,
        before: Vec::new(),
        timed: writer.bytes,
    }
}

/// The shortest entries, a byte each: as many quanta of no workers as a job may begin, so long that the log is full.
pub fn short_log() -> Scene {
    let mut graph = Graph::new();
    chain(&mut graph, MOST_TASKS);
    let quanta = MOST_QUANTA as usize;
    let length = LOG_BYTES / quanta - 1;
    let plan = plan_bytes(&graph, 2, length);
    let quantum = [vec![0x00], vec![0x80; length]].concat();
    Scene {
        plan,
        before: Vec::new(),
        timed: quantum.repeat(quanta),
    }
}

/// A whole run of a plan of so many tasks, from the first grant to the finish, with up to 8 workers and random choices.
pub fn whole_run(tasks: usize) -> Scene {
    let mut random = Random::new(tasks as u64);
    let plan = plan_bytes(
        &graph(&mut random, Shape::Layered { width: 12 }, tasks),
        2,
        8,
    );
    let mut writer = writer(&plan);
    while !writer.job.is_finished() {
        let workers = writer.job.allotment();
        if writer.job.open_quantum().is_none() {
            let desire = writer.job.desire();
            writer.grant(desire.min(8));
        } else {
            let choices: Vec<u8> = (0..workers).map(|_| random.below(workers) as u8).collect();
            writer.tick(&choices);
        }
    }
    Scene {
        plan,
        before: Vec::new(),
        timed: writer.bytes,
    }
}
