//! Plans before they are bytes, so that each field can be set on its own.

use super::graph::{graph, Graph, Shape, MOST_TASKS};
use super::random::Random;

/// One task's fields as they will be packed.
#[derive(Clone, Copy, Debug, Default, PartialEq, Eq)]
pub struct DraftTask {
    pub count: u32,
    pub first: u32,
    pub second: u32,
    /// Packed where the draft's tasks have ticks.
    pub ticks: u32,
}

/// A plan's fields as they will be packed, sound or not.
#[derive(Clone, Debug, PartialEq, Eq)]
pub struct Draft {
    pub form: u64,
    /// Whether the tasks have ticks, as in form 2.
    pub has_ticks: bool,
    /// Whether the header is that of form 3, with the responsiveness in tenths.
    pub has_tenths: bool,
    pub responsiveness: u64,
    pub utilization: u64,
    pub quantum_length: u64,
    pub count_less_one: u64,
    pub tasks: Vec<DraftTask>,
}

impl Draft {
    /// A sound draft of a graph, of form 1.
    pub fn of_graph(graph: &Graph) -> Draft {
        let field = |list: &Vec<u16>, i: usize| list.get(i).copied().map_or(0, u32::from);
        let draft = |list: &Vec<u16>| DraftTask {
            count: list.len() as u32,
            first: field(list, 0),
            second: field(list, 1),
            ticks: 1,
        };
        Draft {
            form: 1,
            has_ticks: false,
            has_tenths: false,
            responsiveness: 2,
            utilization: 80,
            quantum_length: 2,
            count_less_one: (graph.len() as u64).saturating_sub(1),
            tasks: graph.iter().map(draft).collect(),
        }
    }

    /// The same in form 2, with these ticks by task number.
    pub fn lasting(mut self, mut ticks: impl FnMut(usize) -> u32) -> Draft {
        (self.form, self.has_ticks, self.has_tenths) = (2, true, false);
        for (number, task) in self.tasks.iter_mut().enumerate() {
            task.ticks = ticks(number);
        }
        self
    }

    /// The same in form 3, with so many tenths.
    pub fn gentle(mut self, tenths: u64) -> Draft {
        (self.form, self.has_ticks, self.has_tenths) = (3, false, true);
        self.responsiveness = tenths;
        self
    }

    /// The bits of the header between form and number of tasks.
    fn middle(&self) -> u64 {
        let utilization = self.utilization & 127;
        if self.has_tenths {
            (self.responsiveness & 31) << 31
                | utilization << 24
                | (self.quantum_length & 16_383) << 10
        } else {
            (self.responsiveness & 7) << 33
                | utilization << 26
                | (self.quantum_length & 65_535) << 10
        }
    }

    /// The packed bytes; what does not fit in a field is cut off.
    pub fn bytes(&self) -> Vec<u8> {
        let header = (self.form & 15) << 36 | self.middle() | self.count_less_one & 1023;
        let mut bytes = header.to_be_bytes()[3..].to_vec();
        for task in &self.tasks {
            let word = (task.count & 3) << 22 | (task.first & 2047) << 11 | task.second & 2047;
            bytes.extend_from_slice(&word.to_be_bytes()[1..]);
            if self.has_ticks {
                bytes.push(task.ticks as u8);
            }
        }
        bytes
    }
}

/// A sound plan of form 1 or 2, two of five in form 2.
pub fn sound_draft(random: &mut Random) -> Draft {
    let draft = if random.chance(40) {
        wide_draft(random)
    } else {
        any_draft(random)
    };
    if random.chance(100) {
        lasting(random, draft)
    } else {
        draft
    }
}

/// A plan of form 1 of any shape and size.
fn any_draft(random: &mut Random) -> Draft {
    let count = task_count(random);
    let shape = shape(random);
    let mut draft = Draft::of_graph(&graph(random, shape, count));
    draft.responsiveness = random.between(2, 7) as u64;
    draft.utilization = utilization(random);
    draft.quantum_length = quantum_length(random);
    draft
}

/// A wide graph with short and easily efficient quanta, so that the desire
/// climbs to its top and many workers are granted.
pub fn wide_draft(random: &mut Random) -> Draft {
    let count = random.between(500, MOST_TASKS);
    let width = random.between(40, 200);
    let mut draft = Draft::of_graph(&graph(random, Shape::Layered { width }, count));
    draft.responsiveness = random.between(2, 7) as u64;
    draft.utilization = random.between(1, 40) as u64;
    draft.quantum_length = random.between(1, 4) as u64;
    draft
}

/// Short quanta, and more tasks than a few of them work: for a log that spends
/// every quantum that may begin.
pub fn marathon_draft(random: &mut Random) -> Draft {
    let count = random.between(100, 400);
    let mut draft = Draft::of_graph(&graph(random, Shape::Layered { width: 30 }, count));
    draft.responsiveness = random.between(2, 7) as u64;
    draft.utilization = random.between(1, 30) as u64;
    draft.quantum_length = *random.pick(&[1, 1, 1, 2, 3]).unwrap_or(&1);
    if random.chance(64) {
        draft = lasting(random, draft);
    }
    draft
}

/// The most ticks of a quantum in form 3.
pub const MOST_GENTLE_LENGTH: u64 = 16_383;

/// A sound plan of form 3. In every second one the desire has room to climb.
pub fn gentle_draft(random: &mut Random) -> Draft {
    let draft = match random.below(4) {
        0 => wide_draft(random),
        1 => narrow_draft(random),
        _ => any_draft(random),
    };
    gentle(random, draft)
}

/// The same for a log that spends every quantum that may begin.
pub fn gentle_marathon_draft(random: &mut Random) -> Draft {
    let draft = marathon_draft(random);
    gentle(random, draft)
}

/// A long graph of few tasks at a time and quanta of one tick or two, so that
/// the utilization says up to which desire they are efficient.
fn narrow_draft(random: &mut Random) -> Draft {
    let (count, width) = (random.between(60, 400), random.between(1, 8));
    let mut draft = Draft::of_graph(&graph(random, Shape::Tangled { width }, count));
    let percents = [1, 2, 3, 4, 6, 8, 12, 20, 40, 70];
    draft.utilization = *random.pick(&percents).unwrap_or(&1);
    draft.quantum_length = random.between(1, 2) as u64;
    draft
}

/// The same plan in form 3, with any of the ratios.
pub fn gentle(random: &mut Random, mut draft: Draft) -> Draft {
    draft.quantum_length = draft.quantum_length.min(MOST_GENTLE_LENGTH);
    draft.gentle(random.between(12, 20) as u64)
}

/// How many ticks the tasks of a plan have.
#[derive(Clone, Copy, Debug, PartialEq, Eq)]
pub enum Mix {
    /// One each, as in form 1.
    One,
    /// One to three.
    Few,
    /// One, two, three, 100 and 255.
    Mixed,
    /// Mostly one, and here and there 100 or 255.
    Rare,
    /// Any, 1 to 255.
    Any,
    /// 255 each.
    Most,
}

/// The mixes of short plans, and of all plans; the likeliest more than once.
const SHORT_MIXES: [Mix; 8] = [
    Mix::One,
    Mix::Few,
    Mix::Few,
    Mix::Mixed,
    Mix::Mixed,
    Mix::Rare,
    Mix::Any,
    Mix::Most,
];
const MIXES: [Mix; 6] = [
    Mix::One,
    Mix::Few,
    Mix::Few,
    Mix::Few,
    Mix::Rare,
    Mix::Mixed,
];

impl Mix {
    /// The ticks of one task.
    pub fn ticks(self, random: &mut Random) -> u32 {
        let rare = random.chance(16);
        let pick = |random: &mut Random, ticks: &[u32]| *random.pick(ticks).unwrap_or(&1);
        match self {
            Mix::One => 1,
            Mix::Few => pick(random, &[1, 2, 3]),
            Mix::Mixed => pick(random, &[1, 2, 3, 100, 255]),
            Mix::Rare if rare => pick(random, &[100, 255]),
            Mix::Rare => 1,
            Mix::Any => random.between(1, 255) as u32,
            Mix::Most => 255,
        }
    }
}

/// The same plan in form 2. Many long tasks are in short plans only, so that
/// logs come to their ends.
pub fn lasting(random: &mut Random, draft: Draft) -> Draft {
    let mixes = if draft.tasks.len() <= 24 {
        &SHORT_MIXES[..]
    } else {
        &MIXES[..]
    };
    let mix = *random.pick(mixes).unwrap_or(&Mix::Few);
    draft.lasting(|_| mix.ticks(random))
}

/// Mostly small, at times up to the most there can be.
fn task_count(random: &mut Random) -> usize {
    match random.below(16) {
        0 => random.between(1, 2),
        1..=7 => random.between(2, 24),
        8..=13 => random.between(16, 160),
        14 => random.between(100, MOST_TASKS),
        _ => *random.pick(&[1, 2, 1023, MOST_TASKS]).unwrap_or(&1),
    }
}

fn shape(random: &mut Random) -> Shape {
    let width = random.between(2, 40);
    match random.below(8) {
        0 => Shape::Chain,
        1 => Shape::Comb,
        2 | 3 => Shape::ForkJoin,
        4 | 5 => Shape::Layered { width },
        _ => Shape::Tangled { width },
    }
}

fn utilization(random: &mut Random) -> u64 {
    match random.below(8) {
        0 => 1,
        1 => 100,
        2 => 80,
        3 | 4 => random.between(1, 30) as u64,
        _ => random.between(1, 100) as u64,
    }
}

fn quantum_length(random: &mut Random) -> u64 {
    match random.below(32) {
        0 => 65_535,
        1..=3 => random.between(10, 400) as u64,
        _ => random.between(1, 8) as u64,
    }
}
