//! "The plan's bits" and the questions 1 to 10, with 28 of request U9.

use crate::form::{at, Asked, Form, Place, Reading, TaskBits};
use crate::growth::Growth;
use crate::refusal::{ask, Refusal};

const HEADER_BYTES: usize = 5;

/// One task (document 01: piece).
#[derive(Clone, Debug, PartialEq, Eq)]
pub struct Task {
    successors: Vec<u16>,
    predecessors: Vec<u16>,
    ticks: u8,
}

impl Task {
    /// The successors (document 01: followers), first field first.
    pub fn successors(&self) -> &[u16] {
        &self.successors
    }

    /// The predecessors (document 01: pieces before), in rising order.
    pub fn predecessors(&self) -> &[u16] {
        &self.predecessors
    }

    /// The ticks that it lasts, 1 to 255; in a plan of form 1 or 3 it is one.
    pub fn ticks(&self) -> u8 {
        self.ticks
    }
}

/// An accepted plan. There is no other way to one than [`read_plan`].
#[derive(Clone, Debug, PartialEq, Eq)]
pub struct Plan {
    growth: Growth,
    utilization: u64,
    quantum_length: u32,
    tasks: Vec<Task>,
}

impl Plan {
    /// The responsiveness (document 01: R): by what the desire grows.
    pub fn growth(&self) -> Growth {
        self.growth
    }

    /// The utilization in percent (document 01: D), 1 to 100.
    pub fn utilization(&self) -> u64 {
        self.utilization
    }

    /// The quantum length in ticks (document 01: L), 1 to 65,535; in a plan of
    /// form 3 at most 16,383.
    pub fn quantum_length(&self) -> u32 {
        self.quantum_length
    }

    /// The tasks (document 01: pieces), by number.
    pub fn tasks(&self) -> &[Task] {
        &self.tasks
    }

    /// The number of tasks (document 01: N), 1 to 1,024.
    pub fn task_count(&self) -> usize {
        self.tasks.len()
    }
}

/// The fields of the first 40 bits, after the form.
struct Header {
    responsiveness: u64,
    utilization: u64,
    quantum_length: u64,
    task_count: usize,
}

/// Reads plan bytes: the plan, or the first question answered with no.
pub fn read_plan(bytes: &[u8]) -> Result<Plan, Refusal> {
    read_plan_with(bytes, Reading::default())
}

/// Like [`read_plan`], by a rule that may be bent.
pub fn read_plan_with(bytes: &[u8], reading: Reading) -> Result<Plan, Refusal> {
    let (head, body) = split(bytes, HEADER_BYTES).ok_or(Refusal::PlanTooShort)?;
    let word = big_endian(head);
    let form = reading.form(field(word, FORM));
    let form = form.ok_or(Refusal::FormUnknown)?;
    let header = header_fields(word, form);
    ask_header(&header, form)?;
    let length = form.task_bytes * header.task_count;
    ask(body.len() == length, Refusal::PlanLengthWrong)?;
    let entries = body.chunks_exact(form.task_bytes);
    let entries: Vec<TaskBits> = entries.map(|bytes| reading.task(form, bytes)).collect();
    Ok(Plan {
        growth: header.growth(form),
        utilization: header.utilization,
        quantum_length: header.quantum_length as u32,
        tasks: read_tasks(&entries, reading.asked)?,
    })
}

/// Questions 7 to 10, and 28 in its place: 7, 8 and 28 of one task, then of the
/// next.
fn read_tasks(entries: &[TaskBits], asked: Asked) -> Result<Vec<Task>, Refusal> {
    let lasts = |entry: &TaskBits, now| ask(now != asked || entry.ticks > 0, Refusal::TicksZero);
    let all_last = |now| entries.iter().try_for_each(|entry| lasts(entry, now));
    let mut successors = Vec::with_capacity(entries.len());
    for (number, entry) in entries.iter().enumerate() {
        lasts(entry, Asked::BeforeSeven)?;
        let named = named_successors(entry.old)?;
        lasts(entry, Asked::BeforeEight)?;
        ask_successors(&named, number, entries.len())?;
        lasts(entry, Asked::AfterEight)?;
        successors.push(named);
    }
    all_last(Asked::AfterTasks)?;
    let predecessors = predecessors_of(&successors);
    ask_graph(&successors, &predecessors)?;
    all_last(Asked::AfterTen)?;
    let lists = successors.into_iter().zip(predecessors);
    let task = |((successors, predecessors), entry): (_, &TaskBits)| Task {
        successors,
        predecessors,
        ticks: entry.ticks,
    };
    Ok(lists.zip(entries).map(task).collect())
}

/// The items before and from a place, or nothing where the place is past the end.
pub(crate) fn split<T>(items: &[T], place: usize) -> Option<(&[T], &[T])> {
    (place <= items.len()).then(|| items.split_at(place))
}

/// The bytes as one number, most significant bit first.
pub(crate) fn big_endian(bytes: &[u8]) -> u64 {
    bytes.iter().fold(0, |word, &b| word << 8 | u64::from(b))
}

/// The field of a word at a place.
fn field(word: u64, place: Place) -> u64 {
    (word >> place.below) & ((1 << place.width) - 1)
}

const FORM: Place = at(4, 36);
const COUNT_LESS_ONE: Place = at(10, 0);

/// The fields that the form says.
fn header_fields(word: u64, form: Form) -> Header {
    Header {
        responsiveness: field(word, form.layout.responsiveness),
        utilization: field(word, form.layout.utilization),
        quantum_length: field(word, form.layout.quantum_length),
        task_count: field(word, COUNT_LESS_ONE) as usize + 1,
    }
}

impl Header {
    fn growth(&self, form: Form) -> Growth {
        let responsiveness = self.responsiveness as u8;
        if form.in_tenths {
            Growth::Tenths(responsiveness)
        } else {
            Growth::Factor(responsiveness)
        }
    }
}

/// Questions 3 to 5.
fn ask_header(header: &Header, form: Form) -> Result<(), Refusal> {
    ask(
        (form.least..=form.most).contains(&header.responsiveness),
        Refusal::ResponsivenessOutOfRange,
    )?;
    ask(
        (1..=100).contains(&header.utilization),
        Refusal::UtilizationOutOfRange,
    )?;
    ask(header.quantum_length >= 1, Refusal::QuantumLengthZero)
}

/// One task's 24 bits: successor count 2, first 11, second 11. The used fields,
/// and question 7.
fn named_successors(word: u64) -> Result<Vec<u16>, Refusal> {
    let fields = [at(11, 11), at(11, 0)].map(|place| field(word, place) as u16);
    let used_count = field(word, at(2, 22)) as usize;
    let (used, unused) = split(&fields, used_count).ok_or(Refusal::SuccessorCountWrong)?;
    ask(unused.iter().all(|&f| f == 0), Refusal::SuccessorCountWrong)?;
    Ok(used.to_vec())
}

/// Question 8 of the used fields.
fn ask_successors(named: &[u16], number: usize, count: usize) -> Result<(), Refusal> {
    let in_range = |&s: &u16| usize::from(s) > number && usize::from(s) < count;
    let different = named.len() < 2 || named[0] != named[1];
    ask(
        named.iter().all(in_range) && different,
        Refusal::SuccessorWrong,
    )
}

/// The predecessors of every task: only a task's own successors are after it.
fn predecessors_of(successors: &[Vec<u16>]) -> Vec<Vec<u16>> {
    let mut predecessors = vec![Vec::new(); successors.len()];
    for (number, list) in successors.iter().enumerate() {
        for &successor in list {
            predecessors[usize::from(successor)].push(number as u16);
        }
    }
    predecessors
}

/// Questions 9 and 10, 9 of every task before 10. The last task never has a
/// successor (8), so 10 asks that every other task has one.
fn ask_graph(successors: &[Vec<u16>], predecessors: &[Vec<u16>]) -> Result<(), Refusal> {
    let one_or_two = |list: &Vec<u16>| (1..=2).contains(&list.len());
    ask(
        predecessors.iter().skip(1).all(one_or_two),
        Refusal::PredecessorCountWrong,
    )?;
    ask(
        successors.iter().rev().skip(1).all(|list| !list.is_empty()),
        Refusal::SinkNotUnique,
    )
}
