//! The whole states of two jobs, compared in place.

use jirvaldo::inspect::{Growth, View};
use jirvaldo::Counters;

use crate::in_use::deques_in_use;
use crate::pair::{Proved, Reference};

/// The name of what differs.
pub type Part = &'static str;

/// The first part that is not the same.
fn first_other(parts: &[(Part, bool)]) -> Option<Part> {
    parts.iter().find(|part| !part.1).map(|part| part.0)
}

/// In what the two states differ, if they do. The plans are not compared again.
pub fn states(proved: &Proved, reference: &Reference) -> Option<Part> {
    let view = View::of(proved);
    numbers(view, reference)
        .or_else(|| counts(view, reference))
        .or_else(|| counters(&proved.counters(1), reference, 1))
        .or_else(|| tasks(view, reference))
}

fn numbers(view: View, reference: &Reference) -> Option<Part> {
    let quantum = reference.open_quantum();
    let ticks = view.open_ticks().map(u32::from);
    first_other(&[
        ("desire", usize::from(view.desire()) == reference.desire()),
        ("power", u32::from(view.power()) == reference.power()),
        ("allotment", view.allotment() == reference.allotment()),
        ("started", view.started() == reference.ever_granted()),
        (
            "ticks of the open quantum",
            ticks == quantum.map(|q| q.ticks),
        ),
        ("usage", quantum.map_or(true, |q| q.usage == view.usage())),
        (
            "quanta begun",
            u32::from(view.quanta_begun()) == reference.quanta_begun(),
        ),
        (
            "offer",
            view.offer().map(usize::from) == reference.noted_offer(),
        ),
    ])
}

fn counts(view: View, reference: &Reference) -> Option<Part> {
    first_other(&[
        ("work cycles", view.work() == reference.work_cycles()),
        ("mug cycles", view.mug() == reference.mug_cycles()),
        ("steal cycles", view.steal() == reference.steal_cycles()),
        (
            "successful steals",
            view.successes() == reference.successful_steals(),
        ),
    ])
}

/// The ten numbers of the counters line, with a count of refused calls that both were given.
pub fn counters(shown: &Counters, reference: &Reference, refused: u64) -> Option<Part> {
    let count = |number: usize| number as u64;
    first_other(&[
        (
            "status",
            shown.status.number() == reference.status().number(),
        ),
        ("counters: worked", shown.worked == reference.worked_count()),
        (
            "counters: tasks",
            shown.tasks == count(reference.plan().task_count()),
        ),
        (
            "counters: desire",
            shown.desire == count(reference.desire()),
        ),
        (
            "counters: allotment",
            shown.allotment == count(reference.allotment()),
        ),
        ("counters: work", shown.work == reference.work_cycles()),
        ("counters: mug", shown.mug == reference.mug_cycles()),
        ("counters: steal", shown.steal == reference.steal_cycles()),
        (
            "counters: successes",
            shown.successes == reference.successful_steals(),
        ),
        ("counters: refused calls", shown.refused_calls == refused),
    ])
}

/// The worked tasks, the ticks left and all deques, task by task.
fn tasks(view: View, reference: &Reference) -> Option<Part> {
    let left = reference.left().iter().copied();
    let mut deques = reference.deques().iter().enumerate();
    let muggable = reference.muggable_deques();
    let mut ages = muggable.iter().enumerate();
    let waiting = view.muggable_deques() == muggable.len();
    first_other(&[
        ("worked tasks", view.worked().eq(reference.worked())),
        ("ticks left", view.left().eq(left)),
        (
            "deques",
            deques.all(|(worker, deque)| view.deque(worker).eq(deque.iter().copied())),
        ),
        ("number of muggable deques", waiting),
        (
            "muggable deques",
            ages.all(|(age, deque)| view.muggable_deque(age).eq(deque.iter().copied())),
        ),
    ])
}

/// In what the counts of request U12 differ, if they do: the deques in use, and the largest count granted so far by the calls and by the
/// reference's own account.
pub fn bounds(proved: &Proved, reference: &Reference, largest: usize) -> Option<Part> {
    first_other(&[
        (
            "number of deques in use",
            deques_in_use(proved) == reference.in_use(),
        ),
        (
            "largest count granted so far",
            largest == reference.largest_granted(),
        ),
    ])
}

/// Whether a job that a call left has the usage that its copy has, that of a closed quantum too.
pub fn same_usage(proved: &Proved, before: &Proved) -> bool {
    View::of(proved).usage() == View::of(before).usage()
}

/// A plan's responsiveness as the reference has it.
fn growth(view: View) -> reference::Growth {
    match view.growth() {
        Growth::Factor(r) => reference::Growth::Factor(r),
        Growth::Tenths(tenths) => reference::Growth::Tenths(tenths),
    }
}

/// In what the two plans differ, if they do.
pub fn plans(proved: &Proved, reference: &Reference) -> Option<Part> {
    let (view, plan) = (View::of(proved), reference.plan());
    let mut tasks = plan.tasks().iter().enumerate();
    let ticks = plan.tasks().iter().map(|task| task.ticks());
    let same = |(number, task): (usize, &reference::Task)| {
        let successors = task.successors().iter().copied();
        view.successors(number).eq(successors)
    };
    first_other(&[
        ("R", growth(view) == plan.growth()),
        ("D", u64::from(view.utilization()) == plan.utilization()),
        (
            "L",
            u32::from(view.quantum_length()) == plan.quantum_length(),
        ),
        ("N", view.tasks() == plan.task_count()),
        ("successors", tasks.all(same)),
        ("ticks", view.durations().eq(ticks)),
    ])
}
