//! Plans at the edge of each question: Plan A with one thing changed, to the
//! last value that passes or to the first that does not.

use super::plans::{Draft, DraftTask, MOST_GENTLE_LENGTH};

/// The plans of forms 1 and 2.
pub fn edge_plans() -> Vec<Vec<u8>> {
    let old = edited(&plan_a(), &EDITS);
    let new = edited(&lasting_plan_a(), &LASTING_EDITS);
    let plans = [old, new, every_form(), zero_and_wrong(), zero_and_loose()];
    plans.concat()
}

/// The plans of form 3: every number of tenths, the edits, and tenths just
/// outside the ratios together with what a later question refuses.
pub fn gentle_edge_plans() -> Vec<Vec<u8>> {
    let tenths = (0..32).map(|tenths| plan_a().gentle(tenths).bytes());
    let later = GENTLE_EDITS.iter().zip([11, 21].into_iter().cycle());
    let later = later.map(|(edit, tenths)| {
        let mut draft = gentle_plan_a();
        edit(&mut draft);
        draft.responsiveness = tenths;
        draft.bytes()
    });
    let edits = edited(&gentle_plan_a(), &GENTLE_EDITS);
    tenths.chain(edits).chain(later).collect()
}

/// Every form's number over the tasks of form 1 and of form 2.
fn every_form() -> Vec<Vec<u8>> {
    let with_form = |mut draft: Draft, form| {
        draft.form = form;
        draft.bytes()
    };
    let both = |form| [plan_a(), lasting_plan_a()].map(|draft| with_form(draft, form));
    (0..16).flat_map(both).collect()
}

/// A plan with each of the edits, and the plan cut short and with a byte more.
fn edited(draft: &Draft, edits: &[fn(&mut Draft)]) -> Vec<Vec<u8>> {
    let edited = edits.iter().map(|edit| {
        let mut draft = draft.clone();
        edit(&mut draft);
        draft.bytes()
    });
    let plan = draft.bytes();
    let lengths = [0, 4, 5, plan.len() - 1, plan.len()];
    let cut = lengths.iter().map(|&size| plan[..size].to_vec());
    let longer = [&plan[..], &[0]].concat();
    edited.chain(cut).chain([longer]).collect()
}

/// A task of 0 ticks, and the same or another one with fields that 7 or 8
/// refuses: every pair of the four tasks of Plan A.
fn zero_and_wrong() -> Vec<Vec<u8>> {
    // Three for 7: a count of 3, and an unused field in use. Three for 8: not
    // above its task, no task, and named twice.
    let wrong = [
        [3, 1, 2],
        [1, 3, 3],
        [0, 3, 0],
        [1, 0, 0],
        [2, 4, 3],
        [2, 3, 3],
    ];
    let mut plans = Vec::new();
    for fields in wrong {
        for (zero, place) in (0..4).flat_map(|zero| (0..4).map(move |place| (zero, place))) {
            let mut draft = lasting_plan_a();
            set(&mut draft, place, fields);
            draft.tasks[zero].ticks = 0;
            plans.push(draft.bytes());
        }
    }
    plans
}

/// Each task with 0 ticks in a graph that 9 or 10 refuses.
fn zero_and_loose() -> Vec<Vec<u8>> {
    let edits: [fn(&mut Draft); 3] = [
        |draft| set(draft, 0, [1, 2, 0]),
        |draft| set(draft, 0, [2, 1, 3]),
        |draft| set(draft, 2, [0, 0, 0]),
    ];
    let mut plans = Vec::new();
    for (edit, zero) in edits
        .iter()
        .flat_map(|edit| (0..4).map(move |zero| (edit, zero)))
    {
        let mut draft = lasting_plan_a();
        edit(&mut draft);
        draft.tasks[zero].ticks = 0;
        plans.push(draft.bytes());
    }
    plans
}

/// Document 01's Plan A: task 0 is followed by 1 and 2, these by 3.
fn plan_a() -> Draft {
    Draft::of_graph(&vec![vec![1, 2], vec![3], vec![3], vec![]])
}

/// The same in form 2: its tasks last 2, 1, 3 and 1 ticks.
fn lasting_plan_a() -> Draft {
    plan_a().lasting(|task| [2, 1, 3, 1][task])
}

/// The same as Plan A in form 3, with R = 1.5.
fn gentle_plan_a() -> Draft {
    plan_a().gentle(15)
}

/// Sets a task's fields: successor count, first and second successor.
fn set(draft: &mut Draft, task: usize, fields: [u32; 3]) {
    let [count, first, second] = fields;
    draft.tasks[task] = DraftTask {
        count,
        first,
        second,
        ..draft.tasks[task]
    };
}

/// What is changed in Plan A, in the order of the questions 3 to 10.
const EDITS: [fn(&mut Draft); 32] = [
    |draft| draft.responsiveness = 0,
    |draft| draft.responsiveness = 1,
    |draft| draft.responsiveness = 7,
    |draft| draft.utilization = 0,
    |draft| draft.utilization = 1,
    |draft| draft.utilization = 100,
    |draft| draft.utilization = 101,
    |draft| draft.quantum_length = 0,
    |draft| draft.quantum_length = 1,
    |draft| draft.quantum_length = 65_535,
    |draft| draft.count_less_one = 2,
    |draft| draft.count_less_one = 4,
    |draft| set(draft, 0, [3, 1, 2]),
    |draft| set(draft, 1, [1, 3, 2]),
    |draft| set(draft, 3, [0, 1, 0]),
    |draft| set(draft, 3, [0, 0, 1]),
    |draft| set(draft, 0, [2, 1, 1]),
    |draft| set(draft, 0, [2, 2, 1]),
    |draft| set(draft, 0, [2, 0, 2]),
    |draft| set(draft, 0, [2, 1, 4]),
    |draft| set(draft, 1, [1, 1, 0]),
    |draft| set(draft, 1, [1, 4, 0]),
    |draft| set(draft, 1, [2, 3, 1]),
    |draft| set(draft, 1, [2, 3, 2_047]),
    |draft| set(draft, 2, [1, 1, 0]),
    |draft| set(draft, 3, [1, 3, 0]),
    |draft| set(draft, 0, [1, 1, 0]),
    |draft| set(draft, 0, [1, 2, 0]),
    |draft| set(draft, 0, [2, 1, 3]),
    |draft| set(draft, 0, [2, 3, 2]),
    |draft| set(draft, 1, [2, 2, 3]),
    |draft| set(draft, 2, [0, 0, 0]),
];

/// What is changed in its form 2, in the order of the questions 3 to 10; then
/// the ticks.
const LASTING_EDITS: [fn(&mut Draft); 18] = [
    |draft| draft.responsiveness = 1,
    |draft| draft.utilization = 101,
    |draft| draft.quantum_length = 0,
    |draft| draft.count_less_one = 2,
    |draft| draft.count_less_one = 4,
    |draft| set(draft, 0, [3, 1, 2]),
    |draft| set(draft, 1, [2, 3, 1]),
    |draft| set(draft, 0, [1, 1, 0]),
    |draft| set(draft, 2, [0, 0, 0]),
    |draft| draft.tasks[0].ticks = 0,
    |draft| draft.tasks[1].ticks = 0,
    |draft| draft.tasks[2].ticks = 0,
    |draft| draft.tasks[3].ticks = 0,
    |draft| draft.tasks[0].ticks = 1,
    |draft| draft.tasks[0].ticks = 127,
    |draft| draft.tasks[0].ticks = 128,
    |draft| draft.tasks[0].ticks = 255,
    |draft| draft.tasks.iter_mut().for_each(|task| task.ticks = 1),
];

/// What is changed in its form 3, in the order of the questions 2 to 10.
const GENTLE_EDITS: [fn(&mut Draft); 21] = [
    |draft| draft.form = 1,
    |draft| draft.form = 2,
    |draft| draft.form = 4,
    |draft| draft.has_tenths = false,
    |draft| draft.utilization = 0,
    |draft| draft.utilization = 1,
    |draft| draft.utilization = 100,
    |draft| draft.utilization = 101,
    |draft| draft.utilization = 127,
    |draft| draft.quantum_length = 0,
    |draft| draft.quantum_length = 1,
    |draft| draft.quantum_length = 8_192,
    |draft| draft.quantum_length = MOST_GENTLE_LENGTH,
    |draft| draft.count_less_one = 2,
    |draft| draft.count_less_one = 4,
    |draft| draft.has_ticks = true,
    |draft| set(draft, 0, [3, 1, 2]),
    |draft| set(draft, 1, [2, 3, 1]),
    |draft| set(draft, 0, [1, 1, 0]),
    |draft| set(draft, 2, [0, 0, 0]),
    |draft| *draft = Draft::of_graph(&vec![vec![]]).gentle(15),
];
