//! Document 01's worked examples 1 to 10, and the shipped ones.

use std::fs;
use std::path::Path;

use reference::generator::plans::Draft;
use reference::{is_efficient, program_output, run_log, Refusal, Status};
use reference::{Growth, Level, Pace};

use super::{hex, input, job, plan_refusal, PLAN_A};

fn printed(plan: &str, log: &str) -> String {
    program_output(&input(&hex(plan), &hex(log)))
}

/// Every `examples/NAME.in` gives what `NAME.out` has.
#[test]
fn shipped_examples() {
    let examples = Path::new(env!("CARGO_MANIFEST_DIR")).join("../../examples");
    let mut tried = 0;
    for entry in fs::read_dir(examples).expect("the examples") {
        let file = entry.expect("an example").path();
        if file
            .extension()
            .map_or(false, |extension| extension == "in")
        {
            let input = fs::read(&file).expect("an input");
            let output = fs::read_to_string(file.with_extension("out")).expect("an output");
            assert_eq!(program_output(&input), output, "{}", file.display());
            tried += 1;
        }
    }
    assert!(tried > 20, "{tried} examples");
}

#[test]
fn example_1_two_workers() {
    let log = "01 81 00 81 00 02 82 00 00 82 00 00";
    assert_eq!(printed(PLAN_A, log), "3 4 4 2 2 4 0 2 0 0\n");
    assert_eq!(input(&hex(PLAN_A), &[])[..2], [0x00, 0x11]);
}

#[test]
fn example_2_withdrawn_and_mugged() {
    let mut job = job(&hex(PLAN_A));
    let log = hex("01 81 00 81 00 00 80 80 01 81 00 81 00 01 81 00");
    let outcome = run_log(&mut job, &log);
    assert_eq!((outcome.refused, outcome.broken), (0, None));
    assert_eq!((job.work_cycles(), job.mug_cycles()), (4, 1));
    assert_eq!((job.steal_cycles(), job.desire()), (0, 2));
    assert_eq!(job.status(), Status::Finished);
}

#[test]
fn example_3_empty_log() {
    assert_eq!(printed(PLAN_A, ""), "0 0 4 1 0 0 0 0 0 0\n");
}

#[test]
fn example_4_first_grant() {
    let mut job = job(&hex(PLAN_A));
    assert_eq!(job.grant(2), Err(Refusal::GrantAboveDesire));
    assert!(job.grant(0).is_ok());
    assert_eq!(job.status(), Status::Fresh);
}

#[test]
fn example_5_efficient() {
    assert!(is_efficient(80, 5, 2, 8));
    assert!(!is_efficient(80, 5, 2, 7));
}

#[test]
fn example_6_desire_at_its_top() {
    let top = Level {
        power: 3,
        desire: 27,
    };
    let (_, next) = Pace::default().close(Growth::Factor(3), top, true, true);
    assert_eq!(next, top);
}

#[test]
fn example_7_thief_takes_the_back() {
    let successors: [&[u16]; 7] = [&[1, 2], &[3, 4], &[5], &[5], &[6], &[6], &[]];
    let graph = successors.iter().map(|list| list.to_vec()).collect();
    let mut draft = Draft::of_graph(&graph);
    draft.quantum_length = 1;
    let mut job = job(&draft.bytes());
    assert!(job.grant(1).is_ok() && job.tick(&[0]).is_ok());
    assert!(job.grant(2).is_ok());
    assert_eq!(job.deques(), [vec![1, 2], vec![]]);
    assert!(job.tick(&[0, 0]).is_ok());
    assert_eq!(job.deques(), [vec![3, 4], vec![2]]);
    assert_eq!(job.successful_steals(), 1);
}

#[test]
fn example_8_wrong_lengths() {
    let plan = hex(PLAN_A);
    assert_eq!(plan_refusal(&plan[..16]), 6);
    assert_eq!(plan_refusal(&[&plan[..], &[0]].concat()), 6);
    assert_eq!(plan_refusal(&plan), 0);
}

#[test]
fn example_9_one_task() {
    let mut job = job(&hex("15 40 00 08 00 00 00 00"));
    assert!(job.grant(1).is_ok() && job.tick(&[0]).is_ok());
    assert_eq!(job.status(), Status::Finished);
    assert_eq!((job.work_cycles(), job.steal_cycles()), (1, 0));
}

#[test]
fn example_10_limits_of_the_fields() {
    let with = |responsiveness, utilization| {
        let mut draft = Draft::of_graph(&vec![vec![1], vec![]]);
        draft.responsiveness = responsiveness;
        draft.utilization = utilization;
        plan_refusal(&draft.bytes())
    };
    assert_eq!((with(7, 80), with(1, 80)), (0, 3));
    assert_eq!((with(2, 100), with(2, 101)), (0, 4));
}
