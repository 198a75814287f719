//! The generator: the same cases for the same seed, and all kinds of them.

use reference::coverage::{Branch, Coverage, BRANCHES};
use reference::form;
use reference::generator::graph::{graph, Shape};
use reference::generator::plans::Draft;
use reference::generator::trees::{tree, tree_draft};
use reference::generator::{cases, gentle_cases, older_cases, Random};
use reference::{read_plan, Plan, Refusal};

use super::plan_refusal;

#[test]
fn same_seed_same_cases() {
    let row = |seed| cases(seed).take(40).collect::<Vec<_>>();
    assert_eq!(row(5), row(5));
    assert_ne!(row(5), row(6));
    assert_eq!(Random::new(0).next_u64(), 0xe220_a839_7b1d_cdaf);
    // Two of forms 1 and 2, then one of form 3.
    let (mut older, mut gentle) = (older_cases(5), gentle_cases(5));
    let parts = [older.next(), older.next(), gentle.next(), older.next()];
    assert_eq!(row(5)[..4], parts.map(|case| case.expect("a case")));
}

#[test]
fn graphs_are_sound() {
    let mut random = Random::new(11);
    for count in (1..60).chain([1022, 1023, 1024]) {
        let width = random.between(1, 90);
        let (layered, tangled) = (Shape::Layered { width }, Shape::Tangled { width });
        for shape in [Shape::Chain, Shape::Comb, Shape::ForkJoin, layered, tangled] {
            let drawn = graph(&mut random, shape, count);
            assert_eq!(plan_refusal(&Draft::of_graph(&drawn).bytes()), 0);
            assert!(drawn.len() <= count && count <= drawn.len() + 2);
        }
    }
}

#[test]
fn trees_are_sound() {
    for levels in 0..=8 {
        let drawn = tree(levels);
        assert_eq!(plan_refusal(&Draft::of_graph(&drawn).bytes()), 0);
        let forks = drawn.iter().filter(|list| list.len() == 2).count();
        assert_eq!((forks, drawn.len()), ((1 << levels) - 1, 3 * forks + 1));
    }
    for seed in 0..100 {
        let draft = tree_draft(&mut Random::new(seed));
        assert_eq!(plan_refusal(&draft.bytes()), 0);
    }
}

#[test]
fn plans_mix_ticks() {
    let plans = older_cases(4)
        .take(400)
        .filter_map(|case| read_plan(&case.plan).ok());
    let ticks = |plan: Plan| plan.tasks().iter().map(|task| task.ticks()).collect();
    let plans: Vec<Vec<u8>> = plans.map(ticks).collect();
    let wanted = [1, 2, 3, 100, 255];
    let has_all = |plan: &&Vec<u8>| wanted.iter().all(|ticks| plan.contains(ticks));
    let others = plans
        .iter()
        .flatten()
        .filter(|ticks| !wanted.contains(ticks));
    assert!(plans.iter().filter(has_all).count() > 10 && others.count() > 100);
}

#[test]
fn everything_is_reached() {
    let mut coverage = Coverage::default();
    for case in cases(2).take(3_000) {
        coverage.cover(&case);
    }
    for refusal in Refusal::ALL {
        assert!(coverage.refusal(refusal) > 0, "never refused {refusal}");
    }
    // 13 is met by inputs that the program takes
    let program = cases(2).take(300).map(|case| case.input);
    let mut taken = Coverage::default();
    program.for_each(|input| taken.cover_input(&input));
    assert!(taken.refusal(Refusal::QuantaExhausted) > 0);
    for (branch, name) in BRANCHES {
        assert!(coverage.branch(branch) > 0, "never reached {name}");
    }
    for ((_, name), &count) in form::BENT.iter().zip(coverage.readings()) {
        assert!(count > 0, "no plan is read otherwise: {name}");
    }
    let forms = [
        Branch::PlanFormOne,
        Branch::PlanFormTwo,
        Branch::PlanFormThree,
    ];
    let forms = forms.map(|form| coverage.branch(form));
    assert!(
        forms[0] > 900 && forms[1] > 500 && forms[2] > 700,
        "{forms:?}"
    );
    assert!(coverage
        .ratios()
        .iter()
        .all(|(_, powers)| powers.plans > 50));
    assert_eq!(coverage.ratios().missing(), [""; 0]);
    assert_eq!(coverage.offers().missing(), [""; 0]);
    assert_eq!(coverage.missing(), 0);
    assert!(coverage.responsiveness()[2..].iter().all(|&n| n > 0));
    assert!(coverage.allotments()[0] > 0 && coverage.allotments()[64] > 0);
}
