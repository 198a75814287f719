//! The cases of a seed, one after the other.

use std::time::Instant;

use reference::generator::edges::{edge_plans, gentle_edge_plans};
use reference::generator::logs::marathon_log;
use reference::generator::plans::{gentle_marathon_draft, marathon_draft};
use reference::generator::seeds::seeded_log;
use reference::generator::trees::{spreading_log, tree_draft};
use reference::generator::Random;

use crate::accept::accept;
use crate::difference::{Difference, Found};
use crate::inputs;
use crate::options::Options;
use crate::seeds::Seeds;
use crate::totals::Totals;
use crate::walk::{Walk, ALL};

/// Runs cases until the calls or the time are spent, or something differs.
pub fn run(options: &Options, totals: &mut Totals) -> Result<(), Found> {
    let edges = [edge_plans(), gentle_edge_plans()].concat();
    if let Some(case) = options.case {
        return run_case(options.seed, case, &edges, totals);
    }
    let start = Instant::now();
    let mut case = 0;
    while totals.calls < options.calls && start.elapsed() < options.time {
        run_case(options.seed, case, &edges, totals)?;
        case += 1;
    }
    Ok(())
}

/// A case has its own random numbers, from the seed and the case's number.
fn run_case(seed: u64, case: u64, edges: &[Vec<u8>], totals: &mut Totals) -> Result<(), Found> {
    let calls = totals.calls;
    let start = Random::new(seed).next_u64() ^ Random::new(!case).next_u64();
    let ran = try_case(&mut Random::new(start), case, edges, totals);
    totals.cases += 1;
    ran.map_err(|difference| Found {
        case,
        call: totals.calls - calls,
        difference,
    })
}

/// Of 256 grants so many go by way of offers where every quantum is spent.
const MARATHON_OFFERS: usize = 16;

/// And so many of 256 ticks are seeded.
const MARATHON_SEEDED: usize = 16;

/// Whether a case spends every quantum that a job may begin.
fn is_marathon(case: u64) -> bool {
    case % 100 == 0
}

/// Whether a case is about as many deques in use as there can be.
fn is_tree(case: u64) -> bool {
    case % 25 == 12
}

/// Whether a case is about the log of a seeded day, all of whose ticks are then seeded.
fn is_seeded(case: u64) -> bool {
    case % 5 == 3
}

/// Every hundredth case has a plan for as many quanta as a job may begin, every third of them of form 3, and four of a hundred have a tree
/// of forks. The other cases after the first have the plans at the edge of each question, and then any.
fn plan(random: &mut Random, case: u64, edges: &[Vec<u8>]) -> Vec<u8> {
    if is_marathon(case) {
        let draft = match case % 300 {
            0 => gentle_marathon_draft(random),
            _ => marathon_draft(random),
        };
        return draft.bytes();
    }
    if is_tree(case) {
        return tree_draft(random).bytes();
    }
    let (marathons_before, trees_before) = (case / 100 + 1, (case + 12) / 25);
    let others_before = case - marathons_before - trees_before;
    let edge = usize::try_from(others_before).ok();
    let edge = edge.and_then(|place| edges.get(place));
    edge.cloned().unwrap_or_else(|| inputs::plan(random))
}

/// A plan and, where it is accepted, a log, which at times is run whole too, and always where it spends every quantum.
fn try_case(
    random: &mut Random,
    case: u64,
    edges: &[Vec<u8>],
    totals: &mut Totals,
) -> Result<(), Difference> {
    let plan = plan(random, case, edges);
    let mut pair = match accept(random, &plan, totals)? {
        Some(pair) => pair,
        None => return Ok(()),
    };
    pair.seeds = Seeds::new(random.next_u64() as u32);
    let job = pair.reference.clone();
    let (log, seeded) = if is_marathon(case) {
        (marathon_log(random, job), MARATHON_SEEDED)
    } else if is_tree(case) {
        (spreading_log(random, job), inputs::seeded(random))
    } else if is_seeded(case) {
        (seeded_log(random, job, pair.seeds.proved), ALL)
    } else {
        (inputs::log(random, &job), inputs::seeded(random))
    };
    let offers = if is_marathon(case) {
        MARATHON_OFFERS
    } else {
        inputs::offers(random)
    };
    let mut fresh = pair.clone();
    let mut walk = Walk::new(pair, random, totals, offers, seeded);
    walk.follow(&log)?;
    if random.chance(64) || is_marathon(case) {
        fresh.run_log(&log, totals)?;
    }
    Ok(())
}
