//! A plan is given to both.

use jirvaldo::inspect::State;
use reference::generator::Random;

use crate::compare;
use crate::difference::Difference;
use crate::inputs;
use crate::pair::{proved_number, reference_number, Pair, Proved, Reference};
use crate::totals::Totals;

/// Gives a plan to both and compares: the two jobs, or nothing where both refuse it alike. In one of four cases the plan takes the place of
/// a used job.
pub fn accept(
    random: &mut Random,
    plan: &[u8],
    totals: &mut Totals,
) -> Result<Option<Pair>, Difference> {
    let reference = Reference::accept(plan);
    let proved = if random.chance(64) {
        replaced(random, plan, totals)?
    } else {
        Proved::accept(plan)
    };
    answered(plan, proved, reference, totals)
}

/// Compares two answers to a plan.
pub fn answered(
    plan: &[u8],
    proved: Result<Proved, jirvaldo::Refusal>,
    reference: Result<Reference, reference::Refusal>,
    totals: &mut Totals,
) -> Result<Option<Pair>, Difference> {
    let (number, other) = (proved_number(&proved), reference_number(&reference));
    totals.count_refusal(number);
    match (proved, reference) {
        (Ok(proved), Ok(reference)) => fresh(Pair::new(proved, reference), totals).map(Some),
        (Err(_), Err(_)) if number == other => Ok(None),
        (proved, reference) => {
            let detail = format!("plan {plan:02x?}: proved {number}, reference {other}");
            let (proved, reference) = (proved.ok(), reference.ok());
            Err(Difference::new(
                "acceptance",
                detail,
                proved.as_ref(),
                reference.as_ref(),
            ))
        }
    }
}

/// Compares the plans and the states of two fresh jobs.
pub fn fresh(pair: Pair, totals: &mut Totals) -> Result<Pair, Difference> {
    if let Some(part) = compare::plans(&pair.proved, &pair.reference) {
        return Err(pair.difference(part, "the accepted plan".into()));
    }
    totals.count_plan(pair.reference.plan());
    pair.compare(totals)?;
    Ok(pair)
}

/// The plan takes the place of a job of another plan, after some calls; refused, that job has to be as it was.
fn replaced(
    random: &mut Random,
    plan: &[u8],
    totals: &mut Totals,
) -> Result<Result<Proved, jirvaldo::Refusal>, Difference> {
    let old = inputs::sound(random).bytes();
    let (mut proved, reference) = match (Proved::accept(&old), Reference::accept(&old)) {
        (Ok(proved), Ok(reference)) => (proved, reference),
        _ => {
            return Err(Difference::new(
                "a sound plan is refused",
                format!("{old:02x?}"),
                None,
                None,
            ))
        }
    };
    let log = inputs::short_log(random, &reference);
    let _ = proved.run_log(&log);
    if random.chance(128) {
        let _ = proved.offer(random.next_u64() % (proved.desire() + 1));
    }
    let before = State::of(&proved);
    let replaced = proved.replace(plan);
    totals.count_replacement(before.offer.is_some(), replaced.is_ok());
    match replaced {
        Ok(()) => Ok(Ok(proved)),
        Err(refusal) if State::of(&proved) == before => Ok(Err(refusal)),
        Err(_) => {
            let detail = format!("plan {plan:02x?}; before {before:?}");
            Err(Difference::new(
                "job after a refused plan",
                detail,
                Some(&proved),
                None,
            ))
        }
    }
}
