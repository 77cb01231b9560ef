//! Plans turned into those of the other mark, on random plans.

use crate::{Outcome, SEED};
use second_checker::harness::plans::draft::Draft;
use second_checker::harness::plans::generate;
use second_checker::harness::random::Random;
use second_checker::interface::{Checker, Lent};
use second_checker::oracle::mark::Mark;
use second_checker::oracle::{plan, verdict_lines, Oracle};

const PLANS: u64 = 5000;

/// What a plan is converted to by the call for its mark, or the refusal.
fn converted(plan: &[u8]) -> Result<Vec<u8>, u8> {
    let (mut out, mut length) = (vec![0; 2 * plan.len()], Lent::new(0));
    let refusal = match Mark::of(plan) {
        Some(Mark::Rrp1) => Oracle::right().widen(plan, &mut out, &mut length),
        _ => Oracle::right().narrow(plan, &mut out, &mut length),
    };
    out.truncate(length.value as usize);
    (refusal == 0).then_some(out).ok_or(refusal)
}

/// Random plans of both marks, each with what it is converted to.
fn on_each_plan(mut holds: impl FnMut(&Draft, Result<Vec<u8>, u8>) -> bool) -> Outcome {
    let mut random = Random::new(SEED);
    for number in 0..PLANS {
        let draft = generate::sound(&mut random);
        let result = converted(&draft.bytes());
        if !holds(&draft, result.clone()) {
            return Err(format!("plan {number}, {:?}, converted: {result:?}", draft.mark));
        }
    }
    Ok(())
}

#[test]
fn a_plan_is_converted_to_the_one_that_says_the_same() -> Outcome {
    on_each_plan(|draft, result| match result {
        Ok(result) => result == draft.clone().marked(draft.mark.other()).bytes(),
        Err(_) => true,
    })
}

#[test]
fn a_plan_is_refused_exactly_if_a_distance_is_too_far_to_narrow() -> Outcome {
    let (mut widened, mut narrowed, mut refused) = (0, 0, 0);
    on_each_plan(|draft, result| {
        let too_far = plan::read(&draft.bytes()).is_ok_and(|plan| plan.has_distances_past(Mark::Rrp1));
        widened += u64::from(draft.mark == Mark::Rrp1);
        narrowed += u64::from(draft.mark == Mark::Rrp2 && result.is_ok());
        refused += u64::from(result.is_err());
        result.err() == too_far.then_some(14)
    })?;
    let counts = [widened, narrowed, refused];
    let enough = counts.iter().all(|&count| count >= 500);
    enough.then_some(()).ok_or(format!("widened, narrowed and refused: {counts:?}"))
}

#[test]
fn what_a_plan_is_converted_to_has_its_verdicts_and_goes_back_to_its_bytes() -> Outcome {
    on_each_plan(|draft, result| match result {
        Ok(result) => {
            let plan = draft.bytes();
            verdict_lines(&result) == verdict_lines(&plan) && converted(&result) == Ok(plan)
        }
        Err(_) => true,
    })
}
