//! Explanations of reliances, for every pair of routers of random plans.

use crate::{Outcome, SEED};
use second_checker::harness::faults::explain_misreadings::{ExplainMisreading, EXPLAIN_MISREADINGS};
use second_checker::harness::plans::generate;
use second_checker::harness::random::Random;
use second_checker::interface::{ExplainFields, Explained, Reason};
use second_checker::oracle::plan;
use second_checker::oracle::rules::{Case, Right, Rules, REASONS};
use second_checker::oracle::verdict;
use std::collections::BTreeSet;

const PLANS: u64 = 1000;

/// The pairs explained on random plans, and the rules and the reasons given, each at
/// its number.
#[derive(Default)]
struct ExplainedPairs {
    rules: [u64; 5],
    reasons: [u64; 10],
    /// The reason given together with a later one that applies too.
    together: BTreeSet<(u8, u8)>,
}

/// On random plans a reason applies exactly where there is no reliance.
fn explained_pairs() -> Result<ExplainedPairs, String> {
    let mut random = Random::new(SEED);
    let mut counts = ExplainedPairs::default();
    for number in 0..PLANS {
        let draft = generate::sound(&mut random);
        let plan = plan::read(&draft.bytes()).map_err(|refusal| format!("plan {number} refused with {refusal}"))?;
        let list = &plan.lists[random.below(plan.lists.len())];
        let case = Case { plan: &plan, listed: &list.listed };
        pairs_explained(case, &mut counts).map_err(|fault| format!("plan {number}: {fault}"))?;
    }
    Ok(counts)
}

#[test]
fn a_reason_applies_exactly_where_there_is_no_reliance() -> Outcome {
    explained_pairs().map(|_| ())
}

#[test]
fn each_rule_and_each_reason_but_the_fifth_occurs() -> Outcome {
    let ExplainedPairs { rules, reasons, .. } = explained_pairs()?;
    let rules_occur = (1..5).all(|rule| rules[rule] > 0);
    let reasons_occur = (1..10).all(|reason| (reasons[reason] > 0) == (reason != 5));
    (rules_occur && reasons_occur).then_some(()).ok_or(format!("rules {rules:?}, reasons {reasons:?}"))
}

#[test]
fn every_two_reasons_that_apply_at_once_are_misread_in_the_wrong_order() -> Outcome {
    let together = explained_pairs()?.together;
    let misread = EXPLAIN_MISREADINGS.iter().filter_map(|misreading| match *misreading {
        ExplainMisreading::Before(later, first) => Some((first as u8, later as u8)),
        _ => None,
    });
    (together == misread.collect()).then_some(()).ok_or(format!("{together:?}"))
}

fn pairs_explained(case: Case, counts: &mut ExplainedPairs) -> Outcome {
    for (router, relied_on) in verdict::reliances(&Right, case) {
        for other in 0..case.plan.n {
            let explained = Right.explanation(case, router, other);
            let applying: Vec<Reason> =
                REASONS.into_iter().filter(|&reason| Right.applies(reason, case, router, other)).collect();
            let fits = match (explained, applying.split_first()) {
                (Explained::Yes(_), None) => relied_on.contains(&other),
                (Explained::No(reason), Some((&first, _))) => reason == first && !relied_on.contains(&other),
                _ => false,
            };
            if !fits {
                return Err(format!("{router} on {other}: {explained:?}, applying {applying:?}"));
            }
            counts.count(explained, &applying);
        }
    }
    Ok(())
}

impl ExplainedPairs {
    fn count(&mut self, explained: Explained, applying: &[Reason]) {
        let mut fields = ExplainFields::new([0; 3], [0; 2], 0);
        fields.put(explained);
        let code = fields.code.value;
        match explained {
            Explained::Yes(_) => self.rules[usize::from(code)] += 1,
            Explained::No(_) => self.reasons[usize::from(code)] += 1,
        }
        self.together.extend(applying.iter().skip(1).map(|&later| (code, later as u8)));
    }
}
