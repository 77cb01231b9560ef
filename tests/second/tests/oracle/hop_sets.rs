//! The sets to give the hop step on random plans, over all sets of reflectors wherever these are:
//! which serve, which is the smallest, and that some set always does.

use crate::{Outcome, SEED};
use second_checker::harness::plans::{generate, groups};
use second_checker::harness::random::Random;
use second_checker::oracle::hop_set::{cycle, hop_set, named, with_step};
use second_checker::oracle::plan::{self, Plan, Router};
use second_checker::oracle::rules::{Case, Right};
use second_checker::oracle::steady::MOST_GROUPED;
use second_checker::oracle::verdict;
use std::collections::BTreeSet;

const PLANS: u64 = 700;

/// So many reflectors are few: every set of them is tried.
const FEW: usize = 6;

/// Every suspect list of random plans, half of which are drawn with groups.
fn on_each_suspect_list(plans: u64, mut holds: impl FnMut(&[u8], &Plan, usize, Vec<Router>) -> Outcome) -> Outcome {
    let mut random = Random::new(SEED);
    for number in 0..plans {
        let draft = if number % 2 == 0 { groups::grouped(&mut random) } else { generate::sound(&mut random) };
        let bytes = draft.bytes();
        let plan = plan::read(&bytes).map_err(|refusal| format!("plan {number} refused with {refusal}"))?;
        for list in 0..plan.lists.len() {
            let grouped = verdict::grouped(&Right, Case { plan: &plan, listed: &plan.lists[list].listed });
            if !grouped.is_empty() {
                holds(&bytes, &plan, list, grouped).map_err(|fault| format!("plan {number} list {list}: {fault}"))?;
            }
        }
    }
    Ok(())
}

fn serves(bytes: &[u8], list: usize, routers: impl IntoIterator<Item = Router>) -> bool {
    cycle(&Right, &with_step(bytes, routers), list).is_none()
}

#[test]
fn no_smaller_set_of_reflectors_anywhere_serves_and_no_lower_number_of_its_size() -> Outcome {
    let mut sizes = [0; FEW + 1];
    on_each_suspect_list(PLANS, |bytes, plan, list, grouped| {
        let reflectors: Vec<Router> = plan.reflectors.iter().copied().collect();
        if reflectors.len() > FEW {
            return Ok(());
        }
        let number = hop_set(&Right, bytes, list).map_err(|refusal| format!("refused with {refusal}"))?;
        let sets = (0..1u64 << reflectors.len()).map(|set| named(set, &reflectors).collect::<BTreeSet<Router>>());
        let serving: Vec<BTreeSet<Router>> = sets.filter(|set| serves(bytes, list, set.iter().copied())).collect();
        let size = serving.iter().map(BTreeSet::len).min().ok_or("no set serves")?;
        let smallest = serving.iter().filter(|set| set.len() == size);
        // Each of the smallest is drawn from the groups.
        let bit = |router: &Router| grouped.iter().position(|other| other == router).map(|bit| 1 << bit);
        let numbers: Option<Vec<u64>> = smallest.map(|set| set.iter().map(bit).sum()).collect();
        sizes[size] += 1;
        let least = numbers.ok_or("a smallest set has a router outside the groups")?.into_iter().min();
        (least == Some(number)).then_some(()).ok_or(format!("{number}, not {least:?}"))
    })?;
    (sizes[1..4].iter().all(|&lists| lists >= 10)).then_some(()).ok_or(format!("lists by size: {sizes:?}"))
}

#[test]
fn every_set_that_serves_has_a_router_of_each_group_and_all_of_them_together_serve() -> Outcome {
    let mut several = 0;
    on_each_suspect_list(PLANS, |bytes, plan, list, grouped| {
        if !serves(bytes, list, grouped.iter().copied()) {
            return Err(format!("{grouped:?} do not serve"));
        }
        if grouped.len() > MOST_GROUPED {
            let refusal = hop_set(&Right, bytes, list);
            return (refusal == Err(15)).then_some(()).ok_or(format!("{refusal:?}"));
        }
        let number = hop_set(&Right, bytes, list).map_err(|refusal| format!("refused with {refusal}"))?;
        let set: Vec<Router> = named(number, &grouped).collect();
        let labels = verdict::verdict(&Right, Case { plan, listed: &plan.lists[list].listed }).labels;
        let of = |routers: &[Router]| routers.iter().map(|&router| labels[router]).collect::<BTreeSet<Router>>();
        several += u64::from(of(&grouped).len() > 1);
        let fits = serves(bytes, list, set.iter().copied()) && of(&set) == of(&grouped);
        fits.then_some(()).ok_or(format!("{set:?} of {grouped:?}"))
    })?;
    (several >= 100).then_some(()).ok_or(format!("only {several} lists with several groups"))
}
