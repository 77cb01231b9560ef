//! Groups, ranks, cycles and settled tables on random plans, each by its own words.

use crate::{Outcome, SEED};
use second_checker::harness::comparison::arguments;
use second_checker::harness::plans::generate;
use second_checker::harness::random::Random;
use second_checker::oracle::plan::{self, Plan, Router};
use second_checker::oracle::rules::{Case, Right, Rules, Table};
use second_checker::oracle::tables::{self, Rounds};
use second_checker::oracle::verdict::{self, Ranks, Reliances};
use std::collections::BTreeSet;

const PLANS: u64 = 20_000;

/// Every list of the random plans.
fn on_each_list(mut holds: impl FnMut(&mut Random, Case) -> Outcome) -> Outcome {
    let mut random = Random::new(SEED);
    for number in 0..PLANS {
        let bytes = generate::sound(&mut random).bytes();
        let plan = plan::read(&bytes).map_err(|refusal| format!("plan {number} refused with {refusal}"))?;
        for list in &plan.lists {
            let case = Case { plan: &plan, listed: &list.listed };
            holds(&mut random, case).map_err(|fault| format!("plan {number}: {fault}"))?;
        }
    }
    Ok(())
}

#[test]
fn routers_share_a_label_exactly_if_they_reach_each_other() -> Outcome {
    on_each_list(|_, case| labels_fit(&verdict::reliances(&Right, case), &verdict::verdict(&Right, case).labels))
}

#[test]
fn a_suspect_list_has_a_cycle_of_reliances() -> Outcome {
    let mut suspect = 0;
    on_each_list(|_, case| match verdict::verdict(&Right, case).outcome {
        verdict::Outcome::Suspect { cycle } => {
            suspect += 1;
            cycle_fits(&verdict::reliances(&Right, case), &cycle)
        }
        verdict::Outcome::Stable { .. } => Ok(()),
    })?;
    some("suspect lists", suspect)
}

#[test]
fn a_rank_is_0_or_one_more_than_the_highest_relied_on() -> Outcome {
    let mut stable = 0;
    on_each_list(|_, case| match verdict::verdict(&Right, case).outcome {
        verdict::Outcome::Suspect { .. } => Ok(()),
        verdict::Outcome::Stable { ranks, .. } => {
            stable += 1;
            ranks_fit(&verdict::reliances(&Right, case), &ranks)
        }
    })?;
    some("stable lists", stable)
}

/// .. on plans with cuts, with role 3 and with the hop step too, of which some settle
/// otherwise for it.
#[test]
fn a_stable_list_settles_from_any_table_within_its_highest_rank_and_two_rounds() -> Outcome {
    let (mut with_cuts, mut with_skips, mut changed_by_skips) = (0, 0, 0);
    let (mut with_steps, mut changed_by_steps) = (0, 0);
    on_each_list(|random, case| match verdict::verdict(&Right, case).outcome {
        verdict::Outcome::Suspect { .. } => Ok(()),
        verdict::Outcome::Stable { ranks, table } => {
            with_cuts += u64::from(case.plan.has_cuts());
            with_skips += u64::from(!case.plan.skipping.is_empty());
            changed_by_skips += u64::from(table != settled_without(case, |plan| plan.skipping.clear()));
            with_steps += u64::from(!case.plan.stepping.is_empty());
            changed_by_steps += u64::from(table != settled_without(case, |plan| plan.stepping.clear()));
            let (settled, highest) = (tables::bytes(&table, case.plan.n), verdict::highest(&ranks));
            settles(random, case, &settled, highest)?;
            settles(random, case, &settled, highest)
        }
    })?;
    some("stable lists with cuts", with_cuts)?;
    some("stable lists with role 3", with_skips)?;
    some("stable lists that role 3 lets settle otherwise", changed_by_skips)?;
    some("stable lists with the hop step", with_steps)?;
    some("stable lists that the hop step lets settle otherwise", changed_by_steps)
}

/// At least a thousand of these were among the lists.
fn some(what: &str, count: u64) -> Outcome {
    if count < 1000 {
        return Err(format!("only {count} {what}"));
    }
    Ok(())
}

/// What rounds of activations leave if some roles are taken for others.
fn settled_without(case: Case, clear: impl Fn(&mut Plan)) -> Table {
    let mut plan = case.plan.clone();
    clear(&mut plan);
    tables::settle(&Right, Case { plan: &plan, ..case })
}

fn reached(reliances: &Reliances, from: Router) -> BTreeSet<Router> {
    let mut reached = BTreeSet::new();
    let mut waiting: Vec<Router> = reliances[&from].iter().copied().collect();
    while let Some(router) = waiting.pop() {
        if reached.insert(router) {
            waiting.extend(&reliances[&router]);
        }
    }
    reached
}

/// Two routers share a label exactly if they are one or reach each other.
fn labels_fit(reliances: &Reliances, labels: &[Router]) -> Outcome {
    let reached: Vec<BTreeSet<Router>> = reliances.keys().map(|&router| reached(reliances, router)).collect();
    let together = |one: Router, other: Router| reached[one].contains(&other) && reached[other].contains(&one);
    for (router, &label) in labels.iter().enumerate() {
        let lowest = (0..router).find(|&other| together(router, other)).unwrap_or(router);
        if label != lowest {
            return Err(format!("label of {router} is {label}, not {lowest}"));
        }
    }
    Ok(())
}

fn cycle_fits(reliances: &Reliances, cycle: &[Router]) -> Outcome {
    let next = cycle.iter().cycle().skip(1);
    let closed = cycle.iter().zip(next).all(|(router, next)| reliances[router].contains(next));
    let simple = cycle.iter().collect::<BTreeSet<_>>().len() == cycle.len();
    (closed && simple && cycle.len() > 1).then_some(()).ok_or(format!("no cycle: {cycle:?}"))
}

/// The rank by its own words: 0, or one more than the highest relied on.
fn ranks_fit(reliances: &Reliances, ranks: &Ranks) -> Outcome {
    let due = |router: &Router| reliances[router].iter().map(|other| ranks[other] + 1).max().unwrap_or(0);
    let sound = ranks.len() == reliances.len() && ranks.iter().all(|(router, &rank)| rank == due(router));
    sound.then_some(()).ok_or(format!("ranks {ranks:?}"))
}

/// From any table the routers settle within the highest rank plus two rounds;
/// on the way, a table other than the settled one has an act that changes it.
fn settles(random: &mut Random, case: Case, settled: &[u8], highest: u64) -> Outcome {
    let n = case.plan.n;
    let start = arguments::table(random, case);
    let mut table = tables::read(case, &start).ok_or("a sound table was refused")?;
    let mut rounds = Rounds::new(n);
    let drawn = random.chance(30);
    let mut order: Vec<Router> = (0..n).collect();
    while rounds.whole < highest + 2 {
        random.shuffle(&mut order);
        let still = (0..n).all(|router| Right.activation(case, &table, router) == table.get(&router).copied());
        if still != (tables::bytes(&table, n) == settled) {
            return Err(format!("another table that no act changes, or a settled one that moves: {table:?}"));
        }
        for &router in &order {
            let router = if drawn { random.below(n) } else { router };
            tables::activate(&Right, case, &mut table, router);
            rounds.count(router);
        }
    }
    let found = tables::bytes(&table, n);
    (found == settled).then_some(()).ok_or(format!("from {start:?} to {found:?}, settled {settled:?}"))
}
