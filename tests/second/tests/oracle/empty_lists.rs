//! Empty lists on random plans: what is stated of them by roles and sessions, held against
//! the rules of all lists.

use crate::{Outcome, SEED};
use second_checker::harness::comparison::{arguments, empty_lists};
use second_checker::harness::plans::draft::Bodies;
use second_checker::harness::plans::generate;
use second_checker::harness::random::Random;
use second_checker::interface::{Explained, Rule};
use second_checker::oracle::plan::{self, Listed, Plan, Router};
use second_checker::oracle::rules::{Case, Right, Rules};
use second_checker::oracle::{tables, verdict};

const PLANS: u64 = 10_000;

fn on_each_plan(mut holds: impl FnMut(&mut Random, &[u8], &Plan) -> Outcome) -> Outcome {
    let mut random = Random::new(SEED);
    for number in 0..PLANS {
        let bytes = generate::sound(&mut random).bytes();
        let plan = plan::read(&bytes).map_err(|refusal| format!("plan {number} refused with {refusal}"))?;
        holds(&mut random, &bytes, &plan).map_err(|fault| format!("plan {number}: {fault}"))?;
    }
    Ok(())
}

/// Each plan with a list that names nobody, whether it has one or not.
fn with_nobody_listed(mut holds: impl FnMut(&mut Random, Case) -> Outcome) -> Outcome {
    on_each_plan(|random, _, plan| holds(random, Case { plan, listed: &Listed::new() }))
}

fn each_router(case: Case, mut fits: impl FnMut(Router) -> bool) -> Outcome {
    let unfit = (0..case.plan.n).find(|&router| !fits(router));
    unfit.map_or(Ok(()), |router| Err(format!("not so at router {router}")))
}

#[test]
fn each_list_starts_after_its_count_which_follows_the_list_before() -> Outcome {
    let mut empty = [0; 2];
    on_each_plan(|_, bytes, plan| {
        let body_start = bytes.len() - Bodies::of(bytes).lists.len();
        let mut count = body_start + 1;
        for list in &plan.lists {
            if (list.start, list.listed.len()) != (count + 1, bytes[count].into()) {
                return Err(format!("list at {} and not at {}", list.start, count + 1));
            }
            count = list.start + list.listed.len();
            empty[usize::from(list.start == bytes.len())] += u64::from(list.listed.is_empty());
        }
        (count == bytes.len()).then_some(()).ok_or(format!("the lists end at {count}"))
    })?;
    enough("empty lists before others, and last", empty)
}

fn enough(what: &str, counts: [u64; 2]) -> Outcome {
    counts.iter().all(|&count| count >= 500).then_some(()).ok_or(format!("{what}: {counts:?}"))
}

#[test]
fn nobody_offers_anything() -> Outcome {
    with_nobody_listed(|_, case| {
        each_router(case, |router| {
            Right.best_client(case, router).is_none() && Right.offer(case, router, router).is_none()
        })
    })
}

#[test]
fn a_client_relies_on_its_parents_and_no_other_router_relies_on_any() -> Outcome {
    with_nobody_listed(|_, case| {
        each_router(case, |router| {
            let stated = |other: Router| empty_lists::explanation(case.plan, (router, other));
            let relied_on = (0..case.plan.n).filter(|&other| stated(other) == Explained::Yes(Rule::Parent));
            Right.relied_on(case, router) == relied_on.collect()
                && (0..case.plan.n).all(|other| Right.explanation(case, router, other) == stated(other))
        })
    })
}

#[test]
fn every_router_ends_with_nothing_by_rank_0_or_as_a_client_with_a_parent_1() -> Outcome {
    let mut highest = [0; 2];
    with_nobody_listed(|_, case| match verdict::verdict(&Right, case).outcome {
        verdict::Outcome::Suspect { cycle } => Err(format!("suspect: {cycle:?}")),
        verdict::Outcome::Stable { ranks, table } => {
            let stated = empty_lists::ranks(case.plan);
            highest[verdict::highest(&ranks) as usize] += 1;
            let fits = table.is_empty() && ranks.values().copied().eq(stated.iter().copied().map(usize::from));
            fits.then_some(()).ok_or(format!("ranks {ranks:?}, table {table:?}"))
        }
    })?;
    enough("highest rank 0 and 1", highest)
}

/// .. and where three are promised, two may leave some.
#[test]
fn left_over_routes_are_flushed_within_two_rounds_or_three() -> Outcome {
    let mut left_by_two = 0;
    with_nobody_listed(|random, case| {
        let start = arguments::table(random, case);
        let mut table = tables::read(case, &start).ok_or("a sound table was refused")?;
        let mut order: Vec<Router> = (0..case.plan.n).collect();
        for round in 0..empty_lists::promise(case.plan).rounds {
            left_by_two += u64::from(round == 2 && !table.is_empty());
            random.shuffle(&mut order);
            tables::run(&Right, case, &mut table, &order);
        }
        table.is_empty().then_some(()).ok_or(format!("from {start:?} to {table:?}"))
    })?;
    (left_by_two > 0).then_some(()).ok_or("two rounds leave none".to_string())
}
