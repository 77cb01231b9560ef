//! Reflectors with the hop step on random plans: what they choose by its own words, which
//! reliances the step takes away, and what follows for verdicts.

use crate::{Outcome, SEED};
use second_checker::harness::comparison::arguments;
use second_checker::harness::comparison::hop_step::HIGHEST_RANK;
use second_checker::harness::plans::generate;
use second_checker::harness::random::Random;
use second_checker::oracle::plan::{self, Plan, Router};
use second_checker::oracle::rules::{Case, Right, Route, Rules, Table};
use second_checker::oracle::{tables, verdict};
use std::collections::BTreeMap;

const PLANS: u64 = 5000;

/// Every list of the random plans, in which reflectors have the step as `step` says.
fn on_each_list(step: impl Fn(&mut Plan), mut holds: impl FnMut(&mut Random, Case) -> Outcome) -> Outcome {
    let mut random = Random::new(SEED);
    for number in 0..PLANS {
        let bytes = generate::sound(&mut random).bytes();
        let mut plan = plan::read(&bytes).map_err(|refusal| format!("plan {number} refused with {refusal}"))?;
        step(&mut plan);
        for list in &plan.lists {
            let case = Case { plan: &plan, listed: &list.listed };
            holds(&mut random, case).map_err(|fault| format!("plan {number}: {fault}"))?;
        }
    }
    Ok(())
}

fn as_drawn(_: &mut Plan) {}

fn all_step(plan: &mut Plan) {
    plan.stepping.clone_from(&plan.reflectors);
}

/// What a router hears from its neighbours.
fn heard(case: Case, table: &Table, at: Router) -> Vec<Route> {
    let neighbours = case.plan.neighbours[at].iter();
    let sent = neighbours
        .filter_map(|&sender| Right.advertised(case, table, sender, at).map(|egress| Route { egress, sender }));
    sent.filter(|route| case.plan.has_way(at, route.egress)).collect()
}

/// The egress router of the least hops, distance and number. A route has a hop more at a router
/// with the step if its own egress router does not tell it.
fn least(case: Case, at: Router, heard: &[Route]) -> Option<Router> {
    let is_told = |egress: Router| heard.contains(&Route { egress, sender: egress });
    let hops = |egress: Router| usize::from(case.plan.steps(at) && !is_told(egress));
    let keys = heard.iter().map(|route| (hops(route.egress), case.plan.distances[at][route.egress], route.egress));
    keys.min().map(|(_, _, egress)| egress)
}

/// .. on tables with left-over routes, some of unlisted routers to themselves.
#[test]
fn a_router_chooses_the_route_of_the_least_hops_distance_and_number() -> Outcome {
    let mut counts = BTreeMap::from([("by the step", 0), ("told by an unlisted router", 0), ("heard both ways", 0)]);
    on_each_list(as_drawn, |random, case| {
        let table = tables::read(case, &arguments::table(random, case)).ok_or("a sound table was refused")?;
        for router in (0..case.plan.n).filter(|router| !case.is_listed(*router)) {
            let heard = heard(case, &table, router);
            let chosen = Right.activation(case, &table, router).map(|route| route.egress);
            let due = least(case, router, &heard);
            if chosen != due {
                return Err(format!("{router} chooses {chosen:?} of {heard:?}, not {due:?}"));
            }
            count(case, router, &heard, chosen, &mut counts);
        }
        Ok(())
    })?;
    let few = counts.into_iter().find(|(_, count)| *count < 100);
    few.map_or(Ok(()), |few| Err(format!("few: {few:?}")))
}

/// Counts a choice at a reflector with the step.
fn count(case: Case, at: Router, heard: &[Route], chosen: Option<Router>, counts: &mut BTreeMap<&str, u64>) {
    let Some(chosen) = chosen.filter(|_| case.plan.steps(at)) else { return };
    let is_told = heard.contains(&Route { egress: chosen, sender: chosen });
    let nearest = heard.iter().map(|route| route.egress).min_by_key(|&egress| case.plan.place(at, egress));
    let mut add = |what: &str, is_so: bool| *counts.get_mut(what).expect("a count") += u64::from(is_so);
    add("by the step", nearest != Some(chosen));
    add("told by an unlisted router", is_told && !case.is_listed(chosen) && nearest != Some(chosen));
    let other_sender = heard.iter().any(|route| route.egress == chosen && route.sender != chosen);
    add("heard both ways", is_told && other_sender && nearest != Some(chosen));
}

/// It does so at unlisted reflectors with the step and a best client alone, and the reliances
/// left are on listed routers.
#[test]
fn the_step_takes_reliances_away_and_adds_none() -> Outcome {
    let mut taken = 0;
    on_each_list(as_drawn, |_, case| {
        let mut plan = case.plan.clone();
        plan.stepping.clear();
        let without = Case { plan: &plan, ..case };
        for router in 0..case.plan.n {
            let [with, without] = [case, without].map(|case| Right.relied_on(case, router));
            let may_differ = case.plan.steps(router) && Right.best_client(case, router).is_some();
            let fits = match may_differ {
                true => with.is_subset(&without) && with.is_subset(case.listed),
                false => with == without,
            };
            if !fits {
                return Err(format!("{router} relies on {with:?}, without the step on {without:?}"));
            }
            taken += without.len() - with.len();
        }
        Ok(())
    })?;
    (taken >= 1000).then_some(()).ok_or(format!("only {taken} are taken away"))
}

#[test]
fn no_cycle_contains_a_reflector_with_the_step() -> Outcome {
    let mut suspect = 0;
    on_each_list(as_drawn, |_, case| {
        let verdict = verdict::verdict(&Right, case);
        suspect +=
            u64::from(!case.plan.stepping.is_empty() && matches!(verdict.outcome, verdict::Outcome::Suspect { .. }));
        let shares =
            |router: Router| verdict.labels.iter().filter(|&&label| label == verdict.labels[router]).count() > 1;
        let sharing = case.plan.stepping.iter().find(|&&router| shares(router));
        sharing.map_or(Ok(()), |router| Err(format!("{router} shares a group")))
    })?;
    (suspect >= 200).then_some(()).ok_or(format!("only {suspect} suspect lists with the step"))
}

#[test]
fn if_all_reflectors_have_the_step_every_list_is_stable_with_rank_3_at_most() -> Outcome {
    let mut lists_of_rank = [0; HIGHEST_RANK as usize + 1];
    on_each_list(all_step, |_, case| match verdict::verdict(&Right, case).outcome {
        verdict::Outcome::Suspect { cycle } => Err(format!("suspect: {cycle:?}")),
        verdict::Outcome::Stable { ranks, .. } => {
            let highest = verdict::highest(&ranks) as usize;
            *lists_of_rank.get_mut(highest).ok_or(format!("rank {highest}"))? += 1;
            Ok(())
        }
    })?;
    let enough = lists_of_rank.iter().all(|&lists| lists >= 100);
    enough.then_some(()).ok_or(format!("lists of each highest rank: {lists_of_rank:?}"))
}
