//! What document 02 states of reflectors with the hop step, on small plans.

use super::{answer, same};
use crate::Outcome;
use second_checker::harness::comparison::call::{perform, Call, Field};
use second_checker::harness::plans::draft::{Draft, NO_WAY};
use second_checker::harness::plans::small_plans::{draft, two_sites, with_cuts};
use second_checker::interface::Handed;
use second_checker::oracle::{margin_line, verdict_lines, Oracle};

const NOTHING: u8 = 255;

/// M3's plan with this list and these roles of its reflectors.
fn m3([of_0, of_1]: [u8; 2], list: &[usize]) -> Draft {
    Draft { roles: vec![of_0, of_1, 2, 2], ..draft(6, 6, &[list]) }
}

fn told(egress: usize) -> Handed {
    Handed::told(egress)
}

fn passed_on(egress: usize) -> Handed {
    Handed::passed_on(egress)
}

/// Which of two routes is better at a router, and the margin if there is one.
fn compares(draft: &Draft, router: usize, routes: [Handed; 2], better: Field, margin: Option<Field>) -> Outcome {
    let answer = answer(draft, &Call::Compare { router, routes });
    let fields = vec![better, Field::from(margin.is_some()), margin.unwrap_or(0)];
    same(&format!("{routes:?} at {router} of {:?}", draft.roles), (answer.refusal, answer.fields), (0, fields))
}

/// At router 0 there are 10 to 2 and 6 to 3.
#[test]
fn a_route_told_by_its_own_egress_beats_a_nearer_one_passed_on() -> Outcome {
    for role in [4, 5] {
        let plan = m3([role, 1], &[2, 3]);
        compares(&plan, 0, [told(2), passed_on(3)], 1, Some(4))?;
        compares(&plan, 0, [passed_on(3), told(2)], 2, Some(-4))?;
        // Only then distance and number count.
        for flags in [told, passed_on] {
            compares(&plan, 0, [flags(2), flags(3)], 2, Some(4))?;
            compares(&plan, 0, [flags(3), flags(2)], 1, Some(-4))?;
        }
        compares(&plan, 0, [passed_on(2), told(3)], 2, Some(4))?;
    }
    Ok(())
}

/// The same at roles 1 and 3, at a client, and at a reflector beside one with the step.
#[test]
fn at_every_other_router_nothing_changes() -> Outcome {
    for role in [1, 3] {
        compares(&m3([role, 4], &[2, 3]), 0, [told(2), passed_on(3)], 2, Some(4))?;
    }
    let mut of_client = m3([4, 5], &[2, 3]);
    of_client.distances[2] = vec![30, 20, 0, 30];
    compares(&of_client, 2, [told(0), passed_on(1)], 2, Some(10))
}

#[test]
fn a_flag_counts_as_yes_if_it_is_not_0() -> Outcome {
    let plan = m3([4, 1], &[2, 3]);
    (1..=255).try_for_each(|direct| {
        compares(&plan, 0, [Handed { egress: 2, direct }, passed_on(3)], 1, Some(4))?;
        compares(&plan, 0, [passed_on(3), Handed { egress: 2, direct }], 2, Some(-4))?;
        compares(&plan, 0, [Handed { egress: 2, direct }, told(3)], 2, Some(4))
    })
}

#[test]
fn a_way_still_beats_none() -> Outcome {
    let roles = vec![4, 1, 2, 2];
    let one = Draft { roles: roles.clone(), ..with_cuts(&[2, 3], &[(0, 2)]) };
    compares(&one, 0, [told(2), passed_on(3)], 2, None)?;
    compares(&one, 0, [passed_on(3), told(2)], 1, None)?;
    compares(&one, 0, [passed_on(2), told(3)], 2, None)?;
    let both = Draft { roles, ..with_cuts(&[2, 3], &[(0, 2), (0, 3)]) };
    compares(&both, 0, [told(2), passed_on(3)], 0, None)?;
    compares(&both, 0, [passed_on(2), told(3)], 0, None)
}

#[test]
fn two_routes_of_one_egress_are_still_the_same() -> Outcome {
    let plan = m3([4, 1], &[2, 3]);
    for routes in [[told(3), passed_on(3)], [passed_on(3), told(3)], [told(3), told(3)]] {
        compares(&plan, 0, routes, 0, Some(0))?;
    }
    let cut = Draft { roles: vec![5, 1, 2, 2], ..with_cuts(&[2, 3], &[(0, 3)]) };
    compares(&cut, 0, [told(3), passed_on(3)], 0, None)
}

/// With equal distances the margin is zero, and the number or the step decides.
#[test]
fn a_zero_may_also_mean_that_the_step_decided() -> Outcome {
    let tie = Draft { roles: vec![4, 1, 2, 2], ..draft(10, 10, &[&[2, 3]]) };
    compares(&tie, 0, [told(2), told(3)], 1, Some(0))?;
    compares(&tie, 0, [passed_on(2), told(3)], 2, Some(0))?;
    compares(&tie, 0, [told(3), passed_on(2)], 1, Some(0))?;
    compares(&tie, 0, [passed_on(3), passed_on(2)], 2, Some(0))?;
    // The margin program is not told of flags.
    let line = |asked: [u8; 3], plan: &Draft| margin_line(&[&asked[..], &plan.bytes()].concat());
    same("the margin program", line([0, 3, 2], &m3([4, 1], &[2, 3])), "-4\n".to_string())?;
    same("the margin program, a tie", line([0, 3, 2], &tie), "0\n".to_string())
}

#[test]
fn the_farthest_and_the_least_margin_are_as_before() -> Outcome {
    let mut far = m3([4, 1], &[2, 3]);
    (far.distances[0][2], far.distances[0][3]) = (65_534, 0);
    compares(&far, 0, [told(2), passed_on(3)], 1, Some(65_534))?;
    compares(&far, 0, [passed_on(3), told(2)], 2, Some(-65_534))
}

/// The table after an activation of a router.
fn activated(what: &str, draft: &Draft, router: usize, table: &[u8], entry: [u8; 2]) -> Outcome {
    let found = answer(draft, &Call::Activate { list: 0, router, table: table.to_vec() });
    let held = found.buffers[0][2 * router..][..2].to_vec();
    same(&format!("{what}, roles {:?}", draft.roles), (found.refusal, held), (0, entry.to_vec()))
}

/// Router 0 hears 2 from 2, at 10, and 3 from 1, at 6.
#[test]
fn a_reflector_with_the_step_holds_what_its_egress_told_it() -> Outcome {
    let table = [NOTHING, NOTHING, 3, 3, 2, 2, 3, 3];
    for (role, entry) in [(4, [2, 2]), (5, [2, 2]), (1, [3, 1]), (3, [3, 1])] {
        activated("told and passed on", &m3([role, 1], &[2, 3]), 0, &table, entry)?;
    }
    // What is passed on is held where nothing is told, or nothing with a way.
    activated("passed on alone", &m3([4, 1], &[3]), 0, &[NOTHING, NOTHING, 3, 3, NOTHING, NOTHING, 3, 3], [3, 1])?;
    let mut cut = m3([4, 1], &[2, 3]);
    cut.distances[0][2] = NO_WAY;
    activated("no way to what is told", &cut, 0, &table, [3, 1])
}

/// A listed reflector tells its own route too: router 0 takes 1 from 1, at 30, before 3 from
/// a third reflector, at 6.
#[test]
fn told_by_its_own_egress_is_a_route_of_a_reflector_too() -> Outcome {
    let third = |role: u8| {
        let mut plan = m3([role, 1], &[1, 3]);
        plan.roles[2] = 1;
        plan.sessions.insert((2, 3));
        plan
    };
    let table = [NOTHING, NOTHING, 1, 1, 3, 3, 3, 3];
    activated("a listed reflector", &third(4), 0, &table, [1, 1])?;
    activated("a listed reflector", &third(1), 0, &table, [3, 2])
}

/// Client 2 hears 0 from its parent 0 itself, at 30, and 5, passed on by its parent 1, at 7.
#[test]
fn clients_have_no_step() -> Outcome {
    let mut plan = two_sites([4, 4], &[&[0, 5]]);
    plan.sessions.insert((1, 2));
    plan.distances[2][5] = 7;
    let table = [0, 0, 5, 5, NOTHING, NOTHING, NOTHING, NOTHING, NOTHING, NOTHING, 5, 5];
    activated("a client", &plan, 2, &table, [5, 1])
}

/// Client 2 of routers 0 and 1 is heard from itself and from 1; client 3, nearer, from router 4,
/// a third reflector.
#[test]
fn an_egress_heard_both_ways_counts_as_told() -> Outcome {
    let shared = |role: u8| {
        let mut plan = m3([role, 1], &[2, 3]);
        plan.roles.push(1);
        plan.identifiers.push(50);
        plan.sessions.extend([(1, 2), (0, 4), (3, 4)]);
        plan.distances.iter_mut().for_each(|row| row.push(30));
        plan.distances.push(vec![30, 30, 30, 30, 0]);
        plan
    };
    let table = [NOTHING, NOTHING, 2, 2, 2, 2, 3, 3, 3, 3];
    activated("heard both ways", &shared(4), 0, &table, [2, 2])?;
    activated("heard both ways", &shared(1), 0, &table, [3, 4])
}

/// Router 1 is not listed, and by a left-over entry tells router 0 a route to itself, at 30.
/// Router 2, a third reflector, passes 3 on, at 6. Or it is router 2 that passes 1 on.
#[test]
fn a_left_over_entry_may_tell_a_route_to_an_unlisted_router_itself() -> Outcome {
    let plan = |role: u8| {
        let mut plan = m3([role, 1], &[3]);
        plan.roles[2] = 1;
        plan.sessions.insert((2, 3));
        plan
    };
    let table = [NOTHING, NOTHING, 1, 3, 3, 3, 3, 3];
    activated("a left-over route", &plan(4), 0, &table, [1, 1])?;
    activated("a left-over route", &plan(1), 0, &table, [3, 2])?;
    activated("a left-over route passed on", &plan(4), 0, &[NOTHING, NOTHING, 3, 3, 1, 3, 3, 3], [3, 1])
}

fn verdict(draft: &Draft) -> (Vec<Field>, Vec<Vec<u8>>) {
    let found = answer(draft, &Call::Verdict { list: 0, buffers: [4, 4, 8, 4].map(|need| vec![99; need]) });
    (found.fields, found.buffers)
}

/// Ranks and settled table of a stable list.
fn stable(what: &str, draft: &Draft, ranks: [u8; 4], table: [u8; 8]) -> Outcome {
    let highest = ranks.into_iter().max().unwrap_or(0).into();
    let buffers = [vec![0, 1, 2, 3], ranks.to_vec(), table.to_vec(), vec![99; 4]];
    same(&format!("{what}, roles {:?}", draft.roles), verdict(draft), (vec![1, highest], buffers.to_vec()))
}

#[test]
fn m3_is_suspect_with_roles_1_and_3_and_stable_with_the_step_at_one_reflector() -> Outcome {
    for roles in [[1, 1], [1, 3], [3, 1], [3, 3]] {
        let buffers = [vec![0, 0, 2, 3], vec![99; 4], vec![99; 8], vec![0, 1, 99, 99]];
        same(&format!("roles {roles:?}"), verdict(&m3(roles, &[2, 3])), (vec![0, 2], buffers.to_vec()))?;
    }
    for (step, without) in [(4, 1), (4, 3), (5, 1), (5, 3)] {
        stable("at 0", &m3([step, without], &[2, 3]), [1, 2, 0, 0], [2, 2, 2, 0, 2, 2, 3, 3])?;
        stable("at 1", &m3([without, step], &[2, 3]), [2, 1, 0, 0], [3, 1, 3, 3, 2, 2, 3, 3])?;
    }
    for roles in [[4, 4], [4, 5], [5, 4], [5, 5]] {
        stable("at both", &m3(roles, &[2, 3]), [1, 1, 0, 0], [2, 2, 3, 3, 2, 2, 3, 3])?;
    }
    let lines = "routers 4 lists 2\n0 stable 2\n1 stable 3\n".to_string();
    let two_lists = Draft { roles: vec![4, 1, 2, 2], ..draft(6, 6, &[&[2, 3], &[3]]) };
    same("the verdict program", verdict_lines(&two_lists.bytes()), lines)
}

/// Rank 3: a client, its parent, the reflector that this one has a route from, and the client
/// of that one.
#[test]
fn with_the_step_at_all_reflectors_the_highest_rank_is_3() -> Outcome {
    stable("M6", &m3([4, 4], &[3]), [2, 1, 3, 0], [3, 1, 3, 3, 3, 0, 3, 3])?;
    stable("M7", &m3([5, 4], &[0]), [0, 1, 1, 2], [0, 0, 0, 0, 0, 0, 0, 1])?;
    stable("nobody", &m3([4, 5], &[]), [0, 0, 1, 1], [NOTHING; 8])
}

/// A plan, two routers, and what an explanation gives: relies, code, offer, has own, own,
/// margin.
type Stated = (Draft, (usize, usize), [Field; 6]);

fn explained(stated: Vec<Stated>) -> Outcome {
    stated.into_iter().try_for_each(|(draft, (router, other), fields)| {
        let explained = answer(&draft, &Call::Explain { list: 0, router, other });
        let relied = answer(&draft, &Call::Relies { list: 0, router, other });
        let what = format!("{router} on {other}, list {:?}, roles {:?}", draft.lists[0], draft.roles);
        same(&what, (explained.fields, relied.fields), (fields.to_vec(), vec![fields[0]]))
    })
}

#[test]
fn rule_3_goes_by_the_step_of_the_relying_reflector() -> Outcome {
    let offer_not_better = [0, 9, 0, 0, 0, 0];
    let own_best_client = [1, 3, 0, 0, 0, 0];
    explained(vec![
        // Nearer but passed on.
        (m3([4, 1], &[2, 3]), (0, 1), offer_not_better),
        (m3([5, 1], &[2, 3]), (0, 1), offer_not_better),
        (m3([4, 1], &[2, 3]), (0, 2), own_best_client),
        // The other has the step, and this one none.
        (m3([4, 1], &[2, 3]), (1, 0), [1, 4, 2, 1, 3, -4]),
        (m3([1, 5], &[2, 3]), (0, 1), [1, 4, 3, 1, 2, -4]),
        // With no best client any offer counts, and one without a way never does.
        (m3([4, 1], &[3]), (0, 1), [1, 4, 3, 0, 0, 0]),
        (Draft { roles: vec![4, 1, 2, 2], ..with_cuts(&[2, 3], &[(0, 2)]) }, (0, 1), [1, 4, 3, 0, 0, 0]),
        (Draft { roles: vec![4, 1, 2, 2], ..with_cuts(&[2, 3], &[(0, 3)]) }, (0, 1), [0, 8, 0, 0, 0, 0]),
        (m3([1, 4], &[3]), (1, 0), [0, 7, 0, 0, 0, 0]),
    ])
}

/// Both are told by their own egress: a listed reflector's offer, and the best client's route.
#[test]
fn the_offer_of_a_listed_reflector_is_compared_by_distance_and_number() -> Outcome {
    let to_1 = |distance: u32, role: u8| {
        let mut plan = m3([role, 1], &[1, 2]);
        plan.distances[0][1] = distance;
        plan
    };
    explained(vec![
        (to_1(9, 4), (0, 1), [1, 4, 1, 1, 2, -1]),
        (to_1(10, 5), (0, 1), [1, 4, 1, 1, 2, 0]),
        (to_1(11, 4), (0, 1), [0, 9, 0, 0, 0, 0]),
        (to_1(9, 1), (0, 1), [1, 4, 1, 1, 2, -1]),
    ])
}

/// Router 0 has clients 2, at 5, and 3, at 10, and 3 has another parent.
#[test]
fn the_best_client_is_the_nearest_whoever_else_has_it() -> Outcome {
    let shared = |client: usize| {
        let mut plan = two_sites([4, 1], &[&[2, 3]]);
        plan.sessions.insert((1, client));
        plan
    };
    let [own_best_client, not_the_best] = [[1, 3, 0, 0, 0, 0], [0, 6, 0, 0, 0, 0]];
    explained(vec![
        (shared(2), (0, 2), own_best_client),
        (shared(2), (0, 3), not_the_best),
        (shared(3), (0, 2), own_best_client),
    ])
}

/// Client 3 is listed; 2 and 4 are other clients of router 0.
#[test]
fn role_5_skips_its_clients_and_role_4_does_not() -> Outcome {
    let table = |role: u8| {
        let buffers = [6, 6, 12, 6].map(|need| vec![99; need]);
        let verdict = Call::Verdict { list: 0, buffers };
        perform(&mut Oracle::right(), &two_sites([role, 1], &[&[3]]).bytes(), &verdict, 7).buffers[2].clone()
    };
    let skips = vec![3, 3, 3, 0, NOTHING, NOTHING, 3, 3, 3, 3, 3, 1];
    let tells = vec![3, 3, 3, 0, 3, 0, 3, 3, 3, 3, 3, 1];
    same("roles 3 and 5", [table(3), table(5)], [skips.clone(), skips])?;
    same("roles 1 and 4", [table(1), table(4)], [tells.clone(), tells])
}

#[test]
fn a_role_with_the_step_is_converted_as_it_is() -> Outcome {
    let plan = m3([4, 5], &[2, 3]).bytes();
    let converted = |plan: &[u8], call: &Call| perform(&mut Oracle::right(), plan, call, 7).buffers[0].clone();
    let wide = converted(&plan, &Call::Widen { out: vec![0; plan.len() + 32] });
    same("the roles", [wide[26], wide[31], wide[36]], [4, 5, 2])?;
    same("back", converted(&wide, &Call::Narrow { out: vec![0; plan.len()] }), plan)
}
