//! What document 02 states of the tables that no act changes, on small plans.

use super::{answer, same};
use crate::Outcome;
use second_checker::harness::comparison::call::{Answer, Call, Field};
use second_checker::harness::plans::draft::Draft;
use second_checker::harness::plans::small_plans::{draft, preferring, preferring_the_next, two_sites, with_cuts};
use second_checker::oracle::plan::{self, Router};
use second_checker::oracle::rules::{Case, Right};
use second_checker::oracle::{steady, tables};
use std::collections::BTreeSet;

/// The answer for a list with a buffer of so many bytes 99. The count is 7 before.
fn asked(draft: &Draft, list: usize, room: usize) -> Answer {
    answer(draft, &Call::Steady { list, out: vec![99; room] })
}

/// The numbers of list 0: so many bytes are needed and written, and those after them stay.
fn listed(what: &str, draft: &Draft, numbers: &[u8]) -> Outcome {
    let (need, count) = (2 * numbers.len(), numbers.len() as Field);
    let bytes: Vec<u8> = numbers.iter().flat_map(|&number| [number, 0]).collect();
    for more in [0, 1, 6] {
        let buffers = vec![[&bytes[..], &vec![99; more]].concat()];
        let due = Answer { refusal: 0, fields: vec![count], buffers, surroundings_kept: true };
        same(&format!("{what}, {more} bytes more"), asked(draft, 0, need + more), due)?;
    }
    (0..need).try_for_each(|room| refused(&format!("{what}, {room} bytes"), draft, 0, room, 9))
}

/// A refused call changes nothing, and not the count either.
fn refused(what: &str, draft: &Draft, list: usize, room: usize, refusal: u8) -> Outcome {
    let due = Answer { refusal, fields: vec![7], buffers: vec![vec![99; room]], surroundings_kept: true };
    same(what, asked(draft, list, room), due)
}

#[test]
fn m3_gives_1_and_2() -> Outcome {
    listed("M3", &draft(6, 6, &[&[2, 3]]), &[1, 2])?;
    listed("M5", &draft(9, 10, &[&[2, 3]]), &[1, 2])
}

/// .. which are the tables of M8 and M9.
#[test]
fn m3_rests_in_the_tables_that_m8_and_m9_end_in() -> Outcome {
    let plan = plan::read(&draft(6, 6, &[&[2, 3]]).bytes()).map_err(|refusal| format!("refused with {refusal}"))?;
    let tables = steady::steady(&Right, Case { plan: &plan, listed: &plan.lists[0].listed });
    let tables = tables.map(|tables| tables.into_values().map(|table| tables::bytes(&table, 4)).collect::<Vec<_>>());
    same("tables", tables, Ok(vec![vec![2, 2, 2, 0, 2, 2, 3, 3], vec![3, 1, 3, 3, 2, 2, 3, 3]]))
}

#[test]
fn a_stable_list_gives_0_alone() -> Outcome {
    for (p, q) in [(14, 14), (6, 14), (10, 10)] {
        listed(&format!("p = {p}, q = {q}"), &draft(p, q, &[&[2, 3]]), &[0])?;
    }
    for list in [&[3][..], &[0], &[0, 1, 2, 3], &[]] {
        listed(&format!("list {list:?}"), &draft(6, 6, &[list]), &[0])?;
    }
    listed("a way less", &with_cuts(&[2, 3], &[(0, 3)]), &[0])?;
    for roles in [[4, 1], [1, 5], [4, 4]] {
        listed(
            "with the hop step",
            &Draft { roles: [&roles[..], &[2, 2]].concat(), ..draft(6, 6, &[&[2, 3]]) },
            &[0],
        )?;
    }
    Ok(())
}

#[test]
fn three_that_each_prefer_the_next_rest_in_no_table() -> Outcome {
    listed("three", &preferring_the_next(3), &[])?;
    listed("five", &preferring_the_next(5), &[])?;
    listed("four", &preferring_the_next(4), &[5, 10])
}

#[test]
fn of_three_that_all_prefer_the_others_one_holds_its_client() -> Outcome {
    listed("three", &preferring(3, &[(0, 1), (0, 2), (1, 0), (1, 2), (2, 0), (2, 1)]), &[1, 2, 4])
}

#[test]
fn two_pairs_rest_in_four_tables_with_rising_numbers() -> Outcome {
    listed("0 and 1, 2 and 3", &preferring(4, &[(0, 1), (1, 0), (2, 3), (3, 2)]), &[5, 6, 9, 10])?;
    listed("0 and 2, 1 and 3", &preferring(4, &[(0, 2), (2, 0), (1, 3), (3, 1)]), &[3, 6, 9, 12])
}

/// Router 2 is listed in place of its client, and router 0 prefers it: 1 alone holds its client.
#[test]
fn a_listed_reflector_tells_its_own_route() -> Outcome {
    let mut plan = preferring(3, &[(0, 1), (1, 0), (0, 2)]);
    plan.lists = vec![[2, 3, 4].into()];
    listed("listed 2", &plan, &[2])?;
    let mut turned = preferring(3, &[(0, 1), (1, 0), (1, 2)]);
    turned.lists = vec![[2, 3, 4].into()];
    listed("for 1", &turned, &[1])
}

/// Router 0 of one pair prefers router 2 of another: where 2 holds its client's route, 0 does not.
#[test]
fn a_group_is_steady_against_each_choice_of_one_it_relies_on() -> Outcome {
    listed("2 and 3 first", &preferring(4, &[(0, 1), (1, 0), (2, 3), (3, 2), (0, 2)]), &[6, 9, 10])?;
    // The other way, the group with the higher numbers relies on the other one.
    listed("0 and 1 first", &preferring(4, &[(0, 1), (1, 0), (2, 3), (3, 2), (2, 0)]), &[6, 9, 10])
}

/// Router 2 is in no group, and prefers 3 of a pair; router 0 of another pair prefers 2. Bit 2
/// is that of router 3.
#[test]
fn a_router_between_two_groups_has_no_bit() -> Outcome {
    let plan = preferring(5, &[(0, 1), (1, 0), (3, 4), (4, 3), (2, 3), (0, 2)]);
    // If 3 holds its client's route, 2 does not, and 0 and 1 are free; if not, 2 does, and 0 does not.
    listed("2 between", &plan, &[5, 6, 10])
}

/// Reflectors outside the groups that hold their client's own route, and one that has none.
#[test]
fn no_router_outside_the_groups_has_a_bit() -> Outcome {
    let mut plan = preferring(4, &[(1, 3), (3, 1)]);
    listed("0 and 2 by themselves", &plan, &[1, 2])?;
    plan.lists = vec![[5, 6, 7].into()];
    listed("0 without a client", &plan, &[1, 2])
}

/// Client 4 of router 0 is not listed: a table in which it holds nothing is changed by its act.
#[test]
fn a_table_that_the_act_of_a_client_changes_is_not_listed() -> Outcome {
    let with_client = |parent: Router| {
        let mut plan = draft(6, 6, &[&[2, 3]]);
        plan.roles.push(2);
        plan.identifiers.push(50);
        plan.sessions.insert((parent, 4));
        plan.distances.iter_mut().for_each(|row| row.push(30));
        plan.distances.push(vec![30, 30, 30, 30, 0]);
        plan
    };
    listed("a client of 0", &with_client(0), &[1, 2])?;
    listed("a client of 1", &with_client(1), &[1, 2])
}

/// Role 3 skips its clients, not the reflectors.
#[test]
fn role_3_makes_no_difference_to_the_numbers() -> Outcome {
    for roles in [[1, 3], [3, 1], [3, 3]] {
        listed("role 3", &Draft { roles: [&roles[..], &[2, 2]].concat(), ..draft(6, 6, &[&[2, 3]]) }, &[1, 2])?;
    }
    listed("two sites", &two_sites([3, 1], &[&[2, 3, 5]]), &[0])
}

/// So many reflectors, in pairs that prefer each other.
fn pairs(count: usize) -> Vec<(Router, Router)> {
    (0..count).map(|router| (router, router ^ 1)).collect()
}

fn count(draft: &Draft) -> Result<usize, String> {
    let found = asked(draft, 0, 200);
    same("refusal", found.refusal, 0)?;
    same("rising", found.numbers().is_sorted_by(|one, next| one < next), true)?;
    Ok(found.numbers().len())
}

#[test]
fn twelve_routers_in_groups_are_the_most() -> Outcome {
    let twelve = preferring_the_next(12);
    let due =
        Answer { refusal: 0, fields: vec![2], buffers: vec![vec![85, 5, 170, 10, 99]], surroundings_kept: true };
    same("1365 and 2730", asked(&twelve, 0, 5), due)?;
    refused("thirteen", &preferring_the_next(13), 0, 200, 15)?;
    same("six pairs", count(&preferring(12, &pairs(12)))?, 64)?;
    refused("seven pairs", &preferring(14, &pairs(14)), 0, 200, 15)?;
    let threes = (0..12).flat_map(|one| (one / 3 * 3..one / 3 * 3 + 3).map(move |other| (one, other)));
    same("four of three", count(&preferring(12, &Vec::from_iter(threes.filter(|(one, other)| one != other))))?, 81)?;
    // Routers outside the groups do not count.
    let beside = preferring(20, &pairs(12));
    same("beside others", count(&beside)?, 64)
}

#[test]
fn refusal_15_goes_after_8_and_before_9() -> Outcome {
    let thirteen = preferring_the_next(13);
    for room in [0, 1, 2, 200] {
        refused("thirteen", &thirteen, 0, room, 15)?;
        refused("another list", &thirteen, 1, room, 8)?;
    }
    let mut crowded = thirteen.clone();
    crowded.sessions.extend((1..5).map(|parent| (parent, 13)));
    refused("and before them that of the plan", &crowded, 1, 0, 13)?;
    let mut other_list = thirteen;
    other_list.lists.push(BTreeSet::from([13, 14]));
    refused("list 0", &other_list, 0, 0, 15)?;
    same("list 1", asked(&other_list, 1, 2).buffers, vec![vec![0, 0]])
}
