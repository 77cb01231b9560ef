//! What document 02 states of smallest sets of routers to give the hop step, on small plans.

use super::{answer, same};
use crate::Outcome;
use second_checker::harness::comparison::call::{perform, Call, Field};
use second_checker::harness::plans::draft::Draft;
use second_checker::harness::plans::small_plans::{draft, star, two_sites};
use second_checker::oracle::hop_set::with_step;
use second_checker::oracle::mark::Mark;
use second_checker::oracle::{verdict_lines, Oracle};
use std::collections::BTreeSet;

/// Reflectors 0 up, each with a listed client of its own, and with sessions between all; `prefers`
/// has for each those whose clients it prefers to its own.
fn reflectors(prefers: &[&[usize]]) -> Draft {
    let (count, n) = (prefers.len(), 2 * prefers.len());
    let distance = |from: usize, to: usize| match (from == to, to.checked_sub(count)) {
        (true, _) => 0,
        (_, Some(of)) if from < count && prefers[from].contains(&of) => 6,
        (_, Some(of)) if from == of => 10,
        _ => 30,
    };
    let pairs = (0..count).flat_map(|one| (one + 1..count).map(move |other| (one, other)));
    Draft {
        mark: Mark::Rrp1,
        roles: (0..n).map(|router| if router < count { 1 } else { 2 }).collect(),
        identifiers: (1..=n as u32).collect(),
        sessions: pairs.chain((0..count).map(|reflector| (reflector, count + reflector))).collect(),
        distances: (0..n).map(|from| (0..n).map(|to| distance(from, to)).collect()).collect(),
        lists: vec![(count..n).collect()],
    }
}

/// The set of a list; with the step at the routers named the verdict is stable.
fn gives(draft: &Draft, set: Field, routers: &[usize]) -> Outcome {
    let found = answer(draft, &Call::HopSet { list: 0 });
    same("the set", (found.refusal, found.fields), (0, vec![set]))?;
    let lines = verdict_lines(&with_step(&draft.bytes(), routers.iter().copied()));
    lines.contains("stable").then_some(()).ok_or(format!("with the step at {routers:?}: {lines}"))
}

#[test]
fn a_stable_list_gives_0() -> Outcome {
    gives(&draft(6, 6, &[&[3]]), 0, &[])?;
    gives(&draft(6, 6, &[&[]]), 0, &[])
}

#[test]
fn m3_needs_one_of_two_and_the_lowest_is_given() -> Outcome {
    gives(&draft(6, 6, &[&[2, 3]]), 1, &[0])
}

#[test]
fn of_a_ring_of_three_with_a_chord_the_one_in_both_cycles_is_given() -> Outcome {
    // 0, 1, 2 in turn, and 1 and 2 prefer each other: the lowest number that serves is 2.
    gives(&reflectors(&[&[1], &[2], &[0, 1]]), 2, &[1])
}

#[test]
fn each_of_two_groups_needs_one() -> Outcome {
    gives(&reflectors(&[&[1], &[0], &[3], &[2]]), 0b101, &[0, 2])
}

/// Router 0 has the most reliances, and once it has the step, three pairs are left; the three
/// that serve do without it.
#[test]
fn the_router_with_the_most_reliances_may_not_be_in_the_set() -> Outcome {
    let prefers: [&[usize]; 7] = [&[1, 2, 3], &[0, 4], &[0, 5], &[0, 6], &[1], &[2], &[3]];
    gives(&reflectors(&prefers), 0b1110, &[1, 2, 3])
}

/// The lowest number that serves, 0b0111, has three routers; 0b1000 has one.
#[test]
fn size_goes_before_the_number() -> Outcome {
    gives(&reflectors(&[&[3], &[3], &[3], &[0, 1, 2]]), 0b1000, &[3])
}

#[test]
fn more_than_12_routers_in_groups_are_refused_after_8() -> Outcome {
    let ring = |count: usize| {
        let next: Vec<[usize; 1]> = (0..count).map(|place| [(place + 1) % count]).collect();
        reflectors(&next.iter().map(|next| &next[..]).collect::<Vec<_>>())
    };
    let refusal = |count: usize, list: usize| answer(&ring(count), &Call::HopSet { list }).refusal;
    same("12 and 13 routers", [refusal(12, 0), refusal(13, 0), refusal(13, 1)], [0, 15, 8])?;
    same("left as it was", answer(&ring(13), &Call::HopSet { list: 0 }).fields, vec![7])
}

/// Clients 2 to 4 are those of router 0: made 5 it goes on to skip them, made 4 it would not.
#[test]
fn role_3_becomes_5_and_not_4() -> Outcome {
    let plan = two_sites([3, 1], &[&[3]]).bytes();
    let changed = with_step(&plan, [0]);
    let table = |plan: &[u8]| {
        let buffers = [6, 6, 12, 6].map(|need| vec![99; need]);
        perform(&mut Oracle::right(), plan, &Call::Verdict { list: 0, buffers }, 7).buffers[2].clone()
    };
    let mut made_4 = changed.clone();
    made_4[26] = 4;
    same("the role", changed[26], 5)?;
    same("what routers hold", table(&changed), table(&plan))?;
    same("what differs", table(&made_4) == table(&plan), false)
}

#[test]
fn every_other_role_stays() -> Outcome {
    let plan = Draft { roles: vec![1, 2, 3, 4, 5], ..star(0, &[1; 5]) };
    let changed = with_step(&plan.bytes(), 0..5);
    let roles: BTreeSet<(usize, u8)> = (0..5).map(|router| (router, changed[26 + 5 * router])).collect();
    same("the roles", roles, BTreeSet::from([(0, 4), (1, 2), (2, 5), (3, 4), (4, 5)]))
}
