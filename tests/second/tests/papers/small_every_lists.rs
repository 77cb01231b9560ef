//! What is stated of every list of small plans.

use super::{answer, same};
use crate::Outcome;
use second_checker::harness::comparison::call::{Answer, Call};
use second_checker::harness::plans::draft::{Draft, NO_WAY};
use second_checker::harness::plans::small_plans::{draft, preferring_the_next};
use second_checker::oracle::mark::Mark;
use second_checker::oracle::plan::Router;
use std::collections::BTreeSet;

/// The answer, with a byte more than is needed.
fn told(what: &str, draft: &Draft, number: i128, list: &[u8]) -> Outcome {
    let mut out = vec![99; draft.roles.len() + 1];
    let found = answer(draft, &Call::EveryList { out: out.clone() });
    out[..list.len()].copy_from_slice(list);
    let fields = vec![number, list.len() as i128];
    same(what, found, Answer { refusal: 0, fields, buffers: vec![out], surroundings_kept: true })
}

#[test]
fn the_small_plans() -> Outcome {
    for (name, p, q) in [("M1", 14, 14), ("M2", 6, 14), ("M4", 10, 10)] {
        told(name, &draft(p, q, &[&[2, 3]]), 1, &[])?;
    }
    for (name, p, q) in [("M3", 6, 6), ("M5", 9, 10)] {
        told(name, &draft(p, q, &[&[2, 3]]), 0, &[2, 3])?;
        told("whatever its own lists", &draft(p, q, &[&[3], &[]]), 0, &[2, 3])?;
    }
    Ok(())
}

/// M3's plan with roles, and no way from one router to another.
fn m3(roles: [u8; 2], cut: Option<(Router, Router)>) -> Draft {
    let mut draft = draft(6, 6, &[&[3]]);
    draft.roles[..2].copy_from_slice(&roles);
    cut.into_iter().for_each(|(from, to)| draft.distances[from][to] = NO_WAY);
    draft
}

#[test]
fn a_step_or_a_cut_makes_m3_stable_for_every_list() -> Outcome {
    for roles in [[4, 1], [1, 4], [5, 3], [4, 4]] {
        told("with the step", &m3(roles, None), 1, &[])?;
    }
    told("skipping", &m3([3, 3], None), 0, &[2, 3])?;
    for cut in [(0, 3), (0, 2), (1, 2), (1, 3)] {
        told("no way", &m3([1, 1], Some(cut)), 1, &[])?;
    }
    told("a way back", &m3([1, 1], Some((3, 0))), 0, &[2, 3])
}

#[test]
fn a_client_of_its_own_is_not_foreign() -> Outcome {
    let mut plan = draft(6, 6, &[&[3]]);
    plan.sessions.insert((0, 3));
    told("3 is a client of 0 too", &plan, 1, &[])
}

#[test]
fn the_list_has_the_clients_of_the_cycle_alone() -> Outcome {
    told("three", &preferring_the_next(3), 0, &[3, 4, 5])?;
    // Reflector 0 prefers client 6 of 1, which is in M3's pair with 2.
    let distances = [[0, 9, 9, 10, 8, 30, 6], [9, 0, 9, 30, 10, 6, 20], [9, 9, 0, 30, 6, 10, 30]];
    told("into the pair", &of_three(&distances, &[(0, 1), (1, 2), (0, 3), (1, 4), (1, 6), (2, 5)]), 0, &[4, 5])
}

/// Reflectors 0, 1 and 2, and clients.
fn of_three<const N: usize>(distances: &[[u32; N]; 3], sessions: &[(Router, Router)]) -> Draft {
    let of_client = |client: Router| (0..N).map(|to| if to == client { 0 } else { 30 }).collect();
    Draft {
        mark: Mark::Rrp1,
        roles: (0..N).map(|router| if router < 3 { 1 } else { 2 }).collect(),
        identifiers: (1..=N as u32).map(|place| 10 * place).collect(),
        sessions: sessions.iter().copied().collect::<BTreeSet<_>>(),
        distances: distances.iter().map(|row| row.to_vec()).chain((3..N).map(of_client)).collect(),
        lists: vec![[3].into()],
    }
}

/// Client 4 has two parents: pairs are left, and every list is stable.
#[test]
fn two_parents_may_leave_it_undecided() -> Outcome {
    let distances = [[0, 9, 9, 6, 5, 10], [9, 0, 9, 30, 10, 6], [9, 9, 0, 10, 6, 30]];
    let plan = of_three(&distances, &[(0, 1), (0, 2), (1, 2), (0, 4), (0, 5), (1, 4), (2, 3)]);
    told("undecided", &plan, 2, &[])?;
    for set in 0..8u8 {
        let list = (3..6).filter(|client| set >> (client - 3) & 1 == 1).collect();
        let of = Draft { lists: vec![list], ..plan.clone() };
        let buffers = [6, 6, 12, 6].map(|need| vec![0; need]);
        same("stable", answer(&of, &Call::Verdict { list: 0, buffers }).fields[0], 1)?;
    }
    Ok(())
}

#[test]
fn refusals_of_the_call_for_every_list() -> Outcome {
    for room in 0..4 {
        for (p, q) in [(6, 6), (14, 14)] {
            let found = answer(&draft(p, q, &[&[3]]), &Call::EveryList { out: vec![99; room] });
            same("9", (found.refusal, found.buffers), (9, vec![vec![99; room]]))?;
        }
    }
    let mut broken = draft(6, 6, &[&[3]]);
    broken.distances[1][1] = 5;
    same("6 before 9", answer(&broken, &Call::EveryList { out: Vec::new() }).refusal, 6)
}
