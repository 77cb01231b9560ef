//! What document 02 states of reflectors that skip their own clients, on a small
//! plan.

use super::{answer, same};
use crate::Outcome;
use second_checker::harness::comparison::call::{Answer, Call};
use second_checker::harness::plans::draft::Draft;
use second_checker::harness::plans::small_plans::two_sites;
use second_checker::interface::Checker;
use second_checker::oracle::Oracle;

#[test]
fn there_are_the_roles_1_to_5_and_no_other() -> Outcome {
    let mut bodies = two_sites([3, 1], &[&[3]]).bodies();
    for (role, refusal) in [(0, 4), (1, 0), (2, 0), (3, 0), (4, 0), (5, 0), (6, 4), (255, 4)] {
        bodies.routers[0] = role;
        same(&format!("role {role}"), Oracle::right().check(&bodies.bytes()), refusal)?;
    }
    Ok(())
}

fn verdict(draft: &Draft) -> Answer {
    let buffers = [6, 6, 12, 6].map(|need| vec![99; need]);
    answer(draft, &Call::Verdict { list: 0, buffers })
}

/// Ranks and settled table of a stable list.
fn stable(what: &str, draft: &Draft, ranks: [u8; 6], table: [u8; 12]) -> Outcome {
    let found = verdict(draft);
    let highest = ranks.into_iter().max().unwrap_or(0).into();
    same(what, (found.fields, &found.buffers[1..3]), (vec![1, highest], &[ranks.to_vec(), table.to_vec()]))
}

/// Router 0 skips its clients, or does not.
#[test]
fn role_3_tells_its_clients_no_route_of_a_client() -> Outcome {
    let skips = |list: &[usize]| two_sites([3, 1], &[list]);
    let (ranks, nothing) = ([1, 2, 2, 0, 2, 3], 255);
    // Client 2 ends with nothing; the mesh brings 4 the route.
    stable("a client's route", &skips(&[3]), ranks, [3, 3, 3, 0, nothing, nothing, 3, 3, 3, 3, 3, 1])?;
    stable("role 1", &two_sites([1, 1], &[&[3]]), ranks, [3, 3, 3, 0, 3, 0, 3, 3, 3, 3, 3, 1])?;
    stable("a reflector's route", &skips(&[5]), [2, 1, 3, 3, 3, 0], [5, 1, 5, 5, 5, 0, 5, 0, 5, 0, 5, 5])?;
    stable("its own route", &skips(&[0]), [0, 1, 1, 1, 1, 2], [0, 0, 0, 0, 0, 0, 0, 0, 0, 0, 0, 1])?;
    let found = verdict(&skips(&[3, 5]));
    same("a cycle", (found.fields, &found.buffers[3][..2]), (vec![0, 2], &[0, 1]))
}

#[test]
fn role_3_is_a_reflector_in_every_rule_of_the_reliances() -> Outcome {
    let cases: [(&[usize], usize, usize, bool); 6] = [
        (&[3], 2, 0, true),
        (&[0], 1, 0, true),
        (&[2, 3], 0, 2, true),
        (&[2, 3], 0, 3, false),
        (&[3], 1, 0, true),
        (&[0, 5], 1, 5, true),
    ];
    cases.into_iter().try_for_each(|(list, router, other, relies)| {
        let found = answer(&two_sites([3, 1], &[list]), &Call::Relies { list: 0, router, other });
        same(&format!("{router} on {other}, list {list:?}"), found.fields, vec![relies.into()])
    })
}
