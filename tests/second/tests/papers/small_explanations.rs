//! What document 02 states of explained reliances, on small plans: each rule, and
//! each reason that is ever the first to apply.

use super::{answer, same};
use crate::Outcome;
use second_checker::harness::comparison::call::{Call, Field};
use second_checker::harness::plans::draft::Draft;
use second_checker::harness::plans::small_plans::{draft, two_sites, with_cuts};
use std::collections::BTreeSet;

/// What the call gives: relies, code, offer, has own, own, margin.
type Fields = [Field; 6];

/// A plan, two routers, and what the call gives for list 0.
type Stated = (Draft, (usize, usize), Fields);

const PARENT: Fields = [1, 1, 0, 0, 0, 0];
const PEER_CLIENT: Fields = [1, 2, 0, 0, 0, 0];
const OWN_BEST_CLIENT: Fields = [1, 3, 0, 0, 0, 0];

/// A better offer where there is no own best client.
fn offer(offer: Field) -> Fields {
    [1, 4, offer, 0, 0, 0]
}

fn better(offer: Field, own: Field, margin: Field) -> Fields {
    [1, 4, offer, 1, own, margin]
}

/// No, with the place of the reason in document 02's order.
fn no(reason: Field) -> Fields {
    [0, reason, 0, 0, 0, 0]
}

/// Each call gives what is stated.
fn explained(stated: Vec<Stated>) -> Outcome {
    stated.into_iter().try_for_each(|(draft, (router, other), fields)| {
        let found = answer(&draft, &Call::Explain { list: 0, router, other });
        let what = format!("{router} on {other}, list {:?}", draft.lists[0]);
        same(&what, (found.refusal, found.fields), (0, fields.to_vec()))
    })
}

#[test]
fn a_reliance_is_explained_by_its_rule() -> Outcome {
    explained(rules())
}

#[test]
fn a_better_offer_is_explained_with_its_margin() -> Outcome {
    explained(margins())
}

#[test]
fn no_reliance_is_explained_by_the_first_reason_that_applies() -> Outcome {
    explained(reasons_of_any())?;
    explained(reasons_of_reflectors())
}

#[test]
fn each_rule_and_each_reason_but_the_fifth_is_among_what_is_stated() -> Outcome {
    let stated = [rules(), margins(), reasons_of_any(), reasons_of_reflectors()].concat();
    let occurring: BTreeSet<(Field, Field)> = stated.iter().map(|(_, _, fields)| (fields[0], fields[1])).collect();
    let due = (1..=4).map(|rule| (1, rule)).chain([1, 2, 3, 4, 6, 7, 8, 9].map(|reason| (0, reason)));
    same("rules and reasons stated", occurring, due.collect())
}

/// M3's plan with this list.
fn m3(list: &[usize]) -> Draft {
    draft(6, 6, &[list])
}

fn rules() -> Vec<Stated> {
    vec![
        (m3(&[2, 3]), (0, 1), better(3, 2, -4)),
        (m3(&[2, 3]), (1, 0), better(2, 3, -4)),
        (m3(&[2, 3]), (0, 2), OWN_BEST_CLIENT),
        (m3(&[2, 3]), (1, 3), OWN_BEST_CLIENT),
        (m3(&[3]), (0, 1), offer(3)),
        (m3(&[3]), (2, 0), PARENT),
        // A listed reflector offers itself.
        (m3(&[0]), (1, 0), offer(0)),
        (m3(&[0]), (3, 1), PARENT),
        // Reflector 0 skips its clients; 3 and 4 are clients in a mesh.
        (two_sites([3, 1], &[&[3]]), (4, 3), PEER_CLIENT),
        (two_sites([3, 1], &[&[3]]), (4, 0), PARENT),
        (two_sites([3, 1], &[&[3]]), (1, 0), offer(3)),
        (two_sites([3, 1], &[&[3, 5]]), (1, 0), better(3, 5, -4)),
        (two_sites([3, 1], &[&[3, 5]]), (0, 1), better(5, 3, -4)),
        // No way to the own client, or to the parent, which rule 2 does not ask for.
        (with_cuts(&[2, 3], &[(0, 2)]), (0, 1), offer(3)),
        (with_cuts(&[3], &[(2, 0)]), (2, 0), PARENT),
    ]
}

/// A tie, in which the lower number is better; and the least margin.
fn margins() -> Vec<Stated> {
    let tie = || draft(10, 10, &[&[2, 3]]);
    let mut far = draft(0, 6, &[&[2, 3]]);
    far.distances[0][2] = 65_534;
    vec![
        (tie(), (1, 0), better(2, 3, 0)),
        (tie(), (0, 1), no(9)),
        (draft(9, 10, &[&[2, 3]]), (0, 1), better(3, 2, -1)),
        (far, (0, 1), better(3, 2, -65_534)),
    ]
}

/// The first four reasons; in most cases later ones apply too.
fn reasons_of_any() -> Vec<Stated> {
    vec![
        (m3(&[2, 3]), (0, 0), no(1)),
        (m3(&[2, 3]), (2, 2), no(1)),
        (m3(&[3]), (2, 2), no(1)),
        (m3(&[2, 3]), (0, 3), no(2)),
        (m3(&[3]), (3, 2), no(2)),
        (m3(&[0]), (0, 3), no(2)),
        (m3(&[2, 3]), (2, 0), no(3)),
        (m3(&[0]), (0, 1), no(3)),
        (m3(&[0]), (0, 2), no(3)),
        (m3(&[3]), (0, 2), no(4)),
        // Both are clients, and the second is unlisted: the fourth reason, not the fifth.
        (two_sites([1, 1], &[&[5]]), (4, 3), no(4)),
    ]
}

/// The last four, of an unlisted reflector.
fn reasons_of_reflectors() -> Vec<Stated> {
    let mut shared = m3(&[3]);
    shared.sessions.insert((0, 3));
    vec![
        (two_sites([1, 1], &[&[2, 3]]), (0, 3), no(6)),
        // A client that there is no way to is not the best one.
        (with_cuts(&[2, 3], &[(0, 2)]), (0, 2), no(6)),
        (m3(&[3]), (1, 0), no(7)),
        (with_cuts(&[2, 3], &[(0, 2)]), (1, 0), no(7)),
        (with_cuts(&[2, 3], &[(0, 3)]), (0, 1), no(8)),
        (with_cuts(&[3], &[(0, 3)]), (0, 1), no(8)),
        (with_cuts(&[0], &[(1, 0)]), (1, 0), no(8)),
        (draft(14, 14, &[&[2, 3]]), (0, 1), no(9)),
        // Router 1 offers itself, at 30, and not its client, at 6.
        (m3(&[1, 2, 3]), (0, 1), no(9)),
        // The client of both is not better than itself.
        (shared, (0, 1), no(9)),
    ]
}

#[test]
fn a_refused_explanation_leaves_its_variables() -> Outcome {
    let before: Fields = [7, 248, 7, 0, !7u64 as Field, 7];
    for (list, router, other) in [(1, 0, 1), (0, 4, 1), (0, 0, 4), (usize::MAX, 0, 0)] {
        let found = answer(&m3(&[2, 3]), &Call::Explain { list, router, other });
        same("refused", (found.refusal, found.fields), (8, before.to_vec()))?;
    }
    let mut damaged = m3(&[2, 3]);
    damaged.distances[1][1] = 1;
    let found = answer(&damaged, &Call::Explain { list: 9, router: 9, other: 9 });
    same("refused with 6", (found.refusal, found.fields), (6, before.to_vec()))
}
