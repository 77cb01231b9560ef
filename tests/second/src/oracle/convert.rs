//! Turns a plan of one mark into the plan of the other that says the same: the sets
//! that were read are written anew, byte by byte. Refusal 14.

use super::mark::Mark;
use super::plan::{Plan, Router, CLIENT, FIRST_BODY, REFLECTOR, SKIPPING, STEPPING, STEPPING_AND_SKIPPING};

/// The bytes of the plan of this mark that says what `plan` says.
pub fn written(plan: &Plan, mark: Mark) -> Result<Vec<u8>, u8> {
    let bodies = [routers(plan), sessions(plan), distances(plan, mark)?, lists(plan)];
    let mut bytes = mark.letters().to_vec();
    bytes.extend([plan.n as u8, bodies.len() as u8]);
    let mut offset = FIRST_BODY;
    for (kind, body) in (1..).zip(&bodies) {
        bytes.push(kind);
        bytes.extend([offset, body.len()].into_iter().flat_map(|number| low_first(number as u32, 2)));
        offset += body.len();
    }
    Ok([bytes, bodies.concat()].concat())
}

/// The lowest bytes of a number, so many of them, the low one first.
fn low_first(number: u32, count: u32) -> impl Iterator<Item = u8> {
    (0..count).map(move |place| (number / 256u32.pow(place) % 256) as u8)
}

fn routers(plan: &Plan) -> Vec<u8> {
    let role = |router: Router| match (plan.steps(router), plan.skips(router)) {
        _ if !plan.is_reflector(router) => CLIENT,
        (false, false) => REFLECTOR,
        (false, true) => SKIPPING,
        (true, false) => STEPPING,
        (true, true) => STEPPING_AND_SKIPPING,
    };
    let routers = plan.identifiers.iter().enumerate();
    routers.flat_map(|(router, &identifier)| [role(router)].into_iter().chain(low_first(identifier, 4))).collect()
}

/// Each session once, from its router with the lower number.
fn sessions(plan: &Plan) -> Vec<u8> {
    let higher = |one: Router| plan.neighbours[one].range(one..);
    (0..plan.n).flat_map(|one| higher(one).flat_map(move |&other| [one as u8, other as u8])).collect()
}

/// Refused if a distance is too great for the mark.
fn distances(plan: &Plan, mark: Mark) -> Result<Vec<u8>, u8> {
    let number = |distance: Option<u32>| match distance {
        None => Ok(mark.no_way()),
        Some(distance) if distance > mark.farthest() => Err(14),
        Some(distance) => Ok(distance),
    };
    let numbers: Result<Vec<u32>, u8> = plan.distances.iter().flatten().map(|&distance| number(distance)).collect();
    Ok(numbers?.into_iter().flat_map(|number| low_first(number, mark.width() as u32)).collect())
}

fn lists(plan: &Plan) -> Vec<u8> {
    let numbers =
        plan.lists.iter().flat_map(|list| [list.listed.len()].into_iter().chain(list.listed.iter().copied()));
    [plan.lists.len()].into_iter().chain(numbers).map(|number| number as u8).collect()
}
