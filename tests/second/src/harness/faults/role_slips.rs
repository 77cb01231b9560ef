//! The slips of checkers in the role of a router. In one call they take one role for another,
//! by which a plan is another, is refused, or is not.

use super::misreader::{PlanCall, BY_DISTANCES, WITHOUT_DISTANCES};
use crate::harness::plans::draft::Bodies;
use crate::oracle::plan;

/// A role, and what it is taken for. There are no roles 0, 6 and 7.
#[derive(Clone, Copy, Debug, PartialEq, Eq)]
pub struct RoleSlip {
    role: u8,
    taken_for: u8,
}

/// Whether the hop step is there or not: it shows in calls that go by distances.
const STEP_SLIPS: [(u8, u8); 4] = [(4, 1), (5, 3), (1, 4), (3, 5)];

/// Whether a reflector skips its clients: it shows in what routers hold.
const SKIP_SLIPS: [(u8, u8); 2] = [(5, 4), (4, 5)];

/// A reflector for a client, a role that is refused, and one that is not: these show in
/// every call.
const OTHER_SLIPS: [(u8, u8); 10] = [(4, 2), (5, 2), (1, 6), (2, 6), (3, 6), (4, 6), (5, 6), (0, 1), (6, 5), (7, 5)];

/// Each slip, with the calls in which it shows. The converter copies a role.
pub fn role_faults() -> Vec<(RoleSlip, Vec<PlanCall>)> {
    let held = [PlanCall::Verdict, PlanCall::Activate, PlanCall::Run];
    let all = [&WITHOUT_DISTANCES[..], &BY_DISTANCES].concat();
    let with_conversions = |calls: &[PlanCall]| [calls, &[PlanCall::Widen, PlanCall::Narrow]].concat();
    let faults = |slips: &[(u8, u8)], calls: &[PlanCall]| {
        let slip = |&(role, taken_for): &(u8, u8)| (RoleSlip { role, taken_for }, with_conversions(calls));
        slips.iter().map(slip).collect::<Vec<_>>()
    };
    [faults(&STEP_SLIPS, &BY_DISTANCES), faults(&SKIP_SLIPS, &held), faults(&OTHER_SLIPS, &all)].concat()
}

/// The plan that a checker with this slip takes a plan for.
pub fn taken_for(slip: RoleSlip, plan: &[u8]) -> Option<Vec<u8>> {
    if matches!(plan::read(plan), Err(1..=3)) {
        return None;
    }
    let mut bodies = Bodies::of(plan);
    let roles = bodies.routers.iter_mut().step_by(5);
    roles.filter(|role| **role == slip.role).for_each(|role| *role = slip.taken_for);
    Some(bodies.bytes())
}
