//! The slips of checkers in refusal 13: what they count, and when they check it.

use crate::harness::plans::draft::Bodies;
use crate::oracle::plan::{self, Router, CLIENT, REFLECTOR, SKIPPING, STEPPING};

#[derive(Clone, Copy, Debug, PartialEq, Eq)]
pub enum ParentSlip {
    FiveAllowed,
    SixAllowed,
    FourRefused,
    ReflectorsOfAReflectorCounted,
    ClientsOfAClientCounted,
    ClientsOfAReflectorCounted,
    LowerNumbersCounted,
    HigherNumbersCounted,
    Role1Counted,
    Role3Counted,
    HopStepNotCounted,
    HopStepCounted,
    FirstClientCounted,
    LastClientNotCounted,
    BeforeFour,
    BeforeFive,
    AfterSix,
    AfterSeven,
}

pub const PARENT_SLIPS: [ParentSlip; 18] = [
    ParentSlip::FiveAllowed,
    ParentSlip::SixAllowed,
    ParentSlip::FourRefused,
    ParentSlip::ReflectorsOfAReflectorCounted,
    ParentSlip::ClientsOfAClientCounted,
    ParentSlip::ClientsOfAReflectorCounted,
    ParentSlip::LowerNumbersCounted,
    ParentSlip::HigherNumbersCounted,
    ParentSlip::Role1Counted,
    ParentSlip::Role3Counted,
    ParentSlip::HopStepNotCounted,
    ParentSlip::HopStepCounted,
    ParentSlip::FirstClientCounted,
    ParentSlip::LastClientNotCounted,
    ParentSlip::BeforeFour,
    ParentSlip::BeforeFive,
    ParentSlip::AfterSix,
    ParentSlip::AfterSeven,
];

/// What a checker with this slip says of a plan that is due this refusal.
pub fn check(slip: ParentSlip, plan: &[u8], refusal: u8) -> u8 {
    if (1..=3).contains(&refusal) {
        return refusal;
    }
    let is_crowded = is_crowded(slip, &Bodies::of(plan));
    let later = without_sessions(plan);
    match (slip, refusal) {
        (ParentSlip::BeforeFour, 4) | (ParentSlip::BeforeFive, 5) if is_crowded => 13,
        (_, 4 | 5) => refusal,
        (ParentSlip::AfterSix, _) if later == 6 => 6,
        (ParentSlip::AfterSeven, _) if later > 0 => later,
        _ if is_crowded => 13,
        _ => later,
    }
}

/// The refusal of the plan without its sessions.
fn without_sessions(plan: &[u8]) -> u8 {
    let bodies = Bodies { sessions: Vec::new(), ..Bodies::of(plan) };
    plan::read(&bodies.bytes()).err().unwrap_or(0)
}

/// Whether a checker with this slip counts too many parents of some router.
fn is_crowded(slip: ParentSlip, bodies: &Bodies) -> bool {
    let roles: Vec<u8> = bodies.routers.iter().step_by(5).copied().collect();
    let mut parents = vec![0; roles.len()];
    for pair in bodies.sessions.chunks_exact(2) {
        let (one, other) = (usize::from(pair[0]), usize::from(pair[1]));
        // A session with itself, or with a number past n, breaks the rule of sessions.
        if one < roles.len() && other < roles.len() {
            parents[one] += u8::from(counts(slip, &roles, one, other));
            parents[other] += u8::from(counts(slip, &roles, other, one));
        }
    }
    parents.into_iter().any(|count| match slip {
        ParentSlip::FiveAllowed => count > 5,
        ParentSlip::SixAllowed => count == 5,
        ParentSlip::FourRefused => count > 3,
        _ => count > 4,
    })
}

/// Whether a checker with this slip counts a router's neighbour.
fn counts(slip: ParentSlip, roles: &[u8], router: Router, other: Router) -> bool {
    let (is_client, is_parent) = (roles[router] == CLIENT, roles[other] != CLIENT);
    let of_client = match slip {
        ParentSlip::ReflectorsOfAReflectorCounted => return is_parent,
        ParentSlip::ClientsOfAClientCounted => return is_client,
        ParentSlip::ClientsOfAReflectorCounted => return !is_client && !is_parent,
        ParentSlip::LowerNumbersCounted => other < router,
        ParentSlip::HigherNumbersCounted => other > router,
        ParentSlip::Role1Counted => roles[other] == REFLECTOR,
        ParentSlip::Role3Counted => roles[other] == SKIPPING,
        ParentSlip::HopStepNotCounted => roles[other] < STEPPING,
        ParentSlip::HopStepCounted => roles[other] >= STEPPING,
        ParentSlip::FirstClientCounted => !roles[..router].contains(&CLIENT),
        ParentSlip::LastClientNotCounted => roles[router + 1..].contains(&CLIENT),
        _ => true,
    };
    is_client && is_parent && of_client
}
