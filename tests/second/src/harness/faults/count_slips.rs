//! The slips of checkers in the count 0 of an egress list, and in a plan without a list. In
//! one call they take a plan for another.

use super::misreader::{PlanCall, BY_DISTANCES, WITHOUT_DISTANCES};
use crate::harness::plans::draft::Bodies;
use crate::oracle::mark::Mark;
use crate::oracle::plan::{self, MOST_LISTS};

#[derive(Clone, Copy, Debug, PartialEq, Eq)]
pub enum CountSlip {
    ZeroRefused,
    ZeroRefusedInRrp1,
    ZeroRefusedInRrp2,
    ZeroRefusedAsTheFirst,
    ZeroRefusedAsTheLast,
    ZeroRefusedInEveryList,
    /// What follows is not read.
    ZeroEndsTheLists,
    ZeroTakenForNoList,
    ZeroTakenForOne,
    NoListsAccepted,
    EmptyBodyAccepted,
}

const COUNT_SLIPS: [CountSlip; 11] = [
    CountSlip::ZeroRefused,
    CountSlip::ZeroRefusedInRrp1,
    CountSlip::ZeroRefusedInRrp2,
    CountSlip::ZeroRefusedAsTheFirst,
    CountSlip::ZeroRefusedAsTheLast,
    CountSlip::ZeroRefusedInEveryList,
    CountSlip::ZeroEndsTheLists,
    CountSlip::ZeroTakenForNoList,
    CountSlip::ZeroTakenForOne,
    CountSlip::NoListsAccepted,
    CountSlip::EmptyBodyAccepted,
];

/// Each slip, with the calls in which it shows.
pub fn count_faults() -> Vec<(CountSlip, Vec<PlanCall>)> {
    let conversions = |slip: CountSlip| match slip {
        CountSlip::ZeroRefusedInRrp1 => vec![PlanCall::Widen],
        CountSlip::ZeroRefusedInRrp2 => vec![PlanCall::Narrow],
        _ => vec![PlanCall::Widen, PlanCall::Narrow],
    };
    let calls = |slip: CountSlip| [&WITHOUT_DISTANCES[..], &BY_DISTANCES, &conversions(slip)].concat();
    COUNT_SLIPS.map(|slip| (slip, calls(slip))).into()
}

/// The plan that a checker with this slip takes a plan for.
pub fn taken_for(slip: CountSlip, plan: &[u8]) -> Option<Vec<u8>> {
    if matches!(plan::read(plan), Err(1..=3)) {
        return None;
    }
    let mut bodies = Bodies::of(plan);
    bodies.lists = match (slip, &bodies.lists[..]) {
        (CountSlip::NoListsAccepted, [0]) | (CountSlip::EmptyBodyAccepted, []) => vec![1, 0],
        (_, &[m, ..]) if usize::from(m) > MOST_LISTS => return None,
        _ => lists(slip, &bodies)?,
    };
    Some(bodies.bytes())
}

/// The lists, if one of them is empty, that a checker with this slip takes those of a plan
/// for; refused ones are taken for no bytes.
fn lists(slip: CountSlip, bodies: &Bodies) -> Option<Vec<u8>> {
    let (mut lists, counts) = (bodies.lists.clone(), bodies.counts());
    let empty: Vec<usize> = (0..counts.len()).filter(|&list| lists[counts[list]] == 0).collect();
    let (first, last) = (*empty.first()?, *empty.last()?);
    let is_refused = match slip {
        CountSlip::ZeroRefused => true,
        CountSlip::ZeroRefusedInRrp1 => bodies.mark == Mark::Rrp1,
        CountSlip::ZeroRefusedInRrp2 => bodies.mark == Mark::Rrp2,
        CountSlip::ZeroRefusedAsTheFirst => first == 0,
        CountSlip::ZeroRefusedAsTheLast => counts[last] + 1 == lists.len(),
        CountSlip::ZeroRefusedInEveryList => empty.len() == counts.len(),
        _ => false,
    };
    match slip {
        _ if is_refused => lists.clear(),
        CountSlip::ZeroEndsTheLists => {
            lists[0] = first as u8 + 1;
            lists.truncate(counts[first] + 1);
        }
        CountSlip::ZeroTakenForNoList => {
            lists[0] -= empty.len() as u8;
            empty.iter().rev().for_each(|&list| _ = lists.remove(counts[list]));
        }
        CountSlip::ZeroTakenForOne => lists[counts[first]] = 1,
        _ => return None,
    }
    Some(lists)
}
