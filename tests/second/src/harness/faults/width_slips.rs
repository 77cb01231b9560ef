//! The slips of checkers in what a plan's mark says: the width of a distance, no way, and
//! how long the plan may be. In one call they take a plan for another.

use super::misreader::{PlanCall, BY_DISTANCES, WITHOUT_DISTANCES};
use crate::harness::plans::draft::{Bodies, NO_WAY};
use crate::oracle::mark::Mark;
use crate::oracle::plan;

#[derive(Clone, Copy, Debug, PartialEq, Eq)]
pub enum WidthSlip {
    HighByteFirst,
    CutToTwoBytes,
    CutToThreeBytes,
    NoWayBy65535,
    NoWayTakenForTheFarthest,
    FarthestTakenForNoWay,
    DiagonalByItsLowBytes,
    TwoBytesAcceptedInRrp2,
    FourBytesAcceptedInRrp1,
    LengthOfRrp2AcceptedInRrp1,
    LengthOfRrp1AskedOfRrp2,
    OneByteMoreAccepted,
    LongestRefused,
    AnotherMarkAccepted,
    LastLetterNotRead,
}

/// Slips in a distance, which show in calls that go by distances.
const DISTANCE_SLIPS: [WidthSlip; 6] = [
    WidthSlip::HighByteFirst,
    WidthSlip::CutToTwoBytes,
    WidthSlip::CutToThreeBytes,
    WidthSlip::NoWayBy65535,
    WidthSlip::NoWayTakenForTheFarthest,
    WidthSlip::FarthestTakenForNoWay,
];

/// Slips in a refusal, which show in every call.
const REFUSAL_SLIPS: [WidthSlip; 9] = [
    WidthSlip::DiagonalByItsLowBytes,
    WidthSlip::TwoBytesAcceptedInRrp2,
    WidthSlip::FourBytesAcceptedInRrp1,
    WidthSlip::LengthOfRrp2AcceptedInRrp1,
    WidthSlip::LengthOfRrp1AskedOfRrp2,
    WidthSlip::OneByteMoreAccepted,
    WidthSlip::LongestRefused,
    WidthSlip::AnotherMarkAccepted,
    WidthSlip::LastLetterNotRead,
];

/// Each slip, with the calls in which it shows.
pub fn width_faults() -> Vec<(WidthSlip, Vec<PlanCall>)> {
    let direction = |slip: WidthSlip| match slip {
        // What is taken for a plan of RRP1, or wrongly refused as one.
        WidthSlip::TwoBytesAcceptedInRrp2 | WidthSlip::LengthOfRrp2AcceptedInRrp1 | WidthSlip::LastLetterNotRead => {
            PlanCall::Widen
        }
        _ => PlanCall::Narrow,
    };
    let of_distances = DISTANCE_SLIPS.map(|slip| (slip, [&BY_DISTANCES[..], &[direction(slip)]].concat()));
    let of_refusals =
        REFUSAL_SLIPS.map(|slip| (slip, [&WITHOUT_DISTANCES[..], &BY_DISTANCES, &[direction(slip)]].concat()));
    of_distances.into_iter().chain(of_refusals).collect()
}

/// The plan that a checker with this slip takes a plan for.
pub fn taken_for(slip: WidthSlip, plan: &[u8]) -> Option<Vec<u8>> {
    let (mark, longest) = (Mark::of(plan), Mark::Rrp1.longest_plan());
    let refused_with_3 = |of: Mark| mark == Some(of) && plan::read(plan).err() == Some(3);
    match slip {
        WidthSlip::AnotherMarkAccepted if mark.is_none() => letters(plan, Mark::Rrp2),
        WidthSlip::AnotherMarkAccepted => None,
        WidthSlip::LastLetterNotRead => letters(plan, Mark::Rrp1),
        WidthSlip::LengthOfRrp2AcceptedInRrp1 => {
            let accepted = plan.len() > longest && plan.len() <= Mark::Rrp2.longest_plan();
            (mark? == Mark::Rrp1 && accepted).then(|| plan[..longest].to_vec())
        }
        WidthSlip::LengthOfRrp1AskedOfRrp2 => (mark? == Mark::Rrp2 && plan.len() > longest).then(Vec::new),
        WidthSlip::OneByteMoreAccepted => {
            let most = mark?.longest_plan();
            (plan.len() == most + 1).then(|| plan[..most].to_vec())
        }
        WidthSlip::LongestRefused => (plan.len() == mark?.longest_plan()).then(Vec::new),
        WidthSlip::TwoBytesAcceptedInRrp2 if refused_with_3(Mark::Rrp2) => letters(plan, Mark::Rrp1),
        WidthSlip::FourBytesAcceptedInRrp1 if refused_with_3(Mark::Rrp1) => letters(plan, Mark::Rrp2),
        _ if mark? == Mark::Rrp2 && !matches!(plan::read(plan), Err(1..=3)) => Some(distances(slip, plan)),
        _ => None,
    }
}

/// The plan with the letters of this mark, where the last letter alone may differ.
fn letters(plan: &[u8], mark: Mark) -> Option<Vec<u8>> {
    (plan.len() > 3 && plan.starts_with(b"RRP")).then(|| [mark.letters(), &plan[4..]].concat())
}

/// A plan of RRP2 with the distances that a checker with this slip reads.
fn distances(slip: WidthSlip, plan: &[u8]) -> Vec<u8> {
    let mut bodies = Bodies::of(plan);
    let from_itself_to_itself = usize::from(bodies.n) + 1;
    let distances = bodies.read_distances().into_iter().enumerate().map(|(place, distance)| match slip {
        WidthSlip::HighByteFirst => distance.swap_bytes(),
        WidthSlip::CutToTwoBytes if distance != NO_WAY => distance % 65_536,
        WidthSlip::CutToThreeBytes if distance != NO_WAY => distance % 16_777_216,
        WidthSlip::NoWayBy65535 if distance == 65_535 => NO_WAY,
        WidthSlip::NoWayTakenForTheFarthest if distance == NO_WAY => Mark::Rrp2.farthest(),
        WidthSlip::FarthestTakenForNoWay if distance == Mark::Rrp2.farthest() => NO_WAY,
        WidthSlip::DiagonalByItsLowBytes if place.is_multiple_of(from_itself_to_itself) => distance % 65_536,
        _ => distance,
    });
    bodies.write_distances(distances, Mark::Rrp2);
    bodies.bytes()
}
