//! The slips of checkers in calls for an empty list, which they answer rightly but for one
//! thing.

use crate::interface::{ListFields, VerdictBuffers, VerdictFields};
use crate::oracle::plan;
use crate::oracle::tables::NONE;

#[derive(Clone, Copy, Debug, PartialEq, Eq)]
pub enum EmptyListSlip {
    PartAtTheStartOfThePlan,
    PartAtTheEndOfThePlan,
    PartAtItsCount,
    StartLeft,
    CountLeft,
    TakenForNoList,
    ClientWithoutAParentHasRank1,
    ClientWithAParentHasRank0,
    ReflectorHasRank1,
    HighestRankAlways0,
    HighestRankAlways1,
    LabelsLeft,
    RanksLeft,
    SettledTableLeft,
    TableLeft,
    TableClearedAtOnce,
    LeftOversRefused,
}

pub const EMPTY_LIST_SLIPS: [EmptyListSlip; 17] = [
    EmptyListSlip::PartAtTheStartOfThePlan,
    EmptyListSlip::PartAtTheEndOfThePlan,
    EmptyListSlip::PartAtItsCount,
    EmptyListSlip::StartLeft,
    EmptyListSlip::CountLeft,
    EmptyListSlip::TakenForNoList,
    EmptyListSlip::ClientWithoutAParentHasRank1,
    EmptyListSlip::ClientWithAParentHasRank0,
    EmptyListSlip::ReflectorHasRank1,
    EmptyListSlip::HighestRankAlways0,
    EmptyListSlip::HighestRankAlways1,
    EmptyListSlip::LabelsLeft,
    EmptyListSlip::RanksLeft,
    EmptyListSlip::SettledTableLeft,
    EmptyListSlip::TableLeft,
    EmptyListSlip::TableClearedAtOnce,
    EmptyListSlip::LeftOversRefused,
];

/// The list handed back, after the right answer.
pub fn list(slip: EmptyListSlip, plan: &[u8], before: ListFields, fields: &mut ListFields) -> u8 {
    match slip {
        EmptyListSlip::PartAtTheStartOfThePlan => fields.start = 0,
        EmptyListSlip::PartAtTheEndOfThePlan => fields.start = plan.len() as u64,
        EmptyListSlip::PartAtItsCount => fields.start -= 1,
        EmptyListSlip::StartLeft => fields.start = before.start,
        EmptyListSlip::CountLeft => fields.count = before.count,
        EmptyListSlip::TakenForNoList => {
            *fields = before;
            return 8;
        }
        _ => (),
    }
    0
}

/// The verdict on a sound plan, after the right one; labels, ranks and table were those `before`.
pub fn verdict(
    slip: EmptyListSlip,
    plan: &[u8],
    before: &[Vec<u8>; 3],
    lent: VerdictBuffers,
    fields: &mut VerdictFields,
) {
    let plan = plan::read(plan).expect("a plan that is not refused");
    let ranks = lent.ranks[..plan.n].iter_mut().enumerate();
    let given = ranks.map(|(router, rank)| {
        *rank = misranked(slip, plan.is_reflector(router), *rank);
        *rank
    });
    fields.size = given.max().unwrap_or(0).into();
    match slip {
        EmptyListSlip::HighestRankAlways0 => fields.size = 0,
        EmptyListSlip::HighestRankAlways1 => fields.size = 1,
        EmptyListSlip::LabelsLeft => lent.labels.copy_from_slice(&before[0]),
        EmptyListSlip::RanksLeft => lent.ranks.copy_from_slice(&before[1]),
        EmptyListSlip::SettledTableLeft => lent.table.copy_from_slice(&before[2]),
        _ => (),
    }
}

/// The rank that a checker with this slip gives a reflector or a client of this rank.
fn misranked(slip: EmptyListSlip, is_reflector: bool, rank: u8) -> u8 {
    match (slip, is_reflector) {
        (EmptyListSlip::ClientWithoutAParentHasRank1, false) | (EmptyListSlip::ReflectorHasRank1, true) => 1,
        (EmptyListSlip::ClientWithAParentHasRank0, false) => 0,
        _ => rank,
    }
}

/// The table after an activation or a run on a sound plan, and the refusal.
pub fn activated(slip: EmptyListSlip, plan: &[u8], before: &[u8], table: &mut [u8]) -> u8 {
    let length = 2 * usize::from(plan[4]);
    match slip {
        EmptyListSlip::TableLeft => table.copy_from_slice(before),
        EmptyListSlip::TableClearedAtOnce => table[..length].fill(NONE),
        EmptyListSlip::LeftOversRefused if before[..length].iter().any(|&byte| byte != NONE) => {
            table.copy_from_slice(before);
            return 10;
        }
        _ => (),
    }
    0
}
