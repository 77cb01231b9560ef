//! The slips of checkers in the call for figures: what they count, when they refuse, and what they
//! write.

use crate::interface::{Checker, FigureFields};
use crate::oracle::plan::{self, Plan, Router};
use crate::oracle::rules::{Case, Right};
use crate::oracle::verdict::{self, Outcome, Ranks};
use crate::oracle::Oracle;

#[derive(Clone, Copy, Debug, PartialEq, Eq)]
pub enum FigureSlip {
    /// The highest rank 0 is given where there is none.
    AbsentTakenForZero,
    HighestLeftWhereThereIsNone,
    HighestZeroIsAbsent,
    HighestOfTheLastList,
    /// The length of the cycle.
    RankOfSuspectListsCounted,
    SuspectListsHaveRankZero,
    RoutersOfEachRankCounted,
    EveryRankReachedCounted,
    GroupCountedOnce,
    CycleCountedForItsGroups,
    FirstGroupAlone,
    LabelsCountedForGroups,
    RoutersCountedOnce,
    FirstListAlone,
    LastListLeftOut,
    EmptyListsLeftOut,
    StableAndSuspectExchanged,
    CountsExchanged,
    StableOfOneByte,
    SuspectOfOneByte,
    HighestOfOneByte,
    HasHighestWrittenAsAWord,
    ByteAfterTheStable,
    ByteAfterTheSuspect,
    ByteAfterTheHighest,
    ByteAfterTheRanks,
    ByteAfterTheRouters,
    RestCleared,
    RanksAddedToWhatWasThere,
    RanksNotCleared,
    RoutersNotCleared,
    RoomForRankNNeeded,
    RoomOfRanksNotAsked,
    RoomOfRoutersNotAsked,
    NineForBothAlone,
    BuffersClearedOnRefusal,
    FieldsClearedOnRefusal,
}

pub const FIGURE_SLIPS: [FigureSlip; 37] = [
    FigureSlip::AbsentTakenForZero,
    FigureSlip::HighestLeftWhereThereIsNone,
    FigureSlip::HighestZeroIsAbsent,
    FigureSlip::HighestOfTheLastList,
    FigureSlip::RankOfSuspectListsCounted,
    FigureSlip::SuspectListsHaveRankZero,
    FigureSlip::RoutersOfEachRankCounted,
    FigureSlip::EveryRankReachedCounted,
    FigureSlip::GroupCountedOnce,
    FigureSlip::CycleCountedForItsGroups,
    FigureSlip::FirstGroupAlone,
    FigureSlip::LabelsCountedForGroups,
    FigureSlip::RoutersCountedOnce,
    FigureSlip::FirstListAlone,
    FigureSlip::LastListLeftOut,
    FigureSlip::EmptyListsLeftOut,
    FigureSlip::StableAndSuspectExchanged,
    FigureSlip::CountsExchanged,
    FigureSlip::StableOfOneByte,
    FigureSlip::SuspectOfOneByte,
    FigureSlip::HighestOfOneByte,
    FigureSlip::HasHighestWrittenAsAWord,
    FigureSlip::ByteAfterTheStable,
    FigureSlip::ByteAfterTheSuspect,
    FigureSlip::ByteAfterTheHighest,
    FigureSlip::ByteAfterTheRanks,
    FigureSlip::ByteAfterTheRouters,
    FigureSlip::RestCleared,
    FigureSlip::RanksAddedToWhatWasThere,
    FigureSlip::RanksNotCleared,
    FigureSlip::RoutersNotCleared,
    FigureSlip::RoomForRankNNeeded,
    FigureSlip::RoomOfRanksNotAsked,
    FigureSlip::RoomOfRoutersNotAsked,
    FigureSlip::NineForBothAlone,
    FigureSlip::BuffersClearedOnRefusal,
    FigureSlip::FieldsClearedOnRefusal,
];

/// The slips that show by what document 02 states of the figures beside verdicts.
pub const STATED_FIGURE_SLIPS: [FigureSlip; 21] = [
    FigureSlip::AbsentTakenForZero,
    FigureSlip::HighestLeftWhereThereIsNone,
    FigureSlip::HighestZeroIsAbsent,
    FigureSlip::HighestOfTheLastList,
    FigureSlip::RankOfSuspectListsCounted,
    FigureSlip::SuspectListsHaveRankZero,
    FigureSlip::RoutersOfEachRankCounted,
    FigureSlip::EveryRankReachedCounted,
    FigureSlip::GroupCountedOnce,
    FigureSlip::CycleCountedForItsGroups,
    FigureSlip::FirstGroupAlone,
    FigureSlip::LabelsCountedForGroups,
    FigureSlip::RoutersCountedOnce,
    FigureSlip::FirstListAlone,
    FigureSlip::LastListLeftOut,
    FigureSlip::EmptyListsLeftOut,
    FigureSlip::StableAndSuspectExchanged,
    FigureSlip::CountsExchanged,
    FigureSlip::ByteAfterTheRanks,
    FigureSlip::ByteAfterTheRouters,
    FigureSlip::RoutersNotCleared,
];

/// What a checker with a slip counts.
struct Counted {
    by_rank: Vec<u8>,
    by_router: Vec<u8>,
    lists: [u64; 2],
    highest: Option<u64>,
}

/// Counts a list.
fn of_list(slip: FigureSlip, case: Case, counted: &mut Counted) {
    let verdict = verdict::verdict(&Right, case);
    match &verdict.outcome {
        Outcome::Stable { ranks, .. } => of_stable(slip, ranks, counted),
        Outcome::Suspect { cycle } => {
            counted.lists[1] += 1;
            match slip {
                FigureSlip::RankOfSuspectListsCounted => counted.by_rank[cycle.len().min(case.plan.n - 1)] += 1,
                FigureSlip::SuspectListsHaveRankZero => counted.by_rank[0] += 1,
                FigureSlip::CycleCountedForItsGroups => {
                    cycle.iter().for_each(|&router| counted.by_router[router] += 1);
                    return;
                }
                _ => (),
            }
        }
    }
    of_groups(slip, &verdict.labels, counted);
}

fn of_stable(slip: FigureSlip, ranks: &Ranks, counted: &mut Counted) {
    let highest = verdict::highest(ranks);
    counted.lists[0] += 1;
    counted.highest = match slip {
        FigureSlip::HighestOfTheLastList => Some(highest),
        _ => counted.highest.max(Some(highest)),
    };
    let by_rank = &mut counted.by_rank;
    match slip {
        FigureSlip::RoutersOfEachRankCounted => {
            ranks.values().for_each(|&rank| by_rank[rank] = by_rank[rank].wrapping_add(1));
        }
        FigureSlip::EveryRankReachedCounted => by_rank[..=highest as usize].iter_mut().for_each(|count| *count += 1),
        _ => by_rank[highest as usize] += 1,
    }
}

fn of_groups(slip: FigureSlip, labels: &[Router], counted: &mut Counted) {
    let shares = |router: Router| labels.iter().filter(|&&label| label == labels[router]).count() > 1;
    let first = (0..labels.len()).find(|&router| shares(router)).map(|router| labels[router]);
    for (router, lists) in counted.by_router.iter_mut().enumerate() {
        let counts = match slip {
            FigureSlip::GroupCountedOnce => shares(router) && labels[router] == router,
            FigureSlip::FirstGroupAlone => Some(labels[router]) == first,
            FigureSlip::LabelsCountedForGroups => labels[router] != router,
            FigureSlip::RoutersCountedOnce => shares(router) && *lists == 0,
            _ => shares(router),
        };
        *lists += u8::from(counts);
    }
}

fn counted(slip: FigureSlip, plan: &Plan) -> Counted {
    let n = plan.n;
    let mut counted = Counted { by_rank: vec![0; n], by_router: vec![0; n], lists: [0; 2], highest: None };
    let kept = match slip {
        FigureSlip::FirstListAlone => 1,
        FigureSlip::LastListLeftOut => plan.lists.len() - 1,
        _ => plan.lists.len(),
    };
    for list in &plan.lists[..kept] {
        if slip != FigureSlip::EmptyListsLeftOut || !list.listed.is_empty() {
            of_list(slip, Case { plan, listed: &list.listed }, &mut counted);
        }
    }
    match slip {
        FigureSlip::StableAndSuspectExchanged => counted.lists.reverse(),
        FigureSlip::HighestZeroIsAbsent => counted.highest = counted.highest.filter(|&highest| highest > 0),
        FigureSlip::AbsentTakenForZero => counted.highest = counted.highest.or(Some(0)),
        _ => (),
    }
    counted
}

/// The call with one slip; the buffers are the counts by rank and those by router.
pub fn figures(
    slip: FigureSlip,
    inner: &mut Oracle<Right>,
    bytes: &[u8],
    [by_rank, by_router]: [&mut [u8]; 2],
    fields: &mut FigureFields,
) -> u8 {
    let refusal = inner.check(bytes);
    let plan = plan::read(bytes).ok().filter(|_| refusal == 0);
    let refusal = plan.as_ref().map_or(refusal, |plan| room(slip, plan.n, [by_rank.len(), by_router.len()]));
    match plan.filter(|_| refusal == 0) {
        Some(plan) => {
            let counted = counted(slip, &plan);
            write(slip, &counted, [by_rank, by_router]);
            put(slip, &counted, fields);
        }
        None if slip == FigureSlip::BuffersClearedOnRefusal => {
            by_rank.fill(0);
            by_router.fill(0);
        }
        None if slip == FigureSlip::FieldsClearedOnRefusal => fields.put([0, 0], None),
        None => (),
    }
    refusal
}

/// Refusal 9, as a checker with this slip gives it.
fn room(slip: FigureSlip, n: usize, lengths: [usize; 2]) -> u8 {
    let [ranks, routers] = lengths.map(|length| length < n);
    let is_short = match slip {
        FigureSlip::RoomForRankNNeeded => routers || lengths[0] < n + 1,
        FigureSlip::RoomOfRanksNotAsked => routers,
        FigureSlip::RoomOfRoutersNotAsked => ranks,
        FigureSlip::NineForBothAlone => ranks && routers,
        _ => ranks || routers,
    };
    9 * u8::from(is_short)
}

fn write(slip: FigureSlip, counted: &Counted, [by_rank, by_router]: [&mut [u8]; 2]) {
    let n = counted.by_rank.len();
    let fill = |buffer: &mut [u8], counts: &[u8], with: fn(u8, u8) -> u8| {
        buffer.iter_mut().zip(counts).for_each(|(byte, &count)| *byte = with(*byte, count));
    };
    let plain = |_: u8, count: u8| count;
    let not_cleared = |before: u8, count: u8| if count == 0 { before } else { count };
    let (ranks, routers) = match slip {
        FigureSlip::CountsExchanged => (&counted.by_router, &counted.by_rank),
        _ => (&counted.by_rank, &counted.by_router),
    };
    match slip {
        FigureSlip::RanksAddedToWhatWasThere => fill(by_rank, ranks, u8::wrapping_add),
        FigureSlip::RanksNotCleared => fill(by_rank, ranks, not_cleared),
        _ => fill(by_rank, ranks, plain),
    }
    match slip {
        FigureSlip::RoutersNotCleared => fill(by_router, routers, not_cleared),
        _ => fill(by_router, routers, plain),
    }
    let rest = |buffer: &mut [u8], most: usize| buffer.iter_mut().skip(n).take(most).for_each(|byte| *byte = 0);
    match slip {
        FigureSlip::ByteAfterTheRanks => rest(by_rank, 1),
        FigureSlip::ByteAfterTheRouters => rest(by_router, 1),
        FigureSlip::RestCleared => [by_rank, by_router].into_iter().for_each(|buffer| rest(buffer, usize::MAX)),
        _ => (),
    }
}

fn put(slip: FigureSlip, counted: &Counted, fields: &mut FigureFields) {
    let before = *fields;
    fields.put(counted.lists, counted.highest);
    let one_byte = |before: u64, value: u64| before >> 8 << 8 | value;
    match slip {
        FigureSlip::HighestLeftWhereThereIsNone if counted.highest.is_none() => fields.highest = before.highest,
        FigureSlip::StableOfOneByte => fields.stable.value = one_byte(before.stable.value, fields.stable.value),
        FigureSlip::SuspectOfOneByte => fields.suspect.value = one_byte(before.suspect.value, fields.suspect.value),
        FigureSlip::HighestOfOneByte => fields.highest.value = one_byte(before.highest.value, fields.highest.value),
        FigureSlip::HasHighestWrittenAsAWord => fields.has_highest.after[..3].fill(0),
        FigureSlip::ByteAfterTheStable => fields.stable.after[0] = 0,
        FigureSlip::ByteAfterTheSuspect => fields.suspect.after[0] = 0,
        FigureSlip::ByteAfterTheHighest => fields.highest.after[0] = 0,
        _ => (),
    }
}
