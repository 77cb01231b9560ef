//! The slips of checkers in the call for grades: what they take for a grade, how they count rounds,
//! when they refuse, and what they write.

use crate::interface::{Checker, GradeFields};
use crate::oracle::grade::{Grade, Machine, OwnRoutes};
use crate::oracle::plan;
use crate::oracle::rules::{Case, Right};
use crate::oracle::steady::MOST_GROUPED;
use crate::oracle::verdict;
use crate::oracle::Oracle;

#[derive(Clone, Copy, Debug, PartialEq, Eq)]
pub enum GradeSlip {
    LoopsTakenForStuck,
    StuckTakenForLoops,
    NoTableTakenForStuck,
    /// 1 wherever there is one steady table alone.
    OneSteadyTableRests,
    /// 1 wherever there is a steady table.
    AnySteadyTableRests,
    /// A router moves before the groups that it relies on rest.
    MovesBeforeTheOthersRest,
    OthersNotCarriedAlong,
    FirstStateLeftOut,
    LastStateLeftOut,
    BoundOneLower,
    BoundOneHigher,
    BoundByStates,
    OthersNotCounted,
    OthersThatRelyOnListedCounted,
    HighestRankPlusOne,
    StableByTheMachine,
    RoundsLeftWhereThereAreNone,
    GradeOfTheFirstList,
    ListCutToAByte,
    FifteenMissing,
    FifteenAtTwelve,
    FifteenBeforeEight,
    RoundsOfOneByte,
    GradeWrittenAsAWord,
    ByteAfterTheRounds,
    GradeClearedOnRefusal,
    RoundsClearedOnRefusal,
}

pub const GRADE_SLIPS: [GradeSlip; 27] = [
    GradeSlip::LoopsTakenForStuck,
    GradeSlip::StuckTakenForLoops,
    GradeSlip::NoTableTakenForStuck,
    GradeSlip::OneSteadyTableRests,
    GradeSlip::AnySteadyTableRests,
    GradeSlip::MovesBeforeTheOthersRest,
    GradeSlip::OthersNotCarriedAlong,
    GradeSlip::FirstStateLeftOut,
    GradeSlip::LastStateLeftOut,
    GradeSlip::BoundOneLower,
    GradeSlip::BoundOneHigher,
    GradeSlip::BoundByStates,
    GradeSlip::OthersNotCounted,
    GradeSlip::OthersThatRelyOnListedCounted,
    GradeSlip::HighestRankPlusOne,
    GradeSlip::StableByTheMachine,
    GradeSlip::RoundsLeftWhereThereAreNone,
    GradeSlip::GradeOfTheFirstList,
    GradeSlip::ListCutToAByte,
    GradeSlip::FifteenMissing,
    GradeSlip::FifteenAtTwelve,
    GradeSlip::FifteenBeforeEight,
    GradeSlip::RoundsOfOneByte,
    GradeSlip::GradeWrittenAsAWord,
    GradeSlip::ByteAfterTheRounds,
    GradeSlip::GradeClearedOnRefusal,
    GradeSlip::RoundsClearedOnRefusal,
];

/// The slips that show by what is stated of a grade beside verdicts, steady tables and series.
pub const STATED_GRADE_SLIPS: [GradeSlip; 8] = [
    GradeSlip::NoTableTakenForStuck,
    GradeSlip::AnySteadyTableRests,
    GradeSlip::HighestRankPlusOne,
    GradeSlip::StableByTheMachine,
    GradeSlip::RoundsLeftWhereThereAreNone,
    GradeSlip::GradeOfTheFirstList,
    GradeSlip::FifteenMissing,
    GradeSlip::FifteenAtTwelve,
];

/// The call with one slip.
pub fn grade(
    slip: GradeSlip,
    inner: &mut Oracle<Right>,
    (plan, list): (&[u8], usize),
    fields: &mut GradeFields,
) -> u8 {
    let before = *fields;
    let list = match slip {
        GradeSlip::ListCutToAByte => list % 256,
        GradeSlip::GradeOfTheFirstList if inner.grade(plan, list, &mut GradeFields::new(0, 0)) == 0 => 0,
        _ => list,
    };
    let refusal = inner.grade(plan, list, fields);
    match (slip, refusal) {
        (GradeSlip::FifteenMissing, 15) => {
            fields.put(1, 4);
            return 0;
        }
        (GradeSlip::FifteenBeforeEight, 8) if grouped(plan, 0) > MOST_GROUPED => return 15,
        (GradeSlip::FifteenAtTwelve, 0) if grouped(plan, list) == MOST_GROUPED => {
            *fields = before;
            return 15;
        }
        (GradeSlip::GradeClearedOnRefusal, 1..) => fields.grade.value = 0,
        (GradeSlip::RoundsClearedOnRefusal, 1..) => fields.rounds.value = 0,
        (_, 0) => graded(slip, plan, list, &before, fields),
        _ => (),
    }
    refusal
}

/// How many routers of a sound plan are in groups of two or more for a list.
fn grouped(bytes: &[u8], list: usize) -> usize {
    let plan = plan::read(bytes).expect("a sound plan");
    verdict::grouped(&Right, Case { plan: &plan, listed: &plan.lists[list].listed }).len()
}

/// Puts what a checker with this slip gives in place of the right grade.
fn graded(slip: GradeSlip, bytes: &[u8], list: usize, before: &GradeFields, fields: &mut GradeFields) {
    let plan = plan::read(bytes).expect("a sound plan");
    let case = Case { plan: &plan, listed: &plan.lists[list].listed };
    let reliances = verdict::reliances(&Right, case);
    let grouped = verdict::grouped_by(&reliances);
    let is_stable = grouped.is_empty();
    let own = OwnRoutes::new(&Right, case, &reliances, grouped);
    let (grade, rounds) = (fields.grade.value, fields.rounds.value);
    let in_place = match (slip, grade) {
        (GradeSlip::LoopsTakenForStuck, 2) => (3, 0),
        (GradeSlip::StuckTakenForLoops, 3) => (2, 0),
        (GradeSlip::NoTableTakenForStuck, 4) => (3, 0),
        (GradeSlip::OneSteadyTableRests, 2 | 3) if Machine::of(&own).at_rest().count() == 1 => (1, 4 + own.loose()),
        (GradeSlip::AnySteadyTableRests, 2 | 3) => (1, 4 + own.loose()),
        (GradeSlip::HighestRankPlusOne, _) if is_stable => (1, rounds - 1),
        (GradeSlip::StableByTheMachine, _) if is_stable => (1, 3 + own.loose()),
        (GradeSlip::RoundsLeftWhereThereAreNone, 2..) => (grade, before.rounds.value),
        (GradeSlip::RoundsOfOneByte, _) => (grade, before.rounds.value >> 8 << 8 | rounds),
        (
            GradeSlip::MovesBeforeTheOthersRest
            | GradeSlip::OthersNotCarriedAlong
            | GradeSlip::FirstStateLeftOut
            | GradeSlip::LastStateLeftOut,
            _,
        ) if !is_stable => by_another_machine(slip, &own),
        (_, 1) if !is_stable => (1, other_rounds(slip, &own, rounds)),
        _ => (grade, rounds),
    };
    fields.put(in_place.0, in_place.1);
    match slip {
        GradeSlip::GradeWrittenAsAWord => fields.grade.after[..3].fill(0),
        GradeSlip::ByteAfterTheRounds => fields.rounds.after[0] = 0,
        _ => (),
    }
}

/// The rounds of a suspect list.
fn other_rounds(slip: GradeSlip, own: &OwnRoutes, rounds: u64) -> u64 {
    match slip {
        GradeSlip::BoundOneLower => rounds - 1,
        GradeSlip::BoundOneHigher => rounds + 1,
        GradeSlip::BoundByStates => 3 + (1 << own.grouped.len()) - 1 + own.loose(),
        GradeSlip::OthersNotCounted => rounds - own.loose(),
        GradeSlip::OthersThatRelyOnListedCounted => rounds - own.loose() + own.others.len() as u64,
        _ => rounds,
    }
}

/// The grade and the rounds by a machine that moves wrongly, or in which a state is left out.
fn by_another_machine(slip: GradeSlip, own: &OwnRoutes) -> (u8, u64) {
    let last = (1 << own.grouped.len()) - 1;
    let movers = |state: usize| match slip {
        GradeSlip::MovesBeforeTheOthersRest => {
            own.unruled(own.held(state)).into_iter().fold(0, |set, (_, place)| set | 1 << place)
        }
        GradeSlip::OthersNotCarriedAlong => own.first_of(own.unruled(own.in_groups(state))),
        GradeSlip::FirstStateLeftOut if state == 0 => 0,
        GradeSlip::LastStateLeftOut if state == last => 0,
        _ => own.movers(state),
    };
    let machine = Machine { movers: (0..=last).map(movers).collect() };
    match machine.longest() {
        _ if Machine::of(own).at_rest().next().is_none() => (Grade::NoSteadyTable as u8, 0),
        Some(longest) => (Grade::AlwaysRests as u8, 3 + longest + own.loose()),
        None if machine.is_stuck() => (Grade::MayNeverRest as u8, 0),
        None => (Grade::CanAlwaysRest as u8, 0),
    }
}
