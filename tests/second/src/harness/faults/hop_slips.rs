//! The slips of checkers with the hop step in the comparison of two routes: what they take
//! the two flags for, and what they say where the step decides.

use crate::harness::comparison::hop_step;
use crate::interface::{Compared, Handed};
use crate::oracle::plan::{Plan, Router};

#[derive(Clone, Copy, Debug, PartialEq, Eq)]
pub enum HopSlip {
    FlagCountsOnlyIfOne,
    FlagByItsLowBit,
    FlagByItsHighBit,
    FlagsExchanged,
    FirstFlagForBoth,
    SecondFlagForBoth,
    FlagsNotRead,
    MarginZeroedWhereTheStepDecides,
    NoMarginWhereTheStepDecides,
    MarginTurnedWhereTheStepDecides,
    TieLeftToTheNumbers,
}

pub const HOP_SLIPS: [HopSlip; 11] = [
    HopSlip::FlagCountsOnlyIfOne,
    HopSlip::FlagByItsLowBit,
    HopSlip::FlagByItsHighBit,
    HopSlip::FlagsExchanged,
    HopSlip::FirstFlagForBoth,
    HopSlip::SecondFlagForBoth,
    HopSlip::FlagsNotRead,
    HopSlip::MarginZeroedWhereTheStepDecides,
    HopSlip::NoMarginWhereTheStepDecides,
    HopSlip::MarginTurnedWhereTheStepDecides,
    HopSlip::TieLeftToTheNumbers,
];

/// The routes with the flags that a checker with this slip takes theirs for.
pub fn misread_flags(slip: HopSlip, routes: [Handed; 2]) -> [Handed; 2] {
    let [first, second] = routes.map(|route| route.direct);
    let flags = match slip {
        HopSlip::FlagCountsOnlyIfOne => [first, second].map(|flag| u8::from(flag == 1)),
        HopSlip::FlagByItsLowBit => [first & 1, second & 1],
        HopSlip::FlagByItsHighBit => [first >> 7, second >> 7],
        HopSlip::FlagsExchanged => [second, first],
        HopSlip::FirstFlagForBoth => [first; 2],
        HopSlip::SecondFlagForBoth => [second; 2],
        HopSlip::FlagsNotRead => [1; 2],
        _ => [first, second],
    };
    [0, 1].map(|place| Handed { direct: flags[place], ..routes[place] })
}

/// Another answer than the right one where the step decides.
pub fn misjudged(slip: HopSlip, plan: &Plan, at: Router, routes: [Handed; 2], answer: Compared) -> Compared {
    let (better, Some(margin)) = answer else { return answer };
    match slip {
        _ if !hop_step::decides(plan, at, routes) => answer,
        HopSlip::MarginZeroedWhereTheStepDecides => (better, Some(0)),
        HopSlip::NoMarginWhereTheStepDecides => (better, None),
        // So that its sign says which is better.
        HopSlip::MarginTurnedWhereTheStepDecides => {
            (better, Some(if better == 1 { -margin.abs() } else { margin.abs() }))
        }
        HopSlip::TieLeftToTheNumbers if margin == 0 => (1 + u8::from(routes[1].egress < routes[0].egress), Some(0)),
        _ => answer,
    }
}
