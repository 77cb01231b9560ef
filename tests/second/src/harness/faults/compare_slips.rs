//! The slips of checkers in the comparison of two routes.

use super::hop_slips;
use super::slips::Slip;
use crate::interface::{Checker, CompareFields, Compared, Handed};
use crate::oracle::plan::{self, Plan};
use crate::oracle::rules::Right;
use crate::oracle::Oracle;

/// The router and the two routes of a comparison.
type Asked = (usize, [Handed; 2]);

/// The call with one slip.
pub fn compare(slip: Slip, inner: &mut Oracle<Right>, bytes: &[u8], asked: Asked, fields: &mut CompareFields) -> u8 {
    let (router, routes) = misasked(slip, asked);
    let before = fields.margin.value;
    let refusal = inner.compare(bytes, router, routes, fields);
    if refusal != 0 {
        clear(slip, fields);
        return refusal;
    }
    let plan = plan::read(bytes).expect("a plan that is not refused");
    let answer = (fields.better.value, (fields.has_margin.value == 1).then_some(fields.margin.value));
    fields.put(match slip {
        Slip::Hop(slip) => hop_slips::misjudged(slip, &plan, router, routes, answer),
        _ => misjudged(slip, &plan, [router, routes[0].egress, routes[1].egress], answer),
    });
    match slip {
        Slip::MarginLeftWhereThereIsNone if fields.has_margin.value == 0 => fields.margin.value = before,
        Slip::MarginOfFourBytes => fields.margin.value = before >> 32 << 32 | fields.margin.value & 0xFFFF_FFFF,
        Slip::ByteAfterTheMargin => fields.margin.after[0] = 0,
        Slip::HasMarginWrittenAsAWord => fields.has_margin.after[..3].fill(0),
        _ => (),
    }
    refusal
}

/// What a checker with this slip takes for what it is asked.
fn misasked(slip: Slip, (router, routes): Asked) -> Asked {
    match slip {
        Slip::FirstAndSecondExchanged => (router, [routes[1], routes[0]]),
        Slip::ComparedNumbersCutToAByte => {
            (router % 256, routes.map(|route| Handed { egress: route.egress % 256, ..route }))
        }
        Slip::Hop(slip) => (router, hop_slips::misread_flags(slip, routes)),
        _ => (router, routes),
    }
}

/// A result variable cleared beside a refusal.
fn clear(slip: Slip, fields: &mut CompareFields) {
    match slip {
        Slip::BetterClearedOnRefusal => fields.better.value = 0,
        Slip::HasMarginClearedOnRefusal => fields.has_margin.value = 0,
        Slip::MarginClearedOnRefusal => fields.margin.value = 0,
        _ => (),
    }
}

/// Another answer than the right one, for a router, a first and a second.
fn misjudged(slip: Slip, plan: &Plan, [at, first, second]: [usize; 3], (better, margin): Compared) -> Compared {
    let to = |egress: usize| plan.distances[at][egress].map(i64::from);
    let back = |egress: usize| plan.distances[egress][at].map(i64::from);
    let far = i64::from(plan.mark.no_way());
    let misjudged = match slip {
        Slip::TieIsNeither if margin == Some(0) => return (0, margin),
        Slip::MarginSignTurned => margin.map(|margin| -margin),
        Slip::MarginWithoutItsSign => margin.map(i64::abs),
        Slip::MarginInTens => margin.map(|margin| margin / 10),
        Slip::MarginCutToTwoBytes => margin.map(|margin| i64::from(margin as i16)),
        Slip::MarginCutToFourBytes => margin.map(|margin| i64::from(margin as i32)),
        Slip::MarginOfTheWaysBack => back(first).zip(back(second)).map(|(first, second)| first - second),
        Slip::NoWayTakenForADistance => Some(to(first).unwrap_or(far) - to(second).unwrap_or(far)),
        Slip::MarginWithOneWay => margin.or(to(first)).or(to(second).map(|second| -second)),
        Slip::MarginOfTwoWithoutAWay if to(first).or(to(second)).is_none() => Some(0),
        Slip::NoMarginOfATie => margin.filter(|&margin| margin != 0 || first == second),
        Slip::NoMarginOfTheSame => margin.filter(|_| first != second),
        _ => margin,
    };
    (better, misjudged)
}
