//! The slips of checkers in the explanation of a reliance.

use super::slips::Slip;
use crate::interface::{Checker, ExplainFields};
use crate::oracle::rules::Right;
use crate::oracle::Oracle;

/// The call with one slip, for a list and two routers.
pub fn explain(
    slip: Slip,
    inner: &mut Oracle<Right>,
    plan: &[u8],
    asked: [usize; 3],
    fields: &mut ExplainFields,
) -> u8 {
    let [list, router, other] = match slip {
        Slip::ExplainedRoutersExchanged => [asked[0], asked[2], asked[1]],
        Slip::ExplainedNumbersCutToAByte => asked.map(|number| number % 256),
        _ => asked,
    };
    let before = *fields;
    let refusal = inner.explain(plan, list, (router, other), fields);
    if refusal != 0 {
        clear(slip, fields);
        return refusal;
    }
    miswrite(slip, other, fields);
    leave(slip, &before, fields);
    write_beside(slip, fields);
    refusal
}

/// A result variable cleared beside a refusal.
fn clear(slip: Slip, fields: &mut ExplainFields) {
    match slip {
        Slip::ReliesClearedOnRefusal => fields.relies.value = 0,
        Slip::CodeClearedOnRefusal => fields.code.value = 0,
        Slip::OfferClearedOnRefusal => fields.offer.value = 0,
        Slip::HasOwnClearedOnRefusal => fields.has_own.value = 0,
        Slip::OwnClearedOnRefusal => fields.own.value = 0,
        Slip::ExplainedMarginClearedOnRefusal => fields.margin.value = 0,
        _ => (),
    }
}

/// Another value than the right one.
fn miswrite(slip: Slip, other: usize, fields: &mut ExplainFields) {
    let rule = (fields.relies.value == 1).then_some(fields.code.value);
    match (slip, rule) {
        (Slip::ReliesAndCodeExchanged, _) => (fields.relies, fields.code) = (fields.code, fields.relies),
        (Slip::NumberOfTheDroppedReasonUsed, None) if fields.code.value > 5 => fields.code.value -= 1,
        (Slip::OfferOfTheBestClientGiven, Some(3)) => fields.offer.value = other as u64,
        (Slip::HasOwnWithoutOwn, Some(4)) => fields.has_own.value = 1,
        (Slip::OwnWithoutHasOwn, Some(4)) => fields.has_own.value = 0,
        (Slip::ExplainedMarginCutToFourBytes, Some(4)) => {
            fields.margin.value = i64::from(fields.margin.value as i32);
        }
        _ => (),
    }
}

/// A variable, or some of its bytes, left as before the call.
fn leave(slip: Slip, before: &ExplainFields, fields: &mut ExplainFields) {
    let (offers, has_own) = (fields.relies.value == 1 && fields.code.value == 4, fields.has_own.value == 1);
    let low_byte = |before: u64, value: u64| before & !0xFF | value & 0xFF;
    match slip {
        Slip::OfferLeftWhereThereIsNone if !offers => fields.offer = before.offer,
        Slip::HasOwnLeftWhereThereIsNone if !has_own => fields.has_own = before.has_own,
        Slip::OwnLeftWhereThereIsNone if !has_own => fields.own = before.own,
        Slip::ExplainedMarginLeftWhereThereIsNone if !has_own => fields.margin = before.margin,
        Slip::OfferOfOneByte => fields.offer.value = low_byte(before.offer.value, fields.offer.value),
        Slip::OwnOfOneByte => fields.own.value = low_byte(before.own.value, fields.own.value),
        Slip::ExplainedMarginOfFourBytes => {
            fields.margin.value = before.margin.value >> 32 << 32 | fields.margin.value & 0xFFFF_FFFF;
        }
        _ => (),
    }
}

/// A write wider than the variable.
fn write_beside(slip: Slip, fields: &mut ExplainFields) {
    match slip {
        Slip::ReliesWrittenAsAWord => fields.relies.after[..3].fill(0),
        Slip::CodeWrittenAsAWord => fields.code.after[..3].fill(0),
        Slip::HasOwnWrittenAsAWord => fields.has_own.after[..3].fill(0),
        Slip::ByteAfterTheOffer => fields.offer.after[0] = 0,
        Slip::ByteAfterTheOwnRoute => fields.own.after[0] = 0,
        Slip::ByteAfterTheExplainedMargin => fields.margin.after[0] = 0,
        _ => (),
    }
}
