//! The slips of checkers in the converter's two calls.

use crate::harness::plans::draft::{Bodies, NO_WAY};
use crate::interface::{Checker, Lent};
use crate::oracle::mark::Mark;
use crate::oracle::rules::Right;
use crate::oracle::Oracle;

#[derive(Clone, Copy, Debug, PartialEq, Eq)]
pub enum ConvertSlip {
    OwnResultAccepted,
    MarkAskedAfterThePlan,
    FourteenForNoWay,
    FourteenForTheFarthest,
    FourteenBeforeSix,
    FourteenBeforeSeven,
    FourteenAfterNine,
    FourteenNever,
    TooFarSaturated,
    TooFarCut,
    NextAfterTheFarthestTakenForNoWay,
    NoWayWidenedTo65535,
    HighByteFirst,
    MarkLeft,
    LengthOfTheDistancesLeft,
    OffsetOfTheListsLeft,
    DistancesTransposed,
    ListsLeftOut,
    ExactBufferRefused,
    LengthOfTheSourceNeeded,
    MostLengthNeeded,
    LengthOfTheSourceReturned,
    LengthOfFourBytes,
    ByteAfterTheLength,
    ByteAfterTheResult,
    LengthClearedOnRefusal,
    LengthNeededGivenWithNine,
    WhatFitsWrittenBeforeNine,
    HeadWrittenBeforeFourteen,
}

pub const CONVERT_SLIPS: [ConvertSlip; 29] = [
    ConvertSlip::OwnResultAccepted,
    ConvertSlip::MarkAskedAfterThePlan,
    ConvertSlip::FourteenForNoWay,
    ConvertSlip::FourteenForTheFarthest,
    ConvertSlip::FourteenBeforeSix,
    ConvertSlip::FourteenBeforeSeven,
    ConvertSlip::FourteenAfterNine,
    ConvertSlip::FourteenNever,
    ConvertSlip::TooFarSaturated,
    ConvertSlip::TooFarCut,
    ConvertSlip::NextAfterTheFarthestTakenForNoWay,
    ConvertSlip::NoWayWidenedTo65535,
    ConvertSlip::HighByteFirst,
    ConvertSlip::MarkLeft,
    ConvertSlip::LengthOfTheDistancesLeft,
    ConvertSlip::OffsetOfTheListsLeft,
    ConvertSlip::DistancesTransposed,
    ConvertSlip::ListsLeftOut,
    ConvertSlip::ExactBufferRefused,
    ConvertSlip::LengthOfTheSourceNeeded,
    ConvertSlip::MostLengthNeeded,
    ConvertSlip::LengthOfTheSourceReturned,
    ConvertSlip::LengthOfFourBytes,
    ConvertSlip::ByteAfterTheLength,
    ConvertSlip::ByteAfterTheResult,
    ConvertSlip::LengthClearedOnRefusal,
    ConvertSlip::LengthNeededGivenWithNine,
    ConvertSlip::WhatFitsWrittenBeforeNine,
    ConvertSlip::HeadWrittenBeforeFourteen,
];

/// What is converted: a plan, by the call that takes plans of this mark.
#[derive(Clone, Copy)]
pub struct Asked<'a> {
    pub from: Mark,
    pub plan: &'a [u8],
}

/// The call with one slip.
pub fn convert(
    slip: ConvertSlip,
    inner: &mut Oracle<Right>,
    asked: Asked,
    out: &mut [u8],
    length: &mut Lent<u64>,
) -> u8 {
    let result = misconverted(slip, inner, asked);
    let refusal = match &result {
        Err(refusal) => *refusal,
        Ok(result) => refusal_of_buffer(slip, asked, result, out.len()),
    };
    match (refusal, &result) {
        (0, Ok(result)) => write(slip, asked, result, out, length),
        _ => write_though_refused(slip, refusal, result.as_deref().unwrap_or(asked.plan), out, length),
    }
    match (slip, refusal) {
        (ConvertSlip::FourteenAfterNine, 14) if out.len() < narrow_length(asked.plan) => 9,
        _ => refusal,
    }
}

/// The right result, or the refusal with a buffer that is long enough.
fn converted(inner: &mut Oracle<Right>, asked: Asked) -> Result<Vec<u8>, u8> {
    let (mut out, mut length) = (vec![0; 2 * asked.plan.len()], Lent::new(0));
    let refusal = match asked.from {
        Mark::Rrp1 => inner.widen(asked.plan, &mut out, &mut length),
        Mark::Rrp2 => inner.narrow(asked.plan, &mut out, &mut length),
    };
    out.truncate(length.value as usize);
    if refusal == 0 {
        Ok(out)
    } else {
        Err(refusal)
    }
}

/// The length of a plan of RRP2, not refused with 1 to 3, if it is narrowed.
fn narrow_length(plan: &[u8]) -> usize {
    plan.len() - Bodies::of(plan).distances.len() / 2
}

/// What a checker with this slip converts a plan to, or refuses it with.
fn misconverted(slip: ConvertSlip, inner: &mut Oracle<Right>, asked: Asked) -> Result<Vec<u8>, u8> {
    let Asked { from, plan } = asked;
    match (slip, converted(inner, asked)) {
        (_, Ok(result)) => admitted(slip, asked, result),
        (ConvertSlip::OwnResultAccepted, Err(1)) if inner.check(plan) == 0 => Ok(plan.to_vec()),
        (ConvertSlip::MarkAskedAfterThePlan, Err(1)) if inner.check(plan) > 0 => Err(inner.check(plan)),
        (ConvertSlip::FourteenBeforeSix, Err(6)) if is_too_far(asked) => Err(14),
        (ConvertSlip::FourteenBeforeSeven, Err(7)) if is_too_far(asked) => Err(14),
        (_, Err(14)) => {
            let nearer = replaced(plan, |distance| nearer(slip, distance));
            converted(inner, Asked { from, plan: &nearer })
        }
        (_, refused) => refused,
    }
}

/// A distance of RRP2 that a checker with this slip takes this one for.
fn nearer(slip: ConvertSlip, distance: u32) -> u32 {
    let farthest = Mark::Rrp1.farthest();
    match slip {
        _ if distance <= farthest || distance == NO_WAY => distance,
        ConvertSlip::FourteenNever => NO_WAY,
        ConvertSlip::TooFarSaturated => farthest,
        // Two bytes of 255 are no way again.
        ConvertSlip::TooFarCut if distance % 65_536 == 65_535 => NO_WAY,
        ConvertSlip::TooFarCut => distance % 65_536,
        ConvertSlip::NextAfterTheFarthestTakenForNoWay if distance == farthest + 1 => NO_WAY,
        _ => distance,
    }
}

fn is_too_far(asked: Asked) -> bool {
    let farthest = Mark::Rrp1.farthest();
    asked.from == Mark::Rrp2
        && Bodies::of(asked.plan).read_distances().iter().any(|&distance| farthest < distance && distance < NO_WAY)
}

/// The plan with other distances, of the same mark.
fn replaced(plan: &[u8], other: impl Fn(u32) -> u32) -> Vec<u8> {
    let mut bodies = Bodies::of(plan);
    bodies.write_distances(bodies.read_distances().into_iter().map(other), bodies.mark);
    bodies.bytes()
}

/// A result that is due, or the refusal by a checker with this slip.
fn admitted(slip: ConvertSlip, asked: Asked, result: Vec<u8>) -> Result<Vec<u8>, u8> {
    let distances = Bodies::of(&result).read_distances();
    let narrowed = asked.from == Mark::Rrp2;
    match slip {
        ConvertSlip::FourteenForNoWay if narrowed && distances.contains(&NO_WAY) => Err(14),
        ConvertSlip::FourteenForTheFarthest if narrowed && distances.contains(&65_534) => Err(14),
        _ => Ok(miswritten(slip, asked.plan, result)),
    }
}

/// Another result than the right one.
fn miswritten(slip: ConvertSlip, plan: &[u8], mut result: Vec<u8>) -> Vec<u8> {
    let mut bodies = Bodies::of(&result);
    let (width, n) = (bodies.mark.width(), usize::from(bodies.n));
    match slip {
        ConvertSlip::NoWayWidenedTo65535 if bodies.mark == Mark::Rrp2 => {
            return replaced(&result, |distance| if distance == NO_WAY { 65_535 } else { distance });
        }
        ConvertSlip::HighByteFirst => bodies.distances.chunks_exact_mut(width).for_each(<[u8]>::reverse),
        ConvertSlip::DistancesTransposed => {
            let distances = bodies.read_distances();
            bodies.write_distances((0..n * n).map(|place| distances[place % n * n + place / n]), bodies.mark);
        }
        ConvertSlip::ListsLeftOut => bodies.lists.clear(),
        ConvertSlip::MarkLeft => result[..4].copy_from_slice(&plan[..4]),
        ConvertSlip::LengthOfTheDistancesLeft => result[19..21].copy_from_slice(&plan[19..21]),
        ConvertSlip::OffsetOfTheListsLeft => result[22..24].copy_from_slice(&plan[22..24]),
        _ => (),
    }
    match slip {
        ConvertSlip::HighByteFirst | ConvertSlip::DistancesTransposed | ConvertSlip::ListsLeftOut => bodies.bytes(),
        _ => result,
    }
}

fn refusal_of_buffer(slip: ConvertSlip, asked: Asked, result: &[u8], room: usize) -> u8 {
    let need = match slip {
        ConvertSlip::ExactBufferRefused => result.len() + 1,
        ConvertSlip::LengthOfTheSourceNeeded => asked.plan.len(),
        ConvertSlip::MostLengthNeeded => asked.from.other().longest_plan(),
        _ => result.len(),
    };
    if room < need {
        9
    } else {
        0
    }
}

fn write(slip: ConvertSlip, asked: Asked, result: &[u8], out: &mut [u8], length: &mut Lent<u64>) {
    out.iter_mut().zip(result).for_each(|(byte, &value)| *byte = value);
    let before = length.value;
    length.value = result.len() as u64;
    match slip {
        ConvertSlip::LengthOfTheSourceReturned => length.value = asked.plan.len() as u64,
        ConvertSlip::LengthOfFourBytes => length.value |= before >> 32 << 32,
        ConvertSlip::ByteAfterTheLength => length.after[0] = 0,
        ConvertSlip::ByteAfterTheResult if out.len() > result.len() => out[result.len()] = 0,
        _ => (),
    }
}

/// What a refused call writes; `bytes` are the result, or the plan if there is none.
fn write_though_refused(slip: ConvertSlip, refusal: u8, bytes: &[u8], out: &mut [u8], length: &mut Lent<u64>) {
    let fill = |out: &mut [u8], bytes: &[u8]| out.iter_mut().zip(bytes).for_each(|(byte, &value)| *byte = value);
    match (slip, refusal) {
        (ConvertSlip::LengthClearedOnRefusal, _) => length.value = 0,
        (ConvertSlip::LengthNeededGivenWithNine, 9) => length.value = bytes.len() as u64,
        (ConvertSlip::WhatFitsWrittenBeforeNine, 9) => fill(out, bytes),
        (ConvertSlip::HeadWrittenBeforeFourteen, 14) => fill(out, &bytes[..26]),
        _ => (),
    }
}
