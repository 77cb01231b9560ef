//! The slips of checkers in the call for steady tables: when they refuse, and what they write.

use super::steady_misreadings::{self, SteadyMisreading};
use crate::interface::{Checker, Lent};
use crate::oracle::plan::{self, Plan, Router};
use crate::oracle::rules::{Case, Right};
use crate::oracle::steady::{MOST_GROUPED, MOST_NUMBERS};
use crate::oracle::verdict;
use crate::oracle::Oracle;
use std::collections::BTreeMap;

#[derive(Clone, Copy, Debug, PartialEq, Eq)]
pub enum SteadySlip {
    Misread(SteadyMisreading),
    FifteenAtTwelve,
    ThirteenAllowed,
    LargestGroupCounted,
    ReflectorsCounted,
    FifteenBeforeEight,
    FifteenAfterNine,
    ListCutToAByte,
    HighByteFirst,
    OneByteEach,
    FourBytesEach,
    CountWithoutTheBuffersNeed,
    LastByteNotNeeded,
    ExactBufferRefused,
    BufferOfNoBytesRefused,
    RoomForEveryChoiceNeeded,
    WhatFitsWrittenBeforeNine,
    BytesClearedBeforeFifteen,
    RestCleared,
    ByteAfterTheNumbers,
    CountGivenWithNine,
    CountClearedOnRefusal,
    CountOfTheBytes,
    CountOfFourBytes,
    ByteAfterTheCount,
}

/// All but what is misread in the numbers.
pub const STEADY_SLIPS: [SteadySlip; 24] = [
    SteadySlip::FifteenAtTwelve,
    SteadySlip::ThirteenAllowed,
    SteadySlip::LargestGroupCounted,
    SteadySlip::ReflectorsCounted,
    SteadySlip::FifteenBeforeEight,
    SteadySlip::FifteenAfterNine,
    SteadySlip::ListCutToAByte,
    SteadySlip::HighByteFirst,
    SteadySlip::OneByteEach,
    SteadySlip::FourBytesEach,
    SteadySlip::CountWithoutTheBuffersNeed,
    SteadySlip::LastByteNotNeeded,
    SteadySlip::ExactBufferRefused,
    SteadySlip::BufferOfNoBytesRefused,
    SteadySlip::RoomForEveryChoiceNeeded,
    SteadySlip::WhatFitsWrittenBeforeNine,
    SteadySlip::BytesClearedBeforeFifteen,
    SteadySlip::RestCleared,
    SteadySlip::ByteAfterTheNumbers,
    SteadySlip::CountGivenWithNine,
    SteadySlip::CountClearedOnRefusal,
    SteadySlip::CountOfTheBytes,
    SteadySlip::CountOfFourBytes,
    SteadySlip::ByteAfterTheCount,
];

/// The slips that show by what document 02 states of the numbers beside the verdict.
pub const STATED_SLIPS: [SteadySlip; 9] = [
    SteadySlip::Misread(SteadyMisreading::BitAtTheRouterNumber),
    SteadySlip::Misread(SteadyMisreading::BitsOfEveryReflector),
    SteadySlip::Misread(SteadyMisreading::AgainForEachUnlistedClient),
    SteadySlip::Misread(SteadyMisreading::ByGroupsNotSorted),
    SteadySlip::Misread(SteadyMisreading::Falling),
    SteadySlip::Misread(SteadyMisreading::NoneForAStableList),
    SteadySlip::FifteenAtTwelve,
    SteadySlip::ThirteenAllowed,
    SteadySlip::HighByteFirst,
];

/// The call with one slip.
pub fn steady(
    slip: SteadySlip,
    inner: &mut Oracle<Right>,
    (bytes, list): (&[u8], usize),
    out: &mut [u8],
    count: &mut Lent<u64>,
) -> u8 {
    let list = if slip == SteadySlip::ListCutToAByte { list % 256 } else { list };
    let numbers = misnumbered(slip, bytes, list, numbers(inner, bytes, list));
    let refusal = match &numbers {
        Err(15) if slip == SteadySlip::FifteenAfterNine && out.is_empty() => 9,
        Err(refusal) => *refusal,
        Ok(numbers) => refusal_of_buffer(slip, bytes, list, numbers, out.len()),
    };
    match numbers {
        Ok(numbers) if refusal == 0 => write(slip, &numbers, out, count),
        numbers => write_though_refused(slip, refusal, &numbers.unwrap_or_default(), out, count),
    }
    refusal
}

/// The right numbers, or the refusal with a buffer that is long enough.
fn numbers(inner: &mut Oracle<Right>, plan: &[u8], list: usize) -> Result<Vec<u64>, u8> {
    let (mut out, mut count) = ([0; 2 * MOST_NUMBERS], Lent::new(0));
    let refusal = inner.steady(plan, list, &mut out, &mut count);
    let numbers = out.as_chunks().0.iter().map(|&bytes| u64::from(u16::from_le_bytes(bytes)));
    if refusal == 0 {
        Ok(numbers.take(count.value as usize).collect())
    } else {
        Err(refusal)
    }
}

fn case(plan: &Plan, list: usize) -> Case<'_> {
    Case { plan, listed: &plan.lists[list].listed }
}

/// How many routers are in groups of two or more, and how many in the largest.
fn grouped(case: Case) -> [usize; 2] {
    let labels = verdict::verdict(&Right, case).labels;
    let mut sizes: BTreeMap<Router, usize> = BTreeMap::new();
    labels.into_iter().for_each(|label| *sizes.entry(label).or_default() += 1);
    let shared = || sizes.values().copied().filter(|&size| size > 1);
    [shared().sum(), shared().max().unwrap_or(0)]
}

/// The numbers, or the refusal, that a checker with this slip has in place of these.
fn misnumbered(slip: SteadySlip, bytes: &[u8], list: usize, right: Result<Vec<u64>, u8>) -> Result<Vec<u64>, u8> {
    let Ok(plan) = plan::read(bytes) else { return right };
    match (slip, right) {
        (SteadySlip::FifteenBeforeEight, Err(8)) if grouped(case(&plan, 0))[0] > MOST_GROUPED => Err(15),
        (SteadySlip::Misread(misreading), Ok(_)) => {
            Ok(steady_misreadings::numbers(Some(misreading), case(&plan, list)))
        }
        (SteadySlip::FifteenAtTwelve, Ok(_)) if grouped(case(&plan, list))[0] == MOST_GROUPED => Err(15),
        (SteadySlip::ReflectorsCounted, Ok(_)) if plan.reflectors.len() > MOST_GROUPED => Err(15),
        (SteadySlip::ThirteenAllowed | SteadySlip::LargestGroupCounted, Err(15)) => {
            let [all, largest] = grouped(case(&plan, list));
            let is_allowed = slip == SteadySlip::ThirteenAllowed || largest <= MOST_GROUPED;
            if all == MOST_GROUPED + 1 && is_allowed {
                Ok(steady_misreadings::numbers(None, case(&plan, list)))
            } else {
                Err(15)
            }
        }
        (_, right) => right,
    }
}

/// The bytes that a checker with this slip needs for these numbers.
fn need(slip: SteadySlip, bytes: &[u8], list: usize, numbers: &[u64]) -> usize {
    let need = 2 * numbers.len();
    match slip {
        SteadySlip::OneByteEach => need / 2,
        SteadySlip::FourBytesEach => 2 * need,
        SteadySlip::CountWithoutTheBuffersNeed => 0,
        SteadySlip::LastByteNotNeeded => need.saturating_sub(1),
        SteadySlip::ExactBufferRefused => need + 1,
        SteadySlip::BufferOfNoBytesRefused => need.max(1),
        SteadySlip::RoomForEveryChoiceNeeded => {
            plan::read(bytes).map_or(0, |plan| 2 << grouped(case(&plan, list))[0])
        }
        _ => need,
    }
}

fn refusal_of_buffer(slip: SteadySlip, bytes: &[u8], list: usize, numbers: &[u64], room: usize) -> u8 {
    if room < need(slip, bytes, list, numbers) {
        9
    } else {
        0
    }
}

/// The bytes of numbers as a checker with this slip writes them.
fn written(slip: SteadySlip, numbers: &[u64]) -> Vec<u8> {
    let bytes = |&number: &u64| match slip {
        SteadySlip::HighByteFirst => (number as u16).to_be_bytes().to_vec(),
        SteadySlip::OneByteEach => vec![number as u8],
        SteadySlip::FourBytesEach => (number as u32).to_le_bytes().to_vec(),
        _ => (number as u16).to_le_bytes().to_vec(),
    };
    numbers.iter().flat_map(bytes).collect()
}

fn fill(out: &mut [u8], bytes: &[u8]) {
    out.iter_mut().zip(bytes).for_each(|(byte, &value)| *byte = value);
}

fn write(slip: SteadySlip, numbers: &[u64], out: &mut [u8], count: &mut Lent<u64>) {
    let (bytes, before) = (written(slip, numbers), count.value);
    fill(out, &bytes);
    count.value = numbers.len() as u64;
    let rest = out.get_mut(bytes.len()..).unwrap_or_default();
    match slip {
        SteadySlip::RestCleared => rest.fill(0),
        SteadySlip::ByteAfterTheNumbers => rest.iter_mut().take(1).for_each(|byte| *byte = 0),
        SteadySlip::CountOfTheBytes => count.value = bytes.len() as u64,
        SteadySlip::CountOfFourBytes => count.value |= before >> 32 << 32,
        SteadySlip::ByteAfterTheCount => count.after[0] = 0,
        _ => (),
    }
}

fn write_though_refused(slip: SteadySlip, refusal: u8, numbers: &[u64], out: &mut [u8], count: &mut Lent<u64>) {
    match (slip, refusal) {
        (SteadySlip::WhatFitsWrittenBeforeNine, 9) => fill(out, &written(slip, numbers)),
        (SteadySlip::BytesClearedBeforeFifteen, 15) => out.fill(0),
        (SteadySlip::CountGivenWithNine, 9) => count.value = numbers.len() as u64,
        (SteadySlip::CountClearedOnRefusal, _) => count.value = 0,
        _ => (),
    }
}
