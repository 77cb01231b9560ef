//! The converter's calls for one plan, sound or damaged: both directions, whatever the
//! plan's mark, and buffers of many lengths; the way there and back.

use super::arguments;
use super::call::{Answer, Call};
use super::compare::{hex, Comparison, Mismatch, Outcome};
use crate::harness::random::Random;
use crate::oracle::mark::{Mark, MARKS};

/// The call that converts plans of this mark.
fn convert(from: Mark, out: Vec<u8>) -> Call {
    match from {
        Mark::Rrp1 => Call::Widen { out },
        Mark::Rrp2 => Call::Narrow { out },
    }
}

/// Both directions, whether the plan is refused or not. From now on calls on a plan that
/// is converted must be answered as on the result.
pub fn compare(comparison: &mut Comparison, random: &mut Random, plan: &[u8]) -> Outcome {
    for from in MARKS {
        // No result is longer than two of the plan.
        let room = 2 * plan.len() + random.below(3);
        let answer = comparison.call(plan, &convert(from, random.bytes(room)))?;
        match answer.refusal {
            0 => converted(comparison, random, plan, from, &answer)?,
            _ => refused(comparison, random, plan, from)?,
        }
    }
    Ok(())
}

/// A buffer too short does not change the refusal.
fn refused(comparison: &mut Comparison, random: &mut Random, plan: &[u8], from: Mark) -> Outcome {
    for length in [0, random.below(plan.len() + 1)] {
        comparison.call(plan, &convert(from, random.bytes(length)))?;
    }
    Ok(())
}

/// Buffers that are exact, longer and too short; and the way back to the same bytes.
fn converted(comparison: &mut Comparison, random: &mut Random, plan: &[u8], from: Mark, answer: &Answer) -> Outcome {
    let need = answer.fields[0] as usize;
    let result = &answer.buffers[0][..need];
    let longer = need + random.pick(&[1, 2, 7, 64]);
    for length in [need, longer, need - 1, 0, arguments::short(random, need)] {
        comparison.call(plan, &convert(from, random.bytes(length)))?;
    }
    let back = comparison.call(result, &convert(from.other(), random.bytes(plan.len())))?;
    if back.refusal != 0 || back.buffers[0] != plan {
        return Err(not_the_same(plan, result, &back));
    }
    comparison.counts.conversions[usize::from(from == Mark::Rrp2)] += 1;
    comparison.hold_against(plan, result);
    Ok(())
}

fn not_the_same(plan: &[u8], result: &[u8], back: &Answer) -> Box<Mismatch> {
    Box::new(Mismatch(format!("plan {}\nconverted {}\nand back {back:?}", hex(plan), hex(result))))
}
