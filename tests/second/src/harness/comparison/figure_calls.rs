//! The figures of a plan: the call with buffers of many lengths, held to the checker's own
//! verdicts on every list.

use super::arguments;
use super::call::{Answer, Call};
use super::compare::{hex, Comparison, Mismatch, Outcome};
use super::steady_calls::grouped;
use crate::harness::random::Random;
use crate::oracle::plan::Plan;

/// The calls for a plan, the verdicts of whose lists are known.
pub fn compare(
    comparison: &mut Comparison,
    random: &mut Random,
    bytes: &[u8],
    plan: &Plan,
    verdicts: &[Answer],
) -> Outcome {
    let n = plan.n;
    let longer = n + random.pick(&[1, 2, 7, 64]);
    for lengths in [[n, n], [longer, n], [n, longer]] {
        let buffers = lengths.map(|length| random.bytes(length));
        let answer = comparison.call(bytes, &Call::Figures { buffers: buffers.clone() })?;
        if answer.refusal != 0 || !fits(&answer, &buffers, n, verdicts) {
            let differs = format!("plan {}\nnot what is stated of figures {answer:?}", hex(bytes));
            return Err(Box::new(Mismatch(differs)));
        }
        if lengths == [n, n] {
            comparison.counts.figures.count_plan(&answer, n);
        }
    }
    let short = arguments::short(random, n);
    for lengths in [[n - 1, n], [n, n - 1], [short, longer], [longer, short], [0, 0]] {
        let buffers = lengths.map(|length| random.bytes(length));
        comparison.call(bytes, &Call::Figures { buffers })?;
    }
    Ok(())
}

/// What document 02 states of the figures, by the verdicts of all lists. A checker is held to it
/// whatever the oracle says.
fn fits(answer: &Answer, before: &[Vec<u8>; 2], n: usize, verdicts: &[Answer]) -> bool {
    let (mut by_rank, mut by_router) = (vec![0; n], vec![0; n]);
    let (mut stable, mut highest) = (0, None);
    for verdict in verdicts {
        let [is_stable, size] = [verdict.fields[0], verdict.fields[1]];
        if is_stable == 1 {
            by_rank[size as usize] += 1;
            stable += 1;
            highest = highest.max(Some(size));
        }
        grouped(verdict, n).into_iter().for_each(|router| by_router[router] += 1);
    }
    let suspect = verdicts.len() as i128 - stable;
    let fields = [stable, suspect, i128::from(highest.is_some()), highest.unwrap_or(0)];
    let written =
        [by_rank, by_router].into_iter().zip(before).map(|(counts, before)| [&counts, &before[n..]].concat());
    answer.fields == fields && written.eq(answer.buffers.iter().cloned())
}
