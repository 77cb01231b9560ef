//! The tables that no act changes: the call for every list, with buffers of many lengths, held to
//! the verdict of the list; and runs from tables whose numbers are listed, which change nothing.

use super::arguments;
use super::call::{Answer, Call};
use super::compare::{hex, Comparison, Mismatch, Outcome};
use crate::harness::random::Random;
use crate::oracle::plan::{Plan, Router};
use crate::oracle::rules::{Case, Right};
use crate::oracle::steady::{self, MOST_GROUPED, MOST_NUMBERS};
use crate::oracle::tables;

/// The calls for every list, whose verdicts are known, and runs for one of them. Gives the answers.
pub fn compare(
    comparison: &mut Comparison,
    random: &mut Random,
    bytes: &[u8],
    plan: &Plan,
    verdicts: &[Answer],
) -> Result<Vec<Answer>, Box<Mismatch>> {
    let mut answers = Vec::new();
    let runs_for = random.below(verdicts.len());
    for (list, verdict) in verdicts.iter().enumerate() {
        let room = 2 * MOST_NUMBERS + random.below(3);
        let answer = comparison.call(bytes, &Call::Steady { list, out: random.bytes(room) })?;
        let grouped = grouped(verdict, plan.n).len();
        hold(bytes, verdict, grouped, &answer)?;
        comparison.counts.steady.count_list(&answer, grouped);
        buffers(comparison, random, bytes, list, &answer)?;
        if list == runs_for && answer.refusal == 0 {
            runs(comparison, random, bytes, plan, list, &answer.numbers())?;
        }
        answers.push(answer);
    }
    Ok(answers)
}

/// Buffers that are exact, longer and too short; none changes refusal 15.
fn buffers(comparison: &mut Comparison, random: &mut Random, bytes: &[u8], list: usize, answer: &Answer) -> Outcome {
    let need = if answer.refusal == 0 { 2 * answer.fields[0] as usize } else { 0 };
    let longer = need + random.pick(&[1, 2, 7, 64]);
    let mut lengths = vec![need, longer];
    if need > 0 {
        lengths.extend([need - 1, arguments::short(random, need)]);
    }
    lengths.into_iter().try_for_each(|length| {
        let out = random.bytes(length);
        comparison.call(bytes, &Call::Steady { list, out }).map(|_| ())
    })
}

/// The routers that share their label in a verdict.
pub fn grouped(verdict: &Answer, n: usize) -> Vec<Router> {
    let labels = &verdict.buffers[0][..n];
    let is_shared = |router: &Router| labels.iter().filter(|other| **other == labels[*router]).count() > 1;
    (0..n).filter(is_shared).collect()
}

/// What document 02 states of the numbers, by the verdict alone: refused with 15 if too many
/// routers share their labels, and else rising, of no more bits than these routers, and 0 alone
/// if the list is stable. A checker is held to it whatever the oracle says.
fn hold(bytes: &[u8], verdict: &Answer, grouped: usize, answer: &Answer) -> Outcome {
    let fits = match answer.refusal {
        0 => {
            let numbers = answer.numbers();
            let fit =
                numbers.is_sorted_by(|one, next| one < next) && numbers.iter().all(|&number| number >> grouped == 0);
            grouped <= MOST_GROUPED && fit && (verdict.fields[0] == 0 || numbers == [0])
        }
        refusal => refusal == 15 && grouped > MOST_GROUPED,
    };
    let differs =
        || format!("plan {}\nverdict {verdict:?}\nnot what is stated of steady tables {answer:?}", hex(bytes));
    fits.then_some(()).ok_or_else(|| Box::new(Mismatch(differs())))
}

/// In a table whose number is listed every router acts, in some order, and none changes it.
fn runs(
    comparison: &mut Comparison,
    random: &mut Random,
    bytes: &[u8],
    plan: &Plan,
    list: usize,
    numbers: &[u64],
) -> Outcome {
    let case = Case { plan, listed: &plan.lists[list].listed };
    for &number in numbers.iter().take(3) {
        let table = steady::table(&Right, case, number).map(|table| tables::bytes(&table, plan.n));
        let table = table.ok_or_else(|| Box::new(Mismatch(format!("plan {}\nno table has {number}", hex(bytes)))))?;
        let mut sequence: Vec<u8> = (0..plan.n as u8).collect();
        random.shuffle(&mut sequence);
        let answer = comparison.call(bytes, &Call::Run { list, sequence, limit: u64::MAX, table: table.clone() })?;
        if answer.buffers[0] != table {
            return Err(Box::new(Mismatch(format!("plan {}\nlist {list} number {number}\n{answer:?}", hex(bytes)))));
        }
        comparison.counts.steady.tables_run += 1;
    }
    Ok(())
}
