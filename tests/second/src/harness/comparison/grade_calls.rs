//! The grades of lists: the call for every list, held to the verdict and the steady tables of the
//! list; and series on suspect lists that come to rest as promised.

use super::call::{Answer, Call};
use super::compare::{hex, Comparison, Mismatch, Outcome};
use super::series;
use super::steady_calls::grouped;
use crate::harness::random::Random;
use crate::oracle::plan::Plan;
use crate::oracle::steady::MOST_GROUPED;

/// So many of a hundred plans with a suspect list that always rests have a series on one.
const SERIES: usize = 40;

/// .. on which more rounds than this take too long.
const MOST_ROUNDS: u64 = 30;

/// The calls for every list, whose verdicts and steady tables are known.
pub fn compare(
    comparison: &mut Comparison,
    random: &mut Random,
    bytes: &[u8],
    plan: &Plan,
    verdicts: &[Answer],
    steady: &[Answer],
) -> Outcome {
    let mut resting = Vec::new();
    for (list, (verdict, steady)) in verdicts.iter().zip(steady).enumerate() {
        let answer = comparison.call(bytes, &Call::Grade { list })?;
        if !fits(plan, verdict, steady, &answer) {
            let beside = format!("verdict {verdict:?}\nsteady {steady:?}");
            let differs = format!("plan {}\nlist {list}\n{beside}\nnot what a grade says {answer:?}", hex(bytes));
            return Err(Box::new(Mismatch(differs)));
        }
        let (grade, rounds) = answer.graded();
        if answer.refusal == 0 && verdict.fields[0] == 0 {
            comparison.counts.grades.lists[usize::from(grade) - 1] += 1;
            comparison.counts.grades.most = rounds.max(comparison.counts.grades.most);
            resting.extend((1..=MOST_ROUNDS).contains(&rounds).then_some((list, rounds)));
        }
    }
    if !resting.is_empty() && random.chance(SERIES) {
        let (list, rounds) = random.pick(&resting);
        series::compare_resting(comparison, random, bytes, plan, list, rounds)?;
    }
    Ok(())
}

/// What the text of the call states of a grade, by the verdict and the steady tables alone:
/// refused with 15 as these are; 1 and the highest rank plus two if the list is stable; 4 exactly
/// if there is no steady table; with 1 alone rounds, more than three. A checker is held to it
/// whatever the oracle says.
fn fits(plan: &Plan, verdict: &Answer, steady: &Answer, answer: &Answer) -> bool {
    if answer.refusal != 0 || grouped(verdict, plan.n).len() > MOST_GROUPED {
        return answer.refusal == 15 && steady.refusal == 15 && grouped(verdict, plan.n).len() > MOST_GROUPED;
    }
    match (verdict.fields[0], answer.graded()) {
        (1, graded) => graded == (1, verdict.fields[1] as u64 + 2),
        (_, (1, rounds)) => steady.fields[0] > 0 && rounds > 3,
        (_, (grade, rounds)) => (2..=4).contains(&grade) && rounds == 0 && (grade == 4) == (steady.fields[0] == 0),
    }
}
