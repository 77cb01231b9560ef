//! The smallest sets of routers to give the hop step: the call for every list, held to the
//! checker's own verdicts on the plan with the step at the routers of a set.

use super::call::{Answer, Call};
use super::compare::{hex, Comparison, Mismatch, Outcome};
use super::steady_calls::grouped;
use crate::oracle::hop_set::{named, with_step};
use crate::oracle::plan::{Plan, Router};
use crate::oracle::steady::MOST_GROUPED;

/// So many reflectors are few: every set of them is tried that is smaller than the one given, and
/// every lower number of its size.
const FEW_REFLECTORS: usize = 6;

/// A list of a sound plan.
struct Asked<'a> {
    bytes: &'a [u8],
    plan: &'a Plan,
    list: usize,
    /// The routers in groups of two or more, by the verdict.
    grouped: Vec<Router>,
}

/// The call for every list, whose verdicts are known.
pub fn compare(comparison: &mut Comparison, bytes: &[u8], plan: &Plan, verdicts: &[Answer]) -> Outcome {
    for (list, verdict) in verdicts.iter().enumerate() {
        let answer = comparison.call(bytes, &Call::HopSet { list })?;
        let asked = Asked { bytes, plan, list, grouped: grouped(verdict, plan.n) };
        if !asked.fits(comparison, verdict.fields[0] == 1, &answer)? {
            let differs = format!("plan {}\nlist {list}\nnot what is stated of hop sets {answer:?}", hex(bytes));
            return Err(Box::new(Mismatch(differs)));
        }
    }
    Ok(())
}

/// The routers of a set, each of which has a bit.
fn members(set: u64, routers: &[Router]) -> Vec<Router> {
    named(set, routers).collect()
}

impl Asked<'_> {
    /// What document 02 states of a set, by verdicts alone: refused with 15 if too many routers
    /// share their labels, 0 exactly if the list is stable, and else one that serves while none of
    /// those tried beside it does. A checker is held to it whatever the oracle says.
    fn fits(&self, comparison: &mut Comparison, is_stable: bool, answer: &Answer) -> Result<bool, Box<Mismatch>> {
        if answer.refusal != 0 {
            return Ok(answer.refusal == 15 && self.grouped.len() > MOST_GROUPED);
        }
        let number = answer.fields[0] as u64;
        if self.grouped.len() > MOST_GROUPED || number >> self.grouped.len() != 0 || (number == 0) != is_stable {
            return Ok(false);
        }
        if is_stable {
            return Ok(true);
        }
        comparison.counts.hop_sets.sizes[number.count_ones() as usize] += 1;
        Ok(self.serves(comparison, number)? && self.is_least(comparison, number))
    }

    /// The verdict call on the plan with the step at these routers too.
    fn verdict(&self, routers: Vec<Router>) -> (Vec<u8>, Call) {
        let n = self.plan.n;
        let buffers = [n, n, 2 * n, n].map(|need| vec![0x5A; need]);
        (with_step(self.bytes, routers), Call::Verdict { list: self.list, buffers })
    }

    /// Whether the routers of a number make the list stable, by both.
    fn serves(&self, comparison: &mut Comparison, number: u64) -> Result<bool, Box<Mismatch>> {
        let (changed, call) = self.verdict(members(number, &self.grouped));
        comparison.counts.hop_sets.verdicts += 1;
        Ok(comparison.call(&changed, &call)?.fields[0] == 1)
    }

    /// .. by the checker alone.
    fn serves_alone(&self, comparison: &mut Comparison, routers: Vec<Router>) -> bool {
        let (changed, call) = self.verdict(routers);
        comparison.counts.hop_sets.verdicts += 1;
        let answer = comparison.subject(&changed, &call);
        answer.refusal == 0 && answer.fields[0] == 1
    }

    /// No set serves that has one router less; nor, where reflectors are few, any smaller set of
    /// them, in groups or not, or a lower number of the same size.
    fn is_least(&self, comparison: &mut Comparison, number: u64) -> bool {
        let bits = 0..self.grouped.len();
        let one_less = bits.map(|bit| number & !(1 << bit)).filter(|&less| less != number);
        let mut others: Vec<Vec<Router>> = one_less.map(|less| members(less, &self.grouped)).collect();
        let reflectors: Vec<Router> = self.plan.reflectors.iter().copied().collect();
        if reflectors.len() <= FEW_REFLECTORS {
            let size = number.count_ones();
            let smaller = (0..1u64 << reflectors.len()).filter(|set| set.count_ones() < size);
            others.extend(smaller.map(|set| members(set, &reflectors)));
            let lower = (0..number).filter(|lower| lower.count_ones() == size);
            others.extend(lower.map(|lower| members(lower, &self.grouped)));
            comparison.counts.hop_sets.tried += 1;
        }
        others.into_iter().all(|routers| !self.serves_alone(comparison, routers))
    }
}
