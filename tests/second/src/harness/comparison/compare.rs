//! The comparison: makes the same calls on the oracle and on a checker, and
//! compares all that they answer and leave, to the last byte; on small plans also
//! with what follows from the plan's comparisons alone, and on a plan that is converted
//! with the checker's answer on the result.

use super::call::{perform, Answer, Call, Field};
use super::counts::Counts;
use super::hop_step;
use super::plan_calls;
use super::preferences::Preferences;
use super::sheet_calls;
use crate::harness::plans::generate;
use crate::harness::random::Random;
use crate::interface::{Checker, Handed};
use crate::oracle::plan::Plan;
use crate::oracle::Oracle;
use std::ops::Range;

/// What differs, with all that is needed to repeat it.
pub struct Mismatch(pub String);

/// The outcome of comparing one or more calls.
pub type Outcome = Result<(), Box<Mismatch>>;

/// How many mismatches are reported before the comparison ends.
const REPORTED: u64 = 5;

/// Compares a checker with the oracle on the plans and sheets of these numbers,
/// and hands each mismatch to `report` with its number.
pub fn compare(
    subject: &mut dyn Checker,
    seed: u64,
    numbers: Range<u64>,
    report: &mut dyn FnMut(u64, &str),
) -> Counts {
    let mut oracle = Oracle::right();
    let mut comparison = Comparison::of(&mut oracle, subject);
    for number in numbers {
        if let Err(mismatch) = comparison.numbered(seed, number) {
            comparison.counts.mismatches += 1;
            report(number, &mismatch.0);
            if comparison.counts.mismatches == REPORTED {
                break;
            }
        }
    }
    comparison.counts
}

/// Whether a checker is told from the oracle, or from another in its place, by a
/// plan or a sheet of these numbers.
pub fn differ(
    oracle: &mut dyn Checker,
    subject: &mut dyn Checker,
    seed: u64,
    numbers: impl IntoIterator<Item = u64>,
) -> bool {
    let mut comparison = Comparison::of(oracle, subject);
    numbers.into_iter().any(|number| comparison.numbered(seed, number).is_err())
}

pub fn hex(bytes: &[u8]) -> String {
    bytes.iter().map(|byte| format!("{byte:02x}")).collect()
}

pub struct Comparison<'a> {
    oracle: &'a mut dyn Checker,
    subject: &'a mut dyn Checker,
    /// A plan, and a checker that knows its comparisons and no distance.
    compared: Option<(Vec<u8>, Oracle<Preferences>)>,
    /// A plan, and what it is converted to.
    converted: Option<(Vec<u8>, Vec<u8>)>,
    /// The content of result fields before a call.
    priors: Random,
    pub counts: Counts,
}

impl<'a> Comparison<'a> {
    fn of(oracle: &'a mut dyn Checker, subject: &'a mut dyn Checker) -> Self {
        let (priors, counts) = (Random::new(0), Counts::default());
        Comparison { oracle, subject, compared: None, converted: None, priors, counts }
    }

    /// All calls for one plan and one sheet of links; they depend on the seed and
    /// the number alone.
    fn numbered(&mut self, seed: u64, number: u64) -> Outcome {
        let (bytes, mut random) = generate::numbered(seed, number);
        self.priors = Random::new(random.word());
        self.compared = None;
        self.converted = None;
        plan_calls::compare(self, &mut random, &bytes)?;
        if number % 4000 == 50 {
            let few_routers = 1 + number as usize / 4000 % 4;
            plan_calls::long_run(self, &mut random, few_routers)?;
        }
        sheet_calls::compare(self, &mut random)
    }

    /// From now on calls on this plan must agree with its comparisons.
    pub fn go_by(&mut self, plan: &[u8], preferences: Preferences) {
        self.compared = Some((plan.to_vec(), Oracle::with(preferences)));
    }

    /// From now on calls on this plan must be answered as on what it is converted to.
    pub fn hold_against(&mut self, plan: &[u8], converted: &[u8]) {
        self.converted = Some((plan.to_vec(), converted.to_vec()));
    }

    /// Makes the call on what the plan is converted to, if it is, by the checker alone. A
    /// list starts as far from the end as in the plan.
    fn on_converted(&mut self, plan: &[u8], call: &Call, prior: u64) -> Option<Answer> {
        let (_, converted) = self.converted.as_ref().filter(|(of, _)| of == plan)?;
        if let Call::Widen { .. } | Call::Narrow { .. } = call {
            return None;
        }
        let mut answer = perform(self.subject, converted, call, prior);
        if let (Call::List { .. }, 0) = (call, answer.refusal) {
            answer.fields[0] += plan.len() as Field - converted.len() as Field;
        }
        self.counts.calls_on_converted += 1;
        Some(answer)
    }

    /// Makes the call on the checker alone.
    pub fn subject(&mut self, plan: &[u8], call: &Call) -> Answer {
        self.counts.calls_alone += 1;
        perform(self.subject, plan, call, self.priors.word())
    }

    /// Compares two routes by both.
    pub fn compare_routes(
        &mut self,
        bytes: &[u8],
        plan: &Plan,
        router: usize,
        routes: [Handed; 2],
    ) -> Result<Answer, Box<Mismatch>> {
        let answer = self.call(bytes, &Call::Compare { router, routes })?;
        if answer.refusal == 0 && hop_step::decides(plan, router, routes) {
            self.counts.by_step += 1;
            self.counts.ties_by_step += u64::from(answer.compared().1 == Some(0));
        }
        Ok(answer)
    }

    /// Makes the call on both; the answer if they agree to the last byte.
    pub fn call(&mut self, plan: &[u8], call: &Call) -> Result<Answer, Box<Mismatch>> {
        let prior = self.priors.word();
        let expected = perform(self.oracle, plan, call, prior);
        let found = perform(self.subject, plan, call, prior);
        let differs = |who: &str, found: &Answer| {
            Box::new(Mismatch(format!(
                "plan {}\ncall {call:?}\nresult fields before the call {prior}\n\
                 oracle     {expected:?}\n{who} {found:?}",
                hex(plan)
            )))
        };
        self.counts.count(call, &expected);
        if expected != found {
            return Err(differs("under test", &found));
        }
        if let Some((_, checker)) = self.compared.as_mut().filter(|(of, _)| of == plan) {
            let derived = perform(checker, plan, call, prior);
            self.counts.calls_by_comparisons += 1;
            if expected != derived {
                return Err(differs("by comparisons", &derived));
            }
        }
        if let Some(found) = self.on_converted(plan, call, prior).filter(|found| *found != expected) {
            return Err(differs("on what it is converted to", &found));
        }
        Ok(expected)
    }
}
