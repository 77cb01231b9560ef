//! Series of act and run calls on one table, refused ones among them, until the rounds
//! are as many as promised: the highest rank plus two, then the table is the verdict's; or as many
//! as a grade names, then it stays as it is.

use super::arguments;
use super::call::{Answer, Call};
use super::compare::{hex, Comparison, Mismatch, Outcome};
use super::turns::Turns;
use crate::harness::random::Random;
use crate::oracle::delayed::promised_rounds;
use crate::oracle::plan::{self, Plan};
use crate::oracle::rules::Case;
use crate::oracle::tables::Rounds;
use std::collections::BTreeSet;

/// The table that every series of so many rounds ends in.
pub struct Promise {
    pub rounds: u64,
    pub table: Vec<u8>,
}

impl Promise {
    /// What a verdict for n routers promises, which is stable.
    pub fn of(verdict: &Answer, n: usize) -> Self {
        Promise { rounds: verdict.fields[1] as u64 + 2, table: verdict.buffers[2][..2 * n].to_vec() }
    }

    /// .. where acts read late.
    pub fn of_delays(verdict: &Answer, n: usize) -> Self {
        Promise { rounds: promised_rounds(verdict.fields[1] as u64), ..Promise::of(verdict, n) }
    }
}

struct Series<'a> {
    bytes: &'a [u8],
    case: Case<'a>,
    list: usize,
    turns: Turns,
    table: Vec<u8>,
    rounds: Rounds,
    acts: u64,
}

/// Compares one series for a list, which must keep the promise.
pub fn compare(
    comparison: &mut Comparison,
    random: &mut Random,
    bytes: &[u8],
    plan: &Plan,
    list: usize,
    promise: Promise,
) -> Outcome {
    let mut series = Series::new(random, bytes, plan, list);
    let start = series.table.clone();
    series.run_to(comparison, random, promise.rounds)?;
    let settled = [&promise.table, &start[2 * plan.n..]].concat();
    for more in 0..6 {
        if series.table != settled {
            return Err(series.unsettled(&start, &settled, more));
        }
        series.step(comparison, random)?;
    }
    comparison.counts.series += 1;
    comparison.counts.series_with_cuts += u64::from(plan.has_cuts());
    comparison.counts.series_with_skips += u64::from(!plan.skipping.is_empty());
    comparison.counts.series_with_steps += u64::from(!plan.stepping.is_empty());
    comparison.counts.series_on_empty_lists += u64::from(plan.lists[list].listed.is_empty());
    comparison.counts.acts_in_series += series.acts;
    Ok(())
}

/// Compares one series for a list that comes to rest within so many rounds: its table then stays
/// as it is while every router acts once more.
pub fn compare_resting(
    comparison: &mut Comparison,
    random: &mut Random,
    bytes: &[u8],
    plan: &Plan,
    list: usize,
    rounds: u64,
) -> Outcome {
    let mut series = Series::new(random, bytes, plan, list);
    let start = series.table.clone();
    series.run_to(comparison, random, rounds)?;
    let settled = series.table.clone();
    let mut awaited: BTreeSet<u8> = (0..plan.n as u8).collect();
    while !awaited.is_empty() {
        let router = series.turns.next(random);
        let call = Call::Activate { list, router, table: series.table.clone() };
        series.apply(comparison, &call, &[router as u8])?;
        awaited.remove(&(router as u8));
        if series.table != settled {
            return Err(series.unsettled(&start, &settled, plan.n - awaited.len()));
        }
    }
    comparison.counts.grades.series += 1;
    comparison.counts.grades.acts += series.acts;
    Ok(())
}

impl<'a> Series<'a> {
    fn new(random: &mut Random, bytes: &'a [u8], plan: &'a Plan, list: usize) -> Self {
        let case = Case { plan, listed: &plan.lists[list].listed };
        Series {
            bytes,
            case,
            list,
            turns: Turns::new(random, plan.n),
            table: arguments::table_buffer(random, case),
            rounds: Rounds::new(plan.n),
            acts: 0,
        }
    }

    fn run_to(&mut self, comparison: &mut Comparison, random: &mut Random, rounds: u64) -> Outcome {
        while self.rounds.whole < rounds {
            self.step(comparison, random)?;
        }
        Ok(())
    }

    /// One call: an act, a run, or one that is refused.
    fn step(&mut self, comparison: &mut Comparison, random: &mut Random) -> Outcome {
        match random.below(10) {
            0..=2 => {
                let router = self.turns.next(random);
                let call = Call::Activate { list: self.list, router, table: self.table.clone() };
                self.apply(comparison, &call, &[router as u8])
            }
            3 => self.refused_step(comparison, random),
            _ => {
                let length = random.below(2 * self.case.plan.n + 2);
                let sequence: Vec<u8> = (0..length).map(|_| self.turns.next(random) as u8).collect();
                let limit = if random.chance(70) { u64::MAX } else { arguments::limit(random, length) };
                let applied = limit.min(length as u64) as usize;
                let call =
                    Call::Run { list: self.list, sequence: sequence.clone(), limit, table: self.table.clone() };
                self.apply(comparison, &call, &sequence[..applied])
            }
        }
    }

    /// A call that is refused, and so adds no act and changes no byte.
    fn refused_step(&mut self, comparison: &mut Comparison, random: &mut Random) -> Outcome {
        let (n, m) = (self.case.plan.n, self.case.plan.lists.len());
        let mut bytes = self.bytes.to_vec();
        let mut table = self.table.clone();
        let mut list = self.list;
        let mut router = random.below(n);
        let mut sequence = arguments::sequence(random, n);
        match random.below(5) {
            0 => list = arguments::past(random, m),
            1 => (router, sequence) = (arguments::past(random, n), arguments::strange_sequence(random, n)),
            2 => table.truncate(arguments::short(random, 2 * n)),
            3 => bytes.truncate(random.below(bytes.len())),
            _ => bytes[random.below(26)] ^= 1 << random.below(8),
        }
        if bytes != self.bytes && plan::read(&bytes).is_ok() {
            return Ok(());
        }
        let limit = arguments::limit(random, sequence.len());
        let call = match random.below(2) {
            0 => Call::Activate { list, router, table },
            _ => Call::Run { list, sequence, limit, table },
        };
        let answer = comparison.call(&bytes, &call)?;
        let left = &answer.buffers[0];
        self.table[..left.len()].copy_from_slice(left);
        Ok(())
    }

    fn apply(&mut self, comparison: &mut Comparison, call: &Call, acts: &[u8]) -> Outcome {
        let answer = comparison.call(self.bytes, call)?;
        self.table.clone_from(&answer.buffers[0]);
        self.acts += acts.len() as u64;
        acts.iter().for_each(|&router| self.rounds.count(usize::from(router)));
        Ok(())
    }

    fn unsettled(&self, start: &[u8], settled: &[u8], more: usize) -> Box<Mismatch> {
        Box::new(Mismatch(format!(
            "plan {}\nseries for list {} of {} acts and {} rounds, {more} calls after the last round needed\n\
             first table {start:?}\nlast table  {:?}\nsettled     {settled:?}",
            hex(self.bytes),
            self.list,
            self.acts,
            self.rounds.whole,
            self.table
        )))
    }
}
