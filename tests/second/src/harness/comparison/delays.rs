//! Runs of acts that read late, by single calls of `activate` on tables put together of the
//! entries of several moments, held to what document 02 promises of them.

use super::arguments;
use super::call::Call;
use super::compare::{hex, Comparison, Mismatch, Outcome};
use super::series::Promise;
use super::turns::Turns;
use crate::harness::random::Random;
use crate::oracle::delayed::{DelayedRun, ROUNDS_BACK};
use crate::oracle::plan::{Plan, Router};
use crate::oracle::rules::Case;

/// A run goes on for so many rounds after those promised.
const MORE_ROUNDS: u64 = 2;

/// How the moments are drawn at which an act reads its neighbours.
#[derive(Clone, Copy)]
enum Reading {
    /// As early as may be.
    Earliest,
    /// As early as may be, or the present.
    EarliestOrPresent,
    /// Any that may be.
    Drawn,
    /// The last at which the neighbour is not settled, if there is one.
    Unsettled,
}

const READINGS: [Reading; 4] = [Reading::Earliest, Reading::EarliestOrPresent, Reading::Drawn, Reading::Unsettled];

/// A run on a list, from any table that its routers may be found in.
pub struct Delays<'a> {
    pub case: Case<'a>,
    pub promise: &'a Promise,
    /// How many rounds before its own an act may read.
    pub rounds_back: usize,
}

/// What came of a run.
pub struct Came {
    /// How many rounds were needed: by every moment by which so many have ended the table is
    /// settled.
    pub rounds: u64,
    pub acts: u64,
    pub start: Vec<u8>,
}

impl Delays<'_> {
    /// Makes a run, by activations of a router on a table, which give the table after.
    pub fn run<E>(
        &self,
        random: &mut Random,
        mut activate: impl FnMut(Router, Vec<u8>) -> Result<Vec<u8>, E>,
    ) -> Result<Came, E> {
        let reading = random.pick(&READINGS);
        let mut turns = Turns::new(random, self.case.plan.n);
        let start = arguments::table(random, self.case);
        let mut run = DelayedRun::new(start.clone());
        let mut rounds = 0;
        while run.ended() < self.promise.rounds + MORE_ROUNDS {
            if run.table() != self.promise.table {
                rounds = run.ended() + 1;
            }
            let router = turns.next(random);
            let moments = self.moments(random, &run, router, reading);
            let left = activate(router, run.handed(&moments))?;
            run.apply(router, &left);
        }
        Ok(Came { rounds, acts: run.present() as u64, start })
    }

    /// The moment of each router's entry in the table handed to an act of `acting`: of a
    /// neighbour one that the act may read, of any other the present.
    fn moments(&self, random: &mut Random, run: &DelayedRun, acting: Router, reading: Reading) -> Vec<usize> {
        let readable = run.readable(self.rounds_back);
        let (earliest, present) = (*readable.start(), *readable.end());
        let settled = |moment: usize, router: Router| {
            run.entry(moment, router) == &self.promise.table[2 * router..2 * router + 2]
        };
        let mut moment = |router: Router| match reading {
            _ if !self.case.plan.neighbours[acting].contains(&router) => present,
            Reading::Earliest => earliest,
            Reading::EarliestOrPresent => random.pick(&[earliest, present]),
            Reading::Drawn => random.between(earliest, present),
            Reading::Unsettled => readable.clone().rev().find(|&moment| !settled(moment, router)).unwrap_or(present),
        };
        (0..self.case.plan.n).map(&mut moment).collect()
    }
}

/// Compares one run on a list, act by act, which must keep the promise.
pub fn compare(
    comparison: &mut Comparison,
    random: &mut Random,
    bytes: &[u8],
    plan: &Plan,
    list: usize,
    promise: &Promise,
) -> Outcome {
    let case = Case { plan, listed: &plan.lists[list].listed };
    let delays = Delays { case, promise, rounds_back: ROUNDS_BACK };
    let came = delays.run(random, |router, table| {
        comparison.call(bytes, &Call::Activate { list, router, table }).map(|answer| answer.buffers[0].clone())
    })?;
    if came.rounds > promise.rounds {
        return Err(Box::new(Mismatch(format!(
            "plan {}\nrun for list {list} whose acts read late, {} acts from {:?}: {} rounds, promised {}",
            hex(bytes),
            came.acts,
            came.start,
            came.rounds,
            promise.rounds
        ))));
    }
    comparison.counts.delays.count(came.rounds, promise.rounds, came.acts);
    Ok(())
}
