//! Acts that read late on random plans: every run settles within the promised rounds, and the
//! runs drawn would show it if fewer were promised, or if acts read further back than they may.

use crate::{Outcome, SEED};
use second_checker::harness::comparison::arguments;
use second_checker::harness::comparison::delays::{Came, Delays};
use second_checker::harness::comparison::series::Promise;
use second_checker::harness::plans::generate;
use second_checker::harness::random::Random;
use second_checker::oracle::delayed::{promised_rounds, DelayedRun, ROUNDS_BACK};
use second_checker::oracle::plan::{self, Router};
use second_checker::oracle::rules::{Case, Right};
use second_checker::oracle::{tables, verdict};

const PLANS: u64 = 1000;

/// A slip must be found within so many plans.
const PLANS_WITH_A_SLIP: u64 = 400;

/// The table after an activation of a router, of bytes that obey the table's rule.
fn activated(case: Case, router: Router, table: &[u8]) -> Result<Vec<u8>, String> {
    let mut held = tables::read(case, table).ok_or(format!("the table handed to {router} is refused"))?;
    tables::activate(&Right, case, &mut held, router);
    Ok(tables::bytes(&held, case.plan.n))
}

/// Every stable list of so many random plans, with its highest rank and its settled table.
fn on_each_stable_list(plans: u64, mut holds: impl FnMut(&mut Random, Case, u64, Vec<u8>) -> Outcome) -> Outcome {
    let mut random = Random::new(SEED);
    for number in 0..plans {
        let bytes = generate::sound(&mut random).bytes();
        let plan = plan::read(&bytes).map_err(|refusal| format!("plan {number} refused with {refusal}"))?;
        for list in &plan.lists {
            let case = Case { plan: &plan, listed: &list.listed };
            if let verdict::Outcome::Stable { ranks, table } = verdict::verdict(&Right, case).outcome {
                let settled = tables::bytes(&table, plan.n);
                holds(&mut random, case, verdict::highest(&ranks), settled)
                    .map_err(|fault| format!("plan {number}: {fault}"))?;
            }
        }
    }
    Ok(())
}

/// The rounds that a run on each list needed, and the highest rank; an act may read so many
/// rounds before its own.
fn needed(plans: u64, rounds_back: usize) -> Result<Vec<(u64, u64)>, String> {
    let mut found = Vec::new();
    on_each_stable_list(plans, |random, case, highest, table| {
        let promise = Promise { rounds: promised_rounds(highest), table };
        let delays = Delays { case, promise: &promise, rounds_back };
        let Came { rounds, .. } = delays.run(random, |router, table| activated(case, router, &table))?;
        found.push((rounds, highest));
        Ok(())
    })?;
    Ok(found)
}

#[test]
fn a_run_whose_acts_read_late_settles_within_twice_the_highest_rank_and_three_rounds() -> Outcome {
    let runs = needed(PLANS, ROUNDS_BACK)?;
    let late = runs.iter().find(|(rounds, highest)| *rounds > promised_rounds(*highest));
    late.map_or(Ok(()), |(rounds, highest)| Err(format!("{rounds} rounds where the highest rank is {highest}")))
}

#[test]
fn a_promise_of_one_round_fewer_is_found_where_the_highest_rank_is_0_or_1() -> Outcome {
    let runs = needed(PLANS_WITH_A_SLIP, ROUNDS_BACK)?;
    let late =
        [0, 1].map(|rank| runs.iter().filter(|run| run.1 == rank && run.0 > promised_rounds(rank) - 1).count());
    late.iter().all(|&runs| runs > 2).then_some(()).ok_or(format!("runs that are late: {late:?}"))
}

#[test]
fn reading_a_round_further_back_is_found() -> Outcome {
    let runs = needed(PLANS_WITH_A_SLIP, ROUNDS_BACK + 1)?;
    let late = runs.iter().filter(|(rounds, highest)| *rounds > promised_rounds(*highest)).count();
    (late > 20).then_some(()).ok_or(format!("only {late} of {} runs are late", runs.len()))
}

/// The table of a run that reads the present, after each act, is that of a run call.
#[test]
fn reading_the_present_is_the_run_call() -> Outcome {
    on_each_stable_list(PLANS, |random, case, _, _| {
        let start = arguments::table(random, case);
        let mut table = tables::read(case, &start).ok_or("a sound table was refused")?;
        let mut run = DelayedRun::new(start);
        for act in arguments::sequence(random, case.plan.n).into_iter().map(usize::from) {
            let moments = vec![run.present(); case.plan.n];
            let left = activated(case, act, &run.handed(&moments))?;
            run.apply(act, &left);
            tables::run(&Right, case, &mut table, &[act]);
            if run.table() != tables::bytes(&table, case.plan.n) {
                return Err(format!("the act of {act} leaves another table"));
            }
        }
        Ok(())
    })
}
