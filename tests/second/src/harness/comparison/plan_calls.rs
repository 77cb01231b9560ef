//! The calls compared for one plan, sound or damaged.

use super::arguments;
use super::call::{Answer, Call};
use super::compare::{Comparison, Mismatch, Outcome};
use super::convert_calls;
use super::delays;
use super::empty_lists;
use super::every_list_calls;
use super::figure_calls;
use super::grade_calls;
use super::hop_set_calls;
use super::hop_step;
use super::preferences::Preferences;
use super::reliance_calls;
use super::series::{self, Promise};
use super::steady_calls;
use crate::harness::plans::generate;
use crate::harness::random::Random;
use crate::oracle::plan::{self, Plan};
use crate::oracle::rules::Case;
use crate::oracle::steady::MOST_NUMBERS;

/// So many routers are few: every comparison, every reliance and its explanation is
/// asked for.
pub const FEW: usize = 8;

/// So many of a hundred plans have a run whose acts read late.
const DELAYED: usize = 20;

/// All calls for one plan.
pub fn compare(comparison: &mut Comparison, random: &mut Random, bytes: &[u8]) -> Outcome {
    comparison.counts.plans += 1;
    convert_calls::compare(comparison, random, bytes)?;
    comparison.call(bytes, &Call::Check)?;
    comparison.call(bytes, &Call::Size)?;
    match plan::read(bytes) {
        Ok(plan) => sound(comparison, random, bytes, &plan),
        Err(_) => refused(comparison, random, bytes),
    }
}

/// Refusals 1 to 7 and 13 stand before 8, 15, 9 and 10, whatever else is handed over.
fn refused(comparison: &mut Comparison, random: &mut Random, bytes: &[u8]) -> Outcome {
    for _ in 0..2 {
        for call in loose_calls(random) {
            comparison.call(bytes, &call)?;
        }
    }
    Ok(())
}

/// One call of each kind with arguments that need fit nothing.
fn loose_calls(random: &mut Random) -> [Call; 12] {
    let mut number = |bound: usize| arguments::mostly_below(random, bound);
    let list = number(2);
    let (router, first, second) = (number(4), number(4), number(4));
    let routes = [first, second].map(|egress| arguments::handed(random, egress));
    let mut buffer = || {
        let length = random.below(140);
        random.bytes(length)
    };
    let buffers = [buffer(), buffer(), buffer(), buffer()];
    let (table, sequence, out, for_list) = (buffer(), buffer(), buffer(), buffer());
    let figures = [table.clone(), out.clone()];
    let limit = random.word();
    [
        Call::List { list },
        Call::Compare { router, routes },
        Call::Relies { list, router, other: first },
        Call::Explain { list, router, other: first },
        Call::Verdict { list, buffers },
        Call::Steady { list, out },
        Call::HopSet { list },
        Call::Grade { list },
        Call::Figures { buffers: figures },
        Call::EveryList { out: for_list },
        Call::Activate { list, router, table: table.clone() },
        Call::Run { list, sequence, limit, table },
    ]
}

fn sound(comparison: &mut Comparison, random: &mut Random, bytes: &[u8], plan: &Plan) -> Outcome {
    comparison.counts.count_plan(plan);
    if plan.n <= FEW {
        let preferences = Preferences::ask(comparison, random, bytes, plan)?;
        comparison.go_by(bytes, preferences);
    }
    comparisons(comparison, random, bytes, plan)?;
    past_the_lists(comparison, random, bytes, plan)?;
    reliance_calls::compare(comparison, random, bytes, plan)?;
    let verdicts = verdicts_of_lists(comparison, random, bytes, plan)?;
    let steady = steady_calls::compare(comparison, random, bytes, plan, &verdicts)?;
    hop_set_calls::compare(comparison, bytes, plan, &verdicts)?;
    grade_calls::compare(comparison, random, bytes, plan, &verdicts, &steady)?;
    figure_calls::compare(comparison, random, bytes, plan, &verdicts)?;
    every_list_calls::compare(comparison, random, bytes, plan, &verdicts)?;
    let list = random.below(plan.lists.len());
    hop_step::compare_with_all(comparison, random, bytes, list)?;
    for _ in 0..3 {
        let list = random.below(plan.lists.len());
        list_calls(comparison, random, bytes, list, plan)?;
    }
    all_series(comparison, random, bytes, plan, &verdicts)
}

/// A series on a stable list, by its verdict, and often a run whose acts read late; and a series on
/// an empty list, by what is stated of it.
fn all_series(
    comparison: &mut Comparison,
    random: &mut Random,
    bytes: &[u8],
    plan: &Plan,
    verdicts: &[Answer],
) -> Outcome {
    let stable: Vec<usize> = (0..plan.lists.len()).filter(|&list| verdicts[list].fields[0] == 1).collect();
    if !stable.is_empty() {
        let list = random.pick(&stable);
        series::compare(comparison, random, bytes, plan, list, Promise::of(&verdicts[list], plan.n))?;
        if random.chance(DELAYED) {
            delays::compare(comparison, random, bytes, plan, list, &Promise::of_delays(&verdicts[list], plan.n))?;
        }
    }
    let empty = plan.empty_lists();
    if !empty.is_empty() {
        let list = random.pick(&empty);
        series::compare(comparison, random, bytes, plan, list, empty_lists::promise(plan))?;
    }
    Ok(())
}

/// Comparisons at any router, at some with the hop step, and of numbers past n; each route is
/// told by its egress router or passed on.
fn comparisons(comparison: &mut Comparison, random: &mut Random, bytes: &[u8], plan: &Plan) -> Outcome {
    let n = plan.n;
    let mut asked: Vec<[usize; 3]> = (0..8).map(|_| [n; 3].map(|n| random.below(n))).collect();
    asked.extend((0..3).map(|_| [n; 3].map(|n| arguments::mostly_below(random, n))));
    let (router, strange) = (random.below(n), arguments::past(random, n));
    let mut with_a_strange_one = [router; 3];
    with_a_strange_one[random.below(3)] = strange;
    asked.extend([[router; 3], with_a_strange_one]);
    let stepping: Vec<usize> = plan.stepping.iter().copied().collect();
    for _ in 0..stepping.len().min(6) {
        asked.push([random.pick(&stepping), random.below(n), random.below(n)]);
    }
    asked.into_iter().try_for_each(|[router, first, second]| {
        let routes = [first, second].map(|egress| arguments::handed(random, egress));
        comparison.compare_routes(bytes, plan, router, routes).map(|_| ())
    })
}

/// List numbers at and past the number of lists, in every call.
fn past_the_lists(comparison: &mut Comparison, random: &mut Random, bytes: &[u8], plan: &Plan) -> Outcome {
    let (m, n) = (plan.lists.len(), plan.n);
    for list in [m, m + 1, usize::MAX, arguments::past(random, m)] {
        comparison.call(bytes, &Call::List { list })?;
    }
    let case = Case { plan, listed: &plan.lists[0].listed };
    let list = arguments::past(random, m);
    let table = arguments::table_buffer(random, case);
    let sequence = arguments::sequence(random, n);
    let limit = arguments::limit(random, sequence.len());
    let router = random.below(n);
    let room = random.below(4);
    let calls = [
        Call::Relies { list, router, other: random.below(n) },
        Call::Explain { list, router, other: random.below(n) },
        Call::Verdict { list, buffers: arguments::verdict_buffers(random, n) },
        Call::Verdict { list, buffers: arguments::short_verdict_buffers(random, n) },
        Call::Activate { list, router, table: table.clone() },
        Call::Steady { list, out: random.bytes(2 * MOST_NUMBERS) },
        Call::Steady { list, out: random.bytes(room) },
        Call::HopSet { list },
        Call::Grade { list },
        Call::Activate { list, router, table: arguments::broken_table(random, case) },
        Call::Run { list, sequence, limit, table },
    ];
    calls.iter().try_for_each(|call| comparison.call(bytes, call).map(|_| ()))
}

/// Every list handed back, and its verdict.
fn verdicts_of_lists(
    comparison: &mut Comparison,
    random: &mut Random,
    bytes: &[u8],
    plan: &Plan,
) -> Result<Vec<Answer>, Box<Mismatch>> {
    let mut verdicts = Vec::new();
    for list in 0..plan.lists.len() {
        comparison.call(bytes, &Call::List { list })?;
        let buffers = arguments::verdict_buffers(random, plan.n);
        let answer = comparison.call(bytes, &Call::Verdict { list, buffers })?;
        comparison.counts.count_verdict(plan, &answer);
        hop_step::hold_verdict(bytes, plan, &answer)?;
        if plan.lists[list].listed.is_empty() {
            empty_lists::hold_verdict(bytes, plan, &answer)?;
            comparison.counts.empty_lists += 1;
            comparison.counts.empty_lists_of_rank_1 += u64::from(answer.fields[1] == 1);
        }
        verdicts.push(answer);
    }
    Ok(verdicts)
}

fn list_calls(comparison: &mut Comparison, random: &mut Random, bytes: &[u8], list: usize, plan: &Plan) -> Outcome {
    let case = Case { plan, listed: &plan.lists[list].listed };
    for _ in 0..2 {
        let buffers = arguments::short_verdict_buffers(random, plan.n);
        comparison.call(bytes, &Call::Verdict { list, buffers })?;
    }
    activations(comparison, random, bytes, list, case)?;
    runs(comparison, random, bytes, list, case)
}

fn activations(comparison: &mut Comparison, random: &mut Random, bytes: &[u8], list: usize, case: Case) -> Outcome {
    let n = case.plan.n;
    let table = arguments::table_buffer(random, case);
    for _ in 0..4 {
        let router = random.below(n);
        comparison.call(bytes, &Call::Activate { list, router, table: table.clone() })?;
    }
    for _ in 0..3 {
        let router = arguments::mostly_below(random, n);
        let table = arguments::broken_table(random, case);
        comparison.call(bytes, &Call::Activate { list, router, table })?;
    }
    let router = arguments::past(random, n);
    comparison.call(bytes, &Call::Activate { list, router, table: table.clone() })?;
    for router in [arguments::mostly_below(random, n), random.below(n)] {
        let mut table = arguments::broken_table(random, case);
        table.truncate(arguments::short(random, 2 * n));
        comparison.call(bytes, &Call::Activate { list, router, table })?;
    }
    Ok(())
}

fn runs(comparison: &mut Comparison, random: &mut Random, bytes: &[u8], list: usize, case: Case) -> Outcome {
    let n = case.plan.n;
    for kind in 0..6 {
        let sequence = match kind {
            3 => arguments::strange_sequence(random, n),
            _ => arguments::sequence(random, n),
        };
        let mut table = match kind {
            4 => arguments::broken_table(random, case),
            _ => arguments::table_buffer(random, case),
        };
        if kind == 5 {
            table.truncate(arguments::short(random, 2 * n));
        }
        let limit = arguments::limit(random, sequence.len());
        comparison.call(bytes, &Call::Run { list, sequence, limit, table })?;
    }
    Ok(())
}

/// A run of a great many acts, with more rounds than two bytes can count.
pub fn long_run(comparison: &mut Comparison, random: &mut Random, n: usize) -> Outcome {
    let bytes = generate::sound_of(random, n).bytes();
    let plan = plan::read(&bytes).expect("a sound plan");
    let case = Case { plan: &plan, listed: &plan.lists[0].listed };
    let length = 66_000 * plan.n + random.below(1000);
    let sequence: Vec<u8> = (0..length).map(|place| (place % plan.n) as u8).collect();
    let table = arguments::table_buffer(random, case);
    let limit = random.pick(&[u64::MAX, length as u64, length as u64 - 1]);
    comparison.call(&bytes, &Call::Run { list: 0, sequence, limit, table }).map(|_| ())
}
