//! Reliances and their explanations: both calls on the same pairs of routers, held
//! against each other and, where a margin is given, against the comparison call.

use super::arguments;
use super::call::{Answer, Call};
use super::compare::{hex, Comparison, Mismatch, Outcome};
use super::empty_lists;
use super::plan_calls::FEW;
use crate::harness::random::Random;
use crate::interface::Handed;
use crate::oracle::plan::{Plan, Router};

type Pair = (Router, Router);

/// For every list: with few routers every pair, and the number n too; else some
/// pairs, and every pair of one list asked of the checker alone.
pub fn compare(comparison: &mut Comparison, random: &mut Random, bytes: &[u8], plan: &Plan) -> Outcome {
    let few = plan.n <= FEW;
    for list in 0..plan.lists.len() {
        let pairs = if few { pairs_below(plan.n + 1).collect() } else { some_pairs(random, plan) };
        pairs.into_iter().try_for_each(|pair| both_calls(comparison, bytes, plan, list, pair))?;
    }
    if few {
        return Ok(());
    }
    let list = random.below(plan.lists.len());
    pairs_below(plan.n).try_for_each(|pair| by_checker(comparison, bytes, list, pair))
}

fn pairs_below(n: usize) -> impl Iterator<Item = Pair> {
    (0..n).flat_map(move |router| (0..n).map(move |other| (router, other)))
}

/// Pairs of neighbours and others, a router with itself, and numbers past n.
fn some_pairs(random: &mut Random, plan: &Plan) -> Vec<Pair> {
    let mut drawn = || {
        let router = random.below(plan.n);
        let neighbours: Vec<Router> = plan.neighbours[router].iter().copied().collect();
        let near = !neighbours.is_empty() && random.chance(70);
        let other = if near { random.pick(&neighbours) } else { random.below(plan.n) };
        (router, other)
    };
    let mut pairs: Vec<Pair> = (0..12).map(|_| drawn()).collect();
    let (router, strange) = (random.below(plan.n), arguments::past(random, plan.n));
    pairs.extend([(router, strange), (strange, router), (router, router)]);
    pairs
}

fn relies(list: usize, (router, other): Pair) -> Call {
    Call::Relies { list, router, other }
}

fn explain(list: usize, (router, other): Pair) -> Call {
    Call::Explain { list, router, other }
}

/// Both calls, for an empty list held to what is stated of it; and, where a margin is given,
/// the comparison of the two routes, of which the own client's is told by itself.
fn both_calls(comparison: &mut Comparison, bytes: &[u8], plan: &Plan, list: usize, pair: Pair) -> Outcome {
    let relied = comparison.call(bytes, &relies(list, pair))?;
    let explained = comparison.call(bytes, &explain(list, pair))?;
    comparison.counts.pairs += 1;
    agree(bytes, list, pair, &relied, &explained)?;
    if plan.lists[list].listed.is_empty() && explained.refusal == 0 {
        empty_lists::hold_explanation(bytes, plan, pair, &explained)?;
    }
    let Some((offer, own, margin)) = explained.better_than_own() else { return Ok(()) };
    // A listed reflector tells its own route, any other passes one on.
    let is_told = plan.lists[list].listed.contains(&pair.1);
    let offer = Handed { egress: offer, direct: is_told.into() };
    let compared = comparison.call(bytes, &Call::Compare { router: pair.0, routes: [offer, Handed::told(own)] })?;
    if compared.refusal == 0 && compared.compared() == (1, Some(margin)) {
        return Ok(());
    }
    Err(differs(bytes, list, pair, &explained, &compared))
}

/// Both calls, made on the checker alone.
fn by_checker(comparison: &mut Comparison, bytes: &[u8], list: usize, pair: Pair) -> Outcome {
    let calls = [relies(list, pair), explain(list, pair)];
    let [relied, explained] = calls.map(|call| comparison.subject(bytes, &call));
    agree(bytes, list, pair, &relied, &explained)
}

/// Both are refused alike, or both say yes, or both no.
fn agree(bytes: &[u8], list: usize, pair: Pair, relies: &Answer, explained: &Answer) -> Outcome {
    let alike = relies.refusal == explained.refusal;
    if alike && (relies.refusal != 0 || relies.fields[0] == explained.fields[0]) {
        return Ok(());
    }
    Err(differs(bytes, list, pair, relies, explained))
}

/// Two calls of one checker that do not agree.
fn differs(bytes: &[u8], list: usize, pair: Pair, one: &Answer, other: &Answer) -> Box<Mismatch> {
    Box::new(Mismatch(format!(
        "plan {}\nlist {list} pair {pair:?}\none call {one:?}\nanother  {other:?}",
        hex(bytes)
    )))
}
