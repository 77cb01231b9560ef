//! What document 02 states of an empty list, by roles and sessions alone: its verdict, why
//! routers rely on others or not, and that left-over routes are flushed. A checker is held
//! to it whatever the oracle says.

use super::call::{Answer, Field};
use super::compare::{hex, Mismatch, Outcome};
use super::series::Promise;
use crate::interface::{Explained, Reason, Rule};
use crate::oracle::plan::{Plan, Router};
use crate::oracle::tables::NONE;

/// Nobody offers anything: a client with a parent has rank 1, every other router rank 0.
pub fn ranks(plan: &Plan) -> Vec<u8> {
    let has_parent = |router: Router| plan.neighbours[router].iter().any(|&other| plan.is_reflector(other));
    (0..plan.n).map(|router| u8::from(!plan.is_reflector(router) && has_parent(router))).collect()
}

/// 1 exactly if some client has a parent.
fn highest_rank(plan: &Plan) -> u8 {
    ranks(plan).into_iter().max().unwrap_or(0)
}

/// All end with nothing.
fn nothing(plan: &Plan) -> Vec<u8> {
    vec![NONE; 2 * plan.n]
}

/// Every left-over route is flushed within two rounds, or three if some client has a parent.
pub fn promise(plan: &Plan) -> Promise {
    Promise { rounds: 2 + u64::from(highest_rank(plan)), table: nothing(plan) }
}

/// A client relies on its parents, and four reasons are left for all other pairs.
pub fn explanation(plan: &Plan, (router, other): (Router, Router)) -> Explained {
    match (plan.is_reflector(router), plan.is_reflector(other)) {
        _ if router == other => Explained::No(Reason::SameRouter),
        _ if !plan.neighbours[router].contains(&other) => Explained::No(Reason::NotNeighbours),
        (_, false) => Explained::No(Reason::UnlistedClient),
        (true, true) => Explained::No(Reason::NoOffer),
        (false, true) => Explained::Yes(Rule::Parent),
    }
}

/// The verdict of an empty list is stable, each router in a group of its own.
pub fn hold_verdict(bytes: &[u8], plan: &Plan, verdict: &Answer) -> Outcome {
    let labels = (0..plan.n).map(|router| router as u8).collect();
    let due: [Vec<u8>; 3] = [labels, ranks(plan), nothing(plan)];
    let is_written = due.iter().zip(&verdict.buffers).all(|(due, buffer)| buffer.starts_with(due));
    hold(bytes, verdict, is_written && verdict.fields == [1, highest_rank(plan).into()])
}

/// The explanation of two routers for an empty list has a rule or a reason and nothing else.
pub fn hold_explanation(bytes: &[u8], plan: &Plan, pair: (Router, Router), explained: &Answer) -> Outcome {
    let [relies, code] = match explanation(plan, pair) {
        Explained::Yes(_) => [1, 1],
        Explained::No(reason) => [0, reason as Field],
    };
    hold(bytes, explained, explained.fields == [relies, code, 0, 0, 0, 0])
}

fn hold(bytes: &[u8], answer: &Answer, fits: bool) -> Outcome {
    let differs = || format!("plan {}\nnot what is stated of an empty list {answer:?}", hex(bytes));
    fits.then_some(()).ok_or_else(|| Box::new(Mismatch(differs())))
}
