//! What documents 01 and 02 state of small plans and sheets, held against the oracle.

mod small_conversions;
mod small_delays;
mod small_empty_lists;
mod small_every_lists;
mod small_explanations;
mod small_figures;
mod small_grades;
mod small_hop_sets;
mod small_hop_steps;
mod small_margins;
mod small_parents;
mod small_plans;
mod small_roles;
mod small_sheets;
mod small_steady_tables;
mod small_widths;

use crate::Outcome;
use second_checker::harness::comparison::call::{perform, Answer, Call};
use second_checker::harness::plans::draft::Draft;
use second_checker::oracle::mark::Mark;
use second_checker::oracle::Oracle;
use std::fmt::Debug;

fn same<T: PartialEq + Debug>(what: &str, found: T, expected: T) -> Outcome {
    if found == expected {
        return Ok(());
    }
    Err(format!("{what}: found {found:?}, expected {expected:?}"))
}

/// The oracle's answer to a call. For a plan of RRP1 it is that for the plan of RRP2, in which
/// "all else is as in RRP1".
fn answer(draft: &Draft, call: &Call) -> Answer {
    let of = |plan: &[u8]| perform(&mut Oracle::right(), plan, call, 7);
    let answer = of(&draft.bytes());
    if draft.mark == Mark::Rrp1 {
        assert_eq!(answer, of(&draft.clone().marked(Mark::Rrp2).bytes()));
    }
    answer
}
