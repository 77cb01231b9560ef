//! Refusals 8, 9 and 10 on the small plan with p = q = 6: lists and routers asked
//! for, buffers, routing tables, and which number goes first.

use super::line::line;
use super::{small, LISTS, START};
use crate::harness::plans::small_plans;

/// Every call that takes a list.
fn list(name: &str, list: usize) -> String {
    line(name, &small(6, 6), |line| {
        let mut table = START.to_vec();
        line.list(list);
        line.relies(list, 0, 1);
        line.activate(list, 0, &mut table);
        line.run(list, &[0], 1, &mut table);
        line.verdict(list, [5, 5, 10, 5]);
    })
}

fn compare(name: &str, router: usize, first: usize, second: usize) -> String {
    line(name, &small(6, 6), |line| line.compare(router, first, second))
}

fn relies(name: &str, router: usize, other: usize) -> String {
    line(name, &small(6, 6), |line| line.relies(0, router, other))
}

fn activate(name: &str, router: usize, table: &[u8]) -> String {
    line(name, &small(6, 6), |line| line.activate(0, router, &mut table.to_vec()))
}

fn run(name: &str, sequence: &[u8], limit: u64, table: &[u8]) -> String {
    line(name, &small(6, 6), |line| line.run(0, sequence, limit, &mut table.to_vec()))
}

fn verdict(name: &str, lengths: [usize; 4]) -> String {
    line(name, &small(6, 6), |line| line.verdict(0, lengths))
}

/// An activation of router 1, a run of it and a run of no acts, on a table in
/// which the entry of `router` is another.
fn entry(name: &str, router: usize, entry: [u8; 2]) -> String {
    line(name, &small(6, 6), |line| {
        let mut table = START.to_vec();
        table[2 * router..2 * router + 2].copy_from_slice(&entry);
        line.activate(0, 1, &mut table);
        line.run(0, &[1], 1, &mut table);
        line.run(0, &[], 0, &mut table);
    })
}

fn numbers() -> Vec<String> {
    vec![
        list("list-3", 3),
        list("8-list-4", 4),
        list("8-list-largest", usize::MAX),
        compare("8-compare-at-4", 4, 2, 3),
        compare("8-compare-first-4", 0, 4, 3),
        compare("8-compare-second-4", 0, 2, 4),
        compare("8-compare-4-with-itself", 0, 4, 4),
        compare("compare-3-with-itself", 0, 3, 3),
        relies("8-relies-4", 4, 1),
        relies("8-relies-on-4", 0, 4),
        activate("8-activate-4", 4, &START),
        activate("8-activate-largest", usize::MAX, &START),
        run("8-run-first", &[4, 0], 2, &START),
        run("8-run-last", &[0, 4], 2, &START),
        run("8-run-after-the-limit", &[0, 4], 1, &START),
        run("8-run-limit-0", &[4], 0, &START),
    ]
}

fn buffers() -> Vec<String> {
    vec![
        activate("9-activate", 0, &START[..7]),
        run("9-run", &[0], 1, &START[..7]),
        run("9-run-of-no-acts", &[], 0, &START[..7]),
        verdict("9-labels", [3, 4, 8, 4]),
        verdict("9-ranks", [4, 3, 8, 4]),
        verdict("9-table", [4, 4, 7, 4]),
        verdict("9-cycle", [4, 4, 8, 3]),
        verdict("verdict-exact", [4, 4, 8, 4]),
    ]
}

fn entries() -> Vec<String> {
    vec![
        entry("10-listed-holds-nothing", 3, [255, 255]),
        entry("10-listed-holds-another", 2, [3, 0]),
        entry("10-listed-other-sender", 3, [3, 1]),
        entry("10-sender-no-neighbour", 0, [3, 3]),
        entry("10-sender-itself", 0, [2, 0]),
        entry("10-egress-4", 0, [4, 1]),
        entry("10-nothing-from-1", 0, [255, 1]),
        entry("10-2-from-255", 0, [2, 255]),
        entry("holds-3-from-1", 0, [3, 1]),
        entry("unlisted-egress", 0, [1, 1]),
        entry("own-egress", 0, [0, 1]),
    ]
}

/// Several numbers apply; the lowest is given.
fn lowest_first() -> Vec<String> {
    let mut bodies = small_plans::draft(6, 6, &LISTS).bodies();
    bodies.lists[0] = 0;
    let plan = bodies.bytes();
    vec![
        line("7-before-8", &plan, |line| line.activate(9, 9, &mut vec![1, 2, 3])),
        line("7-before-8-run", &plan, |line| line.run(9, &[9], 1, &mut vec![1, 2, 3])),
        activate("8-before-9", 4, &[1, 2, 3]),
        activate("9-before-10", 0, &[1, 2, 3]),
    ]
}

pub fn lines() -> Vec<String> {
    [numbers(), buffers(), entries(), lowest_first()].concat()
}
