//! Plans with cut-off routers: the small plan with p = q = 6 and no way from some
//! routers to others.

use super::line::{line, Line};
use super::{LISTS, START};
use crate::harness::plans::draft::NO_WAY;
use crate::harness::plans::small_plans;

/// The small plan with no way between these pairs, from the first to the second.
fn plan(cuts: &[(usize, usize)]) -> Vec<u8> {
    let mut draft = small_plans::draft(6, 6, &LISTS);
    cuts.iter().for_each(|&(from, to)| draft.distances[from][to] = NO_WAY);
    draft.bytes()
}

/// A line on the plan with one cut.
fn cut(name: &str, pair: (usize, usize), ask: impl FnOnce(&mut Line)) -> String {
    line(name, &plan(&[pair]), ask)
}

fn verdict(name: &str, pair: (usize, usize), list: usize) -> String {
    cut(name, pair, |line| line.verdict(list, [5, 5, 10, 5]))
}

fn relies(name: &str, pair: (usize, usize), list: usize, router: usize, other: usize) -> String {
    cut(name, pair, |line| line.relies(list, router, other))
}

/// The offer of router 1 does not make it relied on, whether router 0 has a best
/// client (list 0) or none (list 1), and router 0 does not hear it.
fn no_way_to_an_offer() -> Vec<String> {
    let pair = (0, 3);
    let run = |name: &str, list: usize, sequence: &[u8], mut table: Vec<u8>| {
        cut(name, pair, |line| line.run(list, sequence, 9, &mut table))
    };
    vec![
        cut("cut-0-3-at-0", pair, |line| line.compare(0, 3, 2)),
        relies("cut-0-3-0-on-1", pair, 0, 0, 1),
        relies("cut-0-3-1-on-0", pair, 0, 1, 0),
        verdict("cut-0-3", pair, 0),
        run("cut-0-3-run", 0, &[1, 0, 2, 3], START.to_vec()),
        relies("cut-0-3-no-client-0-on-1", pair, 1, 0, 1),
        verdict("cut-0-3-no-client", pair, 1),
        // A left-over route without a way is announced until its router acts.
        run("cut-0-3-left-over", 1, &[2], vec![3, 1, 3, 3, 255, 255, 3, 3]),
        run("cut-0-3-left-over-run", 1, &[2, 0, 2], vec![3, 1, 3, 3, 255, 255, 3, 3]),
    ]
}

/// Router 0 has no way to its only listed client, so no best client; it offers nothing.
fn no_way_to_a_client() -> Vec<String> {
    let pair = (0, 2);
    let both = plan(&[(0, 2), (0, 3)]);
    vec![
        cut("cut-0-2-at-0", pair, |line| line.compare(0, 2, 3)),
        relies("cut-0-2-0-on-2", pair, 0, 0, 2),
        relies("cut-0-2-0-on-1", pair, 0, 0, 1),
        relies("cut-0-2-1-on-0", pair, 0, 1, 0),
        verdict("cut-0-2", pair, 0),
        line("cut-0-2-and-3-at-0", &both, |line| line.compare(0, 2, 3)),
        line("cut-0-2-and-3-at-0-exchanged", &both, |line| line.compare(0, 3, 2)),
        line("cut-0-2-and-3", &both, |line| line.verdict(0, [5, 5, 10, 5])),
    ]
}

/// Router 2 relies on its reflector with or without a way to it, or to the only
/// route that the reflector announces; without the latter it ends with nothing.
fn clients() -> Vec<String> {
    vec![
        relies("cut-2-3-2-on-0", (2, 3), 1, 2, 0),
        verdict("cut-2-3", (2, 3), 1),
        relies("cut-2-0-2-on-0", (2, 0), 1, 2, 0),
        verdict("cut-2-0", (2, 0), 1),
    ]
}

/// Router 0 alone is listed: router 1 has no way to its offer and holds nothing;
/// router 0 keeps its own route.
fn no_way_to_a_listed_reflector() -> Vec<String> {
    vec![relies("cut-1-0-1-on-0", (1, 0), 2, 1, 0), verdict("cut-1-0", (1, 0), 2)]
}

pub fn lines() -> Vec<String> {
    [no_way_to_an_offer(), no_way_to_a_client(), clients(), no_way_to_a_listed_reflector()].concat()
}
