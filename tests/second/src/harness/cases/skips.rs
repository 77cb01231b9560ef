//! Reflectors that skip their own clients. Router 0 has clients 2 and 3, reflector 1
//! has clients 3 and 4; all distances are equal.

use super::line::{line, Line};
use crate::harness::plans::draft::Draft;
use crate::oracle::mark::Mark;
use std::collections::BTreeSet;

const LISTS: [&[usize]; 5] = [&[2], &[3], &[4], &[0], &[2, 4]];

/// The plan in which the reflectors have these roles, and client 3 has a session with
/// reflector 0 and another router.
fn draft([of_0, of_1]: [u8; 2], other_of_3: usize) -> Draft {
    let distance = |from: usize, to: usize| if from == to { 0 } else { 9 };
    Draft {
        mark: Mark::Rrp1,
        roles: vec![of_0, of_1, 2, 2, 2],
        identifiers: (1..=5).map(|place| 10 * place).collect(),
        sessions: BTreeSet::from([(0, 1), (0, 2), (0, 3), (other_of_3, 3), (1, 4)]),
        distances: (0..5).map(|from| (0..5).map(|to| distance(from, to)).collect()).collect(),
        lists: LISTS.iter().map(|list| list.iter().copied().collect()).collect(),
    }
}

/// A line on the plan in which router 0 has role 3.
fn on_plan(name: &str, ask: impl FnOnce(&mut Line)) -> String {
    line(name, &draft([3, 1], 1).bytes(), ask)
}

fn verdict(name: &str, roles: [u8; 2], list: usize) -> String {
    line(name, &draft(roles, 1).bytes(), |line| line.verdict(list, [5, 5, 10, 5]))
}

fn relies(name: &str, list: usize, router: usize, other: usize) -> String {
    on_plan(name, |line| line.relies(list, router, other))
}

fn roles() -> Vec<String> {
    let mut bodies = draft([3, 1], 1).bodies();
    bodies.routers[0] = 6;
    vec![on_plan("role-3", |line| line.check()), line("4-role-6-of-0", &bodies.bytes(), |line| line.check())]
}

/// What a client told goes to reflectors alone, what a reflector told to clients,
/// and a listed router's own route to every neighbour.
fn settled() -> Vec<String> {
    let mesh = draft([3, 1], 2).bytes();
    vec![
        verdict("role-3-listed-2", [3, 1], 0),
        verdict("role-3-both-listed-2", [3, 3], 0),
        verdict("role-1-listed-2", [1, 1], 0),
        verdict("role-3-listed-3", [3, 1], 1),
        verdict("role-3-both-listed-3", [3, 3], 1),
        verdict("role-1-listed-3", [1, 1], 1),
        verdict("role-3-listed-4", [3, 1], 2),
        verdict("role-3-listed-0", [3, 1], 3),
        relies("role-3-2-on-0", 1, 2, 0),
        relies("role-3-1-on-0", 0, 1, 0),
        relies("role-3-1-on-listed-0", 3, 1, 0),
        relies("role-3-0-on-2", 4, 0, 2),
        relies("role-3-0-on-1", 4, 0, 1),
        line("role-3-mesh", &mesh, |line| line.verdict(1, [5, 5, 10, 5])),
    ]
}

/// An activation for list 2, in which 4 alone is listed, where 1 and 3 hold nothing.
fn left_over(name: &str, of_0: [u8; 2], of_2: [u8; 2], router: usize) -> String {
    let mut table = [of_0, [255, 255], of_2, [255, 255], [4, 4]].concat();
    on_plan(name, |line| line.activate(2, router, &mut table))
}

fn left_overs() -> Vec<String> {
    let nothing = [255, 255];
    let acts = [4, 3, 2, 1, 0, 0, 1, 2, 3, 4].repeat(2);
    let mut of_role_1 = vec![2, 2, 2, 0, 3, 0, 3, 3, 2, 1];
    vec![
        left_over("role-3-left-over-to-1", [2, 3], [2, 0], 1),
        left_over("role-3-left-over-to-2", [2, 3], [2, 0], 2),
        left_over("role-3-left-over-egress-1", [1, 3], [1, 0], 2),
        left_over("role-3-left-over-from-1-to-1", [3, 1], nothing, 1),
        left_over("role-3-left-over-from-1-to-2", [3, 1], nothing, 2),
        on_plan("role-3-settles", |line| line.run(1, &acts, 20, &mut of_role_1)),
    ]
}

pub fn lines() -> Vec<String> {
    [roles(), settled(), left_overs()].concat()
}
