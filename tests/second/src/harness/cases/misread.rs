//! Plans that tell each misreading of the rules from the rules.

use super::line::line;
use super::small;
use crate::harness::plans::draft::Draft;
use crate::oracle::mark::Mark;
use crate::oracle::plan::{CLIENT, REFLECTOR};

fn relies(name: &str, plan: &[u8], list: usize, router: usize, other: usize) -> String {
    line(name, plan, |line| line.relies(list, router, other))
}

fn compare(name: &str, plan: &[u8], router: usize, first: usize, second: usize) -> String {
    line(name, plan, |line| line.compare(router, first, second))
}

fn verdict(name: &str, plan: &[u8], list: usize) -> String {
    line(name, plan, |line| line.verdict(list, [5, 5, 10, 5]))
}

fn run(name: &str, plan: &[u8], sequence: &[u8], table: &[u8]) -> String {
    let limit = sequence.len() as u64;
    line(name, plan, |line| line.run(0, sequence, limit, &mut table.to_vec()))
}

/// A plan whose first routers, `reflectors` of them, are reflectors.
fn plan<const N: usize>(
    reflectors: usize,
    sessions: &[(usize, usize)],
    distances: [[u32; N]; N],
    lists: &[&[usize]],
) -> Vec<u8> {
    let draft = Draft {
        mark: Mark::Rrp1,
        roles: (0..N).map(|router| if router < reflectors { REFLECTOR } else { CLIENT }).collect(),
        identifiers: (1..=N as u32).collect(),
        sessions: sessions.iter().copied().collect(),
        distances: distances.map(Vec::from).to_vec(),
        lists: lists.iter().map(|list| list.iter().copied().collect()).collect(),
    };
    draft.bytes()
}

/// A tie counts: of two egresses at one distance the lower number is better.
/// One unit of distance counts, and so does its high byte.
fn distances() -> Vec<String> {
    let (tie, nearer) = (small(10, 10), small(9, 10));
    let high_byte = [[0, 30, 256, 255], [30, 0, 30, 10], [30, 30, 0, 30], [30, 30, 30, 0]];
    let high_byte = plan(2, &[(0, 1), (0, 2), (1, 3)], high_byte, &[&[2, 3]]);
    vec![
        relies("tie-1-on-0", &tie, 0, 1, 0),
        relies("tie-0-on-1", &tie, 0, 0, 1),
        relies("tie-1-on-3", &tie, 0, 1, 3),
        relies("tie-1-on-2", &tie, 0, 1, 2),
        compare("tie-at-0", &tie, 0, 2, 3),
        compare("tie-at-1", &tie, 1, 3, 2),
        relies("p=9-0-on-1", &nearer, 0, 0, 1),
        compare("p=9-at-0", &nearer, 0, 2, 3),
        verdict("p=9", &nearer, 0),
        verdict("p=10", &tie, 0),
        compare("distances-256-and-255", &high_byte, 0, 2, 3),
    ]
}

/// A reflector's best client is judged at that reflector: router 1 offers 3 and
/// not 4, which is nearer to router 0.
fn best_client() -> Vec<String> {
    let distances =
        [[0, 30, 10, 12, 8], [30, 0, 30, 5, 6], [30, 30, 0, 30, 30], [30, 30, 30, 0, 30], [30, 30, 30, 30, 0]];
    let plan = plan(2, &[(0, 1), (0, 2), (1, 3), (1, 4)], distances, &[&[2, 3, 4], &[3, 4]]);
    vec![
        relies("best-client-0-on-1", &plan, 0, 0, 1),
        relies("best-client-1-on-3", &plan, 0, 1, 3),
        relies("best-client-1-on-4", &plan, 0, 1, 4),
        verdict("best-client", &plan, 0),
        relies("no-client-0-on-1", &plan, 1, 0, 1),
        verdict("no-client", &plan, 1),
    ]
}

/// Reflectors 0, 1 and 2 in a row: 1 does not advertise to 0 what 2 sent it.
fn third_reflector() -> Vec<String> {
    let distances = [[0, 1, 2, 3], [1, 0, 1, 2], [2, 1, 0, 1], [3, 2, 1, 0]];
    let plan = plan(3, &[(0, 1), (1, 2), (2, 3)], distances, &[&[3]]);
    vec![
        relies("row-0-on-1", &plan, 0, 0, 1),
        relies("row-1-on-2", &plan, 0, 1, 2),
        run("row-run", &plan, &[2, 1, 0, 3], &[255, 255, 255, 255, 255, 255, 3, 3]),
        verdict("row", &plan, 0),
    ]
}

/// A client of both reflectors is not better than itself; the egress router goes
/// before the lowest number as sender.
fn shared_client() -> Vec<String> {
    let distances = [[0, 1, 5, 1], [1, 0, 5, 1], [5, 5, 0, 5], [1, 1, 5, 0]];
    let plan = plan(2, &[(0, 1), (0, 2), (0, 3), (1, 2), (1, 3)], distances, &[&[2]]);
    vec![
        relies("shared-0-on-1", &plan, 0, 0, 1),
        relies("shared-1-on-0", &plan, 0, 1, 0),
        relies("shared-0-on-2", &plan, 0, 0, 2),
        run("shared-run", &plan, &[1, 0, 3], &[255, 255, 255, 255, 2, 2, 255, 255]),
        verdict("shared", &plan, 0),
    ]
}

/// In list 3 router 1 offers itself and not its client.
fn listed_reflector() -> Vec<String> {
    let plan = small(6, 6);
    vec![
        relies("listed-0-on-1", &plan, 3, 0, 1),
        relies("listed-0-on-2", &plan, 3, 0, 2),
        relies("listed-1-on-3", &plan, 3, 1, 3),
        verdict("listed", &plan, 3),
    ]
}

pub fn lines() -> Vec<String> {
    [distances(), best_client(), third_reflector(), shared_client(), listed_reflector()].concat()
}
