//! The limits of a plan: routers, distances, bytes.

use super::line::line;
use super::{small, LISTS};
use crate::harness::plans::draft::NO_WAY;
use crate::harness::plans::generate;
use crate::harness::plans::small_plans::{self, lone_reflectors};
use crate::harness::random::Random;
use crate::oracle::mark::Mark;

fn check(name: &str, plan: &[u8]) -> String {
    line(name, plan, |line| line.check())
}

/// The small plan with this distance from 0 to 3; the one from 0 to 2 is 10.
fn distance(name: &str, distance: u32) -> String {
    let plan = small(distance, 14);
    check(name, &plan) + &line("compared-to-10", &plan, |line| line.compare(0, 2, 3))
}

/// The small plan with these distances from 0 to 2 and to 3, pairs compared at 0.
fn margins(name: &str, to_2: u32, to_3: u32, pairs: &[(usize, usize)]) -> String {
    let mut draft = small_plans::draft(to_3, 14, &LISTS);
    draft.distances[0][2] = to_2;
    line(name, &draft.bytes(), |line| pairs.iter().for_each(|&(first, second)| line.compare(0, first, second)))
}

/// The small plan with p = q = 14 and no way from a router to itself.
fn diagonal(name: &str, router: usize) -> String {
    let mut draft = small_plans::draft(14, 14, &LISTS);
    draft.distances[router][router] = NO_WAY;
    check(name, &draft.bytes())
}

pub fn lines() -> Vec<String> {
    let largest = generate::largest(&mut Random::new(0), Mark::Rrp1).bytes();
    let longer = [&largest[..], &[0]].concat();
    vec![
        check("n=1", &lone_reflectors(1).bytes()),
        check("n=64", &lone_reflectors(64).bytes()),
        check("n=65", &lone_reflectors(65).bytes()),
        distance("distance-65534", 65_534),
        distance("distance-65535", 65_535),
        margins("margins-of-65534", 0, 65_534, &[(2, 3), (3, 2)]),
        margins("margin-of-0", 65_534, 65_534, &[(2, 3), (3, 2)]),
        margins("no-way-to-3", 10, NO_WAY, &[(3, 2)]),
        margins("no-way-to-either", NO_WAY, NO_WAY, &[(2, 3), (3, 2), (3, 3)]),
        diagonal("diagonal-65535", 0),
        diagonal("last-diagonal-65535", 3),
        line("largest-bytes", &largest, |line| line.word(largest.len())),
        check("largest", &largest),
        line("largest-list-63", &largest, |line| line.list(63)),
        check("largest-and-a-byte", &longer),
    ]
}
