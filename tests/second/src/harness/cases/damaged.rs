//! A damaged plan for each part of refusals 1 to 7, handed to every call.

use super::line::line;
use super::{small, LISTS, START};
use crate::harness::plans::draft::Bodies;
use crate::harness::plans::small_plans;

/// Every call on a plan, for list 0.
pub fn every_call(name: &str, plan: &[u8]) -> String {
    every_call_from(name, plan, START)
}

/// .. with this table; the run goes on from the activation's.
pub fn every_call_from(name: &str, plan: &[u8], table: [u8; 8]) -> String {
    line(name, plan, |line| {
        let mut table = table.to_vec();
        line.check();
        line.list(0);
        line.compare(0, 2, 3);
        line.relies(0, 0, 1);
        line.activate(0, 0, &mut table);
        line.run(0, &[0], 1, &mut table);
        line.verdict(0, [5, 5, 10, 5]);
        line.steady(0, 5);
    })
}

/// The small plan with one byte of its head changed.
fn head(name: &str, at: usize, byte: u8) -> String {
    let mut plan = small(14, 14);
    plan[at] = byte;
    every_call(name, &plan)
}

/// The small plan with as many bytes, cut short or with bytes 0 after it.
fn resized(name: &str, length: usize) -> String {
    let mut plan = small(14, 14);
    plan.resize(length, 0);
    every_call(name, &plan)
}

/// The small plan with a body changed and a table of contents that fits.
fn bodies(name: &str, change: impl FnOnce(&mut Bodies)) -> String {
    let mut bodies = small_plans::draft(14, 14, &LISTS).bodies();
    change(&mut bodies);
    every_call(name, &bodies.bytes())
}

fn sessions(name: &str, sessions: &[u8]) -> String {
    bodies(name, |bodies| bodies.sessions = sessions.to_vec())
}

fn lists(name: &str, lists: &[u8]) -> String {
    bodies(name, |bodies| bodies.lists = lists.to_vec())
}

fn heads() -> Vec<String> {
    let length = small(14, 14).len();
    vec![
        resized("undamaged", length),
        head("1-letter", 0, b'X'),
        head("1-entries", 5, 3),
        resized("1-empty", 0),
        resized("1-25-bytes", 25),
        head("2-no-routers", 4, 0),
        head("2-65-routers", 4, 65),
        resized("3-26-bytes", 26),
        resized("3-last-byte-missing", length - 1),
        resized("3-a-byte-after", length + 1),
        head("3-kind", 6, 2),
        head("3-first-offset", 7, 27),
        head("3-next-offset", 12, 47),
        head("3-routers-shorter", 9, 15),
        head("3-lists-shorter", 24, 11),
    ]
}

fn routers_and_sessions() -> Vec<String> {
    vec![
        bodies("3-routers-length", |bodies| bodies.n = 3),
        sessions("3-odd-sessions", &[0, 1, 0]),
        bodies("3-distances-length", |bodies| bodies.distances.truncate(30)),
        bodies("4-role-0", |bodies| bodies.routers[0] = 0),
        bodies("4-role-6", |bodies| bodies.routers[15] = 6),
        bodies("4-same-identifier", |bodies| bodies.routers[6] = 10),
        bodies("4-lower-identifier", |bodies| bodies.routers[6] = 9),
        sessions("5-router-4", &[0, 1, 0, 2, 1, 4]),
        sessions("5-with-itself", &[1, 1, 0, 2, 1, 3]),
        sessions("5-second-lower", &[2, 1, 0, 2, 1, 3]),
        sessions("5-same-twice", &[0, 1, 0, 1, 1, 3]),
        sessions("5-not-rising", &[0, 3, 0, 2, 1, 3]),
    ]
}

fn distances_and_lists() -> Vec<String> {
    vec![
        bodies("6-diagonal", |bodies| bodies.distances[0] = 1),
        bodies("6-last-diagonal", |bodies| bodies.distances[31] = 1),
        lists("7-no-lists", &[0, 2, 2, 3, 1, 3, 1, 0, 3, 1, 2, 3]),
        lists("7-65-lists", &[65, 2, 2, 3, 1, 3, 1, 0, 3, 1, 2, 3]),
        lists("7-list-missing", &[5, 2, 2, 3, 1, 3, 1, 0, 3, 1, 2, 3]),
        lists("7-bytes-after", &[3, 2, 2, 3, 1, 3, 1, 0, 3, 1, 2, 3]),
        lists("7-count-0-before-numbers", &[4, 0, 2, 3, 1, 3, 1, 0, 3, 1, 2, 3]),
        lists("7-count-5", &[4, 5, 2, 3, 1, 3, 1, 0, 3, 1, 2, 3]),
        lists("7-router-4", &[4, 2, 2, 4, 1, 3, 1, 0, 3, 1, 2, 3]),
        lists("7-same-twice", &[4, 2, 2, 2, 1, 3, 1, 0, 3, 1, 2, 3]),
        lists("7-not-rising", &[4, 2, 2, 1, 1, 3, 1, 0, 3, 1, 2, 3]),
        lists("7-last-list-cut", &[4, 2, 2, 3, 1, 3, 1, 0, 4, 1, 2, 3]),
        lists("7-empty", &[]),
    ]
}

pub fn lines() -> Vec<String> {
    [heads(), routers_and_sessions(), distances_and_lists()].concat()
}
