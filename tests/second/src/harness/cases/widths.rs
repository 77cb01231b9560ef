//! Plans that start RRP2: the small plan with distances of four bytes, at their limits and
//! told apart by their high bytes; and a plan longer than those that start RRP1.

use super::damaged::every_call;
use super::line::line;
use super::{small, LISTS, START};
use crate::harness::plans::draft::{Draft, NO_WAY};
use crate::harness::plans::small_plans::{self, lone_reflectors};
use crate::oracle::mark::Mark;

const FARTHEST: u32 = 4_294_967_294;

/// The small plan with these distances from 0 to 2, from 0 to 3 and from 1 to 2.
fn draft(to_2: u32, p: u32, q: u32) -> Draft {
    let mut draft = small_plans::draft(p, q, &LISTS).marked(Mark::Rrp2);
    draft.distances[0][2] = to_2;
    draft
}

/// A list of the plan with p = q = 14.
fn list(name: &str, list: usize) -> String {
    line(name, &draft(10, 14, 14).bytes(), |line| line.list(list))
}

/// The plan with p = q = 14 and other letters.
fn letters(name: &str, letters: &[u8; 4]) -> String {
    every_call(name, &[letters, &draft(10, 14, 14).bytes()[4..]].concat())
}

fn marks() -> Vec<String> {
    let two_bytes = [b"RRP2", &small(14, 14)[4..]].concat();
    vec![
        every_call("3-rrp2-with-two-bytes", &two_bytes),
        letters("3-rrp1-with-four-bytes", b"RRP1"),
        letters("rrp2", b"RRP2"),
        letters("1-rrp0", b"RRP0"),
        letters("1-rrp3", b"RRP3"),
        every_call("rrp2-p=q=6", &draft(10, 6, 6).bytes()),
        line("rrp2-run", &draft(10, 6, 6).bytes(), |line| line.run(0, &[1, 0, 2, 3], 4, &mut START.to_vec())),
        list("rrp2-list-3", 3),
        list("8-rrp2-list-4", 4),
    ]
}

/// The plan with this distance from 0 to 3; the one from 0 to 2 is 10.
fn distance(name: &str, distance: u32) -> String {
    line(name, &draft(10, distance, 14).bytes(), |line| {
        line.check();
        line.compare(0, 2, 3);
    })
}

/// The plan with these distances from 0 to 2 and to 3, compared at 0 both ways round.
fn margins(name: &str, to_2: u32, to_3: u32) -> String {
    line(name, &draft(to_2, to_3, 14).bytes(), |line| {
        line.compare(0, 2, 3);
        line.compare(0, 3, 2);
    })
}

/// The plan with this distance from a router to itself.
fn diagonal(name: &str, router: usize, distance: u32) -> String {
    let mut draft = draft(10, 14, 14);
    draft.distances[router][router] = distance;
    line(name, &draft.bytes(), |line| line.check())
}

fn limits() -> Vec<String> {
    vec![
        distance("rrp2-distance-65534", 65_534),
        distance("rrp2-distance-65535", 65_535),
        distance("rrp2-distance-65536", 65_536),
        distance("rrp2-distance-4294967294", FARTHEST),
        distance("rrp2-distance-4294967295", NO_WAY),
        margins("rrp2-margins-of-4294967294", 0, FARTHEST),
        margins("rrp2-margin-of-0", FARTHEST, FARTHEST),
        margins("rrp2-no-way-to-3", FARTHEST, NO_WAY),
        margins("rrp2-no-way-to-either", NO_WAY, NO_WAY),
        diagonal("6-rrp2-diagonal-4294967295", 0, NO_WAY),
        diagonal("6-rrp2-diagonal-65535", 0, 65_535),
        diagonal("6-rrp2-last-diagonal-65536", 3, 65_536),
    ]
}

fn relies(name: &str, draft: &Draft, router: usize, other: usize) -> String {
    line(name, &draft.bytes(), |line| line.relies(0, router, other))
}

fn verdict(name: &str, draft: &Draft) -> String {
    line(name, &draft.bytes(), |line| line.verdict(0, [5, 5, 10, 5]))
}

/// The two low bytes alone would say otherwise.
fn high_bytes() -> Vec<String> {
    let nearer = draft(65_546, 14, 14);
    let farther = draft(10, 16_777_216, 14);
    vec![
        relies("rrp2-third-byte-0-on-1", &nearer, 0, 1),
        verdict("rrp2-third-byte", &nearer),
        relies("rrp2-fourth-byte-0-on-1", &farther, 0, 1),
        verdict("rrp2-fourth-byte", &farther),
        verdict("rrp2-no-way", &draft(10, NO_WAY, 6)),
        verdict("rrp2-no-way-in-rrp1-alone", &draft(NO_WAY, 65_535, 14)),
    ]
}

/// 63 routers, one session and eight full lists: 16,732 bytes.
fn lengths() -> Vec<String> {
    let mut draft = lone_reflectors(63).marked(Mark::Rrp2);
    draft.sessions.insert((0, 1));
    draft.lists = vec![(0..63).collect(); 8];
    let plan = draft.bytes();
    let of = |name: &str, plan: &[u8]| {
        line(name, plan, |line| {
            line.word(plan.len());
            line.check();
        })
    };
    vec![of("rrp2-16732-bytes", &plan), of("1-rrp1-16732-bytes", &[b"RRP1", &plan[4..]].concat())]
}

pub fn lines() -> Vec<String> {
    [marks(), limits(), high_bytes(), lengths()].concat()
}
