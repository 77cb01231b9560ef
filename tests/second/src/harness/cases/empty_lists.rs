//! Empty lists: the small plan with p = q = 6 in which lists 1 and 3 name nobody, and list
//! bodies of counts 0 alone.

use super::damaged::every_call_from;
use super::line::{line, Line};
use crate::harness::plans::draft::{Bodies, Draft};
use crate::harness::plans::small_plans;
use crate::oracle::mark::Mark;

const LISTS: [&[usize]; 4] = [&[2, 3], &[], &[3], &[]];

/// What the routers held while router 3 was listed alone, but its own route.
const OLD: [u8; 8] = [3, 1, 3, 3, 3, 0, 255, 255];

/// Three rounds.
const ACTS: [u8; 12] = [0, 1, 2, 3, 2, 0, 1, 3, 2, 0, 1, 3];

fn draft() -> Draft {
    small_plans::draft(6, 6, &LISTS)
}

/// A line on the plan.
fn on_plan(name: &str, ask: impl FnOnce(&mut Line)) -> String {
    line(name, &draft().bytes(), ask)
}

/// A line on the plan with these sessions.
fn with_sessions(name: &str, sessions: &[(usize, usize)], ask: impl FnOnce(&mut Line)) -> String {
    let draft = Draft { sessions: sessions.iter().copied().collect(), ..draft() };
    line(name, &draft.bytes(), ask)
}

fn relies(name: &str, router: usize, other: usize) -> String {
    on_plan(name, |line| line.relies(1, router, other))
}

fn verdict(list: usize) -> impl FnOnce(&mut Line) {
    move |line| line.verdict(list, [5, 5, 10, 5])
}

fn lists() -> Vec<String> {
    vec![
        on_plan("nobody-check", |line| line.check()),
        on_plan("nobody-lists", |line| (0..4).for_each(|list| line.list(list))),
        on_plan("8-nobody-list-4", |line| line.list(4)),
    ]
}

/// A client relies on its parent; nobody offers anything.
fn verdicts() -> Vec<String> {
    let no_parent_of_3 = [(0, 1), (0, 2), (2, 3)];
    vec![
        relies("nobody-2-on-0", 2, 0),
        relies("nobody-0-on-2", 0, 2),
        relies("nobody-0-on-1", 0, 1),
        on_plan("nobody", verdict(1)),
        on_plan("nobody-last", verdict(3)),
        on_plan("nobody-beside-2-and-3", verdict(0)),
        on_plan("nobody-beside-3", verdict(2)),
        with_sessions("nobody-3-without-a-parent-on-2", &no_parent_of_3, |line| line.relies(1, 3, 2)),
        with_sessions("nobody-3-without-a-parent", &no_parent_of_3, verdict(1)),
        with_sessions("nobody-no-client-with-a-parent", &[(0, 1), (2, 3)], verdict(1)),
    ]
}

fn activate(name: &str, router: usize) -> String {
    on_plan(name, |line| line.activate(1, router, &mut OLD.to_vec()))
}

fn run(name: &str, limit: u64, table: [u8; 8]) -> String {
    on_plan(name, |line| line.run(1, &ACTS, limit, &mut table.to_vec()))
}

/// Left-over routes are flushed within three rounds; two leave router 2 one.
fn flushes() -> Vec<String> {
    let own = [3, 1, 3, 3, 3, 0, 3, 3];
    vec![
        activate("nobody-activate-0", 0),
        activate("nobody-activate-1", 1),
        activate("nobody-activate-2", 2),
        activate("nobody-activate-3", 3),
        run("nobody-one-round", 4, OLD),
        run("nobody-two-rounds", 8, OLD),
        run("nobody-three-rounds", 12, OLD),
        run("nobody-nothing-comes-back", 12, [255; 8]),
        run("10-nobody-own-route-of-3", 12, own),
        on_plan("10-nobody-old-table-of-list-2", |line| line.activate(2, 0, &mut OLD.to_vec())),
    ]
}

/// Every call, for list 0, on the plan with this body of lists.
fn every(name: &str, lists: &[u8]) -> String {
    let bodies = Bodies { lists: lists.to_vec(), ..draft().bodies() };
    every_call_from(name, &bodies.bytes(), OLD)
}

/// The last of so many lists, all empty.
fn last_of(name: &str, m: u8) -> String {
    let draft = Draft { lists: vec![[].into(); m.into()], ..draft() };
    line(name, &draft.bytes(), |line| {
        line.check();
        line.list(usize::from(m) - 1);
    })
}

/// What follows a count of 0 is read, and there is at least one list.
fn bodies() -> Vec<String> {
    vec![
        every("7-nobody-then-router-4", &[4, 2, 2, 3, 0, 1, 4, 0]),
        every("7-nobody-then-count-2", &[4, 2, 2, 3, 0, 2, 3, 0]),
        every("7-nobody-list-missing", &[5, 2, 2, 3, 0, 1, 3, 0]),
        every("7-nobody-left-over", &[3, 2, 2, 3, 0, 1, 3, 0]),
        every("nobody-alone", &[1, 0]),
        every("7-nobody-alone-list-missing", &[2, 0]),
        every("7-nobody-alone-left-over", &[0, 0]),
        every("7-nobody-alone-a-byte-after", &[1, 0, 0]),
        every("nobody-twice", &[2, 0, 0]),
        every("7-lists-0", &[0]),
        last_of("nobody-64-times", 64),
        last_of("7-nobody-65-times", 65),
    ]
}

/// The plan of RRP2.
fn wide() -> Vec<String> {
    let plan = draft().marked(Mark::Rrp2).bytes();
    vec![
        line("rrp2-nobody-lists", &plan, |line| (0..4).for_each(|list| line.list(list))),
        line("rrp2-nobody", &plan, verdict(1)),
        line("rrp2-nobody-beside-3", &plan, verdict(2)),
        line("rrp2-nobody-three-rounds", &plan, |line| line.run(1, &ACTS, 12, &mut OLD.to_vec())),
    ]
}

pub fn lines() -> Vec<String> {
    [lists(), verdicts(), flushes(), bodies(), wide()].concat()
}
