//! The tables that no act changes: the small plan with p = q = 6, reflectors that each prefer the
//! next one, two pairs of reflectors, and a reflector between two pairs.

use super::line::line;
use super::LISTS;
use crate::harness::plans::draft::{Draft, NO_WAY};
use crate::harness::plans::small_plans::{self, preferring};
use crate::oracle::mark::Mark;
use crate::oracle::plan::{CLIENT, REFLECTOR};

/// The numbers of a list, with a buffer of this length.
fn numbers(name: &str, draft: &Draft, list: usize, length: usize) -> String {
    line(name, &draft.bytes(), |line| line.steady(list, length))
}

/// The small plan with this distance from 0 to 3 and these roles of its reflectors.
fn small(p: u32, [of_0, of_1]: [u8; 2]) -> Draft {
    Draft { roles: vec![of_0, of_1, 2, 2], ..small_plans::draft(p, 6, &LISTS) }
}

fn small_plan() -> Vec<String> {
    let plan = small(6, [1, 1]);
    vec![
        numbers("steady-two", &plan, 0, 6),
        numbers("steady-two-exact", &plan, 0, 4),
        numbers("9-steady-two-a-byte-short", &plan, 0, 3),
        numbers("9-steady-two-no-bytes", &plan, 0, 0),
        numbers("steady-stable", &plan, 1, 5),
        numbers("steady-stable-exact", &plan, 2, 2),
        numbers("9-steady-stable-a-byte-short", &plan, 3, 1),
        numbers("8-steady-list-4", &plan, 4, 6),
        numbers("8-before-9-steady", &plan, 4, 0),
        numbers("steady-no-way-from-0-to-3", &small(NO_WAY, [1, 1]), 0, 5),
        numbers("steady-role-3", &small(6, [3, 3]), 0, 5),
        numbers("steady-step-at-0", &small(6, [4, 1]), 0, 5),
        numbers("rrp2-steady-two", &plan.marked(Mark::Rrp2), 0, 5),
    ]
}

/// So many reflectors in a cycle, each followed by its client, which is at 10; the next one's is at
/// 6, and all else at 14.
pub fn cycle(count: usize) -> Draft {
    let n = 2 * count;
    let distance = |from: usize, to: usize| match (to + n - from) % n {
        0 => 0,
        1 => 10,
        3 => 6,
        _ => 14,
    };
    let sessions =
        |router: usize| [(router, router + 1), (router.min((router + 2) % n), router.max((router + 2) % n))];
    Draft {
        mark: Mark::Rrp1,
        roles: [REFLECTOR, CLIENT].repeat(count),
        identifiers: (1..=n as u32).map(|place| 10 * place).collect(),
        sessions: (0..n).step_by(2).flat_map(sessions).collect(),
        distances: (0..n).map(|from| (0..n).map(|to| distance(from, to)).collect()).collect(),
        lists: vec![(1..n).step_by(2).collect()],
    }
}

fn cycles() -> Vec<String> {
    let (three, twelve, thirteen) = (cycle(3), cycle(12), cycle(13));
    vec![
        numbers("steady-none", &three, 0, 3),
        numbers("steady-none-exact", &three, 0, 0),
        numbers("steady-twelve", &twelve, 0, 5),
        numbers("9-steady-twelve-a-byte-short", &twelve, 0, 3),
        numbers("15-steady-thirteen", &thirteen, 0, 5),
        numbers("15-before-9-steady-thirteen", &thirteen, 0, 0),
        numbers("8-before-15-steady-thirteen", &thirteen, 1, 5),
    ]
}

/// Reflectors 0 and 2 prefer each other, and so do 1 and 3. In list 1, reflector 1 is listed and its
/// client is not.
fn two_pairs(more: &[(usize, usize)]) -> Draft {
    let mut draft = preferring(4, &[&[(0, 2), (2, 0), (1, 3), (3, 1)], more].concat());
    draft.lists.push([1, 4, 6, 7].into());
    draft
}

/// Of reflectors 0 to 4, 0 and 1 prefer each other, and so do 3 and 4; 2 prefers 3, and 0 prefers 2.
/// Client 5 is one of routers 0 and 4, 6 one of 1 and 3, 7 one of 2.
fn one_between() -> Draft {
    let nearest = [[10, 6, 8], [6, 10, 14], [14, 6, 10], [6, 10, 14], [10, 6, 14]];
    let row = |router: usize| {
        let to_clients = nearest.get(router).copied().unwrap_or([30; 3]);
        let mut row = [[30; 5].as_slice(), &to_clients].concat();
        row[router] = 0;
        row
    };
    Draft {
        mark: Mark::Rrp1,
        roles: vec![1, 1, 1, 1, 1, 2, 2, 2],
        identifiers: (1..=8).map(|place| 10 * place).collect(),
        sessions: [(0, 1), (0, 2), (0, 5), (1, 6), (2, 3), (2, 7), (3, 4), (3, 6), (4, 5)].into(),
        distances: (0..8).map(row).collect(),
        lists: vec![[5, 6, 7].into()],
    }
}

fn pairs() -> Vec<String> {
    vec![
        numbers("steady-four", &two_pairs(&[]), 0, 9),
        numbers("9-steady-four-a-byte-short", &two_pairs(&[]), 0, 7),
        numbers("steady-one-on-another", &two_pairs(&[(0, 1)]), 0, 9),
        numbers("steady-one", &two_pairs(&[(0, 1)]), 1, 5),
        numbers("steady-one-between", &one_between(), 0, 9),
    ]
}

pub fn lines() -> Vec<String> {
    [small_plan(), cycles(), pairs()].concat()
}
