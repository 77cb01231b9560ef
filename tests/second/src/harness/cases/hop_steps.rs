//! Reflectors with the hop step: the small plan with p = q = 6 and role 4 of router 0, from
//! which there are 10 to 2 and 6 to 3; and a plan with a third reflector.

use super::line::{line, Line};
use super::LISTS;
use crate::harness::plans::draft::{Draft, NO_WAY};
use crate::harness::plans::small_plans;
use crate::interface::Handed;
use crate::oracle::mark::Mark;

/// The small plan with these roles of its reflectors.
fn draft([of_0, of_1]: [u8; 2]) -> Draft {
    Draft { roles: vec![of_0, of_1, 2, 2], ..small_plans::draft(6, 6, &LISTS) }
}

/// .. and some distances changed, from a router to another.
fn with_distances(distances: &[(usize, usize, u32)]) -> Draft {
    let mut draft = draft([4, 1]);
    distances.iter().for_each(|&(from, to, distance)| draft.distances[from][to] = distance);
    draft
}

fn told(egress: usize) -> Handed {
    Handed::told(egress)
}

fn passed_on(egress: usize) -> Handed {
    Handed::passed_on(egress)
}

/// A comparison at router 0.
fn better(name: &str, draft: &Draft, routes: [Handed; 2]) -> String {
    line(name, &draft.bytes(), |line| line.compare_handed(0, routes))
}

fn roles() -> Vec<String> {
    [4, 5].map(|role| line(&format!("step-role-{role}"), &draft([role, 1]).bytes(), |line| line.check())).into()
}

fn comparisons() -> Vec<String> {
    let plan = draft([4, 1]);
    let flag = |direct: u8| [Handed { egress: 2, direct }, passed_on(3)];
    let of_role = |role: u8| better(&format!("step-at-role-{role}"), &draft([role, 1]), flag(1));
    let nearer_client = with_distances(&[(2, 1, 20)]);
    vec![
        better("step-told-2-passed-on-3", &plan, flag(1)),
        better("step-passed-on-3-told-2", &plan, [passed_on(3), told(2)]),
        better("step-both-told", &plan, [told(2), told(3)]),
        better("step-both-passed-on", &plan, [passed_on(2), passed_on(3)]),
        better("step-passed-on-2-told-3", &plan, [passed_on(2), told(3)]),
        better("step-flag-2", &plan, flag(2)),
        better("step-flag-255", &plan, flag(255)),
        of_role(5),
        of_role(1),
        of_role(3),
        line("step-at-a-client", &nearer_client.bytes(), |line| line.compare_handed(2, [told(0), passed_on(1)])),
        better("step-one-egress", &plan, [told(3), passed_on(3)]),
        better("8-step-second-4", &plan, [told(2), passed_on(4)]),
    ]
}

/// A way still beats none, and the margin is as before.
fn ways_and_margins() -> Vec<String> {
    let (no_way_to_2, no_way_to_3) = (with_distances(&[(0, 2, NO_WAY)]), with_distances(&[(0, 3, NO_WAY)]));
    let no_way = with_distances(&[(0, 2, NO_WAY), (0, 3, NO_WAY)]);
    let tie = with_distances(&[(0, 3, 10)]);
    let farthest = with_distances(&[(0, 2, 65_534), (0, 3, 0)]);
    vec![
        better("step-no-way-to-the-told", &no_way_to_2, [told(2), passed_on(3)]),
        better("step-no-way-to-the-passed-on", &no_way_to_3, [told(2), passed_on(3)]),
        better("step-no-way-to-either", &no_way, [told(2), passed_on(3)]),
        better("step-tie-told-2", &tie, [told(2), passed_on(3)]),
        better("step-tie-told-3", &tie, [passed_on(2), told(3)]),
        better("step-tie-passed-on", &tie, [passed_on(3), passed_on(2)]),
        better("step-margin-of-65534", &farthest, [told(2), passed_on(3)]),
    ]
}

fn relies(name: &str, draft: &Draft, list: usize, router: usize, other: usize) -> String {
    line(name, &draft.bytes(), |line| line.relies(list, router, other))
}

/// Rule 3 goes by the step of the relying reflector; a listed one tells its own route.
fn reliances() -> Vec<String> {
    let plan = draft([4, 1]);
    vec![
        relies("step-0-on-1", &plan, 0, 0, 1),
        relies("step-0-on-2", &plan, 0, 0, 2),
        relies("step-1-on-0", &plan, 0, 1, 0),
        relies("step-role-5-0-on-1", &draft([5, 1]), 0, 0, 1),
        relies("step-role-1-0-on-1", &draft([1, 1]), 0, 0, 1),
        relies("step-of-the-other-0-on-1", &draft([1, 4]), 0, 0, 1),
        relies("step-no-client-0-on-1", &plan, 1, 0, 1),
        relies("step-listed-0-on-1", &plan, 3, 0, 1),
        relies("step-listed-and-nearer-0-on-1", &with_distances(&[(0, 1, 9)]), 3, 0, 1),
        relies("step-listed-and-as-near-0-on-1", &with_distances(&[(0, 1, 10)]), 3, 0, 1),
    ]
}

fn verdict(name: &str, roles: [u8; 2], list: usize) -> String {
    line(name, &draft(roles).bytes(), |line| line.verdict(list, [5, 5, 10, 5]))
}

fn verdicts() -> Vec<String> {
    vec![
        verdict("step-at-0", [4, 1], 0),
        verdict("step-at-1", [3, 5], 0),
        verdict("step-at-both", [4, 5], 0),
        verdict("step-at-none", [1, 3], 0),
        verdict("step-at-both-listed-3", [4, 4], 1),
        verdict("step-at-both-listed-0", [4, 4], 2),
    ]
}

fn activate(name: &str, draft: &Draft, list: usize, router: usize, table: &[u8]) -> String {
    line(name, &draft.bytes(), |line| line.activate(list, router, &mut table.to_vec()))
}

fn activations() -> Vec<String> {
    let (both, alone) = ([255, 255, 3, 3, 2, 2, 3, 3], [255, 255, 3, 3, 255, 255, 3, 3]);
    vec![
        activate("step-activate", &draft([4, 1]), 0, 0, &both),
        activate("step-activate-role-5", &draft([5, 1]), 0, 0, &both),
        activate("step-activate-role-1", &draft([1, 1]), 0, 0, &both),
        activate("step-activate-no-way-to-the-told", &with_distances(&[(0, 2, NO_WAY)]), 0, 0, &both),
        activate("step-activate-passed-on-alone", &draft([4, 1]), 1, 0, &alone),
    ]
}

/// Reflectors 0, 1 and 4, clients 2 and 3: router 0 of this role has client 2, and so has router
/// 1; routers 1 and 4 have client 3.
fn third(role: u8) -> Draft {
    let lists: [&[usize]; 3] = [&[2, 3], &[3], &[1, 3]];
    let of_0 = vec![0, 30, 10, 6, 30];
    let of_2 = vec![30, 30, 0, 20, 30];
    let of_others = |router: usize| (0..5).map(|to| if to == router { 0 } else { 30 }).collect();
    Draft {
        mark: Mark::Rrp1,
        roles: vec![role, 1, 2, 2, 1],
        identifiers: (1..=5).map(|place| 10 * place).collect(),
        sessions: [(0, 1), (0, 2), (0, 4), (1, 2), (1, 3), (3, 4)].into(),
        distances: vec![of_0, of_others(1), of_2, of_others(3), of_others(4)],
        lists: lists.iter().map(|list| list.iter().copied().collect()).collect(),
    }
}

/// Who told a route: its egress beside another, an unlisted router by a left-over entry, a
/// listed reflector; at a client it plays no part.
fn tellers() -> Vec<String> {
    let both_ways = [255, 255, 2, 2, 2, 2, 3, 3, 3, 3];
    let left_over = [255, 255, 1, 3, 255, 255, 3, 3, 3, 3];
    let left_over_passed_on = [255, 255, 3, 3, 255, 255, 3, 3, 1, 3];
    let listed = [3, 4, 1, 1, 255, 255, 3, 3, 3, 3];
    let (step, plain) = (third(4), third(1));
    vec![
        activate("step-heard-both-ways", &step, 0, 0, &both_ways),
        activate("step-heard-both-ways-role-1", &plain, 0, 0, &both_ways),
        activate("step-left-over-to-itself", &step, 1, 0, &left_over),
        activate("step-left-over-to-itself-role-1", &plain, 1, 0, &left_over),
        activate("step-left-over-passed-on", &step, 1, 0, &left_over_passed_on),
        activate("step-told-by-a-reflector", &step, 2, 0, &listed),
        activate("step-told-by-a-reflector-role-1", &plain, 2, 0, &listed),
        activate("step-not-at-client-2", &step, 2, 2, &listed),
    ]
}

/// From left-over routes the routers settle within the highest rank plus two rounds.
fn settled() -> Vec<String> {
    let acts = [4, 3, 2, 1, 0, 0, 1, 2, 3, 4].repeat(2);
    let mut table = vec![0, 1, 1, 3, 4, 0, 3, 3, 4, 0];
    let plan = third(4).bytes();
    vec![
        line("step-third", &plan, |line| line.verdict(1, [5, 5, 10, 5])),
        line("step-third-settles", &plan, |line| line.run(1, &acts, 20, &mut table)),
    ]
}

/// Role 5 skips its clients, and role 4 does not: client 3 alone is listed.
fn skips() -> Vec<String> {
    let verdict = |role: u8| {
        let mut draft = third(role);
        draft.sessions = [(0, 2), (0, 3), (1, 4)].into();
        line(&format!("step-role-{role}-listed-3"), &draft.bytes(), |line| line.verdict(1, [5, 5, 10, 5]))
    };
    [5, 4, 3].map(verdict).into()
}

/// The small plan of RRP2.
fn wide() -> Vec<String> {
    let plan = draft([4, 1]).marked(Mark::Rrp2).bytes();
    let compare =
        |name: &str, routes: [Handed; 2]| line(name, &plan, |line: &mut Line| line.compare_handed(0, routes));
    vec![
        compare("rrp2-step-told-2-passed-on-3", [told(2), passed_on(3)]),
        compare("rrp2-step-both-told", [told(2), told(3)]),
        line("rrp2-step-at-0", &plan, |line| line.verdict(0, [5, 5, 10, 5])),
    ]
}

pub fn lines() -> Vec<String> {
    let of_two = [roles(), comparisons(), ways_and_margins(), reliances(), verdicts(), activations()];
    [of_two.concat(), tellers(), settled(), skips(), wide()].concat()
}
