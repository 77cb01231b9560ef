//! What document 02 states of lists with count 0, on small plans.

use super::{answer, same};
use crate::Outcome;
use second_checker::harness::comparison::call::{perform, Answer, Call, Field};
use second_checker::harness::plans::draft::{Bodies, Draft};
use second_checker::harness::plans::small_plans::{draft, star};
use second_checker::interface::Checker;
use second_checker::oracle::mark::Mark;
use second_checker::oracle::{verdict_lines, Oracle};

const NOTHING: u8 = 255;

/// M3's plan with these lists.
fn m3(lists: &[&[usize]]) -> Draft {
    draft(6, 6, lists)
}

/// M3's plan, with clients 2 and 3 of these parents.
fn with_sessions(sessions: &[(usize, usize)]) -> Draft {
    Draft { sessions: sessions.iter().copied().collect(), ..m3(&[&[]]) }
}

/// M3's plan with this body of lists is refused so, in both marks.
fn refused(refusal: u8, lists: &[u8]) -> Outcome {
    let check = |mark: Mark| {
        let bodies = Bodies { lists: lists.to_vec(), ..m3(&[]).marked(mark).bodies() };
        Oracle::right().check(&bodies.bytes())
    };
    same(&format!("lists {lists:?}"), [Mark::Rrp1, Mark::Rrp2].map(check), [refusal; 2])
}

/// So many lists with count 0.
fn zeros(m: u8) -> Vec<u8> {
    [vec![m], vec![0; usize::from(m)]].concat()
}

#[test]
fn a_count_of_0_is_legal() -> Outcome {
    let legal: [&[u8]; 5] = [&[1, 0], &[2, 0, 0], &[2, 0, 1, 3], &[2, 1, 3, 0], &[3, 1, 3, 0, 2, 2, 3]];
    legal.into_iter().try_for_each(|lists| refused(0, lists))?;
    refused(0, &zeros(64))
}

#[test]
fn what_follows_a_count_of_0_is_read_and_there_is_a_list() -> Outcome {
    refused(7, &[])?;
    refused(7, &[0])?;
    refused(7, &zeros(65))?;
    let after_0: [&[u8]; 5] = [&[2, 0], &[1, 0, 0], &[1, 0, 3], &[2, 0, 1, 4], &[2, 0, 2, 3, 2]];
    after_0.into_iter().try_for_each(|lists| refused(7, lists))
}

#[test]
fn an_empty_list_changes_no_other_refusal() -> Outcome {
    let is = |what: &str, refusal: u8, damage: fn(&mut Bodies)| {
        let mut bodies = m3(&[&[], &[3]]).bodies();
        damage(&mut bodies);
        same(what, Oracle::right().check(&bodies.bytes()), refusal)
    };
    is("role 6", 4, |bodies| bodies.routers[0] = 6)?;
    is("a session with itself", 5, |bodies| bodies.sessions[0] = 1)?;
    is("a diagonal of 1", 6, |bodies| bodies.distances[0] = 1)?;
    let mut crowded = star(5, &[1, 1, 1, 1, 1, 2]);
    crowded.lists = vec![[].into()];
    same("five parents", answer(&crowded, &Call::Check).refusal, 13)
}

/// Start and count, and the refusal.
fn part(draft: &Draft, list: usize) -> (Vec<Field>, u8) {
    let Answer { refusal, fields, .. } = perform(&mut Oracle::right(), &draft.bytes(), &Call::List { list }, 7);
    (fields, refusal)
}

/// The lists of the plan of RRP1 start at 84, those of the plan of RRP2 at 116.
#[test]
fn an_empty_list_is_handed_back_as_the_empty_part_at_its_own_place() -> Outcome {
    let narrow = m3(&[&[], &[2, 3], &[], &[3], &[]]);
    let parts = [(86, 0), (87, 2), (90, 0), (91, 1), (93, 0)];
    same("length", narrow.bytes().len(), 93)?;
    for (list, (start, count)) in parts.into_iter().enumerate() {
        let wide = narrow.clone().marked(Mark::Rrp2);
        same("in RRP1", part(&narrow, list), (vec![start, count], 0))?;
        same("in RRP2", part(&wide, list), (vec![start + 32, count], 0))?;
    }
    same("no such list", part(&narrow, 5), (vec![7, !7u64 as Field], 8))
}

/// Ranks of a stable list, in which every router ends with nothing.
fn flushed(what: &str, draft: &Draft, list: usize, ranks: [u8; 4]) -> Outcome {
    let buffers = [4, 4, 8, 4].map(|need| vec![99; need]);
    let found = answer(draft, &Call::Verdict { list, buffers });
    let highest = ranks.into_iter().max().unwrap_or(0).into();
    let due = [vec![0, 1, 2, 3], ranks.to_vec(), vec![NOTHING; 8], vec![99; 4]];
    same(what, (found.fields, found.buffers), (vec![1, highest], due.to_vec()))
}

#[test]
fn a_client_with_a_parent_has_rank_1_and_any_other_router_0() -> Outcome {
    flushed("alone", &m3(&[&[]]), 0, [0, 0, 1, 1])?;
    flushed("among others", &m3(&[&[2, 3], &[], &[3]]), 1, [0, 0, 1, 1])?;
    flushed("a client without a parent", &with_sessions(&[(0, 1), (0, 2)]), 0, [0, 0, 1, 0])?;
    flushed("a client with a client alone", &with_sessions(&[(0, 1), (0, 2), (2, 3)]), 0, [0, 0, 1, 0])?;
    flushed("no client with a parent", &with_sessions(&[(0, 1), (2, 3)]), 0, [0, 0, 0, 0])?;
    flushed("no sessions", &with_sessions(&[]), 0, [0, 0, 0, 0])
}

/// The table after the acts, all of which make so many rounds.
fn run(what: &str, table: [u8; 8], acts: &[u8], rounds: Field, left: [u8; 8]) -> Outcome {
    let call = Call::Run { list: 0, sequence: acts.to_vec(), limit: 99, table: table.to_vec() };
    let found = answer(&m3(&[&[]]), &call);
    same(what, (found.fields, found.buffers), (vec![acts.len() as Field, rounds, 0], vec![left.to_vec()]))
}

/// Router 1 had 3 from its client. Router 0 takes that over before router 1 drops it, and
/// router 2 has it from router 0 for one round more.
#[test]
fn old_routes_are_flushed_within_three_rounds_and_two_may_leave_one() -> Outcome {
    let old = [NOTHING, NOTHING, 3, 3, NOTHING, NOTHING, NOTHING, NOTHING];
    let after_one = [3, 1, NOTHING, NOTHING, 3, 0, NOTHING, NOTHING];
    let after_two = [NOTHING, NOTHING, NOTHING, NOTHING, 3, 0, NOTHING, NOTHING];
    run("one round", old, &[0, 1, 2, 3], 1, after_one)?;
    run("two rounds", old, &[0, 1, 2, 3, 2, 0, 1, 3], 2, after_two)?;
    run("three rounds", old, &[0, 1, 2, 3, 2, 0, 1, 3, 2, 0, 1, 3], 3, [NOTHING; 8])?;
    run("nothing stays nothing", [NOTHING; 8], &[2, 0, 1, 3], 1, [NOTHING; 8])
}

#[test]
fn a_table_in_which_a_router_holds_its_own_route_is_refused() -> Outcome {
    let table = vec![NOTHING, NOTHING, 3, 3, 2, 2, NOTHING, NOTHING];
    let found = answer(&m3(&[&[]]), &Call::Activate { list: 0, router: 0, table: table.clone() });
    same("router 2 holds 2", (found.refusal, found.buffers), (10, vec![table]))
}

#[test]
fn an_empty_list_leaves_the_rule_parent_and_four_reasons() -> Outcome {
    let stated = [(2, 0, [1, 1]), (0, 0, [0, 1]), (0, 3, [0, 2]), (0, 2, [0, 4]), (0, 1, [0, 7])];
    stated.into_iter().try_for_each(|(router, other, [relies, code])| {
        let found = answer(&m3(&[&[]]), &Call::Explain { list: 0, router, other });
        same(&format!("{router} on {other}"), found.fields, vec![relies, code, 0, 0, 0, 0])
    })
}

#[test]
fn the_verdict_program_prints_an_empty_list_as_stable() -> Outcome {
    let lines = "routers 4 lists 3\n0 suspect 2 0 1\n1 stable 1\n2 stable 3\n";
    same("among others", verdict_lines(&m3(&[&[2, 3], &[], &[3]]).bytes()), lines.to_string())?;
    let lines = "routers 4 lists 1\n0 stable 0\n";
    same("no parents", verdict_lines(&with_sessions(&[(0, 1)]).bytes()), lines.to_string())
}
