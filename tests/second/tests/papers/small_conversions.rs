//! What document 02 states of the converter, on small plans.

use super::same;
use crate::Outcome;
use second_checker::harness::comparison::call::{perform, Answer, Call, Field};
use second_checker::harness::plans::draft::{Bodies, Draft, NO_WAY};
use second_checker::harness::plans::generate;
use second_checker::harness::plans::small_plans::{draft, star, with_cuts};
use second_checker::oracle::mark::Mark;
use second_checker::oracle::{verdict_lines, Oracle};

/// Reflector 0 and client 1 with a session, no way from 0 to 1 and 259 from 1 to 0.
const RRP1: [u8; 49] = [
    82, 82, 80, 49, 2, 4, 1, 26, 0, 10, 0, 2, 36, 0, 2, 0, 3, 38, 0, 8, 0, 4, 46, 0, 3, 0, 1, 10, 0, 0, 0, 2, 20, 0,
    0, 0, 0, 1, 0, 0, 255, 255, 3, 1, 0, 0, 1, 1, 1,
];

/// The same in RRP2.
const RRP2: [u8; 57] = [
    82, 82, 80, 50, 2, 4, 1, 26, 0, 10, 0, 2, 36, 0, 2, 0, 3, 38, 0, 16, 0, 4, 54, 0, 3, 0, 1, 10, 0, 0, 0, 2, 20, 0,
    0, 0, 0, 1, 0, 0, 0, 0, 255, 255, 255, 255, 3, 1, 0, 0, 0, 0, 0, 0, 1, 1, 1,
];

/// M3's plan of mark RRP2, with this distance from router 0 to router 3.
fn wide(p: u32) -> Draft {
    draft(p, 6, &[&[2, 3]]).marked(Mark::Rrp2)
}

/// A call of the converter, with a buffer of so many bytes 99.
fn converted(call: fn(Vec<u8>) -> Call, plan: &[u8], room: usize) -> Answer {
    perform(&mut Oracle::right(), plan, &call(vec![99; room]), 7)
}

fn widen(out: Vec<u8>) -> Call {
    Call::Widen { out }
}

fn narrow(out: Vec<u8>) -> Call {
    Call::Narrow { out }
}

fn refuses(what: &str, refusal: u8, call: fn(Vec<u8>) -> Call, plan: &[u8], room: usize) -> Outcome {
    let found = converted(call, plan, room);
    let untouched = Answer { refusal, fields: vec![7], buffers: vec![vec![99; room]], surroundings_kept: true };
    same(what, found, untouched)
}

#[test]
fn the_converter_changes_the_distances_and_what_the_contents_say_of_them() -> Outcome {
    let due = |length: Field, bytes: &[u8]| Answer {
        refusal: 0,
        fields: vec![length],
        buffers: vec![bytes.to_vec()],
        surroundings_kept: true,
    };
    same("widened", converted(widen, &RRP1, 57), due(57, &RRP2))?;
    same("narrowed", converted(narrow, &RRP2, 49), due(49, &RRP1))?;
    same("widened, with room", converted(widen, &RRP1, 60), due(57, &[&RRP2[..], &[99; 3]].concat()))?;
    same("narrowed, with room", converted(narrow, &RRP2, 57), due(49, &[&RRP1[..], &[99; 8]].concat()))
}

#[test]
fn what_is_widened_has_the_same_verdicts_and_goes_back_to_the_same_bytes() -> Outcome {
    for draft in [draft(6, 6, &[&[2, 3], &[3]]), with_cuts(&[2, 3], &[(0, 3), (1, 2)]), generate::deepest()] {
        let plan = draft.bytes();
        let room = plan.len() + 2 * draft.roles.len().pow(2);
        let wide = converted(widen, &plan, room).buffers.concat();
        same("the plan of RRP2", &wide, &draft.marked(Mark::Rrp2).bytes())?;
        same("its verdicts", verdict_lines(&wide), verdict_lines(&plan))?;
        same("and back", converted(narrow, &wide, plan.len()).buffers.concat(), plan)?;
    }
    Ok(())
}

#[test]
fn a_distance_above_65534_is_not_narrowed() -> Outcome {
    same("65534", converted(narrow, &wide(65_534).bytes(), 200).refusal, 0)?;
    same("no way", converted(narrow, &wide(NO_WAY).bytes(), 200).refusal, 0)?;
    for distance in [65_535, 65_536, 131_070, 16_777_216, 4_294_967_294] {
        refuses(&distance.to_string(), 14, narrow, &wide(distance).bytes(), 200)?;
    }
    let mut last = wide(6);
    last.distances[3][2] = 65_535;
    refuses("the last", 14, narrow, &last.bytes(), 200)
}

#[test]
fn a_plan_of_the_wrong_mark_for_the_direction_gives_1() -> Outcome {
    refuses("RRP2 widened", 1, widen, &RRP2, 99)?;
    refuses("RRP1 narrowed", 1, narrow, &RRP1, 99)?;
    refuses("another mark widened", 1, widen, &[b"RRP3", &RRP1[4..]].concat(), 99)?;
    refuses("another mark narrowed", 1, narrow, &[b"RRP3", &RRP2[4..]].concat(), 99)?;
    let [narrow_65, wide_65] = [&RRP1[..], &RRP2].map(|plan| [&plan[..4], &[65], &plan[5..]].concat());
    refuses("RRP2 of 65 routers widened", 1, widen, &wide_65, 0)?;
    refuses("RRP1 of 65 routers narrowed", 1, narrow, &narrow_65, 0)?;
    refuses("RRP1 of 65 routers widened", 2, widen, &narrow_65, 0)?;
    refuses("RRP2 of 65 routers narrowed", 2, narrow, &wide_65, 0)
}

/// .. and 13 after 5; each with a buffer of no bytes and a distance too far.
#[test]
fn refusal_14_goes_after_those_of_the_plan_and_before_9() -> Outcome {
    type Damage = fn(&mut Bodies);
    let damages: [(u8, Damage); 5] = [
        (3, |bodies| bodies.sessions.push(0)),
        (4, |bodies| bodies.routers[0] = 6),
        (5, |bodies| bodies.sessions.extend([3, 3])),
        (6, |bodies| bodies.distances[0] = 1),
        (7, |bodies| bodies.lists[0] = 0),
    ];
    for (refusal, damage) in damages {
        let mut bodies = wide(65_535).bodies();
        damage(&mut bodies);
        refuses("too far", refusal, narrow, &bodies.bytes(), 0)?;
        let mut bodies = draft(6, 6, &[&[2, 3]]).bodies();
        damage(&mut bodies);
        refuses("too short", refusal, widen, &bodies.bytes(), 0)?;
    }
    refuses("too far, too short", 14, narrow, &wide(65_535).bytes(), 0)?;
    refuses("narrowed, too short by one", 9, narrow, &RRP2, 48)?;
    refuses("widened, too short by one", 9, widen, &RRP1, 56)?;
    let mut crowded = star(5, &[1, 1, 1, 1, 1, 2]).marked(Mark::Rrp2);
    crowded.distances[0] = vec![1, 65_535, 0, 0, 0, 0];
    refuses("five parents", 13, narrow, &crowded.bytes(), 0)
}
