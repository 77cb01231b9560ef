//! What document 02 states of wider distances, in plans that start RRP2.

use super::{answer, same};
use crate::Outcome;
use second_checker::harness::comparison::call::{Call, Field};
use second_checker::harness::plans::draft::{Bodies, Draft};
use second_checker::harness::plans::generate;
use second_checker::harness::plans::small_plans::draft;
use second_checker::harness::random::Random;
use second_checker::interface::{Checker, Handed};
use second_checker::oracle::mark::Mark;
use second_checker::oracle::{margin_line, Oracle};

/// The greatest distance of RRP2.
const FARTHEST: u32 = 4_294_967_294;

fn check(plan: &[u8]) -> u8 {
    Oracle::right().check(plan)
}

/// M3's plan of mark RRP2, with this distance from router 0 to router 3.
fn wide(p: u32) -> Draft {
    draft(p, 6, &[&[2, 3], &[3]]).marked(Mark::Rrp2)
}

/// .. with the bodies changed.
fn with(change: impl FnOnce(&mut Bodies)) -> Vec<u8> {
    let mut bodies = wide(6).bodies();
    change(&mut bodies);
    bodies.bytes()
}

#[test]
fn a_plan_starts_rrp1_or_rrp2() -> Outcome {
    for (letters, mark) in [("RRP1", Mark::Rrp1), ("RRP2", Mark::Rrp2)] {
        let plan = wide(6).marked(mark).bytes();
        same(letters, (&plan[..4], check(&plan)), (letters.as_bytes(), 0))?;
    }
    for mark in ["RRP0", "RRP3", "rrp2", "RRQ2", "2PRR", "RRP\u{2}"] {
        same(mark, check(&[mark.as_bytes(), &wide(6).bytes()[4..]].concat()), 1)?;
    }
    Ok(())
}

#[test]
fn a_distance_of_rrp2_has_four_bytes_the_low_one_first() -> Outcome {
    // From router 0 to 1, 2 and 3.
    let row = |to_2: [u8; 4], to_3: [u8; 4]| {
        with(|bodies| {
            bodies.distances[8..12].copy_from_slice(&to_2);
            bodies.distances[12..16].copy_from_slice(&to_3);
        })
    };
    let margin = |plan: Vec<u8>| margin_line(&[&[0, 2, 3], &plan[..]].concat());
    let differs = |what: &str, to_2: [u8; 4], to_3: [u8; 4], text: &str| {
        same(what, margin(row(to_2, to_3)), format!("{text}\n"))
    };
    differs("the first byte", [5, 0, 0, 0], [2, 0, 0, 0], "3")?;
    differs("the second", [5, 1, 0, 0], [2, 0, 0, 0], "259")?;
    differs("the third", [5, 1, 1, 0], [2, 0, 0, 0], "65795")?;
    differs("the fourth", [5, 1, 1, 1], [2, 0, 0, 0], "16843011")?;
    differs("all", [254, 255, 255, 255], [4, 3, 2, 1], "4278058234")?;
    differs("no way", [254, 255, 255, 255], [255, 255, 255, 255], "none")?;
    differs("no way in RRP1 alone", [255, 255, 0, 0], [0, 0, 0, 0], "65535")
}

#[test]
fn the_farthest_is_4294967294_and_the_next_number_is_no_way() -> Outcome {
    let to_itself = |number: u32| with(|bodies| bodies.distances[20..24].copy_from_slice(&number.to_le_bytes()));
    for distance in [65_534, 65_535, 65_536, FARTHEST, FARTHEST + 1] {
        same(&format!("{distance} to another"), check(&wide(distance).bytes()), 0)?;
        same(&format!("{distance} to itself"), check(&to_itself(distance)), 6)?;
    }
    let compared = |p: u32| answer(&wide(p), &Call::Compare { router: 0, routes: [2, 3].map(Handed::told) }).fields;
    same("the farthest", compared(FARTHEST), vec![1, 1, 10 - Field::from(FARTHEST)])?;
    same("no way", compared(FARTHEST + 1), vec![1, 0, 0])?;
    same("what is no way in RRP1", compared(65_535), vec![1, 1, 10 - 65_535])
}

#[test]
fn margins_go_from_minus_4294967294_to_4294967294() -> Outcome {
    let compared = |first: usize, second: usize| {
        answer(&wide(FARTHEST), &Call::Compare { router: 0, routes: [first, second].map(Handed::told) }).fields
    };
    let farthest = Field::from(FARTHEST);
    same("the least", compared(0, 3), vec![1, 1, -farthest])?;
    same("the greatest", compared(3, 0), vec![2, 1, farthest])?;
    let line = |asked: [u8; 3]| margin_line(&[&asked[..], &wide(FARTHEST).bytes()].concat());
    same("the least in text", line([0, 0, 3]), "-4294967294\n".to_string())?;
    same("the greatest in text", line([0, 3, 0]), "4294967294\n".to_string())?;
    let mut offered = wide(0);
    offered.distances[0][2] = FARTHEST;
    let explained = answer(&offered, &Call::Explain { list: 0, router: 0, other: 1 });
    same("of an offer", explained.fields, vec![1, 4, 3, 1, 2, -farthest])
}

#[test]
fn distances_have_the_width_of_the_mark() -> Outcome {
    let narrow = draft(6, 6, &[&[2, 3]]).bodies();
    same("two bytes in RRP2", check(&with(|bodies| bodies.distances = narrow.distances)), 3)?;
    let four_bytes = with(|bodies| bodies.mark = Mark::Rrp1);
    same("four bytes in RRP1", check(&four_bytes), 3)?;
    same("63 bytes", check(&with(|bodies| _ = bodies.distances.pop())), 3)?;
    same("65 bytes", check(&with(|bodies| bodies.distances.push(0))), 3)
}

#[test]
fn a_plan_has_at_most_16731_bytes_or_24923() -> Outcome {
    let largest = |mark: Mark| generate::largest(&mut Random::new(0), mark).bytes();
    let longer = |mark: Mark, length: usize| {
        let mut plan = largest(mark);
        plan.resize(length, 0);
        check(&plan)
    };
    same("the longest plans", [Mark::Rrp1, Mark::Rrp2].map(|mark| largest(mark).len()), [16_731, 24_923])?;
    for (mark, length, refusal) in [
        (Mark::Rrp1, 16_731, 0),
        (Mark::Rrp1, 16_732, 1),
        (Mark::Rrp1, 24_923, 1),
        (Mark::Rrp2, 16_732, 3),
        (Mark::Rrp2, 24_923, 0),
        (Mark::Rrp2, 24_924, 1),
    ] {
        same(&format!("{mark:?} of {length} bytes"), longer(mark, length), refusal)?;
    }
    Ok(())
}
