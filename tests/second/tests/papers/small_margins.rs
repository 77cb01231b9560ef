//! What document 02 states of the margin of two routes, on small plans.

use super::{answer, same};
use crate::Outcome;
use second_checker::harness::comparison::call::{perform, Call, Field};
use second_checker::harness::faults::misreadings::{Misread, Misreading};
use second_checker::harness::plans::draft::Draft;
use second_checker::harness::plans::generate;
use second_checker::harness::plans::small_plans::{draft, with_cuts};
use second_checker::harness::random::Random;
use second_checker::interface::Handed;
use second_checker::oracle::mark::Mark;
use second_checker::oracle::{margin_line, verdict_lines, Oracle};
use std::collections::BTreeSet;

/// Which of two is better at router 0, and the margin if there is one.
fn compares(draft: &Draft, pair: (usize, usize), better: Field, margin: Option<Field>) -> Outcome {
    let (first, second) = pair;
    let answer = answer(draft, &Call::Compare { router: 0, routes: [first, second].map(Handed::told) });
    let fields = vec![better, Field::from(margin.is_some()), margin.unwrap_or(0)];
    same(&format!("{first} compared with {second}"), (answer.refusal, answer.fields), (0, fields))
}

/// Negative: the first is better; positive: the second; zero: the lower number, or
/// they are the same.
#[test]
fn the_sign_of_a_margin_says_which_is_better() -> Outcome {
    let (nearer, tie) = (draft(6, 6, &[&[0]]), draft(10, 10, &[&[0]]));
    compares(&nearer, (3, 2), 1, Some(-4))?;
    compares(&nearer, (2, 3), 2, Some(4))?;
    compares(&tie, (2, 3), 1, Some(0))?;
    compares(&tie, (3, 2), 2, Some(0))?;
    compares(&tie, (3, 3), 0, Some(0))
}

#[test]
fn margins_go_from_minus_65534_to_65534() -> Outcome {
    let far = draft(65_534, 6, &[&[0]]);
    compares(&far, (0, 3), 1, Some(-65_534))?;
    compares(&far, (3, 0), 2, Some(65_534))
}

/// At router 0, 1 and 2 without a way and 3 with one.
#[test]
fn there_is_no_margin_without_a_way_to_both() -> Outcome {
    let plan = with_cuts(&[0], &[(0, 1), (0, 2)]);
    for (first, second, better) in [(3, 2, 1), (1, 3, 2), (1, 2, 0), (2, 1, 0), (2, 2, 0), (0, 1, 1)] {
        compares(&plan, (first, second), better, None)?;
    }
    compares(&plan, (0, 3), 1, Some(-6))
}

/// Reflectors 0 to 3 in a ring, each with the listed client of the number 4 higher.
/// Each prefers the next one's client to its own, router 0 by minus four, the others
/// by minus twenty; in tens the first of these is nought.
#[test]
fn a_cycle_of_four_is_suspect_and_in_tens_it_would_be_stable() -> Outcome {
    let distance = |from: usize, to: usize| match (from, to) {
        _ if from == to => 0,
        (0, 5) => 26,
        (1, 6) | (2, 7) | (3, 4) => 10,
        (0..=3, 4..) if to == from + 4 => 30,
        _ => 100,
    };
    let plan = Draft {
        mark: Mark::Rrp1,
        roles: vec![1, 1, 1, 1, 2, 2, 2, 2],
        identifiers: (1..=8).collect(),
        sessions: BTreeSet::from([(0, 1), (1, 2), (2, 3), (0, 3), (0, 4), (1, 5), (2, 6), (3, 7)]),
        distances: (0..8).map(|from| (0..8).map(|to| distance(from, to)).collect()).collect(),
        lists: vec![(4..8).collect()],
    };
    compares(&plan, (5, 4), 1, Some(-4))?;
    let lines = "routers 8 lists 1\n0 suspect 4 0 1 2 3\n".to_string();
    same("a ring of four", verdict_lines(&plan.bytes()), lines)?;
    let verdict = Call::Verdict { list: 0, buffers: [8, 8, 16, 8].map(|need| vec![99; need]) };
    let mut in_tens = Oracle::with(Misread(Misreading::ScaledDifferences));
    same("the ring in tens is stable", perform(&mut in_tens, &plan.bytes(), &verdict, 7).fields[0], 1)
}

#[test]
fn the_margin_program_prints_the_margin_or_none_or_the_refusal() -> Outcome {
    let line = |asked: &[u8], plan: &[u8]| margin_line(&[asked, plan].concat());
    let (nearer, tie) = (draft(6, 6, &[&[0]]).bytes(), draft(10, 10, &[&[0]]).bytes());
    let cut = with_cuts(&[0], &[(0, 2)]).bytes();
    let longer = [generate::largest(&mut Random::new(0), Mark::Rrp1).bytes(), vec![0]].concat();
    let expected: [(&[u8], &[u8], &str); 10] = [
        (&[0, 3, 2], &nearer, "-4\n"),
        (&[0, 2, 3], &nearer, "4\n"),
        (&[0, 2, 3], &tie, "0\n"),
        (&[0, 2, 3], &cut, "none\n"),
        (&[], &[], "refused 1\n"),
        (&[0, 2], &[], "refused 1\n"),
        (&[0, 2, 3], &[], "refused 1\n"),
        (&[0, 2, 3], &longer, "refused 1\n"),
        (&[0, 2, 4], &nearer, "refused 8\n"),
        (&[4, 2, 3], &nearer, "refused 8\n"),
    ];
    expected.iter().try_for_each(|(asked, plan, text)| {
        same(&format!("the line of {asked:?}"), line(asked, plan), text.to_string())
    })
}
