//! What is stated of the grades of small plans.

use super::{answer, same};
use crate::Outcome;
use second_checker::harness::comparison::call::{Answer, Call};
use second_checker::harness::plans::draft::Draft;
use second_checker::harness::plans::small_plans::{draft, preferring, preferring_the_next};
use second_checker::oracle::plan::Router;

fn graded(what: &str, draft: &Draft, list: usize, grade: u8, rounds: u64) -> Outcome {
    let found = answer(draft, &Call::Grade { list });
    let fields = vec![grade.into(), rounds.into()];
    same(what, found, Answer { refusal: 0, fields, buffers: Vec::new(), surroundings_kept: true })
}

/// Reflectors of which each prefers the routes of those named.
fn prefers(rows: &[&[Router]]) -> Draft {
    let pairs = rows.iter().enumerate().flat_map(|(from, row)| row.iter().map(move |&to| (from, to)));
    preferring(rows.len(), &Vec::from_iter(pairs))
}

#[test]
fn each_grade_has_its_plan() -> Outcome {
    // One move leads from any choice of M3's two to rest.
    graded("M3", &draft(6, 6, &[&[2, 3]]), 0, 1, 4)?;
    graded("2", &prefers(&[&[1, 3], &[2], &[0], &[0]]), 0, 2, 0)?;
    graded("3", &prefers(&[&[1, 2, 3], &[0, 2], &[0, 3], &[0, 1]]), 0, 3, 0)?;
    graded("4", &preferring_the_next(3), 0, 4, 0)
}

/// A stable list rests within its highest rank plus two.
#[test]
fn a_stable_list_has_grade_1() -> Outcome {
    let plan = draft(6, 6, &[&[2, 3], &[3], &[], &[0, 1, 2, 3]]);
    graded("highest rank 3", &plan, 1, 1, 5)?;
    graded("nobody", &plan, 2, 1, 3)?;
    graded("everybody", &plan, 3, 1, 2)
}

/// A reflector outside the groups counts unless it relies on a listed one or has no client listed.
#[test]
fn reflectors_outside_the_groups_count() -> Outcome {
    let pair = [(0, 1), (1, 0)];
    graded("two", &preferring(2, &pair), 0, 1, 4)?;
    graded("two and another", &preferring(3, &pair), 0, 1, 5)?;
    let mut relying = preferring(4, &[&pair[..], &[(2, 3)]].concat());
    graded("two and two others", &relying, 0, 1, 6)?;
    relying.lists = vec![[3, 4, 5, 6].into()];
    graded("one of them listed", &relying, 0, 1, 4)?;
    relying.lists = vec![[4, 5, 6].into()];
    graded("one of them without a client", &relying, 0, 1, 5)
}

/// Two pairs, one of which relies on the other: the upper one moves only when the lower one rests.
#[test]
fn a_group_waits_for_those_that_it_relies_on() -> Outcome {
    let pairs = [(0, 1), (1, 0), (2, 3), (3, 2)];
    graded("beside each other", &preferring(4, &pairs), 0, 1, 5)?;
    // If 0 and 1 hold theirs while 2 does, 1 may leave it first, then 0, and then 1 holds it again.
    graded("one on the other", &preferring(4, &[&pairs[..], &[(0, 2)]].concat()), 0, 1, 7)
}

#[test]
fn refusals_of_the_call_for_grades() -> Outcome {
    let refused = |draft: &Draft, list: usize, refusal: u8| {
        let found = answer(draft, &Call::Grade { list });
        same("refusal", (found.refusal, &found.fields[..]), (refusal, &[7, i128::from(!7u64)][..]))
    };
    refused(&preferring_the_next(13), 0, 15)?;
    refused(&preferring_the_next(13), 1, 8)?;
    graded("twelve", &preferring_the_next(12), 0, 2, 0)?;
    let mut crowded = preferring_the_next(13);
    crowded.sessions.extend((1..5).map(|parent| (parent, 13)));
    refused(&crowded, 1, 13)
}
