//! Grades: the small plan with p = q = 6, reflectors in a mesh that prefer each other's clients,
//! and thirteen reflectors in a cycle.

use super::line::line;
use super::steady::cycle;
use super::LISTS;
use crate::harness::plans::draft::Draft;
use crate::harness::plans::small_plans::{self, preferring};
use crate::oracle::plan::Router;

fn grade(name: &str, draft: &Draft, list: usize) -> String {
    line(name, &draft.bytes(), |line| line.grade(list))
}

/// Reflectors in a mesh, each with a client of its own, which is at 10; the clients of those that it
/// prefers are at 6, and all else at 30.
fn mesh(prefers: &[&[Router]]) -> Draft {
    let count = prefers.len();
    let distance = |from: Router, to: Router| match prefers.get(from) {
        _ if from == to => 0,
        Some(_) if to == from + count => 10,
        Some(preferred) if preferred.iter().any(|reflector| to == reflector + count) => 6,
        _ => 30,
    };
    let row = |from: Router| (0..2 * count).map(|to| distance(from, to)).collect();
    Draft { distances: (0..2 * count).map(row).collect(), ..preferring(count, &[]) }
}

pub fn lines() -> Vec<String> {
    let small = small_plans::draft(6, 6, &LISTS);
    let thirteen = cycle(13);
    vec![
        grade("grade-1", &small, 0),
        grade("grade-1-stable", &small, 1),
        grade("8-grade-list-4", &small, 4),
        grade("grade-2", &mesh(&[&[1, 3], &[2], &[0], &[0]]), 0),
        grade("grade-3", &mesh(&[&[1, 2, 3], &[0, 2], &[0, 3], &[0, 1]]), 0),
        grade("grade-4", &mesh(&[&[1], &[2], &[0]]), 0),
        grade("15-grade-thirteen", &thirteen, 0),
        grade("8-before-15-grade-thirteen", &thirteen, 1),
    ]
}
