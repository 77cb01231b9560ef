//! What document 01 states of its small plans: M1 to M9, the bounds, the output
//! of the verdict program; what document 02 states of cut-off routers; and the
//! rank of the deepest plan.

use super::{answer, same};
use crate::Outcome;
use second_checker::harness::comparison::call::{Answer, Call, Field};
use second_checker::harness::plans::draft::Draft;
use second_checker::harness::plans::generate;
use second_checker::harness::plans::small_plans::{draft, lone_reflectors, with_cuts};
use second_checker::oracle::verdict_lines;

/// The expected answer of a call that is not refused.
fn due(fields: &[Field], buffers: &[&[u8]]) -> Answer {
    let buffers = buffers.iter().map(|buffer| buffer.to_vec()).collect();
    Answer { refusal: 0, fields: fields.to_vec(), buffers, surroundings_kept: true }
}

fn verdict(what: &str, draft: &Draft, fields: [Field; 2], buffers: [&[u8]; 4]) -> Outcome {
    let lent = [4, 4, 8, 4].map(|need| vec![99; need]);
    same(what, answer(draft, &Call::Verdict { list: 0, buffers: lent }), due(&fields, &buffers))
}

fn stable(what: &str, draft: &Draft, highest: Field, ranks: [u8; 4], table: [u8; 8]) -> Outcome {
    verdict(what, draft, [1, highest], [&[0, 1, 2, 3], &ranks, &table, &[99; 4]])
}

/// Suspect, with the cycle 0 1.
fn suspect(what: &str, draft: &Draft) -> Outcome {
    verdict(what, draft, [0, 2], [&[0, 0, 2, 3], &[99; 4], &[99; 8], &[0, 1, 99, 99]])
}

#[test]
fn m1_m2_m4_m6_and_m7_are_stable() -> Outcome {
    let both: &[usize] = &[2, 3];
    stable("M1", &draft(14, 14, &[both]), 1, [1, 1, 0, 0], [2, 2, 3, 3, 2, 2, 3, 3])?;
    stable("M2", &draft(6, 14, &[both]), 2, [2, 1, 0, 0], [3, 1, 3, 3, 2, 2, 3, 3])?;
    stable("M4", &draft(10, 10, &[both]), 2, [1, 2, 0, 0], [2, 2, 2, 0, 2, 2, 3, 3])?;
    stable("M6", &draft(6, 6, &[&[3]]), 3, [2, 1, 3, 0], [3, 1, 3, 3, 3, 0, 3, 3])?;
    stable("M7", &draft(6, 6, &[&[0]]), 2, [0, 1, 1, 2], [0, 0, 0, 0, 0, 0, 0, 1])
}

#[test]
fn m3_and_m5_are_suspect() -> Outcome {
    suspect("M3", &draft(6, 6, &[&[2, 3]]))?;
    suspect("M5", &draft(9, 10, &[&[2, 3]]))
}

fn run(what: &str, sequence: [u8; 4], table: [u8; 8]) -> Outcome {
    let start = vec![255, 255, 255, 255, 2, 2, 3, 3];
    let call = Call::Run { list: 0, sequence: sequence.to_vec(), limit: 9, table: start };
    same(what, answer(&draft(6, 6, &[&[2, 3]]), &call), due(&[4, 1, 0], &[&table]))
}

#[test]
fn m8_and_m9_end_in_tables_that_differ_by_the_order_of_the_acts() -> Outcome {
    run("M8", [0, 1, 2, 3], [2, 2, 2, 0, 2, 2, 3, 3])?;
    run("M9", [1, 0, 2, 3], [3, 1, 3, 3, 2, 2, 3, 3])
}

fn check(draft: &Draft) -> u8 {
    answer(draft, &Call::Check).refusal
}

#[test]
fn a_plan_has_at_most_64_routers() -> Outcome {
    same("64 routers", check(&lone_reflectors(64)), 0)?;
    same("65 routers", check(&lone_reflectors(65)), 2)
}

#[test]
fn a_router_may_have_no_way_to_another_but_not_to_itself() -> Outcome {
    same("distance 65534", check(&draft(65_534, 6, &[&[0]])), 0)?;
    same("distance 65535", check(&draft(65_535, 6, &[&[0]])), 0)?;
    let mut to_itself = draft(6, 6, &[&[0]]);
    to_itself.distances[2][2] = 65_535;
    same("distance 65535 to itself", check(&to_itself), 6)
}

#[test]
fn the_size_is_the_number_of_routers_and_of_lists() -> Outcome {
    let two_lists = draft(6, 6, &[&[2, 3], &[3]]);
    same("size", answer(&two_lists, &Call::Size), due(&[4, 2], &[]))
}

#[test]
fn a_route_without_a_way_is_not_heard_no_best_client_and_no_reason_to_rely() -> Outcome {
    let case = |cuts: &[(usize, usize)]| with_cuts(&[2, 3], cuts);
    stable("no way to the offer", &case(&[(0, 3)]), 2, [1, 2, 0, 0], [2, 2, 2, 0, 2, 2, 3, 3])?;
    stable("no way to the client", &case(&[(0, 2)]), 2, [2, 1, 0, 0], [3, 1, 3, 3, 2, 2, 3, 3])?;
    stable("no way to either", &case(&[(0, 2), (0, 3)]), 1, [0, 1, 0, 0], [255, 255, 3, 3, 2, 2, 3, 3])?;
    stable("no client, no way", &with_cuts(&[3], &[(0, 3)]), 1, [0, 1, 1, 0], [255, 255, 3, 3, 255, 255, 3, 3])?;
    stable("a client without a way", &with_cuts(&[3], &[(2, 3)]), 3, [2, 1, 3, 0], [3, 1, 3, 3, 255, 255, 3, 3])
}

#[test]
fn own_routes_and_what_clients_rely_on_need_no_way() -> Outcome {
    stable("no way to the parent", &with_cuts(&[3], &[(2, 0)]), 3, [2, 1, 3, 0], [3, 1, 3, 3, 3, 0, 3, 3])?;
    let zero = with_cuts(&[0], &[(1, 0), (0, 1), (0, 2), (0, 3)]);
    stable("a listed reflector cut off", &zero, 1, [0, 0, 1, 1], [0, 0, 255, 255, 0, 0, 255, 255])
}

#[test]
fn the_verdict_program_prints_the_example_of_document_01() -> Outcome {
    let bytes = draft(6, 6, &[&[2, 3], &[3]]).bytes();
    let lines = "routers 4 lists 2\n0 suspect 2 0 1\n1 stable 3\n";
    same("example output", verdict_lines(&bytes), lines.to_string())?;
    same("refused output", verdict_lines(b"RRP1"), "refused 1\n".to_string())
}

#[test]
fn the_deepest_plan_has_rank_51() -> Outcome {
    let lines = "routers 64 lists 1\n0 stable 51\n";
    same("deepest plan", verdict_lines(&generate::deepest().bytes()), lines.to_string())
}
