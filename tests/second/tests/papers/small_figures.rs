//! What document 02 states of the figures of a plan, on small plans.

use super::{answer, same};
use crate::Outcome;
use second_checker::harness::comparison::call::{Call, Field};
use second_checker::harness::plans::small_plans::draft;

/// The figures of M3's plan with these lists, in buffers of six bytes.
fn gives(lists: &[&[usize]], fields: [Field; 4], by_rank: [u8; 4], by_router: [u8; 4]) -> Outcome {
    let found = answer(&draft(6, 6, lists), &Call::Figures { buffers: [vec![77; 6], vec![88; 6]] });
    let buffers = vec![[&by_rank[..], &[77, 77]].concat(), [&by_router[..], &[88, 88]].concat()];
    same("figures", (found.refusal, found.fields, found.buffers), (0, fields.to_vec(), buffers))
}

#[test]
fn with_no_stable_list_the_highest_rank_is_absent() -> Outcome {
    gives(&[&[2, 3]], [0, 1, 0, 0], [0; 4], [1, 1, 0, 0])?;
    gives(&[&[2, 3], &[2, 3]], [0, 2, 0, 0], [0; 4], [2, 2, 0, 0])
}

#[test]
fn an_empty_list_is_stable_with_rank_1() -> Outcome {
    gives(&[&[]], [1, 0, 1, 1], [0, 1, 0, 0], [0; 4])
}

/// All listed: the highest rank is 0, and not absent.
#[test]
fn a_highest_rank_of_0_is_not_absent() -> Outcome {
    gives(&[&[0, 1, 2, 3]], [1, 0, 1, 0], [1, 0, 0, 0], [0; 4])
}

/// List 3 alone: 1 relies on 3, 0 on 1, 2 on 0.
#[test]
fn several_lists_are_counted_each() -> Outcome {
    gives(&[&[2, 3], &[3], &[], &[2, 3], &[0, 1, 2, 3]], [3, 2, 1, 3], [1, 1, 0, 1], [2, 2, 0, 0])
}

#[test]
fn sixty_four_lists_fit() -> Outcome {
    gives(&[&[2, 3][..]; 64], [0, 64, 0, 0], [0; 4], [64, 64, 0, 0])?;
    gives(&[&[][..]; 64], [64, 0, 1, 1], [0, 64, 0, 0], [0; 4])
}

#[test]
fn fewer_than_n_bytes_for_either_are_refused() -> Outcome {
    let refusal = |lengths: [usize; 2]| {
        let buffers = lengths.map(|length| vec![77; length]);
        let found = answer(&draft(6, 6, &[&[3]]), &Call::Figures { buffers: buffers.clone() });
        (found.refusal, found.refusal == 0 || found.buffers == buffers)
    };
    same("lengths", [[4, 4], [3, 4], [4, 3], [0, 9]].map(refusal), [(0, true), (9, true), (9, true), (9, true)])
}
