//! What document 02 states of acts that read late, on small plans.

use super::{answer, same};
use crate::Outcome;
use second_checker::harness::comparison::call::Call;
use second_checker::harness::plans::draft::{Draft, NO_WAY};
use second_checker::harness::plans::small_plans::draft;
use second_checker::oracle::delayed::{promised_rounds, DelayedRun, ROUNDS_BACK};
use second_checker::oracle::mark::Mark;

const NOTHING: u8 = 255;

/// The moments that each act of a sequence of two routers may read, from the first to the last.
/// Rounds end with acts 1, 4 and 6.
#[test]
fn an_act_reads_no_earlier_than_the_start_of_the_round_before() -> Outcome {
    let acts = [0, 1, 0, 0, 1, 1, 0, 0];
    let mut run = DelayedRun::new(vec![NOTHING; 4]);
    let mut found = Vec::new();
    for act in acts {
        found.push(run.readable(ROUNDS_BACK));
        run.apply(act, &[NOTHING; 4]);
    }
    same("moments", found, vec![0..=0, 0..=1, 0..=2, 0..=3, 0..=4, 2..=5, 2..=6, 5..=7])
}

/// Reflectors 0 and 1, and the listed client 2 of 1, to which 1 has no way. The highest rank
/// is 0.
fn cut_off() -> Draft {
    Draft {
        mark: Mark::Rrp1,
        roles: vec![1, 1, 2],
        identifiers: vec![10, 20, 30],
        sessions: [(0, 1), (1, 2)].into(),
        distances: vec![vec![0, 5, 258], vec![7, 0, NO_WAY], vec![3, 4, 0]],
        lists: vec![[2].into()],
    }
}

/// M3's plan with the hop step at both reflectors, for a list of nobody. The highest rank is 1.
fn gone_with_step() -> Draft {
    Draft { roles: vec![4, 4, 2, 2], ..draft(6, 6, &[&[]]) }
}

/// A run of rounds of all routers in turn, in which each act reads its neighbours at the moment
/// given for it; whether each of these may be read, and the last table.
fn run(draft: &Draft, start: &[u8], moments: &[usize]) -> (bool, u64, Vec<u8>) {
    let n = draft.roles.len();
    let neighbours =
        |one: usize, other: usize| draft.sessions.contains(&(one, other)) || draft.sessions.contains(&(other, one));
    let mut run = DelayedRun::new(start.to_vec());
    let mut all_may = true;
    for (act, &moment) in moments.iter().enumerate() {
        let router = act % n;
        all_may &= run.readable(ROUNDS_BACK).contains(&moment);
        let of = |other: usize| if neighbours(router, other) { moment } else { run.present() };
        let table = run.handed(&(0..n).map(of).collect::<Vec<usize>>());
        let left = answer(draft, &Call::Activate { list: 0, router, table });
        assert_eq!(left.refusal, 0);
        run.apply(router, &left.buffers[0]);
    }
    (all_may, run.ended(), run.table().to_vec())
}

fn highest_rank(draft: &Draft) -> u64 {
    let n = draft.roles.len();
    let buffers = [n, n, 2 * n, n].map(|need| vec![0; need]);
    answer(draft, &Call::Verdict { list: 0, buffers }).fields[1] as u64
}

const LEFT_OVER: [u8; 6] = [NOTHING, NOTHING, 2, 2, 2, 2];
const HELD_ON: [u8; 6] = [2, 1, NOTHING, NOTHING, 2, 2];
const SETTLED: [u8; 6] = [NOTHING, NOTHING, NOTHING, NOTHING, 2, 2];

/// In the second round router 0 still reads router 1 as it stood at the start, and in the third
/// as it stood after the first.
#[test]
fn three_rounds_settle_a_list_of_highest_rank_0_and_two_do_not() -> Outcome {
    same("promised", promised_rounds(highest_rank(&cut_off())), 3)?;
    same("two", run(&cut_off(), &LEFT_OVER, &[0, 1, 2, 0, 4, 5]), (true, 2, HELD_ON.to_vec()))?;
    same("three", run(&cut_off(), &LEFT_OVER, &[0, 1, 2, 0, 4, 5, 3, 7, 8]), (true, 3, SETTLED.to_vec()))
}

#[test]
fn three_rounds_do_not_if_an_act_reads_a_round_further_back() -> Outcome {
    same("three", run(&cut_off(), &LEFT_OVER, &[0, 1, 2, 0, 4, 5, 0, 7, 8]), (false, 3, HELD_ON.to_vec()))
}

/// Client 2 reads in the fourth round what router 0 held before its act of the third.
#[test]
fn four_rounds_do_not_settle_a_list_of_highest_rank_1() -> Outcome {
    let start = [NOTHING, NOTHING, 3, 3, NOTHING, NOTHING, NOTHING, NOTHING];
    let mut left = [NOTHING; 8];
    left[4..6].copy_from_slice(&[3, 0]);
    let moments = [0, 1, 2, 3, 0, 5, 6, 7, 8, 9, 10, 11, 12, 13, 8, 15];
    same("promised", promised_rounds(highest_rank(&gone_with_step())), 5)?;
    same("four", run(&gone_with_step(), &start, &moments), (true, 4, left.to_vec()))?;
    let more = [&moments[..], &[16, 17, 12, 19]].concat();
    same("five", run(&gone_with_step(), &start, &more), (true, 5, vec![NOTHING; 8]))
}
