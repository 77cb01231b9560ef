//! The calls that are timed. None may be refused.

use crate::harness::comparison::arguments;
use crate::harness::plans::draft::Draft;
use crate::harness::random::Random;
use crate::interface::{
    Acts, Checker, CompareFields, EveryListFields, ExplainFields, FigureFields, Flag, GradeFields, Handed, Lent,
    ListFields, RunFields, SizeFields, VerdictBuffers, VerdictFields,
};
use crate::oracle::mark::Mark;
use crate::oracle::plan;
use crate::oracle::rules::Case;
use crate::oracle::steady::MOST_NUMBERS;
use std::hint::black_box;

pub fn check(checker: &mut dyn Checker, plan: &[u8]) {
    assert_eq!(checker.check(black_box(plan)), 0);
}

pub fn size(checker: &mut dyn Checker, plan: &[u8]) {
    let mut fields = SizeFields { routers: 0, lists: 0 };
    assert_eq!(checker.size(black_box(plan), &mut fields), 0);
    black_box((fields.routers, fields.lists));
}

pub fn list(checker: &mut dyn Checker, plan: &[u8]) {
    let mut fields = ListFields { start: 0, count: 0 };
    assert_eq!(checker.list(black_box(plan), 0, &mut fields), 0);
    black_box((fields.start, fields.count));
}

pub fn compare(checker: &mut dyn Checker, plan: &[u8]) {
    let mut fields = CompareFields::new(0, 0, 0);
    let routes = black_box([Handed::told(1), Handed::passed_on(2)]);
    assert_eq!(checker.compare(black_box(plan), 0, routes, &mut fields), 0);
    black_box((fields.better.value, fields.has_margin.value, fields.margin.value));
}

pub fn relies(checker: &mut dyn Checker, plan: &[u8]) {
    let mut relies = 0;
    assert_eq!(checker.relies(black_box(plan), 0, (0, 1), &mut relies), 0);
    black_box(relies);
}

pub fn explain(checker: &mut dyn Checker, plan: &[u8]) {
    let mut fields = ExplainFields::new([0; 3], [0; 2], 0);
    assert_eq!(checker.explain(black_box(plan), 0, (0, 1), &mut fields), 0);
    black_box((fields.relies.value, fields.code.value, fields.offer.value, fields.own.value, fields.margin.value));
}

/// A verdict; says whether it is stable.
pub fn verdict(checker: &mut dyn Checker, plan: &[u8]) -> bool {
    verdict_of(checker, plan, 0)
}

/// .. of one list.
pub fn verdict_of(checker: &mut dyn Checker, plan: &[u8], list: usize) -> bool {
    let (mut labels, mut ranks, mut table, mut cycle) = ([0; 64], [0; 64], [0; 128], [0; 64]);
    let lent = VerdictBuffers { labels: &mut labels, ranks: &mut ranks, table: &mut table, cycle: &mut cycle };
    let mut fields = VerdictFields { stable: Flag::new(0), size: 0 };
    assert_eq!(checker.verdict(black_box(plan), list, lent, &mut fields), 0);
    black_box((labels, ranks, table, cycle, fields.size));
    fields.stable.value == 1
}

/// The numbers of steady tables; says how many these are.
pub fn steady(checker: &mut dyn Checker, plan: &[u8]) -> u64 {
    let (mut out, mut count) = ([0; 2 * MOST_NUMBERS], Lent::new(0));
    assert_eq!(checker.steady(black_box(plan), 0, black_box(&mut out), &mut count), 0);
    count.value
}

pub fn hop_set(checker: &mut dyn Checker, plan: &[u8]) {
    let mut set = Lent::new(0);
    assert_eq!(checker.hop_set(black_box(plan), 0, &mut set), 0);
    black_box(set.value);
}

pub fn grade(checker: &mut dyn Checker, plan: &[u8]) {
    let mut fields = GradeFields::new(0, 0);
    assert_eq!(checker.grade(black_box(plan), 0, &mut fields), 0);
    black_box((fields.grade.value, fields.rounds.value));
}

pub fn every_list(checker: &mut dyn Checker, plan: &[u8]) {
    let (mut list, mut fields) = ([0; 64], EveryListFields::new(0, 0));
    assert_eq!(checker.every_list(black_box(plan), black_box(&mut list), &mut fields), 0);
    black_box((fields.answer.value, fields.count.value));
}

pub fn figures(checker: &mut dyn Checker, plan: &[u8]) {
    let (mut by_rank, mut by_router) = ([0; 64], [0; 64]);
    let mut fields = FigureFields::new([0; 2], 0, 0);
    assert_eq!(checker.figures(black_box(plan), &mut by_rank, &mut by_router, &mut fields), 0);
    black_box((by_rank, by_router, fields.stable.value, fields.suspect.value, fields.highest.value));
}

pub fn activate(checker: &mut dyn Checker, plan: &[u8], table: &[u8]) {
    let mut lent = [0; 128];
    lent[..table.len()].copy_from_slice(table);
    assert_eq!(checker.activate(black_box(plan), 0, 0, black_box(&mut lent)), 0);
}

pub fn distances(checker: &mut dyn Checker, n: usize, links: &[u8], out: &mut [u8]) {
    assert_eq!(checker.distances(black_box(n), black_box(links), black_box(out)), 0);
}

/// A conversion of a plan, by its mark.
pub fn convert(checker: &mut dyn Checker, plan: &[u8], out: &mut [u8]) {
    let mut length = Lent::new(0);
    let refusal = match Mark::of(plan) {
        Some(Mark::Rrp1) => checker.widen(black_box(plan), black_box(out), &mut length),
        _ => checker.narrow(black_box(plan), black_box(out), &mut length),
    };
    assert_eq!((refusal, length.value), (0, out.len() as u64));
}

/// A plan, a table to start from, and acts drawn at random.
pub struct Run {
    pub plan: Vec<u8>,
    pub table: Vec<u8>,
    sequence: Vec<u8>,
}

impl Run {
    pub fn new(random: &mut Random, draft: &Draft, acts: usize) -> Self {
        let bytes = draft.bytes();
        let plan = plan::read(&bytes).expect("a sound plan");
        let table = arguments::table(random, Case { plan: &plan, listed: &plan.lists[0].listed });
        let sequence = (0..acts).map(|_| random.below(plan.n) as u8).collect();
        Run { plan: bytes, table, sequence }
    }

    pub fn by(&self, checker: &mut dyn Checker) {
        let mut fields = RunFields { applied: 0, rounds: 0, exhausted: Flag::new(0) };
        let acts = Acts { sequence: black_box(&self.sequence), limit: u64::MAX };
        assert_eq!(checker.run(black_box(&self.plan), 0, acts, &mut self.table.clone(), &mut fields), 0);
        assert_eq!(fields.applied, self.sequence.len() as u64);
        black_box(fields.rounds);
    }
}
