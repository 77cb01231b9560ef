//! Checkers that, in one call, take a plan for another, as a slip has it.

use crate::interface::{
    Acts, Checker, CompareFields, EveryListFields, ExplainFields, FigureFields, GradeFields, Handed, Lent,
    ListFields, RunFields, SizeFields, VerdictBuffers, VerdictFields,
};
use crate::oracle::rules::Right;
use crate::oracle::Oracle;

/// A call that takes a plan.
#[derive(Clone, Copy, Debug, PartialEq, Eq)]
pub enum PlanCall {
    Check,
    Size,
    List,
    Compare,
    Relies,
    Explain,
    Verdict,
    Steady,
    HopSet,
    Grade,
    Figures,
    EveryList,
    Activate,
    Run,
    Widen,
    Narrow,
}

pub const WITHOUT_DISTANCES: [PlanCall; 3] = [PlanCall::Check, PlanCall::Size, PlanCall::List];

pub const BY_DISTANCES: [PlanCall; 11] = [
    PlanCall::Compare,
    PlanCall::Relies,
    PlanCall::Explain,
    PlanCall::Verdict,
    PlanCall::Steady,
    PlanCall::HopSet,
    PlanCall::Grade,
    PlanCall::Figures,
    PlanCall::EveryList,
    PlanCall::Activate,
    PlanCall::Run,
];

/// A checker that misreads a plan in one call. `taken_for` gives the plan that it takes one
/// for, if it is another.
pub struct Misreader<F> {
    call: PlanCall,
    taken_for: F,
    inner: Oracle<Right>,
    /// The last plan, and what it was taken for.
    last: (Vec<u8>, Vec<u8>),
}

impl<F: Fn(&[u8]) -> Option<Vec<u8>>> Misreader<F> {
    pub fn new(call: PlanCall, taken_for: F) -> Self {
        Misreader { call, taken_for, inner: Oracle::right(), last: Default::default() }
    }

    /// What the plan is taken for in a call.
    fn read<'a>(&'a mut self, call: PlanCall, plan: &'a [u8]) -> (&'a mut Oracle<Right>, &'a [u8]) {
        if call != self.call {
            return (&mut self.inner, plan);
        }
        if self.last.0 != plan {
            self.last = (plan.to_vec(), (self.taken_for)(plan).unwrap_or_else(|| plan.to_vec()));
        }
        (&mut self.inner, &self.last.1)
    }
}

impl<F: Fn(&[u8]) -> Option<Vec<u8>>> Checker for Misreader<F> {
    fn check(&mut self, plan: &[u8]) -> u8 {
        let (inner, plan) = self.read(PlanCall::Check, plan);
        inner.check(plan)
    }

    fn size(&mut self, plan: &[u8], fields: &mut SizeFields) -> u8 {
        let (inner, plan) = self.read(PlanCall::Size, plan);
        inner.size(plan, fields)
    }

    fn list(&mut self, plan: &[u8], list: usize, fields: &mut ListFields) -> u8 {
        let (inner, plan) = self.read(PlanCall::List, plan);
        inner.list(plan, list, fields)
    }

    fn compare(&mut self, plan: &[u8], router: usize, routes: [Handed; 2], fields: &mut CompareFields) -> u8 {
        let (inner, plan) = self.read(PlanCall::Compare, plan);
        inner.compare(plan, router, routes, fields)
    }

    fn relies(&mut self, plan: &[u8], list: usize, pair: (usize, usize), relies: &mut u8) -> u8 {
        let (inner, plan) = self.read(PlanCall::Relies, plan);
        inner.relies(plan, list, pair, relies)
    }

    fn explain(&mut self, plan: &[u8], list: usize, pair: (usize, usize), fields: &mut ExplainFields) -> u8 {
        let (inner, plan) = self.read(PlanCall::Explain, plan);
        inner.explain(plan, list, pair, fields)
    }

    fn verdict(&mut self, plan: &[u8], list: usize, lent: VerdictBuffers, fields: &mut VerdictFields) -> u8 {
        let (inner, plan) = self.read(PlanCall::Verdict, plan);
        inner.verdict(plan, list, lent, fields)
    }

    fn steady(&mut self, plan: &[u8], list: usize, out: &mut [u8], count: &mut Lent<u64>) -> u8 {
        let (inner, plan) = self.read(PlanCall::Steady, plan);
        inner.steady(plan, list, out, count)
    }

    fn hop_set(&mut self, plan: &[u8], list: usize, set: &mut Lent<u64>) -> u8 {
        let (inner, plan) = self.read(PlanCall::HopSet, plan);
        inner.hop_set(plan, list, set)
    }

    fn grade(&mut self, plan: &[u8], list: usize, fields: &mut GradeFields) -> u8 {
        let (inner, plan) = self.read(PlanCall::Grade, plan);
        inner.grade(plan, list, fields)
    }

    fn figures(&mut self, plan: &[u8], by_rank: &mut [u8], by_router: &mut [u8], fields: &mut FigureFields) -> u8 {
        let (inner, plan) = self.read(PlanCall::Figures, plan);
        inner.figures(plan, by_rank, by_router, fields)
    }

    fn every_list(&mut self, plan: &[u8], list: &mut [u8], fields: &mut EveryListFields) -> u8 {
        let (inner, plan) = self.read(PlanCall::EveryList, plan);
        inner.every_list(plan, list, fields)
    }

    fn activate(&mut self, plan: &[u8], list: usize, router: usize, table: &mut [u8]) -> u8 {
        let (inner, plan) = self.read(PlanCall::Activate, plan);
        inner.activate(plan, list, router, table)
    }

    fn run(&mut self, plan: &[u8], list: usize, acts: Acts, table: &mut [u8], fields: &mut RunFields) -> u8 {
        let (inner, plan) = self.read(PlanCall::Run, plan);
        inner.run(plan, list, acts, table, fields)
    }

    fn widen(&mut self, plan: &[u8], out: &mut [u8], length: &mut Lent<u64>) -> u8 {
        let (inner, plan) = self.read(PlanCall::Widen, plan);
        inner.widen(plan, out, length)
    }

    fn narrow(&mut self, plan: &[u8], out: &mut [u8], length: &mut Lent<u64>) -> u8 {
        let (inner, plan) = self.read(PlanCall::Narrow, plan);
        inner.narrow(plan, out, length)
    }

    fn distances(&mut self, n: usize, links: &[u8], out: &mut [u8]) -> u8 {
        self.inner.distances(n, links, out)
    }
}
