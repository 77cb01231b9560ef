//! The second checker, written from documents 01 and 02 alone, and from the texts of the calls
//! that go beyond them, and by other algorithms than the library's: sets and sorted orders,
//! choices step by step, depth-first search, layers, tables and sets tried one by one, Dijkstra's
//! search.

mod convert;
pub mod delayed;
pub mod every_list;
pub mod figures;
pub mod grade;
pub mod hop_set;
mod lines;
pub mod links;
pub mod mark;
pub mod plan;
pub mod rules;
pub mod steady;
pub mod tables;
pub mod verdict;

use crate::interface::{
    store, Acts, Checker, CompareFields, Compared, EveryListFields, ExplainFields, Explained, FigureFields, Flag,
    GradeFields, Handed, Lent, ListFields, RunFields, SizeFields, VerdictBuffers, VerdictFields,
};
use every_list::EveryList;
use figures::Figures;
use grade::Graded;
pub use lines::{margin_line, verdict_lines};
use mark::Mark;
use plan::Plan;
use rules::{Candidate, Case, Right, Rules};
use std::collections::VecDeque;
use std::rc::Rc;
use verdict::Outcome;

type Reading = Rc<Result<Plan, u8>>;

/// How many plans read lately are kept, since the same one is asked about many times.
const KEPT_READINGS: usize = 2;

/// The oracle behind the interface of the calls. Its rules can be replaced by
/// misread ones.
pub struct Oracle<R: Rules> {
    rules: R,
    recent: VecDeque<Recent>,
}

/// A plan read lately.
struct Recent {
    bytes: Vec<u8>,
    reading: Reading,
    /// The list whose steady tables were asked for last, and their numbers.
    numbered: Option<(usize, Numbers)>,
}

/// The numbers of the tables that no act changes, or refusal 15.
type Numbers = Result<Vec<u64>, u8>;

impl Oracle<Right> {
    pub fn right() -> Self {
        Oracle::with(Right)
    }
}

impl<R: Rules> Oracle<R> {
    pub fn with(rules: R) -> Self {
        Oracle { rules, recent: VecDeque::new() }
    }

    fn recent(&mut self, bytes: &[u8]) -> Option<&mut Recent> {
        self.recent.iter_mut().find(|recent| recent.bytes == bytes)
    }

    fn reading(&mut self, bytes: &[u8]) -> Reading {
        if let Some(recent) = self.recent(bytes) {
            return recent.reading.clone();
        }
        let reading = Rc::new(plan::read(bytes));
        self.recent.push_front(Recent { bytes: bytes.to_vec(), reading: reading.clone(), numbered: None });
        self.recent.truncate(KEPT_READINGS);
        reading
    }

    /// The numbers of the steady tables of a list, which is asked about many times too.
    fn numbers(&mut self, bytes: &[u8], list: usize, case: Case) -> Numbers {
        match self.recent(bytes).map(|recent| &recent.numbered) {
            Some(Some((of, numbers))) if *of == list => numbers.clone(),
            _ => {
                let numbers: Numbers = steady::steady(&self.rules, case).map(|tables| tables.into_keys().collect());
                self.recent(bytes).into_iter().for_each(|recent| recent.numbered = Some((list, numbers.clone())));
                numbers
            }
        }
    }
}

fn plan_of(reading: &Reading) -> Result<&Plan, u8> {
    reading.as_ref().as_ref().map_err(|&refusal| refusal)
}

/// The plan with the list asked for and all routers asked for (refusal 8).
fn case_of<'a>(plan: &'a Plan, list: usize, routers: &[usize]) -> Result<Case<'a>, u8> {
    let listed = &plan.lists.get(list).ok_or(8u8)?.listed;
    asked_for(plan, routers)?;
    Ok(Case { plan, listed })
}

fn asked_for(plan: &Plan, routers: &[usize]) -> Result<(), u8> {
    routers.iter().all(|&router| router < plan.n).then_some(()).ok_or(8)
}

/// A lent buffer and the bytes the call needs of it (refusal 9).
fn long_enough(buffer: &[u8], need: usize) -> Result<(), u8> {
    (buffer.len() >= need).then_some(()).ok_or(9)
}

fn fill(buffer: &mut [u8], values: impl IntoIterator<Item = usize>) {
    buffer.iter_mut().zip(values).for_each(|(byte, value)| *byte = value as u8);
}

impl<R: Rules> Oracle<R> {
    fn try_size(&mut self, plan: &[u8]) -> Result<SizeFields, u8> {
        let reading = self.reading(plan);
        let plan = plan_of(&reading)?;
        Ok(SizeFields { routers: plan.n as u64, lists: plan.lists.len() as u64 })
    }

    fn try_list(&mut self, plan: &[u8], list: usize) -> Result<ListFields, u8> {
        let reading = self.reading(plan);
        let asked = plan_of(&reading)?.lists.get(list).ok_or(8u8)?;
        Ok(ListFields { start: asked.start as u64, count: asked.listed.len() as u64 })
    }

    fn try_compare(&mut self, plan: &[u8], at: usize, routes: [Handed; 2]) -> Result<Compared, u8> {
        let reading = self.reading(plan);
        let plan = plan_of(&reading)?;
        let [first, second] = routes.map(Candidate::from);
        asked_for(plan, &[at, first.egress, second.egress])?;
        let first_wins = self.rules.is_better(plan, at, first, second);
        let second_wins = self.rules.is_better(plan, at, second, first);
        let better = u8::from(first_wins) + 2 * u8::from(second_wins);
        Ok((better, self.rules.margin(plan, at, first.egress, second.egress)))
    }

    fn try_relies(&mut self, plan: &[u8], list: usize, pair: (usize, usize)) -> Result<u8, u8> {
        let reading = self.reading(plan);
        let case = case_of(plan_of(&reading)?, list, &[pair.0, pair.1])?;
        Ok(u8::from(self.rules.relied_on(case, pair.0).contains(&pair.1)))
    }

    fn try_explain(&mut self, plan: &[u8], list: usize, pair: (usize, usize)) -> Result<Explained, u8> {
        let reading = self.reading(plan);
        let case = case_of(plan_of(&reading)?, list, &[pair.0, pair.1])?;
        Ok(self.rules.explanation(case, pair.0, pair.1))
    }

    fn try_verdict(&mut self, plan: &[u8], list: usize, lent: VerdictBuffers) -> Result<VerdictFields, u8> {
        let reading = self.reading(plan);
        let case = case_of(plan_of(&reading)?, list, &[])?;
        let n = case.plan.n;
        for (buffer, need) in [(&lent.labels, n), (&lent.ranks, n), (&lent.table, 2 * n), (&lent.cycle, n)] {
            long_enough(buffer, need)?;
        }
        let verdict = verdict::verdict(&self.rules, case);
        fill(lent.labels, verdict.labels);
        Ok(match verdict.outcome {
            Outcome::Stable { ranks, table } => {
                let size = verdict::highest(&ranks);
                fill(lent.ranks, ranks.into_values());
                lent.table[..2 * n].copy_from_slice(&tables::bytes(&table, n));
                VerdictFields { stable: Flag::new(1), size }
            }
            Outcome::Suspect { cycle } => {
                let size = cycle.len() as u64;
                fill(lent.cycle, cycle);
                VerdictFields { stable: Flag::new(0), size }
            }
        })
    }

    /// Writes the numbers of the tables that no act changes; gives how many these are.
    fn try_steady(&mut self, plan: &[u8], list: usize, out: &mut [u8]) -> Result<u64, u8> {
        let reading = self.reading(plan);
        let case = case_of(plan_of(&reading)?, list, &[])?;
        let numbers = self.numbers(plan, list, case)?;
        let bytes: Vec<u8> = numbers.iter().flat_map(|&number| (number as u16).to_le_bytes()).collect();
        out.get_mut(..bytes.len()).ok_or(9u8)?.copy_from_slice(&bytes);
        Ok(numbers.len() as u64)
    }

    fn try_hop_set(&mut self, plan: &[u8], list: usize) -> Result<u64, u8> {
        let reading = self.reading(plan);
        case_of(plan_of(&reading)?, list, &[])?;
        hop_set::hop_set(&self.rules, plan, list)
    }

    fn try_grade(&mut self, plan: &[u8], list: usize) -> Result<Graded, u8> {
        let reading = self.reading(plan);
        grade::grade(&self.rules, case_of(plan_of(&reading)?, list, &[])?)
    }

    /// Writes the list of a no.
    fn try_every_list(&mut self, plan: &[u8], out: &mut [u8]) -> Result<(u8, u64), u8> {
        let reading = self.reading(plan);
        let plan = plan_of(&reading)?;
        long_enough(out, plan.n)?;
        Ok(match every_list::every_list(&self.rules, plan) {
            EveryList::No(list) => {
                let count = list.len() as u64;
                fill(out, list);
                (0, count)
            }
            EveryList::Yes => (1, 0),
            EveryList::Undecided => (2, 0),
        })
    }

    fn try_figures(
        &mut self,
        plan: &[u8],
        by_rank: &mut [u8],
        by_router: &mut [u8],
        fields: &mut FigureFields,
    ) -> Result<(), u8> {
        let reading = self.reading(plan);
        let plan = plan_of(&reading)?;
        long_enough(by_rank, plan.n)?;
        long_enough(by_router, plan.n)?;
        let figures = Figures::of(&self.rules, plan);
        fill(by_rank, (0..plan.n).map(|rank| figures.lists_of_rank(rank)));
        fill(by_router, (0..plan.n).map(|router| figures.lists_with(router)));
        fields.put([figures.stable(), figures.suspect()], figures.highest());
        Ok(())
    }

    fn try_activate(&mut self, plan: &[u8], list: usize, router: usize, table: &mut [u8]) -> Result<(), u8> {
        let reading = self.reading(plan);
        let case = case_of(plan_of(&reading)?, list, &[router])?;
        let lent = table.get_mut(..2 * case.plan.n).ok_or(9u8)?;
        let mut held = tables::read(case, lent).ok_or(10u8)?;
        tables::activate(&self.rules, case, &mut held, router);
        lent.copy_from_slice(&tables::bytes(&held, case.plan.n));
        Ok(())
    }

    fn try_run(&mut self, plan: &[u8], list: usize, acts: Acts, table: &mut [u8]) -> Result<RunFields, u8> {
        let reading = self.reading(plan);
        let named: Vec<usize> = acts.sequence.iter().map(|&router| usize::from(router)).collect();
        let case = case_of(plan_of(&reading)?, list, &named)?;
        let lent = table.get_mut(..2 * case.plan.n).ok_or(9u8)?;
        let mut held = tables::read(case, lent).ok_or(10u8)?;
        let length = named.len() as u64;
        let applied = length.min(acts.limit);
        let rounds = tables::run(&self.rules, case, &mut held, &named[..applied as usize]);
        lent.copy_from_slice(&tables::bytes(&held, case.plan.n));
        Ok(RunFields { applied, rounds, exhausted: Flag::new(u8::from(length > acts.limit)) })
    }

    /// Writes the plan of the other mark; gives its length. A plan of another mark than
    /// `from` is refused with 1.
    fn try_convert(&mut self, plan: &[u8], from: Mark, out: &mut [u8]) -> Result<u64, u8> {
        if Mark::of(plan) != Some(from) {
            return Err(1);
        }
        let reading = self.reading(plan);
        let result = convert::written(plan_of(&reading)?, from.other())?;
        out.get_mut(..result.len()).ok_or(9u8)?.copy_from_slice(&result);
        Ok(result.len() as u64)
    }
}

fn try_distances(n: usize, links: &[u8], out: &mut [u8]) -> Result<(), u8> {
    let body = links::body(n, links)?;
    out.get_mut(..body.len()).ok_or(9u8)?.copy_from_slice(&body);
    Ok(())
}

impl<R: Rules> Checker for Oracle<R> {
    fn check(&mut self, plan: &[u8]) -> u8 {
        plan_of(&self.reading(plan)).err().unwrap_or(0)
    }

    fn size(&mut self, plan: &[u8], fields: &mut SizeFields) -> u8 {
        store(self.try_size(plan), fields)
    }

    fn list(&mut self, plan: &[u8], list: usize, fields: &mut ListFields) -> u8 {
        store(self.try_list(plan, list), fields)
    }

    fn compare(&mut self, plan: &[u8], router: usize, routes: [Handed; 2], fields: &mut CompareFields) -> u8 {
        store(self.try_compare(plan, router, routes).map(|answer| fields.put(answer)), &mut ())
    }

    fn relies(&mut self, plan: &[u8], list: usize, pair: (usize, usize), relies: &mut u8) -> u8 {
        store(self.try_relies(plan, list, pair), relies)
    }

    fn explain(&mut self, plan: &[u8], list: usize, pair: (usize, usize), fields: &mut ExplainFields) -> u8 {
        store(self.try_explain(plan, list, pair).map(|answer| fields.put(answer)), &mut ())
    }

    fn verdict(&mut self, plan: &[u8], list: usize, lent: VerdictBuffers, fields: &mut VerdictFields) -> u8 {
        store(self.try_verdict(plan, list, lent), fields)
    }

    fn steady(&mut self, plan: &[u8], list: usize, out: &mut [u8], count: &mut Lent<u64>) -> u8 {
        store(self.try_steady(plan, list, out), &mut count.value)
    }

    fn hop_set(&mut self, plan: &[u8], list: usize, set: &mut Lent<u64>) -> u8 {
        store(self.try_hop_set(plan, list), &mut set.value)
    }

    fn grade(&mut self, plan: &[u8], list: usize, fields: &mut GradeFields) -> u8 {
        let graded = self.try_grade(plan, list);
        store(graded.map(|Graded { grade, rounds }| fields.put(grade as u8, rounds)), &mut ())
    }

    fn figures(&mut self, plan: &[u8], by_rank: &mut [u8], by_router: &mut [u8], fields: &mut FigureFields) -> u8 {
        store(self.try_figures(plan, by_rank, by_router, fields), &mut ())
    }

    fn every_list(&mut self, plan: &[u8], list: &mut [u8], fields: &mut EveryListFields) -> u8 {
        store(self.try_every_list(plan, list).map(|(answer, count)| fields.put(answer, count)), &mut ())
    }

    fn activate(&mut self, plan: &[u8], list: usize, router: usize, table: &mut [u8]) -> u8 {
        store(self.try_activate(plan, list, router, table), &mut ())
    }

    fn run(&mut self, plan: &[u8], list: usize, acts: Acts, table: &mut [u8], fields: &mut RunFields) -> u8 {
        store(self.try_run(plan, list, acts, table), fields)
    }

    fn widen(&mut self, plan: &[u8], out: &mut [u8], length: &mut Lent<u64>) -> u8 {
        store(self.try_convert(plan, Mark::Rrp1, out), &mut length.value)
    }

    fn narrow(&mut self, plan: &[u8], out: &mut [u8], length: &mut Lent<u64>) -> u8 {
        store(self.try_convert(plan, Mark::Rrp2, out), &mut length.value)
    }

    fn distances(&mut self, n: usize, links: &[u8], out: &mut [u8]) -> u8 {
        store(try_distances(n, links, out), &mut ())
    }
}
