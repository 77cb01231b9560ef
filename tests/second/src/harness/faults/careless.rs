//! Checkers with a slip in one call each.

use super::compare_slips;
use super::convert_slips::{self, Asked};
use super::empty_list_slips::{self, EmptyListSlip};
use super::every_list_slips;
use super::explain_slips;
use super::figure_slips;
use super::grade_slips;
use super::hop_set_slips;
use super::parent_slips;
use super::sheet_slips;
use super::slips::Slip;
use super::steady_slips;
use crate::harness::plans::draft::Bodies;
use crate::interface::{
    Acts, Checker, CompareFields, EveryListFields, ExplainFields, FigureFields, GradeFields, Handed, Lent,
    ListFields, RunFields, SizeFields, VerdictBuffers, VerdictFields,
};
use crate::oracle::mark::Mark;
use crate::oracle::plan;
use crate::oracle::rules::Right;
use crate::oracle::tables::NONE;
use crate::oracle::Oracle;
use std::mem::swap;

/// A checker that reads the rules rightly and makes one slip.
pub struct Careless {
    slip: Slip,
    inner: Oracle<Right>,
}

impl Careless {
    pub fn new(slip: Slip) -> Self {
        Careless { slip, inner: Oracle::right() }
    }

    fn is(&self, slip: Slip) -> bool {
        self.slip == slip
    }

    /// The slip, if it is one for an empty list and this list of a sound plan is empty.
    fn slip_for(&mut self, plan: &[u8], list: usize) -> Option<EmptyListSlip> {
        let Slip::EmptyList(slip) = self.slip else { return None };
        let mut fields = ListFields { start: 0, count: 1 };
        self.inner.list(plan, list, &mut fields);
        (fields.count == 0).then_some(slip)
    }
}

/// A plan refused with 6, with the distance 0 for each router that has no way to
/// itself.
fn with_ways_to_itself(plan: &[u8]) -> Vec<u8> {
    let mut bodies = Bodies::of(plan);
    let diagonal = bodies.distances.chunks_exact_mut(bodies.mark.width()).step_by(usize::from(bodies.n) + 1);
    let no_way = |distance: &[u8]| distance.iter().all(|&byte| byte == 255);
    diagonal.filter(|distance| no_way(distance)).for_each(|distance| distance.fill(0));
    bodies.bytes()
}

/// Whether a plan that is refused with 13 has no such list, by its number of lists.
fn is_past_the_lists(plan: &[u8], list: usize) -> bool {
    Bodies::of(plan).lists.first().is_some_and(|&count| list >= usize::from(count))
}

/// Whether a sound table for a sound plan has an entry without a way.
fn holds_without_way(bytes: &[u8], table: &[u8]) -> bool {
    let Ok(plan) = plan::read(bytes) else { return false };
    let (entries, _) = table.as_chunks();
    let mut held = entries.iter().take(plan.n).enumerate().filter(|(_, entry)| **entry != [NONE, NONE]);
    held.any(|(router, &[egress, _])| !plan.has_way(router, usize::from(egress)))
}

impl Checker for Careless {
    fn check(&mut self, plan: &[u8]) -> u8 {
        let refusal = self.inner.check(plan);
        match self.slip {
            Slip::LongPlanAccepted if Mark::of(plan).is_some_and(|mark| plan.len() > mark.longest_plan()) => 3,
            Slip::NoWayRefused if refusal == 0 && plan::read(plan).is_ok_and(|plan| plan.has_cuts()) => 6,
            Slip::NoWayToItselfAccepted if refusal == 6 => self.inner.check(&with_ways_to_itself(plan)),
            Slip::Parents(slip) => parent_slips::check(slip, plan, refusal),
            _ => refusal,
        }
    }

    fn size(&mut self, plan: &[u8], fields: &mut SizeFields) -> u8 {
        let refusal = self.inner.size(plan, fields);
        match self.slip {
            Slip::SizeZeroOnRefusal if refusal != 0 => *fields = SizeFields { routers: 0, lists: 0 },
            Slip::SizeExchanged if refusal == 0 => swap(&mut fields.routers, &mut fields.lists),
            _ => (),
        }
        refusal
    }

    fn list(&mut self, plan: &[u8], list: usize, fields: &mut ListFields) -> u8 {
        let list = if self.is(Slip::ListCutToAByte) { list % 256 } else { list };
        let before = *fields;
        let refusal = self.inner.list(plan, list, fields);
        if let Some(slip) = self.slip_for(plan, list) {
            return empty_list_slips::list(slip, plan, before, fields);
        }
        if refusal == 13 && self.is(Slip::EightBeforeThirteen) && is_past_the_lists(plan, list) {
            return 8;
        }
        refusal
    }

    fn compare(&mut self, plan: &[u8], router: usize, routes: [Handed; 2], fields: &mut CompareFields) -> u8 {
        compare_slips::compare(self.slip, &mut self.inner, plan, (router, routes), fields)
    }

    fn relies(&mut self, plan: &[u8], list: usize, pair: (usize, usize), relies: &mut u8) -> u8 {
        self.inner.relies(plan, list, pair, relies)
    }

    fn explain(&mut self, plan: &[u8], list: usize, pair: (usize, usize), fields: &mut ExplainFields) -> u8 {
        explain_slips::explain(self.slip, &mut self.inner, plan, [list, pair.0, pair.1], fields)
    }

    fn verdict(&mut self, plan: &[u8], list: usize, lent: VerdictBuffers, fields: &mut VerdictFields) -> u8 {
        let VerdictBuffers { labels, ranks, table, cycle } = lent;
        let before = [&labels, &ranks, &table].map(|buffer| buffer.to_vec());
        let again =
            VerdictBuffers { labels: &mut *labels, ranks: &mut *ranks, table: &mut *table, cycle: &mut *cycle };
        let refusal = self.inner.verdict(plan, list, again, fields);
        if let (0, Some(slip)) = (refusal, self.slip_for(plan, list)) {
            let again = VerdictBuffers { labels, ranks, table, cycle };
            empty_list_slips::verdict(slip, plan, &before, again, fields);
            return 0;
        }
        if refusal == 0 && self.is(Slip::SuspectToAll) {
            fields.stable.value = 0;
        }
        if refusal == 0 && self.is(Slip::FlagWrittenAsAWord) {
            fields.stable.after[..3].fill(0);
        }
        let after = fields.size as usize;
        if refusal == 0 && fields.stable.value == 0 && self.is(Slip::ByteAfterTheCycle) && after < cycle.len() {
            cycle[after] = 255;
        }
        refusal
    }

    fn steady(&mut self, plan: &[u8], list: usize, out: &mut [u8], count: &mut Lent<u64>) -> u8 {
        match self.slip {
            Slip::Steady(slip) => steady_slips::steady(slip, &mut self.inner, (plan, list), out, count),
            _ => self.inner.steady(plan, list, out, count),
        }
    }

    fn hop_set(&mut self, plan: &[u8], list: usize, set: &mut Lent<u64>) -> u8 {
        match self.slip {
            Slip::HopSet(slip) => hop_set_slips::hop_set(slip, &mut self.inner, (plan, list), set),
            _ => self.inner.hop_set(plan, list, set),
        }
    }

    fn grade(&mut self, plan: &[u8], list: usize, fields: &mut GradeFields) -> u8 {
        match self.slip {
            Slip::Grade(slip) => grade_slips::grade(slip, &mut self.inner, (plan, list), fields),
            _ => self.inner.grade(plan, list, fields),
        }
    }

    fn figures(&mut self, plan: &[u8], by_rank: &mut [u8], by_router: &mut [u8], fields: &mut FigureFields) -> u8 {
        match self.slip {
            Slip::Figures(slip) => figure_slips::figures(slip, &mut self.inner, plan, [by_rank, by_router], fields),
            _ => self.inner.figures(plan, by_rank, by_router, fields),
        }
    }

    fn every_list(&mut self, plan: &[u8], list: &mut [u8], fields: &mut EveryListFields) -> u8 {
        match self.slip {
            Slip::EveryList(slip) => every_list_slips::every_list(slip, &mut self.inner, plan, list, fields),
            _ => self.inner.every_list(plan, list, fields),
        }
    }

    fn activate(&mut self, plan: &[u8], list: usize, router: usize, table: &mut [u8]) -> u8 {
        let before = table.to_vec();
        let refusal = self.inner.activate(plan, list, router, table);
        if refusal == 0 && self.is(Slip::ActLeavesTable) {
            table.copy_from_slice(&before);
        }
        if refusal == 0 && self.is(Slip::ByteAfterTheTable) && table.len() > 2 * usize::from(plan[4]) {
            table[2 * usize::from(plan[4])] = 0;
        }
        if refusal == 9 && self.is(Slip::TenBeforeNine) {
            return 10;
        }
        if let (0, Some(slip)) = (refusal, self.slip_for(plan, list)) {
            return empty_list_slips::activated(slip, plan, &before, table);
        }
        if refusal == 0 && self.is(Slip::EntryWithoutAWayRefused) && holds_without_way(plan, &before) {
            table.copy_from_slice(&before);
            return 10;
        }
        refusal
    }

    fn run(&mut self, plan: &[u8], list: usize, acts: Acts, table: &mut [u8], fields: &mut RunFields) -> u8 {
        let length = acts.sequence.len() as u64;
        let mut acts = acts;
        match self.slip {
            Slip::SequenceCheckedToTheLimit if acts.limit < length => {
                acts.sequence = &acts.sequence[..acts.limit as usize];
            }
            Slip::FirstActOnly => acts.limit = acts.limit.min(1),
            Slip::LimitCutToAWord => acts.limit %= 1 << 32,
            _ => (),
        }
        let before = (table.to_vec(), *fields);
        let refusal = self.inner.run(plan, list, acts, table, fields);
        if refusal != 0 {
            return refusal;
        }
        if let Some(slip) = self.slip_for(plan, list) {
            let refusal = empty_list_slips::activated(slip, plan, &before.0, table);
            if refusal != 0 {
                *fields = before.1;
            }
            return refusal;
        }
        match self.slip {
            Slip::ExhaustedAtTheLimit => fields.exhausted.value = u8::from(length >= acts.limit),
            Slip::ExhaustedNever => fields.exhausted.value = 0,
            Slip::RoundsByDivision => fields.rounds = fields.applied / u64::from(plan[4]),
            _ => (),
        }
        refusal
    }

    fn widen(&mut self, plan: &[u8], out: &mut [u8], length: &mut Lent<u64>) -> u8 {
        let asked = Asked { from: Mark::Rrp1, plan };
        match self.slip {
            Slip::Convert(slip) => convert_slips::convert(slip, &mut self.inner, asked, out, length),
            _ => self.inner.widen(plan, out, length),
        }
    }

    fn narrow(&mut self, plan: &[u8], out: &mut [u8], length: &mut Lent<u64>) -> u8 {
        let asked = Asked { from: Mark::Rrp2, plan };
        match self.slip {
            Slip::Convert(slip) => convert_slips::convert(slip, &mut self.inner, asked, out, length),
            _ => self.inner.narrow(plan, out, length),
        }
    }

    fn distances(&mut self, n: usize, links: &[u8], out: &mut [u8]) -> u8 {
        sheet_slips::distances(self.slip, n, links, out)
    }
}
