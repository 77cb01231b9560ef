//! What a comparison counts and prints.

use super::call::{Answer, Call};
use crate::oracle::mark::Mark;
use crate::oracle::plan::{Plan, MOST_PARENTS};
use crate::oracle::steady::MOST_GROUPED;
use std::fmt;

/// What was compared, and how it came out.
#[derive(Default)]
pub struct Counts {
    pub plans: u64,
    pub sound_plans: u64,
    /// Sound plans of mark RRP2.
    pub wide_plans: u64,
    /// .. with distances that RRP1 does not hold.
    pub plans_with_far_distances: u64,
    /// Plans widened, and plans narrowed.
    pub conversions: [u64; 2],
    /// Calls made on what a plan is converted to, and on the plan.
    pub calls_on_converted: u64,
    /// Sound plans in which some router has no way to some other.
    pub plans_with_cuts: u64,
    /// .. in which some reflector skips its own clients.
    pub plans_with_skips: u64,
    /// .. in which some reflector has the hop step, and in which all have it.
    pub plans_with_steps: u64,
    pub plans_with_all_steps: u64,
    /// .. in which some client has as many parents as there may be.
    pub plans_with_most_parents: u64,
    /// .. of which some list is empty.
    pub plans_with_empty_lists: u64,
    pub lists: u64,
    pub empty_lists: u64,
    /// Empty lists of plans in which some client has a parent.
    pub empty_lists_of_rank_1: u64,
    pub suspect_lists: u64,
    pub suspect_lists_with_steps: u64,
    pub sheets: u64,
    /// Sheets whose distances are written.
    pub sheets_with_distances: u64,
    pub refusals: [u64; 16],
    pub calls: u64,
    /// Calls whose answers were worked out from comparisons alone too.
    pub calls_by_comparisons: u64,
    pub margins: Margins,
    /// Comparisons that the hop step decided; and those of them with equal distances.
    pub by_step: u64,
    pub ties_by_step: u64,
    /// Pairs of routers for which a reliance and its explanation were asked for.
    pub pairs: u64,
    pub explanations: Explanations,
    pub steady: SteadyCounts,
    pub hop_sets: HopSetCounts,
    pub grades: GradeCounts,
    pub figures: FigureCounts,
    pub every_list: EveryListCounts,
    /// Calls made on the checker alone, to hold one against another.
    pub calls_alone: u64,
    pub series: u64,
    pub series_with_cuts: u64,
    pub series_with_skips: u64,
    pub series_with_steps: u64,
    pub series_on_empty_lists: u64,
    pub acts_in_series: u64,
    pub delays: DelayCounts,
    pub highest_rank: u64,
    pub longest_cycle: u64,
    /// Cycles that the walk enters from a router outside the cycle.
    pub entered_cycles: u64,
    pub mismatches: u64,
}

/// The margins that comparisons gave.
#[derive(Default)]
pub struct Margins {
    pub lowest: i64,
    pub highest: i64,
    pub zero: u64,
    pub none: u64,
}

impl Margins {
    fn count(&mut self, margin: Option<i64>) {
        let given = margin.unwrap_or(0);
        self.lowest = self.lowest.min(given);
        self.highest = self.highest.max(given);
        self.zero += u64::from(margin == Some(0));
        self.none += u64::from(margin.is_none());
    }
}

impl fmt::Display for Margins {
    fn fmt(&self, out: &mut fmt::Formatter) -> fmt::Result {
        write!(out, "margins from {} to {}, zero {}, none {}", self.lowest, self.highest, self.zero, self.none)
    }
}

/// The runs whose acts read late.
#[derive(Default)]
pub struct DelayCounts {
    pub acts: u64,
    /// How many runs needed so many rounds.
    pub by_rounds: Vec<u64>,
    /// .. and as many as are promised.
    pub in_full: u64,
}

impl DelayCounts {
    pub fn count(&mut self, needed: u64, promised: u64, acts: u64) {
        let needed_at = needed as usize;
        self.by_rounds.resize(self.by_rounds.len().max(needed_at + 1), 0);
        self.by_rounds[needed_at] += 1;
        self.in_full += u64::from(needed == promised);
        self.acts += acts;
    }

    fn runs(&self) -> u64 {
        self.by_rounds.iter().sum()
    }
}

impl fmt::Display for DelayCounts {
    fn fmt(&self, out: &mut fmt::Formatter) -> fmt::Result {
        writeln!(out, "runs whose acts read late {}, acts in these {}", self.runs(), self.acts)?;
        write!(out, "rounds that these needed, from 0 on {:?}, as many as promised {}", self.by_rounds, self.in_full)
    }
}

/// The rules and the reasons that explanations gave, each at its number.
#[derive(Default)]
pub struct Explanations {
    pub rules: [u64; 5],
    pub reasons: [u64; 10],
    /// Better offers beside an own best client.
    pub with_own: u64,
}

impl Explanations {
    fn count(&mut self, answer: &Answer) {
        let numbers: &mut [u64] = if answer.fields[0] == 1 { &mut self.rules } else { &mut self.reasons };
        numbers[answer.fields[1] as usize] += 1;
        self.with_own += u64::from(answer.better_than_own().is_some());
    }
}

impl fmt::Display for Explanations {
    fn fmt(&self, out: &mut fmt::Formatter) -> fmt::Result {
        write!(out, "explanations by rule {:?}, ", &self.rules[1..])?;
        write!(out, "better than an own client {}, by reason {:?}", self.with_own, &self.reasons[1..])
    }
}

/// What was asked and given of tables that no act changes.
#[derive(Default)]
pub struct SteadyCounts {
    pub calls: u64,
    /// Suspect lists that are not refused with no table, with one and with more.
    pub tables: [u64; 3],
    /// The most tables of a list.
    pub most: usize,
    /// Lists with 12 routers in groups of two or more, with 13 and with more.
    pub grouped: [u64; 3],
    /// Runs made from a table that is listed.
    pub tables_run: u64,
}

impl SteadyCounts {
    /// An answer for a list with so many routers in groups of two or more.
    pub fn count_list(&mut self, answer: &Answer, grouped: usize) {
        if grouped >= MOST_GROUPED {
            self.grouped[(grouped - MOST_GROUPED).min(2)] += 1;
        }
        if grouped > 0 && answer.refusal == 0 {
            let count = answer.fields[0] as usize;
            self.tables[count.min(2)] += 1;
            self.most = self.most.max(count);
        }
    }
}

impl fmt::Display for SteadyCounts {
    fn fmt(&self, out: &mut fmt::Formatter) -> fmt::Result {
        let ([none, one, more], [twelve, thirteen, beyond]) = (self.tables, self.grouped);
        writeln!(out, "calls for steady tables {}, runs from such tables {}", self.calls, self.tables_run)?;
        write!(out, "suspect lists with no table {none}, with one {one}, with more {more}, up to {}; ", self.most)?;
        write!(out, "with 12 routers in groups {twelve}, with 13 {thirteen}, with more {beyond}")
    }
}

/// What was asked and given of sets of routers to give the hop step.
#[derive(Default)]
pub struct HopSetCounts {
    pub calls: u64,
    /// Suspect lists that are not refused, by the size of their set.
    pub sizes: [u64; MOST_GROUPED + 1],
    /// Lists of few reflectors, for which every smaller set of these was tried.
    pub tried: u64,
    /// Verdicts on plans whose roles are changed.
    pub verdicts: u64,
}

impl fmt::Display for HopSetCounts {
    fn fmt(&self, out: &mut fmt::Formatter) -> fmt::Result {
        writeln!(out, "calls for hop sets {}, suspect lists by size of the set {:?}", self.calls, &self.sizes[1..])?;
        write!(out, "lists with all smaller sets tried {}, verdicts with the step {}", self.tried, self.verdicts)
    }
}

/// What was asked and given of the grades of lists.
#[derive(Default)]
pub struct GradeCounts {
    pub calls: u64,
    /// Suspect lists that are not refused, by grade.
    pub lists: [u64; 4],
    /// The most rounds of a suspect list.
    pub most: u64,
    /// Series on suspect lists that came to rest as promised, and the acts in these.
    pub series: u64,
    pub acts: u64,
}

impl fmt::Display for GradeCounts {
    fn fmt(&self, out: &mut fmt::Formatter) -> fmt::Result {
        write!(out, "calls for grades {}, suspect lists by grade {:?}, ", self.calls, self.lists)?;
        write!(out, "rounds up to {}, series that rested {}, acts in these {}", self.most, self.series, self.acts)
    }
}

/// What was asked and given of the figures of plans.
#[derive(Default)]
pub struct FigureCounts {
    pub calls: u64,
    /// Plans with stable lists alone, with suspect ones alone, and with both.
    pub plans: [u64; 3],
    /// The most lists of one plan that a router was in groups in.
    pub most: u8,
    /// The most ranks of one plan that are the highest of some list.
    pub ranks: usize,
}

impl FigureCounts {
    /// The figures of a plan of n routers, which are not refused.
    pub fn count_plan(&mut self, answer: &Answer, n: usize) {
        let kind = match (answer.fields[0], answer.fields[1]) {
            (_, 0) => 0,
            (0, _) => 1,
            _ => 2,
        };
        let [by_rank, by_router] = [0, 1].map(|which| &answer.buffers[which][..n]);
        self.plans[kind] += 1;
        self.most = self.most.max(by_router.iter().copied().max().unwrap_or(0));
        self.ranks = self.ranks.max(by_rank.iter().filter(|count| **count > 0).count());
    }
}

impl fmt::Display for FigureCounts {
    fn fmt(&self, out: &mut fmt::Formatter) -> fmt::Result {
        let [stable, suspect, both] = self.plans;
        write!(
            out,
            "calls for figures {}, plans with stable lists alone {stable}, with suspect ones alone ",
            self.calls
        )?;
        write!(out, "{suspect}, with both {both}; a router in groups in up to {} lists, ", self.most)?;
        write!(out, "highest ranks of one plan up to {}", self.ranks)
    }
}

/// What was asked and given of every list.
#[derive(Default)]
pub struct EveryListCounts {
    pub calls: u64,
    /// Plans by answer: no, yes, undecided.
    pub plans: [u64; 3],
    /// .. of those in which no client has two parents.
    pub single: [u64; 3],
    /// The most routers of a list that was given.
    pub longest: usize,
    /// Plans with few clients, all lists of which were judged, and undecided ones of these that no
    /// list makes suspect.
    pub tried: u64,
    pub undecided_though_stable: u64,
}

impl fmt::Display for EveryListCounts {
    fn fmt(&self, out: &mut fmt::Formatter) -> fmt::Result {
        write!(out, "calls for every list {}, plans by answer no, yes, undecided {:?}, ", self.calls, self.plans)?;
        writeln!(out, "with single parents {:?}, lists given up to {}", self.single, self.longest)?;
        write!(out, "plans with all lists of clients judged {}, ", self.tried)?;
        write!(out, "undecided ones of these that are stable for all {}", self.undecided_though_stable)
    }
}

impl Counts {
    pub fn count(&mut self, call: &Call, answer: &Answer) {
        self.calls += 1;
        self.refusals[usize::from(answer.refusal)] += 1;
        match (call, answer.refusal) {
            (Call::Compare { .. }, 0) => self.margins.count(answer.compared().1),
            (Call::Explain { .. }, 0) => self.explanations.count(answer),
            (Call::Steady { .. }, _) => self.steady.calls += 1,
            (Call::HopSet { .. }, _) => self.hop_sets.calls += 1,
            (Call::Grade { .. }, _) => self.grades.calls += 1,
            (Call::Figures { .. }, _) => self.figures.calls += 1,
            (Call::EveryList { .. }, _) => self.every_list.calls += 1,
            _ => (),
        }
    }

    /// A plan that is not refused.
    pub fn count_plan(&mut self, plan: &Plan) {
        self.sound_plans += 1;
        self.wide_plans += u64::from(plan.mark == Mark::Rrp2);
        self.plans_with_far_distances += u64::from(plan.has_distances_past(Mark::Rrp1));
        self.plans_with_cuts += u64::from(plan.has_cuts());
        self.plans_with_skips += u64::from(!plan.skipping.is_empty());
        self.plans_with_steps += u64::from(!plan.stepping.is_empty());
        self.plans_with_all_steps += u64::from(!plan.stepping.is_empty() && plan.all_step());
        self.plans_with_most_parents += u64::from(plan.most_parents() == MOST_PARENTS);
        self.plans_with_empty_lists += u64::from(!plan.empty_lists().is_empty());
    }

    /// The verdict of a list, which is not refused.
    pub fn count_verdict(&mut self, plan: &Plan, answer: &Answer) {
        let size = answer.fields[1] as u64;
        self.lists += 1;
        if answer.fields[0] == 1 {
            self.highest_rank = self.highest_rank.max(size);
            return;
        }
        self.suspect_lists += 1;
        self.suspect_lists_with_steps += u64::from(!plan.stepping.is_empty());
        let (labels, first) = (&answer.buffers[0], answer.buffers[3][0]);
        self.entered_cycles += u64::from(labels[usize::from(first)] != first);
        self.longest_cycle = self.longest_cycle.max(size);
    }
}

impl fmt::Display for Counts {
    fn fmt(&self, out: &mut fmt::Formatter) -> fmt::Result {
        writeln!(out, "sound plans {}, calls not refused {}", self.sound_plans, self.refusals[0])?;
        self.write_plans(out)?;
        self.write_steps(out)?;
        writeln!(out, "sheets with distances {}", self.sheets_with_distances)?;
        writeln!(out, "{}", self.margins)?;
        writeln!(out, "{}", self.explanations)?;
        writeln!(out, "{}", self.steady)?;
        writeln!(out, "{}", self.hop_sets)?;
        writeln!(out, "{}", self.grades)?;
        writeln!(out, "{}", self.figures)?;
        writeln!(out, "{}", self.every_list)?;
        writeln!(
            out,
            "pairs relied on and explained {}, calls on the checker alone {}",
            self.pairs, self.calls_alone
        )?;
        writeln!(out, "calls answered from comparisons alone {}", self.calls_by_comparisons)?;
        writeln!(out, "highest rank {} longest cycle {}", self.highest_rank, self.longest_cycle)?;
        writeln!(out, "cycles without the lowest router of their group {}", self.entered_cycles)?;
        for (number, count) in self.refusals.iter().enumerate().skip(1) {
            writeln!(out, "refusal {number}: {count} calls")?;
        }
        writeln!(out, "acts in series {}", self.acts_in_series)?;
        writeln!(out, "{}", self.delays)?;
        write!(
            out,
            "second: {} plans, {} lists, {} suspect, {} sheets, {} calls, {} series settled, mismatches {}",
            self.plans, self.lists, self.suspect_lists, self.sheets, self.calls, self.series, self.mismatches
        )
    }
}

impl Counts {
    fn write_plans(&self, out: &mut fmt::Formatter) -> fmt::Result {
        let [widened, narrowed] = self.conversions;
        writeln!(
            out,
            "plans of RRP2 {}, with distances above 65,534 {}, widened {widened}, narrowed {narrowed}",
            self.wide_plans, self.plans_with_far_distances
        )?;
        writeln!(out, "calls made on the converted plan too {}", self.calls_on_converted)?;
        writeln!(out, "plans with cuts {}, series on these {}", self.plans_with_cuts, self.series_with_cuts)?;
        let (skips, series) = (self.plans_with_skips, self.series_with_skips);
        writeln!(out, "plans with role 3 or 5 {skips}, series on these {series}")?;
        writeln!(out, "plans with a client of four parents {}", self.plans_with_most_parents)?;
        writeln!(
            out,
            "plans with an empty list {}, empty lists {}, of highest rank 1 {}, series on these {}",
            self.plans_with_empty_lists, self.empty_lists, self.empty_lists_of_rank_1, self.series_on_empty_lists
        )
    }

    fn write_steps(&self, out: &mut fmt::Formatter) -> fmt::Result {
        writeln!(
            out,
            "plans with the hop step {}, at all reflectors {}, suspect lists of these {}, series on these {}",
            self.plans_with_steps, self.plans_with_all_steps, self.suspect_lists_with_steps, self.series_with_steps
        )?;
        writeln!(out, "comparisons by the hop step {}, of equal distances {}", self.by_step, self.ties_by_step)
    }
}
