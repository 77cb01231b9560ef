//! The comparison finds each known fault: a misread rule even where the checker is compared
//! with itself, since its answers do not follow from its own comparisons by the rules, or two
//! of its calls do not agree. And the inputs of the program `margin` find each wrong program.

use crate::SEED;
use second_checker::harness::comparison::compare::differ;
use second_checker::harness::faults::careless::Careless;
use second_checker::harness::faults::convert_slips::CONVERT_SLIPS;
use second_checker::harness::faults::count_slips::{self, count_faults};
use second_checker::harness::faults::empty_list_misreadings::{MisreadEmptyList, EMPTY_LIST_MISREADINGS};
use second_checker::harness::faults::empty_list_slips::EMPTY_LIST_SLIPS;
use second_checker::harness::faults::every_list_slips::{EVERY_LIST_SLIPS, STATED_EVERY_LIST_SLIPS};
use second_checker::harness::faults::explain_misreadings::{MisreadExplanation, EXPLAIN_MISREADINGS};
use second_checker::harness::faults::figure_slips::{FIGURE_SLIPS, STATED_FIGURE_SLIPS};
use second_checker::harness::faults::grade_slips::{GRADE_SLIPS, STATED_GRADE_SLIPS};
use second_checker::harness::faults::hop_misreadings::{MisreadHop, HOP_MISREADINGS};
use second_checker::harness::faults::hop_set_slips::{HOP_SET_SLIPS, STATED_HOP_SET_SLIPS};
use second_checker::harness::faults::hop_slips::HOP_SLIPS;
use second_checker::harness::faults::misreader::{Misreader, PlanCall};
use second_checker::harness::faults::misreadings::{Misread, MISREADINGS};
use second_checker::harness::faults::parent_slips::PARENT_SLIPS;
use second_checker::harness::faults::role_slips::{self, role_faults};
use second_checker::harness::faults::skip_misreadings::{MisreadSkip, SKIP_MISREADINGS};
use second_checker::harness::faults::slips::{Slip, SLIPS};
use second_checker::harness::faults::steady_misreadings::STEADY_MISREADINGS;
use second_checker::harness::faults::steady_slips::{SteadySlip, STATED_SLIPS, STEADY_SLIPS};
use second_checker::harness::faults::width_slips::{self, width_faults};
use second_checker::harness::faults::wrong_programs::{Program, WRONG_PROGRAMS};
use second_checker::harness::plans::{generate, questions};
use second_checker::interface::Checker;
use second_checker::oracle::every_list::{every_list, EveryList};
use second_checker::oracle::rules::{Right, Rules};
use second_checker::oracle::{margin_line, plan, Oracle};
use std::fmt::Debug;

/// A fault must be found within so many plans.
const PLANS: u64 = 4000;

/// The plans before this one are fixed and large, so that they are tried last, if at all.
const FIRST_DRAWN: u64 = 5;

/// The plans with groups, which come at fixed places among the others.
fn plans_with_groups() -> impl Iterator<Item = u64> {
    (5..PLANS).step_by(10)
}

/// The gate runs the margin program on so many inputs.
const INPUTS: u64 = 300;

/// Some plan tells the two checkers apart.
fn are_told_apart(one: &mut dyn Checker, other: &mut dyn Checker) -> bool {
    differ(one, other, SEED, FIRST_DRAWN..PLANS) || differ(one, other, SEED, 0..FIRST_DRAWN)
}

/// The comparison tells each checker with a fault from the right one.
fn each_is_found<F: Debug, C: Checker>(faults: impl IntoIterator<Item = F>, with: impl Fn(&F) -> C) {
    none_missed(faults, |fault| are_told_apart(&mut Oracle::right(), &mut with(fault)));
}

/// .. and from itself.
fn each_is_found_beside_itself<F: Debug, R: Rules>(faults: impl IntoIterator<Item = F>, with: impl Fn(&F) -> R) {
    let checker = |fault: &F| Oracle::with(with(fault));
    none_missed(faults, |fault| are_told_apart(&mut checker(fault), &mut checker(fault)));
}

fn none_missed<F: Debug>(faults: impl IntoIterator<Item = F>, is_found: impl Fn(&F) -> bool) {
    let missed: Vec<F> = faults.into_iter().filter(|fault| !is_found(fault)).collect();
    assert!(missed.is_empty(), "not found: {missed:?}");
}

/// The comparison tells a checker that takes plans for others, as a slip has it, in one call
/// from the right one, by a plan from this number on. Each is looked for from the plan on that
/// showed the slip in the call before, since plans that show one are few.
fn each_is_found_in_each_call<S: Copy + Debug>(
    faults: Vec<(S, Vec<PlanCall>)>,
    from: u64,
    taken_for: fn(S, &[u8]) -> Option<Vec<u8>>,
) {
    for (slip, calls) in faults {
        let mut first = from;
        for call in calls {
            let mut misreader = Misreader::new(call, |plan: &[u8]| taken_for(slip, plan));
            let mut is_found = |number: &u64| differ(&mut Oracle::right(), &mut misreader, SEED, *number..number + 1);
            let found = (first..PLANS).find(|number| is_found(number));
            first = found.unwrap_or_else(|| panic!("not found: {slip:?} in {call:?}"));
        }
    }
}

#[test]
fn each_misread_rule_is_found() {
    each_is_found(MISREADINGS, |&fault| Oracle::with(Misread(fault)));
}

#[test]
fn each_misread_rule_is_found_beside_itself() {
    each_is_found_beside_itself(MISREADINGS, |&fault| Misread(fault));
}

#[test]
fn each_misreading_of_role_3_is_found() {
    each_is_found(SKIP_MISREADINGS, |&fault| Oracle::with(MisreadSkip(fault)));
}

#[test]
fn each_misreading_of_role_3_is_found_beside_itself() {
    each_is_found_beside_itself(SKIP_MISREADINGS, |&fault| MisreadSkip(fault));
}

#[test]
fn each_misreading_of_the_hop_step_is_found() {
    each_is_found(HOP_MISREADINGS, |&fault| Oracle::with(MisreadHop(fault)));
}

#[test]
fn each_misreading_of_the_hop_step_is_found_beside_itself() {
    each_is_found_beside_itself(HOP_MISREADINGS, |&fault| MisreadHop(fault));
}

#[test]
fn each_misreading_of_an_empty_list_is_found() {
    each_is_found(EMPTY_LIST_MISREADINGS, |&fault| Oracle::with(MisreadEmptyList(fault)));
}

#[test]
fn each_misreading_of_an_empty_list_is_found_beside_itself() {
    each_is_found_beside_itself(EMPTY_LIST_MISREADINGS, |&fault| MisreadEmptyList(fault));
}

#[test]
fn each_wrong_explanation_is_found() {
    each_is_found(EXPLAIN_MISREADINGS, |&fault| Oracle::with(MisreadExplanation(fault)));
}

#[test]
fn each_wrong_explanation_is_found_beside_itself() {
    each_is_found_beside_itself(EXPLAIN_MISREADINGS, |&fault| MisreadExplanation(fault));
}

#[test]
fn each_slip_in_a_call_is_found() {
    each_is_found(SLIPS, |&slip| Careless::new(slip));
}

#[test]
fn each_slip_in_the_check_of_parents_is_found() {
    each_is_found(PARENT_SLIPS, |&slip| Careless::new(Slip::Parents(slip)));
}

#[test]
fn each_slip_in_what_a_mark_says_is_found_in_each_call() {
    each_is_found_in_each_call(width_faults(), 0, width_slips::taken_for);
}

#[test]
fn each_slip_in_a_count_of_0_is_found_in_each_call() {
    each_is_found_in_each_call(count_faults(), FIRST_DRAWN, count_slips::taken_for);
}

#[test]
fn each_role_taken_for_another_is_found_in_each_call() {
    each_is_found_in_each_call(role_faults(), FIRST_DRAWN, role_slips::taken_for);
}

#[test]
fn each_slip_with_the_hop_step_is_found() {
    each_is_found(HOP_SLIPS, |&slip| Careless::new(Slip::Hop(slip)));
}

#[test]
fn each_slip_for_an_empty_list_is_found() {
    each_is_found(EMPTY_LIST_SLIPS, |&slip| Careless::new(Slip::EmptyList(slip)));
}

#[test]
fn each_slip_in_the_converter_is_found() {
    each_is_found(CONVERT_SLIPS, |&slip| Careless::new(Slip::Convert(slip)));
}

#[test]
fn each_misreading_of_steady_tables_is_found() {
    none_missed(STEADY_MISREADINGS, |&fault| {
        let mut careless = Careless::new(Slip::Steady(SteadySlip::Misread(fault)));
        differ(&mut Oracle::right(), &mut careless, SEED, plans_with_groups())
    });
}

#[test]
fn each_slip_in_the_call_for_steady_tables_is_found() {
    none_missed(STEADY_SLIPS, |&slip| {
        differ(&mut Oracle::right(), &mut Careless::new(Slip::Steady(slip)), SEED, plans_with_groups())
    });
}

#[test]
fn what_is_stated_of_steady_tables_tells_slips_in_them_beside_themselves() {
    none_missed(STATED_SLIPS, |&slip| {
        let [mut one, mut other] = [0, 1].map(|_| Careless::new(Slip::Steady(slip)));
        differ(&mut one, &mut other, SEED, plans_with_groups())
    });
}

#[test]
fn each_slip_in_the_call_for_hop_sets_is_found() {
    none_missed(HOP_SET_SLIPS, |&slip| {
        differ(&mut Oracle::right(), &mut Careless::new(Slip::HopSet(slip)), SEED, plans_with_groups())
    });
}

#[test]
fn what_is_stated_of_hop_sets_tells_slips_in_them_beside_themselves() {
    none_missed(STATED_HOP_SET_SLIPS, |&slip| {
        let [mut one, mut other] = [0, 1].map(|_| Careless::new(Slip::HopSet(slip)));
        differ(&mut one, &mut other, SEED, plans_with_groups())
    });
}

#[test]
fn each_slip_in_the_call_for_grades_is_found() {
    none_missed(GRADE_SLIPS, |&slip| {
        differ(&mut Oracle::right(), &mut Careless::new(Slip::Grade(slip)), SEED, plans_with_groups())
    });
}

#[test]
fn what_is_stated_of_grades_tells_slips_in_them_beside_themselves() {
    none_missed(STATED_GRADE_SLIPS, |&slip| {
        let [mut one, mut other] = [0, 1].map(|_| Careless::new(Slip::Grade(slip)));
        differ(&mut one, &mut other, SEED, plans_with_groups())
    });
}

/// Plans for which the call for every list is undecided, which are few, and some others.
fn plans_for_every_list() -> Vec<u64> {
    let is_undecided = |number: &u64| {
        let plan = plan::read(&generate::numbered(SEED, *number).0);
        plan.is_ok_and(|plan| every_list(&Right, &plan) == EveryList::Undecided)
    };
    let undecided: Vec<u64> = (FIRST_DRAWN..PLANS).filter(is_undecided).collect();
    assert!(!undecided.is_empty());
    undecided.into_iter().chain(FIRST_DRAWN..PLANS / 4).collect()
}

#[test]
fn each_slip_in_the_call_for_every_list_is_found() {
    let plans = plans_for_every_list();
    none_missed(EVERY_LIST_SLIPS, |&slip| {
        let mut careless = Careless::new(Slip::EveryList(slip));
        differ(&mut Oracle::right(), &mut careless, SEED, plans.iter().copied())
    });
}

#[test]
fn what_is_stated_of_every_list_tells_slips_in_it_beside_themselves() {
    let plans = plans_for_every_list();
    none_missed(STATED_EVERY_LIST_SLIPS, |&slip| {
        let [mut one, mut other] = [0, 1].map(|_| Careless::new(Slip::EveryList(slip)));
        differ(&mut one, &mut other, SEED, plans.iter().copied())
    });
}

#[test]
fn each_slip_in_the_call_for_figures_is_found() {
    each_is_found(FIGURE_SLIPS, |&slip| Careless::new(Slip::Figures(slip)));
}

#[test]
fn what_is_stated_of_figures_tells_slips_in_them_beside_themselves() {
    none_missed(STATED_FIGURE_SLIPS, |&slip| {
        let [mut one, mut other] = [0, 1].map(|_| Careless::new(Slip::Figures(slip)));
        are_told_apart(&mut one, &mut other)
    });
}

#[test]
fn each_wrong_margin_program_is_found_by_the_inputs() {
    let inputs: Vec<Vec<u8>> = (0..INPUTS).map(|number| questions::numbered(SEED, number)).collect();
    let right: Vec<String> = inputs.iter().map(|input| margin_line(input)).collect();
    let prints = |program: Program| inputs.iter().map(|input| program(input)).collect::<Vec<String>>();
    let missed = WRONG_PROGRAMS.into_iter().filter(|&(_, program)| prints(program) == right);
    assert_eq!(missed.map(|(what, _)| what).collect::<Vec<_>>(), [""; 0]);
}
