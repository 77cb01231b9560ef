//! A smallest set of routers to give the hop step, by trial: in the plan's bytes the roles 1 and
//! 3 of a set's routers become 4 and 5, and the plan is read anew and judged. Sets are tried by
//! size, and then by number.

use super::plan::{self, Router, FIRST_BODY, REFLECTOR, SKIPPING, STEPPING, STEPPING_AND_SKIPPING};
use super::rules::{Case, Rules};
use super::steady::MOST_GROUPED;
use super::verdict::{self, Outcome};

/// The bytes of a sound plan in which these routers have the hop step too.
pub fn with_step(bytes: &[u8], routers: impl IntoIterator<Item = Router>) -> Vec<u8> {
    let mut changed = bytes.to_vec();
    for router in routers {
        let role = &mut changed[FIRST_BODY + 5 * router];
        *role = match *role {
            REFLECTOR => STEPPING,
            SKIPPING => STEPPING_AND_SKIPPING,
            other => other,
        };
    }
    changed
}

/// The routers that a number names: bit i is that of the i-th router in groups, lowest first.
pub fn named(number: u64, grouped: &[Router]) -> impl Iterator<Item = Router> + '_ {
    grouped.iter().enumerate().filter(move |(bit, _)| number >> bit & 1 == 1).map(|(_, &router)| router)
}

/// The cycle that the verdict on a list of a sound plan names, none if it is stable.
pub fn cycle(rules: &impl Rules, bytes: &[u8], list: usize) -> Option<Vec<Router>> {
    let plan = plan::read(bytes).expect("a plan that is sound whatever the roles of its reflectors");
    let case = Case { plan: &plan, listed: &plan.lists[list].listed };
    match verdict::verdict(rules, case).outcome {
        Outcome::Stable { .. } => None,
        Outcome::Suspect { cycle } => Some(cycle),
    }
}

/// The number of the set for a list of a sound plan, or refusal 15. A cycle stays as it is if
/// none of its routers is given the step, so a set that leaves out one found before is not tried.
pub fn hop_set(rules: &impl Rules, bytes: &[u8], list: usize) -> Result<u64, u8> {
    let plan = plan::read(bytes)?;
    let grouped = verdict::grouped(rules, Case { plan: &plan, listed: &plan.lists[list].listed });
    if grouped.len() > MOST_GROUPED {
        return Err(15);
    }
    let all = (1 << grouped.len()) - 1;
    let mut numbers: Vec<u64> = (0..=all).collect();
    numbers.sort_by_key(|number| number.count_ones());
    let mut cycles: Vec<Vec<Router>> = Vec::new();
    let mut serves = |number: &u64| {
        let set: Vec<Router> = named(*number, &grouped).collect();
        if cycles.iter().any(|cycle| cycle.iter().all(|router| !set.contains(router))) {
            return false;
        }
        let left = cycle(rules, &with_step(bytes, set), list);
        cycles.extend(left.clone());
        left.is_none()
    };
    // Some set serves unless a rule is misread.
    Ok(numbers.into_iter().find(|number| serves(number)).unwrap_or(all))
}
