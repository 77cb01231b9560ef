//! The figures of a plan, from the verdicts of its lists: what each list had is kept, and counted
//! when it is asked for.

use super::plan::{Plan, Router};
use super::rules::{Case, Rules};
use super::verdict::{self, Outcome};

/// What a verdict says of a list.
struct OfList {
    /// The highest rank, none if the list is suspect.
    highest: Option<u64>,
    labels: Vec<Router>,
}

pub struct Figures {
    lists: Vec<OfList>,
}

impl Figures {
    pub fn of(rules: &impl Rules, plan: &Plan) -> Self {
        let judged = plan.lists.iter().map(|list| {
            let verdict = verdict::verdict(rules, Case { plan, listed: &list.listed });
            let highest = match &verdict.outcome {
                Outcome::Stable { ranks, .. } => Some(verdict::highest(ranks)),
                Outcome::Suspect { .. } => None,
            };
            OfList { highest, labels: verdict.labels }
        });
        Figures { lists: judged.collect() }
    }

    fn count(&self, counts: impl Fn(&OfList) -> bool) -> usize {
        self.lists.iter().filter(|list| counts(list)).count()
    }

    pub fn stable(&self) -> u64 {
        self.count(|list| list.highest.is_some()) as u64
    }

    pub fn suspect(&self) -> u64 {
        self.count(|list| list.highest.is_none()) as u64
    }

    /// The highest rank among the stable lists, if there is one.
    pub fn highest(&self) -> Option<u64> {
        self.lists.iter().filter_map(|list| list.highest).max()
    }

    /// How many stable lists had this rank as their highest.
    pub fn lists_of_rank(&self, rank: usize) -> usize {
        self.count(|list| list.highest == Some(rank as u64))
    }

    /// In how many lists a router shares its label, and so was in a group of two or more.
    pub fn lists_with(&self, router: Router) -> usize {
        self.count(|list| {
            let label = list.labels[router];
            list.labels.iter().enumerate().any(|(other, &of)| other != router && of == label)
        })
    }
}
