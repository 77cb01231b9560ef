//! Groups by depth-first search (Tarjan), ranks by taking away layer after
//! layer, the settled table by activations, the cycle by a walk.

use super::plan::Router;
use super::rules::{Case, Rules, Table};
use super::tables;
use std::collections::{BTreeMap, BTreeSet};

/// For each router the routers it relies on.
pub type Reliances = BTreeMap<Router, BTreeSet<Router>>;

pub type Ranks = BTreeMap<Router, usize>;

pub enum Outcome {
    Stable { ranks: Ranks, table: Table },
    Suspect { cycle: Vec<Router> },
}

pub struct Verdict {
    pub labels: Vec<Router>,
    pub outcome: Outcome,
}

pub fn reliances(rules: &impl Rules, case: Case) -> Reliances {
    (0..case.plan.n).map(|router| (router, rules.relied_on(case, router))).collect()
}

pub fn verdict(rules: &impl Rules, case: Case) -> Verdict {
    let reliances = reliances(rules, case);
    let groups = groups(&reliances);
    let labels = labels(&groups);
    let shared = groups.iter().filter(|group| group.len() > 1).min_by_key(|group| group.first().copied());
    let outcome = match shared {
        Some(group) => Outcome::Suspect { cycle: cycle(&reliances, group) },
        None => Outcome::Stable { ranks: ranks(&reliances), table: tables::settle(rules, case) },
    };
    Verdict { labels, outcome }
}

/// The routers in groups of two or more, lowest first.
pub fn grouped(rules: &impl Rules, case: Case) -> Vec<Router> {
    grouped_by(&reliances(rules, case))
}

/// .. by these reliances.
pub fn grouped_by(reliances: &Reliances) -> Vec<Router> {
    let groups = groups(reliances);
    let shared: BTreeSet<Router> = groups.into_iter().filter(|group| group.len() > 1).flatten().collect();
    shared.into_iter().collect()
}

/// The state of the depth-first search.
struct Search<'a> {
    reliances: &'a Reliances,
    met: BTreeMap<Router, usize>,
    lowest: BTreeMap<Router, usize>,
    open: Vec<Router>,
    groups: Vec<BTreeSet<Router>>,
}

impl Search<'_> {
    fn visit(&mut self, router: Router) {
        let time = self.met.len();
        self.met.insert(router, time);
        self.lowest.insert(router, time);
        self.open.push(router);
        let reliances = self.reliances;
        for &other in &reliances[&router] {
            if !self.met.contains_key(&other) {
                self.visit(other);
                self.lower(router, self.lowest[&other]);
            } else if self.open.contains(&other) {
                self.lower(router, self.met[&other]);
            }
        }
        if self.lowest[&router] == time {
            self.close(router);
        }
    }

    fn lower(&mut self, router: Router, time: usize) {
        let lowest = self.lowest.entry(router).or_insert(time);
        *lowest = time.min(*lowest);
    }

    /// Takes the group that `router` opened off the stack.
    fn close(&mut self, router: Router) {
        let from = self.open.iter().position(|&other| other == router).unwrap_or(0);
        self.groups.push(self.open.split_off(from).into_iter().collect());
    }
}

fn groups(reliances: &Reliances) -> Vec<BTreeSet<Router>> {
    let mut search =
        Search { reliances, met: BTreeMap::new(), lowest: BTreeMap::new(), open: Vec::new(), groups: Vec::new() };
    for &router in reliances.keys() {
        if !search.met.contains_key(&router) {
            search.visit(router);
        }
    }
    search.groups
}

/// A group's label is its lowest number.
fn labels(groups: &[BTreeSet<Router>]) -> Vec<Router> {
    let label_of = |group: &BTreeSet<Router>| group.first().copied().unwrap_or(0);
    let labelled: BTreeMap<Router, Router> =
        groups.iter().flat_map(|group| group.iter().map(move |&router| (router, label_of(group)))).collect();
    labelled.into_values().collect()
}

/// The rank of a router is the number of the layer it is taken away with: a
/// layer is all those that rely on none but routers taken away before.
pub fn ranks(reliances: &Reliances) -> Ranks {
    let mut ranks = Ranks::new();
    for rank in 0.. {
        let layer: Vec<Router> = reliances
            .iter()
            .filter(|(router, relied)| {
                !ranks.contains_key(*router) && relied.iter().all(|other| ranks.contains_key(other))
            })
            .map(|(&router, _)| router)
            .collect();
        if layer.is_empty() {
            break;
        }
        ranks.extend(layer.into_iter().map(|router| (router, rank)));
    }
    ranks
}

pub fn highest(ranks: &Ranks) -> u64 {
    ranks.values().copied().max().unwrap_or(0) as u64
}

/// The walk from the group's lowest router, always to the lowest one relied
/// on in the group, cut to the part from the first router met twice.
fn cycle(reliances: &Reliances, group: &BTreeSet<Router>) -> Vec<Router> {
    let mut walk: Vec<Router> = Vec::new();
    let mut next = group.first().copied();
    while let Some(router) = next {
        if let Some(first) = walk.iter().position(|&met| met == router) {
            return walk.split_off(first);
        }
        walk.push(router);
        next = reliances[&router].intersection(group).next().copied();
    }
    walk
}
