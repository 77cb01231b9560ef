//! Whether a plan is stable for every list, by depth-first search over pairs of a reflector and a
//! client that may be its best one. The plan's own lists play no part.

use super::plan::{Listed, Plan, Router};
use super::rules::{Candidate, Case, Rules};
use super::verdict;
use std::collections::{BTreeMap, BTreeSet};

#[derive(Clone, Debug, PartialEq, Eq)]
pub enum EveryList {
    /// Suspect for this list of clients.
    No(Listed),
    Yes,
    /// There is a cycle of pairs, and the list that is found is stable.
    Undecided,
}

/// A reflector and a client.
pub type Pair = (Router, Router);

pub fn every_list(rules: &impl Rules, plan: &Plan) -> EveryList {
    let left = left(rules, plan);
    if left.is_empty() {
        return EveryList::Yes;
    }
    let list = found(rules, plan, &left);
    if is_suspect(rules, plan, &list) {
        EveryList::No(list)
    } else {
        EveryList::Undecided
    }
}

/// Whether some routers are in a group of two or more for a list.
pub fn is_suspect(rules: &impl Rules, plan: &Plan, listed: &Listed) -> bool {
    !verdict::grouped(rules, Case { plan, listed }).is_empty()
}

/// The reflectors without the hop step, each with its clients that it has a way to.
pub fn pairs(rules: &impl Rules, plan: &Plan) -> BTreeSet<Pair> {
    let reflectors = plan.reflectors.iter().filter(|&&router| !rules.steps(plan, router));
    let with_clients = reflectors.flat_map(|&router| {
        let clients = plan.neighbours[router].difference(&plan.reflectors);
        clients.map(move |&client| (router, client))
    });
    with_clients.filter(|&(router, client)| rules.has_way(plan, router, client)).collect()
}

/// Whether the first reflector relies on the second where each has its client as the best one:
/// they are neighbours, and the second's client is better to the first than its own, and is none
/// of its own.
pub fn leads(rules: &impl Rules, plan: &Plan, (router, own): Pair, (other, client): Pair) -> bool {
    let neighbours = &plan.neighbours[router];
    neighbours.contains(&other)
        && !neighbours.contains(&client)
        && rules.counts(plan, router, Candidate::passed_on(client), Some(own))
}

/// What the depth-first search knows of a pair.
#[derive(Clone, Copy, PartialEq, Eq)]
enum Met {
    Open,
    /// A cycle can be reached from it.
    Left,
    NotLeft,
}

struct Search<'a, R> {
    rules: &'a R,
    plan: &'a Plan,
    pairs: BTreeSet<Pair>,
    met: BTreeMap<Pair, Met>,
}

impl<R: Rules> Search<'_, R> {
    /// Whether a cycle can be reached from a pair, or goes by an open one.
    fn visit(&mut self, pair: Pair) -> bool {
        if let Some(&met) = self.met.get(&pair) {
            return met != Met::NotLeft;
        }
        self.met.insert(pair, Met::Open);
        let after: Vec<Pair> =
            self.pairs.iter().copied().filter(|&next| leads(self.rules, self.plan, pair, next)).collect();
        let is_left = after.into_iter().any(|next| self.visit(next));
        self.met.insert(pair, if is_left { Met::Left } else { Met::NotLeft });
        is_left
    }
}

/// The pairs from which a cycle of pairs can be reached.
pub fn left(rules: &impl Rules, plan: &Plan) -> BTreeSet<Pair> {
    let pairs = pairs(rules, plan);
    let mut search = Search { rules, plan, pairs: pairs.clone(), met: BTreeMap::new() };
    pairs.into_iter().filter(|&pair| search.visit(pair)).collect()
}

/// The nearest client left to a reflector that is none of its own, and the lowest neighbouring
/// reflector that it is left with.
fn next(rules: &impl Rules, plan: &Plan, left: &BTreeSet<Pair>, router: Router) -> Option<Pair> {
    let neighbours = &plan.neighbours[router];
    let foreign = left.iter().filter(|(other, client)| neighbours.contains(other) && !neighbours.contains(client));
    let clients = foreign.clone().map(|&(_, client)| Candidate::passed_on(client)).collect();
    let nearest = rules.best(plan, router, clients)?;
    foreign.copied().find(|&(_, client)| client == nearest)
}

/// The clients of the steps that the walk from the lowest reflector left takes again and again.
pub fn found(rules: &impl Rules, plan: &Plan, left: &BTreeSet<Pair>) -> Listed {
    let mut walk: Vec<(Router, Router)> = Vec::new();
    let mut at = left.first().map(|&(router, _)| router);
    while let Some(router) = at {
        if let Some(first) = walk.iter().position(|&(from, _)| from == router) {
            return walk[first..].iter().map(|&(_, client)| client).collect();
        }
        let step = next(rules, plan, left, router);
        walk.extend(step.map(|(_, client)| (router, client)));
        at = step.map(|(other, _)| other);
    }
    // A walk ends only where a rule is misread.
    Listed::new()
}
