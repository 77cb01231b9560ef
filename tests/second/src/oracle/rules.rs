//! Choosing, advertising and reliance (RFC 4271, RFC 4456), said with sets; and
//! why a router relies on another or does not. Of candidate routes one is chosen step by
//! step, each of which leaves some.
//!
//! The rules are the default methods of a trait, so that a single wrong rule
//! can be put in place of a right one, to see that the comparison finds it.

use super::plan::{Listed, Plan, Router};
use crate::interface::{Explained, Handed, Reason, Rule};
use std::collections::{BTreeMap, BTreeSet};

/// A route held or received: its egress router, and the neighbour that sent it.
#[derive(Clone, Copy, Debug, PartialEq, Eq)]
pub struct Route {
    pub egress: Router,
    pub sender: Router,
}

/// What the routers hold; a router that holds no route has no entry.
pub type Table = BTreeMap<Router, Route>;

/// A route to choose from: its egress router, and whether that router itself told it. If
/// not, it was passed on.
#[derive(Clone, Copy, Debug, PartialEq, Eq)]
pub struct Candidate {
    pub egress: Router,
    pub direct: bool,
}

impl Candidate {
    /// A route that its egress router told.
    pub fn told(egress: Router) -> Self {
        Candidate { egress, direct: true }
    }

    pub fn passed_on(egress: Router) -> Self {
        Candidate { egress, direct: false }
    }
}

impl From<Handed> for Candidate {
    fn from(route: Handed) -> Self {
        Candidate { egress: route.egress, direct: route.direct != 0 }
    }
}

impl From<Route> for Candidate {
    /// A route that was sent, be it by an unlisted router that announces a left-over one to
    /// itself.
    fn from(route: Route) -> Self {
        Candidate { egress: route.egress, direct: route.sender == route.egress }
    }
}

/// What routes are compared by, whoever told them: the smaller is the better.
pub type Value = (usize, usize);

/// A plan together with the list asked for.
#[derive(Clone, Copy)]
pub struct Case<'a> {
    pub plan: &'a Plan,
    pub listed: &'a Listed,
}

impl Case<'_> {
    pub fn is_listed(&self, router: Router) -> bool {
        self.listed.contains(&router)
    }

    pub fn neighbouring_reflectors(&self, router: Router) -> impl Iterator<Item = Router> + '_ {
        self.plan.neighbours[router].iter().copied().filter(|&other| self.plan.is_reflector(other))
    }

    pub fn neighbouring_listed_clients(&self, router: Router) -> impl Iterator<Item = Router> + '_ {
        let listed = self.plan.neighbours[router].intersection(self.listed).copied();
        listed.filter(|&other| !self.plan.is_reflector(other))
    }
}

/// Whether the first is the best of two routes; two of one egress router are the same. A way
/// beats none, and of two without a way neither is better.
pub fn beats<R: Rules + ?Sized>(rules: &R, plan: &Plan, at: Router, first: Candidate, second: Candidate) -> bool {
    first.egress != second.egress && rules.best(plan, at, vec![first, second]) == Some(first.egress)
}

/// The reasons in the order of document 02; the first that applies is given.
pub const REASONS: [Reason; 9] = [
    Reason::SameRouter,
    Reason::NotNeighbours,
    Reason::FirstListed,
    Reason::UnlistedClient,
    Reason::BothClients,
    Reason::NotTheBestClient,
    Reason::NoOffer,
    Reason::NoWay,
    Reason::NotBetter,
];

pub trait Rules {
    /// How a router values an egress router by distance and number, none if it has no
    /// way to it; the smaller key is the better.
    fn value(&self, plan: &Plan, at: Router, egress: Router) -> Option<Value> {
        plan.place(at, egress).map(|place| (place, 0))
    }

    fn has_way(&self, plan: &Plan, at: Router, egress: Router) -> bool {
        self.value(plan, at, egress).is_some()
    }

    /// Whether a router has the hop step.
    fn steps(&self, plan: &Plan, router: Router) -> bool {
        plan.steps(router)
    }

    /// What the hop step leaves of candidate routes: at a reflector that has it, those told
    /// by their own egress routers, if there are any; else all.
    fn after_hop_step(&self, plan: &Plan, at: Router, candidates: Vec<Candidate>) -> Vec<Candidate> {
        let mut left = candidates.clone();
        left.retain(|route| route.direct);
        if left.is_empty() || !self.steps(plan, at) {
            return candidates;
        }
        left
    }

    /// The egress router of the best of candidate routes, none if none has a way: those with
    /// a way, of these those that the hop step leaves, of these the nearest.
    fn best(&self, plan: &Plan, at: Router, mut candidates: Vec<Candidate>) -> Option<Router> {
        candidates.retain(|route| self.has_way(plan, at, route.egress));
        let left = self.after_hop_step(plan, at, candidates);
        left.iter().map(|route| route.egress).min_by_key(|&egress| self.value(plan, at, egress))
    }

    fn is_better(&self, plan: &Plan, at: Router, first: Candidate, second: Candidate) -> bool {
        beats(self, plan, at, first, second)
    }

    /// The distance to the first minus the distance to the second, if there is a
    /// way to both.
    fn margin(&self, plan: &Plan, at: Router, first: Router, second: Router) -> Option<i64> {
        let distance = |egress: Router| plan.distances[at][egress].map(i64::from);
        Some(distance(first)? - distance(second)?)
    }

    /// The best client of a reflector, by the ways and distances of the router `at`. Each
    /// client tells its own route.
    fn best_client_valued_at(&self, case: Case, reflector: Router, at: Router) -> Option<Router> {
        let clients = case.neighbouring_listed_clients(reflector);
        self.best(case.plan, at, clients.map(Candidate::told).collect())
    }

    fn best_client(&self, case: Case, reflector: Router) -> Option<Router> {
        self.best_client_valued_at(case, reflector, reflector)
    }

    /// What a reflector offers to the reflector `_relying`: if it is listed it tells its own
    /// route, else it passes one on.
    fn offer(&self, case: Case, reflector: Router, _relying: Router) -> Option<Candidate> {
        if case.is_listed(reflector) {
            return Some(Candidate::told(reflector));
        }
        self.best_client(case, reflector).map(Candidate::passed_on)
    }

    /// Whether an offer makes a reflector relied on at `at`, whose best client is
    /// `own`: there is a way to it, and it is better than that client, if any, which tells
    /// its own route.
    fn counts(&self, plan: &Plan, at: Router, offer: Candidate, own: Option<Router>) -> bool {
        let is_better = |own: Router| self.is_better(plan, at, offer, Candidate::told(own));
        self.has_way(plan, at, offer.egress) && own.is_none_or(is_better)
    }

    fn relied_on(&self, case: Case, router: Router) -> BTreeSet<Router> {
        if case.is_listed(router) {
            BTreeSet::new()
        } else if case.plan.is_reflector(router) {
            self.relied_on_by_reflector(case, router)
        } else {
            self.relied_on_by_client(case, router)
        }
    }

    fn relied_on_by_client(&self, case: Case, router: Router) -> BTreeSet<Router> {
        case.neighbouring_reflectors(router).chain(case.neighbouring_listed_clients(router)).collect()
    }

    fn relied_on_by_reflector(&self, case: Case, router: Router) -> BTreeSet<Router> {
        let own = self.best_client(case, router);
        let counts = |offer: Candidate| self.counts(case.plan, router, offer, own);
        let offering =
            case.neighbouring_reflectors(router).filter(|&other| self.offer(case, other, router).is_some_and(counts));
        offering.chain(own).collect()
    }

    fn explanation(&self, case: Case, router: Router, other: Router) -> Explained {
        match self.rule(case, router, other) {
            Some(rule) => Explained::Yes(rule),
            // Some reason applies unless a rule is misread.
            None => Explained::No(self.reason(case, router, other).unwrap_or(Reason::NotBetter)),
        }
    }

    /// The rule by which a router relies on another, if it does.
    fn rule(&self, case: Case, router: Router, other: Router) -> Option<Rule> {
        if !self.relied_on(case, router).contains(&other) {
            return None;
        }
        match (case.plan.is_reflector(router), case.plan.is_reflector(other)) {
            (false, true) => Some(Rule::Parent),
            (false, false) => Some(Rule::PeerClient),
            (true, false) => Some(Rule::OwnBestClient),
            (true, true) => {
                let offer = self.offer(case, other, router)?.egress;
                let own = self.best_client(case, router);
                let with_margin = |own: Router| Some((own, self.margin(case.plan, router, offer, own)?));
                Some(Rule::BetterOffer { offer, own: own.and_then(with_margin) })
            }
        }
    }

    fn reason(&self, case: Case, router: Router, other: Router) -> Option<Reason> {
        REASONS.into_iter().find(|&reason| self.applies(reason, case, router, other))
    }

    /// Whether a reason applies, by its own words. The last four speak of what a
    /// reflector does not rely on: a client, or another reflector's offer.
    fn applies(&self, reason: Reason, case: Case, router: Router, other: Router) -> bool {
        let plan = case.plan;
        let is_reflector = |router: Router| plan.is_reflector(router);
        let unlisted_client = !is_reflector(other) && !case.is_listed(other);
        let of_reflectors = is_reflector(router) && is_reflector(other);
        let offer = of_reflectors.then(|| self.offer(case, other, router)).flatten();
        let own = self.best_client(case, router);
        match reason {
            Reason::SameRouter => router == other,
            Reason::NotNeighbours => !plan.neighbours[router].contains(&other),
            Reason::FirstListed => case.is_listed(router),
            Reason::UnlistedClient => unlisted_client,
            Reason::BothClients => !is_reflector(router) && unlisted_client,
            Reason::NotTheBestClient => is_reflector(router) && !is_reflector(other) && own != Some(other),
            Reason::NoOffer => of_reflectors && offer.is_none(),
            Reason::NoWay => offer.is_some_and(|offer| !self.has_way(plan, router, offer.egress)),
            Reason::NotBetter => {
                offer.zip(own).is_some_and(|(offer, own)| !self.counts(plan, router, offer, Some(own)))
            }
        }
    }

    /// Whether a reflector skips its own clients.
    fn skips(&self, plan: &Plan, reflector: Router) -> bool {
        plan.skips(reflector)
    }

    /// The egress router of the route that `from` advertises to its neighbour
    /// `to`, if it advertises one to it.
    fn advertised(&self, case: Case, table: &Table, from: Router, to: Router) -> Option<Router> {
        if case.is_listed(from) {
            return Some(from);
        }
        if !case.plan.is_reflector(from) {
            return None;
        }
        let held = table.get(&from)?;
        let told = match (case.plan.is_reflector(held.sender), case.plan.is_reflector(to)) {
            (true, true) => false,
            (true, false) | (false, true) => true,
            (false, false) => !self.skips(case.plan, from) && to != held.sender,
        };
        told.then_some(held.egress)
    }

    /// Whether a router hears a route that is sent to it: there is a way to its egress
    /// router.
    fn hears(&self, plan: &Plan, at: Router, route: Route) -> bool {
        self.has_way(plan, at, route.egress)
    }

    /// The egress router of the route that a router chooses of those it hears.
    fn choice(&self, case: Case, at: Router, heard: &[Route]) -> Option<Router> {
        self.best(case.plan, at, heard.iter().map(|&route| route.into()).collect())
    }

    /// Which of several neighbours counts as the sender of a route: the egress router
    /// itself, else the one with the lowest number.
    fn sender(&self, egress: Router, senders: &BTreeSet<Router>) -> Option<Router> {
        senders.get(&egress).or(senders.first()).copied()
    }

    /// What a router holds after its activation.
    fn activation(&self, case: Case, table: &Table, router: Router) -> Option<Route> {
        if case.is_listed(router) {
            return Some(Route { egress: router, sender: router });
        }
        let heard = case.plan.neighbours[router].iter().filter_map(|&sender| {
            let egress = self.advertised(case, table, sender, router)?;
            Some(Route { egress, sender }).filter(|&route| self.hears(case.plan, router, route))
        });
        let heard: Vec<Route> = heard.collect();
        let egress = self.choice(case, router, &heard)?;
        let senders = heard.iter().filter(|route| route.egress == egress).map(|route| route.sender);
        Some(Route { egress, sender: self.sender(egress, &senders.collect())? })
    }
}

/// The rules as documents 01 and 02 give them.
#[derive(Clone, Copy)]
pub struct Right;

impl Rules for Right {}
