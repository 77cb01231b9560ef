//! Checkers that misread the hop step in one rule each, to see that the comparison finds it.

use crate::oracle::plan::{Plan, Router};
use crate::oracle::rules::{beats, Candidate, Case, Route, Rules};
use std::collections::BTreeSet;

/// A misreading of reflectors with the hop step.
#[derive(Clone, Copy, Debug, PartialEq, Eq)]
pub enum HopMisreading {
    StepAtClients,
    StepAtRole1,
    StepAtRole3,
    NoStepAtRole4,
    NoStepAtRole5,
    StepAfterTheDistance,
    StepBeforeTheWay,
    PassedOnBeatsDirect,
    OneEgressByTheStep,
    ComparisonWithoutTheStep,
    ChoiceWithoutTheStep,
    PassedOnIsNotHeard,
    DirectFromClientsAlone,
    DirectFromListedAlone,
    DirectByANeighbouringEgress,
    HeardBothWaysAsPassedOn,
    /// Rule 3 is then without the step.
    UnlistedOfferAsDirect,
    ListedOfferAsPassedOn,
    PassedOnOfferNeverCounts,
    OwnClientAsPassedOn,
    SharedClientAsPassedOn,
    StepOfTheOneThatOffers,
    Role5TellsItsClients,
    Role4SkipsItsClients,
}

pub const HOP_MISREADINGS: [HopMisreading; 24] = [
    HopMisreading::StepAtClients,
    HopMisreading::StepAtRole1,
    HopMisreading::StepAtRole3,
    HopMisreading::NoStepAtRole4,
    HopMisreading::NoStepAtRole5,
    HopMisreading::StepAfterTheDistance,
    HopMisreading::StepBeforeTheWay,
    HopMisreading::PassedOnBeatsDirect,
    HopMisreading::OneEgressByTheStep,
    HopMisreading::ComparisonWithoutTheStep,
    HopMisreading::ChoiceWithoutTheStep,
    HopMisreading::PassedOnIsNotHeard,
    HopMisreading::DirectFromClientsAlone,
    HopMisreading::DirectFromListedAlone,
    HopMisreading::DirectByANeighbouringEgress,
    HopMisreading::HeardBothWaysAsPassedOn,
    HopMisreading::UnlistedOfferAsDirect,
    HopMisreading::ListedOfferAsPassedOn,
    HopMisreading::PassedOnOfferNeverCounts,
    HopMisreading::OwnClientAsPassedOn,
    HopMisreading::SharedClientAsPassedOn,
    HopMisreading::StepOfTheOneThatOffers,
    HopMisreading::Role5TellsItsClients,
    HopMisreading::Role4SkipsItsClients,
];

pub struct MisreadHop(pub HopMisreading);

impl MisreadHop {
    fn is(&self, misreading: HopMisreading) -> bool {
        self.0 == misreading
    }

    /// Whether a route heard is taken for one that its egress router told.
    fn is_direct(&self, case: Case, at: Router, heard: &[Route], route: Route) -> bool {
        let direct = route.sender == route.egress;
        let heard_from_another =
            || heard.iter().any(|other| other.egress == route.egress && other.sender != other.egress);
        match self.0 {
            HopMisreading::ChoiceWithoutTheStep => true,
            HopMisreading::DirectFromClientsAlone => direct && !case.plan.is_reflector(route.sender),
            HopMisreading::DirectFromListedAlone => direct && case.is_listed(route.sender),
            HopMisreading::DirectByANeighbouringEgress => case.plan.neighbours[at].contains(&route.egress),
            HopMisreading::HeardBothWaysAsPassedOn => direct && !heard_from_another(),
            _ => direct,
        }
    }
}

impl Rules for MisreadHop {
    fn steps(&self, plan: &Plan, router: Router) -> bool {
        let (steps, skips) = (plan.steps(router), plan.skips(router));
        match self.0 {
            HopMisreading::StepAtClients => steps || !plan.is_reflector(router),
            HopMisreading::StepAtRole1 => steps || plan.is_reflector(router) && !skips,
            HopMisreading::StepAtRole3 => steps || skips,
            HopMisreading::NoStepAtRole4 => steps && skips,
            HopMisreading::NoStepAtRole5 => steps && !skips,
            _ => steps,
        }
    }

    fn skips(&self, plan: &Plan, reflector: Router) -> bool {
        let (steps, skips) = (plan.steps(reflector), plan.skips(reflector));
        match self.0 {
            HopMisreading::Role5TellsItsClients => skips && !steps,
            HopMisreading::Role4SkipsItsClients => skips || steps,
            _ => skips,
        }
    }

    fn after_hop_step(&self, plan: &Plan, at: Router, candidates: Vec<Candidate>) -> Vec<Candidate> {
        let mut left = candidates.clone();
        left.retain(|route| route.direct != self.is(HopMisreading::PassedOnBeatsDirect));
        if left.is_empty() || !self.steps(plan, at) {
            return candidates;
        }
        left
    }

    fn best(&self, plan: &Plan, at: Router, candidates: Vec<Candidate>) -> Option<Router> {
        let with_way = |mut candidates: Vec<Candidate>| {
            candidates.retain(|route| self.has_way(plan, at, route.egress));
            candidates
        };
        let nearest = |left: Vec<Candidate>| {
            left.into_iter().map(|route| route.egress).min_by_key(|&egress| self.value(plan, at, egress))
        };
        match self.0 {
            HopMisreading::StepBeforeTheWay => nearest(with_way(self.after_hop_step(plan, at, candidates))),
            HopMisreading::StepAfterTheDistance => {
                let steps = self.steps(plan, at);
                let key =
                    |route: &Candidate| (plan.distances[at][route.egress], steps && !route.direct, route.egress);
                with_way(candidates).into_iter().min_by_key(key).map(|route| route.egress)
            }
            _ => nearest(self.after_hop_step(plan, at, with_way(candidates))),
        }
    }

    fn is_better(&self, plan: &Plan, at: Router, first: Candidate, second: Candidate) -> bool {
        let by_step = self.steps(plan, at) && self.has_way(plan, at, first.egress);
        match self.0 {
            HopMisreading::OneEgressByTheStep if first.egress == second.egress => {
                by_step && first.direct && !second.direct
            }
            HopMisreading::ComparisonWithoutTheStep => {
                beats(self, plan, at, Candidate::told(first.egress), Candidate::told(second.egress))
            }
            _ => beats(self, plan, at, first, second),
        }
    }

    fn best_client(&self, case: Case, reflector: Router) -> Option<Router> {
        let is_shared = |client: Router| case.neighbouring_reflectors(client).count() > 1;
        let is_passed_on = |client: Router| self.is(HopMisreading::SharedClientAsPassedOn) && is_shared(client);
        let clients = case.neighbouring_listed_clients(reflector);
        let candidates = clients.map(|egress| Candidate { egress, direct: !is_passed_on(egress) });
        self.best(case.plan, reflector, candidates.collect())
    }

    fn offer(&self, case: Case, reflector: Router, _: Router) -> Option<Candidate> {
        let is_listed = case.is_listed(reflector);
        let egress = if is_listed { reflector } else { self.best_client(case, reflector)? };
        let direct = match self.0 {
            HopMisreading::UnlistedOfferAsDirect => true,
            HopMisreading::ListedOfferAsPassedOn => false,
            _ => is_listed,
        };
        Some(Candidate { egress, direct })
    }

    fn counts(&self, plan: &Plan, at: Router, offer: Candidate, own: Option<Router>) -> bool {
        let own_direct = !self.is(HopMisreading::OwnClientAsPassedOn);
        let is_better = |own: Router| beats(self, plan, at, offer, Candidate { egress: own, direct: own_direct });
        let never = self.is(HopMisreading::PassedOnOfferNeverCounts) && self.steps(plan, at) && !offer.direct;
        self.has_way(plan, at, offer.egress) && own.is_none_or(is_better) && !never
    }

    fn relied_on_by_reflector(&self, case: Case, router: Router) -> BTreeSet<Router> {
        let own = self.best_client(case, router);
        let counts = |other: Router, offer: Candidate| match self.0 {
            // Whether the one that offers has the step says what an offer is taken for.
            HopMisreading::StepOfTheOneThatOffers => {
                let is_behind = own.is_some() && self.steps(case.plan, other) && !offer.direct;
                !is_behind && self.counts(case.plan, router, Candidate::told(offer.egress), own)
            }
            _ => self.counts(case.plan, router, offer, own),
        };
        let offering = case.neighbouring_reflectors(router).filter(|&other| {
            let offer = self.offer(case, other, router);
            offer.is_some_and(|offer| counts(other, offer))
        });
        offering.chain(own).collect()
    }

    fn hears(&self, plan: &Plan, at: Router, route: Route) -> bool {
        match self.0 {
            HopMisreading::StepBeforeTheWay => true,
            HopMisreading::PassedOnIsNotHeard if self.steps(plan, at) && route.sender != route.egress => false,
            _ => self.has_way(plan, at, route.egress),
        }
    }

    fn choice(&self, case: Case, at: Router, heard: &[Route]) -> Option<Router> {
        let candidates = heard
            .iter()
            .map(|&route| Candidate { egress: route.egress, direct: self.is_direct(case, at, heard, route) });
        self.best(case.plan, at, candidates.collect())
    }
}
