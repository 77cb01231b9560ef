//! Checkers that misread role 3 in one rule each, to see that the comparison finds
//! it.

use crate::oracle::plan::{Plan, Router};
use crate::oracle::rules::{Candidate, Case, Right, Rules, Table};
use std::collections::BTreeSet;

/// A misreading of reflectors that skip their own clients.
#[derive(Clone, Copy, Debug, PartialEq, Eq)]
pub enum SkipMisreading {
    TellsItsClients,
    TellsReflectorsNothing,
    KeepsReflectorsRoutesFromItsClients,
    PassesReflectorsRoutesToReflectors,
    SkipsByTheEgress,
    AnnouncesNothing,
    ListedTellsReflectorsOnly,
    EveryReflectorSkips,
    ClientAsSender,
    ClientAsHearer,
    ClientInRule2,
    ReliesByRule2,
    OffersNothing,
    BestClient,
}

pub const SKIP_MISREADINGS: [SkipMisreading; 14] = [
    SkipMisreading::TellsItsClients,
    SkipMisreading::TellsReflectorsNothing,
    SkipMisreading::KeepsReflectorsRoutesFromItsClients,
    SkipMisreading::PassesReflectorsRoutesToReflectors,
    SkipMisreading::SkipsByTheEgress,
    SkipMisreading::AnnouncesNothing,
    SkipMisreading::ListedTellsReflectorsOnly,
    SkipMisreading::EveryReflectorSkips,
    SkipMisreading::ClientAsSender,
    SkipMisreading::ClientAsHearer,
    SkipMisreading::ClientInRule2,
    SkipMisreading::ReliesByRule2,
    SkipMisreading::OffersNothing,
    SkipMisreading::BestClient,
];

pub struct MisreadSkip(pub SkipMisreading);

/// The plan with role 3 taken for the role of a client.
fn as_clients(plan: &Plan) -> Plan {
    let mut plan = plan.clone();
    plan.reflectors = &plan.reflectors - &plan.skipping;
    plan
}

/// The plan with one reflector taken for a client.
fn as_client(plan: &Plan, router: Router) -> Plan {
    let mut plan = plan.clone();
    plan.reflectors.remove(&router);
    plan
}

impl MisreadSkip {
    /// What a reflector of role 3, unlisted, tells of a route from a sender.
    fn told(&self, plan: &Plan, egress: Router, sender: Router, to: Router) -> bool {
        let by_reflector = plan.is_reflector(sender);
        let to_reflector = plan.is_reflector(to);
        match self.0 {
            SkipMisreading::TellsItsClients if !by_reflector => to != sender,
            SkipMisreading::TellsReflectorsNothing if !by_reflector => false,
            SkipMisreading::KeepsReflectorsRoutesFromItsClients if by_reflector => false,
            SkipMisreading::PassesReflectorsRoutesToReflectors if by_reflector => true,
            SkipMisreading::SkipsByTheEgress => plan.is_reflector(egress) != to_reflector,
            SkipMisreading::AnnouncesNothing => false,
            _ => by_reflector != to_reflector,
        }
    }
}

impl Rules for MisreadSkip {
    fn best_client(&self, case: Case, reflector: Router) -> Option<Router> {
        match self.0 {
            SkipMisreading::BestClient => {
                let plan = as_clients(case.plan);
                Right.best_client(Case { plan: &plan, ..case }, reflector)
            }
            _ => Right.best_client(case, reflector),
        }
    }

    fn offer(&self, case: Case, reflector: Router, relying: Router) -> Option<Candidate> {
        match self.0 {
            SkipMisreading::OffersNothing if case.plan.skips(reflector) => None,
            _ if case.is_listed(reflector) => Right.offer(case, reflector, relying),
            _ => self.best_client(case, reflector).map(Candidate::passed_on),
        }
    }

    fn relied_on(&self, case: Case, router: Router) -> BTreeSet<Router> {
        match (self.0, case.plan.is_reflector(router)) {
            _ if case.is_listed(router) => BTreeSet::new(),
            (SkipMisreading::ReliesByRule2, true) if case.plan.skips(router) => {
                self.relied_on_by_client(case, router)
            }
            (_, true) => self.relied_on_by_reflector(case, router),
            (SkipMisreading::ClientInRule2, false) => {
                let plan = as_clients(case.plan);
                Right.relied_on_by_client(Case { plan: &plan, ..case }, router)
            }
            (_, false) => self.relied_on_by_client(case, router),
        }
    }

    fn advertised(&self, case: Case, table: &Table, from: Router, to: Router) -> Option<Router> {
        let plan = case.plan;
        let skips = plan.skips(from) || self.0 == SkipMisreading::EveryReflectorSkips && plan.is_reflector(from);
        if case.is_listed(from) {
            let withheld = self.0 == SkipMisreading::ListedTellsReflectorsOnly && skips && !plan.is_reflector(to);
            return (!withheld).then_some(from);
        }
        let held = table.get(&from)?;
        let taken = match self.0 {
            SkipMisreading::ClientAsSender => Some(held.sender),
            SkipMisreading::ClientAsHearer => Some(to),
            _ => None,
        };
        if let Some(router) = taken.filter(|router| plan.skips(*router)) {
            let plan = as_client(plan, router);
            return Right.advertised(Case { plan: &plan, ..case }, table, from, to);
        }
        if !skips {
            return Right.advertised(case, table, from, to);
        }
        self.told(plan, held.egress, held.sender, to).then_some(held.egress)
    }
}
