//! Checkers that misread one rule each for an empty list, to see that the comparison finds
//! it.

use crate::oracle::plan::Router;
use crate::oracle::rules::{Candidate, Case, Right, Route, Rules, Table};
use std::collections::BTreeSet;

/// A misreading of a list that names nobody.
#[derive(Clone, Copy, Debug, PartialEq, Eq)]
pub enum EmptyListMisreading {
    LeftOverKept,
    LeftOverKeptByClients,
    LeftOverKeptByReflectors,
    ClientWithoutAParentReliesOnPeers,
    ClientReliesOnNobody,
    ReflectorReliesOnReflectors,
    ReflectorReliesOnClients,
    ReflectorOffersItself,
    ReflectorOffersAClient,
}

pub const EMPTY_LIST_MISREADINGS: [EmptyListMisreading; 9] = [
    EmptyListMisreading::LeftOverKept,
    EmptyListMisreading::LeftOverKeptByClients,
    EmptyListMisreading::LeftOverKeptByReflectors,
    EmptyListMisreading::ClientWithoutAParentReliesOnPeers,
    EmptyListMisreading::ClientReliesOnNobody,
    EmptyListMisreading::ReflectorReliesOnReflectors,
    EmptyListMisreading::ReflectorReliesOnClients,
    EmptyListMisreading::ReflectorOffersItself,
    EmptyListMisreading::ReflectorOffersAClient,
];

pub struct MisreadEmptyList(pub EmptyListMisreading);

fn neighbours(case: Case, router: Router, reflectors: bool) -> BTreeSet<Router> {
    let mut neighbours = case.plan.neighbours[router].clone();
    neighbours.retain(|&other| case.plan.is_reflector(other) == reflectors);
    neighbours
}

impl Rules for MisreadEmptyList {
    fn offer(&self, case: Case, reflector: Router, relying: Router) -> Option<Candidate> {
        match self.0 {
            _ if !case.listed.is_empty() => Right.offer(case, reflector, relying),
            EmptyListMisreading::ReflectorOffersItself => Some(Candidate::told(reflector)),
            EmptyListMisreading::ReflectorOffersAClient => {
                let client = neighbours(case, reflector, false).first().copied();
                client.map(Candidate::passed_on)
            }
            _ => None,
        }
    }

    fn relied_on_by_client(&self, case: Case, router: Router) -> BTreeSet<Router> {
        let relied_on = Right.relied_on_by_client(case, router);
        match self.0 {
            _ if !case.listed.is_empty() => relied_on,
            EmptyListMisreading::ClientWithoutAParentReliesOnPeers if relied_on.is_empty() => {
                neighbours(case, router, false)
            }
            EmptyListMisreading::ClientReliesOnNobody => BTreeSet::new(),
            _ => relied_on,
        }
    }

    fn relied_on_by_reflector(&self, case: Case, router: Router) -> BTreeSet<Router> {
        match self.0 {
            _ if !case.listed.is_empty() => Right.relied_on_by_reflector(case, router),
            EmptyListMisreading::ReflectorReliesOnReflectors => neighbours(case, router, true),
            EmptyListMisreading::ReflectorReliesOnClients => neighbours(case, router, false),
            _ => {
                let offered = |other: &Router| self.offer(case, *other, router).is_some();
                neighbours(case, router, true).into_iter().filter(offered).collect()
            }
        }
    }

    fn activation(&self, case: Case, table: &Table, router: Router) -> Option<Route> {
        let is_kept = match self.0 {
            EmptyListMisreading::LeftOverKept => true,
            EmptyListMisreading::LeftOverKeptByClients => !case.plan.is_reflector(router),
            EmptyListMisreading::LeftOverKeptByReflectors => case.plan.is_reflector(router),
            _ => false,
        };
        let kept = table.get(&router).copied().filter(|_| is_kept && case.listed.is_empty());
        Right.activation(case, table, router).or(kept)
    }
}
