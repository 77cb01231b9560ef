//! Checkers that misread one rule each, to see that the comparison finds it.

use crate::oracle::plan::{Plan, Router};
use crate::oracle::rules::{beats, Candidate, Case, Right, Route, Rules, Table, Value};
use std::collections::BTreeSet;

/// A rule misread.
#[derive(Clone, Copy, Debug, PartialEq, Eq)]
pub enum Misreading {
    ScaledDistances,
    ScaledDifferences,
    DistanceByItsLowByte,
    DistanceByItsTwoLowBytes,
    DistanceWithASign,
    HigherNumberWinsTie,
    TieIsNoReliance,
    RelyingOneJudgesBestClient,
    ReflectorRelaysFromReflector,
    SharedClientOutdoesItself,
    ListedReflectorOffersClient,
    ClientReliesOnReflectorsAlone,
    RouteSentBackToItsClient,
    UnlistedClientAdvertises,
    LowestSenderBeforeEgress,
    HighestSender,
    NoWayIsALongWay,
    FarthestIsNoWay,
    ClientWithoutAWayIsBest,
    OfferWithoutAWayCounts,
    ClientAsksForAWayToReflectors,
    ClientAsksForAWayToClients,
    LowerNumberWinsWithoutAWay,
    NoneBeatsAWay,
    AWayDoesNotBeatNone,
    WayToTheSenderAsked,
    WayBackAsked,
    SenderAsksForAWay,
    WayOfTheSenderCounts,
}

pub const MISREADINGS: [Misreading; 29] = [
    Misreading::ScaledDistances,
    Misreading::ScaledDifferences,
    Misreading::DistanceByItsLowByte,
    Misreading::DistanceByItsTwoLowBytes,
    Misreading::DistanceWithASign,
    Misreading::HigherNumberWinsTie,
    Misreading::TieIsNoReliance,
    Misreading::RelyingOneJudgesBestClient,
    Misreading::ReflectorRelaysFromReflector,
    Misreading::SharedClientOutdoesItself,
    Misreading::ListedReflectorOffersClient,
    Misreading::ClientReliesOnReflectorsAlone,
    Misreading::RouteSentBackToItsClient,
    Misreading::UnlistedClientAdvertises,
    Misreading::LowestSenderBeforeEgress,
    Misreading::HighestSender,
    Misreading::NoWayIsALongWay,
    Misreading::FarthestIsNoWay,
    Misreading::ClientWithoutAWayIsBest,
    Misreading::OfferWithoutAWayCounts,
    Misreading::ClientAsksForAWayToReflectors,
    Misreading::ClientAsksForAWayToClients,
    Misreading::LowerNumberWinsWithoutAWay,
    Misreading::NoneBeatsAWay,
    Misreading::AWayDoesNotBeatNone,
    Misreading::WayToTheSenderAsked,
    Misreading::WayBackAsked,
    Misreading::SenderAsksForAWay,
    Misreading::WayOfTheSenderCounts,
];

pub struct Misread(pub Misreading);

impl Misread {
    fn is(&self, misreading: Misreading) -> bool {
        self.0 == misreading
    }
}

impl Rules for Misread {
    fn value(&self, plan: &Plan, at: Router, egress: Router) -> Option<Value> {
        let distance = plan.distances[at][egress].map(|distance| distance as usize);
        match self.0 {
            Misreading::ScaledDistances => distance.map(|distance| (distance / 10, egress)),
            Misreading::DistanceByItsLowByte => distance.map(|distance| (distance % 256, egress)),
            Misreading::DistanceByItsTwoLowBytes => distance.map(|distance| (distance % 65_536, egress)),
            Misreading::DistanceWithASign => distance.map(|distance| (distance ^ 1 << 31, egress)),
            Misreading::HigherNumberWinsTie => distance.map(|distance| (distance, plan.n - egress)),
            Misreading::NoWayIsALongWay => Some((distance.unwrap_or(usize::MAX), egress)),
            Misreading::FarthestIsNoWay if plan.distances[at][egress] == Some(plan.mark.farthest()) => None,
            _ => Right.value(plan, at, egress),
        }
    }

    fn is_better(&self, plan: &Plan, at: Router, first: Candidate, second: Candidate) -> bool {
        let routes = [first, second];
        let ways = routes.map(|route| plan.has_way(at, route.egress));
        let by_distance = self.after_hop_step(plan, at, routes.to_vec()) == routes;
        match self.0 {
            Misreading::ScaledDifferences if ways == [true, true] && by_distance => {
                let scaled = self.margin(plan, at, first.egress, second.egress).map(|margin| margin / 10);
                (scaled, first.egress) < (Some(0), second.egress)
            }
            Misreading::LowerNumberWinsWithoutAWay if ways == [false, false] => first.egress < second.egress,
            Misreading::NoneBeatsAWay if ways[0] != ways[1] => ways[1],
            Misreading::AWayDoesNotBeatNone if ways[0] != ways[1] => false,
            _ => beats(self, plan, at, first, second),
        }
    }

    fn best_client(&self, case: Case, reflector: Router) -> Option<Router> {
        let best = self.best_client_valued_at(case, reflector, reflector);
        match self.0 {
            Misreading::ClientWithoutAWayIsBest => best.or(case.neighbouring_listed_clients(reflector).next()),
            _ => best,
        }
    }

    fn offer(&self, case: Case, reflector: Router, relying: Router) -> Option<Candidate> {
        let client = match self.0 {
            Misreading::RelyingOneJudgesBestClient if !case.is_listed(reflector) => {
                self.best_client_valued_at(case, reflector, relying)
            }
            Misreading::ListedReflectorOffersClient => self.best_client(case, reflector),
            _ if case.is_listed(reflector) => return Some(Candidate::told(reflector)),
            _ => self.best_client(case, reflector),
        };
        client.map(Candidate::passed_on)
    }

    fn counts(&self, plan: &Plan, at: Router, offer: Candidate, own: Option<Router>) -> bool {
        let better = own.is_none_or(|own| {
            let [to_offer, to_own] = [offer.egress, own].map(|egress| plan.distances[at][egress]);
            let is_better = self.is_better(plan, at, offer, Candidate::told(own));
            match self.0 {
                Misreading::TieIsNoReliance => is_better && to_offer < to_own,
                Misreading::SharedClientOutdoesItself => offer.egress == own || is_better,
                _ => is_better,
            }
        });
        better && (self.is(Misreading::OfferWithoutAWayCounts) || self.has_way(plan, at, offer.egress))
    }

    fn relied_on_by_client(&self, case: Case, router: Router) -> BTreeSet<Router> {
        let mut relied_on = Right.relied_on_by_client(case, router);
        let has_way = |other: Router| case.plan.has_way(router, other);
        relied_on.retain(|&other| match (self.0, case.plan.is_reflector(other)) {
            (Misreading::ClientReliesOnReflectorsAlone, false) => false,
            (Misreading::ClientAsksForAWayToReflectors, true) => has_way(other),
            (Misreading::ClientAsksForAWayToClients, false) => has_way(other),
            _ => true,
        });
        relied_on
    }

    fn advertised(&self, case: Case, table: &Table, from: Router, to: Router) -> Option<Router> {
        let plan = case.plan;
        let held = table.get(&from).filter(|held| held.sender != from);
        let unlisted_reflector = plan.is_reflector(from) && !case.is_listed(from);
        let silent_client = !plan.is_reflector(from) && !case.is_listed(from);
        let relays = self.is(Misreading::ReflectorRelaysFromReflector) && unlisted_reflector;
        let back = self.is(Misreading::RouteSentBackToItsClient) && unlisted_reflector;
        match held {
            Some(held) if relays && plan.is_reflector(held.sender) => Some(held.egress),
            Some(held) if back && held.sender == to => Some(held.egress),
            Some(held) if self.is(Misreading::UnlistedClientAdvertises) && silent_client => Some(held.egress),
            Some(held) if self.is(Misreading::SenderAsksForAWay) && !plan.has_way(from, held.egress) => None,
            _ => Right.advertised(case, table, from, to),
        }
    }

    fn hears(&self, plan: &Plan, at: Router, route: Route) -> bool {
        let has_way = self.has_way(plan, at, route.egress);
        match self.0 {
            Misreading::WayToTheSenderAsked => has_way && plan.has_way(at, route.sender),
            Misreading::WayOfTheSenderCounts => plan.has_way(route.sender, route.egress),
            Misreading::WayBackAsked => has_way && plan.has_way(route.egress, at),
            _ => has_way,
        }
    }

    /// Of routes without a way, where they are heard, that of the lowest egress router.
    fn choice(&self, case: Case, at: Router, heard: &[Route]) -> Option<Router> {
        let best = self.best(case.plan, at, heard.iter().map(|&route| route.into()).collect());
        best.or(heard.iter().map(|route| route.egress).min())
    }

    fn sender(&self, egress: Router, senders: &BTreeSet<Router>) -> Option<Router> {
        match self.0 {
            Misreading::LowestSenderBeforeEgress => senders.first().copied(),
            Misreading::HighestSender => senders.get(&egress).or(senders.last()).copied(),
            _ => Right.sender(egress, senders),
        }
    }
}
