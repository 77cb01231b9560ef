//! Checkers that explain reliances wrongly, while their other calls are right, to
//! see that the comparison finds it.

use super::hop_misreadings::{HopMisreading, MisreadHop};
use super::misreadings::{Misread, Misreading};
use crate::harness::comparison::plan_calls::FEW;
use crate::interface::{Explained, Reason, Rule};
use crate::oracle::plan::Router;
use crate::oracle::rules::{Candidate, Case, Right, Rules};

/// A misreading of what an explanation is.
#[derive(Clone, Copy, Debug, PartialEq, Eq)]
pub enum ExplainMisreading {
    /// The first reason is said where both apply, and the second goes before it.
    Before(Reason, Reason),
    /// Reliances are explained by misread rules, and answered by the right ones.
    By(Misreading),
    ByHopStep(HopMisreading),
    PeerClientSaidOfAParent,
    ParentSaidOfAPeerClient,
    BestClientAndBetterOfferExchanged,
    OwnInTheOffersPlace,
    OfferInTheOwnPlace,
    OfferingReflectorInTheOffersPlace,
    MarginOwnMinusOffer,
    MarginAtTheOfferingReflector,
    OwnLeftOut,
    OwnOfATieLeftOut,
    NoOfferSaidOfNoWay,
    NoWaySaidOfNoOffer,
    NoWaySaidOfAClient,
    NotBetterSaidOfNoWay,
    NotBetterSaidWithNoOwn,
    YesSaidOfNoOffer,
    /// Where the hop step puts a nearer offer behind the own best client.
    NoOfferSaidOfTheStep,
    NoWaySaidOfTheStep,
    /// On plans with more routers than are few.
    YesWithManyRouters,
    MarginTurnedWithManyRouters,
}

use ExplainMisreading::{Before, By, ByHopStep};

/// Every two reasons that can apply at once are there in the wrong order.
pub const EXPLAIN_MISREADINGS: [ExplainMisreading; 67] = [
    Before(Reason::NotNeighbours, Reason::SameRouter),
    Before(Reason::FirstListed, Reason::SameRouter),
    Before(Reason::UnlistedClient, Reason::SameRouter),
    Before(Reason::BothClients, Reason::SameRouter),
    Before(Reason::NoOffer, Reason::SameRouter),
    Before(Reason::NotBetter, Reason::SameRouter),
    Before(Reason::FirstListed, Reason::NotNeighbours),
    Before(Reason::UnlistedClient, Reason::NotNeighbours),
    Before(Reason::BothClients, Reason::NotNeighbours),
    Before(Reason::NotTheBestClient, Reason::NotNeighbours),
    Before(Reason::NoOffer, Reason::NotNeighbours),
    Before(Reason::NoWay, Reason::NotNeighbours),
    Before(Reason::NotBetter, Reason::NotNeighbours),
    Before(Reason::UnlistedClient, Reason::FirstListed),
    Before(Reason::BothClients, Reason::FirstListed),
    Before(Reason::NotTheBestClient, Reason::FirstListed),
    Before(Reason::NoOffer, Reason::FirstListed),
    Before(Reason::NoWay, Reason::FirstListed),
    Before(Reason::NotBetter, Reason::FirstListed),
    Before(Reason::BothClients, Reason::UnlistedClient),
    Before(Reason::NotTheBestClient, Reason::UnlistedClient),
    Before(Reason::NotBetter, Reason::NoWay),
    By(Misreading::ScaledDistances),
    By(Misreading::HigherNumberWinsTie),
    By(Misreading::TieIsNoReliance),
    By(Misreading::RelyingOneJudgesBestClient),
    By(Misreading::SharedClientOutdoesItself),
    By(Misreading::ListedReflectorOffersClient),
    By(Misreading::ClientReliesOnReflectorsAlone),
    By(Misreading::NoWayIsALongWay),
    By(Misreading::FarthestIsNoWay),
    By(Misreading::ClientWithoutAWayIsBest),
    By(Misreading::OfferWithoutAWayCounts),
    By(Misreading::ClientAsksForAWayToReflectors),
    By(Misreading::ClientAsksForAWayToClients),
    ByHopStep(HopMisreading::StepAtRole1),
    ByHopStep(HopMisreading::StepAtRole3),
    ByHopStep(HopMisreading::NoStepAtRole4),
    ByHopStep(HopMisreading::NoStepAtRole5),
    ByHopStep(HopMisreading::StepAfterTheDistance),
    ByHopStep(HopMisreading::PassedOnBeatsDirect),
    ByHopStep(HopMisreading::UnlistedOfferAsDirect),
    ByHopStep(HopMisreading::ListedOfferAsPassedOn),
    ByHopStep(HopMisreading::PassedOnOfferNeverCounts),
    ByHopStep(HopMisreading::OwnClientAsPassedOn),
    ByHopStep(HopMisreading::SharedClientAsPassedOn),
    ByHopStep(HopMisreading::StepOfTheOneThatOffers),
    ExplainMisreading::PeerClientSaidOfAParent,
    ExplainMisreading::ParentSaidOfAPeerClient,
    ExplainMisreading::BestClientAndBetterOfferExchanged,
    ExplainMisreading::OwnInTheOffersPlace,
    ExplainMisreading::OfferInTheOwnPlace,
    ExplainMisreading::OfferingReflectorInTheOffersPlace,
    ExplainMisreading::MarginOwnMinusOffer,
    ExplainMisreading::MarginAtTheOfferingReflector,
    ExplainMisreading::OwnLeftOut,
    ExplainMisreading::OwnOfATieLeftOut,
    ExplainMisreading::NoOfferSaidOfNoWay,
    ExplainMisreading::NoWaySaidOfNoOffer,
    ExplainMisreading::NoWaySaidOfAClient,
    ExplainMisreading::NotBetterSaidOfNoWay,
    ExplainMisreading::NotBetterSaidWithNoOwn,
    ExplainMisreading::YesSaidOfNoOffer,
    ExplainMisreading::NoOfferSaidOfTheStep,
    ExplainMisreading::NoWaySaidOfTheStep,
    ExplainMisreading::YesWithManyRouters,
    ExplainMisreading::MarginTurnedWithManyRouters,
];

pub struct MisreadExplanation(pub ExplainMisreading);

impl Rules for MisreadExplanation {
    fn explanation(&self, case: Case, router: Router, other: Router) -> Explained {
        match self.0 {
            By(misreading) => return Misread(misreading).explanation(case, router, other),
            ByHopStep(misreading) => return MisreadHop(misreading).explanation(case, router, other),
            _ => (),
        }
        match Right.explanation(case, router, other) {
            Explained::Yes(Rule::BetterOffer { offer, own }) => self.of_offer(case, other, offer, own),
            Explained::Yes(rule) => Explained::Yes(self.of_client(rule, other)),
            Explained::No(reason) => self.of_none(case, router, other, reason),
        }
    }
}

impl MisreadExplanation {
    /// What is said where a client relies on another router, or any on a client.
    fn of_client(&self, rule: Rule, other: Router) -> Rule {
        match (self.0, rule) {
            (ExplainMisreading::PeerClientSaidOfAParent, Rule::Parent) => Rule::PeerClient,
            (ExplainMisreading::ParentSaidOfAPeerClient, Rule::PeerClient) => Rule::Parent,
            (ExplainMisreading::BestClientAndBetterOfferExchanged, Rule::OwnBestClient) => {
                Rule::BetterOffer { offer: other, own: None }
            }
            _ => rule,
        }
    }

    /// What is said of a better offer, beside an own best client or none.
    fn of_offer(&self, case: Case, other: Router, offer: Router, own: Option<(Router, i64)>) -> Explained {
        let many = case.plan.n > FEW;
        let at_the_other = |own: Router| Some((own, Right.margin(case.plan, other, offer, own)?));
        let (offer, own) = match (self.0, own) {
            (ExplainMisreading::BestClientAndBetterOfferExchanged, _) => return Explained::Yes(Rule::OwnBestClient),
            (ExplainMisreading::NotBetterSaidWithNoOwn, None) => return Explained::No(Reason::NotBetter),
            (ExplainMisreading::OfferingReflectorInTheOffersPlace, own) => (other, own),
            (ExplainMisreading::OwnInTheOffersPlace, Some((own, margin))) => (own, Some((own, margin))),
            (ExplainMisreading::OfferInTheOwnPlace, Some((_, margin))) => (offer, Some((offer, margin))),
            (ExplainMisreading::MarginOwnMinusOffer, Some((own, margin))) => (offer, Some((own, -margin))),
            (ExplainMisreading::MarginTurnedWithManyRouters, Some((own, margin))) if many => {
                (offer, Some((own, -margin)))
            }
            (ExplainMisreading::MarginAtTheOfferingReflector, Some((own, _))) => (offer, at_the_other(own)),
            (ExplainMisreading::OwnLeftOut, _) => (offer, None),
            (ExplainMisreading::OwnOfATieLeftOut, Some((_, 0))) => (offer, None),
            (_, own) => (offer, own),
        };
        Explained::Yes(Rule::BetterOffer { offer, own })
    }

    /// What is said where there is no reliance.
    fn of_none(&self, case: Case, router: Router, other: Router, reason: Reason) -> Explained {
        let applies = |reason: Reason| Right.applies(reason, case, router, other);
        let by_step = || is_put_behind_by_the_step(case, router, other);
        Explained::No(match (self.0, reason) {
            (Before(later, first), _) if first == reason && applies(later) => later,
            (ExplainMisreading::NoOfferSaidOfNoWay, Reason::NoWay) => Reason::NoOffer,
            (ExplainMisreading::NoWaySaidOfNoOffer, Reason::NoOffer) => Reason::NoWay,
            (ExplainMisreading::NoWaySaidOfAClient, Reason::NotTheBestClient)
                if !case.plan.has_way(router, other) =>
            {
                Reason::NoWay
            }
            (ExplainMisreading::NotBetterSaidOfNoWay, Reason::NoWay) => Reason::NotBetter,
            (ExplainMisreading::YesSaidOfNoOffer, Reason::NoOffer) => {
                return Explained::Yes(Rule::BetterOffer { offer: other, own: None });
            }
            (ExplainMisreading::NoOfferSaidOfTheStep, Reason::NotBetter) if by_step() => Reason::NoOffer,
            (ExplainMisreading::NoWaySaidOfTheStep, Reason::NotBetter) if by_step() => Reason::NoWay,
            (ExplainMisreading::YesWithManyRouters, Reason::NotTheBestClient) if case.plan.n > FEW => {
                return Explained::Yes(Rule::OwnBestClient);
            }
            _ => reason,
        })
    }
}

/// Whether an offer that is not better would be, had its egress router told it.
fn is_put_behind_by_the_step(case: Case, router: Router, other: Router) -> bool {
    let offer = Right.offer(case, other, router).map(|offer| Candidate::told(offer.egress));
    offer.is_some_and(|offer| Right.counts(case.plan, router, offer, Right.best_client(case, router)))
}
