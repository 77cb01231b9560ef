//! The slips of checkers in the call for every list: which pairs they have, which lead to which,
//! which list they give, when they refuse, and what they write.

use crate::interface::{Checker, EveryListFields};
use crate::oracle::every_list::{is_suspect, EveryList, Pair};
use crate::oracle::plan::{self, Listed, Plan, Router};
use crate::oracle::rules::{Candidate, Right, Rules};
use crate::oracle::Oracle;
use std::collections::BTreeSet;

#[derive(Clone, Copy, Debug, PartialEq, Eq)]
pub enum EveryListSlip {
    OwnListsAlone,
    GuidelineAlone,
    PairsWithTheStep,
    OwnClientsForeign,
    PairsWithoutAWay,
    /// A client without a way is taken for the nearest.
    StepsWithoutAWay,
    OnlyTheNearestOwnClient,
    TiesForEither,
    TiesForNeither,
    TakenAwayOnce,
    ListOfFirstStepsToo,
    EveryClientLeft,
    EveryClient,
    FarthestForeign,
    HighestReflector,
    FromTheHighest,
    ReflectorsOfTheCycle,
    ListNotConfirmed,
    UndecidedAsYes,
    UndecidedAsNoWithNobody,
    YesAndNoExchanged,
    ListFalling,
    CountOneLower,
    CountOfOneByte,
    CountLeftWhereThereIsNone,
    ListWrittenWhereUndecided,
    RestCleared,
    AnswerWrittenAsAWord,
    ByteAfterTheCount,
    RoomForTheListAlone,
    RoomForOneMore,
    ClearedOnRefusal,
}

pub const EVERY_LIST_SLIPS: [EveryListSlip; 32] = [
    EveryListSlip::OwnListsAlone,
    EveryListSlip::GuidelineAlone,
    EveryListSlip::PairsWithTheStep,
    EveryListSlip::OwnClientsForeign,
    EveryListSlip::PairsWithoutAWay,
    EveryListSlip::StepsWithoutAWay,
    EveryListSlip::OnlyTheNearestOwnClient,
    EveryListSlip::TiesForEither,
    EveryListSlip::TiesForNeither,
    EveryListSlip::TakenAwayOnce,
    EveryListSlip::ListOfFirstStepsToo,
    EveryListSlip::EveryClientLeft,
    EveryListSlip::EveryClient,
    EveryListSlip::FarthestForeign,
    EveryListSlip::HighestReflector,
    EveryListSlip::FromTheHighest,
    EveryListSlip::ReflectorsOfTheCycle,
    EveryListSlip::ListNotConfirmed,
    EveryListSlip::UndecidedAsYes,
    EveryListSlip::UndecidedAsNoWithNobody,
    EveryListSlip::YesAndNoExchanged,
    EveryListSlip::ListFalling,
    EveryListSlip::CountOneLower,
    EveryListSlip::CountOfOneByte,
    EveryListSlip::CountLeftWhereThereIsNone,
    EveryListSlip::ListWrittenWhereUndecided,
    EveryListSlip::RestCleared,
    EveryListSlip::AnswerWrittenAsAWord,
    EveryListSlip::ByteAfterTheCount,
    EveryListSlip::RoomForTheListAlone,
    EveryListSlip::RoomForOneMore,
    EveryListSlip::ClearedOnRefusal,
];

/// The slips that show by what is stated of every list beside verdicts.
pub const STATED_EVERY_LIST_SLIPS: [EveryListSlip; 9] = [
    EveryListSlip::OwnListsAlone,
    EveryListSlip::GuidelineAlone,
    EveryListSlip::PairsWithTheStep,
    EveryListSlip::ReflectorsOfTheCycle,
    EveryListSlip::ListNotConfirmed,
    EveryListSlip::UndecidedAsNoWithNobody,
    EveryListSlip::YesAndNoExchanged,
    EveryListSlip::ListFalling,
    EveryListSlip::CountOneLower,
];

/// The pairs of a checker with this slip, and what it says of them.
struct Reader<'a> {
    slip: EveryListSlip,
    plan: &'a Plan,
}

impl Reader<'_> {
    fn is(&self, slip: EveryListSlip) -> bool {
        self.slip == slip
    }

    fn pairs(&self) -> BTreeSet<Pair> {
        let plan = self.plan;
        let all = plan.reflectors.iter().flat_map(|&router| {
            let clients = plan.neighbours[router].difference(&plan.reflectors);
            clients.map(move |&client| (router, client))
        });
        let stays = |&(router, client): &Pair| {
            (self.is(EveryListSlip::PairsWithTheStep) || !plan.steps(router))
                && (self.is(EveryListSlip::PairsWithoutAWay) || plan.has_way(router, client))
        };
        let pairs: BTreeSet<Pair> = all.filter(stays).collect();
        if !self.is(EveryListSlip::OnlyTheNearestOwnClient) {
            return pairs;
        }
        let is_nearest = |&(router, client): &Pair| {
            let own = pairs.iter().filter(|(other, _)| *other == router);
            own.min_by_key(|(_, own)| plan.place(router, *own)) == Some(&(router, client))
        };
        pairs.iter().copied().filter(is_nearest).collect()
    }

    /// How near a client is; one without a way is the farthest.
    fn place(&self, at: Router, client: Router) -> usize {
        self.plan.place(at, client).unwrap_or(usize::MAX)
    }

    fn is_nearer(&self, at: Router, client: Router, own: Router) -> bool {
        let distances = &self.plan.distances[at];
        let is_tie = distances[client].is_some() && distances[client] == distances[own];
        match self.slip {
            EveryListSlip::TiesForEither if is_tie => true,
            EveryListSlip::TiesForNeither if is_tie => false,
            EveryListSlip::StepsWithoutAWay if distances[client].is_none() => true,
            _ => self.place(at, client) < self.place(at, own),
        }
    }

    fn is_foreign(&self, router: Router, (other, client): Pair) -> bool {
        let neighbours = &self.plan.neighbours[router];
        let has_way = self.plan.has_way(router, client) || self.is(EveryListSlip::StepsWithoutAWay);
        let is_other = self.is(EveryListSlip::OwnClientsForeign) || !neighbours.contains(&client);
        neighbours.contains(&other) && is_other && has_way
    }

    /// What is left of pairs when those that lead to none left are taken away, again and again.
    fn left(&self) -> BTreeSet<Pair> {
        let mut left = self.pairs();
        loop {
            let leads_on = |&(router, own): &Pair| {
                left.iter().any(|&to| self.is_foreign(router, to) && self.is_nearer(router, to.1, own))
            };
            let kept: BTreeSet<Pair> = left.iter().copied().filter(leads_on).collect();
            if kept == left || self.is(EveryListSlip::TakenAwayOnce) {
                return kept;
            }
            left = kept;
        }
    }

    fn step(&self, left: &BTreeSet<Pair>, router: Router) -> Option<Pair> {
        let foreign = left.iter().copied().filter(|&to| self.is_foreign(router, to));
        let client = match self.slip {
            EveryListSlip::FarthestForeign => foreign.clone().max_by_key(|&(_, client)| self.place(router, client)),
            _ => foreign.clone().min_by_key(|&(_, client)| self.place(router, client)),
        }?;
        let mut with_it = foreign.filter(|&(_, other)| other == client.1);
        match self.slip {
            EveryListSlip::HighestReflector => with_it.next_back(),
            _ => with_it.next(),
        }
    }

    fn found(&self, left: &BTreeSet<Pair>) -> Listed {
        let mut at = match self.slip {
            EveryListSlip::FromTheHighest => left.last(),
            _ => left.first(),
        }
        .map(|&(router, _)| router);
        let mut walk: Vec<Pair> = Vec::new();
        while let Some(router) = at {
            if let Some(first) = walk.iter().position(|&(from, _)| from == router) {
                let from = if self.is(EveryListSlip::ListOfFirstStepsToo) { 0 } else { first };
                return walk[from..].iter().map(|&step| self.named(step)).collect();
            }
            let step = self.step(left, router);
            walk.extend(step.map(|(_, client)| (router, client)));
            at = step.map(|(other, _)| other);
        }
        Listed::new()
    }

    /// What a step adds to the list.
    fn named(&self, (router, client): Pair) -> Router {
        if self.is(EveryListSlip::ReflectorsOfTheCycle) {
            router
        } else {
            client
        }
    }

    fn answer(&self) -> EveryList {
        let left = self.left();
        if left.is_empty() {
            return EveryList::Yes;
        }
        let list = match self.slip {
            EveryListSlip::EveryClientLeft => left.iter().map(|&(_, client)| client).collect(),
            EveryListSlip::EveryClient => (0..self.plan.n).filter(|&e| !self.plan.is_reflector(e)).collect(),
            _ => self.found(&left),
        };
        let unconfirmed = [EveryListSlip::ListNotConfirmed, EveryListSlip::ReflectorsOfTheCycle];
        if unconfirmed.contains(&self.slip) || is_suspect(&Right, self.plan, &list) {
            return EveryList::No(list);
        }
        match self.slip {
            EveryListSlip::UndecidedAsYes => EveryList::Yes,
            EveryListSlip::UndecidedAsNoWithNobody => EveryList::No(Listed::new()),
            _ => EveryList::Undecided,
        }
    }
}

/// The answer of a checker with this slip.
fn answer(slip: EveryListSlip, plan: &Plan) -> EveryList {
    let reader = Reader { slip, plan };
    match slip {
        EveryListSlip::OwnListsAlone => {
            let suspect = plan.lists.iter().find(|list| is_suspect(&Right, plan, &list.listed));
            suspect.map_or(EveryList::Yes, |list| EveryList::No(list.listed.clone()))
        }
        EveryListSlip::GuidelineAlone => {
            let prefers = |&(router, own): &Pair| {
                let mut all = reader.pairs().into_iter();
                all.any(|to| {
                    let offer = Candidate::passed_on(to.1);
                    reader.is_foreign(router, to) && Right.counts(plan, router, offer, Some(own))
                })
            };
            match reader.answer() {
                EveryList::Yes if reader.pairs().iter().any(prefers) => EveryList::Undecided,
                other => other,
            }
        }
        EveryListSlip::YesAndNoExchanged => match reader.answer() {
            EveryList::Yes => EveryList::No(Listed::new()),
            EveryList::No(_) => EveryList::Yes,
            EveryList::Undecided => EveryList::Undecided,
        },
        _ => reader.answer(),
    }
}

/// The call with one slip.
pub fn every_list(
    slip: EveryListSlip,
    inner: &mut Oracle<Right>,
    bytes: &[u8],
    out: &mut [u8],
    fields: &mut EveryListFields,
) -> u8 {
    let Ok(plan) = plan::read(bytes) else {
        if slip == EveryListSlip::ClearedOnRefusal {
            fields.put(0, 0);
        }
        return inner.check(bytes);
    };
    let (before, answer) = (*fields, answer(slip, &plan));
    let given = match &answer {
        EveryList::No(list) => list.len(),
        _ => 0,
    };
    let need = match slip {
        EveryListSlip::RoomForTheListAlone => given,
        EveryListSlip::RoomForOneMore => plan.n + 1,
        _ => plan.n,
    };
    if out.len() < need {
        if slip == EveryListSlip::ClearedOnRefusal {
            fields.put(0, 0);
        }
        return 9;
    }
    let (number, list) = match answer {
        EveryList::No(list) => (0, Vec::from_iter(list)),
        EveryList::Yes => (1, Vec::new()),
        EveryList::Undecided => (2, Vec::new()),
    };
    write(slip, &plan, number, &list, out);
    let count = list.len() as u64;
    fields.put(
        number,
        match slip {
            EveryListSlip::CountOneLower => count.saturating_sub(1),
            EveryListSlip::CountOfOneByte => before.count.value >> 8 << 8 | count,
            EveryListSlip::CountLeftWhereThereIsNone if number != 0 => before.count.value,
            _ => count,
        },
    );
    match slip {
        EveryListSlip::AnswerWrittenAsAWord => fields.answer.after[..3].fill(0),
        EveryListSlip::ByteAfterTheCount => fields.count.after[0] = 0,
        _ => (),
    }
    0
}

fn write(slip: EveryListSlip, plan: &Plan, number: u8, list: &[Router], out: &mut [u8]) {
    let mut bytes: Vec<u8> = list.iter().map(|&router| router as u8).collect();
    match slip {
        EveryListSlip::ListFalling => bytes.reverse(),
        EveryListSlip::ListWrittenWhereUndecided if number == 2 => {
            let reader = Reader { slip, plan };
            bytes = reader.found(&reader.left()).into_iter().map(|router| router as u8).collect();
        }
        EveryListSlip::RestCleared => bytes.resize(plan.n, 0),
        _ => (),
    }
    out[..bytes.len()].copy_from_slice(&bytes);
}
