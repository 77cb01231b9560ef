//! What the comparisons of a plan alone say: which of two routes each router prefers, told
//! by their egress routers or passed on. All other answers follow from it, the roles, the
//! sessions and the list.

use super::arguments;
use super::compare::{hex, Comparison, Mismatch};
use crate::harness::random::Random;
use crate::interface::{Compared, Handed};
use crate::oracle::plan::{Plan, Router};
use crate::oracle::rules::{Candidate, Rules, Value};
use std::cmp::Ordering;
use std::collections::BTreeMap;

/// A router, and of each of two routes the egress router and whether it told the route.
type Asked = (Router, [(Router, bool); 2]);

/// The answers of the comparison call.
pub struct Preferences {
    answers: BTreeMap<Asked, Compared>,
}

impl Preferences {
    /// Makes every comparison of a plan, for number n too, which is refused.
    pub fn ask(
        comparison: &mut Comparison,
        random: &mut Random,
        bytes: &[u8],
        plan: &Plan,
    ) -> Result<Self, Box<Mismatch>> {
        let mut answers = BTreeMap::new();
        for asked in every_comparison(plan.n) {
            let (router, routes) = asked;
            let routes = routes.map(|(egress, direct)| {
                let yes = arguments::yes(random);
                Handed { egress, direct: if direct { yes } else { 0 } }
            });
            let answer = comparison.compare_routes(bytes, plan, router, routes)?;
            if answer.refusal == 0 {
                answers.insert(asked, answer.compared());
            }
        }
        let preferences = Preferences { answers };
        match preferences.answers.iter().find(|(asked, answer)| !preferences.fits(plan, asked, answer)) {
            None => Ok(preferences),
            Some(unfit) => Err(Box::new(Mismatch(format!("plan {}\ncompared {unfit:?}", hex(bytes))))),
        }
    }

    /// A router has a way to itself, so a margin beside it tells of a way.
    fn tells_of_way(&self, at: Router, egress: Router) -> bool {
        self.answers[&(at, [(at, true), (egress, true)])].1.is_some()
    }

    /// A way beats none; with ways to both, the step decides at a reflector that has it, if
    /// one route is told and the other passed on; else the sign of the margin; zero leaves
    /// it to the numbers. Neither of two routes of one egress router is better, and neither
    /// of two without a way. There is a margin exactly with ways to both.
    fn fits(&self, plan: &Plan, asked: &Asked, answer: &Compared) -> bool {
        let (at, [(first, told), (second, other_told)]) = *asked;
        let (better, margin) = *answer;
        let ways = [first, second].map(|egress| self.tells_of_way(at, egress));
        let by_step = if plan.steps(at) { other_told.cmp(&told) } else { Ordering::Equal };
        let by_distance = margin.unwrap_or(0).cmp(&0).then(first.cmp(&second));
        let order = match ways {
            [true, true] if first == second => Ordering::Equal,
            [true, true] => by_step.then(by_distance),
            [to_first, to_second] => to_second.cmp(&to_first),
        };
        let due = match order {
            Ordering::Less => 1,
            Ordering::Equal => 0,
            Ordering::Greater => 2,
        };
        better == due && margin.is_some() == (ways == [true, true])
    }
}

/// Every comparison of routes to egress routers up to n at routers up to n, told or passed
/// on where all are below n.
fn every_comparison(n: usize) -> impl Iterator<Item = Asked> {
    let flags = [[true, true], [true, false], [false, true], [false, false]];
    let pairs = move || (0..=n).flat_map(move |first| (0..=n).map(move |second| [first, second]));
    (0..=n).flat_map(move |router| {
        pairs().flat_map(move |[first, second]| {
            let is_refused = [router, first, second].contains(&n);
            let kinds = if is_refused { 1 } else { flags.len() };
            flags.into_iter().take(kinds).map(move |[told, other]| (router, [(first, told), (second, other)]))
        })
    })
}

impl Rules for Preferences {
    fn value(&self, _: &Plan, _: Router, _: Router) -> Option<Value> {
        unreachable!("comparisons tell which route is better and no distance")
    }

    fn has_way(&self, _: &Plan, at: Router, egress: Router) -> bool {
        self.tells_of_way(at, egress)
    }

    /// The route with a way that no other is better than.
    fn best(&self, plan: &Plan, at: Router, candidates: Vec<Candidate>) -> Option<Router> {
        let with_way = candidates.iter().filter(|route| self.tells_of_way(at, route.egress));
        let is_outdone = |route: Candidate| candidates.iter().any(|&other| self.is_better(plan, at, other, route));
        with_way.copied().find(|&route| !is_outdone(route)).map(|route| route.egress)
    }

    /// At a reflector that is given the step, a route told beats one passed on if there are ways
    /// to both.
    fn is_better(&self, plan: &Plan, at: Router, first: Candidate, second: Candidate) -> bool {
        let has_ways = || [first, second].iter().all(|route| self.tells_of_way(at, route.egress));
        if plan.steps(at) && first.direct != second.direct && first.egress != second.egress && has_ways() {
            return first.direct;
        }
        let asked = [first, second].map(|route| (route.egress, route.direct));
        self.answers[&(at, asked)].0 == 1
    }

    fn margin(&self, _: &Plan, at: Router, first: Router, second: Router) -> Option<i64> {
        self.answers[&(at, [(first, true), (second, true)])].1
    }
}
