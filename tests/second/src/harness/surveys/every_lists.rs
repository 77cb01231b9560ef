//! Whether random plans are stable for every list, each held against a checker, and against the
//! verdicts of all lists of its clients.

use super::meshes::Mesh;
use crate::harness::random::Random;
use crate::interface::{Checker, EveryListFields};
use crate::oracle::every_list::{self, is_suspect, EveryList};
use crate::oracle::plan::{self, Listed, Plan, Router};
use crate::oracle::rules::Right;
use std::fmt;

/// All lists of so many clients are judged.
const MOST_CLIENTS: usize = 8;

/// So many lists of any routers are drawn for each plan that is stable for every list.
const DRAWN_LISTS: usize = 16;

/// The kinds of plans: how many of a hundred clients have a second parent.
const KINDS: [(&str, usize); 3] = [("single parents", 0), ("some shared", 20), ("many shared", 50)];

/// What was found of the plans of one kind.
pub struct Survey {
    kind: &'static str,
    plans: u64,
    /// Plans by answer: no, yes, undecided; and those that no list of clients makes suspect.
    by_answer: [u64; 3],
    always_stable: [u64; 3],
    /// Lists judged.
    lists: u64,
    pub mismatches: u64,
}

/// Draws so many plans of each kind. A checker is asked too, if there is one.
pub fn every_lists(mut subject: Option<&mut dyn Checker>, seed: u64, plans: u64) -> Vec<Survey> {
    let survey = |(kind, shared): (&'static str, usize)| {
        let mut survey = Survey { kind, plans: 0, by_answer: [0; 3], always_stable: [0; 3], lists: 0, mismatches: 0 };
        let mut random = Random::new(seed);
        while survey.plans < plans {
            let reflectors = random.between(2, MOST_CLIENTS);
            let clients = random.between(reflectors.min(3), MOST_CLIENTS);
            let bytes = Mesh { reflectors, clients, shared }.draw(&mut random).bytes();
            let plan = plan::read(&bytes).expect("a sound plan");
            survey.count(&mut random, &bytes, &plan, &mut subject);
        }
        survey
    };
    KINDS.map(survey).into()
}

/// A list that makes the plan suspect, of all lists of its clients.
pub fn suspect_list(plan: &Plan) -> Option<Listed> {
    let clients: Vec<Router> = (0..plan.n).filter(|&router| !plan.is_reflector(router)).collect();
    let list = |set: u64| {
        let chosen = clients.iter().enumerate().filter(|(place, _)| set >> place & 1 == 1);
        chosen.map(|(_, &client)| client).collect::<Listed>()
    };
    (0..1 << clients.len()).map(list).find(|list| is_suspect(&Right, plan, list))
}

impl Survey {
    fn count(&mut self, random: &mut Random, bytes: &[u8], plan: &Plan, subject: &mut Option<&mut dyn Checker>) {
        let answer = every_list::every_list(&Right, plan);
        let suspect = suspect_list(plan);
        let (number, list) = match &answer {
            EveryList::No(list) => (0, list.iter().map(|&client| client as u8).collect()),
            EveryList::Yes => (1, Vec::new()),
            EveryList::Undecided => (2, Vec::new()),
        };
        self.plans += 1;
        self.by_answer[number] += 1;
        self.always_stable[number] += u64::from(suspect.is_none());
        let fits = match &answer {
            EveryList::No(list) => suspect.is_some() && is_suspect(&Right, plan, list),
            EveryList::Yes => suspect.is_none() && self.all_drawn_stable(random, plan),
            EveryList::Undecided => self.kind != KINDS[0].0,
        };
        self.mismatches += u64::from(!fits || !agrees(subject, bytes, number as u8, &list));
    }

    /// Whether lists of any routers are stable.
    fn all_drawn_stable(&mut self, random: &mut Random, plan: &Plan) -> bool {
        (0..DRAWN_LISTS).all(|_| {
            let share = random.pick(&[20, 50, 80]);
            let list: Listed = (0..plan.n).filter(|_| random.chance(share)).collect();
            self.lists += 1;
            !is_suspect(&Right, plan, &list)
        })
    }
}

/// Whether the checker, if there is one, answers the same.
fn agrees(subject: &mut Option<&mut dyn Checker>, bytes: &[u8], number: u8, list: &[u8]) -> bool {
    let Some(checker) = subject else { return true };
    let (mut out, mut fields) = ([0xA5; 64], EveryListFields::new(255, u64::MAX));
    let refusal = checker.every_list(bytes, &mut out, &mut fields);
    let is_same = (refusal, fields.answer.value, fields.count.value) == (0, number, list.len() as u64);
    is_same && out[..list.len()] == *list
}

impl fmt::Display for Survey {
    fn fmt(&self, out: &mut fmt::Formatter) -> fmt::Result {
        writeln!(out, "{}: {} plans", self.kind, self.plans)?;
        for (number, name) in ["no", "yes", "undecided"].into_iter().enumerate() {
            let (count, stable) = (self.by_answer[number], self.always_stable[number]);
            writeln!(out, "  {name:<9} {count:>6}, stable for all lists of clients {stable:>6}")?;
        }
        write!(out, "  lists of any routers judged {}, mismatches {}", self.lists, self.mismatches)
    }
}
