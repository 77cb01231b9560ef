//! Plans before they become bytes.

use crate::oracle::mark::Mark;
use crate::oracle::plan::{Router, FIRST_BODY};
use std::collections::BTreeSet;
use std::iter;

/// No way, in a draft of either mark.
pub const NO_WAY: u32 = u32::MAX;

/// What a plan says.
#[derive(Clone)]
pub struct Draft {
    pub mark: Mark,
    /// The role of each router.
    pub roles: Vec<u8>,
    pub identifiers: Vec<u32>,
    pub sessions: BTreeSet<(Router, Router)>,
    pub distances: Vec<Vec<u32>>,
    pub lists: Vec<BTreeSet<Router>>,
}

/// The mark, the number of routers and the four bodies of a plan.
pub struct Bodies {
    pub mark: Mark,
    pub n: u8,
    pub routers: Vec<u8>,
    pub sessions: Vec<u8>,
    pub distances: Vec<u8>,
    pub lists: Vec<u8>,
}

impl Draft {
    /// The same plan with another mark. Distances too great for the mark lose their
    /// high bytes.
    pub fn marked(self, mark: Mark) -> Self {
        Draft { mark, ..self }
    }

    pub fn bodies(&self) -> Bodies {
        let routers = self.roles.iter().zip(&self.identifiers);
        let numbers = |list: &BTreeSet<Router>| list.iter().map(|&router| router as u8).collect::<Vec<u8>>();
        let lists = self.lists.iter().flat_map(|list| [vec![list.len() as u8], numbers(list)].concat());
        let distances = self.distances.iter().flatten();
        Bodies {
            mark: self.mark,
            n: self.roles.len() as u8,
            routers: routers.flat_map(|(&role, id)| [vec![role], id.to_le_bytes().to_vec()].concat()).collect(),
            sessions: self.sessions.iter().flat_map(|&(one, other)| [one as u8, other as u8]).collect(),
            distances: distances.flat_map(|&distance| distance_bytes(distance, self.mark)).collect(),
            lists: [self.lists.len() as u8].into_iter().chain(lists).collect(),
        }
    }

    pub fn bytes(&self) -> Vec<u8> {
        self.bodies().bytes()
    }
}

/// The bytes of a distance in a plan of this mark.
pub fn distance_bytes(distance: u32, mark: Mark) -> impl Iterator<Item = u8> {
    let number = if distance == NO_WAY { mark.no_way() } else { distance };
    number.to_le_bytes().into_iter().take(mark.width())
}

impl Bodies {
    /// The bodies of a plan by its table of contents, which fits them.
    pub fn of(plan: &[u8]) -> Self {
        let number = |at: usize| usize::from(u16::from_le_bytes([plan[at], plan[at + 1]]));
        let [routers, sessions, distances, lists] =
            [7, 12, 17, 22].map(|entry| plan[number(entry)..][..number(entry + 2)].to_vec());
        let mark = Mark::of(plan).expect("the plan has a mark");
        Bodies { mark, n: plan[4], routers, sessions, distances, lists }
    }

    /// Where the counts of the lists are in their body, as far as it goes.
    pub fn counts(&self) -> Vec<usize> {
        let next = |&at: &usize| Some(at + 1 + usize::from(*self.lists.get(at)?));
        let most = usize::from(self.lists.first().copied().unwrap_or(0));
        iter::successors(Some(1), next).take(most).take_while(|&at| at < self.lists.len()).collect()
    }

    /// The distances as a draft has them.
    pub fn read_distances(&self) -> Vec<u32> {
        let number = |bytes: &[u8]| bytes.iter().rev().fold(0, |number, &byte| number << 8 | u32::from(byte));
        let numbers = self.distances.chunks_exact(self.mark.width()).map(number);
        numbers.map(|number| if number == self.mark.no_way() { NO_WAY } else { number }).collect()
    }

    /// Puts distances in, with the width of a mark.
    pub fn write_distances(&mut self, distances: impl IntoIterator<Item = u32>, mark: Mark) {
        self.distances = distances.into_iter().flat_map(|distance| distance_bytes(distance, mark)).collect();
    }

    /// The plan with a table of contents that fits these bodies.
    pub fn bytes(&self) -> Vec<u8> {
        let bodies = [&self.routers, &self.sessions, &self.distances, &self.lists];
        let mut plan = [self.mark.letters().as_slice(), &[self.n, 4]].concat();
        let mut offset = FIRST_BODY;
        for (kind, body) in (1u8..).zip(bodies) {
            plan.push(kind);
            plan.extend((offset as u16).to_le_bytes());
            plan.extend((body.len() as u16).to_le_bytes());
            offset += body.len();
        }
        bodies.into_iter().for_each(|body| plan.extend(body));
        plan
    }
}
