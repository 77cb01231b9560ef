//! The plans and the sheets of links that the bench times.

use crate::harness::plans::draft::{Draft, NO_WAY};
use crate::harness::plans::sheets::Sheet;
use crate::harness::plans::small_plans::preferring;
use crate::harness::plans::topology::{all_pairs, with_step};
use crate::harness::random::Random;
use crate::oracle::links::MOST_LINKS;
use crate::oracle::mark::Mark;
use crate::oracle::plan::{self, CLIENT, MOST_PARENTS, REFLECTOR, SKIPPING};
use crate::oracle::rules::{Case, Right};
use crate::oracle::steady::MOST_GROUPED;
use crate::oracle::{verdict, verdict_lines};
use std::collections::{BTreeMap, BTreeSet};

pub const SIZES: [usize; 5] = [4, 8, 16, 32, 64];

/// The first `reflectors` of n routers are reflectors on a ring, with a session
/// between two that are at most `reach` apart. Each client has sessions with
/// `parents` of them, or there are all sessions. Every fifth client is listed.
pub struct Shape {
    n: usize,
    reflectors: usize,
    reach: usize,
    parents: usize,
    all_sessions: bool,
    /// So many of a hundred pairs have no way.
    cut: usize,
    /// The reflectors that skip their own clients.
    skip: Share,
    /// The reflectors with the hop step.
    step: Share,
}

#[derive(Clone, Copy)]
enum Share {
    None,
    /// Every second one.
    Half,
    All,
}

impl Share {
    fn has(self, reflector: usize) -> bool {
        match self {
            Share::None => false,
            Share::Half => reflector % 2 == 1,
            Share::All => true,
        }
    }
}

impl Shape {
    /// A quarter reflectors, all in a mesh; clients with two parents.
    pub fn mesh(n: usize) -> Self {
        let reflectors = (n / 4).max(2);
        let (skip, step) = (Share::None, Share::None);
        Shape { n, reflectors, reach: n, parents: 2, all_sessions: false, cut: 0, skip, step }
    }

    /// A mesh; half reflectors in a mesh, and clients with four parents (for four
    /// routers this is the first again); and all sessions, with four reflectors at
    /// most, since every client neighbours them all.
    pub fn of_size(n: usize) -> Vec<Self> {
        let dense = Shape { reflectors: n / 2, parents: MOST_PARENTS, ..Shape::mesh(n) };
        let complete = Shape { reflectors: dense.reflectors.min(MOST_PARENTS), all_sessions: true, ..dense };
        if n == 4 {
            vec![Shape::mesh(n), complete]
        } else {
            vec![Shape::mesh(n), dense, complete]
        }
    }

    /// A quarter reflectors, each with six others as neighbours; clients with two
    /// parents. From 32 routers on, a router's neighbours are as many whatever n is.
    pub fn same_degree(n: usize) -> Self {
        Shape { reach: 3, ..Shape::mesh(n) }
    }

    /// A mesh in which a fifth of the pairs have no way.
    pub fn fifth_cut(n: usize) -> Self {
        Shape { cut: 20, ..Shape::mesh(n) }
    }

    /// A mesh in which every second reflector skips its own clients.
    pub fn half_skip(n: usize) -> Self {
        Shape { skip: Share::Half, ..Shape::mesh(n) }
    }

    /// A mesh in which every second reflector has the hop step.
    pub fn half_step(n: usize) -> Self {
        Shape { step: Share::Half, ..Shape::mesh(n) }
    }

    /// A mesh in which every reflector has the hop step.
    pub fn all_step(n: usize) -> Self {
        Shape { step: Share::All, ..Shape::mesh(n) }
    }

    pub fn name(&self) -> String {
        format!("n = {}, {} sessions", self.n, self.sessions().len())
    }

    fn sessions(&self) -> BTreeSet<(usize, usize)> {
        if self.all_sessions {
            return all_pairs(self.n).collect();
        }
        let count = self.reflectors;
        let among_reflectors = all_pairs(count).filter(|&(one, other)| {
            let apart = other - one;
            apart.min(count - apart) <= self.reach
        });
        let parents =
            |client: usize| (0..self.parents.min(count)).map(move |place| ((client + place) % count, client));
        among_reflectors.chain((count..self.n).flat_map(parents)).collect()
    }

    /// Distances are drawn at random, again and again until the list is suspect.
    /// There are shapes in which none is.
    pub fn draft_suspect(&self, random: &mut Random) -> Option<Draft> {
        self.draft_with(random, |draft| verdict_lines(&draft.bytes()).contains("suspect"))
    }

    /// .. and has no more routers in groups of two or more than the call for steady tables takes.
    pub fn draft_with_groups(&self, random: &mut Random) -> Option<Draft> {
        self.draft_with(random, |draft| {
            let plan = plan::read(&draft.bytes()).expect("a sound plan");
            let grouped = verdict::grouped(&Right, Case { plan: &plan, listed: &plan.lists[0].listed });
            (1..=MOST_GROUPED).contains(&grouped.len())
        })
    }

    fn draft_with(&self, random: &mut Random, fits: impl Fn(&Draft) -> bool) -> Option<Draft> {
        (0..50).map(|_| self.draft(random, false)).find(fits)
    }

    fn role(&self, router: usize) -> u8 {
        if router >= self.reflectors {
            return CLIENT;
        }
        let role = if self.skip.has(router) { SKIPPING } else { REFLECTOR };
        if self.step.has(router) {
            with_step(role)
        } else {
            role
        }
    }

    /// With `one_order` all routers prefer the egresses in one order, and every
    /// list is stable; without, distances are drawn at random.
    pub fn draft(&self, random: &mut Random, one_order: bool) -> Draft {
        let n = self.n;
        let mut distance = |from: usize, to: usize| match (from == to, one_order) {
            (true, _) => 0,
            _ if self.cut > 0 && random.chance(self.cut) => NO_WAY,
            (_, true) => 10 + 3 * to as u32 + random.below(3) as u32,
            _ => random.between(1, 1000) as u32,
        };
        Draft {
            mark: Mark::Rrp1,
            roles: (0..n).map(|router| self.role(router)).collect(),
            identifiers: (1..=n as u32).collect(),
            sessions: self.sessions(),
            distances: (0..n).map(|from| (0..n).map(|to| distance(from, to)).collect()).collect(),
            lists: vec![(self.reflectors..n).step_by(5).collect()],
        }
    }
}

/// Twelve reflectors in groups of three, in each of which all prefer the others, so that there are
/// as many steady tables as there can be; and 36 reflectors by themselves, each of which has the
/// client of one of the twelve and prefers one of another group.
pub fn threes_and_others() -> Draft {
    let shares_group = |one: usize, other: usize| one != other && one / 3 == other / 3;
    let pairs = (0..12).flat_map(|one| (0..12).map(move |other| (one, other)));
    let mut draft = preferring(12, &Vec::from_iter(pairs.filter(|&(one, other)| shares_group(one, other))));
    for router in 24..60 {
        let (own, preferred) = (router % 12, (router + 3) % 12);
        draft.roles.push(REFLECTOR);
        draft.identifiers.push(10 * router as u32 + 10);
        draft.sessions.extend([(own + 12, router), (preferred, router)]);
        draft.distances.iter_mut().for_each(|row| row.push(30));
        let distance = |to: usize| if to == preferred + 12 { 6 } else { 10 };
        draft.distances.push((0..=router).map(|to| if to == router { 0 } else { distance(to) }).collect());
    }
    draft
}

/// Twelve reflectors in a mesh, each of which prefers the listed clients of all others to its
/// own, and 52 clients. All of the one group but one must be given the hop step.
pub fn one_group() -> Draft {
    let (n, reflectors) = (64, MOST_GROUPED);
    let distance = |from: usize, to: usize| match (from == to, from < reflectors) {
        (true, _) => 0,
        (_, true) if to == from + reflectors => 10,
        (_, true) => 6,
        _ => 30,
    };
    Draft {
        mark: Mark::Rrp1,
        roles: (0..n).map(|router| if router < reflectors { REFLECTOR } else { CLIENT }).collect(),
        identifiers: (1..=n as u32).collect(),
        sessions: all_pairs(reflectors).chain((reflectors..n).map(|client| (client % reflectors, client))).collect(),
        distances: (0..n).map(|from| (0..n).map(|to| distance(from, to)).collect()).collect(),
        lists: vec![(reflectors..2 * reflectors).collect()],
    }
}

/// A ring of links both ways, and a chord from each router to the one a third
/// of the ring on.
pub fn ring_and_chords(random: &mut Random, n: usize) -> Sheet {
    let beside = |from: usize| [from + 1, from + n - 1, from + n / 3].map(|to| (from, to % n));
    Sheet { n, weights: weighted(random, (0..n).flat_map(beside)) }
}

/// As many links as there may be, or one for each pair if these are fewer: from
/// each router to those that follow it.
pub fn full_sheet(random: &mut Random, n: usize) -> Sheet {
    let each = (MOST_LINKS / n).min(n - 1);
    let onward = |from: usize| (1..=each).map(move |step| (from, (from + step) % n));
    Sheet { n, weights: weighted(random, (0..n).flat_map(onward)) }
}

/// The ring and chords without the links between the lower half of the routers and
/// the upper.
pub fn two_parts(random: &mut Random, n: usize) -> Sheet {
    let mut sheet = ring_and_chords(random, n);
    sheet.weights.retain(|(from, to), _| (*from < n / 2) == (*to < n / 2));
    sheet
}

fn weighted(random: &mut Random, links: impl Iterator<Item = (usize, usize)>) -> BTreeMap<(usize, usize), u16> {
    links.map(|pair| (pair, random.between(1, 1000) as u16)).collect()
}
