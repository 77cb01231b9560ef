//! Plans with groups of reflectors. Who prefers whose route to that of its own client is drawn
//! first, and distances follow from it: cycles in which each prefers the next one, pairs, groups in
//! which all prefer all others, groups that rely on others, and routers between them.

use super::draft::{Draft, NO_WAY};
use super::generate::identifiers;
use super::topology::{all_pairs, ordered, roles_with};
use super::widths;
use crate::harness::random::Random;
use crate::oracle::mark::Mark;
use crate::oracle::plan::{Router, MOST_PARENTS};
use std::collections::BTreeSet;

/// A reflector, known by its place, before routers have numbers.
struct Member {
    kind: Kind,
    /// The places of those whose route it prefers to that of its own client.
    prefers: BTreeSet<usize>,
}

#[derive(Clone, Copy, PartialEq, Eq)]
enum Kind {
    /// With a listed client of its own.
    Parent,
    /// Without one.
    Childless,
    Listed,
}

/// A random sound plan with groups of two or more.
pub fn grouped(random: &mut Random) -> Draft {
    let wanted = match random.below(20) {
        0..=12 => random.between(2, 7),
        13..=15 => random.between(8, 11),
        16 => 12,
        17..=18 => 13,
        _ => random.between(14, 18),
    };
    grouped_of(random, wanted)
}

/// .. in which so many routers are in groups for the first list, if none has the hop step.
pub fn grouped_of(random: &mut Random, wanted: usize) -> Draft {
    let members = members(random, wanted);
    let network = Network::new(random, &members);
    let mark = widths::mark(random);
    // Told apart by the low bytes, or by higher ones.
    let factor = if mark == Mark::Rrp2 { random.pick(&[1, 256, 65_537]) } else { 1 };
    let n = network.n;
    let is_reflector: Vec<bool> = (0..n).map(|router| network.reflectors.contains(&router)).collect();
    let mut distance = |from: Router, to: Router| match network.distance(random, &members, from, to) {
        NO_WAY => NO_WAY,
        distance => distance * factor,
    };
    Draft {
        mark,
        distances: (0..n).map(|from| (0..n).map(|to| distance(from, to)).collect()).collect(),
        identifiers: identifiers(random, n),
        roles: roles(random, &is_reflector),
        sessions: network.sessions(random, &members),
        lists: network.lists(random),
    }
}

/// Some or all reflectors skip their own clients, or none; few have the hop step, which takes
/// them out of their groups, or none.
fn roles(random: &mut Random, is_reflector: &[bool]) -> Vec<u8> {
    let (skipping, stepping) = (random.pick(&[0, 0, 30, 100]), random.pick(&[0, 0, 0, 15]));
    roles_with(random, is_reflector, skipping, stepping)
}

/// Reflectors of which so many are in groups: a group or a reflector by itself after the other,
/// each of which may prefer those before.
fn members(random: &mut Random, wanted: usize) -> Vec<Member> {
    let (between, onward) = (random.pick(&[0, 30, 60]), random.pick(&[0, 10, 40]));
    let mut members = Vec::new();
    let mut left = wanted;
    while left > 0 {
        if random.chance(between) {
            let kind = random.pick(&[Kind::Parent, Kind::Parent, Kind::Childless, Kind::Listed]);
            let prefers = (0..members.len()).filter(|_| random.chance(onward)).collect();
            members.push(Member { kind, prefers });
        }
        let drawn = random.pick(&[2, 2, 2, 3, 3, 4, 5, 6, 12, 13]).min(left);
        // One alone makes no group.
        let size = if left - drawn == 1 { left } else { drawn };
        let first = members.len();
        for preferred in preferred_in_a_group(random, size) {
            let before = (0..first).filter(|_| random.chance(onward));
            let prefers = before.chain(preferred.into_iter().map(|place| first + place)).collect();
            members.push(Member { kind: Kind::Parent, prefers });
        }
        left -= size;
    }
    members
}

/// Whom each of a group prefers: the next one, around the end; or both beside it; or all others;
/// or the next one and some others.
fn preferred_in_a_group(random: &mut Random, size: usize) -> Vec<BTreeSet<usize>> {
    let (kind, share) = (random.below(4), random.pick(&[15, 40, 80]));
    let mut prefers = |place: usize, other: usize| match (other + size - place) % size {
        0 => false,
        1 => true,
        ahead => match kind {
            0 => false,
            1 => ahead == size - 1,
            2 => true,
            _ => random.chance(share),
        },
    };
    (0..size).map(|place| (0..size).filter(|&other| prefers(place, other)).collect()).collect()
}

/// The numbers of the routers.
struct Network {
    n: usize,
    reflectors: Vec<Router>,
    /// The own client of each reflector; those of childless ones are never listed.
    clients: Vec<Router>,
    /// The listed reflectors, and the listed clients.
    listed: BTreeSet<Router>,
    others: Vec<Router>,
}

impl Network {
    fn new(random: &mut Random, members: &[Member]) -> Self {
        let count = members.len();
        let n = 2 * count + random.below(4);
        let mut numbers: Vec<Router> = (0..n).collect();
        match random.below(4) {
            0 => (),
            1 => numbers.reverse(),
            _ => random.shuffle(&mut numbers),
        }
        let others = numbers.split_off(2 * count);
        let clients = numbers.split_off(count);
        let listed = members.iter().enumerate().filter_map(|(place, member)| match member.kind {
            Kind::Parent => Some(clients[place]),
            Kind::Childless => None,
            Kind::Listed => Some(numbers[place]),
        });
        Network { n, listed: listed.collect(), reflectors: numbers, clients, others }
    }

    fn place(routers: &[Router], router: Router) -> Option<usize> {
        routers.iter().position(|&other| other == router)
    }

    /// Ten to the own client, and to what another reflector offers nearer if it is preferred, or
    /// as near with a lower number; else farther, as near with a higher number, or no way.
    fn distance(&self, random: &mut Random, members: &[Member], from: Router, to: Router) -> u32 {
        let reflector = Self::place(&self.reflectors, from);
        let offering = Self::place(&self.clients, to).or(Self::place(&self.reflectors, to));
        match (reflector, offering) {
            _ if from == to => 0,
            (Some(place), Some(other)) if place == other => 10,
            (Some(place), Some(other)) => {
                let is_preferred = members[place].prefers.contains(&other);
                let near = [6, 9, if to < self.clients[place] { 10 } else { 9 }];
                let far = [11, 14, if to > self.clients[place] { 10 } else { 14 }, NO_WAY];
                let kinds = if random.chance(10) { far.len() } else { far.len() - 1 };
                if is_preferred {
                    random.pick(&near)
                } else {
                    random.pick(&far[..kinds])
                }
            }
            _ => random.between(1, 30) as u32,
        }
    }

    /// Each reflector with its client and with those that it prefers, and all or some of the
    /// reflectors with one another. Some clients have a second parent, the others any.
    fn sessions(&self, random: &mut Random, members: &[Member]) -> BTreeSet<(Router, Router)> {
        let (mesh, shared) = (random.pick(&[0, 30, 100, 100]), random.pick(&[0, 0, 10]));
        let count = members.len();
        let mut sessions: BTreeSet<(Router, Router)> =
            (0..count).map(|place| ordered(self.reflectors[place], self.clients[place])).collect();
        for (one, other) in all_pairs(count) {
            let is_needed = members[one].prefers.contains(&other) || members[other].prefers.contains(&one);
            if is_needed || random.chance(mesh) {
                sessions.insert(ordered(self.reflectors[one], self.reflectors[other]));
            }
        }
        for &client in &self.clients {
            if random.chance(shared) {
                sessions.insert(ordered(client, random.pick(&self.reflectors)));
            }
        }
        for &client in &self.others {
            let parents = random.below(MOST_PARENTS + 1);
            sessions.extend((0..parents).map(|_| ordered(client, random.pick(&self.reflectors))));
        }
        sessions
    }

    /// A list of all that are listed, and up to two in which some of these are not, or others are.
    fn lists(&self, random: &mut Random) -> Vec<BTreeSet<Router>> {
        let mut lists = vec![self.listed.clone()];
        for _ in 0..random.below(3) {
            let (kept, more) = (random.pick(&[50, 80, 95]), random.pick(&[0, 0, 5]));
            let chance = |router: &Router| if self.listed.contains(router) { kept } else { more };
            lists.push((0..self.n).filter(|router| random.chance(chance(router))).collect());
        }
        lists
    }
}
