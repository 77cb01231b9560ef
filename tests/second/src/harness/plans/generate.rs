//! Plans, sound and damaged: random ones of several shapes, the largest and
//! the deepest.

use super::cuts;
use super::damage::{self, AIMED_AT};
use super::draft::Draft;
use super::groups;
use super::topology::{all_pairs, crowd, drawn_roles, ordered, plain_roles, topology, with_step, Topology};
use super::widths;
use crate::harness::random::Random;
use crate::oracle::mark::Mark;
use crate::oracle::plan::{
    self, EgressList, Router, CLIENT, MOST_LISTS, MOST_PARENTS, MOST_ROUTERS, REFLECTOR, SKIPPING,
    STEPPING_AND_SKIPPING,
};
use crate::oracle::rules::{Case, Right};
use crate::oracle::verdict::{self, Outcome};
use std::collections::BTreeSet;

/// The plan of the given number, and the source of what is drawn for it next.
/// Both depend on the seed and the number alone. Number 0 is the largest plan of
/// mark RRP1, 1 the deepest, 2 the largest of mark RRP2; 3 and 4 are the largest with a
/// byte more. Of ten others six are sound, one has groups, one is crowded, one is aimed at
/// a refusal and one damaged anyhow.
pub fn numbered(seed: u64, number: u64) -> (Vec<u8>, Random) {
    let mut random = Random::new(seed ^ number.wrapping_mul(0xD6E8_FEB8_6659_FD93));
    let draft = match number {
        0 | 3 => largest(&mut random, Mark::Rrp1),
        1 => deepest(),
        2 | 4 => largest(&mut random, Mark::Rrp2),
        _ if number % 10 == 5 => groups::grouped(&mut random),
        _ if number % 10 == 6 => crowded(&mut random),
        _ => sound(&mut random),
    };
    let bytes = match number % 10 {
        _ if number == 3 || number == 4 => [draft.bytes(), vec![0]].concat(),
        7 => {
            // Lists can be broken in more ways than other bodies.
            let refusal = if random.chance(25) { 7 } else { random.pick(&AIMED_AT) };
            damage::aimed(&mut random, &draft, refusal)
        }
        8 => damage::any(&mut random, &draft),
        _ => draft.bytes(),
    };
    (bytes, random)
}

/// A random sound plan.
pub fn sound(random: &mut Random) -> Draft {
    let n = router_count(random);
    sound_of(random, n)
}

/// A random sound plan with `n` routers.
pub fn sound_of(random: &mut Random, n: usize) -> Draft {
    let topology = topology(random, n);
    of_topology(random, topology)
}

/// A random plan in which clients have three to six parents where there are as many
/// reflectors, and which is else sound.
fn crowded(random: &mut Random) -> Draft {
    let n = router_count(random);
    let mut topology = topology(random, n);
    crowd(random, &mut topology);
    of_topology(random, topology)
}

fn of_topology(random: &mut Random, topology: Topology) -> Draft {
    let mark = widths::mark(random);
    let mut distances = distances(random, mark, &topology);
    cuts::cut(random, mark, &topology, &mut distances);
    let (reflector, sessions) = topology;
    let roles = drawn_roles(random, &reflector);
    // A reflector that skips its clients shows at those that are not listed.
    let nearly_all = if roles.iter().any(|role| [SKIPPING, STEPPING_AND_SKIPPING].contains(role)) { 30 } else { 70 };
    let lists = lists(random, &reflector, nearly_all);
    let identifiers = identifiers(random, reflector.len());
    let mut draft = Draft { mark, identifiers, roles, sessions, distances, lists };
    if random.chance(10) {
        step_in_a_cycle(random, &mut draft);
    }
    draft
}

/// Gives a router of a cycle the hop step, by which that cycle is none, if a list is suspect.
fn step_in_a_cycle(random: &mut Random, draft: &mut Draft) {
    let Ok(plan) = plan::read(&draft.bytes()) else { return };
    let cycle_of =
        |list: &EgressList| match verdict::verdict(&Right, Case { plan: &plan, listed: &list.listed }).outcome {
            Outcome::Suspect { cycle } => Some(cycle),
            Outcome::Stable { .. } => None,
        };
    if let Some(cycle) = plan.lists.iter().find_map(cycle_of) {
        let router = random.pick(&cycle);
        draft.roles[router] = with_step(draft.roles[router]);
    }
}

/// The largest plan of this mark: 64 routers, all sessions, 64 full lists. Every client
/// neighbours every reflector, so there are no more than four of these, as far apart as
/// can be.
pub fn largest(random: &mut Random, mark: Mark) -> Draft {
    let n = MOST_ROUTERS;
    let apart = (n - 1) / (MOST_PARENTS - 1);
    let topology = ((0..n).map(|router| router % apart == 0).collect(), all_pairs(n).collect());
    let distances = distances(random, mark, &topology);
    let (reflector, sessions) = topology;
    let lists = vec![(0..n).collect(); MOST_LISTS];
    let identifiers = identifiers(random, n);
    Draft { mark, identifiers, roles: plain_roles(&reflector), sessions, distances, lists }
}

/// A plan whose highest rank is 51, the highest that any plan can have, with
/// the router of that rank first, so that all ranks below are still to be found.
///
/// Take a chain of reliances of length r >= 3, v(r) to v(0). No one relies on an
/// unlisted client, and a listed router relies on none, so v(r-1) to v(1) are
/// unlisted reflectors, and v(0) is listed: an unlisted reflector that relies on
/// none offers nothing. Each of v(1) to v(r-2) is relied on by a reflector and so
/// has a best client, which is listed. A client has four parents at most, so there
/// are at least (r-2)/4 of these clients, and but for v(0) none is on the chain: r+1
/// routers are on it and at least (r-2)/4 - 1 are not. For r = 52 these would be 53
/// and 12, more than 64, so r is at most 51.
pub fn deepest() -> Draft {
    let n = MOST_ROUTERS;
    // Router 0 is an unlisted client; 1 to 50 are reflectors in a path, each with one
    // of thirteen listed clients, in turn; each favours the next one's.
    let listed = 13;
    let clients = n - listed;
    let reflectors = 1..clients;
    let client_of = |reflector: Router| clients + reflector % listed;
    let mut sessions: BTreeSet<(Router, Router)> = (1..clients).map(|router| (router - 1, router)).collect();
    sessions.extend(reflectors.clone().map(|reflector| (reflector, client_of(reflector))));
    let distance = |from: Router, to: Router| match to {
        _ if from == to => 0,
        _ if !reflectors.contains(&from) => 30,
        _ if to == client_of(from + 1) => 6,
        _ if to == client_of(from) => 10,
        _ if to == client_of(from + 2) => 14,
        _ => 30,
    };
    Draft {
        mark: Mark::Rrp1,
        roles: (0..n).map(|router| if reflectors.contains(&router) { REFLECTOR } else { CLIENT }).collect(),
        identifiers: (1..=n as u32).map(|place| 10 * place).collect(),
        sessions,
        distances: (0..n).map(|from| (0..n).map(|to| distance(from, to)).collect()).collect(),
        lists: vec![(clients..n).collect()],
    }
}

fn router_count(random: &mut Random) -> usize {
    match random.below(20) {
        0..=1 => random.between(1, 6),
        2..=9 => random.between(5, 10),
        10..=16 => random.between(8, 20),
        17..=18 => random.between(20, 62),
        _ => random.pick(&[31, 32, 33, 63, 64]),
    }
}

pub fn identifiers(random: &mut Random, n: usize) -> Vec<u32> {
    let mut chosen = BTreeSet::new();
    if random.chance(20) {
        chosen.extend([0, u32::MAX].into_iter().take(n));
    }
    // Either all over the range or close together, across byte bounds.
    let (base, mask) = if random.chance(50) { (0, u32::MAX) } else { (random.word() as u32 & 0x7FFF_FF00, 0x3FF) };
    while chosen.len() < n {
        chosen.insert(base + (random.word() as u32 & mask));
    }
    chosen.into_iter().collect()
}

/// The neighbouring reflector with the next higher number, around the end.
fn favoured(draft: &Topology, router: Router) -> Option<Router> {
    let (reflector, sessions) = draft;
    let near: Vec<Router> = (0..reflector.len())
        .filter(|&other| reflector[other] && sessions.contains(&ordered(router, other)))
        .collect();
    near.iter().find(|&&other| other > router).or(near.first()).copied()
}

/// Distances that fit a plan of this mark.
fn distances(random: &mut Random, mark: Mark, topology: &Topology) -> Vec<Vec<u32>> {
    let mut distances = near_distances(random, topology);
    if mark == Mark::Rrp2 {
        widths::spread(random, &mut distances);
    }
    distances
}

/// Distances that fit two bytes.
fn near_distances(random: &mut Random, topology: &Topology) -> Vec<Vec<u32>> {
    let sessions = &topology.1;
    let n = topology.0.len();
    let style = random.pick(&[0, 1, 1, 1, 1, 2, 2, 2, 3, 4, 5, 6, 7, 7, 7, 7, 7, 8, 8, 8, 8, 9, 9, 9, 9]);
    let positions: Vec<usize> = (0..n).map(|_| random.below(200)).collect();
    let spread = random.between(0, 12);
    let mut row = |from: Router| {
        let favoured = favoured(topology, from);
        let beside = |router: Router, to: Router| sessions.contains(&ordered(router, to));
        let mut distance = |to: Router| match style {
            0 => random.below(3),
            1 => random.below(20),
            2 => random.below(65_535),
            3 => random.pick(&[0, 1, 255, 256, 65_533, 65_534]),
            // Nearly the same order of preference everywhere: high ranks.
            4 => positions[to] + random.below(2),
            5 => positions[to] + random.below(60),
            6 => positions[from].abs_diff(positions[to]),
            // Ten to the neighbours, near it to the others.
            7 if beside(from, to) => 10,
            7 => 4 + random.below(spread + 1),
            // Nearest to the clients of one other reflector: long cycles.
            8 if beside(from, to) => 10,
            8 if favoured.is_some_and(|other| beside(other, to)) => 6,
            8 => 14,
            _ => random.pick(&[6, 9, 10, 10, 14]),
        };
        (0..n).map(|to| if from == to { 0 } else { distance(to) as u32 }).collect()
    };
    (0..n).map(&mut row).collect()
}

/// Lists, of which so many in a hundred name all clients or nearly all; some are empty.
fn lists(random: &mut Random, reflector: &[bool], nearly_all: usize) -> Vec<BTreeSet<Router>> {
    let count = match random.below(40) {
        0..=15 => 1,
        16..=37 => random.between(2, 4),
        38 => random.between(5, 63),
        _ => MOST_LISTS,
    };
    let mut lists: Vec<_> = (0..count).map(|_| egress_list(random, reflector, nearly_all)).collect();
    empty_lists(random, count).into_iter().for_each(|list| lists[list].clear());
    lists
}

/// Which of so many lists name nobody: none in three of four plans, else the first, the
/// last, any one, some or all.
fn empty_lists(random: &mut Random, count: usize) -> Vec<usize> {
    match random.below(20) {
        0 => vec![0],
        1 => vec![count - 1],
        2 => vec![random.below(count)],
        3 => (0..count).filter(|_| random.chance(40)).collect(),
        4 => (0..count).collect(),
        _ => Vec::new(),
    }
}

fn egress_list(random: &mut Random, reflector: &[bool], nearly_all: usize) -> BTreeSet<Router> {
    let n = reflector.len();
    let shares = [(100, 0), (100, 2), (95, 0), (90, 2), (75, 0), (75, 5), (50, 10), (50, 50), (15, 15), (0, 0)];
    let kinds = if random.chance(nearly_all) { 4 } else { shares.len() };
    let (clients, reflectors) = random.pick(&shares[..kinds]);
    let mut listed: BTreeSet<Router> =
        (0..n).filter(|&router| random.chance(if reflector[router] { reflectors } else { clients })).collect();
    if listed.is_empty() {
        listed.insert(random.below(n));
    }
    if random.chance(2) {
        listed.extend(0..n);
    }
    listed
}
