//! Who is a reflector and who has a session with whom, in several shapes.

use crate::harness::random::Random;
use crate::oracle::plan::{Router, CLIENT, MOST_PARENTS, REFLECTOR, SKIPPING, STEPPING, STEPPING_AND_SKIPPING};
use std::collections::BTreeSet;

/// All pairs of routers below n, the lower one first.
pub fn all_pairs(n: usize) -> impl Iterator<Item = (Router, Router)> {
    (0..n).flat_map(move |one| (one + 1..n).map(move |other| (one, other)))
}

/// Which routers are reflectors, and the sessions.
pub type Topology = (Vec<bool>, BTreeSet<(Router, Router)>);

/// A random topology; in some the clients of a reflector have sessions with one
/// another. No client has more parents than it may.
pub fn topology(random: &mut Random, n: usize) -> Topology {
    let mut topology = match random.below(16) {
        0 => scattered(random, n, 75),
        1 => {
            let percent = random.pick(&[0, 15, 100]);
            scattered(random, n, percent)
        }
        2 => scattered(random, n, (250 / n).min(100)),
        3..=5 => ring_of_reflectors(random, n),
        _ => mesh_of_reflectors(random, n),
    };
    if random.chance(25) {
        mesh_clients(random, &mut topology);
    }
    drop_parents(random, &mut topology);
    topology
}

fn of_role(reflector: &[bool], role: bool) -> Vec<Router> {
    (0..reflector.len()).filter(|&router| reflector[router] == role).collect()
}

/// The reflectors that a client neighbours, its parents, and the others, in any order.
fn parents_and_others(random: &mut Random, topology: &Topology, client: Router) -> (Vec<Router>, Vec<Router>) {
    let (reflector, sessions) = topology;
    let mut reflectors = of_role(reflector, true);
    random.shuffle(&mut reflectors);
    reflectors.into_iter().partition(|&other| sessions.contains(&ordered(client, other)))
}

/// Takes parents from the clients that have more than they may.
fn drop_parents(random: &mut Random, topology: &mut Topology) {
    for client in of_role(&topology.0, false) {
        let (parents, _) = parents_and_others(random, topology, client);
        parents.iter().skip(MOST_PARENTS).for_each(|&parent| _ = topology.1.remove(&ordered(client, parent)));
    }
}

/// Gives each client at least three parents and up to a number drawn for all, three
/// to six, where there are as many reflectors: in some plans a client has too many.
pub fn crowd(random: &mut Random, topology: &mut Topology) {
    let most = random.between(3, 6);
    for client in of_role(&topology.0, false) {
        let (parents, others) = parents_and_others(random, topology, client);
        let more = random.between(3, most).saturating_sub(parents.len());
        topology.1.extend(others.iter().take(more).map(|&parent| ordered(client, parent)));
    }
}

/// The clients of each reflector, or of some of them, in a mesh.
fn mesh_clients(random: &mut Random, (reflector, sessions): &mut Topology) {
    let share = random.pick(&[40, 100]);
    let n = reflector.len();
    for router in (0..n).filter(|&router| reflector[router]) {
        if random.chance(share) {
            let is_client = |other: Router| !reflector[other] && sessions.contains(&ordered(router, other));
            let clients: Vec<Router> = (0..n).filter(|&other| is_client(other)).collect();
            sessions.extend(all_pairs(clients.len()).map(|(one, other)| (clients[one], clients[other])));
        }
    }
}

/// The roles of reflectors and clients, in which no reflector skips its own clients or has
/// the hop step.
pub fn plain_roles(reflector: &[bool]) -> Vec<u8> {
    reflector.iter().map(|&reflector| if reflector { REFLECTOR } else { CLIENT }).collect()
}

/// The roles of reflectors and clients. None of the reflectors skip their own clients in
/// two of five plans, else some or all. None have the hop step in half of the plans, all in
/// one of ten, else few or many.
pub fn drawn_roles(random: &mut Random, reflector: &[bool]) -> Vec<u8> {
    let skipping = random.pick(&[0, 0, 30, 60, 100]);
    let stepping = random.pick(&[0, 0, 0, 0, 0, 15, 15, 40, 70, 100]);
    roles_with(random, reflector, skipping, stepping)
}

/// .. of which so many in a hundred reflectors skip their own clients, and so many have the hop
/// step.
pub fn roles_with(random: &mut Random, reflector: &[bool], skipping: usize, stepping: usize) -> Vec<u8> {
    let mut role = |reflector: bool| {
        if !reflector {
            return CLIENT;
        }
        let role = if random.chance(skipping) { SKIPPING } else { REFLECTOR };
        if random.chance(stepping) {
            with_step(role)
        } else {
            role
        }
    };
    reflector.iter().map(|&reflector| role(reflector)).collect()
}

/// The same role with the hop step, if it is a reflector's.
pub fn with_step(role: u8) -> u8 {
    match role {
        REFLECTOR => STEPPING,
        SKIPPING => STEPPING_AND_SKIPPING,
        _ => role,
    }
}

/// Random roles; each session is there with the given chance.
fn scattered(random: &mut Random, n: usize, percent: usize) -> Topology {
    let share = random.pick(&[0, 30, 50, 70, 100]);
    let reflector = (0..n).map(|_| random.chance(share)).collect();
    (reflector, all_pairs(n).filter(|_| random.chance(percent)).collect())
}

pub fn ordered(one: Router, other: Router) -> (Router, Router) {
    (one.min(other), one.max(other))
}

/// Chooses which routers are reflectors: `count` of them, anywhere.
fn choose_reflectors(random: &mut Random, n: usize, count: usize) -> (Vec<Router>, Vec<Router>) {
    let mut routers: Vec<Router> = (0..n).collect();
    random.shuffle(&mut routers);
    let clients = routers.split_off(count);
    if random.chance(50) {
        routers.sort_unstable();
    }
    (routers, clients)
}

fn roles(n: usize, reflectors: &[Router]) -> Vec<bool> {
    (0..n).map(|router| reflectors.contains(&router)).collect()
}

/// Reflectors in a ring, each with clients of its own.
fn ring_of_reflectors(random: &mut Random, n: usize) -> Topology {
    let count = random.between(1, n.div_ceil(2));
    let (reflectors, clients) = choose_reflectors(random, n, count);
    let mut sessions = BTreeSet::new();
    for place in 1..=count {
        let (one, other) = (reflectors[place - 1], reflectors[place % count]);
        if one != other {
            sessions.insert(ordered(one, other));
        }
    }
    for (place, &client) in clients.iter().enumerate() {
        sessions.insert(ordered(client, reflectors[place % count]));
    }
    (roles(n, &reflectors), sessions)
}

/// Reflectors in a mesh, full or with gaps; clients own or shared, and at
/// times sessions between clients.
fn mesh_of_reflectors(random: &mut Random, n: usize) -> Topology {
    let count = random.between(n.div_ceil(4), (2 * n).div_ceil(3));
    let (reflectors, clients) = choose_reflectors(random, n, count);
    let kept = random.pick(&[100, 100, 100, 60]);
    let shared = random.pick(&[0, 0, 10, 40]);
    let between_clients = random.pick(&[0, 0, 5, 20]);
    let is_reflector = roles(n, &reflectors);
    let mut sessions: BTreeSet<(Router, Router)> = all_pairs(n)
        .filter(|&(one, other)| match (is_reflector[one], is_reflector[other]) {
            (true, true) => random.chance(kept),
            (false, false) => random.chance(between_clients),
            _ => false,
        })
        .collect();
    for (place, &client) in clients.iter().enumerate() {
        let first = if random.chance(60) { reflectors[place % count] } else { random.pick(&reflectors) };
        sessions.insert(ordered(client, first));
        while random.chance(shared) {
            sessions.insert(ordered(client, random.pick(&reflectors)));
        }
    }
    (is_reflector, sessions)
}
