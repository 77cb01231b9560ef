//! Small plans, of which the papers state answers.

use super::draft::{Draft, NO_WAY};
use crate::oracle::mark::Mark;
use crate::oracle::plan::{Router, CLIENT, REFLECTOR};
use std::collections::BTreeSet;

/// Two reflectors with a client each: `p` is the distance from 0 to 3, `q`
/// the one from 1 to 2.
pub fn draft(p: u32, q: u32, lists: &[&[usize]]) -> Draft {
    let distances = [[0, 30, 10, p], [30, 0, q, 10], [30, 30, 0, 30], [30, 30, 30, 0]];
    Draft {
        mark: Mark::Rrp1,
        roles: vec![1, 1, 2, 2],
        identifiers: vec![10, 20, 30, 40],
        sessions: BTreeSet::from([(0, 1), (0, 2), (1, 3)]),
        distances: distances.map(Vec::from).to_vec(),
        lists: lists.iter().map(|list| list.iter().copied().collect()).collect(),
    }
}

/// M3's plan with this list and no way between these pairs, from the first to the
/// second.
pub fn with_cuts(list: &[usize], cuts: &[(usize, usize)]) -> Draft {
    let mut draft = draft(6, 6, &[list]);
    cuts.iter().for_each(|&(from, to)| draft.distances[from][to] = NO_WAY);
    draft
}

/// A plan of reflectors without a session, router 0 alone listed.
pub fn lone_reflectors(n: usize) -> Draft {
    Draft {
        mark: Mark::Rrp1,
        roles: vec![REFLECTOR; n],
        identifiers: (0..n as u32).collect(),
        sessions: BTreeSet::new(),
        distances: vec![vec![0; n]; n],
        lists: vec![BTreeSet::from([0])],
    }
}

/// Reflector 0 with clients 2, 3 and 4, and reflector 1 with client 5; sessions
/// between the reflectors, which have these roles, and between clients 3 and 4. Client 2
/// is in no mesh.
pub fn two_sites([of_0, of_1]: [u8; 2], lists: &[&[usize]]) -> Draft {
    let distances = [[0, 30, 5, 10, 30, 6], [4, 0, 30, 6, 30, 10]].map(Vec::from);
    let of_clients = (2..6).map(|from| (0..6).map(|to| if from == to { 0 } else { 30 }).collect());
    Draft {
        mark: Mark::Rrp1,
        roles: vec![of_0, of_1, 2, 2, 2, 2],
        identifiers: (1..=6).map(|place| 10 * place).collect(),
        sessions: BTreeSet::from([(0, 1), (0, 2), (0, 3), (0, 4), (1, 5), (3, 4)]),
        distances: distances.into_iter().chain(of_clients).collect(),
        lists: lists.iter().map(|list| list.iter().copied().collect()).collect(),
    }
}

/// Routers of these roles, of which one neighbours all others; all distances are 0.
pub fn star(centre: Router, roles: &[u8]) -> Draft {
    let n = roles.len();
    let others = (0..n).filter(|&other| other != centre);
    Draft {
        mark: Mark::Rrp1,
        roles: roles.to_vec(),
        identifiers: (1..=n as u32).map(|place| 10 * place).collect(),
        sessions: others.map(|other| (centre.min(other), centre.max(other))).collect(),
        distances: vec![vec![0; n]; n],
        lists: vec![[centre].into()],
    }
}

/// So many reflectors in a mesh, each with a client of its own, all listed, whose number is that
/// of its reflector plus `count`. From a reflector, 10 to its own client, 6 to another reflector
/// that it prefers and to that one's client, 14 to those of the others.
pub fn preferring(count: usize, prefers: &[(Router, Router)]) -> Draft {
    let n = 2 * count;
    let distance = |from: Router, to: Router| match from < count {
        _ if from == to => 0,
        false => 30,
        true if to == from + count => 10,
        true if prefers.contains(&(from, to % count)) => 6,
        true => 14,
    };
    let mesh = (0..count).flat_map(|one| (one + 1..count).map(move |other| (one, other)));
    Draft {
        mark: Mark::Rrp1,
        roles: (0..n).map(|router| if router < count { REFLECTOR } else { CLIENT }).collect(),
        identifiers: (1..=n as u32).map(|place| 10 * place).collect(),
        sessions: mesh.chain((0..count).map(|reflector| (reflector, reflector + count))).collect(),
        distances: (0..n).map(|from| (0..n).map(|to| distance(from, to)).collect()).collect(),
        lists: vec![(count..n).collect()],
    }
}

/// So many reflectors, each of which prefers the next one, and the last the first.
pub fn preferring_the_next(count: usize) -> Draft {
    preferring(count, &Vec::from_iter((0..count).map(|router| (router, (router + 1) % count))))
}
