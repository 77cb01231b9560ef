//! Groups, ranks, settled table and cycle over sets of bits.

use super::distance::Distance;
use super::rules::Network;
use super::{bits, has, Pair, MOST, NONE};
use crate::interface::{Flag, VerdictBuffers, VerdictFields};

pub type Rows = [u64; MOST];

/// The routers that each router relies on.
pub fn reliances<D: Distance>(network: &Network<D>) -> Rows {
    let mut offers = [None; MOST];
    for reflector in bits(network.bodies.reflectors) {
        offers[reflector] = network.offer(reflector);
    }
    let mut relies = [0; MOST];
    for (u, row) in relies[..network.bodies.n].iter_mut().enumerate() {
        *row = network.relied_on(u, u64::MAX, |reflector| offers[reflector]);
    }
    relies
}

/// Reaching by one or more reliances, or links (Warshall).
pub fn closure(n: usize, relies: &Rows) -> Rows {
    let mut reach = *relies;
    for via in 0..n {
        let through = reach[via];
        for row in &mut reach[..n] {
            *row |= if has(*row, via) { through } else { 0 };
        }
    }
    reach
}

/// The routers that share a router's group.
pub fn group(reach: &Rows, router: usize) -> u64 {
    if !has(reach[router], router) {
        return 1 << router;
    }
    bits(reach[router]).filter(|&other| has(reach[other], router)).fold(0, |group, other| group | 1 << other)
}

/// Takes the routers away in layers: a layer has all those that rely on none but
/// routers taken away before. Its number is their rank; they settle in that order.
fn write_stable<D: Distance>(network: &Network<D>, relies: &Rows, ranks: &mut [u8], table: &mut [Pair]) -> u64 {
    let n = network.bodies.n;
    for (u, entry) in table[..n].iter_mut().enumerate() {
        *entry = if has(network.listed, u) { [u as u8; 2] } else { NONE };
    }
    let mut left = u64::MAX >> (MOST - n);
    let mut rank = 0;
    loop {
        let mut layer = 0;
        for u in bits(left) {
            layer |= u64::from(relies[u] & left == 0) << u;
        }
        for u in bits(layer) {
            ranks[u] = rank;
            network.activate(table, u);
        }
        left ^= layer;
        if left == 0 {
            return u64::from(rank);
        }
        rank += 1;
    }
}

fn write_cycle(relies: &Rows, group: u64, cycle: &mut [u8]) -> u64 {
    let mut place = [0; MOST];
    let mut walk = [0; MOST];
    let (mut met, mut length, mut u) = (0, 0, group.trailing_zeros() as usize);
    while !has(met, u) {
        met |= 1 << u;
        place[u] = length;
        walk[length] = u as u8;
        length += 1;
        u = (relies[u] & group).trailing_zeros() as usize;
    }
    let walk = &walk[place[u]..length];
    cycle[..walk.len()].copy_from_slice(walk);
    walk.len() as u64
}

pub fn verdict<D: Distance>(network: &Network<D>, lent: VerdictBuffers) -> Result<VerdictFields, u8> {
    let n = network.bodies.n;
    if lent.labels.len() < n || lent.ranks.len() < n || lent.table.len() < 2 * n || lent.cycle.len() < n {
        return Err(9);
    }
    let relies = reliances(network);
    let reach = closure(n, &relies);
    for (u, label) in lent.labels[..n].iter_mut().enumerate() {
        *label = group(&reach, u).trailing_zeros() as u8;
    }
    Ok(match (0..n).find(|&u| has(reach[u], u)) {
        None => {
            let size = write_stable(network, &relies, lent.ranks, lent.table.as_chunks_mut().0);
            VerdictFields { stable: Flag::new(1), size }
        }
        Some(u) => VerdictFields { stable: Flag::new(0), size: write_cycle(&relies, group(&reach, u), lent.cycle) },
    })
}
