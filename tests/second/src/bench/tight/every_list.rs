//! Whether a plan is stable for every list, over rows of clients that are taken away in place.

use super::distance::Distance;
use super::rules::{key, Network};
use super::verdict::{closure, reliances, Rows};
use super::{bits, has, MOST};

struct Search<'a, D> {
    network: Network<'a, D>,
    /// For each reflector without the hop step, the clients that it is left with.
    left: Rows,
}

impl<D: Distance> Search<'_, D> {
    /// The key of the nearest client left with a neighbour that is none of a reflector's own.
    fn nearest_foreign(&self, router: usize) -> u64 {
        let (network, rows) = (&self.network, &self.network.rows);
        let around = bits(rows[router] & network.bodies.reflectors).fold(0, |set, other| set | self.left[other]);
        let distances = network.bodies.distances_from(router);
        bits(around & !rows[router]).map(|client| key(distances, client)).min().unwrap_or(u64::MAX)
    }

    /// Takes away clients that lead to none left, until a pass takes none.
    fn peel(&mut self, reflectors: u64) {
        let mut has_changed = true;
        while has_changed {
            has_changed = false;
            for router in bits(reflectors) {
                let before = self.left[router];
                if before == 0 {
                    continue;
                }
                let least = self.nearest_foreign(router);
                let distances = self.network.bodies.distances_from(router);
                let kept = bits(before).filter(|&client| least < key(distances, client));
                let kept = if least < D::NO_WAY_KEY { kept.fold(0, |set, client| set | 1 << client) } else { 0 };
                self.left[router] = kept;
                has_changed |= kept != before;
            }
        }
    }

    /// The step from a reflector: its nearest foreign client, and who is left with it.
    fn step(&self, router: usize) -> (usize, usize) {
        let client = (self.nearest_foreign(router) & 0xFF) as usize;
        let around = self.network.rows[router] & self.network.bodies.reflectors;
        let next = bits(around).find(|&other| has(self.left[other], client)).unwrap_or(0);
        (next, client)
    }
}

/// Writes the list of a no; gives the answer and how many it has.
pub fn every_list<D: Distance>(network: Network<D>, list: &mut [u8]) -> Result<(u8, u64), u8> {
    let n = network.bodies.n;
    if list.len() < n {
        return Err(9);
    }
    let reflectors = network.bodies.reflectors & !network.bodies.stepping;
    let mut search = Search { left: [0; MOST], network };
    for router in bits(reflectors) {
        let distances = search.network.bodies.distances_from(router);
        let clients = bits(search.network.rows[router] & !search.network.bodies.reflectors);
        search.left[router] =
            clients.filter(|&client| key(distances, client) < D::NO_WAY_KEY).fold(0, |set, client| set | 1 << client);
    }
    search.peel(reflectors);
    let Some(first) = bits(reflectors).find(|&router| search.left[router] != 0) else { return Ok((1, 0)) };
    let (mut met, mut at) = (0, first);
    while !has(met, at) {
        met |= 1 << at;
        at = search.step(at).0;
    }
    let (again, mut found) = (at, 0);
    loop {
        let (next, client) = search.step(at);
        found |= 1 << client;
        at = next;
        if at == again {
            break;
        }
    }
    search.network.listed = found;
    let reach = closure(n, &reliances(&search.network));
    if (0..n).all(|u| !has(reach[u], u)) {
        return Ok((2, 0));
    }
    list.iter_mut().zip(bits(found)).for_each(|(byte, client)| *byte = client as u8);
    Ok((0, u64::from(found.count_ones())))
}
