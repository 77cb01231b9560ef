//! Choosing, advertising and reliance over sets of bits.

use super::distance::Distance;
use super::reader::Bodies;
use super::{bits, has, Pair, MOST, NONE};
use crate::interface::{Explained, Reason, Rule};

/// A plan decoded, with the list asked for.
pub struct Network<'a, D> {
    pub bodies: Bodies<'a, D>,
    /// The neighbours of each router.
    pub rows: [u64; MOST],
    pub listed: u64,
}

/// A route's key by distance and egress; the better route has the smaller.
pub fn key<D: Distance>(distances: &[D], egress: usize) -> u64 {
    u64::from(distances[egress].number()) << 8 | egress as u64
}

/// What goes before a key, with or without the sender, where the hop step puts the route
/// behind.
pub const HOP: u64 = 1 << 56;

impl<D: Distance> Network<'_, D> {
    /// What a reflector offers: itself if listed, else its best client.
    pub fn offer(&self, reflector: usize) -> Option<usize> {
        if has(self.listed, reflector) {
            return Some(reflector);
        }
        let distances = self.bodies.distances_from(reflector);
        let clients = self.rows[reflector] & self.listed & !self.bodies.reflectors;
        let best = bits(clients).map(|client| key(distances, client)).min();
        best.filter(|&key| key < D::NO_WAY_KEY).map(|key| (key & 0xFF) as usize)
    }

    /// The routers of a set that a router relies on, and its best client.
    pub fn relied_on(&self, router: usize, set: u64, offer: impl Fn(usize) -> Option<usize>) -> u64 {
        let neighbours = self.rows[router] & set;
        if has(self.listed, router) {
            return 0;
        }
        if !has(self.bodies.reflectors, router) {
            return neighbours & (self.bodies.reflectors | self.listed);
        }
        let distances = self.bodies.distances_from(router);
        let own = offer(router);
        let least = own.map_or(D::NO_WAY_KEY, |client| key(distances, client));
        let mut relied_on = own.map_or(0, |client| 1 << client);
        let offering = if own.is_some() { self.not_behind(router) } else { u64::MAX };
        for reflector in bits(neighbours & self.bodies.reflectors & offering) {
            let better = offer(reflector).is_some_and(|egress| key(distances, egress) < least);
            relied_on |= u64::from(better) << reflector;
        }
        relied_on
    }

    /// The routers whose offers the hop step does not put behind an own best client: the
    /// listed ones, where the router has it.
    fn not_behind(&self, router: usize) -> u64 {
        if has(self.bodies.stepping, router) {
            self.listed
        } else {
            u64::MAX
        }
    }

    /// Why a router relies on another, or why it does not.
    pub fn explain(&self, router: usize, other: usize) -> Explained {
        let reflectors = self.bodies.reflectors;
        if router == other {
            Explained::No(Reason::SameRouter)
        } else if !has(self.rows[router], other) {
            Explained::No(Reason::NotNeighbours)
        } else if has(self.listed, router) {
            Explained::No(Reason::FirstListed)
        } else if !has(reflectors | self.listed, other) {
            Explained::No(Reason::UnlistedClient)
        } else if !has(reflectors, router) {
            Explained::Yes(if has(reflectors, other) { Rule::Parent } else { Rule::PeerClient })
        } else if has(reflectors, other) {
            self.explain_offer(router, other)
        } else if self.offer(router) == Some(other) {
            Explained::Yes(Rule::OwnBestClient)
        } else {
            Explained::No(Reason::NotTheBestClient)
        }
    }

    /// .. by the other's offer, where both are reflectors and the first is unlisted.
    fn explain_offer(&self, router: usize, other: usize) -> Explained {
        let distances = self.bodies.distances_from(router);
        let Some(offer) = self.offer(other) else { return Explained::No(Reason::NoOffer) };
        let offered = key(distances, offer);
        if offered >= D::NO_WAY_KEY {
            return Explained::No(Reason::NoWay);
        }
        let own = self.offer(router).map(|client| (client, key(distances, client)));
        if own.is_some_and(|(_, least)| offered >= least || !has(self.not_behind(router), other)) {
            return Explained::No(Reason::NotBetter);
        }
        let margin = |least: u64| (offered >> 8) as i64 - (least >> 8) as i64;
        Explained::Yes(Rule::BetterOffer { offer, own: own.map(|(client, least)| (client, margin(least))) })
    }

    pub fn check_table(&self, table: &[Pair]) -> Result<(), u8> {
        let n = self.bodies.n;
        for (u, &entry) in table.get(..n).ok_or(9)?.iter().enumerate() {
            let [egress, sender] = entry.map(usize::from);
            let sound = if has(self.listed, u) {
                egress == u && sender == u
            } else {
                entry == NONE || egress < n && sender < n && has(self.rows[u], sender)
            };
            if !sound {
                return Err(10);
            }
        }
        Ok(())
    }

    /// One activation. A route's key is its hops, its distance, its egress and its sender;
    /// the egress as sender goes before all others.
    pub fn activate(&self, table: &mut [Pair], router: usize) {
        if has(self.listed, router) {
            return;
        }
        let (reflectors, skipping) = (self.bodies.reflectors, self.bodies.skipping);
        let distances = self.bodies.distances_from(router);
        let passed_on = if has(self.bodies.stepping, router) { HOP } else { 0 };
        let mut best = u64::MAX;
        for from in bits(self.rows[router] & (self.listed | reflectors)) {
            if table[from] == NONE {
                continue;
            }
            let [egress, sender] = table[from].map(usize::from);
            let withheld = if has(reflectors, router) {
                sender != from && has(reflectors, sender)
            } else {
                sender == router || has(skipping, from) && !has(reflectors, sender)
            };
            let preference = if egress == from { 0 } else { passed_on | (from as u64 + 1) };
            let key = key(distances, egress);
            best = best.min(if withheld || key >= D::NO_WAY_KEY { u64::MAX } else { key << 8 | preference });
        }
        table[router] = if best < u64::MAX { entry(best) } else { NONE };
    }
}

/// The entry of the route with this key, which has a way.
fn entry(key: u64) -> Pair {
    match key.to_le_bytes() {
        [0, egress, ..] => [egress, egress],
        [preference, egress, ..] => [egress, preference - 1],
    }
}
