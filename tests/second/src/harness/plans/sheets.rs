//! Sheets of links, sound and damaged: sparse, dense and full ones, with and
//! without a walk between all pairs, weights small, large and at their bounds.

use crate::harness::random::Random;
use crate::oracle::links::{LinkBytes, FARTHEST, MOST_LINKS};
use crate::oracle::plan::{Router, MOST_ROUTERS};
use std::collections::BTreeMap;

/// A sheet of links that follows the rules.
pub struct Sheet {
    pub n: usize,
    pub weights: BTreeMap<(Router, Router), u16>,
}

impl Sheet {
    pub fn links(&self) -> Vec<LinkBytes> {
        let link = |(&(from, to), weight): (&(Router, Router), &u16)| {
            let [low, high] = weight.to_le_bytes();
            [from as u8, to as u8, low, high]
        };
        self.weights.iter().map(link).collect()
    }

    pub fn bytes(&self) -> Vec<u8> {
        self.links().concat()
    }
}

/// The fewest routers that have more pairs than a sheet may have links.
const ROUTERS_FOR_MANY: usize = 23;

fn router_count(random: &mut Random) -> usize {
    match random.below(20) {
        0..=3 => random.between(1, 4),
        4..=11 => random.between(3, 10),
        12..=16 => random.between(8, 24),
        17..=18 => random.between(20, 62),
        _ => random.pick(&[31, 32, 33, 63, MOST_ROUTERS]),
    }
}

/// A random sheet that follows the rules; pairs without a walk and sums too
/// large are among them.
pub fn sound(random: &mut Random) -> Sheet {
    let n = router_count(random);
    match random.below(8) {
        0 => scattered(random, n),
        1 => long_way(random, n),
        2 => {
            let n = n.max(ROUTERS_FOR_MANY);
            ring_and(random, n, MOST_LINKS)
        }
        3 => ring_and(random, n, MOST_LINKS.min(n * n)),
        4 => cut_off(random, n),
        _ => {
            let links = n + random.below(2 * n);
            ring_and(random, n, links.min(n * n))
        }
    }
}

/// How the weights of a sheet are drawn.
fn weight(random: &mut Random, kind: usize) -> u16 {
    match kind {
        0 => 1,
        1 => 65_535,
        2 => random.between(1, 65_535) as u16,
        3 => random.pick(&[1, 2, 255, 256, 257, 32_768, 65_534, 65_535]),
        4 => random.between(1, 2000) as u16,
        _ => random.between(1, 20) as u16,
    }
}

/// The routers in any order.
fn shuffled(random: &mut Random, n: usize) -> Vec<Router> {
    let mut order: Vec<Router> = (0..n).collect();
    random.shuffle(&mut order);
    order
}

/// The links of a ring through these routers.
fn ring(order: &[Router]) -> impl Iterator<Item = (Router, Router)> + '_ {
    let next = order.iter().cycle().skip(1);
    order.iter().copied().zip(next.copied()).filter(|(from, to)| from != to)
}

/// A ring through all routers, so that each pair has a walk, and links between
/// any two, some from a router to itself, until there are `count`.
pub fn ring_and(random: &mut Random, n: usize, count: usize) -> Sheet {
    let kind = random.below(8);
    let order = shuffled(random, n);
    let mut weights: BTreeMap<(Router, Router), u16> =
        ring(&order).map(|pair| (pair, weight(random, kind))).collect();
    while weights.len() < count {
        let pair = (random.below(n), random.below(n));
        weights.insert(pair, weight(random, kind));
    }
    Sheet { n, weights }
}

/// Each link is there with the same chance.
fn scattered(random: &mut Random, n: usize) -> Sheet {
    let kind = random.below(8);
    let percent = random.pick(&[0, 5, 20, 50, 90]).min(100 * MOST_LINKS / (n * n) * 4 / 5);
    let pairs = (0..n).flat_map(|from| (0..n).map(move |to| (from, to)));
    let mut chosen: Vec<(Router, Router)> = pairs.filter(|_| random.chance(percent)).collect();
    chosen.truncate(MOST_LINKS);
    Sheet { n, weights: chosen.into_iter().map(|pair| (pair, weight(random, kind))).collect() }
}

/// No walk leads from some routers to others: all links one way between them
/// are taken out.
fn cut_off(random: &mut Random, n: usize) -> Sheet {
    let links = n + random.below(4 * n);
    let mut sheet = ring_and(random, n, links.min(n * n).min(MOST_LINKS));
    let order = shuffled(random, n);
    let part = &order[..random.below(n + 1)];
    sheet.weights.retain(|(from, to), _| part.contains(to) || !part.contains(from));
    sheet
}

/// A ring, closed or open, of which all links but the last make up a sum at or near
/// the bound, or twice that; and some links of the greatest weight.
fn long_way(random: &mut Random, n: usize) -> Sheet {
    let order = shuffled(random, n);
    let sums = [FARTHEST - 1, FARTHEST, FARTHEST + 1, FARTHEST + 2, FARTHEST + 9, 2 * FARTHEST + 3];
    let mut left = random.pick(&sums) as usize;
    let mut weights: BTreeMap<(Router, Router), u16> = ring(&order).map(|pair| (pair, 1)).collect();
    // The link that closes the ring keeps weight 1, or is taken out.
    for place in 1..n {
        let others = n - 1 - place;
        let most = left.saturating_sub(others).clamp(1, 65_535);
        let share = if others == 0 || random.chance(40) { most } else { random.between(1, most) };
        weights.insert((order[place - 1], order[place]), share as u16);
        left = left.saturating_sub(share);
    }
    let closed = random.chance(60);
    if !closed {
        weights.remove(&(order[n - 1], order[0]));
    }
    let more = if closed || random.chance(50) { random.below(n + 1) } else { 0 };
    for _ in 0..more {
        let pair = (random.below(n), random.below(n));
        weights.entry(pair).or_insert(65_535);
    }
    Sheet { n, weights }
}

/// The ways to break a rule of the links (refusal 11).
#[derive(Clone, Copy, Debug)]
pub enum Damage {
    TooMany,
    BytesAfter,
    FromPastTheRouters,
    ToPastTheRouters,
    WeightZero,
    TwiceTheSame,
    NeighboursExchanged,
    AnyTwoExchanged,
}

pub const DAMAGES: [Damage; 8] = [
    Damage::TooMany,
    Damage::BytesAfter,
    Damage::FromPastTheRouters,
    Damage::ToPastTheRouters,
    Damage::WeightZero,
    Damage::TwiceTheSame,
    Damage::NeighboursExchanged,
    Damage::AnyTwoExchanged,
];

/// The bytes of a sheet with this damage, at times none that counts.
pub fn damaged(random: &mut Random, sheet: &Sheet, damage: Damage) -> Vec<u8> {
    let n = sheet.n as u8;
    let strange = random.pick(&[n, n + 1, 64.max(n), 128, 255]);
    let mut links = sheet.links();
    if links.is_empty() {
        links.push([0, 0, 1, 0]);
    }
    let last = links.len() - 1;
    let (place, other) = (random.below(links.len()), random.below(links.len()));
    match damage {
        Damage::TooMany => return too_many(random, sheet.n.max(ROUTERS_FOR_MANY)),
        Damage::BytesAfter => return cut(random, &links.concat()),
        Damage::FromPastTheRouters => links[last][0] = strange,
        Damage::ToPastTheRouters => {
            // The last link of a router, so that the links rise still.
            let from = links[place][0];
            links.iter_mut().rfind(|link| link[0] == from).expect("a link")[1] = strange;
        }
        Damage::WeightZero => links[place][2..].fill(0),
        Damage::TwiceTheSame => {
            let mut again = links[place];
            again[2] ^= random.pick(&[0, 0, 1, 128]);
            links.insert(place, again);
            links.truncate(MOST_LINKS);
        }
        Damage::NeighboursExchanged => links.swap(place, place.max(1) - 1),
        Damage::AnyTwoExchanged => links.swap(place, other),
    }
    links.concat()
}

/// Links among n routers that break no rule but for being too many.
fn too_many(random: &mut Random, n: usize) -> Vec<u8> {
    let more = random.pick(&[1, 1, 2, 9, MOST_LINKS]);
    ring_and(random, n, (MOST_LINKS + more).min(n * n)).bytes()
}

/// A few bytes after the links, or the last link cut.
fn cut(random: &mut Random, bytes: &[u8]) -> Vec<u8> {
    let bytes = if random.chance(50) { &bytes[..bytes.len() - 4] } else { bytes };
    let more = random.between(1, 3);
    [bytes, &random.bytes(more)].concat()
}
