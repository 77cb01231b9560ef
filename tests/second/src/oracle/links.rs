//! Distances from a sheet of links, written from document 02 (Slips 1 and 2):
//! Dijkstra's search from each router; refusals 2, 11 and 12.

use super::plan::{Router, MOST_ROUTERS};
use std::cmp::Reverse;
use std::collections::{BTreeMap, BinaryHeap};

pub const MOST_LINKS: usize = 512;
pub const FARTHEST: u64 = 65_534;

/// What is written where there is no walk.
const NO_WALK: u16 = 65_535;

/// A link as bytes: from, to, weight low byte first.
pub type LinkBytes = [u8; 4];

/// The weight of the link from one router to another, if there is one.
pub type Links = BTreeMap<(Router, Router), u64>;

/// For each router the least sum of weights over all walks to each; none if
/// there is no walk.
pub type Sums = Vec<Vec<Option<u64>>>;

/// The distances as a body of kind 3, or the number of the refusal.
pub fn body(n: usize, bytes: &[u8]) -> Result<Vec<u8>, u8> {
    written(&least_sums(n, &read(n, bytes)?))
}

/// Reads a sheet; refusals 2 and 11.
pub fn read(n: usize, bytes: &[u8]) -> Result<Links, u8> {
    if !(1..=MOST_ROUTERS).contains(&n) {
        return Err(2);
    }
    let (links, rest) = bytes.as_chunks::<4>();
    let ends = |link: &LinkBytes| (Router::from(link[0]), Router::from(link[1]));
    let weight = |link: &LinkBytes| u64::from(link[2]) + 256 * u64::from(link[3]);
    let fits = |link: &LinkBytes| ends(link).0 < n && ends(link).1 < n && weight(link) >= 1;
    let rises = links.is_sorted_by(|one, next| ends(one) < ends(next));
    if !rest.is_empty() || links.len() > MOST_LINKS || !links.iter().all(fits) || !rises {
        return Err(11);
    }
    Ok(links.iter().map(|link| (ends(link), weight(link))).collect())
}

pub fn least_sums(n: usize, links: &Links) -> Sums {
    (0..n).map(|from| least_sums_from(from, n, links)).collect()
}

/// Dijkstra's search: routers are reached in the order of their least sums.
fn least_sums_from(from: Router, n: usize, links: &Links) -> Vec<Option<u64>> {
    let mut sums = vec![None; n];
    let mut waiting = BinaryHeap::from([Reverse((0, from))]);
    while let Some(Reverse((sum, at))) = waiting.pop() {
        if sums[at].is_none() {
            sums[at] = Some(sum);
            for (&(_, to), weight) in links.range((at, 0)..(at + 1, 0)) {
                waiting.push(Reverse((sum + weight, to)));
            }
        }
    }
    sums
}

/// The body of kind 3 with these sums: row by row, two bytes each, low byte first.
pub fn written(sums: &Sums) -> Result<Vec<u8>, u8> {
    let distances: Result<Vec<u16>, u8> = sums.iter().flatten().map(|&sum| distance(sum)).collect();
    Ok(distances?.into_iter().flat_map(u16::to_le_bytes).collect())
}

/// What is written for a least sum, or for none; refusal 12.
fn distance(sum: Option<u64>) -> Result<u16, u8> {
    match sum {
        None => Ok(NO_WALK),
        Some(sum) if sum > FARTHEST => Err(12),
        Some(sum) => Ok(sum as u16),
    }
}
