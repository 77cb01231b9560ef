//! The figures of a plan: decoded once, each list judged once.

use super::distance::Distance;
use super::rules::Network;
use super::verdict::{closure, reliances, Rows};
use super::{bits, has, MOST};

/// The stable lists and the suspect ones, and the highest rank.
pub struct Counted {
    pub lists: [u64; 2],
    pub highest: Option<u64>,
}

/// The number of the last layer, each of which has all those that rely on none but routers in
/// layers before; none if some are left.
fn highest(relies: &Rows, mut left: u64) -> Option<usize> {
    for rank in 0..MOST {
        let layer = bits(left).fold(0, |layer, u| layer | u64::from(relies[u] & left == 0) << u);
        left ^= layer;
        if left == 0 {
            return Some(rank);
        }
        if layer == 0 {
            return None;
        }
    }
    None
}

pub fn count<D: Distance>(mut network: Network<D>, by_rank: &mut [u8], by_router: &mut [u8]) -> Result<Counted, u8> {
    let n = network.bodies.n;
    if by_rank.len() < n || by_router.len() < n {
        return Err(9);
    }
    by_rank[..n].fill(0);
    by_router[..n].fill(0);
    let mut counted = Counted { lists: [0, 0], highest: None };
    let mut at = 1;
    for _ in 0..network.bodies.list_count() {
        let lists = network.bodies.lists;
        let numbers = &lists[at + 1..][..usize::from(lists[at])];
        at += 1 + numbers.len();
        network.listed = numbers.iter().fold(0, |listed, &router| listed | 1 << router);
        let relies = reliances(&network);
        if let Some(rank) = highest(&relies, u64::MAX >> (MOST - n)) {
            by_rank[rank] += 1;
            counted.lists[0] += 1;
            counted.highest = counted.highest.max(Some(rank as u64));
        } else {
            counted.lists[1] += 1;
            let reach = closure(n, &relies);
            for (u, lists) in by_router[..n].iter_mut().enumerate() {
                *lists += u8::from(has(reach[u], u));
            }
        }
    }
    Ok(counted)
}
