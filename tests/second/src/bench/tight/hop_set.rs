//! A smallest set of routers to give the hop step, over rows of bits of the routers in groups.

use super::distance::Distance;
use super::rules::Network;
use super::steady::number;
use super::verdict::{closure, reliances};
use super::{bits, has};

/// Whether none of those left relies on itself by way of others left: again and again those that
/// rely on none left are taken away.
fn serves(rows: &[u64], mut left: u64) -> bool {
    loop {
        let before = left;
        for place in bits(before) {
            left &= !(u64::from(rows[place] & left == 0) << place);
        }
        if left == before {
            return left == 0;
        }
    }
}

pub fn hop_set<D: Distance>(network: &Network<D>) -> Result<u64, u8> {
    let n = network.bodies.n;
    let relies = reliances(network);
    let reach = closure(n, &relies);
    let grouped = (0..n).fold(0, |grouped, u| grouped | u64::from(has(reach[u], u)) << u);
    let count = grouped.count_ones();
    if count > 12 {
        return Err(15);
    }
    let mut rows = [0; 12];
    for (row, u) in rows.iter_mut().zip(bits(grouped)) {
        *row = number(grouped, relies[u]) as u64;
    }
    let all = (1 << count) - 1;
    for size in 0..count {
        let mut set = (1u64 << size) - 1;
        while set <= all {
            if serves(&rows, all & !set) {
                return Ok(set);
            }
            if set == 0 {
                break;
            }
            // The next number with as many bits.
            let (lowest, carried) = (set & set.wrapping_neg(), set + (set & set.wrapping_neg()));
            set = carried | ((set ^ carried) / lowest) >> 2;
        }
    }
    Ok(all)
}
