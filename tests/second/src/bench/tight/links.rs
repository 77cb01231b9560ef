//! Distances from a sheet of links: Floyd and Warshall's loops, row by row, past
//! routers that do not reach the one in the middle. Sums are two bytes and stop at
//! 65,535, which is also what a pair without a walk has. Only if there are such, the
//! routers that each one reaches are found, as a set of bits.

use super::verdict::closure;
use super::{Pair, MOST};

/// A pair without a walk, or with a least sum that is too large.
const MOST_SUM: u16 = 65_535;

/// So many sums are worked out at once.
const BLOCK: usize = 8;

struct Sheet {
    sums: [[u16; MOST]; MOST],
    /// The routers that each one has links to, and itself.
    linked: [u64; MOST],
}

pub fn distances(n: usize, links: &[u8], out: &mut [u8]) -> Result<(), u8> {
    if n == 0 || n > MOST {
        return Err(2);
    }
    let mut sheet = Sheet { sums: [[MOST_SUM; MOST]; MOST], linked: [0; MOST] };
    sheet.read(links, n)?;
    sheet.lower(n);
    if sheet.is_too_far(n) {
        return Err(12);
    }
    let (out, _) = out.as_chunks_mut::<2>();
    let out: &mut [Pair] = out.get_mut(..n * n).ok_or(9)?;
    for (lent, row) in out.chunks_exact_mut(n).zip(&sheet.sums) {
        lent.iter_mut().zip(row).for_each(|(lent, &sum)| *lent = sum.to_le_bytes());
    }
    Ok(())
}

impl Sheet {
    /// Checks the links and enters each weight on the way.
    fn read(&mut self, links: &[u8], n: usize) -> Result<(), u8> {
        let (links, rest) = links.as_chunks();
        if !rest.is_empty() || links.len() > 512 {
            return Err(11);
        }
        let mut least = 0;
        for &[from, to, low, high] in links {
            let ends = u16::from_be_bytes([from, to]);
            let weight = u16::from_le_bytes([low, high]);
            if usize::from(from) >= n || usize::from(to) >= n || weight == 0 || ends < least {
                return Err(11);
            }
            self.sums[usize::from(from)][usize::from(to)] = weight;
            self.linked[usize::from(from)] |= 1 << to;
            least = ends + 1;
        }
        for router in 0..n {
            self.sums[router][router] = 0;
            self.linked[router] |= 1 << router;
        }
        Ok(())
    }

    /// Lowers every sum to the least one. Columns past the routers stay as they are.
    fn lower(&mut self, n: usize) {
        let blocks = n.div_ceil(BLOCK);
        for middle in 0..n {
            let beyond = self.sums[middle];
            let beyond = &beyond.as_chunks::<BLOCK>().0[..blocks];
            for row in &mut self.sums[..n] {
                let first = row[middle];
                if first == MOST_SUM {
                    continue;
                }
                for (block, beyond) in row.as_chunks_mut::<BLOCK>().0.iter_mut().zip(beyond) {
                    let through = beyond.map(|sum| sum.saturating_add(first));
                    block.iter_mut().zip(through).for_each(|(sum, through)| *sum = through.min(*sum));
                }
            }
        }
    }

    /// Whether a row has the most sum for more routers than those it does not reach.
    fn is_too_far(&self, n: usize) -> bool {
        let count = |row: &[u16; MOST]| row[..n].iter().map(|&sum| u16::from(sum == MOST_SUM)).sum::<u16>();
        let counts = || self.sums[..n].iter().map(count);
        if counts().all(|count| count == 0) {
            return false;
        }
        let reached = closure(n, &self.linked);
        counts().zip(reached).any(|(count, reached)| u32::from(count) + reached.count_ones() > n as u32)
    }
}
