//! The calls compared for one sheet of links, sound and damaged.

use super::arguments;
use super::call::Call;
use super::compare::{Comparison, Mismatch, Outcome};
use crate::harness::plans::sheets::{self, DAMAGES};
use crate::harness::random::Random;
use crate::oracle::plan::MOST_ROUTERS;

/// All calls for one random sheet.
pub fn compare(comparison: &mut Comparison, random: &mut Random) -> Outcome {
    let sheet = sheets::sound(random);
    let (n, links, need) = (sheet.n, sheet.bytes(), 2 * sheet.n * sheet.n);
    comparison.counts.sheets += 1;
    let out = arguments::buffer(random, need);
    if distances(comparison, n, &links, out)? == 0 {
        comparison.counts.sheets_with_distances += 1;
    }
    let short = arguments::short(random, need);
    let out = random.bytes(short);
    distances(comparison, n, &links, out)?;
    let damage = random.pick(&DAMAGES);
    let damaged = sheets::damaged(random, &sheet, damage);
    let counts = [(n, &damaged), (other_count(random, n), &damaged), (other_count(random, n), &links)];
    for (n, links) in counts {
        let out = any_buffer(random, need);
        distances(comparison, n, links, out)?;
    }
    let length = random.below(40);
    let (bytes, out) = (random.bytes(length), any_buffer(random, need));
    distances(comparison, n, &bytes, out).map(|_| ())
}

/// Makes the call, which is about no plan; its refusal number.
fn distances(comparison: &mut Comparison, n: usize, links: &[u8], out: Vec<u8>) -> Result<u8, Box<Mismatch>> {
    comparison.call(&[], &Call::Distances { n, links: links.to_vec(), out }).map(|answer| answer.refusal)
}

/// A buffer long enough or too short.
fn any_buffer(random: &mut Random, need: usize) -> Vec<u8> {
    if random.chance(50) {
        return arguments::buffer(random, need);
    }
    let short = arguments::short(random, need);
    random.bytes(short)
}

/// Another number of routers than the sheet's: near it, none, or too many, and
/// some that come out as the sheet's own if cut to fewer bits.
fn other_count(random: &mut Random, n: usize) -> usize {
    match random.below(4) {
        0 => random.pick(&[n - 1, n + 1, MOST_ROUTERS]),
        1 => random.pick(&[0, MOST_ROUTERS + 1, 128, 255, 256, 257, usize::MAX]),
        2 => random.pick(&[256 + n, 65_536 + n, (1 << 32) + n, (1 << 63) + n]),
        _ => arguments::past(random, MOST_ROUTERS + 1),
    }
}
