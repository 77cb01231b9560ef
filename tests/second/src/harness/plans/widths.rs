//! Distances that need the width of mark RRP2, or just do not.

use crate::harness::random::Random;
use crate::oracle::mark::Mark;

/// Numbers around what two bytes hold, and those at the end of four.
const AT_THE_ENDS: [u32; 6] = [65_534, 65_535, 65_536, 65_537, u32::MAX - 2, u32::MAX - 1];

/// A mark: half of the plans have each.
pub fn mark(random: &mut Random) -> Mark {
    random.pick(&[Mark::Rrp1, Mark::Rrp2])
}

/// Makes distances that fit two bytes into those of a plan of mark RRP2. In two of
/// seven plans they stay as they are.
pub fn spread(random: &mut Random, distances: &mut [Vec<u32>]) {
    match random.below(7) {
        0..=1 => (),
        // A single one that may not fit two bytes.
        2 => {
            let (from, to) = (random.below(distances.len()), random.below(distances.len()));
            let far = random.pick(&AT_THE_ENDS);
            replace(distances, |pair, distance| if pair == (from, to) { far } else { distance });
        }
        3 => {
            let share = random.pick(&[5, 30, 100]);
            replace(distances, |_, near| if random.chance(share) { random.pick(&AT_THE_ENDS) } else { near });
        }
        // Told apart by higher bytes, with or without the low ones.
        4 => {
            let factor = random.pick(&[256, 257, 65_536, 65_537]);
            replace(distances, |_, near| near * factor);
        }
        // Told apart by the low bytes, on either side of a bound.
        5 => {
            let more = random.pick(&[65_526, 65_536, 16_777_206, u32::MAX - 65_535]);
            replace(distances, |_, near| near + more);
        }
        _ => replace(distances, |_, _| random.below(u32::MAX as usize) as u32),
    }
}

/// Replaces the distances between two routers.
fn replace(distances: &mut [Vec<u32>], mut drawn: impl FnMut((usize, usize), u32) -> u32) {
    for (from, row) in distances.iter_mut().enumerate() {
        for (to, distance) in row.iter_mut().enumerate().filter(|&(to, _)| from != to) {
            *distance = drawn((from, to), *distance);
        }
    }
}
