//! Inputs of the program `margin`: three bytes and then a plan.

use super::generate;
use crate::harness::random::Random;

/// The input of the given number; it depends on the seed and the number alone.
/// One of twenty has at most three bytes.
pub fn numbered(seed: u64, number: u64) -> Vec<u8> {
    let (mut plan, mut random) = generate::numbered(seed, number);
    if number % 20 == 5 {
        plan.clear();
    }
    let n = plan.get(4).copied().unwrap_or(4);
    let mut input = asked(&mut random, n).to_vec();
    if plan.is_empty() {
        input.truncate(random.below(4));
    }
    [input, plan].concat()
}

/// Router, first and second: below n, or now and then one that is not.
fn asked(random: &mut Random, n: u8) -> [u8; 3] {
    let mut asked = [0; 3].map(|_: u8| random.below(usize::from(n.max(1))) as u8);
    match random.below(10) {
        0 => asked[random.below(3)] = random.pick(&[n, n.saturating_add(1), 64, 128, 255]),
        1 => asked[1] = asked[0],
        2 => asked[2] = asked[0],
        3 => asked[2] = asked[1],
        _ => (),
    }
    asked
}
