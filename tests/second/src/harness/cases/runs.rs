//! Runs at their limits, on the small plan with p = q = 6, and a table with two
//! bytes after it.

use super::line::line;
use super::{small, START};

fn run(name: &str, sequence: &[u8], limit: u64) -> String {
    let mut table = [&START[..], &[77, 88]].concat();
    line(name, &small(6, 6), |line| line.run(0, sequence, limit, &mut table))
}

pub fn lines() -> Vec<String> {
    vec![
        run("limit-0", &[0, 1, 2, 3], 0),
        run("limit-1", &[0, 1, 2, 3], 1),
        run("limit-3", &[0, 1, 2, 3], 3),
        run("limit-4", &[0, 1, 2, 3], 4),
        run("limit-5", &[0, 1, 2, 3], 5),
        run("limit-largest", &[0, 1, 2, 3], u64::MAX),
        run("no-acts-limit-0", &[], 0),
        run("no-acts-limit-5", &[], 5),
        run("order-1-0", &[1, 0, 2, 3], 4),
        run("repeats", &[0, 0, 1, 1, 2, 2, 3], 7),
        run("two-rounds", &[0, 1, 2, 3, 3, 2, 1, 0], 8),
        run("two-rounds-limit-7", &[0, 1, 2, 3, 3, 2, 1, 0], 7),
        run("never-3", &[0, 1, 2, 0, 1, 2, 0, 1, 2], 9),
        run("round-over-two", &[3, 3, 2, 1, 0, 0, 1, 2], 8),
    ]
}
