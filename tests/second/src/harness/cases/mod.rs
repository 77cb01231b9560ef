//! The lines that the program `cases` is due to print: its plans and questions,
//! written here anew, and the oracle's answers.

mod asked;
mod cuts;
mod damaged;
mod empty_lists;
mod grades;
mod hop_steps;
mod limits;
mod line;
mod misread;
mod parents;
mod runs;
mod skips;
mod steady;
mod widths;

use super::plans::small_plans;

/// The lists of the small plan.
const LISTS: [&[usize]; 4] = [&[2, 3], &[3], &[0], &[1, 2, 3]];

/// The table in which routers 2 and 3 hold their own route and no other holds any.
const START: [u8; 8] = [255, 255, 255, 255, 2, 2, 3, 3];

/// The small plan: `p` is the distance from 0 to 3, `q` the one from 1 to 2.
fn small(p: u32, q: u32) -> Vec<u8> {
    small_plans::draft(p, q, &LISTS).bytes()
}

/// All lines of the program.
pub fn lines() -> String {
    let plans = [limits::lines(), damaged::lines(), parents::lines(), asked::lines()];
    let rules = [misread::lines(), runs::lines(), cuts::lines(), skips::lines()];
    let requests = [widths::lines(), empty_lists::lines(), hop_steps::lines(), steady::lines(), grades::lines()];
    [plans.concat(), rules.concat(), requests.concat()].concat().concat()
}
