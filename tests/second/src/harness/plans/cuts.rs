//! Plans with cut-off routers: ways taken out of a plan.

use super::draft::NO_WAY;
use super::topology::{all_pairs, ordered, Topology};
use crate::harness::random::Random;
use crate::oracle::mark::Mark;
use crate::oracle::plan::Router;
use std::collections::BTreeSet;

/// Takes ways out of a plan of this mark, none in two of five plans.
pub fn cut(random: &mut Random, mark: Mark, topology: &Topology, distances: &mut [Vec<u32>]) {
    let n = topology.0.len();
    match random.below(10) {
        0..=3 => (),
        4..=5 => {
            // Single pairs, one way each.
            let percent = random.between(10, 50);
            cut_where(distances, |_, _| random.chance(percent));
        }
        6 => {
            // Single pairs, both ways.
            let percent = random.between(10, 50);
            let cuts: BTreeSet<(Router, Router)> = all_pairs(n).filter(|_| random.chance(percent)).collect();
            cut_where(distances, |from, to| cuts.contains(&ordered(from, to)));
        }
        7 => cut_parts(random, distances),
        8 => cut_clients(random, topology, distances),
        _ => {
            // The greatest distance beside no way, or what is no way in RRP1 alone.
            let greatest = if random.chance(70) { mark.farthest() } else { mark.farthest().min(65_535) };
            let (far, percent) = (random.pick(&[20, 50, 100]), random.between(10, 50));
            replace(distances, |_, _| {
                let distance = if random.chance(percent) { NO_WAY } else { greatest };
                random.chance(far).then_some(distance)
            });
        }
    }
}

/// Replaces the distances between two routers for which another is drawn.
fn replace(distances: &mut [Vec<u32>], mut drawn: impl FnMut(Router, Router) -> Option<u32>) {
    for (from, row) in distances.iter_mut().enumerate() {
        for (to, distance) in row.iter_mut().enumerate().filter(|&(to, _)| from != to) {
            *distance = drawn(from, to).unwrap_or(*distance);
        }
    }
}

fn cut_where(distances: &mut [Vec<u32>], mut is_cut: impl FnMut(Router, Router) -> bool) {
    replace(distances, |from, to| is_cut(from, to).then_some(NO_WAY));
}

/// No way between two parts of the network, in one direction or in both.
fn cut_parts(random: &mut Random, distances: &mut [Vec<u32>]) {
    let share = random.pick(&[10, 30, 50]);
    let part: Vec<bool> = distances.iter().map(|_| random.chance(share)).collect();
    let (out, back) = random.pick(&[(true, false), (false, true), (true, true), (true, true)]);
    cut_where(distances, |from, to| (out && part[from] && !part[to]) || (back && !part[from] && part[to]));
}

/// Some reflectors have no way to any of their clients, or some clients none to
/// any neighbour.
fn cut_clients(random: &mut Random, topology: &Topology, distances: &mut [Vec<u32>]) {
    let (reflector, sessions) = topology;
    let of_reflectors = random.chance(70);
    let share = random.pick(&[30, 50, 100]);
    let chosen: Vec<bool> = reflector.iter().map(|&role| role == of_reflectors && random.chance(share)).collect();
    cut_where(distances, |from, to| {
        chosen[from] && sessions.contains(&ordered(from, to)) && !(of_reflectors && reflector[to])
    });
}
