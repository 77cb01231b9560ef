//! Damaged plans: aimed at one refusal number, or at random.

use super::draft::{distance_bytes, Bodies, Draft, NO_WAY};
use super::topology::ordered;
use crate::harness::random::Random;
use crate::oracle::mark::{Mark, MARKS};
use crate::oracle::plan::{CLIENT, FIRST_BODY, MOST_PARENTS, REFLECTOR, SKIPPING, STEPPING, STEPPING_AND_SKIPPING};
use std::collections::BTreeSet;

/// The refusal numbers that damage is aimed at.
pub const AIMED_AT: [u8; 8] = [1, 2, 3, 4, 5, 13, 6, 7];

/// A plan whose damage is aimed at the given refusal number. Where this is 4 or 5, a
/// client may have too many parents; where it is 13, there may be damage for 6 or 7.
pub fn aimed(random: &mut Random, draft: &Draft, refusal: u8) -> Vec<u8> {
    let mut bodies = draft.bodies();
    if refusal == 13 || [4, 5].contains(&refusal) && random.chance(40) {
        parents(random, &mut bodies);
    }
    match refusal {
        1 => return head(random, bodies.bytes(), bodies.mark),
        2 => return router_count(random, bodies.bytes()),
        3 => return contents(random, bodies),
        4 => routers(random, &mut bodies),
        5 => sessions(random, &mut bodies),
        6 => distances(random, &mut bodies),
        7 => lists(random, &mut bodies),
        _ => match random.below(4) {
            0 => distances(random, &mut bodies),
            1 => lists(random, &mut bodies),
            _ => (),
        },
    }
    bodies.bytes()
}

/// Damage of any kind, at times none that counts.
pub fn any(random: &mut Random, draft: &Draft) -> Vec<u8> {
    let mut plan = draft.bytes();
    match random.below(10) {
        0 => flip_bits(random, &mut plan, 1),
        1 => {
            let flips = random.between(2, 5);
            flip_bits(random, &mut plan, flips);
        }
        2 => plan.truncate(random.below(plan.len())),
        3 => {
            let count = random.between(1, 5);
            plan.extend(random.bytes(count));
        }
        4 => junk(random, &mut plan),
        5 => overwrite(random, &mut plan),
        6 => {
            let mut bodies = draft.bodies();
            cut(random, &mut bodies);
            return bodies.bytes();
        }
        7 => plan[..4].copy_from_slice(draft.mark.other().letters()),
        _ => return two_at_once(random, draft),
    }
    plan
}

fn flip_bits(random: &mut Random, plan: &mut [u8], count: usize) {
    for _ in 0..count {
        // The head takes half of the hits, or it would be met too seldom.
        let within = if random.chance(50) { FIRST_BODY } else { plan.len() };
        plan[random.below(within)] ^= 1 << random.below(8);
    }
}

fn overwrite(random: &mut Random, plan: &mut [u8]) {
    let value = random.pick(&[0, 1, 2, 63, 64, 65, 127, 128, 254, 255]);
    plan[random.below(plan.len())] = value;
}

fn junk(random: &mut Random, plan: &mut Vec<u8>) {
    let count = random.pick(&[0, 1, 25, 26, 27, 40, 300]);
    *plan = random.bytes(count);
    if count >= 26 && random.chance(70) {
        plan[..4].copy_from_slice(random.pick(&MARKS).letters());
        plan[4..6].copy_from_slice(&[3, 4]);
    }
}

/// Damage to two bodies, so that the order of the checks shows; often one is a client
/// with too many parents.
fn two_at_once(random: &mut Random, draft: &Draft) -> Vec<u8> {
    let mut bodies = draft.bodies();
    if random.chance(50) {
        parents(random, &mut bodies);
    } else {
        damage_body(random, &mut bodies);
    }
    damage_body(random, &mut bodies);
    let mut plan = bodies.bytes();
    match random.below(7) {
        0 => plan[3] = random.pick(b"0123"),
        1 => plan[4] = random.pick(&[0, 65]),
        2 => plan[5] = 3,
        3 => plan[6 + 5 * random.below(4)] = 9,
        _ => (),
    }
    plan
}

fn damage_body(random: &mut Random, bodies: &mut Bodies) {
    match random.below(5) {
        0 => routers(random, bodies),
        1 => sessions(random, bodies),
        2 => distances(random, bodies),
        3 => cut(random, bodies),
        _ => lists(random, bodies),
    }
}

fn head(random: &mut Random, mut plan: Vec<u8>, mark: Mark) -> Vec<u8> {
    match random.below(7) {
        0 => plan.truncate(random.pick(&[0, 1, 3, 4, 5, 6, 24, 25])),
        1..=2 => plan.resize(too_long(random, mark), 0),
        // The marks differ in two bits, so one alone leads from neither to the other.
        3 => plan[random.below(4)] ^= 1 << random.below(8),
        4 => plan[..4].copy_from_slice(random.pick(&[b"RRP0", b"RRP3", b"rrp1", b"rrp2", b"1PRR", b"RRP\x02"])),
        5 => plan[5] = random.pick(&[0, 3, 5, 255]),
        _ => {
            plan[4] = random.pick(&[0, 65]);
            plan[5] ^= 1 << random.below(8);
        }
    }
    plan
}

/// A length past the limit of a mark; for RRP1 often one that RRP2 allows.
fn too_long(random: &mut Random, mark: Mark) -> usize {
    let [short, long] = MARKS.map(Mark::longest_plan);
    match mark {
        Mark::Rrp1 => random.pick(&[short + 1, short + 1, short + 2, long, long, long + 1, 65_536, 65_562]),
        Mark::Rrp2 => random.pick(&[long + 1, long + 1, long + 2, 65_536, 65_562]),
    }
}

fn router_count(random: &mut Random, mut plan: Vec<u8>) -> Vec<u8> {
    plan[4] = random.pick(&[0, 65, 66, 127, 128, 192, 255]);
    plan
}

fn contents(random: &mut Random, mut bodies: Bodies) -> Vec<u8> {
    match random.below(14) {
        0 => _ = bodies.routers.pop(),
        1 => bodies.routers.push(0),
        2 => bodies.sessions.push(0),
        3 => _ = bodies.distances.pop(),
        4 => bodies.distances.extend([0, 0]),
        5 => return wrapped_contents(random, bodies),
        // Distances of the other mark's width; or its mark.
        6..=7 => bodies.write_distances(bodies.read_distances(), bodies.mark.other()),
        8..=9 => bodies.mark = bodies.mark.other(),
        _ => return contents_entry(random, bodies),
    }
    trim_to_longest(&mut bodies);
    bodies.bytes()
}

/// Offsets that fit one another only if their sums are cut to two bytes.
fn wrapped_contents(random: &mut Random, bodies: Bodies) -> Vec<u8> {
    let mut plan = bodies.bytes();
    let sessions_at = FIRST_BODY + bodies.routers.len();
    let distances_at = random.below(sessions_at / 2) * 2 + sessions_at % 2;
    let lists_at = distances_at + bodies.distances.len();
    let lists_length = plan.len() - lists_at;
    let mut set = |at: usize, value: usize| plan[at..at + 2].copy_from_slice(&(value as u16).to_le_bytes());
    set(14, 65_536 + distances_at - sessions_at);
    set(17, distances_at);
    set(22, lists_at);
    set(24, lists_length);
    plan
}

fn contents_entry(random: &mut Random, bodies: Bodies) -> Vec<u8> {
    let mut plan = bodies.bytes();
    let entry = 6 + 5 * random.below(4);
    match random.below(7) {
        0 => plan[entry] = random.pick(&[0, 5, 255]),
        1 => plan[entry + 1] ^= 1 << random.below(8),
        2 => plan[entry + 2] ^= 1 << random.below(8),
        3 => plan[entry + random.between(3, 4)] ^= 1 << random.below(8),
        4 if plan.len() < bodies.mark.longest_plan() => plan.push(0),
        5 if plan.len() < bodies.mark.longest_plan() => plan.resize(bodies.mark.longest_plan(), 0),
        _ => {
            let last = plan.len() - 1;
            plan.truncate(last.max(FIRST_BODY));
        }
    }
    plan
}

fn routers(random: &mut Random, bodies: &mut Bodies) {
    let n = usize::from(bodies.n);
    let routers = &mut bodies.routers;
    if n == 1 || random.chance(50) {
        routers[5 * random.below(n)] = random.pick(&[0, 6, 7, 129, 130, 131, 132, 133, 255]);
        return;
    }
    // An identifier equal to the one before it, or the two the wrong way round.
    let at = 5 * random.between(1, n - 1);
    if random.chance(50) {
        routers.copy_within(at - 4..at, at + 1);
    } else {
        (0..4).for_each(|byte| routers.swap(at - 4 + byte, at + 1 + byte));
    }
}

fn sessions(random: &mut Random, bodies: &mut Bodies) {
    let n = bodies.n;
    let sessions = &mut bodies.sessions;
    let pair = 2 * random.below((sessions.len() / 2).max(1));
    if sessions.is_empty() {
        sessions.extend([0, 0]);
    }
    match random.below(6) {
        0 => sessions.swap(pair, pair + 1),
        1 => sessions[pair] = sessions[pair + 1],
        2 => sessions[pair + 1] = random.pick(&[n, n + 1, 64, 128, 255]),
        3 => sessions[pair] = random.pick(&[n, 254, 255]),
        4 => {
            let again = sessions[pair..pair + 2].to_vec();
            sessions.splice(pair..pair, again);
        }
        _ => {
            // Two neighbouring pairs the wrong way round.
            let last = sessions.len() - 2;
            let from = pair.min(last.saturating_sub(2));
            let to = (from + 2).min(last);
            (0..2).for_each(|byte| sessions.swap(from + byte, to + byte));
        }
    }
    trim_to_longest(bodies);
}

/// A client has five or six parents, or as many as there are other routers; some are
/// made reflectors for that.
fn parents(random: &mut Random, bodies: &mut Bodies) {
    let mut routers: Vec<usize> = (0..usize::from(bodies.n)).collect();
    random.shuffle(&mut routers);
    // Clients first, so that few roles change.
    routers.sort_by_key(|router| bodies.routers[5 * router] != CLIENT);
    let client = routers[0];
    let parents = routers.iter().skip(1).rev().take(MOST_PARENTS + random.between(1, 2));
    bodies.routers[5 * client] = CLIENT;
    let pairs = bodies.sessions.chunks_exact(2).map(|pair| (usize::from(pair[0]), usize::from(pair[1])));
    let mut sessions: BTreeSet<(usize, usize)> = pairs.collect();
    for &parent in parents {
        if bodies.routers[5 * parent] == CLIENT {
            bodies.routers[5 * parent] = random.pick(&[REFLECTOR, SKIPPING, STEPPING, STEPPING_AND_SKIPPING]);
        }
        sessions.insert(ordered(client, parent));
    }
    bodies.sessions = sessions.iter().flat_map(|&(one, other)| [one as u8, other as u8]).collect();
    trim_to_longest(bodies);
}

/// Keeps a grown plan within the longest length, so that the damage shows, if its lists
/// are long enough for that.
fn trim_to_longest(bodies: &mut Bodies) {
    let excess = bodies.bytes().len().saturating_sub(bodies.mark.longest_plan());
    bodies.lists.truncate(bodies.lists.len().saturating_sub(excess));
}

/// The distance of a router to itself is not 0, or there is no way to itself.
fn distances(random: &mut Random, bodies: &mut Bodies) {
    let n = usize::from(bodies.n);
    let anywhere = random.below(n);
    let router = random.pick(&[0, n - 1, n / 2, anywhere]);
    let in_a_byte = random.pick(&[1, 128, 255]) << (8 * random.below(bodies.mark.width()));
    set_distance(bodies, router, router, random.pick(&[NO_WAY, NO_WAY, 65_535, in_a_byte, in_a_byte, in_a_byte]));
}

/// No way from one router to another, which is legal.
fn cut(random: &mut Random, bodies: &mut Bodies) {
    let n = usize::from(bodies.n);
    let (from, to) = (random.below(n), random.below(n));
    if from != to {
        set_distance(bodies, from, to, NO_WAY);
    }
}

fn set_distance(bodies: &mut Bodies, from: usize, to: usize, distance: u32) {
    let at = bodies.mark.width() * (from * usize::from(bodies.n) + to);
    let bytes = bodies.distances[at..].iter_mut();
    bytes.zip(distance_bytes(distance, bodies.mark)).for_each(|(byte, new)| *byte = new);
}

/// The lists are broken: how many there are, a count, a number, or what follows them.
fn lists(random: &mut Random, bodies: &mut Bodies) {
    let Some(last) = bodies.lists.len().checked_sub(1) else { return };
    // The counts that router numbers follow.
    let counts: Vec<usize> = bodies.counts().into_iter().filter(|&at| bodies.lists[at] > 0 && at < last).collect();
    let (n, lists) = (bodies.n, &mut bodies.lists);
    let count = if counts.is_empty() { last } else { random.pick(&counts) };
    match random.below(14) {
        0..=1 => lists.clear(),
        2..=3 => *lists = vec![0],
        4 => lists[0] = random.pick(&[0, 65, 255]),
        5 => lists[0] = lists[0].wrapping_add(1),
        6 => lists[0] = lists[0].wrapping_sub(1),
        7 => _ = lists.pop(),
        8 => lists.push(0),
        9 => lists[last] = random.pick(&[n, 255]),
        // All lists are empty: no router numbers follow the last count.
        _ if counts.is_empty() => lists[count] = random.pick(&[1, n + 1, 255]),
        // With 0, the numbers are read as lists, or are left over.
        10..=11 => lists[count] = random.pick(&[0, n + 1, 255]),
        12 => lists[count + 1] = random.pick(&[n, 64, 255]),
        _ => {
            // The first number twice.
            let twice = lists[count + 1];
            lists[count] = lists[count].wrapping_add(1);
            lists.insert(count + 1, twice);
        }
    }
    trim_to_longest(bodies);
}
