//! Arguments for the calls: numbers at and past their bounds, flags, buffers too
//! short, exact and longer, routing tables sound and broken, sequences.

use crate::harness::random::Random;
use crate::interface::Handed;
use crate::oracle::rules::Case;
use crate::oracle::tables::NONE;

/// A number at or past its bound (which is at most 65), of many sizes; some
/// come out small if cut to fewer bits.
pub fn past(random: &mut Random, bound: usize) -> usize {
    let small = random.below(bound);
    let numbers = [
        bound,
        bound + 1,
        64.max(bound),
        255,
        256 + small,
        65_536 + small,
        (1 << 32) + small,
        (1 << 63) + small,
        usize::MAX,
        usize::MAX - small,
    ];
    random.pick(&numbers)
}

/// A number below the bound, or now and then one past it.
pub fn mostly_below(random: &mut Random, bound: usize) -> usize {
    if random.chance(85) {
        random.below(bound)
    } else {
        past(random, bound)
    }
}

/// A flag that says yes: 1, or another number that is not 0.
pub fn yes(random: &mut Random) -> u8 {
    random.pick(&[1, 2, 255])
}

/// A route to compare, told by its egress router or passed on.
pub fn handed(random: &mut Random, egress: usize) -> Handed {
    let direct = if random.chance(50) { yes(random) } else { 0 };
    Handed { egress, direct }
}

/// Random content: the need, or more.
pub fn buffer(random: &mut Random, need: usize) -> Vec<u8> {
    let more = random.pick(&[0, 0, 1, 2, 7, 64]);
    random.bytes(need + more)
}

/// A length below the need: nothing, one short, or anything between.
pub fn short(random: &mut Random, need: usize) -> usize {
    let between = random.below(need);
    random.pick(&[0, need - 1, between])
}

/// The four buffers of a verdict, none too short.
pub fn verdict_buffers(random: &mut Random, n: usize) -> [Vec<u8>; 4] {
    [n, n, 2 * n, n].map(|need| buffer(random, need))
}

/// The four buffers of a verdict, one or more of them too short.
pub fn short_verdict_buffers(random: &mut Random, n: usize) -> [Vec<u8>; 4] {
    let mut buffers = verdict_buffers(random, n);
    loop {
        let which = random.below(4);
        let need = if which == 2 { 2 * n } else { n };
        buffers[which].truncate(short(random, need));
        if random.chance(75) {
            return buffers;
        }
    }
}

/// A routing table: the listed routers hold their own route, each other one
/// none or any left-over route from any neighbour.
pub fn table(random: &mut Random, case: Case) -> Vec<u8> {
    let empty = random.pick(&[0, 20, 50, 100]);
    let entry = |router: usize| {
        let neighbours: Vec<usize> = case.plan.neighbours[router].iter().copied().collect();
        if case.is_listed(router) {
            [router as u8, router as u8]
        } else if neighbours.is_empty() || random.chance(empty) {
            [NONE, NONE]
        } else {
            [left_over(random, case, router) as u8, random.pick(&neighbours) as u8]
        }
    };
    (0..case.plan.n).flat_map(entry).collect()
}

/// The egress of a left-over route: any router, often one without a way or a listed one; or the
/// router itself, which then, if it is a reflector, tells others a route to itself though it is
/// not listed.
fn left_over(random: &mut Random, case: Case, router: usize) -> usize {
    let n = case.plan.n;
    let without_way: Vec<usize> = (0..n).filter(|&egress| !case.plan.has_way(router, egress)).collect();
    let listed: Vec<usize> = case.listed.iter().copied().collect();
    match random.below(20) {
        0..=2 => router,
        3..=7 if !without_way.is_empty() => random.pick(&without_way),
        8..=12 if !listed.is_empty() => random.pick(&listed),
        _ => random.below(n),
    }
}

/// A routing table with bytes after it that are no part of it.
pub fn table_buffer(random: &mut Random, case: Case) -> Vec<u8> {
    let mut table = table(random, case);
    let more = random.pick(&[0, 0, 1, 2, 9]);
    table.extend(random.bytes(more));
    table
}

/// A table with an entry that breaks the rule (or, seldom, does not).
pub fn broken_table(random: &mut Random, case: Case) -> Vec<u8> {
    let n = case.plan.n;
    let mut table = table_buffer(random, case);
    if random.chance(10) {
        return random.bytes(table.len());
    }
    let anywhere = random.below(n);
    let router = random.pick(&[0, n - 1, anywhere]);
    let any = random.below(n) as u8;
    let strange = random.pick(&[n as u8, 64, 128, 254]);
    let entry = &mut table[2 * router..2 * router + 2];
    match random.below(8) {
        0 => entry[0] = NONE,
        1 => entry[1] = NONE,
        2 => entry[0] = strange,
        3 => entry[1] = strange,
        4 => entry[1] = router as u8,
        5 => entry[1] = any,
        6 => entry.fill(NONE),
        _ => entry.fill(any),
    }
    table
}

/// A sequence of acts, of many lengths and kinds.
pub fn sequence(random: &mut Random, n: usize) -> Vec<u8> {
    let length = match random.below(8) {
        0 => 0,
        1 => 1,
        2 => n,
        3 => n - 1,
        4..=6 => random.below(3 * n + 4),
        _ => 260 + random.below(100),
    };
    let kind = random.below(4);
    let idle = random.below(n);
    let act = |place: usize| match kind {
        0 => place % n,
        1 => n - 1 - place % n,
        2 if n > 1 => (idle + 1 + random.below(n - 1)) % n,
        _ => random.below(n),
    };
    (0..length).map(act).map(|router| router as u8).collect()
}

/// The same sequence with one router number that is n or more.
pub fn strange_sequence(random: &mut Random, n: usize) -> Vec<u8> {
    let mut sequence = sequence(random, n);
    let at = random.below(sequence.len() + 1);
    sequence.insert(at, random.pick(&[n as u8, 64.max(n as u8), 128, 255]));
    sequence
}

/// A limit of a run: nothing, below, at and above the length, and some that
/// come out small if cut to fewer bits.
pub fn limit(random: &mut Random, length: usize) -> u64 {
    let length = length as u64;
    let below = random.below(length as usize + 1) as u64;
    let limits = [0, below, length.saturating_sub(1), length, length + 1, u64::MAX, (1 << 32) + below, 256 + below];
    random.pick(&limits)
}
