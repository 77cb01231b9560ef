//! What document 02 states of links and their distances, on small sheets.

use super::same;
use crate::Outcome;
use second_checker::interface::Checker;
use second_checker::oracle::links::LinkBytes;
use second_checker::oracle::Oracle;

/// Links from router to router, with a weight each.
type Drawn<'a> = &'a [(u8, u8, u16)];

fn bytes(links: Drawn) -> Vec<u8> {
    let link = |&(from, to, weight): &(u8, u8, u16)| -> LinkBytes {
        let [low, high] = weight.to_le_bytes();
        [from, to, low, high]
    };
    links.iter().map(link).collect::<Vec<_>>().concat()
}

/// Refusal and the buffer, of nines before, after the call.
fn answer(n: usize, links: &[u8], lent: usize) -> (u8, Vec<u8>) {
    let mut out = vec![9; lent];
    (Oracle::right().distances(n, links, &mut out), out)
}

fn writes(what: &str, n: usize, links: Drawn, out: &[u8]) -> Outcome {
    same(what, answer(n, &bytes(links), out.len()), (0, out.to_vec()))
}

fn refuses(what: &str, refusal: u8, n: usize, links: &[u8], lent: usize) -> Outcome {
    same(what, answer(n, links, lent), (refusal, vec![9; lent]))
}

#[test]
fn distances_are_the_least_sums_and_65535_without_a_walk() -> Outcome {
    writes("one router", 1, &[], &[0, 0])?;
    writes("bytes after the distances", 1, &[], &[0, 0, 9, 9])?;
    let three = [0, 0, 10, 0, 15, 0, 49, 1, 0, 0, 5, 0, 44, 1, 54, 1, 0, 0];
    writes("three routers", 3, &[(0, 1, 10), (0, 2, 30), (1, 2, 5), (2, 0, 300)], &three)?;
    writes("a loop", 3, &[(0, 1, 10), (0, 2, 30), (1, 1, 3), (1, 2, 5), (2, 0, 300)], &three)?;
    writes("a loop alone", 1, &[(0, 0, 7)], &[0, 0])?;
    writes("weight 65534", 2, &[(0, 1, 65_534), (1, 0, 1)], &[0, 0, 254, 255, 1, 0, 0, 0])?;
    let sum = [0, 0, 253, 255, 254, 255, 2, 0, 0, 0, 1, 0, 1, 0, 254, 255, 0, 0];
    writes("sum 65534", 3, &[(0, 1, 65_533), (1, 2, 1), (2, 0, 1)], &sum)?;
    writes("no walk back", 2, &[(0, 1, 1)], &[0, 0, 1, 0, 255, 255, 0, 0])?;
    writes("no links", 2, &[], &[0, 0, 255, 255, 255, 255, 0, 0])?;
    writes("65534, and no walk back", 2, &[(0, 1, 65_534)], &[0, 0, 254, 255, 255, 255, 0, 0])?;
    let detour = [0, 0, 1, 0, 2, 0, 2, 0, 0, 0, 1, 0, 1, 0, 2, 0, 0, 0];
    writes("weight 65535 outdone", 3, &[(0, 1, 1), (0, 2, 65_535), (1, 2, 1), (2, 0, 1)], &detour)
}

/// So many links of weight 1 among 23 routers.
fn many(count: usize) -> Vec<u8> {
    let links: Vec<_> = (0..23).flat_map(|from| (0..23).map(move |to| (from, to, 1))).take(count).collect();
    bytes(&links)
}

#[test]
fn links_that_break_a_rule_are_refused_with_11() -> Outcome {
    let eleven = |what: &str, links: Drawn| refuses(what, 11, 2, &bytes(links), 8);
    eleven("weight 0", &[(0, 1, 1), (1, 0, 0)])?;
    eleven("from n", &[(0, 1, 1), (1, 0, 1), (2, 0, 1)])?;
    eleven("to n", &[(0, 1, 1), (1, 0, 1), (1, 2, 1)])?;
    eleven("equal links", &[(0, 1, 1), (1, 0, 1), (1, 0, 2)])?;
    eleven("falling to", &[(0, 1, 1), (1, 1, 1), (1, 0, 1)])?;
    eleven("falling from", &[(1, 0, 1), (0, 1, 1)])?;
    refuses("three bytes", 11, 1, &[0, 0, 1], 2)?;
    refuses("513 links", 11, 23, &many(513), 2 * 23 * 23)?;
    same("512 links", answer(23, &many(512), 2 * 23 * 23).0, 0)
}

#[test]
fn a_least_sum_above_65534_is_refused_with_12() -> Outcome {
    let twelve = |what: &str, n: usize, links: Drawn| refuses(what, 12, n, &bytes(links), 2 * n * n);
    twelve("a walk too far, and none", 3, &[(0, 1, 65_533), (1, 2, 2)])?;
    twelve("weight 65535", 2, &[(0, 1, 65_535), (1, 0, 1)])?;
    twelve("sum 65535", 3, &[(0, 1, 65_533), (1, 2, 2), (2, 0, 1)])?;
    twelve("sum 65536", 3, &[(0, 1, 65_535), (1, 2, 1), (2, 0, 1)])
}

#[test]
fn sheets_are_refused_in_the_order_2_11_12_9() -> Outcome {
    for n in [0, 65, 256, 257, usize::MAX] {
        refuses("number of routers", 2, n, &[0], 0)?;
    }
    refuses("broken, too far, short", 11, 2, &[0, 1, 255, 255, 0], 7)?;
    refuses("too far, short", 12, 2, &[0, 1, 255, 255], 7)?;
    refuses("without a walk, short", 9, 2, &[], 7)?;
    refuses("short", 9, 2, &bytes(&[(0, 1, 1), (1, 0, 1)]), 7)
}
