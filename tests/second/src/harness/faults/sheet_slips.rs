//! The slips of checkers in the call for distances.

use super::slips::Slip;
use crate::oracle::links::{self, Links, Sums, FARTHEST, MOST_LINKS};
use crate::oracle::plan::MOST_ROUTERS;

/// The call with one slip.
pub fn distances(slip: Slip, n: usize, bytes: &[u8], out: &mut [u8]) -> u8 {
    let n = if slip == Slip::RouterCountCutToAByte { n % 256 } else { n };
    let body = body(slip, n, &mended(slip, n, bytes));
    let refusal = match &body {
        Err(refusal) => *refusal,
        Ok(body) if out.len() < body.len() => 9,
        Ok(body) => {
            out[..body.len()].copy_from_slice(body);
            0
        }
    };
    let short = n <= MOST_ROUTERS && out.len() < 2 * n * n;
    match (slip, refusal) {
        (Slip::ElevenBeforeTwo, 2) if !bytes.len().is_multiple_of(4) => return 11,
        (Slip::TwelveBeforeEleven, 11) if links::body(n, &sound_links(n, bytes)) == Err(12) => return 12,
        (Slip::NineBeforeEleven, 11) | (Slip::NineBeforeTwelve, 12) if short => return 9,
        (Slip::EntryWrittenBeforeTwelve, 12) if !short => out[..2].fill(0),
        (Slip::WhatFitsWrittenBeforeNine, 9) => {
            out.iter_mut().zip(body.into_iter().flatten()).for_each(|(byte, value)| *byte = value);
        }
        (Slip::ByteAfterTheDistances, 0) if out.len() > 2 * n * n => out[2 * n * n] = 0,
        _ => (),
    }
    refusal
}

/// The bytes without the damage that a checker with this slip does not see.
fn mended(slip: Slip, n: usize, bytes: &[u8]) -> Vec<u8> {
    let (links, rest) = bytes.as_chunks::<4>();
    let mut links = links.to_vec();
    match slip {
        Slip::BytesAfterTheLinksAccepted => return links.concat(),
        Slip::OneLinkMoreAccepted if links.len() == MOST_LINKS + 1 => links.truncate(MOST_LINKS),
        Slip::RouterNAccepted => links.retain(|link| usize::from(link[0]) != n && usize::from(link[1]) != n),
        Slip::WeightZeroAccepted => links.iter_mut().filter(|link| link[2..] == [0, 0]).for_each(|link| link[2] = 1),
        Slip::EqualLinksAccepted => links.dedup_by_key(|link| [link[0], link[1]]),
        Slip::AnyOrderWithinARouterAccepted => {
            links.chunk_by_mut(|one, next| one[0] == next[0]).for_each(<[_]>::sort_unstable);
        }
        Slip::AnyOrderOfRoutersAccepted => links.sort_by_key(|link| link[0]),
        Slip::WeightHighByteFirst => links.iter_mut().for_each(|link| link.swap(2, 3)),
        _ => (),
    }
    [&links.concat(), rest].concat()
}

/// The links that follow the rules, in their order.
fn sound_links(n: usize, bytes: &[u8]) -> Vec<u8> {
    let mut links = bytes.as_chunks::<4>().0.to_vec();
    links.retain(|link| usize::from(link[0].max(link[1])) < n && link[2..] != [0, 0]);
    links.sort_unstable();
    links.dedup_by_key(|link| [link[0], link[1]]);
    links.truncate(MOST_LINKS);
    links.concat()
}

fn body(slip: Slip, n: usize, bytes: &[u8]) -> Result<Vec<u8>, u8> {
    let mut links = links::read(n, bytes)?;
    if slip == Slip::LinksBothWays {
        let there = links.clone();
        for ((from, to), weight) in there {
            let back = links.entry((to, from)).or_insert(weight);
            *back = weight.min(*back);
        }
    }
    let mut sums = match slip {
        Slip::DirectLinksOnly => sums_through(0, n, &links),
        Slip::LastRouterNotPassed => sums_through(n - 1, n, &links),
        _ => links::least_sums(n, &links),
    };
    match slip {
        Slip::TransposedDistances => sums = (0..n).map(|to| sums.iter().map(|row| row[to]).collect()).collect(),
        Slip::LoopOnTheDiagonal => {
            (0..n).for_each(|router| sums[router][router] = Some(links.get(&(router, router)).copied().unwrap_or(0)));
        }
        _ => sums.iter_mut().flatten().for_each(|sum| *sum = misjudged(slip, *sum)),
    }
    links::written(&sums)
}

/// The least sums of walks that pass no other routers than the first ones.
fn sums_through(routers: usize, n: usize, links: &Links) -> Sums {
    let direct = |from, to| if from == to { Some(0) } else { links.get(&(from, to)).copied() };
    let mut sums: Sums = (0..n).map(|from| (0..n).map(|to| direct(from, to)).collect()).collect();
    for via in 0..routers {
        let beyond = sums[via].clone();
        for row in &mut sums {
            let first = row[via];
            for (sum, &second) in row.iter_mut().zip(&beyond) {
                let through = first.zip(second).map(|(first, second)| first + second);
                *sum = sum.iter().copied().chain(through).min();
            }
        }
    }
    sums
}

fn misjudged(slip: Slip, sum: Option<u64>) -> Option<u64> {
    match (slip, sum) {
        (Slip::SumsWrap, Some(sum)) => Some(sum % 65_536),
        (Slip::NextSumAccepted, Some(sum)) if sum == FARTHEST + 1 => Some(FARTHEST),
        (Slip::FarthestRefused, Some(FARTHEST)) => Some(FARTHEST + 1),
        (Slip::NoWalkTakenForFarthest, None) => Some(FARTHEST),
        (Slip::NoWalkWrittenAsZero, None) => Some(0),
        (Slip::NoWalkRefused, None) => Some(FARTHEST + 1),
        (Slip::TooFarTakenForNoWalk, Some(sum)) if sum > FARTHEST => None,
        _ => sum,
    }
}
