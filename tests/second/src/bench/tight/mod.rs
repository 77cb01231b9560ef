//! The yardstick `tight`: straightforward array code written for speed. A plan is
//! decoded once a call into a set of 64 bits a router, neighbours are found by
//! their set bits, and routes are compared by one packed key.

mod convert;
mod distance;
mod every_list;
mod figures;
mod grade;
mod hop_set;
mod links;
mod reader;
mod rules;
mod steady;
mod verdict;

use crate::interface::{
    store, Acts, Checker, CompareFields, Compared, EveryListFields, ExplainFields, Explained, FigureFields, Flag,
    GradeFields, Handed, Lent, ListFields, RunFields, SizeFields, VerdictBuffers, VerdictFields,
};
use convert::{narrow, widen};
use distance::Distance;
use every_list::every_list as every_list_of;
use figures::{count, Counted};
use grade::grade as grade_of;
use hop_set::hop_set as hop_set_of;
use links::distances;
use reader::{check, read};
use rules::{key, Network, HOP};
use std::cmp::Ordering;
use std::iter;
use steady::steady as steady_of;
use verdict::verdict as verdict_of;

const MOST: usize = 64;

/// A session, or an entry of a routing table: egress and sender.
type Pair = [u8; 2];

/// The entry that holds no route.
const NONE: Pair = [255, 255];

fn has(set: u64, router: usize) -> bool {
    set >> router & 1 == 1
}

/// The routers of a set, lowest first.
fn bits(mut set: u64) -> impl Iterator<Item = usize> {
    iter::from_fn(move || {
        let lowest = (set != 0).then(|| set.trailing_zeros() as usize)?;
        set &= set - 1;
        Some(lowest)
    })
}

/// Makes a call with distances of the width that the plan's mark says.
macro_rules! by_mark {
    ($call:ident($plan:expr $(, $argument:expr)*)) => {
        if $plan.starts_with(b"RRP2") {
            $call::<[u8; 4]>($plan $(, $argument)*)
        } else {
            $call::<[u8; 2]>($plan $(, $argument)*)
        }
    };
}

fn network<D: Distance>(plan: &[u8], list: usize) -> Result<Network<'_, D>, u8> {
    let (bodies, rows) = read(plan)?;
    let listed = bodies.listed(list)?;
    Ok(Network { bodies, rows, listed })
}

fn sound<D: Distance>(plan: &[u8]) -> Result<(), u8> {
    check::<D>(plan).map(|_| ())
}

fn size<D: Distance>(plan: &[u8]) -> Result<SizeFields, u8> {
    let plan = check::<D>(plan)?;
    Ok(SizeFields { routers: plan.n as u64, lists: u64::from(plan.list_count()) })
}

fn list<D: Distance>(plan: &[u8], list: usize) -> Result<ListFields, u8> {
    let (start, count) = check::<D>(plan)?.list(list)?;
    Ok(ListFields { start: start as u64, count: count as u64 })
}

fn compare<D: Distance>(plan: &[u8], router: usize, routes: [Handed; 2]) -> Result<Compared, u8> {
    let plan = check::<D>(plan)?;
    let distances = plan.distances_from(plan.router(router)?);
    let egresses = [plan.router(routes[0].egress)?, plan.router(routes[1].egress)?];
    let keys = egresses.map(|egress| key(distances, egress));
    let passed_on = if has(plan.stepping, router) { HOP } else { 0 };
    let [first, second] = [0, 1].map(|place| match (keys[place], routes[place].direct) {
        (key, _) if key >= D::NO_WAY_KEY => u64::MAX,
        (key, 0) => key | passed_on,
        (key, _) => key,
    });
    let better = match first.cmp(&second) {
        _ if egresses[0] == egresses[1] => 0,
        Ordering::Less => 1,
        Ordering::Equal => 0,
        Ordering::Greater => 2,
    };
    let [to_first, to_second] = keys.map(|key| (key >> 8) as i64);
    let margin = (keys[0].max(keys[1]) < D::NO_WAY_KEY).then_some(to_first - to_second);
    Ok((better, margin))
}

fn relies<D: Distance>(plan: &[u8], list: usize, pair: (usize, usize)) -> Result<u8, u8> {
    let network = network::<D>(plan, list)?;
    let (router, other) = (network.bodies.router(pair.0)?, network.bodies.router(pair.1)?);
    let relied_on = network.relied_on(router, 1 << other, |reflector| network.offer(reflector));
    Ok(u8::from(has(relied_on, other)))
}

fn explain<D: Distance>(plan: &[u8], list: usize, pair: (usize, usize)) -> Result<Explained, u8> {
    let network = network::<D>(plan, list)?;
    let (router, other) = (network.bodies.router(pair.0)?, network.bodies.router(pair.1)?);
    Ok(network.explain(router, other))
}

fn verdict<D: Distance>(plan: &[u8], list: usize, lent: VerdictBuffers) -> Result<VerdictFields, u8> {
    verdict_of(&network::<D>(plan, list)?, lent)
}

fn steady<D: Distance>(plan: &[u8], list: usize, out: &mut [u8]) -> Result<u64, u8> {
    steady_of(&network::<D>(plan, list)?, out)
}

fn hop_set<D: Distance>(plan: &[u8], list: usize) -> Result<u64, u8> {
    hop_set_of(&network::<D>(plan, list)?)
}

fn grade<D: Distance>(plan: &[u8], list: usize) -> Result<(u8, u64), u8> {
    grade_of(&network::<D>(plan, list)?)
}

fn every_list<D: Distance>(plan: &[u8], list: &mut [u8]) -> Result<(u8, u64), u8> {
    every_list_of(network::<D>(plan, 0)?, list)
}

fn figures<D: Distance>(plan: &[u8], by_rank: &mut [u8], by_router: &mut [u8]) -> Result<Counted, u8> {
    let network = network::<D>(plan, 0)?;
    count(network, by_rank, by_router)
}

fn activate<D: Distance>(plan: &[u8], list: usize, router: usize, table: &mut [u8]) -> Result<(), u8> {
    let network = network::<D>(plan, list)?;
    let router = network.bodies.router(router)?;
    let (table, _) = table.as_chunks_mut();
    network.check_table(table)?;
    network.activate(table, router);
    Ok(())
}

fn run<D: Distance>(plan: &[u8], list: usize, acts: Acts, table: &mut [u8]) -> Result<RunFields, u8> {
    let network = network::<D>(plan, list)?;
    let n = network.bodies.n;
    if acts.sequence.iter().any(|&router| usize::from(router) >= n) {
        return Err(8);
    }
    let (table, _) = table.as_chunks_mut();
    network.check_table(table)?;
    let length = acts.sequence.len() as u64;
    let applied = length.min(acts.limit);
    let everyone = u64::MAX >> (MOST - n);
    let (mut awaited, mut rounds) = (everyone, 0);
    for &router in &acts.sequence[..applied as usize] {
        network.activate(table, usize::from(router));
        awaited &= !(1 << router);
        if awaited == 0 {
            awaited = everyone;
            rounds += 1;
        }
    }
    Ok(RunFields { applied, rounds, exhausted: Flag::new(u8::from(length > acts.limit)) })
}

pub struct Tight;

impl Checker for Tight {
    fn check(&mut self, plan: &[u8]) -> u8 {
        store(by_mark!(sound(plan)), &mut ())
    }

    fn size(&mut self, plan: &[u8], fields: &mut SizeFields) -> u8 {
        store(by_mark!(size(plan)), fields)
    }

    fn list(&mut self, plan: &[u8], number: usize, fields: &mut ListFields) -> u8 {
        store(by_mark!(list(plan, number)), fields)
    }

    fn compare(&mut self, plan: &[u8], router: usize, routes: [Handed; 2], fields: &mut CompareFields) -> u8 {
        store(by_mark!(compare(plan, router, routes)).map(|answer| fields.put(answer)), &mut ())
    }

    fn relies(&mut self, plan: &[u8], list: usize, pair: (usize, usize), answer: &mut u8) -> u8 {
        store(by_mark!(relies(plan, list, pair)), answer)
    }

    fn explain(&mut self, plan: &[u8], list: usize, pair: (usize, usize), fields: &mut ExplainFields) -> u8 {
        store(by_mark!(explain(plan, list, pair)).map(|answer| fields.put(answer)), &mut ())
    }

    fn verdict(&mut self, plan: &[u8], list: usize, lent: VerdictBuffers, fields: &mut VerdictFields) -> u8 {
        store(by_mark!(verdict(plan, list, lent)), fields)
    }

    fn steady(&mut self, plan: &[u8], list: usize, out: &mut [u8], count: &mut Lent<u64>) -> u8 {
        store(by_mark!(steady(plan, list, out)), &mut count.value)
    }

    fn hop_set(&mut self, plan: &[u8], list: usize, set: &mut Lent<u64>) -> u8 {
        store(by_mark!(hop_set(plan, list)), &mut set.value)
    }

    fn grade(&mut self, plan: &[u8], list: usize, fields: &mut GradeFields) -> u8 {
        store(by_mark!(grade(plan, list)).map(|(grade, rounds)| fields.put(grade, rounds)), &mut ())
    }

    fn figures(&mut self, plan: &[u8], by_rank: &mut [u8], by_router: &mut [u8], fields: &mut FigureFields) -> u8 {
        let counted = by_mark!(figures(plan, by_rank, by_router));
        store(counted.map(|counted| fields.put(counted.lists, counted.highest)), &mut ())
    }

    fn every_list(&mut self, plan: &[u8], list: &mut [u8], fields: &mut EveryListFields) -> u8 {
        store(by_mark!(every_list(plan, list)).map(|(answer, count)| fields.put(answer, count)), &mut ())
    }

    fn activate(&mut self, plan: &[u8], list: usize, router: usize, table: &mut [u8]) -> u8 {
        store(by_mark!(activate(plan, list, router, table)), &mut ())
    }

    fn run(&mut self, plan: &[u8], list: usize, acts: Acts, table: &mut [u8], fields: &mut RunFields) -> u8 {
        store(by_mark!(run(plan, list, acts, table)), fields)
    }

    fn widen(&mut self, plan: &[u8], out: &mut [u8], length: &mut Lent<u64>) -> u8 {
        store(widen(plan, out), &mut length.value)
    }

    fn narrow(&mut self, plan: &[u8], out: &mut [u8], length: &mut Lent<u64>) -> u8 {
        store(narrow(plan, out), &mut length.value)
    }

    fn distances(&mut self, n: usize, links: &[u8], out: &mut [u8]) -> u8 {
        store(distances(n, links, out), &mut ())
    }
}
