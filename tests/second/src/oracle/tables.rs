//! Routing tables (document 01: held-route tables), activations, rounds, runs.

use super::plan::Router;
use super::rules::{Case, Route, Rules, Table};
use std::collections::BTreeSet;

/// Both bytes of an entry that holds no route.
pub const NONE: u8 = 255;

/// Reads the bytes of a table, or gives none if they break the table's rule.
pub fn read(case: Case, bytes: &[u8]) -> Option<Table> {
    let mut table = Table::new();
    for (router, entry) in bytes.chunks_exact(2).take(case.plan.n).enumerate() {
        let route = Route { egress: usize::from(entry[0]), sender: usize::from(entry[1]) };
        let sound = if case.is_listed(router) {
            route == Route { egress: router, sender: router }
        } else if entry == [NONE, NONE] {
            continue;
        } else {
            route.egress < case.plan.n && case.plan.neighbours[router].contains(&route.sender)
        };
        if !sound {
            return None;
        }
        table.insert(router, route);
    }
    Some(table)
}

/// The bytes of a table, two a router.
pub fn bytes(table: &Table, n: usize) -> Vec<u8> {
    let entry = |router| match table.get(&router) {
        Some(route) => [route.egress as u8, route.sender as u8],
        None => [NONE, NONE],
    };
    (0..n).flat_map(entry).collect()
}

/// One activation; says whether the table changed.
pub fn activate(rules: &impl Rules, case: Case, table: &mut Table, router: Router) -> bool {
    let before = table.get(&router).copied();
    let after = rules.activation(case, table, router);
    match after {
        Some(route) => table.insert(router, route),
        None => table.remove(&router),
    };
    before != after
}

/// Counts whole rounds: the routers still awaited in the round under way.
pub struct Rounds {
    n: usize,
    awaited: BTreeSet<Router>,
    pub whole: u64,
}

impl Rounds {
    pub fn new(n: usize) -> Self {
        Rounds { n, awaited: (0..n).collect(), whole: 0 }
    }

    pub fn count(&mut self, router: Router) {
        self.awaited.remove(&router);
        if self.awaited.is_empty() {
            self.whole += 1;
            self.awaited = (0..self.n).collect();
        }
    }
}

/// Activates the routers in turn and counts the whole rounds.
pub fn run(rules: &impl Rules, case: Case, table: &mut Table, acts: &[Router]) -> u64 {
    let mut rounds = Rounds::new(case.plan.n);
    for &router in acts {
        activate(rules, case, table, router);
        rounds.count(router);
    }
    rounds.whole
}

/// The table in which the listed routers hold their own route and no other holds any.
pub fn of_listed(case: Case) -> Table {
    case.listed.iter().map(|&router| (router, Route { egress: router, sender: router })).collect()
}

/// Activates these routers in rounds until one round changes nothing. Where none relies on
/// itself by way of others this ends well before the cap, which is there for misread rules
/// alone.
pub fn settle_among(rules: &impl Rules, case: Case, table: &mut Table, routers: &[Router]) {
    for _ in 0..case.plan.n + 3 {
        let changes = routers.iter().filter(|&&router| activate(rules, case, table, router)).count();
        if changes == 0 {
            break;
        }
    }
}

/// The table that all routers settle on from that of the listed ones, on a stable list.
pub fn settle(rules: &impl Rules, case: Case) -> Table {
    let mut table = of_listed(case);
    settle_among(rules, case, &mut table, &Vec::from_iter(0..case.plan.n));
    table
}
