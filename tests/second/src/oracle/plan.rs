//! Reads the bytes of a plan into sets; gives refusals 1 to 7 and 13.

use super::mark::Mark;
use std::collections::{BTreeMap, BTreeSet};

/// A router's number: its place in the plan, from 0.
pub type Router = usize;

/// The routers an egress list names.
pub type Listed = BTreeSet<Router>;

pub const FIRST_BODY: usize = 26;
pub const MOST_ROUTERS: usize = 64;
pub const MOST_LISTS: usize = 64;

/// The most parents, neighbouring reflectors, that a client may have.
pub const MOST_PARENTS: usize = 4;

/// The roles: of a reflector, of a client, and of a reflector that skips its clients; and
/// those of the two reflectors with the hop step.
pub const REFLECTOR: u8 = 1;
pub const CLIENT: u8 = 2;
pub const SKIPPING: u8 = 3;
pub const STEPPING: u8 = 4;
pub const STEPPING_AND_SKIPPING: u8 = 5;

pub const ROLES: [u8; 5] = [REFLECTOR, CLIENT, SKIPPING, STEPPING, STEPPING_AND_SKIPPING];

/// An egress list, which may name nobody, and where in the plan its router numbers start.
#[derive(Clone)]
pub struct EgressList {
    pub start: usize,
    pub listed: Listed,
}

#[derive(Clone)]
pub struct Plan {
    pub mark: Mark,
    pub n: usize,
    /// The routers of each role but that of a client.
    pub reflectors: BTreeSet<Router>,
    /// The reflectors of roles 3 and 5, which skip their own clients.
    pub skipping: BTreeSet<Router>,
    /// The reflectors of roles 4 and 5, which have the hop step.
    pub stepping: BTreeSet<Router>,
    pub identifiers: Vec<u32>,
    pub neighbours: Vec<BTreeSet<Router>>,
    /// From each router to each; none if there is no way.
    pub distances: Vec<Vec<Option<u32>>>,
    pub lists: Vec<EgressList>,
    places: Vec<BTreeMap<Router, usize>>,
}

impl Plan {
    pub fn is_reflector(&self, router: Router) -> bool {
        self.reflectors.contains(&router)
    }

    pub fn skips(&self, router: Router) -> bool {
        self.skipping.contains(&router)
    }

    /// Whether a router has the hop step.
    pub fn steps(&self, router: Router) -> bool {
        self.stepping.contains(&router)
    }

    /// Whether every reflector has the hop step.
    pub fn all_step(&self) -> bool {
        self.reflectors == self.stepping
    }

    /// The place of an egress router in the order of preference at `at`: all
    /// routers that it has a way to, sorted by distance, then by number. Place 0
    /// is the best.
    pub fn place(&self, at: Router, egress: Router) -> Option<usize> {
        self.places[at].get(&egress).copied()
    }

    pub fn has_way(&self, at: Router, egress: Router) -> bool {
        self.place(at, egress).is_some()
    }

    pub fn most_parents(&self) -> usize {
        most_parents(&self.reflectors, &self.neighbours)
    }

    /// Whether some distance is above the greatest of this mark.
    pub fn has_distances_past(&self, mark: Mark) -> bool {
        self.distances.iter().flatten().flatten().any(|&distance| distance > mark.farthest())
    }

    /// The lists that name nobody.
    pub fn empty_lists(&self) -> Vec<usize> {
        (0..self.lists.len()).filter(|&list| self.lists[list].listed.is_empty()).collect()
    }

    /// Whether some router has no way to some other.
    pub fn has_cuts(&self) -> bool {
        self.places.iter().any(|places| places.len() < self.n)
    }
}

/// Reads a plan, or gives the number of its refusal.
pub fn read(bytes: &[u8]) -> Result<Plan, u8> {
    let mark = read_mark(bytes)?;
    let n = read_router_count(bytes)?;
    let [routers, sessions, distances, lists] = read_contents(bytes, n, mark)?;
    let (roles, identifiers) = read_routers(routers)?;
    let [reflectors, skipping, stepping] = [
        [REFLECTOR, SKIPPING, STEPPING, STEPPING_AND_SKIPPING].as_slice(),
        &[SKIPPING, STEPPING_AND_SKIPPING],
        &[STEPPING, STEPPING_AND_SKIPPING],
    ]
    .map(|chosen| with_roles(&roles, chosen));
    let neighbours = read_sessions(sessions, n)?;
    if most_parents(&reflectors, &neighbours) > MOST_PARENTS {
        return Err(13);
    }
    let distances = read_distances(distances, n, mark)?;
    let lists = read_lists(lists, bytes.len() - lists.len(), n)?;
    let places = distances.iter().map(|row| order_of_preference(row)).collect();
    Ok(Plan { mark, n, reflectors, skipping, stepping, identifiers, neighbours, distances, lists, places })
}

/// The routers that have one of the chosen roles.
fn with_roles(roles: &[u8], chosen: &[u8]) -> BTreeSet<Router> {
    (0..roles.len()).filter(|&router| chosen.contains(&roles[router])).collect()
}

/// The mark of a plan whose length and number of entries fit it.
fn read_mark(bytes: &[u8]) -> Result<Mark, u8> {
    let mark = Mark::of(bytes).ok_or(1u8)?;
    let length_fits = (FIRST_BODY..=mark.longest_plan()).contains(&bytes.len());
    (length_fits && bytes[5] == 4).then_some(mark).ok_or(1)
}

fn read_router_count(bytes: &[u8]) -> Result<usize, u8> {
    let n = usize::from(bytes[4]);
    (1..=MOST_ROUTERS).contains(&n).then_some(n).ok_or(2)
}

/// Cuts the plan into its four bodies, as the table of contents says.
fn read_contents(bytes: &[u8], n: usize, mark: Mark) -> Result<[&[u8]; 4], u8> {
    let (head, mut rest) = bytes.split_at(FIRST_BODY);
    let mut bodies: [&[u8]; 4] = [&[]; 4];
    for (place, entry) in head[6..].chunks_exact(5).enumerate() {
        let offset = usize::from(u16::from_le_bytes([entry[1], entry[2]]));
        let length = usize::from(u16::from_le_bytes([entry[3], entry[4]]));
        let kind_fits = usize::from(entry[0]) == place + 1;
        let offset_fits = offset + rest.len() == bytes.len();
        if !kind_fits || !offset_fits || length > rest.len() {
            return Err(3);
        }
        (bodies[place], rest) = rest.split_at(length);
    }
    let distances_fit = bodies[2].len() == mark.width() * n * n;
    let lengths_fit = bodies[0].len() == 5 * n && bodies[1].len().is_multiple_of(2) && distances_fit;
    (rest.is_empty() && lengths_fit).then_some(bodies).ok_or(3)
}

/// A sequence rises strictly exactly if it equals its own sorted set.
fn rises<T: Ord>(sequence: &[T]) -> bool {
    sequence.iter().collect::<BTreeSet<_>>().into_iter().eq(sequence.iter())
}

/// The number that these bytes are, the low one first.
fn number(bytes: &[u8]) -> u32 {
    bytes.iter().rev().fold(0, |sum, &byte| sum << 8 | u32::from(byte))
}

/// The roles and the identifiers of the routers, in their order.
fn read_routers(body: &[u8]) -> Result<(Vec<u8>, Vec<u32>), u8> {
    let (roles, identifiers): (Vec<u8>, Vec<u32>) =
        body.chunks_exact(5).map(|entry| (entry[0], number(&entry[1..]))).unzip();
    (roles.iter().all(|role| ROLES.contains(role)) && rises(&identifiers)).then_some((roles, identifiers)).ok_or(4)
}

fn read_sessions(body: &[u8], n: usize) -> Result<Vec<BTreeSet<Router>>, u8> {
    let pairs: Vec<(Router, Router)> =
        body.chunks_exact(2).map(|pair| (usize::from(pair[0]), usize::from(pair[1]))).collect();
    if !rises(&pairs) || pairs.iter().any(|&(one, other)| one >= other || other >= n) {
        return Err(5);
    }
    let mut neighbours = vec![BTreeSet::new(); n];
    for (one, other) in pairs {
        neighbours[one].insert(other);
        neighbours[other].insert(one);
    }
    Ok(neighbours)
}

/// The most parents of a client: how many reflectors it neighbours.
fn most_parents(reflectors: &BTreeSet<Router>, neighbours: &[BTreeSet<Router>]) -> usize {
    let clients = neighbours.iter().enumerate().filter(|(router, _)| !reflectors.contains(router));
    clients.map(|(_, neighbours)| neighbours.intersection(reflectors).count()).max().unwrap_or(0)
}

fn read_distances(body: &[u8], n: usize, mark: Mark) -> Result<Vec<Vec<Option<u32>>>, u8> {
    let numbers = body.chunks_exact(mark.width()).map(number);
    let all: Vec<Option<u32>> = numbers.map(|number| (number != mark.no_way()).then_some(number)).collect();
    let rows: Vec<Vec<Option<u32>>> = all.chunks_exact(n).map(<[_]>::to_vec).collect();
    let diagonal_is_zero = rows.iter().enumerate().all(|(router, row)| row[router] == Some(0));
    diagonal_is_zero.then_some(rows).ok_or(6)
}

fn read_lists(body: &[u8], body_start: usize, n: usize) -> Result<Vec<EgressList>, u8> {
    let (&m, mut rest) = body.split_first().ok_or(7)?;
    let m = usize::from(m);
    if !(1..=MOST_LISTS).contains(&m) {
        return Err(7);
    }
    let mut lists = Vec::new();
    while lists.len() < m {
        let (&count, after) = rest.split_first().ok_or(7)?;
        let count = usize::from(count);
        if count > n || count > after.len() {
            return Err(7);
        }
        let start = body_start + body.len() - after.len();
        let (numbers, remaining) = after.split_at(count);
        lists.push(EgressList { start, listed: read_listed(numbers, n)? });
        rest = remaining;
    }
    rest.is_empty().then_some(lists).ok_or(7)
}

fn read_listed(numbers: &[u8], n: usize) -> Result<Listed, u8> {
    let listed: Listed = numbers.iter().map(|&number| usize::from(number)).collect();
    let below = listed.last().is_none_or(|&highest| highest < n);
    (below && rises(numbers)).then_some(listed).ok_or(7)
}

/// For each egress router that there is a way to its place among these, by
/// distance and then number.
fn order_of_preference(row: &[Option<u32>]) -> BTreeMap<Router, usize> {
    let with_way = row.iter().zip(0..).filter_map(|(distance, egress)| Some((distance.as_ref()?, egress)));
    let order: BTreeSet<(&u32, Router)> = with_way.collect();
    order.into_iter().map(|(_, egress)| egress).zip(0..).collect()
}
