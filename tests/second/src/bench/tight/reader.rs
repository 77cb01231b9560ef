//! Checks a plan in one pass, and decodes its sessions into sets of bits on the
//! way; refusals 1 to 7 and 13.

use super::distance::Distance;
use super::{has, Pair, MOST};

/// A plan found sound. Distances and lists stay as they are in its bytes.
pub struct Bodies<'a, D> {
    pub n: usize,
    pub reflectors: u64,
    /// The reflectors that skip their own clients.
    pub skipping: u64,
    /// The reflectors with the hop step.
    pub stepping: u64,
    pub distances: &'a [D],
    pub lists: &'a [u8],
    lists_at: usize,
}

/// Checks a plan.
pub fn check<D: Distance>(plan: &[u8]) -> Result<Bodies<'_, D>, u8> {
    Ok(sound(plan, count_parents)?.0)
}

/// Checks a plan and decodes the neighbours of each router.
pub fn read<D: Distance>(plan: &[u8]) -> Result<(Bodies<'_, D>, [u64; MOST]), u8> {
    sound(plan, decode_neighbours)
}

/// Checks a plan; `read_sessions` is given n and the reflectors.
fn sound<D: Distance, T>(
    plan: &[u8],
    read_sessions: impl FnOnce(&[Pair], usize, u64) -> Result<T, u8>,
) -> Result<(Bodies<'_, D>, T), u8> {
    if plan.len() < 26 || plan.len() > D::LONGEST_PLAN || plan[..4] != D::MARK || plan[5] != 4 {
        return Err(1);
    }
    let n = usize::from(plan[4]);
    if n == 0 || n > MOST {
        return Err(2);
    }
    let [routers, sessions, distances, lists] = cut::<D>(plan, n)?;
    let [reflectors, skipping, stepping] = read_routers(routers)?;
    let of_sessions = read_sessions(sessions.as_chunks().0, n, reflectors)?;
    let distances = D::all(distances);
    check_distances(distances, n)?;
    check_lists(lists, n)?;
    let lists_at = plan.len() - lists.len();
    Ok((Bodies { n, reflectors, skipping, stepping, distances, lists, lists_at }, of_sessions))
}

/// Cuts a plan into its bodies by the table of contents.
fn cut<D>(plan: &[u8], n: usize) -> Result<[&[u8]; 4], u8> {
    let mut bodies = [plan; 4];
    let mut end = 26;
    for (place, entry) in plan[6..26].as_chunks::<5>().0.iter().enumerate() {
        let offset = usize::from(u16::from_le_bytes([entry[1], entry[2]]));
        let start = end;
        end += usize::from(u16::from_le_bytes([entry[3], entry[4]]));
        if usize::from(entry[0]) != place + 1 || offset != start || end > plan.len() {
            return Err(3);
        }
        bodies[place] = &plan[start..end];
    }
    let lengths = bodies.map(<[u8]>::len);
    if end != plan.len() || lengths[0] != 5 * n || lengths[1] % 2 != 0 || lengths[2] != size_of::<D>() * n * n {
        return Err(3);
    }
    Ok(bodies)
}

/// The reflectors, those of them that skip their own clients, and those with the hop step.
fn read_routers(body: &[u8]) -> Result<[u64; 3], u8> {
    let (mut reflectors, mut skipping, mut stepping) = (0, 0, 0);
    let mut least = 0;
    for (u, &[role, a, b, c, d]) in body.as_chunks().0.iter().enumerate() {
        let identifier = u64::from(u32::from_le_bytes([a, b, c, d]));
        if role == 0 || role > 5 || identifier < least {
            return Err(4);
        }
        reflectors |= u64::from(role != 2) << u;
        skipping |= u64::from(role == 3 || role == 5) << u;
        stepping |= u64::from(role > 3) << u;
        least = identifier + 1;
    }
    Ok([reflectors, skipping, stepping])
}

fn count_parents(pairs: &[Pair], n: usize, reflectors: u64) -> Result<(), u8> {
    let mut parents = [0; MOST];
    check_sessions(pairs, n, |u, v| {
        parents[u] += u8::from(has(reflectors, v));
        parents[v] += u8::from(has(reflectors, u));
    })?;
    check_parents(n, reflectors, |u| parents[u] > 4)
}

fn decode_neighbours(pairs: &[Pair], n: usize, reflectors: u64) -> Result<[u64; MOST], u8> {
    let mut rows = [0u64; MOST];
    check_sessions(pairs, n, |u, v| {
        rows[u] |= 1 << v;
        rows[v] |= 1 << u;
    })?;
    check_parents(n, reflectors, |u| (rows[u] & reflectors).count_ones() > 4)?;
    Ok(rows)
}

fn check_sessions(pairs: &[Pair], n: usize, mut meet: impl FnMut(usize, usize)) -> Result<(), u8> {
    let mut least = 0;
    for &[u, v] in pairs {
        let pair = u16::from_be_bytes([u, v]);
        if usize::from(v) >= n || u >= v || pair < least {
            return Err(5);
        }
        meet(usize::from(u), usize::from(v));
        least = pair + 1;
    }
    Ok(())
}

fn check_parents(n: usize, reflectors: u64, too_many: impl Fn(usize) -> bool) -> Result<(), u8> {
    if (0..n).any(|u| !has(reflectors, u) && too_many(u)) {
        return Err(13);
    }
    Ok(())
}

fn check_distances<D: Distance>(distances: &[D], n: usize) -> Result<(), u8> {
    if distances.iter().step_by(n + 1).any(|&distance| distance != D::ZERO) {
        return Err(6);
    }
    Ok(())
}

fn check_lists(body: &[u8], n: usize) -> Result<(), u8> {
    let (&m, mut rest) = body.split_first().ok_or(7)?;
    if m == 0 || m > 64 {
        return Err(7);
    }
    for _ in 0..m {
        let (&count, after) = rest.split_first().ok_or(7)?;
        let count = usize::from(count);
        if count > n || count > after.len() {
            return Err(7);
        }
        let mut least = 0;
        for &router in &after[..count] {
            if router < least || usize::from(router) >= n {
                return Err(7);
            }
            least = router + 1;
        }
        rest = &after[count..];
    }
    if rest.is_empty() {
        Ok(())
    } else {
        Err(7)
    }
}

impl<D> Bodies<'_, D> {
    pub fn list_count(&self) -> u8 {
        self.lists[0]
    }

    /// Start in the plan and count of a list.
    pub fn list(&self, list: usize) -> Result<(usize, usize), u8> {
        if list >= usize::from(self.lists[0]) {
            return Err(8);
        }
        let mut at = 1;
        for _ in 0..list {
            at += 1 + usize::from(self.lists[at]);
        }
        Ok((self.lists_at + at + 1, usize::from(self.lists[at])))
    }

    pub fn listed(&self, list: usize) -> Result<u64, u8> {
        let (start, count) = self.list(list)?;
        let numbers = &self.lists[start - self.lists_at..][..count];
        Ok(numbers.iter().fold(0, |listed, &router| listed | 1 << router))
    }

    pub fn router(&self, router: usize) -> Result<usize, u8> {
        if router < self.n {
            Ok(router)
        } else {
            Err(8)
        }
    }

    pub fn distances_from(&self, router: usize) -> &[D] {
        &self.distances[self.n * router..][..self.n]
    }
}
