//! Reflectors in a mesh with clients of their own, at random distances.

use crate::harness::plans::draft::Draft;
use crate::harness::plans::topology::{all_pairs, ordered, plain_roles};
use crate::harness::random::Random;
use crate::oracle::mark::Mark;
use crate::oracle::plan::{Router, MOST_PARENTS};
use std::collections::BTreeSet;

/// So many reflectors and clients; each client has one parent, or a second one and more by chance.
pub struct Mesh {
    pub reflectors: usize,
    pub clients: usize,
    /// So many of a hundred clients have another parent, and so on.
    pub shared: usize,
}

impl Mesh {
    /// A plan in which every pair of reflectors has a session, or most have; the list names all
    /// clients or most.
    pub fn draw(&self, random: &mut Random) -> Draft {
        let (n, reflectors) = (self.reflectors + self.clients, self.reflectors);
        let (kept, spread) = (random.pick(&[100, 100, 60]), random.pick(&[6, 20, 200]));
        let mut sessions: BTreeSet<(Router, Router)> =
            all_pairs(reflectors).filter(|_| random.chance(kept)).collect();
        for client in reflectors..n {
            // Each reflector has a client, if there are as many.
            let first = client - reflectors;
            let mut parents = BTreeSet::from([if first < reflectors { first } else { random.below(reflectors) }]);
            while parents.len() < MOST_PARENTS && random.chance(self.shared) {
                parents.insert(random.below(reflectors));
            }
            sessions.extend(parents.into_iter().map(|parent| ordered(parent, client)));
        }
        let is_reflector: Vec<bool> = (0..n).map(|router| router < reflectors).collect();
        let mut distance = |from: Router, to: Router| if from == to { 0 } else { 1 + random.below(spread) as u32 };
        let distances = (0..n).map(|from| (0..n).map(|to| distance(from, to)).collect()).collect();
        let listed = random.pick(&[100, 80, 60]);
        Draft {
            mark: Mark::Rrp1,
            roles: plain_roles(&is_reflector),
            identifiers: (1..=n as u32).collect(),
            sessions,
            distances,
            lists: vec![(reflectors..n).filter(|_| random.chance(listed)).collect()],
        }
    }
}
