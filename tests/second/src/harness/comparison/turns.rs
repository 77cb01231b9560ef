//! Which router acts next in a sequence of acts.

use crate::harness::random::Random;

/// How the routers take turns.
#[derive(Clone, Copy)]
enum Kind {
    /// Always in the same turn.
    Fixed,
    /// Each round in a new order.
    Shuffled,
    /// Drawn singly, the same one as often as it falls.
    Drawn,
    /// One router acts seldom.
    OneSeldom,
}

pub struct Turns {
    kind: Kind,
    order: Vec<usize>,
    place: usize,
}

impl Turns {
    /// Turns of n routers.
    pub fn new(random: &mut Random, n: usize) -> Self {
        let mut order: Vec<usize> = (0..n).collect();
        random.shuffle(&mut order);
        let kind = random.pick(&[Kind::Fixed, Kind::Shuffled, Kind::Shuffled, Kind::Drawn, Kind::OneSeldom]);
        Turns { kind, order, place: 0 }
    }

    pub fn next(&mut self, random: &mut Random) -> usize {
        let n = self.order.len();
        match self.kind {
            Kind::Drawn => return random.below(n),
            Kind::OneSeldom if n > 1 && random.below(2 * n) > 0 => return self.order[random.below(n - 1)],
            Kind::OneSeldom => return self.order[n - 1],
            Kind::Shuffled if self.place.is_multiple_of(n) => random.shuffle(&mut self.order),
            _ => (),
        }
        self.place += 1;
        self.order[(self.place - 1) % n]
    }
}
