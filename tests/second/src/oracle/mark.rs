//! The marks of a plan: its first four letters, which say how wide its distances are.

use std::fmt;

/// A plan's mark. All that differs between plans of the two marks is here.
#[derive(Clone, Copy, Debug, PartialEq, Eq)]
pub enum Mark {
    Rrp1,
    Rrp2,
}

pub const MARKS: [Mark; 2] = [Mark::Rrp1, Mark::Rrp2];

impl fmt::Display for Mark {
    fn fmt(&self, out: &mut fmt::Formatter) -> fmt::Result {
        out.write_str(&String::from_utf8_lossy(self.letters()))
    }
}

impl Mark {
    /// The mark that a plan starts with, if it is one of the two.
    pub fn of(bytes: &[u8]) -> Option<Self> {
        MARKS.into_iter().find(|mark| bytes.starts_with(mark.letters()))
    }

    pub fn letters(self) -> &'static [u8; 4] {
        match self {
            Mark::Rrp1 => b"RRP1",
            Mark::Rrp2 => b"RRP2",
        }
    }

    /// The bytes of a distance.
    pub fn width(self) -> usize {
        match self {
            Mark::Rrp1 => 2,
            Mark::Rrp2 => 4,
        }
    }

    /// The bytes of the longest plan.
    pub fn longest_plan(self) -> usize {
        match self {
            Mark::Rrp1 => 16_731,
            Mark::Rrp2 => 24_923,
        }
    }

    /// The greatest distance.
    pub fn farthest(self) -> u32 {
        match self {
            Mark::Rrp1 => 65_534,
            Mark::Rrp2 => 4_294_967_294,
        }
    }

    /// What stands for the distance to a router that there is no way to.
    pub fn no_way(self) -> u32 {
        self.farthest() + 1
    }

    /// The mark that a plan of this one is converted to.
    pub fn other(self) -> Self {
        match self {
            Mark::Rrp1 => Mark::Rrp2,
            Mark::Rrp2 => Mark::Rrp1,
        }
    }
}
