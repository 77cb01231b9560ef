//! The slips of checkers in the call for hop sets: which set they give, in which bits, when they
//! refuse, and what they write.

use crate::interface::{Checker, Lent};
use crate::oracle::plan::{self, Plan, Router};
use crate::oracle::rules::{Case, Right, Rules};
use crate::oracle::steady::MOST_GROUPED;
use crate::oracle::verdict;
use crate::oracle::Oracle;

#[derive(Clone, Copy, Debug, PartialEq, Eq)]
pub enum HopSetSlip {
    /// The router with the most reliances first, and so on.
    Greedy,
    /// The lowest router in a cycle first, and so on.
    LowestOfWhatIsLeft,
    /// All, less one after the other that is not needed beside the others left.
    DroppedOneByOne,
    /// The lowest number that serves, of whatever size.
    SizeByNumber,
    HighestNumber,
    EveryRouterInGroups,
    FirstGroupAlone,
    LastGroupAlone,
    LowestOfEachGroup,
    BitsOfEveryReflector,
    BitAtTheRouterNumber,
    HighestRouterFirst,
    SizeGiven,
    OneForAStableList,
    SetOfTheFirstList,
    ListCutToAByte,
    ThirteenAllowed,
    FifteenAtTwelve,
    LargestGroupCounted,
    ReflectorsCounted,
    FifteenBeforeEight,
    SetOfOneByte,
    SetOfTwoBytes,
    ByteAfterTheSet,
    SetClearedOnRefusal,
}

pub const HOP_SET_SLIPS: [HopSetSlip; 25] = [
    HopSetSlip::Greedy,
    HopSetSlip::LowestOfWhatIsLeft,
    HopSetSlip::DroppedOneByOne,
    HopSetSlip::SizeByNumber,
    HopSetSlip::HighestNumber,
    HopSetSlip::EveryRouterInGroups,
    HopSetSlip::FirstGroupAlone,
    HopSetSlip::LastGroupAlone,
    HopSetSlip::LowestOfEachGroup,
    HopSetSlip::BitsOfEveryReflector,
    HopSetSlip::BitAtTheRouterNumber,
    HopSetSlip::HighestRouterFirst,
    HopSetSlip::SizeGiven,
    HopSetSlip::OneForAStableList,
    HopSetSlip::SetOfTheFirstList,
    HopSetSlip::ListCutToAByte,
    HopSetSlip::ThirteenAllowed,
    HopSetSlip::FifteenAtTwelve,
    HopSetSlip::LargestGroupCounted,
    HopSetSlip::ReflectorsCounted,
    HopSetSlip::FifteenBeforeEight,
    HopSetSlip::SetOfOneByte,
    HopSetSlip::SetOfTwoBytes,
    HopSetSlip::ByteAfterTheSet,
    HopSetSlip::SetClearedOnRefusal,
];

/// The slips that show by what document 02 states of the sets beside verdicts.
pub const STATED_HOP_SET_SLIPS: [HopSetSlip; 20] = [
    HopSetSlip::Greedy,
    HopSetSlip::LowestOfWhatIsLeft,
    HopSetSlip::DroppedOneByOne,
    HopSetSlip::SizeByNumber,
    HopSetSlip::HighestNumber,
    HopSetSlip::EveryRouterInGroups,
    HopSetSlip::FirstGroupAlone,
    HopSetSlip::LastGroupAlone,
    HopSetSlip::LowestOfEachGroup,
    HopSetSlip::BitsOfEveryReflector,
    HopSetSlip::BitAtTheRouterNumber,
    HopSetSlip::HighestRouterFirst,
    HopSetSlip::SizeGiven,
    HopSetSlip::OneForAStableList,
    HopSetSlip::SetOfTheFirstList,
    HopSetSlip::ThirteenAllowed,
    HopSetSlip::FifteenAtTwelve,
    HopSetSlip::LargestGroupCounted,
    HopSetSlip::ReflectorsCounted,
    HopSetSlip::SetOfOneByte,
];

/// The reliances among the routers in groups, each of which has a bit.
struct Groups {
    grouped: Vec<Router>,
    labels: Vec<Router>,
    rows: Vec<u64>,
}

impl Groups {
    fn new(case: Case) -> Self {
        let grouped = verdict::grouped(&Right, case);
        let labels = verdict::verdict(&Right, case).labels;
        let row = |&router: &Router| {
            let relied_on = Right.relied_on(case, router);
            bits(&grouped, |other| relied_on.contains(&other))
        };
        Groups { rows: grouped.iter().map(row).collect(), labels, grouped }
    }

    fn all(&self) -> u64 {
        (1 << self.grouped.len()) - 1
    }

    fn places(&self) -> std::ops::Range<usize> {
        0..self.grouped.len()
    }

    /// Who is left in cycles, or between them, once these have the step.
    fn left(&self, set: u64) -> u64 {
        let mut left = self.all() & !set;
        for _ in self.places() {
            left = self.places().fold(left, |left, place| match self.rows[place] & left {
                0 => left & !(1 << place),
                _ => left,
            });
        }
        left
    }

    fn serves(&self, set: u64) -> bool {
        self.left(set) == 0
    }

    /// The bits of the group with this label.
    fn group(&self, label: Router) -> u64 {
        bits(&self.grouped, |router| self.labels[router] == label)
    }

    fn sharing(&self) -> Vec<Router> {
        let mut labels: Vec<Router> = self.grouped.iter().map(|&router| self.labels[router]).collect();
        labels.sort_unstable();
        labels.dedup();
        labels
    }

    /// The lowest number of the least size that serves.
    fn least(&self) -> u64 {
        let serving = (0..=self.all()).filter(|&set| self.serves(set));
        serving.min_by_key(|set| set.count_ones()).unwrap_or(0)
    }

    /// Adds the router that is picked of those left until none is left.
    fn one_by_one(&self, pick: impl Fn(u64) -> usize) -> u64 {
        let mut set = 0;
        while !self.serves(set) {
            set |= 1 << pick(self.left(set));
        }
        set
    }

    /// Of those left the one with the most reliances, its own and on it.
    fn most_entwined(&self, left: u64) -> usize {
        let own = |place: usize| (self.rows[place] & left).count_ones();
        let on_it = |place: usize| self.places().filter(|&by| has(left, by) && has(self.rows[by], place)).count();
        let entwined = |place: &usize| (own(*place) as usize + on_it(*place), usize::MAX - place);
        self.places().filter(|&place| has(left, place)).max_by_key(entwined).unwrap_or(0)
    }
}

fn has(set: u64, place: usize) -> bool {
    set >> place & 1 == 1
}

/// The bits of the routers that are chosen.
fn bits(routers: &[Router], is_chosen: impl Fn(Router) -> bool) -> u64 {
    routers.iter().enumerate().filter(|(_, &router)| is_chosen(router)).map(|(place, _)| 1 << place).sum()
}

/// The call with one slip.
pub fn hop_set(
    slip: HopSetSlip,
    inner: &mut Oracle<Right>,
    (bytes, list): (&[u8], usize),
    set: &mut Lent<u64>,
) -> u8 {
    let asked = match slip {
        HopSetSlip::ListCutToAByte => list % 256,
        _ => list,
    };
    let mut right = Lent::new(0);
    let refusal = inner.hop_set(bytes, asked, &mut right);
    let given = if refusal == 0 { Ok(right.value) } else { Err(refusal) };
    match misnamed(slip, bytes, asked, given) {
        Ok(number) => {
            write(slip, number, set);
            0
        }
        Err(refusal) => {
            if slip == HopSetSlip::SetClearedOnRefusal {
                set.value = 0;
            }
            refusal
        }
    }
}

fn write(slip: HopSetSlip, number: u64, set: &mut Lent<u64>) {
    set.value = match slip {
        HopSetSlip::SetOfOneByte => set.value >> 8 << 8 | number & 0xFF,
        HopSetSlip::SetOfTwoBytes => set.value >> 16 << 16 | number,
        _ => number,
    };
    if slip == HopSetSlip::ByteAfterTheSet {
        set.after[0] = 0;
    }
}

/// The number, or the refusal, that a checker with this slip has in place of the right one.
fn misnamed(slip: HopSetSlip, bytes: &[u8], list: usize, right: Result<u64, u8>) -> Result<u64, u8> {
    let Ok(plan) = plan::read(bytes) else { return right };
    let groups = |list: usize| Groups::new(Case { plan: &plan, listed: &plan.lists[list].listed });
    match right {
        Err(8) if slip == HopSetSlip::FifteenBeforeEight && groups(0).grouped.len() > MOST_GROUPED => Err(15),
        Err(15) => allowed(slip, &groups(list)).ok_or(15),
        Ok(_) if slip == HopSetSlip::ReflectorsCounted && plan.reflectors.len() > MOST_GROUPED => Err(15),
        Ok(_) if slip == HopSetSlip::FifteenAtTwelve && groups(list).grouped.len() == MOST_GROUPED => Err(15),
        Ok(_) if slip == HopSetSlip::SetOfTheFirstList => match groups(0) {
            groups if groups.grouped.len() > MOST_GROUPED => Err(15),
            groups => Ok(groups.least()),
        },
        Ok(number) => Ok(in_other_bits(slip, &plan, list, &groups(list), other_set(slip, &groups(list), number))),
        right => right,
    }
}

/// The number given though 13 routers are in groups.
fn allowed(slip: HopSetSlip, groups: &Groups) -> Option<u64> {
    let is_small = |&label: &Router| groups.group(label).count_ones() as usize <= MOST_GROUPED;
    let is_allowed = match slip {
        HopSetSlip::ThirteenAllowed => true,
        HopSetSlip::LargestGroupCounted => groups.sharing().iter().all(is_small),
        _ => false,
    };
    (is_allowed && groups.grouped.len() == MOST_GROUPED + 1).then(|| groups.least())
}

fn other_set(slip: HopSetSlip, groups: &Groups, right: u64) -> u64 {
    let sharing = groups.sharing();
    let of = |label: Option<&Router>| label.map_or(0, |&label| groups.group(label));
    match slip {
        HopSetSlip::Greedy => groups.one_by_one(|left| groups.most_entwined(left)),
        HopSetSlip::LowestOfWhatIsLeft => groups.one_by_one(|left| left.trailing_zeros() as usize),
        HopSetSlip::DroppedOneByOne => {
            groups.places().rev().fold(groups.all(), |set, place| match set & !(1 << place) {
                less if groups.serves(less) => less,
                _ => set,
            })
        }
        HopSetSlip::SizeByNumber => (0..=groups.all()).find(|&set| groups.serves(set)).unwrap_or(right),
        HopSetSlip::HighestNumber => {
            let as_many = |set: &u64| set.count_ones() == right.count_ones() && groups.serves(*set);
            (0..=groups.all()).rev().find(as_many).unwrap_or(right)
        }
        HopSetSlip::EveryRouterInGroups => groups.all(),
        HopSetSlip::FirstGroupAlone => right & of(sharing.first()),
        HopSetSlip::LastGroupAlone => right & of(sharing.last()),
        HopSetSlip::LowestOfEachGroup => bits(&groups.grouped, |router| groups.labels[router] == router),
        HopSetSlip::SizeGiven => right.count_ones().into(),
        HopSetSlip::OneForAStableList if groups.grouped.is_empty() => 1,
        _ => right,
    }
}

/// The number of the same routers by other bits.
fn in_other_bits(slip: HopSetSlip, plan: &Plan, list: usize, groups: &Groups, set: u64) -> u64 {
    let is_unlisted = |router: &Router| !plan.lists[list].listed.contains(router);
    let by: Vec<Router> = match slip {
        HopSetSlip::BitsOfEveryReflector => plan.reflectors.iter().copied().filter(is_unlisted).collect(),
        HopSetSlip::BitAtTheRouterNumber => (0..plan.n).collect(),
        HopSetSlip::HighestRouterFirst => groups.grouped.iter().rev().copied().collect(),
        _ => return set,
    };
    let place = |router: Router| groups.grouped.iter().position(|&other| other == router);
    bits(&by, |router| place(router).is_some_and(|place| has(set, place)))
}
