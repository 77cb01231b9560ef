//! The calls of the C interface, said with slices. The oracle, the linked
//! library, the yardstick and the checkers with a known fault all answer them.

/// The four buffers of the verdict call.
pub struct VerdictBuffers<'a> {
    pub labels: &'a mut [u8],
    pub ranks: &'a mut [u8],
    pub table: &'a mut [u8],
    pub cycle: &'a mut [u8],
}

/// A result variable between known bytes, so that a write wider than the
/// variable is seen.
#[derive(Clone, Copy)]
#[repr(C)]
pub struct Lent<T> {
    before: [u8; 8],
    pub value: T,
    pub after: [u8; 15],
}

/// A result variable of one byte.
pub type Flag = Lent<u8>;

impl<T> Lent<T> {
    pub fn new(value: T) -> Self {
        Lent { before: [0xA5; 8], value, after: [0x5A; 15] }
    }

    pub fn is_whole(&self) -> bool {
        self.before == [0xA5; 8] && self.after == [0x5A; 15]
    }
}

#[derive(Clone, Copy)]
pub struct SizeFields {
    pub routers: u64,
    pub lists: u64,
}

#[derive(Clone, Copy)]
pub struct ListFields {
    pub start: u64,
    pub count: u64,
}

/// A route handed to a comparison.
#[derive(Clone, Copy, Debug, PartialEq, Eq)]
pub struct Handed {
    pub egress: usize,
    /// Whether the egress router itself told the route: any number but 0 is yes. With 0 it
    /// was passed on.
    pub direct: u8,
}

impl Handed {
    /// A route that its egress router told.
    pub fn told(egress: usize) -> Self {
        Handed { egress, direct: 1 }
    }

    pub fn passed_on(egress: usize) -> Self {
        Handed { egress, direct: 0 }
    }
}

/// What a comparison of two routes gives.
#[derive(Clone, Copy)]
pub struct CompareFields {
    /// 1 for the first, 2 for the second, 0 for neither: both have one egress router, or
    /// there is a way to neither.
    pub better: Flag,
    /// 1 if there is a way to both, else 0.
    pub has_margin: Flag,
    /// The distance to the first minus the distance to the second; 0 if there is
    /// no margin.
    pub margin: Lent<i64>,
}

/// An answer of a comparison: which is better, and the margin if there is one.
pub type Compared = (u8, Option<i64>);

impl CompareFields {
    pub fn new(better: u8, has_margin: u8, margin: i64) -> Self {
        CompareFields { better: Flag::new(better), has_margin: Flag::new(has_margin), margin: Lent::new(margin) }
    }

    pub fn put(&mut self, (better, margin): Compared) {
        self.better.value = better;
        self.has_margin.value = u8::from(margin.is_some());
        self.margin.value = margin.unwrap_or(0);
    }
}

/// Why a router relies on another, or why it does not.
#[derive(Clone, Copy, Debug, PartialEq, Eq)]
pub enum Explained {
    Yes(Rule),
    No(Reason),
}

/// The rule by which a router relies on another.
#[derive(Clone, Copy, Debug, PartialEq, Eq)]
pub enum Rule {
    Parent,
    PeerClient,
    OwnBestClient,
    /// The route offered; and of an own best client, if there is one, the route and
    /// the margin, offer minus own.
    BetterOffer {
        offer: usize,
        own: Option<(usize, i64)>,
    },
}

/// A reason for which a router does not rely on another. Its number is its place
/// in document 02's order.
#[derive(Clone, Copy, Debug, PartialEq, Eq)]
pub enum Reason {
    SameRouter = 1,
    NotNeighbours,
    FirstListed,
    UnlistedClient,
    /// Both are clients, the second unlisted: never the first that applies.
    BothClients,
    NotTheBestClient,
    NoOffer,
    NoWay,
    NotBetter,
}

/// What an explanation of a reliance gives.
#[derive(Clone, Copy)]
pub struct ExplainFields {
    /// 1 if the first router relies on the second, else 0.
    pub relies: Flag,
    /// The rule: 1 parent, 2 peer client, 3 own best client, 4 better offer; or the
    /// number of the reason.
    pub code: Flag,
    /// The route of a better offer; 0 if there is none.
    pub offer: Lent<u64>,
    /// 1 if there are a better offer and an own best client, else 0.
    pub has_own: Flag,
    /// That client's route and the margin; 0 if there are none.
    pub own: Lent<u64>,
    pub margin: Lent<i64>,
}

impl ExplainFields {
    pub fn new(flags: [u8; 3], routes: [u64; 2], margin: i64) -> Self {
        let [relies, code, has_own] = flags.map(Flag::new);
        let [offer, own] = routes.map(Lent::new);
        ExplainFields { relies, code, offer, has_own, own, margin: Lent::new(margin) }
    }

    pub fn put(&mut self, explained: Explained) {
        let (relies, code, offer, own) = match explained {
            Explained::Yes(Rule::Parent) => (1, 1, 0, None),
            Explained::Yes(Rule::PeerClient) => (1, 2, 0, None),
            Explained::Yes(Rule::OwnBestClient) => (1, 3, 0, None),
            Explained::Yes(Rule::BetterOffer { offer, own }) => (1, 4, offer, own),
            Explained::No(reason) => (0, reason as u8, 0, None),
        };
        let (client, margin) = own.unwrap_or((0, 0));
        self.relies.value = relies;
        self.code.value = code;
        self.offer.value = offer as u64;
        self.has_own.value = u8::from(own.is_some());
        self.own.value = client as u64;
        self.margin.value = margin;
    }
}

#[derive(Clone, Copy)]
pub struct VerdictFields {
    pub stable: Flag,
    pub size: u64,
}

/// What the figures of a plan give beside the counts.
#[derive(Clone, Copy)]
pub struct FigureFields {
    pub stable: Lent<u64>,
    pub suspect: Lent<u64>,
    /// 1 if some list is stable, else 0.
    pub has_highest: Flag,
    /// The highest rank among the stable lists; 0 if there is none.
    pub highest: Lent<u64>,
}

impl FigureFields {
    pub fn new([stable, suspect]: [u64; 2], has_highest: u8, highest: u64) -> Self {
        let [stable, suspect, highest] = [stable, suspect, highest].map(Lent::new);
        FigureFields { stable, suspect, has_highest: Flag::new(has_highest), highest }
    }

    pub fn put(&mut self, [stable, suspect]: [u64; 2], highest: Option<u64>) {
        self.stable.value = stable;
        self.suspect.value = suspect;
        self.has_highest.value = u8::from(highest.is_some());
        self.highest.value = highest.unwrap_or(0);
    }
}

/// What the grade of a list gives.
#[derive(Clone, Copy)]
pub struct GradeFields {
    /// 1 always comes to rest, 2 can always come to rest, 3 from some table never does though
    /// there is a steady one, 4 no steady table.
    pub grade: Flag,
    /// For 1 a number of rounds within which the list comes to rest, else 0.
    pub rounds: Lent<u64>,
}

impl GradeFields {
    pub fn new(grade: u8, rounds: u64) -> Self {
        GradeFields { grade: Flag::new(grade), rounds: Lent::new(rounds) }
    }

    pub fn put(&mut self, grade: u8, rounds: u64) {
        self.grade.value = grade;
        self.rounds.value = rounds;
    }
}

/// What the call for every list gives beside the list.
#[derive(Clone, Copy)]
pub struct EveryListFields {
    /// 1 stable for every list, 0 suspect for the list written, 2 undecided.
    pub answer: Flag,
    /// How many routers that list has; 0 if there is none.
    pub count: Lent<u64>,
}

impl EveryListFields {
    pub fn new(answer: u8, count: u64) -> Self {
        EveryListFields { answer: Flag::new(answer), count: Lent::new(count) }
    }

    pub fn put(&mut self, answer: u8, count: u64) {
        self.answer.value = answer;
        self.count.value = count;
    }
}

#[derive(Clone, Copy)]
pub struct RunFields {
    pub applied: u64,
    pub rounds: u64,
    pub exhausted: Flag,
}

/// The acts handed to a run: the sequence of routers, and how many at most.
#[derive(Clone, Copy)]
pub struct Acts<'a> {
    pub sequence: &'a [u8],
    pub limit: u64,
}

/// Each call returns its refusal number, 0 for none. A refused call leaves
/// its buffers and its result fields as they were.
pub trait Checker {
    fn check(&mut self, plan: &[u8]) -> u8;

    fn size(&mut self, plan: &[u8], fields: &mut SizeFields) -> u8;

    fn list(&mut self, plan: &[u8], list: usize, fields: &mut ListFields) -> u8;

    /// Compares a first route with a second.
    fn compare(&mut self, plan: &[u8], router: usize, routes: [Handed; 2], fields: &mut CompareFields) -> u8;

    fn relies(&mut self, plan: &[u8], list: usize, pair: (usize, usize), relies: &mut u8) -> u8;

    fn explain(&mut self, plan: &[u8], list: usize, pair: (usize, usize), fields: &mut ExplainFields) -> u8;

    fn verdict(&mut self, plan: &[u8], list: usize, lent: VerdictBuffers, fields: &mut VerdictFields) -> u8;

    /// Writes the numbers of the tables that no act changes to `out`, two bytes each.
    fn steady(&mut self, plan: &[u8], list: usize, out: &mut [u8], count: &mut Lent<u64>) -> u8;

    /// Gives the number of a smallest set of routers that makes the list stable once they have
    /// the hop step.
    fn hop_set(&mut self, plan: &[u8], list: usize, set: &mut Lent<u64>) -> u8;

    /// Says whether the routers of a list come to rest, whatever the order in which they act.
    fn grade(&mut self, plan: &[u8], list: usize, fields: &mut GradeFields) -> u8;

    /// Writes how many stable lists had each rank as their highest, and for each router in how
    /// many lists it was in a group of two or more.
    fn figures(&mut self, plan: &[u8], by_rank: &mut [u8], by_router: &mut [u8], fields: &mut FigureFields) -> u8;

    /// Says whether the plan is stable for every list, whatever its own ones are; if not, writes
    /// a list for which it is suspect.
    fn every_list(&mut self, plan: &[u8], list: &mut [u8], fields: &mut EveryListFields) -> u8;

    fn activate(&mut self, plan: &[u8], list: usize, router: usize, table: &mut [u8]) -> u8;

    fn run(&mut self, plan: &[u8], list: usize, acts: Acts, table: &mut [u8], fields: &mut RunFields) -> u8;

    /// Writes the plan of mark RRP2 with the same distances to `out`, by one of mark RRP1.
    fn widen(&mut self, plan: &[u8], out: &mut [u8], length: &mut Lent<u64>) -> u8;

    /// .. of mark RRP1, by one of mark RRP2.
    fn narrow(&mut self, plan: &[u8], out: &mut [u8], length: &mut Lent<u64>) -> u8;

    /// Writes the distances of n routers to `out`, by a sheet of links.
    fn distances(&mut self, n: usize, links: &[u8], out: &mut [u8]) -> u8;
}

/// Stores the result of a call, or gives its refusal number and leaves the
/// result as it was.
pub fn store<T>(result: Result<T, u8>, into: &mut T) -> u8 {
    match result {
        Ok(value) => {
            *into = value;
            0
        }
        Err(refusal) => refusal,
    }
}
