//! Makes one call on any checker and keeps all that it answers and all that it
//! leaves: results, buffers, and the bytes around them.

use crate::interface::{
    Acts, Checker, CompareFields, Compared, EveryListFields, ExplainFields, FigureFields, Flag, GradeFields, Handed,
    Lent, ListFields, RunFields, SizeFields, VerdictBuffers, VerdictFields,
};

/// One call, with the content of its buffers before it.
#[derive(Debug)]
pub enum Call {
    Check,
    Size,
    List {
        list: usize,
    },
    /// The routes are the first and the second.
    Compare {
        router: usize,
        routes: [Handed; 2],
    },
    Relies {
        list: usize,
        router: usize,
        other: usize,
    },
    Explain {
        list: usize,
        router: usize,
        other: usize,
    },
    /// The buffers are labels, ranks, table and cycle.
    Verdict {
        list: usize,
        buffers: [Vec<u8>; 4],
    },
    Steady {
        list: usize,
        out: Vec<u8>,
    },
    HopSet {
        list: usize,
    },
    Grade {
        list: usize,
    },
    /// The buffers are the counts by rank and those by router.
    Figures {
        buffers: [Vec<u8>; 2],
    },
    /// The buffer is for the list of a no.
    EveryList {
        out: Vec<u8>,
    },
    Activate {
        list: usize,
        router: usize,
        table: Vec<u8>,
    },
    Run {
        list: usize,
        sequence: Vec<u8>,
        limit: u64,
        table: Vec<u8>,
    },
    /// From RRP1 to RRP2.
    Widen {
        out: Vec<u8>,
    },
    /// From RRP2 to RRP1.
    Narrow {
        out: Vec<u8>,
    },
    /// A call about no plan.
    Distances {
        n: usize,
        links: Vec<u8>,
        out: Vec<u8>,
    },
}

/// What any result variable may hold: a number of eight bytes, or one with a sign.
pub type Field = i128;

/// All that a call answered and left.
#[derive(Debug, PartialEq)]
pub struct Answer {
    pub refusal: u8,
    /// The result fields in the order of the interface.
    pub fields: Vec<Field>,
    /// Every byte of every lent buffer after the call.
    pub buffers: Vec<Vec<u8>>,
    /// The bytes before and after each buffer, each result variable of one byte and those of
    /// a comparison, an explanation, a count of steady tables, a set, a grade, figures, an answer
    /// for every list and a conversion, the plan, the sequence and the links are as they were.
    pub surroundings_kept: bool,
}

impl Answer {
    fn new(refusal: u8, fields: impl Into<Vec<Field>>) -> Self {
        Answer { refusal, fields: fields.into(), buffers: Vec::new(), surroundings_kept: true }
    }

    /// What a comparison that is not refused gave.
    pub fn compared(&self) -> Compared {
        let margin = (self.fields[1] == 1).then_some(self.fields[2] as i64);
        (self.fields[0] as u8, margin)
    }

    /// The offer, the own best client and the margin of an explanation that gave them.
    pub fn better_than_own(&self) -> Option<(usize, usize, i64)> {
        match (self.refusal, &self.fields[..]) {
            (0, &[_, _, offer, 1, own, margin]) => Some((offer as usize, own as usize, margin as i64)),
            _ => None,
        }
    }

    /// The numbers of steady tables that a call which is not refused gave.
    pub fn numbers(&self) -> Vec<u64> {
        let (written, _) = self.buffers[0].as_chunks();
        let numbers = written.iter().map(|&bytes| u64::from(u16::from_le_bytes(bytes)));
        numbers.take(self.fields[0] as usize).collect()
    }

    /// The grade and the rounds of a call for them that is not refused.
    pub fn graded(&self) -> (u8, u64) {
        (self.fields[0] as u8, self.fields[1] as u64)
    }

    /// The list that a call for every list which is not refused gave.
    pub fn suspect_list(&self) -> &[u8] {
        &self.buffers[0][..self.fields[1] as usize]
    }

    fn beside<T>(mut self, result: Lent<T>) -> Self {
        self.surroundings_kept &= result.is_whole();
        self
    }

    fn with(mut self, buffers: &[Guarded]) -> Self {
        self.buffers = buffers.iter().map(Guarded::content).collect();
        self.surroundings_kept &= buffers.iter().all(Guarded::is_whole);
        self
    }
}

const GUARD: usize = 16;

/// A buffer between two stretches of known bytes.
struct Guarded {
    bytes: Vec<u8>,
}

impl Guarded {
    fn new(content: &[u8]) -> Self {
        let fence = |place: usize| 0xA5 ^ place as u8;
        let bytes = (0..GUARD).map(fence).chain(content.iter().copied()).chain((0..GUARD).map(fence));
        Guarded { bytes: bytes.collect() }
    }

    fn lent(&mut self) -> &mut [u8] {
        let end = self.bytes.len() - GUARD;
        &mut self.bytes[GUARD..end]
    }

    fn content(&self) -> Vec<u8> {
        self.bytes[GUARD..self.bytes.len() - GUARD].to_vec()
    }

    fn is_whole(&self) -> bool {
        Guarded::new(&self.content()).bytes == self.bytes
    }
}

/// Makes the call. The result fields hold `prior` (or its low byte) before.
pub fn perform(checker: &mut dyn Checker, plan: &[u8], call: &Call, prior: u64) -> Answer {
    let lent_plan = plan.to_vec();
    let mut answer = match call {
        Call::Check => Answer::new(checker.check(&lent_plan), []),
        Call::Size => {
            let mut fields = SizeFields { routers: prior, lists: !prior };
            let refusal = checker.size(&lent_plan, &mut fields);
            Answer::new(refusal, [fields.routers, fields.lists].map(Field::from))
        }
        Call::List { list } => {
            let mut fields = ListFields { start: prior, count: !prior };
            let refusal = checker.list(&lent_plan, *list, &mut fields);
            Answer::new(refusal, [fields.start, fields.count].map(Field::from))
        }
        Call::Compare { router, routes } => perform_compare(checker, &lent_plan, *router, *routes, prior),
        Call::Relies { list, router, other } => {
            let mut relies = Flag::new(prior as u8);
            let refusal = checker.relies(&lent_plan, *list, (*router, *other), &mut relies.value);
            Answer::new(refusal, [relies.value.into()]).beside(relies)
        }
        Call::Explain { list, router, other } => {
            perform_explain(checker, &lent_plan, *list, (*router, *other), prior)
        }
        Call::Verdict { list, buffers } => perform_verdict(checker, &lent_plan, *list, buffers, prior),
        Call::Steady { list, out } => {
            perform_writing(out, prior, |out, count| checker.steady(&lent_plan, *list, out, count))
        }
        Call::HopSet { list } => {
            let mut set = Lent::new(prior);
            let refusal = checker.hop_set(&lent_plan, *list, &mut set);
            Answer::new(refusal, [set.value.into()]).beside(set)
        }
        Call::Grade { list } => {
            let mut fields = GradeFields::new(prior as u8, !prior);
            let refusal = checker.grade(&lent_plan, *list, &mut fields);
            let GradeFields { grade, rounds } = fields;
            Answer::new(refusal, [grade.value.into(), rounds.value.into()]).beside(grade).beside(rounds)
        }
        Call::Figures { buffers } => perform_figures(checker, &lent_plan, buffers, prior),
        Call::EveryList { out } => perform_every_list(checker, &lent_plan, out, prior),
        Call::Activate { list, router, table } => perform_activate(checker, &lent_plan, *list, *router, table),
        Call::Run { list, sequence, limit, table } => {
            let acts = Acts { sequence, limit: *limit };
            perform_run(checker, &lent_plan, *list, acts, table, prior)
        }
        Call::Widen { out } => perform_writing(out, prior, |out, length| checker.widen(&lent_plan, out, length)),
        Call::Narrow { out } => perform_writing(out, prior, |out, length| checker.narrow(&lent_plan, out, length)),
        Call::Distances { n, links, out } => perform_distances(checker, *n, links, out),
    };
    answer.surroundings_kept &= lent_plan == plan;
    answer
}

fn perform_compare(checker: &mut dyn Checker, plan: &[u8], router: usize, routes: [Handed; 2], prior: u64) -> Answer {
    let mut fields = CompareFields::new(prior as u8, !prior as u8, prior as i64);
    let refusal = checker.compare(plan, router, routes, &mut fields);
    let CompareFields { better, has_margin, margin } = fields;
    let results = [better.value.into(), has_margin.value.into(), margin.value.into()];
    Answer::new(refusal, results).beside(better).beside(has_margin).beside(margin)
}

fn perform_explain(checker: &mut dyn Checker, plan: &[u8], list: usize, pair: (usize, usize), prior: u64) -> Answer {
    let flags = [prior, !prior, prior >> 8].map(|prior| prior as u8);
    let mut fields = ExplainFields::new(flags, [prior, !prior], prior as i64);
    let refusal = checker.explain(plan, list, pair, &mut fields);
    let ExplainFields { relies, code, offer, has_own, own, margin } = fields;
    let yes = [relies.value.into(), code.value.into(), offer.value.into()];
    let beside_own = [has_own.value.into(), own.value.into(), margin.value.into()];
    let answer = Answer::new(refusal, [yes, beside_own].concat());
    answer.beside(relies).beside(code).beside(offer).beside(has_own).beside(own).beside(margin)
}

fn perform_verdict(
    checker: &mut dyn Checker,
    plan: &[u8],
    list: usize,
    buffers: &[Vec<u8>; 4],
    prior: u64,
) -> Answer {
    let mut fields = VerdictFields { stable: Flag::new(prior as u8), size: prior };
    let mut lent = buffers.each_ref().map(|buffer| Guarded::new(buffer));
    let [labels, ranks, table, cycle] = lent.each_mut().map(Guarded::lent);
    let refusal = checker.verdict(plan, list, VerdictBuffers { labels, ranks, table, cycle }, &mut fields);
    let results = [fields.stable.value.into(), fields.size.into()];
    Answer::new(refusal, results).with(&lent).beside(fields.stable)
}

fn perform_figures(checker: &mut dyn Checker, plan: &[u8], buffers: &[Vec<u8>; 2], prior: u64) -> Answer {
    let mut fields = FigureFields::new([prior, !prior], prior as u8, prior >> 8);
    let mut lent = buffers.each_ref().map(|buffer| Guarded::new(buffer));
    let [by_rank, by_router] = lent.each_mut().map(Guarded::lent);
    let refusal = checker.figures(plan, by_rank, by_router, &mut fields);
    let FigureFields { stable, suspect, has_highest, highest } = fields;
    let results = [stable.value.into(), suspect.value.into(), has_highest.value.into(), highest.value.into()];
    Answer::new(refusal, results).with(&lent).beside(stable).beside(suspect).beside(has_highest).beside(highest)
}

fn perform_every_list(checker: &mut dyn Checker, plan: &[u8], out: &[u8], prior: u64) -> Answer {
    let mut fields = EveryListFields::new(prior as u8, !prior);
    let mut lent = [Guarded::new(out)];
    let refusal = checker.every_list(plan, lent[0].lent(), &mut fields);
    let EveryListFields { answer, count } = fields;
    Answer::new(refusal, [answer.value.into(), count.value.into()]).with(&lent).beside(answer).beside(count)
}

fn perform_activate(checker: &mut dyn Checker, plan: &[u8], list: usize, router: usize, table: &[u8]) -> Answer {
    let mut lent = [Guarded::new(table)];
    let refusal = checker.activate(plan, list, router, lent[0].lent());
    Answer::new(refusal, []).with(&lent)
}

fn perform_run(checker: &mut dyn Checker, plan: &[u8], list: usize, acts: Acts, table: &[u8], prior: u64) -> Answer {
    let lent_sequence = acts.sequence.to_vec();
    let mut fields = RunFields { applied: prior, rounds: !prior, exhausted: Flag::new(prior as u8) };
    let mut lent = [Guarded::new(table)];
    let lent_acts = Acts { sequence: &lent_sequence, ..acts };
    let refusal = checker.run(plan, list, lent_acts, lent[0].lent(), &mut fields);
    let results = [fields.applied.into(), fields.rounds.into(), fields.exhausted.value.into()];
    let mut answer = Answer::new(refusal, results).with(&lent).beside(fields.exhausted);
    answer.surroundings_kept &= lent_sequence == acts.sequence;
    answer
}

/// A call with a buffer to write to and a result variable that says how much it wrote.
fn perform_writing(out: &[u8], prior: u64, write: impl FnOnce(&mut [u8], &mut Lent<u64>) -> u8) -> Answer {
    let (mut written, mut lent) = (Lent::new(prior), [Guarded::new(out)]);
    let refusal = write(lent[0].lent(), &mut written);
    Answer::new(refusal, [written.value.into()]).with(&lent).beside(written)
}

fn perform_distances(checker: &mut dyn Checker, n: usize, links: &[u8], out: &[u8]) -> Answer {
    let (lent_links, mut lent) = (links.to_vec(), [Guarded::new(out)]);
    let refusal = checker.distances(n, &lent_links, lent[0].lent());
    let mut answer = Answer::new(refusal, []).with(&lent);
    answer.surroundings_kept &= lent_links == links;
    answer
}
