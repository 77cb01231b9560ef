//! Whether a plan is stable for every list: the call with buffers of many lengths, held to the
//! checker's own verdicts on the plan with other lists in place of its own.

use super::arguments;
use super::call::{Answer, Call};
use super::compare::{hex, Comparison, Mismatch, Outcome};
use crate::harness::plans::draft::Bodies;
use crate::harness::random::Random;
use crate::oracle::plan::{Plan, Router};

/// So many clients are few: all lists of clients are judged.
const FEW_CLIENTS: usize = 5;

/// So many lists of any routers are judged for a plan that is stable for every list.
const DRAWN_LISTS: usize = 3;

/// The calls for a plan, the verdicts of whose own lists are known.
pub fn compare(
    comparison: &mut Comparison,
    random: &mut Random,
    bytes: &[u8],
    plan: &Plan,
    verdicts: &[Answer],
) -> Outcome {
    let n = plan.n;
    let longer = n + random.pick(&[1, 2, 7, 64]);
    for length in [longer, n] {
        let out = random.bytes(length);
        let answer = comparison.call(bytes, &Call::EveryList { out })?;
        let asked = Asked { bytes, plan, verdicts, answer: &answer };
        if !asked.fits() || (length == n && !asked.fits_verdicts(comparison, random)?) {
            let differs = format!("plan {}\nnot what is stated of every list {answer:?}", hex(bytes));
            return Err(Box::new(Mismatch(differs)));
        }
    }
    for length in [n - 1, arguments::short(random, n), 0] {
        let out = random.bytes(length);
        comparison.call(bytes, &Call::EveryList { out })?;
    }
    Ok(())
}

/// The plan with this list alone.
pub fn with_list(bytes: &[u8], listed: &[u8]) -> Vec<u8> {
    Bodies { lists: [&[1, listed.len() as u8], listed].concat(), ..Bodies::of(bytes) }.bytes()
}

/// Whether no client has two parents. One with the hop step, or without a way to the client, does
/// not count.
pub fn has_single_parents(plan: &Plan) -> bool {
    let counts = |client: Router, parent: &Router| {
        plan.is_reflector(*parent) && !plan.steps(*parent) && plan.has_way(*parent, client)
    };
    let parents = |client: Router| plan.neighbours[client].iter().filter(|&parent| counts(client, parent)).count();
    clients(plan).into_iter().all(|client| parents(client) < 2)
}

/// Whether each reflector without the step is nearer to its own clients than to those of its
/// neighbours that are not its own.
pub fn own_clients_are_nearer(plan: &Plan) -> bool {
    let clients_of = |router: Router| plan.neighbours[router].iter().filter(|&&other| !plan.is_reflector(other));
    let places = |at: Router, clients: &mut dyn Iterator<Item = &Router>| -> Vec<usize> {
        clients.filter_map(|&e| plan.place(at, e)).collect()
    };
    plan.reflectors.difference(&plan.stepping).all(|&router| {
        let own = places(router, &mut clients_of(router));
        let around = plan.neighbours[router].iter().filter(|&&other| plan.is_reflector(other));
        let foreign = around.flat_map(|&other| clients_of(other)).filter(|e| !plan.neighbours[router].contains(e));
        let foreign = places(router, &mut { foreign });
        own.iter().max() < foreign.iter().min() || foreign.is_empty()
    })
}

fn clients(plan: &Plan) -> Vec<Router> {
    (0..plan.n).filter(|&router| !plan.is_reflector(router)).collect()
}

/// An answer, which is not refused.
struct Asked<'a> {
    bytes: &'a [u8],
    plan: &'a Plan,
    verdicts: &'a [Answer],
    answer: &'a Answer,
}

impl Asked<'_> {
    /// What the text of the call states of an answer, by the plan and the verdicts of its own lists:
    /// a list of a no is of clients, rising; yes only if the own lists are stable, and always with
    /// the hop step everywhere or where own clients are nearer; undecided never with single parents.
    fn fits(&self) -> bool {
        if self.answer.refusal != 0 {
            return false;
        }
        let list = self.answer.suspect_list();
        let are_clients = list.iter().all(|&client| !self.plan.is_reflector(usize::from(client)));
        let rises = list.is_sorted_by(|one, next| one < next) && list.iter().all(|&e| usize::from(e) < self.plan.n);
        let is_sure = self.plan.all_step() || own_clients_are_nearer(self.plan);
        match self.answer.fields[0] {
            0 => list.len() > 1 && are_clients && rises && !is_sure,
            1 => list.is_empty() && self.verdicts.iter().all(|verdict| verdict.fields[0] == 1),
            2 => list.is_empty() && !is_sure && !has_single_parents(self.plan),
            _ => false,
        }
    }

    /// .. and by verdicts on the plan with other lists: suspect for the list of a no, stable for any
    /// list after a yes. A checker is held to it whatever the oracle says.
    fn fits_verdicts(&self, comparison: &mut Comparison, random: &mut Random) -> Result<bool, Box<Mismatch>> {
        let (answer, list) = (self.answer.fields[0] as usize, self.answer.suspect_list());
        let counts = &mut comparison.counts.every_list;
        counts.plans[answer] += 1;
        counts.single[answer] += u64::from(has_single_parents(self.plan));
        counts.longest = counts.longest.max(list.len());
        if answer == 0 {
            let call = self.verdict_call();
            return Ok(comparison.call(&with_list(self.bytes, list), &call)?.fields[0] == 0);
        }
        let clients = clients(self.plan);
        let mut all_stable = true;
        if clients.len() <= FEW_CLIENTS {
            comparison.counts.every_list.tried += 1;
            all_stable = (0..1u32 << clients.len()).all(|set| {
                let chosen = clients.iter().enumerate().filter(|(place, _)| set >> place & 1 == 1);
                self.is_stable(comparison, &chosen.map(|(_, &client)| client as u8).collect::<Vec<_>>())
            });
        }
        comparison.counts.every_list.undecided_though_stable += u64::from(answer == 2 && all_stable);
        for _ in 0..DRAWN_LISTS {
            let share = random.pick(&[30, 60, 90]);
            let reflectors = random.pick(&[0, 10, 30]);
            let chance = |router: usize| if self.plan.is_reflector(router) { reflectors } else { share };
            let list: Vec<u8> =
                (0..self.plan.n).filter(|&router| random.chance(chance(router))).map(|router| router as u8).collect();
            all_stable &= self.is_stable(comparison, &list);
        }
        Ok(all_stable || answer == 2)
    }

    fn verdict_call(&self) -> Call {
        let n = self.plan.n;
        Call::Verdict { list: 0, buffers: [n, n, 2 * n, n].map(|need| vec![0x5A; need]) }
    }

    /// Whether a list is stable, by the checker alone.
    fn is_stable(&self, comparison: &mut Comparison, list: &[u8]) -> bool {
        let answer = comparison.subject(&with_list(self.bytes, list), &self.verdict_call());
        answer.refusal == 0 && answer.fields[0] == 1
    }
}
