//! What document 02 states of reflectors with the hop step, by roles alone: no cycle contains
//! one, and a list is stable if all reflectors have it. A checker is held to it whatever the
//! oracle says.

use super::arguments;
use super::call::{Answer, Call, Field};
use super::compare::{hex, Comparison, Mismatch, Outcome};
use crate::harness::plans::draft::Bodies;
use crate::harness::plans::topology::with_step;
use crate::harness::random::Random;
use crate::interface::Handed;
use crate::oracle::plan::{self, Plan, Router};

/// The highest rank that a list can have if all reflectors have the step: three is that of a
/// client whose parent relies on a reflector, and that one on its best client.
pub const HIGHEST_RANK: Field = 3;

/// Whether the step decides between two routes at a router, all below n: it has it, there are
/// ways to both egress routers, which are not one, and one route alone is told by its own.
pub fn decides(plan: &Plan, at: Router, [first, second]: [Handed; 2]) -> bool {
    let ways = [first, second].map(|route| plan.has_way(at, route.egress));
    let one_is_told = (first.direct == 0) != (second.direct == 0);
    plan.steps(at) && ways == [true, true] && first.egress != second.egress && one_is_told
}

/// A reflector with the step is alone in its group, and in no cycle; and the verdict is stable
/// if all have it.
pub fn hold_verdict(bytes: &[u8], plan: &Plan, verdict: &Answer) -> Outcome {
    let (labels, is_stable) = (&verdict.buffers[0][..plan.n], verdict.fields[0] == 1);
    let is_alone = |router: Router| {
        let label = |other: &u8| usize::from(*other) == router;
        labels.iter().filter(|other| label(other)).count() == 1 && label(&labels[router])
    };
    let cycle = if is_stable { &[] } else { &verdict.buffers[3][..verdict.fields[1] as usize] };
    let in_the_cycle = cycle.iter().any(|&router| plan.steps(router.into()));
    let all_fit = !plan.all_step() || is_stable && verdict.fields[1] <= HIGHEST_RANK;
    if all_fit && !in_the_cycle && plan.stepping.iter().all(|&router| is_alone(router)) {
        return Ok(());
    }
    Err(Box::new(Mismatch(format!("plan {}\nnot what is stated of the hop step {verdict:?}", hex(bytes)))))
}

/// The verdict of a list of a sound plan, whose reflectors are all given the step.
pub fn compare_with_all(comparison: &mut Comparison, random: &mut Random, bytes: &[u8], list: usize) -> Outcome {
    let mut bodies = Bodies::of(bytes);
    bodies.routers.iter_mut().step_by(5).for_each(|role| *role = with_step(*role));
    let bytes = bodies.bytes();
    let plan = plan::read(&bytes).expect("a plan sound with other roles");
    let buffers = arguments::verdict_buffers(random, plan.n);
    let verdict = comparison.call(&bytes, &Call::Verdict { list, buffers })?;
    hold_verdict(&bytes, &plan, &verdict)
}
