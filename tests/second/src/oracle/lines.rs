//! What the programs `verdict` and `margin` are due to print.

use super::asked_for;
use super::plan::{self, Plan};
use super::rules::{Case, Right, Rules};
use super::verdict::{self, Outcome};

fn refused(refusal: u8) -> String {
    format!("refused {refusal}\n")
}

/// All lines for the bytes of a plan, sound or not.
pub fn verdict_lines(bytes: &[u8]) -> String {
    match plan::read(bytes) {
        Ok(plan) => lines_of(&plan),
        Err(refusal) => refused(refusal),
    }
}

fn lines_of(plan: &Plan) -> String {
    let mut lines = format!("routers {} lists {}\n", plan.n, plan.lists.len());
    for (number, list) in plan.lists.iter().enumerate() {
        lines += &match verdict::verdict(&Right, Case { plan, listed: &list.listed }).outcome {
            Outcome::Stable { ranks, .. } => format!("{number} stable {}\n", verdict::highest(&ranks)),
            Outcome::Suspect { cycle } => {
                let routers: String = cycle.iter().map(|router| format!(" {router}")).collect();
                format!("{number} suspect {}{routers}\n", cycle.len())
            }
        };
    }
    lines
}

/// The line for three bytes, router, first and second, and then the bytes of a
/// plan, sound or not.
pub fn margin_line(bytes: &[u8]) -> String {
    match margin(bytes) {
        Ok(Some(margin)) => format!("{margin}\n"),
        Ok(None) => "none\n".to_string(),
        Err(refusal) => refused(refusal),
    }
}

fn margin(bytes: &[u8]) -> Result<Option<i64>, u8> {
    let (asked, plan) = bytes.split_first_chunk().ok_or(1u8)?;
    let plan = plan::read(plan)?;
    let [router, first, second] = asked.map(usize::from);
    asked_for(&plan, &[router, first, second])?;
    Ok(Right.margin(&plan, router, first, second))
}
