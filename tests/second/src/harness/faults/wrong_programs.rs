//! Programs `margin` that are wrong in one way each, to see that the inputs tell each from
//! the right one.

use crate::oracle::{margin_line, plan};

/// A program that is wrong in one way.
pub type Program = fn(&[u8]) -> String;

pub const WRONG_PROGRAMS: [(&str, Program); 17] = [
    ("the sign left out", |input| margin_line(input).replace('-', "")),
    ("a plus sign", |input| of_margins(input, |margin| format!("{margin:+}\n"))),
    ("the sign turned", |input| of_margins(input, |margin| format!("{}\n", -margin))),
    ("in tens", |input| of_margins(input, |margin| format!("{}\n", margin / 10))),
    ("none as 0", |input| margin_line(input).replace("none", "0")),
    ("no byte 10", |input| margin_line(input).replace('\n', "")),
    ("fewer than three bytes refused with 8", few_refused_with_8),
    ("three bytes and no plan as none", three_as_none),
    ("cut to four bytes", |input| of_margins(input, |margin| format!("{}\n", margin as i32))),
    ("a long plan of RRP1 cut", |input| margin_line(&input[..input.len().min(16_734)])),
    ("a long plan of RRP2 cut", |input| margin_line(&input[..input.len().min(24_926)])),
    ("router and first exchanged", |input| exchanged(input, 0, 1)),
    ("first and second exchanged", |input| exchanged(input, 1, 2)),
    ("the plan first", plan_first),
    ("zero at a reflector with the hop step", |input| at_the_step(input, "0\n")),
    ("none at a reflector with the hop step", |input| at_the_step(input, "none\n")),
    ("the hop step refused", |input| at_the_step(input, "refused 4\n")),
];

/// The line, with another text for a margin.
fn of_margins(input: &[u8], text: impl Fn(i64) -> String) -> String {
    let line = margin_line(input);
    line.trim_end().parse().map_or(line, text)
}

fn few_refused_with_8(input: &[u8]) -> String {
    if input.len() < 3 {
        return "refused 8\n".to_string();
    }
    margin_line(input)
}

fn three_as_none(input: &[u8]) -> String {
    if input.len() == 3 {
        return "none\n".to_string();
    }
    margin_line(input)
}

fn exchanged(input: &[u8], one: usize, other: usize) -> String {
    let mut input = input.to_vec();
    if input.len() >= 3 {
        input.swap(one, other);
    }
    margin_line(&input)
}

fn plan_first(input: &[u8]) -> String {
    let mut input = input.to_vec();
    if input.len() >= 3 {
        input.rotate_right(3);
    }
    margin_line(&input)
}

/// Another line at a reflector with the hop step, where the right one is a margin.
fn at_the_step(input: &[u8], line: &str) -> String {
    let steps = match input {
        [router, _, _, plan @ ..] => plan::read(plan).is_ok_and(|plan| plan.steps((*router).into())),
        _ => false,
    };
    of_margins(input, |margin| if steps { line.to_string() } else { format!("{margin}\n") })
}
