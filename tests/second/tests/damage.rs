//! Damaged plans and sheets are refused with the number that the damage is aimed at, nearly
//! always: another rule may be broken with it, or none that counts.

use crate::{Outcome, SEED};
use second_checker::harness::plans::damage::{self, AIMED_AT};
use second_checker::harness::plans::generate;
use second_checker::harness::plans::sheets::{self, DAMAGES};
use second_checker::harness::random::Random;
use second_checker::oracle::{links, plan};

/// So many plans are damaged for each refusal, and so many sheets in each way.
const DAMAGED: usize = 500;

/// Of the damaged ones, eight in ten are refused as they should be.
fn nearly_always(what: &str, mut is_refused_so: impl FnMut() -> bool) -> Outcome {
    let count = (0..DAMAGED).filter(|_| is_refused_so()).count();
    if count < DAMAGED * 8 / 10 {
        return Err(format!("{what} is refused so {count} times of {DAMAGED}"));
    }
    Ok(())
}

#[test]
fn damage_aimed_at_a_refusal_is_refused_with_it() -> Outcome {
    let mut random = Random::new(SEED);
    AIMED_AT.into_iter().try_for_each(|refusal| {
        nearly_always(&format!("damage aimed at {refusal}"), || {
            let draft = generate::sound(&mut random);
            plan::read(&damage::aimed(&mut random, &draft, refusal)).err() == Some(refusal)
        })
    })
}

#[test]
fn damaged_links_are_refused_with_11() -> Outcome {
    let mut random = Random::new(SEED);
    DAMAGES.into_iter().try_for_each(|damage| {
        nearly_always(&format!("the damage {damage:?}"), || {
            let sheet = sheets::sound(&mut random);
            links::read(sheet.n, &sheets::damaged(&mut random, &sheet, damage)).err() == Some(11)
        })
    })
}
