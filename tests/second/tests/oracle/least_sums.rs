//! The least sums over walks, on random sheets of links.

use crate::{Outcome, SEED};
use second_checker::harness::plans::sheets::{self, Sheet};
use second_checker::harness::random::Random;
use second_checker::oracle::links::{self, Sums};

const SHEETS: u64 = 20_000;

#[test]
fn a_least_sum_is_that_of_a_lesser_one_and_a_last_link() -> Outcome {
    let mut random = Random::new(SEED);
    let mut without_a_walk = 0;
    for number in 0..SHEETS {
        let sheet = sheets::sound(&mut random);
        let links = links::read(sheet.n, &sheet.bytes()).map_err(|refusal| format!("sheet {number}: {refusal}"))?;
        let sums = links::least_sums(sheet.n, &links);
        sums_fit(&sheet, &sums).map_err(|fault| format!("sheet {number}: {fault}"))?;
        without_a_walk += sums.iter().flatten().filter(|sum| sum.is_none()).count();
    }
    (without_a_walk > 0).then_some(()).ok_or("every pair has a walk".to_string())
}

/// A sum is 0 exactly on the diagonal; no link at the end of a walk makes a lesser
/// sum; and each other sum is that of a lesser one and such a link.
fn sums_fit(sheet: &Sheet, sums: &Sums) -> Outcome {
    for (from, row) in sums.iter().enumerate() {
        let mut by_a_link = vec![None; sheet.n];
        for (&(last, to), &weight) in &sheet.weights {
            let sum = row[last].map(|sum| sum + u64::from(weight));
            by_a_link[to] = by_a_link[to].into_iter().chain(sum).min();
        }
        by_a_link[from] = Some(0);
        if *row != by_a_link {
            return Err(format!("sums from {from} are {row:?}, by their last links {by_a_link:?}"));
        }
    }
    Ok(())
}
