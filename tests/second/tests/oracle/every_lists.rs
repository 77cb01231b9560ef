//! Whether random plans are stable for every list: by the verdicts of all lists of clients, and of
//! lists with reflectors; and by pairs taken away again and again.

use crate::{Outcome, SEED};
use second_checker::harness::plans::generate;
use second_checker::harness::random::Random;
use second_checker::harness::surveys::every_lists::suspect_list;
use second_checker::harness::surveys::meshes::Mesh;
use second_checker::oracle::every_list::{self, is_suspect, leads, EveryList};
use second_checker::oracle::plan::{self, Listed, Plan, Router};
use second_checker::oracle::rules::Right;

/// Random plans of at most eight clients, with cuts, the hop step and all else; and meshes, in half
/// of which clients are shared.
fn on_each_plan(mut holds: impl FnMut(&mut Random, &Plan, &EveryList) -> Outcome) -> Outcome {
    let mut random = Random::new(SEED);
    for number in 0..1500 {
        let draft = if number % 2 == 0 {
            let n = random.between(2, 11);
            generate::sound_of(&mut random, n)
        } else {
            let (reflectors, clients) = (random.between(2, 7), random.between(2, 8));
            let shared = random.pick(&[0, 20, 50]);
            Mesh { reflectors, clients, shared }.draw(&mut random)
        };
        let plan = plan::read(&draft.bytes()).map_err(|refusal| format!("refused with {refusal}"))?;
        if plan.n - plan.reflectors.len() <= 8 {
            let answer = every_list::every_list(&Right, &plan);
            holds(&mut random, &plan, &answer).map_err(|fault| format!("plan {number}: {fault}"))?;
        }
    }
    Ok(())
}

fn parents(plan: &Plan, client: Router) -> usize {
    plan.neighbours[client].intersection(&plan.reflectors).count()
}

#[test]
fn all_lists_of_clients_are_stable_exactly_as_said() -> Outcome {
    let mut answers = [0; 3];
    on_each_plan(|random, plan, answer| {
        let suspect = suspect_list(plan);
        let clients: Vec<Router> = (0..plan.n).filter(|&router| !plan.is_reflector(router)).collect();
        let fits = match answer {
            EveryList::No(list) => {
                answers[0] += 1;
                suspect.is_some() && is_suspect(&Right, plan, list) && list.iter().all(|e| clients.contains(e))
            }
            EveryList::Yes => {
                answers[1] += 1;
                let any: Listed = (0..plan.n).filter(|_| random.chance(50)).collect();
                suspect.is_none() && !is_suspect(&Right, plan, &any)
            }
            EveryList::Undecided => {
                answers[2] += 1;
                clients.iter().any(|&client| parents(plan, client) > 1)
            }
        };
        fits.then_some(()).ok_or(format!("{answer:?}, but suspect for {suspect:?}"))
    })?;
    println!("no, yes, undecided {answers:?}");
    let enough = answers[0] > 200 && answers[1] > 200;
    enough.then_some(()).ok_or(format!("no, yes, undecided {answers:?}"))
}

/// Any list with reflectors that is suspect is so by its clients alone.
#[test]
fn a_suspect_list_is_suspect_by_its_clients_alone() -> Outcome {
    let mut suspect = 0;
    on_each_plan(|random, plan, answer| {
        for _ in 0..20 {
            let share = random.pick(&[10, 30]);
            let list: Listed = (0..plan.n)
                .filter(|&router| random.chance(if plan.is_reflector(router) { share } else { 85 }))
                .collect();
            if is_suspect(&Right, plan, &list) {
                let clients: Listed = list.difference(&plan.reflectors).copied().collect();
                suspect += usize::from(clients != list);
                if *answer == EveryList::Yes || !is_suspect(&Right, plan, &clients) {
                    return Err(format!("{answer:?}, but {list:?} is suspect"));
                }
            }
        }
        Ok(())
    })?;
    (suspect > 100).then_some(()).ok_or(format!("{suspect} suspect lists with reflectors"))
}

#[test]
fn the_pairs_left_are_those_that_taking_away_leaves() -> Outcome {
    let mut some_left = 0;
    on_each_plan(|_, plan, _| {
        let mut left = every_list::pairs(&Right, plan);
        loop {
            let before = left.clone();
            left.retain(|&pair| before.iter().any(|&next| leads(&Right, plan, pair, next)));
            if left == before {
                break;
            }
        }
        some_left += usize::from(!left.is_empty());
        let searched = every_list::left(&Right, plan);
        (left == searched).then_some(()).ok_or(format!("taken away {left:?}, searched {searched:?}"))
    })?;
    (some_left > 200).then_some(()).ok_or(format!("{some_left} plans with pairs left"))
}
