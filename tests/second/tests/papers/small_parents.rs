//! What document 02 states of the parents of a client, on small plans.

use super::{answer, same};
use crate::Outcome;
use second_checker::harness::comparison::call::Call;
use second_checker::harness::plans::draft::Bodies;
use second_checker::harness::plans::small_plans::star;
use second_checker::interface::Checker;
use second_checker::oracle::plan::Router;
use second_checker::oracle::Oracle;

fn check(plan: &[u8]) -> u8 {
    Oracle::right().check(plan)
}

#[test]
fn a_client_has_at_most_four_parents() -> Outcome {
    let is = |what: &str, centre: Router, roles: &[u8], refusal: u8| {
        same(what, check(&star(centre, roles).bytes()), refusal)
    };
    is("four parents", 4, &[1, 1, 1, 1, 2], 0)?;
    is("five parents", 5, &[1, 1, 1, 1, 1, 2], 13)?;
    is("six parents", 6, &[1, 1, 1, 1, 1, 1, 2], 13)?;
    is("63 parents", 63, &[[1; 63].as_slice(), &[2]].concat(), 13)?;
    is("five parents of higher numbers", 0, &[2, 1, 1, 1, 1, 1], 13)?;
    is("five parents of lower and higher numbers", 2, &[1, 1, 2, 1, 1, 1], 13)?;
    is("five parents, two of role 3", 5, &[1, 3, 1, 3, 1, 2], 13)?;
    is("five parents of role 3", 5, &[3, 3, 3, 3, 3, 2], 13)?;
    is("four parents of role 3", 4, &[3, 3, 3, 3, 2], 0)?;
    is("five parents, two with the hop step", 5, &[1, 4, 3, 5, 1, 2], 13)?;
    is("five parents with the hop step", 5, &[4, 5, 4, 5, 4, 2], 13)?;
    is("four parents with the hop step", 4, &[4, 5, 5, 4, 2], 0)?;
    is("four parents and two clients", 6, &[1, 2, 1, 1, 2, 1, 2], 0)?;
    is("a client with five clients", 5, &[2, 2, 2, 2, 2, 2], 0)?;
    is("a reflector with five clients", 5, &[2, 2, 2, 2, 2, 1], 0)?;
    is("a reflector with five reflectors", 5, &[1, 1, 1, 1, 1, 1], 0)?;
    is("role 3 with five reflectors", 5, &[1, 1, 1, 1, 1, 3], 0)?;
    is("role 4 with five reflectors", 5, &[1, 1, 4, 1, 5, 4], 0)
}

#[test]
fn refusal_13_goes_after_4_and_5_and_before_6_7_and_8() -> Outcome {
    let is = |what: &str, roles: &[u8], refusal: u8, damage: fn(&mut Bodies)| {
        let mut bodies = star(5, roles).bodies();
        damage(&mut bodies);
        same(what, check(&bodies.bytes()), refusal)
    };
    let (four, five) = ([1, 1, 1, 1, 2, 2], [1, 1, 1, 1, 1, 2]);
    is("five parents and role 6", &five, 4, |bodies| bodies.routers[0] = 6)?;
    is("five parents and a session with itself", &five, 5, |bodies| bodies.sessions.extend([5, 5]))?;
    is("five parents and a diagonal of 1", &five, 13, |bodies| bodies.distances[0] = 1)?;
    is("five parents and no lists", &five, 13, |bodies| bodies.lists[0] = 0)?;
    is("four parents and a diagonal of 1", &four, 6, |bodies| bodies.distances[0] = 1)?;
    is("four parents and no lists", &four, 7, |bodies| bodies.lists[0] = 0)?;
    let no_such_list = |roles: &[u8]| answer(&star(5, roles), &Call::List { list: 1 }).refusal;
    same("five parents, four parents, and no such list", [five, four].map(|roles| no_such_list(&roles)), [13, 8])
}
