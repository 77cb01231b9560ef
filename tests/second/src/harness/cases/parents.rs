//! Clients with four and five parents. Router 5 is a client and neighbours routers 0
//! to 4, reflectors, of which 2 has role 3.

use super::damaged::every_call;
use super::line::line;
use super::START;
use crate::harness::plans::draft::Bodies;
use crate::harness::plans::small_plans::star;

const ROLES: [u8; 6] = [1, 1, 3, 1, 1, 2];

/// The plan with these roles, and a session between routers 0 and 1.
fn bodies(roles: [u8; 6]) -> Bodies {
    let mut draft = star(5, &roles);
    draft.sessions.insert((0, 1));
    draft.bodies()
}

/// The plan with the role of one router changed.
fn role(name: &str, router: usize, role: u8) -> String {
    let mut roles = ROLES;
    roles[router] = role;
    line(name, &bodies(roles).bytes(), |line| line.check())
}

fn damaged(name: &str, damage: impl FnOnce(&mut Bodies)) -> String {
    let mut bodies = bodies(ROLES);
    damage(&mut bodies);
    every_call(name, &bodies.bytes())
}

pub fn lines() -> Vec<String> {
    vec![
        damaged("13-five-parents", |_| ()),
        role("four-parents", 4, 2),
        role("four-parents-without-role-3", 2, 2),
        role("a-reflector-with-five-reflectors", 5, 1),
        line("a-client-with-five-clients", &bodies([2; 6]).bytes(), |line| line.check()),
        damaged("4-before-13", |bodies| bodies.routers[0] = 6),
        damaged("5-before-13", |bodies| bodies.sessions[0] = 1),
        damaged("13-before-6", |bodies| bodies.distances[0] = 1),
        damaged("13-before-7", |bodies| bodies.lists[0] = 0),
        line("13-before-8", &bodies(ROLES).bytes(), |line| line.activate(9, 9, &mut START.to_vec())),
    ]
}
