//! Grades of random suspect lists, each held against a checker, and against runs: how many rounds
//! such lists need, and how often as many as are promised.

use super::meshes::Mesh;
use crate::harness::comparison::arguments;
use crate::harness::plans::draft::Draft;
use crate::harness::plans::groups;
use crate::harness::random::Random;
use crate::interface::{Checker, GradeFields};
use crate::oracle::grade::{self, Grade, Graded, GRADES};
use crate::oracle::plan;
use crate::oracle::rules::{Case, Right, Table};
use crate::oracle::steady::{self, MOST_GROUPED};
use crate::oracle::tables::{self, Rounds};
use crate::oracle::verdict;
use std::fmt;

/// The kinds of plans that lists are drawn of.
const KINDS: [(&str, fn(&mut Random) -> Draft); 2] = [("meshes", mesh), ("groups", group)];

/// Up to twelve reflectors in a mesh.
fn mesh(random: &mut Random) -> Draft {
    let reflectors = random.between(2, MOST_GROUPED);
    let clients = reflectors + random.below(2 * reflectors + 1);
    let shared = random.pick(&[0, 0, 20]);
    Mesh { reflectors, clients, shared }.draw(random)
}

/// Who prefers whose route is drawn first.
fn group(random: &mut Random) -> Draft {
    let wanted = random.between(2, MOST_GROUPED);
    groups::grouped_of(random, wanted)
}

/// A run that does not rest within so many rounds is given up.
const MOST_ROUNDS: u64 = 60;

/// What was found of the lists of one kind.
pub struct Survey {
    kind: &'static str,
    lists: u64,
    /// Lists by grade, and those of one steady table alone.
    by_grade: [u64; 4],
    with_one_table: [u64; 4],
    /// Runs by grade that came to rest.
    rested: [u64; 4],
    /// The rounds promised for grade 1, and those that the runs needed, added up; and the most.
    promised: u64,
    needed: u64,
    most_promised: u64,
    /// Runs that needed as many rounds as promised, one less, two less and three.
    close: [u64; 4],
    pub mismatches: u64,
}

/// Draws so many suspect lists of each kind. A checker is asked too, if there is one.
pub fn grades(mut subject: Option<&mut dyn Checker>, seed: u64, lists: u64) -> Vec<Survey> {
    let survey = |(kind, draw): (&'static str, fn(&mut Random) -> Draft)| {
        let mut survey = Survey::new(kind);
        let mut random = Random::new(seed);
        while survey.lists < lists {
            let bytes = draw(&mut random).bytes();
            survey.count(&mut random, &bytes, &mut subject);
        }
        survey
    };
    KINDS.map(survey).into()
}

impl Survey {
    fn new(kind: &'static str) -> Self {
        let [by_grade, with_one_table, rested, close] = [[0; 4]; 4];
        let (promised, needed, most_promised, mismatches) = (0, 0, 0, 0);
        Survey {
            kind,
            lists: 0,
            by_grade,
            with_one_table,
            rested,
            promised,
            needed,
            most_promised,
            close,
            mismatches,
        }
    }

    /// Counts the first list of a plan, if it is suspect and not refused.
    fn count(&mut self, random: &mut Random, bytes: &[u8], subject: &mut Option<&mut dyn Checker>) {
        let Ok(plan) = plan::read(bytes) else { return };
        let case = Case { plan: &plan, listed: &plan.lists[0].listed };
        let Ok(graded) = grade::grade(&Right, case) else { return };
        if verdict::grouped(&Right, case).is_empty() {
            return;
        }
        self.lists += 1;
        let place = graded.grade as usize - 1;
        self.by_grade[place] += 1;
        self.with_one_table[place] += u64::from(steady::steady(&Right, case).is_ok_and(|tables| tables.len() == 1));
        self.ask(subject, bytes, graded);
        self.run(random, case, graded);
    }

    fn ask(&mut self, subject: &mut Option<&mut dyn Checker>, bytes: &[u8], graded: Graded) {
        let Some(checker) = subject else { return };
        let mut fields = GradeFields::new(0, u64::MAX);
        let refusal = checker.grade(bytes, 0, &mut fields);
        let found = (refusal, fields.grade.value, fields.rounds.value);
        self.mismatches += u64::from(found != (0, graded.grade as u8, graded.rounds));
    }

    /// A run from left-over routes until it rests or is given up.
    fn run(&mut self, random: &mut Random, case: Case, graded: Graded) {
        let most = if graded.grade == Grade::AlwaysRests { graded.rounds } else { MOST_ROUNDS };
        let needed = rounds_to_rest(random, case, most);
        self.rested[graded.grade as usize - 1] += u64::from(needed.is_some());
        if graded.grade != Grade::AlwaysRests {
            return;
        }
        self.promised += graded.rounds;
        self.most_promised = self.most_promised.max(graded.rounds);
        match needed {
            Some(needed) => {
                self.needed += needed;
                let less = (graded.rounds - needed) as usize;
                self.close.get_mut(less).into_iter().for_each(|count| *count += 1);
            }
            None => self.mismatches += 1,
        }
    }
}

/// After how many whole rounds a random run rests for good, none if it does not within so many. In
/// each round the routers act in a new order.
pub fn rounds_to_rest(random: &mut Random, case: Case, most: u64) -> Option<u64> {
    let mut table: Table = tables::read(case, &arguments::table(random, case))?;
    let mut rounds = Rounds::new(case.plan.n);
    let mut order: Vec<usize> = (0..case.plan.n).collect();
    let mut last_change = 0;
    while rounds.whole < most {
        random.shuffle(&mut order);
        for &router in &order {
            let changes = tables::activate(&Right, case, &mut table, router);
            rounds.count(router);
            if changes {
                // The round under way, or the one that this act ended, is needed.
                last_change = rounds.whole + u64::from(router != order[order.len() - 1]);
            }
        }
        if rounds.whole > last_change && steady::is_steady(&Right, case, &table) {
            break;
        }
    }
    steady::is_steady(&Right, case, &table).then_some(last_change)
}

impl fmt::Display for Survey {
    fn fmt(&self, out: &mut fmt::Formatter) -> fmt::Result {
        let share = |count: u64| 100.0 * count as f64 / self.lists as f64;
        writeln!(out, "{}: {} suspect lists", self.kind, self.lists)?;
        for grade in GRADES {
            let place = grade as usize - 1;
            let (count, one, rested) = (self.by_grade[place], self.with_one_table[place], self.rested[place]);
            writeln!(
                out,
                "  grade {}: {count:>6} {:>6.2} %, with one steady table {one:>6}, runs that rested {rested:>6}",
                place + 1,
                share(count)
            )?;
        }
        let mean = |sum: u64| sum as f64 / self.by_grade[0].max(1) as f64;
        writeln!(
            out,
            "  grade 1: rounds promised {:.1} on average, at most {}; runs needed {:.1} on average",
            mean(self.promised),
            self.most_promised,
            mean(self.needed)
        )?;
        writeln!(out, "  runs that needed all rounds promised, one less, two less, three: {:?}", self.close)?;
        write!(out, "  mismatches {}", self.mismatches)
    }
}
