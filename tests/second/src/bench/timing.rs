//! Times the library and the yardstick, and another build of the library if there is
//! one, in one process on the same inputs, in turns. A time is the best of the turns; a
//! ratio is the median of the ratios of the turns, so that a machine that is slower for a
//! while slows both sides.

use super::calls::{
    activate, check, compare, convert, distances, every_list, explain, figures, grade, hop_set, list, relies, size,
    steady, verdict, verdict_of, Run,
};
use super::shapes::{full_sheet, one_group, ring_and_chords, threes_and_others, two_parts, Shape, SIZES};
use super::tight::Tight;
use super::turns::Turns;
use crate::harness::plans::draft::Draft;
use crate::harness::plans::generate;
use crate::harness::plans::sheets::Sheet;
use crate::harness::plans::small_plans::preferring_the_next;
use crate::harness::random::Random;
use crate::interface::Checker;
use crate::library::Library;
use crate::oracle::mark::{Mark, MARKS};
use crate::oracle::plan::{CLIENT, MOST_LISTS};
use std::hint::black_box;

/// The activations of a run, unless its line says another number.
const ACTS: usize = 50_000;

/// What is asked of the bench: the lines whose names have this word; and another build of
/// the library beside the linked one.
struct Bench<'a> {
    word: &'a str,
    other: Option<Library>,
}

/// The places of the library and of `tight` among the checkers, and of the other build.
const OURS: usize = 0;
const TIGHT: usize = 1;
const OTHER: usize = 2;

impl Bench<'_> {
    fn checkers(&self) -> Vec<Box<dyn Checker>> {
        let mut checkers: Vec<Box<dyn Checker>> = vec![Box::new(Library::linked()), Box::new(Tight)];
        checkers.extend(self.other.map(|other| Box::new(other) as Box<dyn Checker>));
        checkers
    }

    /// The bench for lines that need plans like this one read.
    fn for_plan(&self, plan: &[u8]) -> Self {
        Bench { other: self.other.filter(|&(mut other)| other.check(plan) == 0), ..*self }
    }

    /// The bench for lines of comparisons, which older builds have without flags.
    fn for_comparisons(&self) -> Self {
        Bench { other: self.other.filter(Library::compares), ..*self }
    }

    /// The bench for lines of steady tables, which older builds do not list.
    fn for_steady(&self) -> Self {
        Bench { other: self.other.filter(Library::lists_steady), ..*self }
    }

    /// Prints a line of times by checker, and of ratios.
    fn print(&self, name: &str, parts: usize, turns: &Turns) {
        let best = |which: usize| turns.best(which) / parts as f64;
        print!(
            "{name:<40} {:>8.1} {:>8.1} ns  ours/tight {:>5.2}",
            best(OURS),
            best(TIGHT),
            turns.ratio(OURS, TIGHT)
        );
        if self.other.is_some() {
            print!("  other {:>8.1} ns  ours/other {:>5.2}", best(OTHER), turns.ratio(OURS, OTHER));
        }
    }

    /// Times a piece of work of so many parts, and prints a line for one part.
    fn line(&self, name: &str, parts: usize, mut work: impl FnMut(&mut dyn Checker)) {
        if !name.contains(self.word) {
            return;
        }
        let mut checkers = self.checkers();
        self.print(name, parts, &Turns::of(checkers.len(), |which| work(checkers[which].as_mut())));
        println!();
    }

    /// .. and beside it the time of a copy of so many bytes.
    fn line_and_copy(&self, name: &str, bytes: &[u8], mut work: impl FnMut(&mut dyn Checker)) {
        if !name.contains(self.word) {
            return;
        }
        let (mut checkers, mut out) = (self.checkers(), bytes.to_vec());
        let copy = checkers.len();
        let turns = Turns::of(copy + 1, |which| match checkers.get_mut(which) {
            Some(checker) => work(checker.as_mut()),
            None => black_box(&mut out).copy_from_slice(black_box(bytes)),
        });
        self.print(name, 1, &turns);
        println!("  copy {:>8.1} ns  ours/copy {:>5.2}", turns.best(copy), turns.ratio(OURS, copy));
    }

    /// How many times as long as on the first input the work takes on the second.
    fn growth<T>(&self, name: &str, inputs: [&T; 2], work: impl Fn(&T, &mut dyn Checker)) {
        if !name.contains(self.word) {
            return;
        }
        let mut checkers = self.checkers();
        let count = checkers.len();
        let turns = Turns::of(2 * count, |which| work(inputs[which / count], checkers[which % count].as_mut()));
        let [ours, tight] = [OURS, TIGHT].map(|which| turns.ratio(count + which, which));
        println!("{name:<40} {ours:>8.2} {tight:>8.2} times as long");
    }
}

/// The calls that do little but check the plan.
fn time_checks(bench: &Bench, random: &mut Random) {
    for n in SIZES {
        let mesh = Shape::mesh(n);
        let (plan, shape) = (mesh.draft(random, false).bytes(), mesh.name());
        bench.line(&format!("check, {shape}"), 1, |checker| check(checker, &plan));
        bench.line(&format!("size, {shape}"), 1, |checker| size(checker, &plan));
        bench.line(&format!("list, {shape}"), 1, |checker| list(checker, &plan));
        bench.for_comparisons().line(&format!("compare, {shape}"), 1, |checker| compare(checker, &plan));
    }
    let largest = generate::largest(random, Mark::Rrp1).bytes();
    bench.line("check, largest plan", 1, |checker| check(checker, &largest));
    bench.line("verdict, largest plan", 1, |checker| _ = verdict(checker, &largest));
}

/// The calls that use the network, on plans of one shape.
fn time_shape(bench: &Bench, random: &mut Random, shape: &Shape, name: &str) {
    let draft = shape.draft(random, false);
    let run = Run::new(random, &draft, ACTS);
    bench.line(&format!("relies, {name}"), 1, |checker| relies(checker, &run.plan));
    bench.line(&format!("explain, {name}"), 1, |checker| explain(checker, &run.plan));
    bench.line(&format!("activation, {name}"), 1, |checker| activate(checker, &run.plan, &run.table));
    bench.line(&format!("run, {name}"), ACTS, |checker| run.by(checker));
    let stable = shape.draft(random, true).bytes();
    bench.line(&format!("verdict stable, {name}"), 1, |checker| assert!(verdict(checker, &stable)));
    if let Some(draft) = shape.draft_suspect(random) {
        let suspect = draft.bytes();
        bench.line(&format!("verdict suspect, {name}"), 1, |checker| assert!(!verdict(checker, &suspect)));
    }
}

/// .. by routers and sessions.
fn time_network(bench: &Bench, random: &mut Random) {
    for shape in SIZES.into_iter().flat_map(Shape::of_size) {
        time_shape(bench, random, &shape, &shape.name());
    }
}

/// An activation costs the same in longer runs, and in networks that are larger
/// while their routers have as many neighbours.
fn time_growth(bench: &Bench, random: &mut Random) {
    let mesh = Shape::mesh(64);
    let draft = mesh.draft(random, false);
    for acts in [ACTS / 10, ACTS, 10 * ACTS] {
        let run = Run::new(random, &draft, acts);
        bench.line(&format!("run of {acts}, {}", mesh.name()), acts, |checker| run.by(checker));
    }
    let [small, large] = [32, 64].map(|n| {
        let shape = Shape::same_degree(n);
        let draft = shape.draft(random, false);
        let run = Run::new(random, &draft, ACTS);
        bench.line(&format!("run, same degree, {}", shape.name()), ACTS, |checker| run.by(checker));
        run
    });
    bench.growth("run, same degree, n = 64 over n = 32", [&small, &large], Run::by);
}

/// Distances from sheets of few links and of the most that there may be.
fn time_sheets(bench: &Bench, random: &mut Random) {
    for sheet in SIZES.into_iter().flat_map(|n| [ring_and_chords(random, n), full_sheet(random, n)]) {
        time_sheet(bench, &sheet, "distances");
    }
}

fn time_sheet(bench: &Bench, sheet: &Sheet, what: &str) {
    let (n, links, mut out) = (sheet.n, sheet.bytes(), vec![0; 2 * sheet.n * sheet.n]);
    let name = format!("{what}, n = {n}, {} links", sheet.weights.len());
    bench.line(&name, 1, |checker| distances(checker, n, &links, &mut out));
}

/// Plans and sheets with cut-off routers.
fn time_cuts(bench: &Bench, random: &mut Random) {
    time_shape(bench, random, &Shape::fifth_cut(64), "a fifth cut, n = 64");
    time_sheet(bench, &two_parts(random, 64), "distances, two parts");
}

/// Plans with reflectors that skip their own clients.
fn time_skips(bench: &Bench, random: &mut Random) {
    time_shape(bench, random, &Shape::half_skip(64), "half skip, n = 64");
}

/// Plans with reflectors that have the hop step: every second one, or all.
fn time_steps(bench: &Bench, random: &mut Random) {
    for (share, shape) in [("half", Shape::half_step(64)), ("all", Shape::all_step(64))] {
        let bench = bench.for_plan(&shape.draft(random, false).bytes());
        time_shape(&bench, random, &shape, &format!("{share} with the hop step, n = 64"));
    }
}

/// Steady tables, and the verdicts of the same plans: the most choices of one group, the most
/// tables with others after them, and plans of a usual shape.
fn time_steady(bench: &Bench, random: &mut Random) {
    time_steady_plan(bench, &preferring_the_next(12), "12 in a cycle, n = 24");
    time_steady_plan(bench, &threes_and_others(), "12 in threes, n = 60");
    for n in SIZES {
        let mesh = Shape::mesh(n);
        time_steady_plan(bench, &mesh.draft(random, true), &format!("stable, n = {n}"));
        if let Some(draft) = mesh.draft_with_groups(random) {
            time_steady_plan(bench, &draft, &format!("suspect, n = {n}"));
        }
    }
}

fn time_steady_plan(bench: &Bench, draft: &Draft, name: &str) {
    let plan = draft.bytes();
    bench.for_steady().line(&format!("steady, {name}"), 1, |checker| _ = steady(checker, &plan));
    bench.line(&format!("verdict beside steady, {name}"), 1, |checker| _ = verdict(checker, &plan));
}

/// The hop set of twelve routers in one group, the longest to look for, and the verdict beside it.
fn time_hop_sets(bench: &Bench) {
    let plan = one_group().bytes();
    let bench = Bench { other: bench.other.filter(Library::names_hop_sets), ..*bench };
    bench.line("verdict, 12 in one group, n = 64", 1, |checker| assert!(!verdict(checker, &plan)));
    bench.line("hop set, 12 in one group, n = 64", 1, |checker| hop_set(checker, &plan));
}

/// Grades, and the verdicts of the same plans: a cycle of twelve, in which moves come back, one group
/// of twelve, groups of three with others after them, and plans of a usual shape.
fn time_grades(bench: &Bench, random: &mut Random) {
    let bench = Bench { other: bench.other.filter(Library::grades), ..*bench };
    let mut plans = vec![
        (preferring_the_next(12), "12 in a cycle, n = 24".to_string()),
        (one_group(), "12 in one group, n = 64".to_string()),
        (threes_and_others(), "12 in threes, n = 60".to_string()),
    ];
    for n in SIZES {
        let mesh = Shape::mesh(n);
        plans.push((mesh.draft(random, true), format!("stable, n = {n}")));
        plans.extend(mesh.draft_with_groups(random).map(|draft| (draft, format!("suspect, n = {n}"))));
    }
    for (draft, name) in plans {
        let plan = draft.bytes();
        bench.line(&format!("grade, {name}"), 1, |checker| grade(checker, &plan));
        bench.line(&format!("verdict beside grade, {name}"), 1, |checker| _ = verdict(checker, &plan));
    }
}

/// Whether plans are stable for every list: plans of a usual shape, a long path of reflectors, and
/// one group.
fn time_every_list(bench: &Bench, random: &mut Random) {
    let bench = Bench { other: bench.other.filter(Library::tells_of_every_list), ..*bench };
    let meshes = SIZES.map(|n| (Shape::mesh(n).draft(random, false), format!("mesh, n = {n}")));
    let others = [(generate::deepest(), "deepest plan".to_string()), (one_group(), "one group, n = 64".to_string())];
    for (draft, name) in meshes.into_iter().chain(others) {
        let plan = draft.bytes();
        bench.line(&format!("every list, {name}"), 1, |checker| every_list(checker, &plan));
    }
}

/// The figures of a plan of 64 lists, every fifth client in each from another one on, and so many
/// verdicts beside them.
fn time_figures(bench: &Bench, random: &mut Random) {
    let mut draft = Shape::mesh(64).draft(random, false);
    let first = draft.roles.iter().filter(|role| **role != CLIENT).count();
    draft.lists = (0..MOST_LISTS).map(|list| (first + list % 5..64).step_by(5 + list / 5).collect()).collect();
    let plan = draft.bytes();
    let bench = Bench { other: bench.other.filter(Library::gives_figures), ..*bench };
    bench.line("figures, 64 lists, n = 64", 1, |checker| figures(checker, &plan));
    let verdicts = |checker: &mut dyn Checker| (0..MOST_LISTS).for_each(|list| _ = verdict_of(checker, &plan, list));
    bench.line("64 verdicts beside figures, n = 64", 1, verdicts);
    bench.growth("figures over 64 verdicts, n = 64", [&false, &true], |&are_figures, checker| match are_figures {
        true => figures(checker, &plan),
        false => verdicts(checker),
    });
}

/// The same plans of either mark, and how many times as long those of RRP2 take.
fn time_widths(bench: &Bench, random: &mut Random) {
    for n in [8, 64] {
        let shape = Shape::mesh(n);
        let drafts = [shape.draft(random, true), shape.draft(random, false)];
        let [stable, run] = drafts.each_ref().map(|draft| MARKS.map(|mark| draft.clone().marked(mark)));
        let runs = run.map(|draft| Run::new(random, &draft, ACTS));
        let plans = stable.map(|draft| draft.bytes());
        for (mark, (plan, run)) in MARKS.iter().zip(plans.iter().zip(&runs)) {
            let (bench, name) = (bench.for_plan(plan), format!("{mark}, {}", shape.name()));
            bench.line(&format!("verdict stable, {name}"), 1, |checker| assert!(verdict(checker, plan)));
            bench.line(&format!("run, {name}"), ACTS, |checker| run.by(checker));
        }
        let (bench, name) = (bench.for_plan(&plans[1]), format!("RRP2 over RRP1, n = {n}"));
        bench.growth(&format!("verdict stable, {name}"), plans.each_ref(), |plan, checker| {
            assert!(verdict(checker, plan));
        });
        bench.growth(&format!("run, {name}"), runs.each_ref(), Run::by);
    }
}

/// Both directions of the converter, on the largest plans.
fn time_conversions(bench: &Bench, random: &mut Random) {
    let largest = generate::largest(random, Mark::Rrp1);
    let [narrow, wide] = MARKS.map(|mark| largest.clone().marked(mark).bytes());
    let bench = bench.for_plan(&wide);
    for (name, plan, result) in [("widen", &narrow, &wide), ("narrow", &wide, &narrow)] {
        let mut out = vec![0; result.len()];
        let name = format!("{name}, largest plan");
        bench.line_and_copy(&name, result, |checker| convert(checker, plan, &mut out));
    }
}

/// Prints the lines whose names have the word.
pub fn bench(word: &str, other: Option<Library>) {
    println!("library (ours), tight: {}; for a run, that of one of its activations", Turns::said());
    let bench = Bench { word, other };
    let mut random = Random::new(4456);
    time_checks(&bench, &mut random);
    time_network(&bench, &mut random);
    time_growth(&bench, &mut random);
    time_sheets(&bench, &mut random);
    time_cuts(&bench, &mut random);
    time_skips(&bench, &mut random);
    time_steps(&bench, &mut random);
    time_hop_sets(&bench);
    time_figures(&bench, &mut random);
    time_widths(&bench, &mut random);
    time_conversions(&bench, &mut random);
    time_steady(&bench, &mut random);
    time_grades(&bench, &mut random);
    time_every_list(&bench, &mut random);
}
