//! Compares a checker of route-reflection plans with the second one.

use second_checker::bench::tight::Tight;
use second_checker::harness::cases;
use second_checker::harness::comparison::compare;
use second_checker::harness::plans::draft::Draft;
use second_checker::harness::plans::{generate, questions};
use second_checker::harness::random::Random;
use second_checker::harness::surveys::{every_lists, grades};
use second_checker::interface::Checker;
use second_checker::oracle::mark::Mark;
use second_checker::oracle::{margin_line, verdict_lines};
use std::env;
use std::error::Error;
use std::fmt::Display;
use std::fs;
use std::io::{self, Read, Write};
use std::path::Path;
use std::process::ExitCode;
use std::time::Instant;

const USAGE: &str = "\
second --against library|tight [--seed S] [--first K] [--plans N]   compare a checker with the second one
second cases                                 print the lines that the program `cases` is due to print
second verdict                               print the lines the verdict program is due to print for standard input
second margin                                print the line the margin program is due to print for standard input
second write FOLDER [--seed S] [--plans N]   write plans and the lines the verdict program is due to print
second ask FOLDER [--seed S] [--plans N]     write inputs and the lines the margin program is due to print
second grades [--against C] [--seed S] [--lists N]   print a table of the grades of N random suspect lists a kind
second every-list [--against C] [--seed S] [--plans N]
                                             print whether N random plans a kind are stable for every list
second plan largest|largest-rrp2|deepest|deepest-rrp2
                                             write the plan with the most bytes or the highest rank, of a mark";

/// The checker compared if none is named.
const DEFAULT: &str = if cfg!(feature = "library") { "library" } else { "tight" };

struct Options {
    words: Vec<String>,
    against: String,
    seed: u64,
    first: u64,
    plans: u64,
    lists: u64,
}

fn options() -> Result<Options, Box<dyn Error>> {
    let (words, against) = (Vec::new(), DEFAULT.to_string());
    let mut options = Options { words, against, seed: 4456, first: 0, plans: 20_000, lists: 10_000 };
    let mut arguments = env::args().skip(1);
    while let Some(argument) = arguments.next() {
        let mut value = || arguments.next().ok_or("a value is missing");
        match argument.as_str() {
            "--against" => options.against = value()?,
            "--seed" => options.seed = value()?.parse()?,
            "--first" => options.first = value()?.parse()?,
            "--plans" => options.plans = value()?.parse()?,
            "--lists" => options.lists = value()?.parse()?,
            word if word.starts_with("--") => return Err(format!("unknown option {word}").into()),
            _ => options.words.push(argument),
        }
    }
    Ok(options)
}

fn subject(name: &str) -> Result<Box<dyn Checker>, Box<dyn Error>> {
    match name {
        #[cfg(feature = "library")]
        "library" => Ok(Box::new(second_checker::library::Library::linked())),
        "tight" => Ok(Box::new(Tight)),
        _ => Err(format!("no checker {name} is built in").into()),
    }
}

fn compare(options: &Options) -> Result<bool, Box<dyn Error>> {
    println!("seed {} against {}", options.seed, options.against);
    let mut subject = subject(&options.against)?;
    let started = Instant::now();
    let mut report = |number: u64, mismatch: &str| println!("mismatch (--first {number} --plans 1)\n{mismatch}\n");
    let numbers = options.first..options.first + options.plans;
    let counts = compare::compare(subject.as_mut(), options.seed, numbers, &mut report);
    println!("seconds {:.1}", started.elapsed().as_secs_f64());
    println!("{counts}");
    Ok(counts.mismatches == 0)
}

/// Prints tables; says whether the checker gave the same.
fn print_tables<T: Display>(tables: Vec<T>, mismatches: fn(&T) -> u64) -> Result<bool, Box<dyn Error>> {
    tables.iter().for_each(|table| println!("{table}"));
    Ok(tables.iter().all(|table| mismatches(table) == 0))
}

fn survey_grades(options: &Options) -> Result<bool, Box<dyn Error>> {
    let mut subject = subject(&options.against)?;
    println!("seed {} beside {}", options.seed, options.against);
    let tables = grades::grades(Some(subject.as_mut()), options.seed, options.lists);
    print_tables(tables, |table| table.mismatches)
}

fn survey_every_list(options: &Options) -> Result<bool, Box<dyn Error>> {
    let mut subject = subject(&options.against)?;
    println!("seed {} beside {}", options.seed, options.against);
    let tables = every_lists::every_lists(Some(subject.as_mut()), options.seed, options.plans);
    print_tables(tables, |table| table.mismatches)
}

fn fixed_plan(name: &str, seed: u64) -> Result<Draft, Box<dyn Error>> {
    let random = &mut Random::new(seed);
    match name {
        "largest" => Ok(generate::largest(random, Mark::Rrp1)),
        "largest-rrp2" => Ok(generate::largest(random, Mark::Rrp2)),
        "deepest" => Ok(generate::deepest()),
        "deepest-rrp2" => Ok(generate::deepest().marked(Mark::Rrp2)),
        _ => Err(format!("no plan {name}").into()),
    }
}

fn plan_numbered(seed: u64, number: u64) -> Vec<u8> {
    generate::numbered(seed, number).0
}

/// Writes inputs of a program as NNNNN.KIND, and as NNNNN.expected what it is due
/// to print for them.
fn write_inputs(
    folder: &str,
    options: &Options,
    kind: &str,
    input: fn(u64, u64) -> Vec<u8>,
    due: fn(&[u8]) -> String,
) -> Result<bool, Box<dyn Error>> {
    let folder = Path::new(folder);
    fs::create_dir_all(folder)?;
    for number in 0..options.plans {
        let bytes = input(options.seed, number);
        fs::write(folder.join(format!("{number:05}.{kind}")), &bytes)?;
        fs::write(folder.join(format!("{number:05}.expected")), due(&bytes))?;
    }
    println!("second: {} inputs written", options.plans);
    Ok(true)
}

/// Prints what a program is due to print for standard input.
fn print_due(due: fn(&[u8]) -> String) -> Result<bool, Box<dyn Error>> {
    let mut bytes = Vec::new();
    io::stdin().read_to_end(&mut bytes)?;
    write(due(&bytes).as_bytes())
}

fn write(bytes: &[u8]) -> Result<bool, Box<dyn Error>> {
    io::stdout().write_all(bytes)?;
    Ok(true)
}

fn program() -> Result<bool, Box<dyn Error>> {
    let options = options()?;
    let words: Vec<&str> = options.words.iter().map(String::as_str).collect();
    match words[..] {
        [] => compare(&options),
        ["cases"] => write(cases::lines().as_bytes()),
        ["verdict"] => print_due(verdict_lines),
        ["margin"] => print_due(margin_line),
        ["write", folder] => write_inputs(folder, &options, "plan", plan_numbered, verdict_lines),
        ["ask", folder] => write_inputs(folder, &options, "input", questions::numbered, margin_line),
        ["grades"] => survey_grades(&options),
        ["every-list"] => survey_every_list(&options),
        ["plan", name] => write(&fixed_plan(name, options.seed)?.bytes()),
        _ => Err("unknown words".into()),
    }
}

fn main() -> ExitCode {
    match program() {
        Ok(true) => ExitCode::SUCCESS,
        Ok(false) => ExitCode::FAILURE,
        Err(fault) => {
            eprintln!("second: {fault}\n{USAGE}");
            ExitCode::FAILURE
        }
    }
}
