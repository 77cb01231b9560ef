//! Times the library against the yardstick, and beside another build of it.

use second_checker::bench::timing::bench;
use second_checker::library::Library;
use std::process::ExitCode;

const USAGE: &str = "\
bench [WORD] [--beside LIBRRP.so]   time the lines that have the word in their names, and another build of the library";

fn program() -> Result<(), String> {
    let (mut word, mut other) = (String::new(), None);
    let mut arguments = std::env::args().skip(1);
    while let Some(argument) = arguments.next() {
        match argument.as_str() {
            "--beside" => other = Some(Library::loaded(&arguments.next().ok_or("a value is missing")?)?),
            option if option.starts_with("--") => return Err(format!("unknown option {option}")),
            _ => word = argument,
        }
    }
    bench(&word, other);
    Ok(())
}

fn main() -> ExitCode {
    match program() {
        Ok(()) => ExitCode::SUCCESS,
        Err(fault) => {
            eprintln!("bench: {fault}\n{USAGE}");
            ExitCode::FAILURE
        }
    }
}
