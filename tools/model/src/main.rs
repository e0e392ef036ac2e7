//! A naive model of the program `runbook`, written from the pages in docs/ alone, and a driver that compares the two.
//!
//! tools/compare builds and runs it.

mod book;
mod calls;
mod compare;
mod damage;
mod form;
mod generate;
mod json;
mod lines;
mod logic;
#[cfg(test)]
mod pages;
mod policy;
mod program;
mod random;
mod refusal;
mod scale;
mod shrink;
mod signs;
mod store;
mod subject;
mod texts;
mod vectors;
mod writer;

use std::io::{self, Read, Write};
use std::path::Path;
use std::process::ExitCode;

const USAGE: &str = "\
model compare PROGRAM SEED CASES FOLDER   compare model and program; inputs with a difference go to FOLDER
model vectors DIR [PROGRAM]               compare model and program with a folder of vectors
model print                               print what the program has to print for standard input
model case SEED CASE                      print the input of one case
";

fn main() -> ExitCode {
    let arguments: Vec<String> = std::env::args().skip(1).collect();
    let words: Vec<&str> = arguments.iter().map(String::as_str).collect();
    match compare::on_large_stack(|| perform(&words)) {
        Ok(Some(true)) => ExitCode::SUCCESS,
        Ok(Some(false)) => ExitCode::from(1),
        Ok(None) => {
            eprint!("{USAGE}");
            ExitCode::from(2)
        }
        Err(error) => {
            eprintln!("{error}");
            ExitCode::from(2)
        }
    }
}

/// True if there was no difference, nothing if the words make no sense.
fn perform(words: &[&str]) -> io::Result<Option<bool>> {
    match words {
        ["compare", program, seed, cases, folder] => {
            let (Ok(seed), Ok(cases)) = (seed.parse(), cases.parse()) else {
                return Ok(None);
            };
            compare::compare(Path::new(program), seed, cases, Path::new(folder)).map(Some)
        }
        ["vectors", folder] => vectors::check(Path::new(folder), None).map(Some),
        ["vectors", folder, program] => vectors::check(Path::new(folder), Some(Path::new(program))).map(Some),
        ["print"] => {
            let mut input = Vec::new();
            io::stdin().read_to_end(&mut input)?;
            io::stdout().write_all(&program::output(&program::run(&input)))?;
            Ok(Some(true))
        }
        ["case", seed, case] => {
            let (Ok(seed), Ok(case)) = (seed.parse(), case.parse()) else {
                return Ok(None);
            };
            io::stdout().write_all(&generate::input(seed, case))?;
            Ok(Some(true))
        }
        _ => Ok(None),
    }
}
