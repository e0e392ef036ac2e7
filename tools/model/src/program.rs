//! The program `runbook`: docs/program.md.

use crate::book::Book;
use crate::logic::Run;
use crate::policy;
use crate::refusal::{Fault, Refusal};
use crate::scale::{Code, Scale};
use std::fmt;

pub const LONGEST_INPUT: usize = 65_536;
pub const LIMIT: usize = 64;
const MOST_RUN_DIGITS: usize = 6;
const MOST_CODE_DIGITS: usize = 64;

/// One line of the output.
#[derive(Clone, Copy, PartialEq, Eq, Debug)]
pub enum Printed {
    Policy { atoms: usize, lines: usize },
    Run(Run),
    Changed { count: usize, verdict: Code },
    Would(Code),
    Closed { run: Run, gone: usize },
    Verdict(Code),
    Refused(Refusal),
}

impl fmt::Display for Printed {
    fn fmt(&self, f: &mut fmt::Formatter<'_>) -> fmt::Result {
        match self {
            Printed::Policy { atoms, lines } => write!(f, "policy atoms {atoms} lines {lines}"),
            Printed::Run(run) => write!(f, "run {run}"),
            Printed::Changed { count, verdict } => write!(f, "changed {count} verdict {verdict}"),
            Printed::Would(verdict) => write!(f, "would {verdict}"),
            Printed::Closed { run, gone } => write!(f, "closed {run} gone {gone}"),
            Printed::Verdict(verdict) => write!(f, "verdict {verdict}"),
            Printed::Refused(refusal) => write!(f, "{refusal}"),
        }
    }
}

/// The bytes of the output; each line ends in byte 10.
pub fn output(printed: &[Printed]) -> Vec<u8> {
    printed.iter().flat_map(|line| format!("{line}\n").into_bytes()).collect()
}

/// What the program prints for a standard input.
pub fn run(input: &[u8]) -> Vec<Printed> {
    let full_stop = input.iter().position(|&byte| byte == b'.');
    let Some(full_stop) = full_stop.filter(|_| input.len() <= LONGEST_INPUT) else {
        return vec![Printed::Refused(Fault::Input.at(0))];
    };
    let (text, rest) = input.split_at(full_stop + 1);
    let policy = match policy::read(text) {
        Ok(policy) => policy,
        Err(refusal) => return vec![Printed::Refused(refusal)],
    };
    let mut printed = vec![Printed::Policy { atoms: policy.atoms.len(), lines: policy.lines.len() }];
    let mut book = Book::open(policy, Scale::Plain, LIMIT);
    for (index, line) in rest.split(|&byte| byte == 10).enumerate() {
        if line.is_empty() {
            continue;
        }
        let answer = match Call::read(line) {
            Some(call) => perform(&mut book, call),
            None => Err(Fault::NoCall.at(index + 1)),
        };
        printed.push(answer.unwrap_or_else(Printed::Refused));
    }
    printed
}

enum Call {
    Start { codes: Vec<Code> },
    Report { run: Run, codes: Vec<Code> },
    Preview { run: Run, codes: Vec<Code> },
    Close { run: Run },
    Verdict,
}

impl Call {
    /// The call that a line spells, if it spells one. Splitting at every byte 32 leaves an empty part where there is one
    /// too many.
    fn read(line: &[u8]) -> Option<Call> {
        let parts: Vec<&[u8]> = line.split(|&byte| byte == 32).collect();
        match parts[..] {
            [b"N", codes] => Some(Call::Start { codes: read_codes(codes)? }),
            [b"U", run, codes] => Some(Call::Report { run: read_run(run)?, codes: read_codes(codes)? }),
            [b"P", run, codes] => Some(Call::Preview { run: read_run(run)?, codes: read_codes(codes)? }),
            [b"E", run] => Some(Call::Close { run: read_run(run)? }),
            [b"V"] => Some(Call::Verdict),
            _ => None,
        }
    }
}

fn digits(part: &[u8], most: usize) -> Option<Vec<u8>> {
    let fits = (1..=most).contains(&part.len()) && part.iter().all(u8::is_ascii_digit);
    fits.then(|| part.iter().map(|digit| digit - b'0').collect())
}

fn read_run(part: &[u8]) -> Option<Run> {
    let digits = digits(part, MOST_RUN_DIGITS)?;
    Some(digits.into_iter().fold(0, |run, digit| 10 * run + usize::from(digit)))
}

fn read_codes(part: &[u8]) -> Option<Vec<Code>> {
    digits(part, MOST_CODE_DIGITS)
}

fn perform(book: &mut Book, call: Call) -> Result<Printed, Refusal> {
    Ok(match call {
        Call::Start { codes } => Printed::Run(book.start(&codes)?),
        Call::Report { run, codes } => {
            let (count, verdict) = book.report(run, &codes)?;
            Printed::Changed { count, verdict }
        }
        Call::Preview { run, codes } => Printed::Would(book.preview(run, &codes)?),
        Call::Close { run } => Printed::Closed { run, gone: book.close(run)? },
        Call::Verdict => Printed::Verdict(book.verdict()?),
    })
}
