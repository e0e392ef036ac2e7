//! The driver: many inputs, each given to the program and to the model.

use crate::program::{self, Printed};
use crate::{generate, shrink, subject};
use std::collections::BTreeMap;
use std::fmt::Write;
use std::panic;
use std::path::Path;
use std::sync::atomic::{AtomicUsize, Ordering};
use std::sync::Mutex;
use std::{fs, io, thread};

/// The rules on global forms and local ones go back over runs and events one by one, each a call in a call.
const STACK: usize = 512 << 20;

/// Differences beyond these are saved and counted, but not shown and not made small, which takes time.
const MOST_SHOWN: usize = 10;

/// Every refusal that the program can print. 25 never comes: no input is long enough for 999,999 runs.
const REFUSALS: [u8; 18] = [1, 2, 3, 4, 5, 6, 7, 8, 9, 20, 21, 22, 23, 24, 25, 26, 40, 41];

#[derive(Default)]
struct Tally {
    inputs: usize,
    calls: usize,
    answers: BTreeMap<String, usize>,
    differences: Vec<(usize, Difference)>,
}

pub struct Difference {
    model: Vec<u8>,
    /// What the program printed, or why that cannot be said.
    program: Result<Vec<u8>, String>,
}

/// Runs work on a thread whose stack is large enough for the model.
pub fn on_large_stack<T: Send>(work: impl FnOnce() -> T + Send) -> T {
    thread::scope(|scope| {
        let worker = thread::Builder::new().stack_size(STACK).spawn_scoped(scope, work).expect("a thread can be made");
        worker.join().unwrap_or_else(|panic| panic::resume_unwind(panic))
    })
}

/// What the model says, or that it is at odds with itself: then two rules of the pages are.
fn ask_model(input: &[u8]) -> Result<Vec<Printed>, String> {
    panic::catch_unwind(|| program::run(input)).map_err(|panic| {
        let said = panic.downcast_ref::<String>().cloned();
        let said = said.or_else(|| panic.downcast_ref::<&str>().map(|text| text.to_string()));
        format!("the model is at odds with itself: {}\n", said.unwrap_or_default())
    })
}

/// The difference between model and program on an input, if there is one.
pub fn difference(program: &Path, input: &[u8]) -> Option<Difference> {
    difference_from(program, input, &ask_model(input))
}

fn difference_from(program: &Path, input: &[u8], model: &Result<Vec<Printed>, String>) -> Option<Difference> {
    let printed = subject::run(program, input);
    let model = match model {
        Ok(model) => program::output(model),
        Err(said) => return Some(Difference { model: said.clone().into_bytes(), program: printed }),
    };
    (printed.as_ref() != Ok(&model)).then_some(Difference { model, program: printed })
}

/// Compares that many cases. True if there was no difference.
pub fn compare(program: &Path, seed: u64, cases: usize, folder: &Path) -> io::Result<bool> {
    let next = AtomicUsize::new(0);
    let tally = Mutex::new(Tally::default());
    let workers = thread::available_parallelism().map_or(1, |workers| workers.get());
    thread::scope(|scope| {
        for _ in 0..workers {
            let work = || loop {
                let case = next.fetch_add(1, Ordering::Relaxed);
                if case >= cases {
                    break;
                }
                let input = generate::input(seed, case as u64);
                let model = ask_model(&input);
                let difference = difference_from(program, &input, &model);
                tally.lock().expect("no worker fails").add(case, &model, difference);
            };
            thread::Builder::new().stack_size(STACK).spawn_scoped(scope, work).expect("a thread can be made");
        }
    });
    let mut tally = tally.into_inner().expect("no worker fails");
    tally.differences.sort_by_key(|(case, _)| *case);
    println!("seed {seed}");
    print!("{}", tally.report());
    on_large_stack(|| save_all(program, seed, &tally.differences, folder))?;
    println!("{} inputs and {} calls compared, {} differences", tally.inputs, tally.calls, tally.differences.len());
    Ok(tally.differences.is_empty())
}

impl Tally {
    fn add(&mut self, case: usize, model: &Result<Vec<Printed>, String>, difference: Option<Difference>) {
        self.inputs += 1;
        if let Ok(printed) = model {
            self.calls += printed.len() - 1;
            for line in printed {
                *self.answers.entry(kind(line)).or_default() += 1;
            }
        }
        self.differences.extend(difference.map(|difference| (case, difference)));
    }

    /// How many answers of each kind there were; a refusal that did not come up is shown as well.
    fn report(&self) -> String {
        let mut answers = self.answers.clone();
        for number in REFUSALS {
            answers.entry(refused(number)).or_default();
        }
        answers.iter().fold(String::new(), |mut report, (kind, how_many)| {
            writeln!(report, "  {kind:<30}{how_many:>9}").expect("a string takes all");
            report
        })
    }
}

fn kind(printed: &Printed) -> String {
    let some = |number: &usize| if *number > 2 { "3 or more".to_string() } else { number.to_string() };
    match printed {
        Printed::Policy { .. } => "policy".to_string(),
        Printed::Run(_) => "run".to_string(),
        Printed::Changed { count, verdict } => format!("changed {}, verdict {verdict}", some(count)),
        Printed::Would(verdict) => format!("would {verdict}"),
        Printed::Closed { gone, .. } => format!("closed, gone {}", some(gone)),
        Printed::Verdict(verdict) => format!("verdict {verdict}"),
        Printed::Refused(refusal) => refused(refusal.fault.number()),
    }
}

fn refused(number: u8) -> String {
    format!("refused {number:>2}")
}

/// Saves the inputs on which there is a difference, and prints where they are and what differs first.
fn save_all(program: &Path, seed: u64, differences: &[(usize, Difference)], folder: &Path) -> io::Result<()> {
    if differences.is_empty() {
        return Ok(());
    }
    fs::create_dir_all(folder)?;
    for (index, (case, difference)) in differences.iter().enumerate() {
        let input = generate::input(seed, *case as u64);
        let file = folder.join(format!("{seed}-{case}"));
        fs::write(file.with_extension("in"), &input)?;
        fs::write(file.with_extension("model"), &difference.model)?;
        if let Ok(printed) = &difference.program {
            fs::write(file.with_extension("program"), printed)?;
        }
        if index < MOST_SHOWN {
            let small = shrink::shrink(&input, |input| self::difference(program, input).is_some());
            fs::write(file.with_extension("small.in"), small)?;
            println!("DIFFERENCE seed {seed} case {case}: {}", file.with_extension("in").display());
            print!("{}", first_difference(&difference.model, &difference.program));
        }
    }
    if differences.len() > MOST_SHOWN {
        println!("and {} more, saved beside these", differences.len() - MOST_SHOWN);
    }
    Ok(())
}

/// The first line of output that is not the same, with its number.
pub fn first_difference(model: &[u8], program: &Result<Vec<u8>, String>) -> String {
    let program = match program {
        Ok(printed) => printed,
        Err(said) => return format!("  the program: {said}\n"),
    };
    let mut model_lines = model.split_inclusive(|&byte| byte == 10);
    let mut program_lines = program.split_inclusive(|&byte| byte == 10);
    for number in 1.. {
        match (model_lines.next(), program_lines.next()) {
            (None, None) => break,
            (model, program) if model == program => {}
            (model, program) => {
                let show = |line: Option<&[u8]>| line.unwrap_or(b"(nothing)").escape_ascii().to_string();
                let (model, program) = (show(model), show(program));
                return format!("  line {number} of the output\n    model    {model}\n    program  {program}\n");
            }
        }
    }
    String::new()
}
