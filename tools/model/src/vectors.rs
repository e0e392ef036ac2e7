//! Files of vectors: the model is compared with each of them, the program with those of its own input and output.
//!
//! A folder of vectors has `programs/NAME.in` with `programs/NAME.out`, and, one JSON object a line, `policies.jsonl`,
//! `books.jsonl` and `stores.jsonl`. What is not there is passed over.

use crate::book::Book;
use crate::compare::first_difference;
use crate::form::{Form, Way};
use crate::json::Json;
use crate::policy;
use crate::program;
use crate::refusal::Refusal;
use crate::scale::Scale;
use crate::store::{Kind, Store};
use crate::subject;
use std::path::{Path, PathBuf};
use std::{fs, io};

/// Differences of one kind beyond these are only counted.
const MOST_SHOWN: usize = 5;

/// What was compared, and each difference in words.
struct Checked {
    subject: &'static str,
    compared: usize,
    differences: Vec<String>,
}

impl Checked {
    fn new(subject: &'static str) -> Self {
        Checked { subject, compared: 0, differences: Vec::new() }
    }

    fn add(&mut self, place: &str, wrong: Option<String>) {
        self.compared += 1;
        self.differences.extend(wrong.map(|wrong| format!("{place}\n{wrong}")));
    }
}

/// True if there is no difference. A folder without any vectors is an error.
pub fn check(folder: &Path, program: Option<&Path>) -> io::Result<bool> {
    let mut results = check_programs(folder, program)?;
    results.push(check_file(folder, "policies.jsonl", "model, policies.jsonl: texts", check_policy)?);
    results.push(check_file(folder, "books.jsonl", "model, books.jsonl: books", check_book)?);
    results.push(check_file(folder, "stores.jsonl", "model, stores.jsonl: stores", check_store)?);
    if results.iter().all(|result| result.compared == 0) {
        return Err(io::Error::other(format!("there are no vectors in {}", folder.display())));
    }
    for result in &results {
        for difference in result.differences.iter().take(MOST_SHOWN) {
            println!("DIFFERENCE {}, {}", result.subject, difference.trim_end());
        }
    }
    for result in &results {
        println!("{}: {} compared, {} differences", result.subject, result.compared, result.differences.len());
    }
    Ok(results.iter().all(|result| result.differences.is_empty()))
}

fn check_programs(folder: &Path, program: Option<&Path>) -> io::Result<Vec<Checked>> {
    let mut of_model = Checked::new("model, programs: inputs");
    let mut of_program = Checked::new("program, programs: inputs");
    for path in inputs(&folder.join("programs"))? {
        let input = fs::read(&path)?;
        let expected = fs::read(path.with_extension("out"))?;
        let name = path.file_name().map_or(String::new(), |name| name.to_string_lossy().into_owned());
        let model = program::output(&program::run(&input));
        let wrong = (model != expected).then(|| first_difference(&model, &Ok(expected.clone())));
        of_model.add(&name, wrong.map(|wrong| wrong.replace("program ", "expected")));
        if let Some(program) = program {
            let printed = subject::run(program, &input);
            let wrong = (printed.as_ref() != Ok(&expected)).then(|| first_difference(&expected, &printed));
            of_program.add(&name, wrong.map(|wrong| wrong.replace("model   ", "expected")));
        }
    }
    let mut results = vec![of_model];
    results.extend(program.map(|_| of_program));
    Ok(results)
}

fn inputs(folder: &Path) -> io::Result<Vec<PathBuf>> {
    if !folder.is_dir() {
        return Ok(Vec::new());
    }
    let mut paths = fs::read_dir(folder)?.map(|entry| Ok(entry?.path())).collect::<io::Result<Vec<_>>>()?;
    paths.retain(|path| path.extension().is_some_and(|extension| extension == "in"));
    paths.sort();
    Ok(paths)
}

/// Compares one file, line by line.
fn check_file(
    folder: &Path,
    file: &str,
    subject: &'static str,
    check: impl Fn(&Json) -> Option<String>,
) -> io::Result<Checked> {
    let mut result = Checked::new(subject);
    let path = folder.join(file);
    if path.exists() {
        for (index, line) in fs::read_to_string(path)?.lines().enumerate() {
            result.add(&format!("line {}", index + 1), check(&Json::read(line)));
        }
    }
    Ok(result)
}

fn differs(what: &str, model: &Json, expected: &Json) -> Option<String> {
    (model != expected).then(|| format!("  {what}\n    model    {model:?}\n    expected {expected:?}"))
}

fn check_policy(vector: &Json) -> Option<String> {
    match policy::read(&vector.member("text").bytes()) {
        Ok(policy) => {
            let names = policy.atoms.iter().map(|name| Json::Text(String::from_utf8_lossy(name).into_owned()));
            let lines = policy.lines.iter().map(line).collect();
            let absent = &Json::Null;
            differs("atoms", &Json::List(names.collect()), vector.find("atoms").unwrap_or(absent))
                .or_else(|| differs("lines", &Json::List(lines), vector.find("lines").unwrap_or(absent)))
        }
        Err(refusal) => {
            let expected = ["refused", "layer", "place"].map(|name| {
                vector.find(name).map_or("(none)".to_string(), |value| format!("{name} {}", value.number()))
            });
            let (model, expected) = (Json::Text(refusal.to_string()), Json::Text(expected.join(" ")));
            differs("the refusal", &model, &expected)
        }
    }
}

/// A line in the words of vectors.
fn line(form: &Form) -> Json {
    let letter = |way: &Way, local, global| if *way == Way::Local { local } else { global };
    let (name, parts) = match form {
        Form::Atom(atom) => ("atom", vec![*atom]),
        Form::True => ("yes", vec![]),
        Form::False => ("no", vec![]),
        Form::Not(f) => ("not", vec![*f]),
        Form::Or(a, b) => ("or", vec![*a, *b]),
        Form::Yesterday(way, f) => (letter(way, "YL", "YG"), vec![*f]),
        Form::Since(way, a, b) => (letter(way, "SL", "SG"), vec![*a, *b]),
        Form::And(..) | Form::Implies(..) | Form::Once(..) | Form::Always(..) => unreachable!("{form:?} is no line"),
    };
    let parts = parts.into_iter().map(Json::Number);
    Json::List(std::iter::once(Json::Text(name.to_string())).chain(parts).collect())
}

fn make_store(vector: &Json) -> Result<Store, Refusal> {
    let kind = match vector.member("store").text() {
        "row" => Kind::RowTable,
        "stretch" => Kind::StretchTable,
        other => panic!("no store is of the kind {other}"),
    };
    Store::make(kind, vector.member("width").number(), vector.member("memory_length").number())
}

/// An answer in the words of vectors.
fn answer<T>(result: Result<T, Refusal>, accepted: impl Fn(T) -> Json) -> Json {
    match result {
        Ok(value) => accepted(value),
        Err(refusal) => refused(&refusal),
    }
}

fn refused(refusal: &Refusal) -> Json {
    let words: Vec<String> = refusal.to_string().split(' ').map(str::to_string).collect();
    let member = |pair: &[String]| (pair[0].clone(), Json::Number(pair[1].parse().expect("a refusal's numbers")));
    Json::Object(words.chunks(2).map(member).collect())
}

/// Compares what a step has left: the answer, low, high and every byte of the memory.
fn check_step(step: &Json, index: usize, model: Json, store: &Store) -> Option<String> {
    let at = |what: &str| format!("step {index}: {what}");
    differs(&at("the answer"), &model, step.member("answer"))
        .or_else(|| differs(&at("low"), &Json::Number(store.low), step.member("low")))
        .or_else(|| differs(&at("high"), &Json::Number(store.high()), step.member("high")))
        .or_else(|| (store.image() != step.member("memory").bytes()).then(|| at("the memory is another one")))
}

fn check_book(vector: &Json) -> Option<String> {
    let policy = policy::read(&vector.member("text").bytes()).expect("books have policies that are read");
    let scale = match vector.member("scale").text() {
        "plain" => Scale::Plain,
        "open" => Scale::Open,
        other => panic!("no scale has the name {other}"),
    };
    let store = make_store(vector).expect("books have stores that are made");
    let wrong = differs("width", &Json::Number(policy.width()), vector.member("width"))
        .or_else(|| differs("limit", &Json::Number(store.limit), vector.member("limit")));
    if wrong.is_some() {
        return wrong;
    }
    let mut book = Book::open(policy, scale, store.limit);
    let steps = vector.member("steps").list().iter().enumerate();
    steps
        .map(|(index, step)| {
            let model = perform(&mut book, step.member("call").list());
            let records = book.kept().map(|run| book.record(run)).collect();
            check_step(step, index, model, &store.holding(book.low(), records))
        })
        .find_map(|wrong| wrong)
}

fn perform(book: &mut Book, call: &[Json]) -> Json {
    let code = |code: u8| Json::Number(usize::from(code));
    match (call[0].text(), &call[1..]) {
        ("start", [codes]) => answer(book.start(&codes.codes()), Json::Number),
        ("report", [run, codes]) => answer(book.report(run.number(), &codes.codes()), |(count, verdict)| {
            Json::List(vec![Json::Number(count), code(verdict)])
        }),
        ("preview", [run, codes]) => answer(book.preview(run.number(), &codes.codes()), code),
        ("close", [run]) => answer(book.close(run.number()), Json::Number),
        ("verdict", []) => answer(book.verdict(), code),
        ("truth", [run, line]) => answer(book.truth(run.number(), line.number()), code),
        other => panic!("a book has no call {other:?}"),
    }
}

fn check_store(vector: &Json) -> Option<String> {
    let mut store = match make_store(vector) {
        Ok(store) => store,
        Err(refusal) => return differs("making", &refused(&refusal), vector.find("making").unwrap_or(&Json::Null)),
    };
    let wrong = differs("limit", &Json::Number(store.limit), vector.find("limit").unwrap_or(&Json::Null));
    if wrong.is_some() {
        return wrong;
    }
    let steps = vector.member("steps").list().iter().enumerate();
    steps
        .map(|(index, step)| {
            let model = call_store(&mut store, step.member("call").list());
            check_step(step, index, model, &store)
        })
        .find_map(|wrong| wrong)
}

fn call_store(store: &mut Store, call: &[Json]) -> Json {
    let hexadecimal = |bytes: &[u8]| Json::Text(bytes.iter().map(|byte| format!("{byte:02x}")).collect());
    match (call[0].text(), &call[1..]) {
        ("read", [run, room]) => answer(store.read(run.number(), room.number()), hexadecimal),
        ("write", [run, record]) => answer(store.write(run.number(), record.bytes()), |()| Json::Null),
        ("append", [record]) => answer(store.append(record.bytes()), |()| Json::Null),
        ("forget", [run]) => answer(store.forget(run.number()), |()| Json::Null),
        other => panic!("a store has no call {other:?}"),
    }
}
