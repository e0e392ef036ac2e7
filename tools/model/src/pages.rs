//! The examples on the pages. Where one of these fails, a page is at odds with itself or the model has it wrong.

use crate::book::Book;
use crate::logic::Run;
use crate::policy;
use crate::program;
use crate::refusal::{Fault, Refusal};
use crate::scale::{Code, Scale};
use crate::store::{Kind, Store};

const A: &str = "atoms door, warm; rule HG (door -> ~ OL warm).";
const B: &str = "atoms p; rule YL YG p.";

fn outcome(text: &str) -> String {
    match policy::read(text.as_bytes()) {
        Ok(policy) => format!("{} lines", policy.lines.len()),
        Err(refusal) => refusal.to_string(),
    }
}

fn refused(fault: Fault, place: usize) -> String {
    fault.at(place).to_string()
}

fn book(text: &str, scale: Scale, limit: usize) -> Book {
    Book::open(policy::read(text.as_bytes()).expect("the pages' policies are read"), scale, limit)
}

fn printed(input: &str) -> String {
    String::from_utf8(program::output(&program::run(input.as_bytes()))).expect("the output is text")
}

/// Codes as they are written on the pages, a digit each.
fn codes(digits: &str) -> Vec<Code> {
    digits.bytes().map(|digit| digit - b'0').collect()
}

fn bytes(hexadecimal: &str) -> Vec<u8> {
    let byte = |pair| u8::from_str_radix(pair, 16).expect("hexadecimal");
    hexadecimal.split_whitespace().map(byte).collect()
}

#[test]
fn policy_text_refusals() {
    use Fault::*;
    for (text, fault, place) in [
        ("", DoesNotFit, 0),
        ("  ", DoesNotFit, 2),
        ("atom a; rule a.", DoesNotFit, 0),
        ("atoms ; rule true.", DoesNotFit, 6),
        ("atoms atoms; rule a.", DoesNotFit, 6),
        ("atoms 1a; rule a.", NoSign, 6),
        ("atoms a, a; rule a.", DeclaredBefore, 9),
        ("atoms a; rule b.", NotDeclared, 14),
        ("atoms a; rule c#.", NotDeclared, 14),
        ("atoms a; rule a#.", NoSign, 15),
        ("atoms a; rule a b.", DoesNotFit, 16),
        ("atoms a; rule a -b.", NoSign, 16),
        ("atoms a; rule a - > a.", NoSign, 16),
        ("atoms a; rule a) #.", DoesNotFit, 15),
        ("atoms a; rule (a.", DoesNotFit, 16),
        ("atoms a; rule a SL a SL a.", DoesNotFit, 21),
        ("atoms a; rule a -> a -> a.", DoesNotFit, 21),
        ("atoms a; rule a", DoesNotFit, 15),
        ("atoms a; rule a  ", DoesNotFit, 17),
        ("atoms a; rule a..", DoesNotFit, 16),
        ("atoms a; rule a.  x", DoesNotFit, 18),
        ("atoms a; rule a. #", NoSign, 17),
        ("atoms a; rule a abcdefghijklmnopq.", NameTooLong, 16),
        ("atoms a; rule a. abcdefghijklmnopq", NameTooLong, 17),
        ("atoms a; rule truetruetruetrue1.", NameTooLong, 14),
        ("atoms p; rule YLL p.", NoSign, 16),
        ("atoms a; rule Y L a.", NoSign, 14),
    ] {
        assert_eq!(outcome(text), refused(fault, place), "{text:?}");
    }
}

#[test]
fn policy_text_depth_and_grouping() {
    let rule = |rule: String| outcome(&format!("atoms a;rule {rule}."));
    let nots = |how_many| "~".repeat(how_many);
    // the page's places go with `atoms a; rule `, one blank more
    let spaced = |rule: String| outcome(&format!("atoms a; rule {rule}."));
    assert_eq!(rule(nots(32) + "a"), "33 lines");
    assert_eq!(spaced(nots(33) + "a"), refused(Fault::TooDeep, 46));
    assert_eq!(spaced("(".repeat(20) + &nots(13)), refused(Fault::TooDeep, 46));
    assert_eq!(rule(nots(32) + "a SL " + &nots(32) + "a"), "67 lines");
    let same = |a: &str, b: &str| {
        let read =
            |rule| policy::read(format!("atoms a,b,c,d,e; rule {rule}.").as_bytes()).expect("both are read").lines;
        assert_eq!(read(a), read(b));
    };
    same("~ a SL b", "(~ a) SL b");
    same("a SL b & c | d -> e", "(((a SL b) & c) | d) -> e");
    same("a & b & c", "(a & b) & c");
    same("a | b | c", "(a | b) | c");
    assert_eq!(A.len(), 46);
    assert_eq!(outcome(A), "11 lines");
}

#[test]
fn lines_at_the_limit() {
    let names = |how_many| vec!["a"; how_many].join("|");
    let text = format!("atoms a; rule {}.", names(65));
    assert_eq!(outcome(&text), refused(Fault::TooManyLines, text.len()));
    assert_eq!(outcome(&format!("atoms a; rule ~{}.", names(64))), "128 lines");
}

/// The rule's truth at the newest run after some calls as they are written on the pages.
fn verdict(rule: &str, calls: &str) -> Code {
    let mut book = book(&format!("atoms p; rule {rule}."), Scale::Plain, 64);
    for call in calls.split(", ") {
        let words: Vec<&str> = call.split(' ').collect();
        let run = |word: &str| word.parse::<Run>().expect("a run");
        match words[..] {
            ["N", start] => drop(book.start(&codes(start)).expect("accepted")),
            ["U", of, report] => drop(book.report(run(of), &codes(report)).expect("accepted")),
            ["E", of] => drop(book.close(run(of)).expect("accepted")),
            _ => panic!("{call} is no call"),
        }
    }
    book.verdict().expect("accepted")
}

#[test]
fn logic_readings_that_are_easy_to_get_wrong() {
    assert_eq!(verdict("true SG p", "N 0, N 0"), 0);
    assert_eq!(verdict("YL p", "N 0, N 1, U 2 0, E 2, U 1 0"), 1);
    assert_eq!(verdict("YL p", "N 0, U 1 1"), 0);
    assert_eq!(verdict("YG p", "N 0, N 0, U 1 1"), 1);
    assert_eq!(verdict("YL YG p", "N 0, N 0, U 1 1, U 2 0"), 1);
    assert_eq!(verdict("p", "N 1"), 1);
    assert_eq!(verdict("OG p", "N 1, N 0, N 0"), 1);
}

#[test]
fn logic_since() {
    let states = ["01", "10", "10", "00", "10"];
    let mut local = book("atoms a, b; rule a SL b.", Scale::Plain, 64);
    let mut global = book("atoms a, b; rule a SG b.", Scale::Plain, 64);
    for (index, (state, truth)) in states.iter().zip([1, 1, 1, 0, 0]).enumerate() {
        let state = codes(state);
        if index == 0 {
            local.start(&state).expect("accepted");
        } else {
            local.report(1, &state).expect("accepted");
        }
        global.start(&state).expect("accepted");
        assert_eq!((local.verdict(), global.verdict()), (Ok(truth), Ok(truth)));
    }
}

#[test]
fn book_policies_a_and_b() {
    let mut a = book(A, Scale::Plain, 64);
    assert_eq!(a.start(&codes("00")), Ok(1));
    assert_eq!(a.start(&codes("10")), Ok(2));
    assert_eq!(a.verdict(), Ok(1));
    assert_eq!(a.report(1, &codes("01")), Ok((1, 1)));
    assert_eq!(a.record(1), bytes("01  00 01  01 00 01 01 01 01 00 01 00 00 01  01 00 01 01 00 00 01 01 00 00 01"));
    assert_eq!(a.record(2), bytes("01  01 00  01 01 00 01 00 00 01 01 00 00 01  00 00 00 00 00 00 00 00 00 00 00"));
    assert_eq!(a.report(1, &codes("10")), Ok((2, 0)));
    assert_eq!(a.record(1), bytes("01  01 00  01 01 00 01 00 01 00 00 01 01 00  01 00 01 01 01 01 00 01 00 00 01"));
    assert_eq!(a.record(2), bytes("01  01 00  01 01 00 01 00 00 01 01 00 01 00  00 00 00 00 00 00 00 00 00 00 00"));
    assert_eq!(a.preview(1, &codes("00")), Ok(1));
    assert_eq!(a.verdict(), Ok(0));

    let mut b = book(B, Scale::Plain, 64);
    assert_eq!(b.start(&codes("0")), Ok(1));
    assert_eq!(b.start(&codes("0")), Ok(2));
    assert_eq!(b.report(1, &codes("1")), Ok((2, 0)));
    assert_eq!(b.report(2, &codes("0")), Ok((1, 1)));
    assert_eq!(b.report(1, &codes("0")), Ok((2, 1)));
}

#[test]
fn book_on_the_open_scale() {
    for (start, verdict) in [("20", 1), ("12", 2), ("11", 0), ("10", 1)] {
        let mut book = book(A, Scale::Open, 64);
        book.start(&codes(start)).expect("accepted");
        assert_eq!(book.verdict(), Ok(verdict), "{start}");
    }
    for (report, answer) in [("2", (1, 2)), ("1", (2, 1))] {
        let mut book = book("atoms p; rule YG p.", Scale::Open, 64);
        book.start(&codes("2")).expect("accepted");
        book.start(&codes("2")).expect("accepted");
        assert_eq!(book.report(1, &codes(report)), Ok(answer));
    }
}

#[test]
fn book_which_runs_are_kept() {
    let mut small = book(B, Scale::Plain, 2);
    let full: Result<Run, Refusal> = Err(Fault::Full.at(2));
    assert_eq!(small.start(&[0]), Ok(1));
    assert_eq!(small.start(&[0]), Ok(2));
    assert_eq!(small.start(&[0]), full);
    assert_eq!(small.close(1), Ok(0));
    assert_eq!(small.start(&[0]), full);
    assert_eq!(small.close(2), Ok(1));
    assert_eq!(small.start(&[0]), Ok(3));
    assert_eq!(small.report(1, &[0]), Err(Fault::Closed.at(1)));
    assert_eq!(small.truth(1, 0), Err(Fault::Gone.at(1)));
    assert_eq!(small.kept(), 2..=3);

    let mut four = book(B, Scale::Plain, 64);
    for run in 1..=4 {
        assert_eq!(four.start(&[0]), Ok(run));
    }
    assert_eq!([3, 2, 1].map(|run| four.close(run)), [Ok(0), Ok(0), Ok(2)]);
    assert_eq!(four.kept(), 3..=4);
    assert_eq!(four.close(4), Ok(1));
    assert_eq!(four.kept(), 4..=4);
}

#[test]
fn stores_limits() {
    let limit = |kind, width, memory| Store::make(kind, width, memory).map(|store| store.limit);
    let refused = Err(Fault::NoSuchStore.at(0));
    for (memory, width, row, stretch) in [
        (50, 25, Ok(2), refused),
        (49, 25, refused, refused),
        (66, 25, Ok(2), Ok(2)),
        (32, 8, Ok(4), Ok(2)),
        (20_000, 4, Ok(4_096), Ok(1_666)),
        (100, 3, refused, refused),
        (100, 290, refused, refused),
    ] {
        assert_eq!(limit(Kind::RowTable, width, memory), row);
        assert_eq!(limit(Kind::StretchTable, width, memory), stretch);
    }
}

#[test]
fn stores_row_table() {
    let mut store = Store::make(Kind::RowTable, 4, 14).expect("made");
    let record = |byte: u8| vec![byte; 4];
    let holds = |store: &Store, low, high, memory: &str| {
        assert_eq!((store.low, store.high(), store.image()), (low, high, bytes(memory)));
    };
    holds(&store, 1, 0, "00 00 00 00 00 00 00 00 00 00 00 00 00 00");
    for byte in [0x11, 0x22, 0x33] {
        assert_eq!(store.append(record(byte)), Ok(()));
    }
    assert_eq!(store.append(record(0x44)), Err(Fault::Full.at(3)));
    assert_eq!(store.write(2, record(0x2a)), Ok(()));
    holds(&store, 1, 3, "11 11 11 11 2a 2a 2a 2a 33 33 33 33 00 00");
    assert_eq!(store.forget(2), Ok(()));
    holds(&store, 2, 3, "00 00 00 00 2a 2a 2a 2a 33 33 33 33 00 00");
    assert_eq!(store.append(record(0x44)), Ok(()));
    holds(&store, 2, 4, "44 44 44 44 2a 2a 2a 2a 33 33 33 33 00 00");
    assert_eq!(store.read(1, 4), Err(Fault::NotKept.at(1)));
    assert_eq!(store.read(9, 5), Err(Fault::Length.at(5)));
    assert_eq!(store.forget(4), Ok(()));
    assert_eq!(store.forget(4), Ok(()));
    assert_eq!(store.forget(5), Err(Fault::NotKept.at(5)));
    holds(&store, 4, 4, "44 44 44 44 00 00 00 00 00 00 00 00 00 00");
}

#[test]
fn stores_stretch_table() {
    let mut store = Store::make(Kind::StretchTable, 4, 38).expect("made");
    let record = |byte: u8| vec![byte; 4];
    let holds = |store: &Store, memory: &str| {
        let mut memory = bytes(memory);
        memory.resize(38, 0);
        assert_eq!(store.image(), memory);
    };
    assert_eq!(store.append(record(0x11)), Ok(()));
    holds(&store, "00 00 00 01 00 00 00 01 11 11 11 11");
    assert_eq!(store.append(record(0x11)), Ok(()));
    assert_eq!(store.append(record(0x11)), Ok(()));
    assert_eq!(store.append(record(0x11)), Err(Fault::Full.at(3)));
    holds(&store, "00 00 00 01 00 00 00 03 11 11 11 11");
    assert_eq!(store.write(2, record(0x22)), Ok(()));
    holds(
        &store,
        "00 00 00 01 00 00 00 01 11 11 11 11 00 00 00 02 00 00 00 01 22 22 22 22 00 00 00 03 00 00 00 01 11 11 11 11",
    );
    assert_eq!(store.write(2, record(0x11)), Ok(()));
    assert_eq!(store.write(3, record(0x33)), Ok(()));
    assert_eq!(store.forget(2), Ok(()));
    holds(&store, "00 00 00 02 00 00 00 01 11 11 11 11 00 00 00 03 00 00 00 01 33 33 33 33");
    assert_eq!(store.forget(3), Ok(()));
    assert_eq!(store.append(record(0x33)), Ok(()));
    holds(&store, "00 00 00 03 00 00 00 02 33 33 33 33");
    assert_eq!((store.low, store.high()), (3, 4));
}

#[test]
fn program_examples() {
    let calls = "\nN 00\nN 10\nU 1 01\nU 1 10\nP 1 00\nU 3 00\nU 1 00\nE 1\nV\n";
    let answers = "policy atoms 2 lines 11\nrun 1\nrun 2\nchanged 1 verdict 1\nchanged 2 verdict 0\nwould 1\n\
                   refused 22 layer 4 place 3\nchanged 2 verdict 1\nclosed 1 gone 0\nverdict 1\n";
    assert_eq!(printed(&(A.to_string() + calls)), answers);

    let calls = "\nN 1\nN 2\nU 0 1\nQ\nE 1\n\nV\nU 1 0\n";
    let answers = "policy atoms 1 lines 2\nrun 1\nrefused 21 layer 4 place 0\nrefused 22 layer 4 place 0\n\
                   refused 41 layer 6 place 5\nclosed 1 gone 0\nverdict 0\nrefused 23 layer 4 place 1\n";
    assert_eq!(printed(&("atoms p; rule YG p.".to_string() + calls)), answers);

    let answers = "policy atoms 2 lines 11\nrun 1\nchanged 1 verdict 1\nverdict 1\n";
    assert_eq!(printed(&(A.to_string() + "\nN 00\nU 1 10\nV\n")), answers);

    assert_eq!(printed("atoms a; rule a"), "refused 40 layer 6 place 0\n");
    assert_eq!(printed("atoms a; rule b.\nN 0\nV"), "refused 6 layer 2 place 14\n");
    assert_eq!(printed("atoms a; rule a.V"), "policy atoms 1 lines 1\nrefused 26 layer 4 place 0\n");
    assert_eq!(printed("atoms a; rule a. V"), "policy atoms 1 lines 1\nrefused 41 layer 6 place 1\n");
    let crlf = "policy atoms 1 lines 1\nrefused 41 layer 6 place 1\nrefused 41 layer 6 place 2\n";
    assert_eq!(printed("atoms a; rule a.\r\nV\r\n"), crlf);
}
