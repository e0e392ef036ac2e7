//! The signs of a policy text: docs/policy-text.md, "Signs".

use crate::form::Way;
use crate::refusal::{Fault, Refusal};

const LONGEST_NAME: usize = 16;

#[derive(Clone, Copy, PartialEq, Eq, Debug)]
pub enum Prefix {
    Not,
    Yesterday(Way),
    Once(Way),
    Always(Way),
}

#[derive(Clone, Copy, PartialEq, Eq, Debug)]
pub enum Sign {
    Open,
    Close,
    Comma,
    Semicolon,
    Stop,
    And,
    Or,
    Arrow,
    Since(Way),
    Prefix(Prefix),
    Atoms,
    Rule,
    True,
    False,
    Name,
}

/// A sign with the place of its first byte and the place behind its last one.
#[derive(Clone, Copy, Debug)]
pub struct Placed {
    pub sign: Sign,
    pub start: usize,
    pub end: usize,
}

/// All signs up to the first place where none can be read, and the refusal of that place if there is one.
pub fn signs(text: &[u8]) -> (Vec<Placed>, Option<Refusal>) {
    let mut signs = Vec::new();
    let mut place = 0;
    while place < text.len() {
        if is_blank(text[place]) {
            place += 1;
            continue;
        }
        match sign_at(text, place) {
            Ok((sign, length)) => {
                signs.push(Placed { sign, start: place, end: place + length });
                place += length;
            }
            Err(fault) => return (signs, Some(fault.at(place))),
        }
    }
    (signs, None)
}

fn is_blank(byte: u8) -> bool {
    matches!(byte, 9 | 10 | 13 | 32)
}

fn sign_at(text: &[u8], place: usize) -> Result<(Sign, usize), Fault> {
    let one = |sign| Ok((sign, 1));
    match text[place] {
        b'(' => one(Sign::Open),
        b')' => one(Sign::Close),
        b',' => one(Sign::Comma),
        b';' => one(Sign::Semicolon),
        b'.' => one(Sign::Stop),
        b'~' => one(Sign::Prefix(Prefix::Not)),
        b'&' => one(Sign::And),
        b'|' => one(Sign::Or),
        b'-' if text.get(place + 1) == Some(&b'>') => Ok((Sign::Arrow, 2)),
        b'a'..=b'z' => word_at(text, place),
        capital => {
            let way = match text.get(place + 1) {
                Some(b'L') => Way::Local,
                Some(b'G') => Way::Global,
                _ => return Err(Fault::NoSign),
            };
            match capital {
                b'Y' => Ok((Sign::Prefix(Prefix::Yesterday(way)), 2)),
                b'S' => Ok((Sign::Since(way), 2)),
                b'O' => Ok((Sign::Prefix(Prefix::Once(way)), 2)),
                b'H' => Ok((Sign::Prefix(Prefix::Always(way)), 2)),
                _ => Err(Fault::NoSign),
            }
        }
    }
}

/// A name or a reserved word: the longest stretch of letters a to z and digits. Its length is tested first, so a
/// stretch that is too long is refused even if it begins like a reserved word.
fn word_at(text: &[u8], place: usize) -> Result<(Sign, usize), Fault> {
    let length = text[place..].iter().take_while(|byte| matches!(byte, b'a'..=b'z' | b'0'..=b'9')).count();
    if length > LONGEST_NAME {
        return Err(Fault::NameTooLong);
    }
    let sign = match &text[place..place + length] {
        b"atoms" => Sign::Atoms,
        b"rule" => Sign::Rule,
        b"true" => Sign::True,
        b"false" => Sign::False,
        _ => Sign::Name,
    };
    Ok((sign, length))
}
