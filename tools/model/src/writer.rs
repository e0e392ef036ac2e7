//! Writes policies for the driver, sign by sign.

use crate::policy::{MOST_ATOMS, MOST_OPEN};
use crate::random::Random;

#[rustfmt::skip]
pub const SIGNS: [&str; 21] = [
    "(", ")", ",", ";", ".", "~", "&", "|", "->", "YL", "SL", "OL", "HL", "YG", "SG", "OG", "HG",
    "atoms", "rule", "true", "false",
];

/// What is no sign, or no sign that can stand in a policy.
#[rustfmt::skip]
const ODD_SIGNS: [&str; 9] = [
    "undeclared", "abcdefghijklmnopq", "truetruetruetrue1", "-", ">", "Y", "YLL", "#", "7",
];

/// Names that begin like reserved words, and the longest one.
const ODD_NAMES: [&str; 8] = ["true1", "atomsa", "rul", "falsee", "a1", "z9z9z9z9z9z9z9z9", "ruler", "x0"];

/// A sign, or something odd in its place.
pub fn any_sign(random: &mut Random) -> &'static str {
    let list: &[&str] = if random.percent(70) { &SIGNS } else { &ODD_SIGNS };
    list[random.below(list.len())]
}

pub fn distinct_names(random: &mut Random, how_many: usize) -> Vec<String> {
    let mut names: Vec<String> = Vec::new();
    while names.len() < how_many {
        let name = match random.below(10) {
            0 => random.pick(&ODD_NAMES).to_string(),
            1..=6 => char::from(b'a' + random.below(26) as u8).to_string(),
            _ => {
                let length = random.between(1, 15);
                let first = char::from(b'a' + random.below(26) as u8);
                let more = (0..length).map(|_| char::from(*random.pick(b"abcxyz0129")));
                std::iter::once(first).chain(more).collect()
            }
        };
        let reserved = ["atoms", "rule", "true", "false"].contains(&name.as_str());
        if !reserved && !names.contains(&name) {
            names.push(name);
        }
    }
    names
}

/// How signs are parted.
#[derive(Clone, Copy)]
enum Blanks {
    One,
    /// Only where two words would become one.
    Needed,
    Many,
}

/// Writes the signs of a policy, one after the other, as the grammar derives them.
pub struct Writer<'r> {
    pub random: &'r mut Random,
    pub signs: Vec<String>,
    pub atoms: Vec<String>,
    blanks: Blanks,
    /// How many brackets and prefixes may be open.
    pub deepest: usize,
    /// Of 100 units, how many have a prefix.
    prefixed: usize,
    /// Of 100 letter pairs, how many are global.
    global: usize,
    /// Of 100 right sides of `SL`, `SG` and `->`, how many have another one behind them, which does not fit.
    pub chained: usize,
}

impl<'r> Writer<'r> {
    pub fn new(random: &'r mut Random) -> Self {
        let blanks = *random.pick(&[Blanks::One, Blanks::Needed, Blanks::Many]);
        let prefixed = *random.pick(&[15, 35, 50, 60]);
        let global = *random.pick(&[0, 40, 50, 60, 80, 100]);
        Writer {
            random,
            signs: Vec::new(),
            atoms: Vec::new(),
            blanks,
            deepest: MOST_OPEN,
            prefixed,
            global,
            chained: 0,
        }
    }

    pub fn push(&mut self, sign: &str) {
        self.signs.push(sign.to_string());
    }

    pub fn name(&mut self) -> String {
        self.random.pick(&self.atoms).clone()
    }

    pub fn policy(&mut self, size: usize) {
        self.declarations();
        self.rule(size);
    }

    pub fn declarations(&mut self) {
        let atoms = match self.random.below(10) {
            0..=6 => self.random.between(1, 3),
            7..=8 => self.random.between(4, 8),
            _ => self.random.between(9, MOST_ATOMS),
        };
        self.atoms = distinct_names(self.random, atoms);
        self.declare();
    }

    pub fn declare(&mut self) {
        for (index, name) in self.atoms.clone().into_iter().enumerate() {
            self.push(if index == 0 { "atoms" } else { "," });
            self.push(&name);
        }
        self.push(";");
        self.push("rule");
    }

    pub fn rule(&mut self, size: usize) {
        self.form(size, 0);
        self.push(".");
    }

    /// A form of about that many names, while that many brackets and prefixes are open.
    fn form(&mut self, size: usize, open: usize) {
        if size > 1 && self.random.percent(20) {
            let left = self.random.between(1, size - 1);
            self.disj(left, open);
            self.push("->");
            self.disj(size - left, open);
            if self.random.percent(self.chained) {
                self.push("->");
                self.disj(1, open);
            }
        } else {
            self.disj(size, open);
        }
    }

    fn disj(&mut self, size: usize, open: usize) {
        let mut size = size;
        while size > 1 && self.random.percent(35) {
            let left = self.random.between(1, size - 1);
            self.conj(left, open);
            self.push("|");
            size -= left;
        }
        self.conj(size, open);
    }

    fn conj(&mut self, size: usize, open: usize) {
        let mut size = size;
        while size > 1 && self.random.percent(35) {
            let left = self.random.between(1, size - 1);
            self.link(left, open);
            self.push("&");
            size -= left;
        }
        self.link(size, open);
    }

    fn link(&mut self, size: usize, open: usize) {
        if size > 1 && self.random.percent(50) {
            let left = self.random.between(1, size - 1);
            self.unit(left, open);
            let since = if self.random.percent(self.global) { "SG" } else { "SL" };
            self.push(since);
            self.unit(size - left, open);
            if self.random.percent(self.chained) {
                self.push(since);
                self.unit(1, open);
            }
        } else {
            self.unit(size, open);
        }
    }

    fn unit(&mut self, size: usize, open: usize) {
        if open < self.deepest && self.random.percent(self.prefixed) {
            let letter = if self.random.percent(self.global) { "G" } else { "L" };
            let prefix = match self.random.below(4) {
                0 => "~".to_string(),
                1 => format!("Y{letter}"),
                2 => format!("O{letter}"),
                _ => format!("H{letter}"),
            };
            self.push(&prefix);
            self.unit(size, open + 1);
        } else if open < self.deepest && (size > 1 || self.random.percent(5)) {
            self.push("(");
            self.form(size, open + 1);
            self.push(")");
        } else {
            let leaf = match self.random.below(20) {
                0 => "true".to_string(),
                1 => "false".to_string(),
                _ => self.name(),
            };
            self.push(&leaf);
        }
    }

    pub fn damage_signs(&mut self) {
        let at = self.random.below(self.signs.len());
        let other = self.random.below(self.signs.len());
        let odd = if self.random.percent(30) { self.name() } else { any_sign(self.random).to_string() };
        match self.random.below(5) {
            0 if self.signs.len() > 1 => {
                self.signs.remove(at);
            }
            1 => self.signs.swap(at, other),
            2 => self.signs[at] = odd,
            3 => {
                let again = self.signs[other].clone();
                self.signs.insert(at, again);
            }
            _ => self.signs.insert(at, odd),
        }
    }

    /// The signs as bytes, parted by blanks.
    pub fn text(&mut self) -> Vec<u8> {
        let mut text = Vec::new();
        let signs = self.signs.clone();
        for sign in &signs {
            let is_word = |byte: &u8| byte.is_ascii_lowercase() || byte.is_ascii_digit();
            let needed = text.last().is_some_and(is_word) && sign.as_bytes().first().is_some_and(is_word);
            match self.blanks {
                Blanks::One if !text.is_empty() => text.push(b' '),
                Blanks::Needed if needed => text.push(b' '),
                Blanks::Many => {
                    let blanks = self.random.between(usize::from(needed), 3);
                    text.extend((0..blanks).map(|_| *self.random.pick(b" \t\n\r")));
                }
                _ => {}
            }
            text.extend_from_slice(sign.as_bytes());
        }
        text
    }
}
