//! Reading a policy text: docs/policy-text.md, "Grammar", "Depth" and "What is refused".
//!
//! What fits is tested sign by sign, by the page's table of what fits where. Only a text without a fault is made into a
//! tree, by taking it apart at its loosest operation.

use crate::form::{Form, FormId};
use crate::lines;
use crate::refusal::{Fault, Refusal};
use crate::signs::{signs, Placed, Prefix, Sign};

pub const LONGEST_TEXT: usize = 8_192;
pub const MOST_ATOMS: usize = 32;
pub const MOST_OPEN: usize = 32;
pub const MOST_LINES: usize = 128;

/// A policy that was read: its atoms, the tree of its rule with all its signs, and its table of lines.
#[derive(Clone, Debug)]
pub struct Policy {
    pub atoms: Vec<Vec<u8>>,
    pub forms: Vec<Form>,
    pub rule: FormId,
    pub lines: Vec<Form>,
}

impl Policy {
    /// W, the bytes of a run's record.
    pub fn width(&self) -> usize {
        1 + self.atoms.len() + 2 * self.lines.len()
    }
}

/// Reads a text. Of several faults the lowest place counts. All signs stand before the place where none can be read, and
/// the end stands behind everything, so the order of the tests is the order of the places.
pub fn read(text: &[u8]) -> Result<Policy, Refusal> {
    if text.len() > LONGEST_TEXT {
        return Err(Fault::TextTooLong.at(LONGEST_TEXT));
    }
    let (signs, no_sign) = signs(text);
    let mut reading = Reading::new(text);
    for sign in &signs {
        reading.take(sign).map_err(|fault| fault.at(sign.start))?;
    }
    if let Some(refusal) = no_sign {
        return Err(refusal);
    }
    if reading.awaited != Awaited::End {
        return Err(Fault::DoesNotFit.at(text.len()));
    }

    let atoms: Vec<Vec<u8>> = reading.atoms.iter().map(|name| name.to_vec()).collect();
    let begin = 1 + signs.iter().position(|placed| placed.sign == Sign::Rule).expect("the grammar has a rule");
    let mut tree = Tree { text, atoms: &atoms, forms: Vec::new() };
    let rule = tree.form(&signs[begin..signs.len() - 1]);
    let forms = tree.forms;
    if lines::how_many(&forms, rule) > MOST_LINES {
        return Err(Fault::TooManyLines.at(text.len()));
    }
    let lines = lines::table(&forms, rule);
    Ok(Policy { atoms, forms, rule, lines })
}

/// What the next sign has to be.
#[derive(Clone, Copy, PartialEq, Eq)]
enum Awaited {
    Atoms,
    Declaration,
    CommaOrSemicolon,
    Rule,
    Unit,
    /// A unit has ended: an operation with a right side, a closing bracket or the full stop.
    Operation,
    End,
}

/// One form that is being read: the rule's, or that of an open bracket.
#[derive(Clone, Copy, Default)]
struct Level {
    right_side_of_since: bool,
    has_arrow: bool,
    open_prefixes: usize,
}

struct Reading<'a> {
    text: &'a [u8],
    atoms: Vec<&'a [u8]>,
    awaited: Awaited,
    /// The rule's level first, then one for each open bracket.
    levels: Vec<Level>,
}

impl<'a> Reading<'a> {
    fn new(text: &'a [u8]) -> Self {
        Reading { text, atoms: Vec::new(), awaited: Awaited::Atoms, levels: vec![Level::default()] }
    }

    fn level(&mut self) -> &mut Level {
        self.levels.last_mut().expect("the rule's level is never closed")
    }

    /// Brackets and prefixes that are open, together.
    fn open(&self) -> usize {
        self.levels.len() - 1 + self.levels.iter().map(|level| level.open_prefixes).sum::<usize>()
    }

    /// Takes one sign. Whether it fits comes first, then the faults of a sign that fits.
    fn take(&mut self, placed: &Placed) -> Result<(), Fault> {
        let name = &self.text[placed.start..placed.end];
        self.awaited = match (self.awaited, placed.sign) {
            (Awaited::Atoms, Sign::Atoms) => Awaited::Declaration,
            (Awaited::Declaration, Sign::Name) => self.declare(name)?,
            (Awaited::CommaOrSemicolon, Sign::Comma) => Awaited::Declaration,
            (Awaited::CommaOrSemicolon, Sign::Semicolon) => Awaited::Rule,
            (Awaited::Rule, Sign::Rule) => Awaited::Unit,
            (Awaited::Unit, sign) => self.take_unit(sign, name)?,
            (Awaited::Operation, sign) => self.take_operation(sign)?,
            _ => return Err(Fault::DoesNotFit),
        };
        Ok(())
    }

    fn declare(&mut self, name: &'a [u8]) -> Result<Awaited, Fault> {
        if self.atoms.contains(&name) {
            return Err(Fault::DeclaredBefore);
        }
        if self.atoms.len() == MOST_ATOMS {
            return Err(Fault::TooManyAtoms);
        }
        self.atoms.push(name);
        Ok(Awaited::CommaOrSemicolon)
    }

    fn take_unit(&mut self, sign: Sign, name: &[u8]) -> Result<Awaited, Fault> {
        match sign {
            Sign::Prefix(_) | Sign::Open if self.open() == MOST_OPEN => Err(Fault::TooDeep),
            Sign::Prefix(_) => {
                self.level().open_prefixes += 1;
                Ok(Awaited::Unit)
            }
            Sign::Open => {
                self.levels.push(Level::default());
                Ok(Awaited::Unit)
            }
            Sign::Name if !self.atoms.contains(&name) => Err(Fault::NotDeclared),
            Sign::Name | Sign::True | Sign::False => Ok(self.unit_ends()),
            _ => Err(Fault::DoesNotFit),
        }
    }

    /// The prefixes before a unit are closed at its end.
    fn unit_ends(&mut self) -> Awaited {
        self.level().open_prefixes = 0;
        Awaited::Operation
    }

    fn take_operation(&mut self, sign: Sign) -> Result<Awaited, Fault> {
        let in_bracket = self.levels.len() > 1;
        let level = self.level();
        match sign {
            Sign::Since(_) if !level.right_side_of_since => {
                level.right_side_of_since = true;
                Ok(Awaited::Unit)
            }
            Sign::And | Sign::Or => {
                level.right_side_of_since = false;
                Ok(Awaited::Unit)
            }
            Sign::Arrow if !level.has_arrow => {
                level.right_side_of_since = false;
                level.has_arrow = true;
                Ok(Awaited::Unit)
            }
            Sign::Close if in_bracket => {
                self.levels.pop();
                Ok(self.unit_ends())
            }
            Sign::Stop if !in_bracket => Ok(Awaited::End),
            _ => Err(Fault::DoesNotFit),
        }
    }
}

/// The tree of a rule that has no fault.
struct Tree<'a> {
    text: &'a [u8],
    atoms: &'a [Vec<u8>],
    forms: Vec<Form>,
}

impl Tree<'_> {
    fn add(&mut self, form: Form) -> FormId {
        self.forms.push(form);
        self.forms.len() - 1
    }

    /// Takes the signs of a form apart at the operation that binds loosest. Chains of `|` and `&` group to the left,
    /// so theirs is the last one; `->`, `SL` and `SG` do not chain.
    fn form(&mut self, signs: &[Placed]) -> FormId {
        let is_since = |sign| matches!(sign, Sign::Since(_));
        let loosest = last_outside_brackets(signs, |sign| sign == Sign::Arrow)
            .or_else(|| last_outside_brackets(signs, |sign| sign == Sign::Or))
            .or_else(|| last_outside_brackets(signs, |sign| sign == Sign::And))
            .or_else(|| last_outside_brackets(signs, is_since));
        let Some(at) = loosest else {
            return self.unit(signs);
        };
        let a = self.form(&signs[..at]);
        let b = self.form(&signs[at + 1..]);
        self.add(match signs[at].sign {
            Sign::Arrow => Form::Implies(a, b),
            Sign::Or => Form::Or(a, b),
            Sign::And => Form::And(a, b),
            Sign::Since(way) => Form::Since(way, a, b),
            other => unreachable!("{other:?} is no operation with two sides"),
        })
    }

    fn unit(&mut self, signs: &[Placed]) -> FormId {
        match signs[0].sign {
            Sign::Prefix(prefix) => {
                let part = self.unit(&signs[1..]);
                self.add(match prefix {
                    Prefix::Not => Form::Not(part),
                    Prefix::Yesterday(way) => Form::Yesterday(way, part),
                    Prefix::Once(way) => Form::Once(way, part),
                    Prefix::Always(way) => Form::Always(way, part),
                })
            }
            Sign::Open => self.form(&signs[1..signs.len() - 1]),
            Sign::True => self.add(Form::True),
            Sign::False => self.add(Form::False),
            Sign::Name => {
                let name = &self.text[signs[0].start..signs[0].end];
                let atom = self.atoms.iter().position(|atom| atom == name).expect("names were tested");
                self.add(Form::Atom(atom))
            }
            other => unreachable!("{other:?} begins no unit"),
        }
    }
}

fn last_outside_brackets(signs: &[Placed], wanted: impl Fn(Sign) -> bool) -> Option<usize> {
    let mut brackets = 0;
    let mut last = None;
    for (index, placed) in signs.iter().enumerate() {
        match placed.sign {
            Sign::Open => brackets += 1,
            Sign::Close => brackets -= 1,
            sign if brackets == 0 && wanted(sign) => last = Some(index),
            _ => {}
        }
    }
    last
}
