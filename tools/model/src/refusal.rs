//! Refusals: docs/refusals.md.

use std::fmt;

/// Every fault that the pages have a number for, as far as the model can meet it.
#[derive(Clone, Copy, PartialEq, Eq, Debug)]
pub enum Fault {
    TextTooLong = 1,
    NoSign = 2,
    DoesNotFit = 3,
    NameTooLong = 4,
    DeclaredBefore = 5,
    NotDeclared = 6,
    TooManyAtoms = 7,
    TooDeep = 8,
    TooManyLines = 9,
    NoSuchStore = 12,
    NumberOfCodes = 20,
    NoCode = 21,
    NoSuchRun = 22,
    Closed = 23,
    Full = 24,
    LastRun = 25,
    NoRunYet = 26,
    Gone = 27,
    NoSuchLine = 28,
    NotKept = 30,
    Length = 31,
    Input = 40,
    NoCall = 41,
}

impl Fault {
    pub fn number(self) -> u8 {
        self as u8
    }

    fn layer(self) -> u8 {
        use Fault::*;
        match self {
            TextTooLong | NoSign | NameTooLong => 1,
            DoesNotFit | DeclaredBefore | NotDeclared | TooManyAtoms | TooDeep => 2,
            TooManyLines => 3,
            NumberOfCodes | NoCode | NoSuchRun | Closed | NoRunYet | Gone | NoSuchLine => 4,
            NoSuchStore | Full | LastRun | NotKept | Length => 5,
            Input | NoCall => 6,
        }
    }

    pub fn at(self, place: usize) -> Refusal {
        Refusal { fault: self, place }
    }
}

#[derive(Clone, Copy, PartialEq, Eq, Debug)]
pub struct Refusal {
    pub fault: Fault,
    pub place: usize,
}

impl fmt::Display for Refusal {
    fn fmt(&self, f: &mut fmt::Formatter<'_>) -> fmt::Result {
        write!(f, "refused {} layer {} place {}", self.fault.number(), self.fault.layer(), self.place)
    }
}
