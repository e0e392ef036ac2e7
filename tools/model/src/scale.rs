//! The two scales: docs/scales.md.

/// A byte to judge with. Any byte can be handed over; which of them are codes is for the scale to say.
pub type Code = u8;

const UNKNOWN: Code = 2;

#[derive(Clone, Copy, PartialEq, Eq, Debug)]
pub enum Scale {
    Plain,
    Open,
}

impl Scale {
    pub const NO: Code = 0;
    pub const YES: Code = 1;

    pub fn is_code(self, a: Code) -> bool {
        match self {
            Scale::Plain => a <= Self::YES,
            Scale::Open => a <= UNKNOWN,
        }
    }

    /// Strict: a byte that is no code gives no.
    pub fn not(self, a: Code) -> Code {
        match a {
            Self::NO => Self::YES,
            Self::YES => Self::NO,
            UNKNOWN if self == Scale::Open => UNKNOWN,
            _ => Self::NO,
        }
    }

    /// Strict: a byte that is no code beats even yes.
    pub fn or(self, a: Code, b: Code) -> Code {
        if !self.is_code(a) || !self.is_code(b) {
            return Self::NO;
        }
        match (a, b) {
            (Self::YES, _) | (_, Self::YES) => Self::YES,
            (Self::NO, Self::NO) => Self::NO,
            _ => UNKNOWN,
        }
    }

    /// No operation of its own on any scale.
    pub fn and(self, a: Code, b: Code) -> Code {
        self.not(self.or(self.not(a), self.not(b)))
    }
}
