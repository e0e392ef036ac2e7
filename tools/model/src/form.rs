//! Forms, with all signs of a policy text: what a rule or a part of it says.

/// Which way an operation goes back: over the states of one run (letter L), or over the runs (letter G).
#[derive(Clone, Copy, PartialEq, Eq, Debug)]
pub enum Way {
    Local,
    Global,
}

/// The number of a form in a list of forms. A form stands behind its parts.
pub type FormId = usize;

/// One form; its parts are numbers of forms in the same list.
///
/// A list of forms is the tree of a rule as it was written, or a table of lines (docs/lines.md). A table makes do
/// without `And`, `Implies`, `Once` and `Always`.
#[derive(Clone, Copy, PartialEq, Eq, Debug)]
pub enum Form {
    Atom(usize),
    True,
    False,
    Not(FormId),
    Or(FormId, FormId),
    And(FormId, FormId),
    Implies(FormId, FormId),
    Yesterday(Way, FormId),
    Since(Way, FormId, FormId),
    Once(Way, FormId),
    Always(Way, FormId),
}
