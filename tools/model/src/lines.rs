//! The lines of a policy: docs/lines.md, "What the operations become".

use crate::form::{Form, FormId};

/// How many lines a form has, by the last column of the page's table.
pub fn how_many(forms: &[Form], form: FormId) -> usize {
    let of = |part| how_many(forms, part);
    match forms[form] {
        Form::Atom(_) | Form::True | Form::False => 1,
        Form::Not(f) | Form::Yesterday(_, f) => of(f) + 1,
        Form::Or(a, b) | Form::Since(_, a, b) => of(a) + of(b) + 1,
        Form::Implies(a, b) => of(a) + of(b) + 2,
        Form::And(a, b) => of(a) + of(b) + 4,
        Form::Once(_, f) => of(f) + 2,
        Form::Always(_, f) => of(f) + 4,
    }
}

/// The table of lines of a form; the last line is the form itself.
pub fn table(forms: &[Form], form: FormId) -> Vec<Form> {
    let mut table = Vec::new();
    append(forms, form, &mut table);
    assert_eq!(table.len(), how_many(forms, form), "lines.md: the order of lines and their number disagree");
    table
}

/// Appends the lines of a form and gives the number of the last one.
fn append(forms: &[Form], form: FormId, table: &mut Vec<Form>) -> FormId {
    fn line(form: Form, table: &mut Vec<Form>) -> FormId {
        table.push(form);
        table.len() - 1
    }
    match forms[form] {
        Form::Atom(_) | Form::True | Form::False => line(forms[form], table),
        Form::Not(f) => {
            let f = append(forms, f, table);
            line(Form::Not(f), table)
        }
        Form::Yesterday(way, f) => {
            let f = append(forms, f, table);
            line(Form::Yesterday(way, f), table)
        }
        Form::Or(a, b) => {
            let a = append(forms, a, table);
            let b = append(forms, b, table);
            line(Form::Or(a, b), table)
        }
        Form::Since(way, a, b) => {
            let a = append(forms, a, table);
            let b = append(forms, b, table);
            line(Form::Since(way, a, b), table)
        }
        Form::Implies(a, b) => {
            let a = append(forms, a, table);
            let not_a = line(Form::Not(a), table);
            let b = append(forms, b, table);
            line(Form::Or(not_a, b), table)
        }
        Form::And(a, b) => {
            let a = append(forms, a, table);
            let not_a = line(Form::Not(a), table);
            let b = append(forms, b, table);
            let not_b = line(Form::Not(b), table);
            let or = line(Form::Or(not_a, not_b), table);
            line(Form::Not(or), table)
        }
        Form::Once(way, f) => {
            let yes = line(Form::True, table);
            let f = append(forms, f, table);
            line(Form::Since(way, yes, f), table)
        }
        Form::Always(way, f) => {
            let yes = line(Form::True, table);
            let f = append(forms, f, table);
            let not_f = line(Form::Not(f), table);
            let since = line(Form::Since(way, yes, not_f), table);
            line(Form::Not(since), table)
        }
    }
}
