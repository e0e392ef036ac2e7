//! What is true of a run after an event: docs/logic.md.
//!
//! Nothing is kept up to date here. The history is the list of accepted events, and each truth is worked out from it by the
//! page's rule for its form. Truths that were worked out once are remembered, because the rules ask for them again and
//! again.

use crate::form::{Form, FormId, Way};
use crate::scale::{Code, Scale};

/// The number of a run, from 1.
pub type Run = usize;

/// The number of an event, from 1. "After event 0" is before the first one.
pub type EventId = usize;

#[derive(Clone, Debug)]
pub enum Event {
    Start { codes: Vec<Code> },
    Report { run: Run, codes: Vec<Code> },
    Close { run: Run },
}

/// The accepted events, with the two things that are asked of them most often.
#[derive(Clone, Debug, Default)]
pub struct History {
    events: Vec<Event>,
    /// For each run the events that gave it a state: its start, then its reports.
    states: Vec<Vec<EventId>>,
    closed: Vec<bool>,
}

impl History {
    /// The newest run, 0 with none.
    pub fn high(&self) -> Run {
        self.states.len()
    }

    /// The number of the latest event.
    pub fn latest(&self) -> EventId {
        self.events.len()
    }

    pub fn is_closed(&self, run: Run) -> bool {
        self.closed[run - 1]
    }

    pub fn lowest_open(&self) -> Option<Run> {
        self.closed.iter().position(|closed| !closed).map(|index| index + 1)
    }

    pub fn accept(&mut self, event: Event) {
        let number = self.events.len() + 1;
        match event {
            Event::Start { .. } => {
                self.states.push(vec![number]);
                self.closed.push(false);
            }
            Event::Report { run, .. } => self.states[run - 1].push(number),
            Event::Close { run } => self.closed[run - 1] = true,
        }
        self.events.push(event);
    }

    /// Takes back a report that was accepted only to look at what would follow from it.
    pub fn take_back_report(&mut self) {
        let Some(Event::Report { run, .. }) = self.events.pop() else {
            unreachable!("only reports are previewed");
        };
        self.states[run - 1].pop();
    }

    /// m: the latest event up to n that gave run s a state.
    fn state_event(&self, s: Run, n: EventId) -> EventId {
        let states = &self.states[s - 1];
        let up_to_n = states.partition_point(|&event| event <= n);
        states[up_to_n - 1]
    }

    pub fn present_state(&self, s: Run, n: EventId) -> &[Code] {
        match &self.events[self.state_event(s, n) - 1] {
            Event::Start { codes } | Event::Report { codes, .. } => codes,
            Event::Close { .. } => unreachable!("a close brings no state"),
        }
    }

    /// The moment that "earlier" means for run s after event n: m - 1 if m is a report, none if m is the start.
    pub fn earlier(&self, s: Run, n: EventId) -> Option<EventId> {
        let m = self.state_event(s, n);
        match self.events[m - 1] {
            Event::Report { .. } => Some(m - 1),
            _ => None,
        }
    }
}

/// The truths of a list of forms on a scale.
#[derive(Clone, Debug)]
pub struct Truths {
    forms: Vec<Form>,
    scale: Scale,
    /// For each event, each run and each form: the truth, if it was worked out before.
    remembered: Vec<Vec<Option<Code>>>,
}

impl Truths {
    pub fn new(forms: Vec<Form>, scale: Scale) -> Self {
        Truths { forms, scale, remembered: Vec::new() }
    }

    /// The truth of a form at run s after event n.
    pub fn truth(&mut self, history: &History, form: FormId, s: Run, n: EventId) -> Code {
        let index = (s - 1) * self.forms.len() + form;
        if let Some(&Some(code)) = self.remembered.get(n).and_then(|truths| truths.get(index)) {
            return code;
        }
        let code = self.by_rule(history, form, s, n);
        self.remember(n, index, code);
        code
    }

    fn remember(&mut self, n: EventId, index: usize, code: Code) {
        if self.remembered.len() <= n {
            self.remembered.resize(n + 1, Vec::new());
        }
        let truths = &mut self.remembered[n];
        if truths.len() <= index {
            truths.resize(index + 1, None);
        }
        truths[index] = Some(code);
    }

    /// Nothing stays remembered of the events behind n.
    pub fn forget_behind(&mut self, n: EventId) {
        self.remembered.truncate(n + 1);
    }

    /// The page's table, one case a row.
    fn by_rule(&mut self, history: &History, form: FormId, s: Run, n: EventId) -> Code {
        let scale = self.scale;
        let rule = self.forms[form];
        let mut here = |part| self.truth(history, part, s, n);
        match rule {
            Form::Atom(atom) => history.present_state(s, n)[atom],
            Form::True => Scale::YES,
            Form::False => Scale::NO,
            Form::Not(f) => scale.not(here(f)),
            Form::Or(a, b) => scale.or(here(a), here(b)),
            Form::And(a, b) => scale.and(here(a), here(b)),
            Form::Implies(a, b) => scale.or(scale.not(here(a)), here(b)),
            Form::Yesterday(way, f) => match before(history, way, s, n) {
                Some((s, n)) => self.truth(history, f, s, n),
                None => Scale::NO,
            },
            Form::Since(way, a, b) => {
                let (a, b) = (here(a), here(b));
                match before(history, way, s, n) {
                    Some((s, n)) => scale.or(b, scale.and(a, self.truth(history, form, s, n))),
                    None => scale.or(b, Scale::NO),
                }
            }
            Form::Once(way, f) => {
                let f = here(f);
                match before(history, way, s, n) {
                    Some((s, n)) => scale.or(f, self.truth(history, form, s, n)),
                    None => f,
                }
            }
            Form::Always(way, f) => {
                let f = here(f);
                match before(history, way, s, n) {
                    Some((s, n)) => scale.and(f, self.truth(history, form, s, n)),
                    None => f,
                }
            }
        }
    }
}

/// Where an operation goes back to: the run before after the same event, or the same run before its present state came.
fn before(history: &History, way: Way, s: Run, n: EventId) -> Option<(Run, EventId)> {
    match way {
        Way::Global if s == 1 => None,
        Way::Global => Some((s - 1, n)),
        Way::Local => history.earlier(s, n).map(|n| (s, n)),
    }
}
