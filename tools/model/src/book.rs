//! The book: docs/book.md.
//!
//! Verdicts are taken from the tree of the rule as it was written, counts and truths of lines from the table. That both
//! say the same of the rule is tested at every verdict.

use crate::logic::{Event, EventId, History, Run, Truths};
use crate::policy::Policy;
use crate::refusal::{Fault, Refusal};
use crate::scale::{Code, Scale};

pub const LAST_RUN: Run = 999_999;

pub struct Book {
    policy: Policy,
    scale: Scale,
    limit: usize,
    history: History,
    written: Truths,
    lines: Truths,
}

impl Book {
    pub fn open(policy: Policy, scale: Scale, limit: usize) -> Self {
        let written = Truths::new(policy.forms.clone(), scale);
        let lines = Truths::new(policy.lines.clone(), scale);
        Book { policy, scale, limit, history: History::default(), written, lines }
    }

    pub fn start(&mut self, codes: &[Code]) -> Result<Run, Refusal> {
        self.test_codes(codes)?;
        if self.high() == LAST_RUN {
            return Err(Fault::LastRun.at(LAST_RUN));
        }
        if self.kept().count() == self.limit {
            return Err(Fault::Full.at(self.limit));
        }
        let low = self.low();
        self.history.accept(Event::Start { codes: codes.to_vec() });
        assert_eq!(self.low(), low, "book.md: low rises only at a close");
        Ok(self.high())
    }

    /// The count and the new verdict.
    pub fn report(&mut self, run: Run, codes: &[Code]) -> Result<(usize, Code), Refusal> {
        self.test_open(run)?;
        self.test_codes(codes)?;
        self.history.accept(Event::Report { run, codes: codes.to_vec() });
        let after = self.history.latest();
        let moved: Vec<Run> = (run + 1..=self.high()).filter(|&later| self.moved(later, after)).collect();
        assert!(moved.iter().copied().eq(run + 1..=run + moved.len()), "book.md: there is no gap");
        Ok((1 + moved.len(), self.rule_at_high()))
    }

    pub fn preview(&mut self, run: Run, codes: &[Code]) -> Result<Code, Refusal> {
        self.test_open(run)?;
        self.test_codes(codes)?;
        let now = self.history.latest();
        self.history.accept(Event::Report { run, codes: codes.to_vec() });
        let would = self.rule_at_high();
        self.history.take_back_report();
        self.written.forget_behind(now);
        self.lines.forget_behind(now);
        Ok(would)
    }

    /// How many runs are gone by it.
    pub fn close(&mut self, run: Run) -> Result<usize, Refusal> {
        self.test_open(run)?;
        let low = self.low();
        self.history.accept(Event::Close { run });
        Ok(self.low() - low)
    }

    pub fn verdict(&mut self) -> Result<Code, Refusal> {
        if self.high() == 0 {
            return Err(Fault::NoRunYet.at(0));
        }
        Ok(self.rule_at_high())
    }

    pub fn truth(&mut self, run: Run, line: usize) -> Result<Code, Refusal> {
        self.test_run(run)?;
        if run < self.low() {
            return Err(Fault::Gone.at(run));
        }
        if line >= self.policy.lines.len() {
            return Err(Fault::NoSuchLine.at(line));
        }
        Ok(self.lines.truth(&self.history, line, run, self.history.latest()))
    }

    pub fn high(&self) -> Run {
        self.history.high()
    }

    /// The number before that of the lowest open run, or 1 if that is run 1; high with every run closed; 1 with none.
    pub fn low(&self) -> Run {
        match self.history.lowest_open() {
            Some(run) => (run - 1).max(1),
            None => self.high().max(1),
        }
    }

    /// The runs whose records the store holds.
    pub fn kept(&self) -> std::ops::RangeInclusive<Run> {
        self.low()..=self.high()
    }

    /// The bytes that a store holds of a run.
    pub fn record(&mut self, run: Run) -> Vec<u8> {
        let now = self.history.latest();
        let mut record = vec![u8::from(!self.history.is_closed(run))];
        record.extend_from_slice(self.history.present_state(run, now));
        record.extend(self.row(run, now));
        match self.history.earlier(run, now) {
            Some(earlier) => record.extend(self.row(run, earlier)),
            None => record.extend(vec![Scale::NO; self.policy.lines.len()]),
        }
        record
    }

    /// The truths of all lines at a run after an event.
    fn row(&mut self, run: Run, event: EventId) -> Vec<Code> {
        (0..self.policy.lines.len()).map(|line| self.lines.truth(&self.history, line, run, event)).collect()
    }

    /// Whether the truth of any line at a run is another after an event than before it.
    fn moved(&mut self, run: Run, event: EventId) -> bool {
        self.row(run, event - 1) != self.row(run, event)
    }

    fn rule_at_high(&mut self) -> Code {
        let (high, now) = (self.history.high(), self.history.latest());
        let written = self.written.truth(&self.history, self.policy.rule, high, now);
        let last_line = self.lines.truth(&self.history, self.policy.lines.len() - 1, high, now);
        assert_eq!(written, last_line, "lines.md: the last line has another truth than the rule");
        written
    }

    fn test_run(&self, run: Run) -> Result<(), Refusal> {
        if run == 0 || run > self.high() {
            return Err(Fault::NoSuchRun.at(run));
        }
        Ok(())
    }

    fn test_open(&self, run: Run) -> Result<(), Refusal> {
        self.test_run(run)?;
        if self.history.is_closed(run) {
            return Err(Fault::Closed.at(run));
        }
        Ok(())
    }

    fn test_codes(&self, codes: &[Code]) -> Result<(), Refusal> {
        if codes.len() != self.policy.atoms.len() {
            return Err(Fault::NumberOfCodes.at(codes.len()));
        }
        match codes.iter().position(|&code| !self.scale.is_code(code)) {
            Some(index) => Err(Fault::NoCode.at(index)),
            None => Ok(()),
        }
    }
}
