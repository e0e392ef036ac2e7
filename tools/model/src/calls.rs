//! Lines of calls for the driver: those of a depot that mostly keeps to the rules, with mistakes and damage.

use crate::damage::damage;
use crate::logic::Run;
use crate::program::LIMIT;
use crate::random::Random;

/// What a depot is like. The numbers of calls are weights, the others percentages.
#[derive(Clone, Copy)]
struct Habits {
    starts: usize,
    reports: usize,
    previews: usize,
    closes: usize,
    verdicts: usize,
    /// Lines with nothing in them.
    empty: usize,
    /// Calls of runs that are closed, gone or not there.
    wrong_runs: usize,
    /// Codes that are none, or too many or few of them.
    wrong_codes: usize,
    /// Lines that are damaged.
    damaged: usize,
    close: Close,
}

/// Which run is closed.
#[derive(Clone, Copy)]
enum Close {
    Any,
    Oldest,
    Newest,
    AnyButTheFirst,
}

const USUAL: Habits = Habits {
    starts: 15,
    reports: 45,
    previews: 12,
    closes: 8,
    verdicts: 8,
    empty: 1,
    wrong_runs: 3,
    wrong_codes: 2,
    damaged: 1,
    close: Close::Any,
};

/// Runs come and go, few are open at once.
const PASSING: Habits = Habits { starts: 30, reports: 30, closes: 29, close: Close::Oldest, ..USUAL };

/// More starts than closes, until the store is full.
const CROWDED: Habits = Habits { starts: 50, closes: 14, reports: 40, ..USUAL };

/// The first run stays open, so nothing is ever forgotten.
const STUCK: Habits = Habits { starts: 50, closes: 30, reports: 30, close: Close::AnyButTheFirst, ..USUAL };

/// The newest run is closed first.
const BACKWARDS: Habits = Habits { starts: 25, closes: 20, close: Close::Newest, ..USUAL };

/// One run or two, and many states.
const LONG_RUNS: Habits = Habits { starts: 2, closes: 1, reports: 70, previews: 20, ..USUAL };

const CARELESS: Habits = Habits { wrong_runs: 30, wrong_codes: 25, damaged: 5, empty: 5, ..USUAL };

const BROKEN: Habits = Habits { damaged: 50, empty: 10, ..USUAL };

const ALL: [Habits; 8] = [USUAL, PASSING, CROWDED, STUCK, BACKWARDS, LONG_RUNS, CARELESS, BROKEN];

/// Lines that are no call, most of them nearly one.
#[rustfmt::skip]
const ODD_LINES: [&[u8]; 20] = [
    b" ", b"\r", b"N", b"N ", b"U", b"U 1", b"U 1 ", b"E", b"E ", b"P 1", b"V ", b"VV", b"Q", b"E 0000001", b"E 1 1",
    b"U  1", b"N -1", b"E +1", b"U 1 1 1", b"V 1",
];

/// A list of calls, from right behind the full stop on. A text has that many atoms; if it is refused, any number will do.
pub fn calls(random: &mut Random, atoms: usize, lines: usize) -> Vec<u8> {
    let habits = *random.pick(&ALL);
    let usual = *random.pick(b"01");
    let at_start = *random.pick(&[1, 5, 20, 50]);
    let in_report = *random.pick(&[10, 30, 60]);
    let mut depot = Depot { random, atoms, habits, usual, at_start, in_report, states: Vec::new(), open: Vec::new() };
    let mut bytes = Vec::new();
    if depot.random.percent(95) {
        bytes.push(10);
    }
    if depot.random.percent(10) {
        // a full store from the beginning on
        for _ in 0..LIMIT {
            bytes.extend(depot.start());
            bytes.push(10);
        }
    }
    for line in 0..lines {
        if line > 0 {
            bytes.push(10);
        }
        bytes.extend(depot.line());
    }
    if depot.random.percent(70) {
        bytes.push(10);
    }
    bytes
}

struct Depot<'r> {
    random: &'r mut Random,
    atoms: usize,
    habits: Habits,
    /// The code that is the usual one, as a digit. Where nearly all codes are the same, a report of another one reaches
    /// far by `OG` or `HG`.
    usual: u8,
    /// Of 100 codes in a start, how many are the other one.
    at_start: usize,
    /// Of 100 usual codes, how many become the other one by a report.
    in_report: usize,
    /// The present state of each run, as digits.
    states: Vec<Vec<u8>>,
    open: Vec<bool>,
}

impl Depot<'_> {
    fn line(&mut self) -> Vec<u8> {
        let habits = self.habits;
        let weights = [habits.starts, habits.reports, habits.previews, habits.closes, habits.verdicts, habits.empty];
        let before = self.random.percent(habits.damaged).then(|| (self.states.clone(), self.open.clone()));
        let mut line = match self.random.weighted(&weights) {
            0 => self.start(),
            1 => self.report(),
            2 => self.preview(),
            3 => self.close(),
            4 => b"V".to_vec(),
            _ => return Vec::new(),
        };
        if let Some((states, open)) = before {
            self.damage_line(&mut line);
            // most likely it is no call any more
            (self.states, self.open) = (states, open);
        }
        line
    }

    fn start(&mut self) -> Vec<u8> {
        let codes: Vec<u8> = (0..self.atoms).map(|_| self.turned(self.usual, self.at_start)).collect();
        let spelled = self.spell_codes(&codes);
        if spelled == codes && self.kept() < LIMIT {
            self.states.push(codes);
            self.open.push(true);
        }
        [b"N ".as_slice(), &spelled].concat()
    }

    fn report(&mut self) -> Vec<u8> {
        let Some((run, spelled_run)) = self.choose_run() else {
            return self.start();
        };
        let codes = self.new_codes(run);
        let spelled = self.spell_codes(&codes);
        if spelled == codes && self.is_open(run) {
            self.states[run - 1] = codes;
        }
        [b"U ".as_slice(), &spelled_run, b" ", &spelled].concat()
    }

    fn preview(&mut self) -> Vec<u8> {
        let Some((run, spelled_run)) = self.choose_run() else {
            return self.start();
        };
        let codes = self.new_codes(run);
        [b"P ".as_slice(), &spelled_run, b" ", &self.spell_codes(&codes)].concat()
    }

    fn close(&mut self) -> Vec<u8> {
        let open = self.open_runs();
        let run = if self.random.percent(self.habits.wrong_runs) {
            self.wrong_run()
        } else if open.is_empty() {
            return self.start();
        } else {
            match self.habits.close {
                Close::Any => *self.random.pick(&open),
                Close::Oldest => open[self.random.below(open.len().min(3))],
                Close::Newest => open[open.len() - 1 - self.random.below(open.len().min(3))],
                Close::AnyButTheFirst if open.len() > 1 => *self.random.pick(&open[1..]),
                Close::AnyButTheFirst => return self.start(),
            }
        };
        if self.is_open(run) {
            self.open[run - 1] = false;
        }
        [b"E ".as_slice(), &self.spell_run(run)].concat()
    }

    fn is_open(&self, run: Run) -> bool {
        run > 0 && run <= self.open.len() && self.open[run - 1]
    }

    fn open_runs(&self) -> Vec<Run> {
        (1..=self.open.len()).filter(|&run| self.is_open(run)).collect()
    }

    /// How many runs are kept, so that the depot knows which of its starts are refused.
    fn kept(&self) -> usize {
        let high = self.open.len();
        match self.open_runs().first() {
            Some(&run) => high + 1 - (run - 1).max(1),
            None => high.min(1),
        }
    }

    /// A run for a report or a preview. Old ones are taken more often: their reports reach further.
    fn choose_run(&mut self) -> Option<(Run, Vec<u8>)> {
        let open = self.open_runs();
        let run = if self.random.percent(self.habits.wrong_runs) {
            self.wrong_run()
        } else if open.is_empty() {
            return None;
        } else if self.random.percent(60) {
            open[self.random.below(open.len().min(4))]
        } else {
            *self.random.pick(&open)
        };
        Some((run, self.spell_run(run)))
    }

    fn wrong_run(&mut self) -> Run {
        let high = self.open.len();
        match self.random.below(8) {
            0 => 0,
            1 => high + 1,
            2 => high + self.random.between(1, 70),
            3 => 999_999,
            4 => high.saturating_sub(LIMIT),
            _ => self.random.between(0, high),
        }
    }

    fn spell_run(&mut self, run: Run) -> Vec<u8> {
        let digits = run.to_string();
        let zeros = if self.random.percent(5) { self.random.between(0, 7 - digits.len()) } else { 0 };
        [vec![b'0'; zeros], digits.into_bytes()].concat()
    }

    fn new_codes(&mut self, run: Run) -> Vec<u8> {
        let present = if self.is_open(run) { self.states[run - 1].clone() } else { vec![self.usual; self.atoms] };
        if self.random.percent(10) {
            // a new state all the same
            return present;
        }
        let new = |code| self.turned(code, if code == self.usual { self.in_report } else { 70 });
        present.into_iter().map(new).collect()
    }

    /// The code, or in that many of 100 cases the other one.
    fn turned(&mut self, code: u8, percent: usize) -> u8 {
        match (self.random.percent(percent), code) {
            (false, _) => code,
            (true, b'0') => b'1',
            (true, _) => b'0',
        }
    }

    /// The codes, or wrong ones in their place.
    fn spell_codes(&mut self, codes: &[u8]) -> Vec<u8> {
        let mut codes = codes.to_vec();
        if self.random.percent(self.habits.wrong_codes) {
            match self.random.below(5) {
                0 | 1 => {
                    for _ in 0..self.random.between(1, 3) {
                        let at = self.random.below(codes.len());
                        codes[at] = b'0' + self.random.between(2, 9) as u8;
                    }
                }
                2 => {
                    codes.pop();
                }
                3 => codes.push(b'1'),
                _ => {
                    let length = *self.random.pick(&[0, 1, 31, 32, 33, 63, 64, 65, 66]);
                    codes = (0..length).map(|_| b'0' + self.random.below(10) as u8).collect();
                }
            }
        }
        codes
    }

    fn damage_line(&mut self, line: &mut Vec<u8>) {
        match self.random.below(8) {
            0 => line.push(b'\r'),
            1 => line.push(b' '),
            2 => line.insert(0, b' '),
            3 => line[0] = line[0].to_ascii_lowercase(),
            4 => {
                // two byte 32 where one has to be, or a tab
                let at = line.iter().position(|&byte| byte == b' ').unwrap_or(0);
                line.insert(at, *self.random.pick(b" \t"));
            }
            5 => *line = self.random.pick(&ODD_LINES).to_vec(),
            _ => damage(self.random, line),
        }
    }
}
