//! The inputs of the driver. The same seed and case give the same bytes.

use crate::calls::calls;
use crate::policy::{self, MOST_LINES};
use crate::program::LONGEST_INPUT;
use crate::random::Random;
use crate::texts;

/// The standard input of one case.
pub fn input(seed: u64, case: u64) -> Vec<u8> {
    let random = &mut Random::of_case(seed, case);
    match random.weighted(&[40, 12, 3, 20, 7, 16, 2]) {
        0 => short(random),
        1 => long_policy(random),
        2 => long_list(random),
        3 => {
            let text = texts::damaged(random);
            with_calls(random, text, 12)
        }
        4 => {
            let text = texts::soup(random);
            with_calls(random, text, 12)
        }
        5 => {
            let text = texts::at_a_limit(random);
            with_calls(random, text, 40)
        }
        _ => whole_input(random),
    }
}

/// A text and up to so many lines of calls behind it.
fn with_calls(random: &mut Random, mut text: Vec<u8>, most: usize) -> Vec<u8> {
    // the program's text ends with its first full stop; where it is refused the calls do not matter
    let end = text.iter().position(|&byte| byte == b'.').map_or(text.len(), |full_stop| full_stop + 1);
    let atoms = policy::read(&text[..end]).map_or(1, |policy| policy.atoms.len());
    let lines = random.between(0, most);
    text.extend(calls(random, atoms, lines));
    text
}

fn short(random: &mut Random) -> Vec<u8> {
    let size = random.between(1, 8);
    let text = mostly_global(random, size, MOST_LINES);
    let most = *random.pick(&[10, 40, 120]);
    with_calls(random, text, most)
}

/// An accepted text. Most have a global operation: without one no report moves another run.
fn mostly_global(random: &mut Random, size: usize, most_lines: usize) -> Vec<u8> {
    let any = random.percent(15);
    loop {
        let text = texts::accepted(random, size, most_lines);
        if any || text.contains(&b'G') {
            return text;
        }
    }
}

fn long_policy(random: &mut Random) -> Vec<u8> {
    let size = random.between(8, 40);
    let text = texts::accepted(random, size, MOST_LINES);
    with_calls(random, text, 120)
}

/// Many calls on few lines: the model goes over the whole history again and again.
fn long_list(random: &mut Random) -> Vec<u8> {
    let size = random.between(1, 5);
    let text = mostly_global(random, size, 16);
    with_calls(random, text, 1_500)
}

/// Inputs about as long as they may be, and inputs without a full stop.
fn whole_input(random: &mut Random) -> Vec<u8> {
    let text = texts::accepted(random, 4, MOST_LINES);
    let mut input = with_calls(random, text, 40);
    if random.percent(30) {
        input.retain(|&byte| byte != b'.');
    }
    if random.percent(80) {
        let goal = match random.below(6) {
            0 => LONGEST_INPUT + random.between(2, 100_000),
            _ => random.between(LONGEST_INPUT - 1, LONGEST_INPUT + 1),
        };
        let filling = random.pick(&["\n".to_string(), "\n".repeat(99) + "V", "x".to_string()]).clone();
        while input.len() < goal {
            input.extend_from_slice(filling.as_bytes());
        }
        input.truncate(goal);
    }
    input
}
