//! Makes an input with a difference smaller, for the reader's sake.

use std::time::{Duration, Instant};

/// Each try runs the program, and an input can have tens of thousands of lines.
const LONGEST_TIME: Duration = Duration::from_secs(5);

/// Leaves out lines, by halves, by quarters and so on, as long as what is left is still bad.
pub fn shrink(input: &[u8], is_bad: impl Fn(&[u8]) -> bool) -> Vec<u8> {
    let mut lines: Vec<&[u8]> = input.split_inclusive(|&byte| byte == 10).collect();
    let mut piece = lines.len() / 2;
    let begin = Instant::now();
    while piece > 0 {
        let mut at = 0;
        while at < lines.len() {
            if begin.elapsed() > LONGEST_TIME {
                return lines.concat();
            }
            let end = (at + piece).min(lines.len());
            let rest = [&lines[..at], &lines[end..]].concat();
            if is_bad(&rest.concat()) {
                lines = rest;
            } else {
                at = end;
            }
        }
        piece /= 2;
    }
    lines.concat()
}
