//! Policy texts for the driver: derived from the grammar, driven to the limits, or damaged.

use crate::damage::damage;
use crate::policy::{self, LONGEST_TEXT, MOST_ATOMS, MOST_LINES, MOST_OPEN};
use crate::random::Random;
use crate::writer::{any_sign, distinct_names, Writer, SIGNS};

const PREFIXES: [&str; 7] = ["~", "YL", "OL", "HL", "YG", "OG", "HG"];

/// A text that is accepted, of about that many names and with at most so many lines.
pub fn accepted(random: &mut Random, size: usize, most_lines: usize) -> Vec<u8> {
    let mut size = size;
    loop {
        let mut writer = Writer::new(random);
        writer.policy(size);
        let text = writer.text();
        match policy::read(&text) {
            Ok(policy) if policy.lines.len() <= most_lines => return text,
            // too long, or too many lines
            _ => size = (size / 2).max(1),
        }
    }
}

/// A text with some of its signs, or some of its bytes, damaged, or with chains of what does not chain. Most have a full
/// stop still, so that there is a text to read.
pub fn damaged(random: &mut Random) -> Vec<u8> {
    let size = random.between(1, 12);
    let mut writer = Writer::new(random);
    if writer.random.percent(15) {
        writer.chained = 40;
        writer.policy(size + 2);
        return writer.text();
    }
    writer.policy(size);
    if writer.random.percent(50) {
        for _ in 0..writer.random.between(1, 2) {
            writer.damage_signs();
        }
        return writer.text();
    }
    let mut text = writer.text();
    if random.percent(20) {
        // a byte that others take for a blank
        let at = random.below(text.len());
        text.insert(at, *random.pick(b"\x00\x08\x0b\x0c\x0e\x1f\x7f\x85\xa0"));
    } else {
        damage(random, &mut text);
    }
    if random.percent(80) && !text.contains(&b'.') {
        text.push(b'.');
    }
    text
}

/// Signs in any order behind a good beginning.
pub fn soup(random: &mut Random) -> Vec<u8> {
    let mut writer = Writer::new(random);
    writer.declarations();
    for _ in 0..writer.random.between(1, 10) {
        let sign = if writer.random.percent(40) { writer.name() } else { writer.random.pick(&SIGNS).to_string() };
        writer.push(&sign);
    }
    writer.push(".");
    writer.text()
}

/// A text right at one of the limits, or one too many.
pub fn at_a_limit(random: &mut Random) -> Vec<u8> {
    match random.below(6) {
        0 => many_atoms(random),
        1 => long_name(random),
        2 => deep(random),
        3 => many_lines(random),
        4 => very_many_lines(random),
        _ => many_bytes(random),
    }
}

/// 31 to 34 atoms; the 33rd may repeat one.
fn many_atoms(random: &mut Random) -> Vec<u8> {
    let atoms = random.between(MOST_ATOMS - 1, MOST_ATOMS + 2);
    let mut writer = Writer::new(random);
    writer.atoms = distinct_names(writer.random, atoms);
    if writer.random.percent(50) {
        let last = atoms - 1;
        writer.atoms[last] = writer.atoms[writer.random.below(last)].clone();
    }
    writer.declare();
    writer.rule(4);
    writer.text()
}

/// A name of 16 or 17 bytes, somewhere.
fn long_name(random: &mut Random) -> Vec<u8> {
    let length = random.between(16, 18);
    let piece = *random.pick(&["abcdefghij", "x0", "true", "false", "atoms", "rule"]);
    let name: String = piece.chars().cycle().take(length).collect();
    let size = random.between(1, 5);
    let mut writer = Writer::new(random);
    writer.policy(size);
    let at = writer.random.below(writer.signs.len() + 1);
    if writer.random.percent(60) {
        // at home: declared, and perhaps used
        let old = writer.random.pick(&writer.atoms).clone();
        for sign in &mut writer.signs {
            if *sign == old {
                sign.clone_from(&name);
            }
        }
    } else {
        writer.signs.insert(at, name);
    }
    writer.text()
}

/// About 32 brackets and prefixes open at once, on one side of an operation or on both.
fn deep(random: &mut Random) -> Vec<u8> {
    let mut writer = Writer::new(random);
    writer.declarations();
    let short_prefixes = writer.random.percent(70);
    for side in 0..writer.random.between(1, 2) {
        if side > 0 {
            let operation = *writer.random.pick(&["SL", "SG", "&", "|", "->"]);
            writer.push(operation);
        }
        let depth = writer.random.between(MOST_OPEN - 1, MOST_OPEN + 1);
        let mut brackets = 0;
        for _ in 0..depth {
            if writer.random.percent(30) {
                writer.push("(");
                brackets += 1;
            } else {
                // with one line each the depth counts, and not the lines
                let prefixes: &[&str] = if short_prefixes { &["~", "YL", "YG"] } else { &PREFIXES };
                let prefix = *writer.random.pick(prefixes);
                writer.push(prefix);
            }
        }
        if writer.random.percent(10) {
            // whatever follows the 33rd one
            let sign = any_sign(writer.random);
            writer.push(sign);
        }
        let name = writer.name();
        writer.push(&name);
        for _ in 0..brackets {
            writer.push(")");
        }
    }
    writer.push(".");
    writer.text()
}

/// 127 to 130 lines, grown from some rule: a `~` in front is one more line, a `| name` behind two.
fn many_lines(random: &mut Random) -> Vec<u8> {
    let goal = random.between(MOST_LINES - 1, MOST_LINES + 2);
    let size = random.between(1, 20);
    let mut writer = Writer::new(random);
    writer.deepest = MOST_OPEN - 2;
    writer.policy(size);
    let lines = match policy::read(&writer.text()) {
        Ok(policy) if policy.lines.len() <= goal => policy.lines.len(),
        _ => return writer.text(),
    };
    let begin = 1 + writer.signs.iter().position(|sign| sign == "rule").expect("every policy has a rule");
    let stop = writer.signs.len() - 1;
    writer.signs.insert(stop, ")".to_string());
    writer.signs.insert(begin, "(".to_string());
    if (goal - lines) % 2 == 1 {
        writer.signs.insert(begin, "~".to_string());
    }
    writer.signs.pop();
    for _ in 0..(goal - lines) / 2 {
        let name = writer.name();
        writer.push("|");
        writer.push(&name);
    }
    writer.push(".");
    writer.text()
}

/// Lines by the hundred, in one long chain.
fn very_many_lines(random: &mut Random) -> Vec<u8> {
    let mut writer = Writer::new(random);
    writer.declarations();
    let operation = *writer.random.pick(&["|", "&"]);
    let prefix = *writer.random.pick(&["", "~", "HG", "OL"]);
    for part in 0..writer.random.between(20, 1_000) {
        if part > 0 {
            writer.push(operation);
        }
        if !prefix.is_empty() {
            writer.push(prefix);
        }
        let name = writer.name();
        writer.push(&name);
    }
    writer.push(".");
    writer.text()
}

/// A text of about 8,192 bytes, most of them blanks; some have another fault besides.
fn many_bytes(random: &mut Random) -> Vec<u8> {
    let mut text = if random.percent(70) { accepted(random, 5, MOST_LINES) } else { damaged(random) };
    let goal = random.between(LONGEST_TEXT - 1, LONGEST_TEXT + 2);
    let end = text.iter().position(|&byte| byte == b'.').unwrap_or(text.len());
    let place = if random.percent(50) { end } else { text.iter().position(|&byte| byte == b' ').unwrap_or(end) };
    if let Some(missing) = goal.checked_sub(end + 1) {
        let blanks: Vec<u8> = (0..missing).map(|_| *random.pick(b" \t\n\r")).collect();
        text.splice(place..place, blanks);
    }
    text
}
