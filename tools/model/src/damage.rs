//! Damage to bytes: some are dropped, added, exchanged or swapped.

use crate::random::Random;

/// Bytes that mean something in a text or a line, or that look like one that does.
const TELLING: &[u8] = b"()~&|->,;.YSOHLGNUPEVabz0129 \t\n\r\x00\x0b\x0c\x7f\x80\xff#A/:`{@[_";

pub fn damage(random: &mut Random, bytes: &mut Vec<u8>) {
    for _ in 0..random.weighted(&[0, 60, 25, 10, 5]) {
        damage_once(random, bytes);
    }
}

fn damage_once(random: &mut Random, bytes: &mut Vec<u8>) {
    let byte = if random.percent(90) { *random.pick(TELLING) } else { random.below(256) as u8 };
    let at = random.below(bytes.len() + 1);
    if at == bytes.len() {
        bytes.push(byte);
        return;
    }
    match random.below(6) {
        0 => {
            bytes.remove(at);
        }
        1 => bytes.insert(at, byte),
        2 => bytes[at] = byte,
        3 => {
            let other = random.below(bytes.len());
            bytes.swap(at, other);
        }
        4 if at + 1 < bytes.len() => bytes.swap(at, at + 1),
        _ => {
            // a piece once more
            let end = (at + random.between(1, 8)).min(bytes.len());
            let piece = bytes[at..end].to_vec();
            bytes.splice(at..at, piece);
        }
    }
}
