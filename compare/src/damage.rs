// Damage: bits and bytes changed, put in, taken out, pieces swapped and written twice, cuts, numbers that are huge or overflow.
use crate::chance::Chance;
use crate::make::{number, HEADER, LARGEST};

const TELLING: [u8; 8] = [0x00, 0x01, 0x7f, 0x80, 0x81, 0x82, 0xfe, 0xff];

/// Mostly behind the header: damage there is refused at once.
fn place(chance: &mut Chance, bytes: &[u8]) -> usize {
    let behind = bytes.len().saturating_sub(HEADER.len());
    if behind == 0 || chance.one_in(10) {
        return chance.below(bytes.len() + 1);
    }
    HEADER.len() + chance.below(behind + 1)
}

/// One to three hurts.
pub fn hurt(chance: &mut Chance, bytes: &mut Vec<u8>) {
    for _ in 0..chance.of(&[1, 1, 1, 2, 3]) {
        once(chance, bytes);
    }
}

fn once(chance: &mut Chance, bytes: &mut Vec<u8>) {
    let at = place(chance, bytes);
    let rest = bytes.len() - at;
    match chance.below(12) {
        0 | 1 if rest > 0 => bytes[at] ^= 1 << chance.below(8),
        2 if rest > 0 => bytes[at] = chance.of(&TELLING),
        3 if rest > 0 => bytes[at] = bytes[at].wrapping_add(chance.of(&[1, 0xff])),
        4 => {
            let put = vec![chance.of(&TELLING); chance.of(&[1, 1, 2, 9])];
            bytes.splice(at..at, put);
        }
        5 => {
            let out = chance.of(&[1, 1, 2, 4]).min(rest);
            bytes.drain(at..at + out);
        }
        6 => {
            let again = bytes[at..at + chance.below(13).min(rest)].to_vec();
            bytes.splice(at..at, again);
        }
        7 if rest > 8 => {
            let length = 1 + chance.below(4);
            let other = at + length + chance.below(rest - 2 * length + 1);
            (0..length).for_each(|i| bytes.swap(at + i, other + i));
        }
        8 | 9 => bytes.truncate(at),
        _ => {
            let spelt = huge(chance);
            let out = rest.min(1);
            bytes.splice(at..at + out, spelt);
        }
    }
}

/// A number that is huge, the largest, or one that overflows.
fn huge(chance: &mut Chance) -> Vec<u8> {
    let mut spelt = vec![0; chance.of(&[0, 0, 0, 1, 4])];
    match chance.below(6) {
        0 => number(&mut spelt, LARGEST),
        1 => number(&mut spelt, LARGEST - chance.below(200) as u64),
        2 => number(&mut spelt, 1 << chance.below(64)),
        3 => number(&mut spelt, chance.number() & LARGEST),
        // 2^64 - 128, the first that is refused, and more.
        4 => spelt.extend([1, 0x7f, 0x7f, 0x7f, 0x7f, 0x7f, 0x7f, 0x7f, 0x7f, 0x80]),
        _ => spelt.extend([0x7f; 11]),
    }
    spelt
}
