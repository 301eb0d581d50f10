// Functions by chance, every field with its odd values: instructions near the ends of the rules, lines, names, nesting.
use crate::chance::Chance;
use crate::limits::NESTING_CEILING;
use crate::make::{Constant, Made, Name, LARGEST};

const LOADK: u32 = 3;
const GETUPVAL: u32 = 9;
const SETUPVAL: u32 = 10;
const GETTABUP: u32 = 11;
const SETTABUP: u32 = 15;
const JMP: u32 = 56;
const CLOSURE: u32 = 79;
const RULED: [u32; 7] = [LOADK, GETUPVAL, SETUPVAL, GETTABUP, SETTABUP, JMP, CLOSURE];
const NO_JUMP: i64 = 16_777_215;

/// Among them the first numbers that are no int for lundump.c, and the last that is one.
const INTS: [u64; 5] = [(1 << 31) - 129, (1 << 31) - 129, (1 << 31) - 128, (1 << 31) - 127, (1 << 31) - 1];
const ODD_NUMBERS: [u64; 14] =
    [0, 1, 127, 128, 300, 16_383, 16_384, 1 << 31, 1 << 32, (1 << 62) - 1, 1 << 62, 1 << 63, LARGEST, LARGEST - 1];
const ODD_FLOATS: [u64; 6] =
    [0, 1 << 63, 0x7ff0_0000_0000_0000, 0x7ff8_0000_0000_0001, 0xfff4_0000_0000_0000, 0x4077_2800_0000_0000];
const TAGS: [u8; 7] = [0, 1, 17, 3, 19, 4, 20];

fn odd_number(chance: &mut Chance) -> u64 {
    match chance.below(12) {
        0 => match chance.below(3) {
            0 => chance.of(&INTS),
            _ => chance.of(&ODD_NUMBERS),
        },
        1 => chance.number() >> chance.below(64),
        _ => chance.below(12) as u64,
    }
    .min(LARGEST)
}

/// Lines: mostly such that they are looked up.
fn line(chance: &mut Chance) -> u64 {
    match chance.below(60) {
        0 => return chance.of(&[1 << 62, (1 << 62) + 1, 1 << 63, LARGEST]),
        1 | 2 => return odd_number(chance),
        _ => {}
    }
    chance.of(&[0, 1, 2, 5, 10, 100, 127, 128, 300, 70_000, (1 << 62) - 1])
}

pub fn name(chance: &mut Chance) -> Name {
    let length = match chance.below(40) {
        0..=11 => return None,
        12..=19 => 0,
        39 => 120 + chance.below(20),
        38 => chance.below(60),
        _ => 1 + chance.below(4),
    };
    Some((0..length).map(|_| if chance.one_in(4) { chance.byte() } else { b'a' + chance.below(26) as u8 }).collect())
}

/// A list of a few, often of none.
fn some<T>(chance: &mut Chance, most: usize, mut make: impl FnMut(&mut Chance) -> T) -> Vec<T> {
    let count = if chance.one_in(2) { chance.below(most + 1) } else { 0 };
    (0..count).map(|_| make(chance)).collect()
}

/// An index near a count.
fn near(chance: &mut Chance, count: usize) -> u32 {
    if chance.one_in(12) {
        return chance.number() as u32;
    }
    (count + 1).saturating_sub(chance.below(3)) as u32
}

fn word(chance: &mut Chance, made: &Made, pc: usize, count: usize) -> u32 {
    let op = if chance.one_in(3) { chance.below(128) as u32 } else { chance.of(&RULED) };
    let a = near(chance, usize::from(made.bytes[2])) & 0xff;
    let upvalues = made.upvalues.len();
    match op {
        JMP => {
            let target =
                if chance.one_in(2) { chance.below(3) as i64 - 1 } else { count as i64 + 1 - chance.below(3) as i64 };
            let jump = if chance.one_in(10) { chance.number() as i64 } else { target - pc as i64 - 1 + NO_JUMP };
            op | ((jump & 0x1ff_ffff) as u32) << 7
        }
        LOADK => op | a << 7 | near(chance, made.constants.len()) << 15,
        CLOSURE => op | a << 7 | near(chance, made.nested.len()) << 15,
        GETUPVAL | SETUPVAL | GETTABUP => {
            op | a << 7 | (near(chance, upvalues) & 0xff) << 16 | (chance.byte() as u32) << 24
        }
        SETTABUP => op | (near(chance, upvalues) & 0xff) << 7 | (chance.number() as u32) << 15,
        _ => op | a << 7 | (chance.number() as u32) << 15,
    }
}

fn constant(chance: &mut Chance) -> Constant {
    let tag = if chance.one_in(80) { chance.byte() } else { chance.of(&TAGS) };
    match tag {
        3 | 19 => {
            let value = if chance.one_in(2) { chance.of(&ODD_FLOATS) } else { chance.number() };
            Constant::Plain(tag, value.to_le_bytes().to_vec())
        }
        4 | 20 => Constant::String(tag, name(chance)),
        _ => Constant::Plain(tag, Vec::new()),
    }
}

fn delta(chance: &mut Chance) -> u8 {
    if chance.one_in(6) {
        return chance.byte();
    }
    chance.of(&[0, 1, 1, 2, 0xff, 0x7f, 0x81, 0x80, 0x80])
}

/// Deltas and anchors: now and then as many anchors as instructions, or more deltas.
fn lines(chance: &mut Chance, made: &mut Made) {
    let words = made.words.len();
    let deltas = match chance.below(4) {
        0 => 0,
        1 => words,
        _ => chance.below(words + 4),
    };
    made.deltas = (0..deltas).map(|_| delta(chance)).collect();
    let anchors = match chance.below(5) {
        0 | 1 => 0,
        2 => words,
        _ => chance.below(5),
    };
    let rising = chance.one_in(2);
    let mut last = 0;
    made.anchors = (0..anchors)
        .map(|_| {
            let pc = if chance.one_in(20) { odd_number(chance) } else { chance.below(deltas + 2) as u64 };
            last = if rising { last + chance.below(3) as u64 } else { pc };
            [last, line(chance)]
        })
        .collect();
}

/// A function whose nested ones are given.
pub fn function(chance: &mut Chance, nested: Vec<Made>) -> Made {
    let mut made = Made {
        source: name(chance),
        lines: [line(chance), odd_number(chance)],
        bytes: [chance.below(4) as u8, chance.of(&[0, 1, 255]), chance.of(&[0, 1, 2, 3, 254, 255])],
        constants: some(chance, 4, constant),
        upvalues: some(chance, 3, |chance| [chance.of(&[0, 1, 255]), chance.byte(), chance.of(&[0, 1, 2, 255])]),
        nested,
        locals: some(chance, 3, |chance| (name(chance), [odd_number(chance), odd_number(chance)])),
        names: some(chance, 4, name),
        ..Made::default()
    };
    let count = if chance.one_in(3) {
        0
    } else if chance.one_in(12) {
        chance.below(30)
    } else {
        chance.below(7)
    };
    made.words = (0..count).map(|pc| word(chance, &made, pc, count)).collect();
    lines(chance, &mut made);
    if chance.one_in(60) {
        let claimed = [
            made.words.len(),
            made.constants.len(),
            made.upvalues.len(),
            made.nested.len(),
            made.deltas.len(),
            made.anchors.len(),
        ];
        let which = chance.below(8);
        let count = claimed.get(which).copied().unwrap_or(0) as u64;
        let int = chance.of(&INTS);
        made.claim = Some((
            which,
            chance.of(&[
                count + 1,
                count + 1,
                count.saturating_sub(1),
                count + 5,
                1 << 24,
                (1 << 24) + 1,
                1 << 40,
                int,
                LARGEST,
            ]),
        ));
    }
    made
}

/// A function in which one list is long. 256 upvalues are 0 in byte 31 of the copy.
pub fn long_function(chance: &mut Chance) -> Made {
    let mut made = function(chance, Vec::new());
    let count = chance.of(&[126, 127, 128, 129, 254, 255, 256, 257, 400, 1000, 3000]);
    match chance.below(8) {
        0 => made.words = (0..count).map(|pc| word(chance, &made, pc, count)).collect(),
        1 => made.constants = (0..count).map(|_| constant(chance)).collect(),
        2 => made.upvalues = (0..count).map(|_| [chance.byte(), 0, 0]).collect(),
        3 => made.nested = (0..count).map(|_| tiny(chance)).collect(),
        4 => made.deltas = (0..count).map(|_| delta(chance)).collect(),
        5 => made.anchors = (0..count).map(|pc| [pc as u64, line(chance)]).collect(),
        6 => made.locals = (0..count).map(|_| (name(chance), [odd_number(chance), 0])).collect(),
        _ => made.names = (0..count).map(|_| name(chance)).collect(),
    }
    made
}

/// The smallest function.
fn tiny(chance: &mut Chance) -> Made {
    Made { bytes: [0, 0, chance.below(3) as u8], ..Made::default() }
}

/// Few, so that a function often has its parent's: an empty one, two of one length, and two of more than 40 bytes, which Lua keeps apart.
const SOURCES: [&str; 6] = [
    "",
    "a",
    "b",
    "ab",
    "@a source of more than forty bytes, and of one",
    "@a source of more than forty bytes, and of two",
];

fn few_sources(chance: &mut Chance, made: &mut Made) {
    made.source = (!chance.one_in(3)).then(|| chance.of(&SOURCES).as_bytes().to_vec());
    for nested in &mut made.nested {
        few_sources(chance, nested);
    }
}

/// A tree of functions, one in three of them with few sources.
pub fn tree(chance: &mut Chance) -> Made {
    let mut made = any_tree(chance);
    if chance.one_in(3) {
        few_sources(chance, &mut made);
    }
    made
}

/// One function, a few, a chain, or many small ones.
fn any_tree(chance: &mut Chance) -> Made {
    match chance.below(40) {
        0..=19 => function(chance, Vec::new()),
        20..=36 => {
            let depth = chance.of(&[1, 1, 1, 2, 2, 3]);
            branches(chance, depth)
        }
        37 => {
            // Mostly about as deep as may be, and now and then far deeper.
            let depth = match chance.below(20) {
                0 => 195 + chance.below(8),
                1..=9 => NESTING_CEILING - 2 + chance.below(5),
                _ => 3 + chance.below(NESTING_CEILING - 3),
            };
            (0..depth).fold(tiny(chance), |inner, _| {
                if chance.one_in(4) {
                    function(chance, vec![inner])
                } else {
                    Made { nested: vec![inner], ..tiny(chance) }
                }
            })
        }
        38 => {
            let many = (0..chance.below(40)).map(|_| tiny(chance)).collect();
            function(chance, many)
        }
        _ => {
            let many = (0..chance.below(6)).map(|_| {
                let inner = (0..chance.below(4)).map(|_| tiny(chance)).collect();
                Made { nested: inner, ..tiny(chance) }
            });
            Made { nested: many.collect(), ..tiny(chance) }
        }
    }
}

fn branches(chance: &mut Chance, depth: usize) -> Made {
    let count = if depth == 0 { 0 } else { chance.of(&[0, 1, 1, 2]) };
    let nested = (0..count).map(|_| branches(chance, depth - 1)).collect();
    function(chance, nested)
}
