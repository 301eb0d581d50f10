// The cases of a run: which kind each is, by its number and the seed alone.
use crate::bounds::{limits, CEILINGS};
use crate::case::{Case, Limits};
use crate::chance::Chance;
use crate::damage::hurt;
use crate::functions_made::{long_function, tree};
use crate::make::{number, Made, Padding, Spelling, FORMAT, HEADER, LARGEST};

/// One in so many stands near 10,000 findings: such a case takes long.
const STOPS: usize = 2000;
/// One in so many has a list of hundreds or thousands of entries.
const LONG: usize = 400;
/// One in so many has an odd format and something else that is wrong in the header.
const ODD_HEADERS: usize = 200;
const LONGEST_KEPT: usize = 4000;
const MOST_FINDINGS: usize = 10_000;
/// MOVE and LOADK of a register beyond a stack of 2; LOADK's constant is not there either.
const WARNED: u32 = 9 << 7;
const TWICE: u32 = 9 << 7 | 3;
const NO_OPCODE: u32 = 0x53;

pub struct Cases {
    seed: u64,
    /// What luac made of the samples.
    real: Vec<Vec<u8>>,
    /// The kept chunks, with their limits.
    kept: Vec<(Vec<u8>, Limits)>,
}

impl Cases {
    /// From the texts of oracle/samples/compiled.txt and crates/vectors/stdin.
    pub fn new(seed: u64, compiled: &str, requests: &str) -> Cases {
        let lines = compiled.lines().filter(|line| !line.starts_with('#'));
        let mut real: Vec<Vec<u8>> = lines.map(last_word).collect();
        // Short ones are drawn more often.
        real.sort_by_key(Vec::len);
        let kept = kept(requests).into_iter().filter(|(chunk, _)| chunk.len() <= LONGEST_KEPT).collect();
        Cases { seed, real, kept }
    }

    pub fn case(&self, index: u64) -> Case {
        let mut chance = Chance::of_case(self.seed, index);
        let ask = chance.number();
        if chance.one_in(STOPS) {
            return Case { chunk: near_the_stop(&mut chance), limits: stop_limits(&mut chance), ask };
        }
        if chance.one_in(LONG) {
            let chunk = long(&mut chance);
            return Case { limits: limits(&mut chance, &chunk), chunk, ask };
        }
        if chance.one_in(ODD_HEADERS) {
            let chunk = odd_header(&mut chance);
            return Case { limits: limits(&mut chance, &chunk), chunk, ask };
        }
        let mut own = None;
        let mut chunk = match chance.below(40) {
            0..=3 => self.real(&mut chance),
            4 => far_deltas(&mut chance),
            5 | 6 => {
                let (chunk, limits) = &self.kept[chance.below(self.kept.len())];
                own = Some(*limits);
                chunk.clone()
            }
            _ => made(&mut chance),
        };
        if chance.below(100) < 38 {
            hurt(&mut chance, &mut chunk);
        }
        let drawn = limits(&mut chance, &chunk);
        Case { limits: own.filter(|_| chance.one_in(2)).unwrap_or(drawn), chunk, ask }
    }

    fn real(&self, chance: &mut Chance) -> Vec<u8> {
        let end = chance.of(&[20, 20, 40, 40, 60, self.real.len()]).min(self.real.len());
        self.real[chance.below(end)].clone()
    }
}

/// Each chunk that the kept lines ask about in full, with its limits: such a one has a line `m`.
fn kept(requests: &str) -> Vec<(Vec<u8>, Limits)> {
    let (mut chunk, mut limits, mut found) = (Vec::new(), CEILINGS, Vec::new());
    for line in requests.lines() {
        match line.split(' ').next() {
            Some("limits") => limits = last_numbers(line),
            Some("chunk") => chunk = last_word(line),
            Some("m") => found.push((chunk.clone(), limits)),
            _ => {}
        }
    }
    found
}

/// The chunk at the end of a line.
fn last_word(line: &str) -> Vec<u8> {
    let word = line.rsplit(' ').next().expect("a chunk");
    hex::decode(word.trim_matches('-')).expect("hex")
}

/// The nine limits behind the word of a line.
fn last_numbers(line: &str) -> Limits {
    let mut words = line.split(' ').skip(1).map(|word| word.parse().expect("a limit"));
    std::array::from_fn(|_| words.next().expect("nine limits"))
}

fn spelt(chance: &mut Chance, main: &Made) -> Vec<u8> {
    let format = if chance.one_in(8) { chance.byte() } else { 0 };
    let byte_31 = if chance.one_in(2) { chance.byte() } else { main.upvalues.len() as u8 };
    let trailing = if chance.one_in(6) { (0..chance.below(6)).map(|_| chance.byte()).collect() } else { Vec::new() };
    // No number is padded, or many, or few.
    let one_in = chance.of(&[0, 0, 0, 0, 0, 0, 0, 2, 2, 12]);
    let mut spelling = Spelling::new(if one_in > 0 { Some(Padding { chance, one_in }) } else { None });
    spelling.bytes[FORMAT] = format;
    spelling.bytes.push(byte_31);
    spelling.function(main);
    spelling.bytes.extend(trailing);
    spelling.bytes
}

fn made(chance: &mut Chance) -> Vec<u8> {
    let main = tree(chance);
    spelt(chance, &main)
}

/// One list is long.
fn long(chance: &mut Chance) -> Vec<u8> {
    let main = long_function(chance);
    spelt(chance, &main)
}

/// Another format, and a byte of the header changed, or the file cut off there.
fn odd_header(chance: &mut Chance) -> Vec<u8> {
    let mut bytes = made(chance);
    bytes[FORMAT] = chance.of(&[0, 1, 2, 128, 255]);
    match chance.below(3) {
        0 => bytes.truncate(chance.of(&[FORMAT - 1, FORMAT, FORMAT + 1, FORMAT + 1, FORMAT + 2, HEADER.len()])),
        1 => bytes[chance.below(HEADER.len())] ^= 1 << chance.below(8),
        _ => {}
    }
    bytes
}

/// A run of deltas that ends near 2^64: cut short, or refusal 2.
fn far_deltas(chance: &mut Chance) -> Vec<u8> {
    let main = tree(chance);
    let mut bytes = spelt(
        chance,
        &Made { names: Vec::new(), locals: Vec::new(), anchors: Vec::new(), deltas: Vec::new(), claim: None, ..main },
    );
    // The last four counts are one byte each, or more where they are padded: then this is mere damage.
    bytes.truncate(bytes.len().saturating_sub(4));
    let place = chance.of(&[100, 127, 128, 129, 129, 130, 150, 200]);
    let begins = bytes.len() + 10;
    bytes.resize(bytes.len() + usize::saturating_sub(place, begins), 0);
    number(&mut bytes, LARGEST - chance.of(&[0, 0, 0, 1, 2, 72]));
    bytes.extend([0x80; 4]);
    bytes
}

/// About 10,000 findings, by warnings alone or with errors, and something or nothing behind them.
fn near_the_stop(chance: &mut Chance) -> Vec<u8> {
    let word = chance.of(&[WARNED, WARNED, TWICE]);
    let each = if word == TWICE { 2 } else { 1 };
    let count = MOST_FINDINGS / each + 2 - chance.below(5);
    let mut words = vec![word; count];
    match chance.below(6) {
        0 => words.push(NO_OPCODE),
        1 => words.push(TWICE),
        2 => words.push(0),
        3 => words[chance.below(count)] = 0,
        4 => words[chance.below(count)] = TWICE,
        _ => {}
    }
    let stack = [0, 0, 2];
    let behind = if chance.one_in(2) {
        vec![Made { bytes: stack, words: vec![chance.of(&[0, NO_OPCODE, WARNED]); chance.below(3)], ..Made::default() }]
    } else {
        Vec::new()
    };
    let parts = chance.of(&[1, 1, 2, 10]);
    let rest = words.split_off(words.len() / parts);
    let share = words.len().max(1);
    let mut nested: Vec<Made> =
        rest.chunks(share).map(|words| Made { bytes: stack, words: words.to_vec(), ..Made::default() }).collect();
    nested.extend(behind);
    spelt(chance, &Made { bytes: stack, words, nested, ..Made::default() })
}

/// How many reading warnings are kept decides where validation stops.
fn stop_limits(chance: &mut Chance) -> [u64; 9] {
    let mut limits = CEILINGS;
    limits[8] = chance.of(&[0, 1, 2, 10_000, 10_000]);
    limits
}
