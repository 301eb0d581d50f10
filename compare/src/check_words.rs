// Instruction words: by chance, with fields at the ends of their ranges and beyond, decoded and encoded.
use crate::calls::{lafzimdo_decode, lafzimdo_encode};
use crate::chance::Chance;
use crate::check::{judge, Asked};
use crate::difference::Difference;
use crate::lender::coded;
use crate::words::encode;
use luad_dialect_lua54::opcodes::{OpMode54, Opcode54, RawInstruction54};

const WORDS: usize = 3;
const EDGES: [i64; 12] = [0, 1, 126, 127, 128, 254, 255, 65_534, 65_535, 65_536, 131_070, 131_071];
const ENDS: [i64; 12] = [
    131_072,
    16_777_214,
    16_777_215,
    16_777_216,
    16_777_217,
    33_554_430,
    33_554_431,
    33_554_432,
    65_537,
    2_147_483_647,
    2_147_483_648,
    4_294_967_295,
];

pub fn words(asked: &mut Asked) -> Result<(), Difference> {
    for _ in 0..WORDS {
        let word = word(&mut asked.chance);
        asked.tally.words += 2;
        let fields = decoded(asked, word)?;
        encoded(asked, fields)?;
        let fields = fields_by_chance(&mut asked.chance);
        encoded(asked, fields)?;
    }
    Ok(())
}

fn word(chance: &mut Chance) -> u32 {
    let word = chance.number() as u32;
    match chance.below(4) {
        // Most numbers have no opcode.
        0 => word,
        1 => word & !0x7f | chance.below(83) as u32,
        2 => chance.below(128) as u32 | (field(chance) as u32) << 15,
        _ => chance.below(128) as u32 | (field(chance) as u32) << 7,
    }
}

/// A number near the end of some field.
fn field(chance: &mut Chance) -> i64 {
    match chance.below(4) {
        0 => chance.number() as u32 as i64,
        1 => chance.of(&ENDS),
        _ => chance.of(&EDGES),
    }
}

fn fields_by_chance(chance: &mut Chance) -> RawInstruction54 {
    let opcode_num = match chance.below(6) {
        0 => chance.byte(),
        1 | 2 => chance.below(84) as u8,
        _ => chance.of(&[0, 1, 2, 3, 4, 56, 73, 79, 82]),
    };
    let signed = |chance: &mut Chance| {
        if chance.one_in(2) {
            field(chance) as i32
        } else {
            (field(chance) as i32).wrapping_neg()
        }
    };
    let (b, c) = (chance.byte(), chance.byte());
    RawInstruction54 {
        opcode_num,
        opcode: Opcode54::from_u8(opcode_num),
        a: chance.byte(),
        k: chance.of(&[0, 0, 1, 1, 2, 255]),
        b,
        sb: i32::from(b) - RawInstruction54::OFFSET_SB,
        c,
        sc: i32::from(c) - RawInstruction54::OFFSET_SC,
        bx: field(chance) as u32,
        sbx: signed(chance),
        ax: field(chance) as u32,
        sj: signed(chance),
    }
}

fn mode_number(opcode: Option<Opcode54>) -> u64 {
    match opcode.map(Opcode54::mode) {
        Some(OpMode54::IABC) => 0,
        Some(OpMode54::IABx) => 1,
        Some(OpMode54::IAsBx) => 2,
        Some(OpMode54::IAx) => 3,
        Some(OpMode54::IsJ) => 4,
        None => 5,
    }
}

/// The numbers of `lafzimdo_decode`.
pub fn numbers(raw: &RawInstruction54) -> [u64; 12] {
    let signed = |value: i32| i64::from(value) as u64;
    [
        u64::from(raw.opcode_num),
        mode_number(raw.opcode),
        u64::from(raw.a),
        u64::from(raw.k),
        u64::from(raw.b),
        signed(raw.sb),
        u64::from(raw.c),
        signed(raw.sc),
        u64::from(raw.bx),
        signed(raw.sbx),
        u64::from(raw.ax),
        signed(raw.sj),
    ]
}

fn decoded(asked: &mut Asked, word: u32) -> Result<RawInstruction54, Difference> {
    let raw = RawInstruction54::decode(word);
    asked
        .lender
        .agree("lafzimdo_decode", &[u64::from(word)], Ok(numbers(&raw)), |out| unsafe { lafzimdo_decode(word, out) })?;
    Ok(raw)
}

fn encoded(asked: &mut Asked, fields: RawInstruction54) -> Result<(), Difference> {
    let RawInstruction54 { opcode_num: op, a, k, b, c, bx, sbx, ax, sj, .. } = fields;
    let expected = judge("the Rust's encoding", || encode(fields))?;
    if let Err(refusal) = &expected {
        asked.tally.refused(refusal.number);
    }
    let expected = expected.map(|word| [u64::from(word)]).map_err(coded);
    let at = [
        u64::from(op),
        u64::from(a),
        u64::from(k),
        u64::from(b),
        u64::from(c),
        u64::from(bx),
        sbx as u64,
        u64::from(ax),
        sj as u64,
    ];
    asked
        .lender
        .agree("lafzimdo_encode", &at, expected, |out| unsafe { lafzimdo_encode(op, a, k, b, c, bx, sbx, ax, sj, out) })
}
