// Instruction words. The Rust masks fields that are out of range; the harness refuses them, 27, and words without an opcode, 28.
use crate::refusals::Refusal;
use crate::text::put;
use luad_dialect_lua54::opcodes::{OpMode54, RawInstruction54};

/// The answer to `word`: every field, and the word encoded from them.
pub fn put_word(out: &mut String, word: u32) {
    let raw = RawInstruction54::decode(word);
    let mode = raw.opcode.map_or("-", |opcode| mode_name(opcode.mode()));
    put!(out, "word {word:08x} op {} mode {mode}", raw.opcode_num);
    put!(out, " a {} k {} b {} sb {} c {} sc {}", raw.a, raw.k, raw.b, raw.sb, raw.c, raw.sc);
    put!(out, " bx {} sbx {} ax {} sj {} encode ", raw.bx, raw.sbx, raw.ax, raw.sj);
    put_encoding(out, raw);
}

/// The answer to `enc`.
pub fn put_encoded(out: &mut String, fields: RawInstruction54) {
    out.push_str("enc ");
    put_encoding(out, fields);
}

fn put_encoding(out: &mut String, fields: RawInstruction54) {
    match encode(fields) {
        Ok(word) => put!(out, "{word:08x}"),
        Err(refusal) => refusal.put(out),
    }
    out.push('\n');
}

/// The word of these fields, or refusal 28 or 27.
pub fn encode(fields: RawInstruction54) -> Result<u32, Refusal> {
    let opcode = fields.opcode.ok_or(Refusal::without_place(28))?;
    if !in_range(opcode.mode(), &fields) {
        return Err(Refusal::without_place(27));
    }
    fields.encode().ok_or(Refusal::without_place(28))
}

/// Whether each field that the mode uses fits its bits. A, B and C are bytes and always do.
fn in_range(mode: OpMode54, fields: &RawInstruction54) -> bool {
    match mode {
        OpMode54::IABC => fields.k <= 1,
        OpMode54::IABx => fields.bx < 131_072,
        OpMode54::IAsBx => (-65_535..=65_536).contains(&fields.sbx),
        OpMode54::IAx => fields.ax < 1 << 25,
        OpMode54::IsJ => (-16_777_215..=16_777_216).contains(&fields.sj),
    }
}

fn mode_name(mode: OpMode54) -> &'static str {
    match mode {
        OpMode54::IABC => "iABC",
        OpMode54::IABx => "iABx",
        OpMode54::IAsBx => "iAsBx",
        OpMode54::IAx => "iAx",
        OpMode54::IsJ => "isJ",
    }
}
