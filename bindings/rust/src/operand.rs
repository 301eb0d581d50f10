//! What the operands of an instruction are: which fields an opcode uses, and what for (lopcodes.h).
use crate::word::Instruction;

/// A field of an instruction word.
#[derive(Debug, Clone, Copy, PartialEq, Eq, Hash)]
#[allow(missing_docs)]
pub enum Field {
    A,
    K,
    B,
    SB,
    C,
    SC,
    Bx,
    SBx,
    Ax,
    SJ,
}

impl Field {
    /// Its name in lopcodes.h.
    pub const fn name(&self) -> &'static str {
        match self {
            Field::A => "A",
            Field::K => "k",
            Field::B => "B",
            Field::SB => "sB",
            Field::C => "C",
            Field::SC => "sC",
            Field::Bx => "Bx",
            Field::SBx => "sBx",
            Field::Ax => "Ax",
            Field::SJ => "sJ",
        }
    }
}

/// What an operand is.
#[derive(Debug, Clone, Copy, PartialEq, Eq, Hash)]
#[non_exhaustive]
pub enum OperandKind {
    /// A register that the instruction sets.
    Target,
    /// A register that it uses.
    Register,
    /// A constant of the function, by its number.
    Constant,
    /// A constant where k is 1, else a register. Of an instruction's operands none is of this kind: they are told apart.
    RegisterOrConstant,
    /// An upvalue of the function, by its number.
    Upvalue,
    /// A function nested in this one: 0 is the first of them.
    Function,
    /// A number that stands for itself.
    Number,
    /// How many: registers, values, or entries of a table, in the opcode's own way of counting.
    Count,
    /// Which metamethod.
    Event,
    /// The bit k.
    Flag,
    /// How far it jumps, in the opcode's own way of counting ([`Instruction::jump_target`] tells where to).
    Jump,
}

impl OperandKind {
    /// Its name, in small letters.
    pub const fn name(&self) -> &'static str {
        match self {
            OperandKind::Target => "target",
            OperandKind::Register => "register",
            OperandKind::Constant => "constant",
            OperandKind::RegisterOrConstant => "register or constant",
            OperandKind::Upvalue => "upvalue",
            OperandKind::Function => "function",
            OperandKind::Number => "number",
            OperandKind::Count => "count",
            OperandKind::Event => "event",
            OperandKind::Flag => "flag",
            OperandKind::Jump => "jump",
        }
    }
}

/// An operand of an instruction: the field that it is in, what it is, its value.
#[derive(Debug, Clone, Copy, PartialEq, Eq, Hash)]
#[allow(missing_docs)]
pub struct Operand {
    pub field: Field,
    pub kind: OperandKind,
    pub value: i64,
}

type Kinds = &'static [(Field, OperandKind)];

/// The operands of each opcode, in the order in which luac prints them, by its number.
const KINDS: [Kinds; 83] = {
    use Field::*;
    use OperandKind::{
        Constant, Count, Event, Flag, Function, Jump, Number, Register, RegisterOrConstant, Target, Upvalue,
    };
    const TARGET: Kinds = &[(A, Target)];
    const REGISTER: Kinds = &[(A, Register)];
    const ONE: Kinds = &[(A, Target), (B, Register)];
    const TWO: Kinds = &[(A, Target), (B, Register), (C, Register)];
    const WITH_CONSTANT: Kinds = &[(A, Target), (B, Register), (C, Constant)];
    const WITH_NUMBER: Kinds = &[(A, Target), (B, Register), (SC, Number)];
    const COMPARE: Kinds = &[(A, Register), (B, Register), (K, Flag)];
    const COMPARE_NUMBER: Kinds = &[(A, Register), (SB, Number), (K, Flag)];
    const SIZES: Kinds = &[(A, Target), (B, Count), (C, Count), (K, Flag)];
    const LOOP: Kinds = &[(A, Target), (Bx, Jump)];
    [
        ONE,                                                      // MOVE
        &[(A, Target), (SBx, Number)],                            // LOADI
        &[(A, Target), (SBx, Number)],                            // LOADF
        &[(A, Target), (Bx, Constant)],                           // LOADK
        TARGET,                                                   // LOADKX
        TARGET,                                                   // LOADFALSE
        TARGET,                                                   // LFALSESKIP
        TARGET,                                                   // LOADTRUE
        &[(A, Target), (B, Count)],                               // LOADNIL
        &[(A, Target), (B, Upvalue)],                             // GETUPVAL
        &[(A, Register), (B, Upvalue)],                           // SETUPVAL
        &[(A, Target), (B, Upvalue), (C, Constant)],              // GETTABUP
        TWO,                                                      // GETTABLE
        &[(A, Target), (B, Register), (C, Number)],               // GETI
        WITH_CONSTANT,                                            // GETFIELD
        &[(A, Upvalue), (B, Constant), (C, RegisterOrConstant)],  // SETTABUP
        &[(A, Register), (B, Register), (C, RegisterOrConstant)], // SETTABLE
        &[(A, Register), (B, Number), (C, RegisterOrConstant)],   // SETI
        &[(A, Register), (B, Constant), (C, RegisterOrConstant)], // SETFIELD
        SIZES,                                                    // NEWTABLE
        &[(A, Target), (B, Register), (C, RegisterOrConstant)],   // SELF
        WITH_NUMBER,                                              // ADDI
        WITH_CONSTANT,                                            // ADDK
        WITH_CONSTANT,                                            // SUBK
        WITH_CONSTANT,                                            // MULK
        WITH_CONSTANT,                                            // MODK
        WITH_CONSTANT,                                            // POWK
        WITH_CONSTANT,                                            // DIVK
        WITH_CONSTANT,                                            // IDIVK
        WITH_CONSTANT,                                            // BANDK
        WITH_CONSTANT,                                            // BORK
        WITH_CONSTANT,                                            // BXORK
        WITH_NUMBER,                                              // SHRI
        WITH_NUMBER,                                              // SHLI
        TWO,                                                      // ADD
        TWO,                                                      // SUB
        TWO,                                                      // MUL
        TWO,                                                      // MOD
        TWO,                                                      // POW
        TWO,                                                      // DIV
        TWO,                                                      // IDIV
        TWO,                                                      // BAND
        TWO,                                                      // BOR
        TWO,                                                      // BXOR
        TWO,                                                      // SHL
        TWO,                                                      // SHR
        &[(A, Register), (B, Register), (C, Event)],              // MMBIN
        &[(A, Register), (SB, Number), (C, Event), (K, Flag)],    // MMBINI
        &[(A, Register), (B, Constant), (C, Event), (K, Flag)],   // MMBINK
        ONE,                                                      // UNM
        ONE,                                                      // BNOT
        ONE,                                                      // NOT
        ONE,                                                      // LEN
        &[(A, Target), (B, Count)],                               // CONCAT
        REGISTER,                                                 // CLOSE
        REGISTER,                                                 // TBC
        &[(SJ, Jump)],                                            // JMP
        COMPARE,                                                  // EQ
        COMPARE,                                                  // LT
        COMPARE,                                                  // LE
        &[(A, Register), (B, Constant), (K, Flag)],               // EQK
        COMPARE_NUMBER,                                           // EQI
        COMPARE_NUMBER,                                           // LTI
        COMPARE_NUMBER,                                           // LEI
        COMPARE_NUMBER,                                           // GTI
        COMPARE_NUMBER,                                           // GEI
        &[(A, Register), (K, Flag)],                              // TEST
        &[(A, Target), (B, Register), (K, Flag)],                 // TESTSET
        &[(A, Target), (B, Count), (C, Count)],                   // CALL
        SIZES,                                                    // TAILCALL
        &[(A, Register), (B, Count), (C, Count), (K, Flag)],      // RETURN
        &[],                                                      // RETURN0
        REGISTER,                                                 // RETURN1
        LOOP,                                                     // FORLOOP
        LOOP,                                                     // FORPREP
        &[(A, Register), (Bx, Jump)],                             // TFORPREP
        &[(A, Register), (C, Count)],                             // TFORCALL
        LOOP,                                                     // TFORLOOP
        &[(A, Register), (B, Count), (C, Count), (K, Flag)],      // SETLIST
        &[(A, Target), (Bx, Function)],                           // CLOSURE
        &[(A, Target), (C, Count)],                               // VARARG
        &[(A, Count)],                                            // VARARGPREP
        &[(Ax, Number)],                                          // EXTRAARG
    ]
};

/// The fields that an opcode uses, each with what it is, in the order in which luac prints them; none where there is no such opcode.
///
/// ```
/// use lafzimdo::{operand_kinds, Field, OperandKind};
///
/// assert_eq!(operand_kinds(3), [(Field::A, OperandKind::Target), (Field::Bx, OperandKind::Constant)]); // LOADK
/// assert_eq!(operand_kinds(83), []);
/// ```
pub fn operand_kinds(opcode: u8) -> &'static [(Field, OperandKind)] {
    KINDS.get(usize::from(opcode)).copied().unwrap_or(&[])
}

impl Instruction {
    /// The value of a field.
    pub fn field(&self, field: Field) -> i64 {
        match field {
            Field::A => self.a.into(),
            Field::K => self.k.into(),
            Field::B => self.b.into(),
            Field::SB => self.sb.into(),
            Field::C => self.c.into(),
            Field::SC => self.sc.into(),
            Field::Bx => self.bx.into(),
            Field::SBx => self.sbx.into(),
            Field::Ax => self.ax.into(),
            Field::SJ => self.sj.into(),
        }
    }

    /// Its operands: the fields that its opcode uses, in the order in which luac prints them.
    ///
    /// ```
    /// use lafzimdo::{decode, Field, Operand, OperandKind};
    ///
    /// let operands: Vec<Operand> = decode(0x7fff0081).operands().collect(); // LOADI 1 -1
    /// assert_eq!(operands[0], Operand { field: Field::A, kind: OperandKind::Target, value: 1 });
    /// assert_eq!(operands[1], Operand { field: Field::SBx, kind: OperandKind::Number, value: -1 });
    /// ```
    pub fn operands(&self) -> impl Iterator<Item = Operand> {
        let instruction = *self;
        operand_kinds(self.opcode).iter().map(move |&(field, kind)| {
            let kind = match (kind, instruction.k) {
                (OperandKind::RegisterOrConstant, 1) => OperandKind::Constant,
                (OperandKind::RegisterOrConstant, _) => OperandKind::Register,
                _ => kind,
            };
            Operand { field, kind, value: instruction.field(field) }
        })
    }

    /// Where it jumps to, as the instruction number `pc` of its function: of JMP and of the four that make loops (for FORPREP the exit of the loop). It may be outside of the function.
    pub fn jump_target(&self, pc: usize) -> Option<i64> {
        let (pc, bx) = (pc as i64, i64::from(self.bx));
        match self.name()? {
            "JMP" => Some(pc + 1 + i64::from(self.sj)),
            "FORLOOP" | "TFORLOOP" => Some(pc + 1 - bx),
            "FORPREP" => Some(pc + 2 + bx),
            "TFORPREP" => Some(pc + 1 + bx),
            _ => None,
        }
    }

    /// Whether the instruction behind it may be skipped: tests, and LFALSESKIP, which always does.
    pub fn skips(&self) -> bool {
        matches!(
            self.name(),
            Some(
                "LFALSESKIP" | "EQ" | "LT" | "LE" | "EQK" | "EQI" | "LTI" | "LEI" | "GTI" | "GEI" | "TEST" | "TESTSET"
            )
        )
    }
}

#[cfg(test)]
mod tests {
    use super::*;
    use crate::word::{decode, Mode};

    /// Each opcode's operands are in fields of its own mode, each field once.
    #[test]
    fn fields_are_of_the_mode() {
        for opcode in 0..=127 {
            let mode = decode(opcode).mode;
            let kinds = operand_kinds(opcode as u8);
            assert_eq!(mode.is_none(), opcode > 82);
            assert!(mode.is_some() || kinds.is_empty());
            for (at, (field, _)) in kinds.iter().enumerate() {
                use Field::*;
                let fits = match mode.unwrap() {
                    Mode::IABC => matches!(field, A | K | B | SB | C | SC),
                    Mode::IABx => matches!(field, A | Bx),
                    Mode::IAsBx => matches!(field, A | SBx),
                    Mode::IAx => matches!(field, Ax),
                    Mode::IsJ => matches!(field, SJ),
                };
                assert!(fits, "{opcode}: {field:?}");
                assert!(kinds[..at].iter().all(|(other, _)| other != field), "{opcode}: {field:?}");
            }
        }
    }

    #[test]
    fn a_register_or_a_constant() {
        let setfield = decode(18 | 3 << 7 | 1 << 16 | 2 << 24);
        let kinds = |word| decode(word).operands().map(|operand| operand.kind).collect::<Vec<_>>();
        assert_eq!(setfield.name(), Some("SETFIELD"));
        assert_eq!(kinds(18), [OperandKind::Register, OperandKind::Constant, OperandKind::Register]);
        assert_eq!(kinds(18 | 1 << 15), [OperandKind::Register, OperandKind::Constant, OperandKind::Constant]);
        assert_eq!(setfield.operands().map(|operand| operand.value).collect::<Vec<_>>(), [3, 1, 2]);
    }

    #[test]
    fn targets() {
        assert_eq!(decode(0x7fff_ff38).jump_target(0), Some(0)); // JMP -1
        assert_eq!(decode(73 | 2 << 15).jump_target(10), Some(9)); // FORLOOP
        assert_eq!(decode(74 | 2 << 15).jump_target(10), Some(14)); // FORPREP
        assert_eq!(decode(75 | 2 << 15).jump_target(10), Some(13)); // TFORPREP
        assert_eq!(decode(77 | 20 << 15).jump_target(10), Some(-9)); // TFORLOOP
        assert_eq!(decode(0).jump_target(10), None);
        assert_eq!(decode(0x7f).jump_target(10), None);
    }
}
