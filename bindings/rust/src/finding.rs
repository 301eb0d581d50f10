//! Validation: the verdict on a chunk, and what was found in it.
use std::fmt;

/// The verdict on a chunk.
#[derive(Debug, Clone, Copy, PartialEq, Eq, Hash)]
pub enum Verdict {
    /// No error was found.
    ValidForAnalysis,
    /// An error was found.
    Invalid,
    /// No error was found before validation stopped, at 10,000 findings.
    Incomplete,
}

impl Verdict {
    pub(crate) fn of_number(number: u64) -> Verdict {
        match number {
            0 => Verdict::ValidForAnalysis,
            1 => Verdict::Invalid,
            2 => Verdict::Incomplete,
            other => unreachable!("the library's verdicts are 0, 1 and 2, not {other}"),
        }
    }
}

impl fmt::Display for Verdict {
    fn fmt(&self, f: &mut fmt::Formatter<'_>) -> fmt::Result {
        f.write_str(match self {
            Verdict::ValidForAnalysis => "valid-for-analysis",
            Verdict::Invalid => "invalid",
            Verdict::Incomplete => "incomplete",
        })
    }
}

/// The rule that an instruction breaks, with the number that breaks it. There will be more of them.
#[derive(Debug, Clone, Copy, PartialEq, Eq, Hash)]
#[non_exhaustive]
pub enum Rule {
    /// There is no such opcode.
    Opcode(u8),
    /// The register is not below the stack size.
    Register(u8),
    /// There is no such constant.
    Constant(u32),
    /// There is no such upvalue.
    Upvalue(u8),
    /// There is no such upvalue, in an access to a table.
    TableUpvalue(u8),
    /// There is no such nested function.
    Prototype(u32),
    /// The jump's target is outside the function.
    Jump(i64),
}

/// How bad a finding is.
#[derive(Debug, Clone, Copy, PartialEq, Eq, Hash)]
pub enum Severity {
    /// It makes the chunk invalid.
    Error,
    /// It does not.
    Warning,
}

impl fmt::Display for Severity {
    fn fmt(&self, f: &mut fmt::Formatter<'_>) -> fmt::Result {
        f.write_str(match self {
            Severity::Error => "error",
            Severity::Warning => "warning",
        })
    }
}

impl Rule {
    fn of_numbers(rule: u64, number: u64) -> Rule {
        match rule {
            1 => Rule::Opcode(number as u8),
            2 => Rule::Register(number as u8),
            3 => Rule::Constant(number as u32),
            4 => Rule::Upvalue(number as u8),
            5 => Rule::TableUpvalue(number as u8),
            6 => Rule::Prototype(number as u32),
            7 => Rule::Jump(number as i64),
            other => unreachable!("the library's rules are 1 to 7, not {other}"),
        }
    }

    /// The rule's name.
    pub const fn name(&self) -> &'static str {
        match self {
            Rule::Opcode(_) => "OPCODE-001",
            Rule::Register(_) => "REG-001",
            Rule::Constant(_) => "CONST-001",
            Rule::Upvalue(_) => "UPVAL-001",
            Rule::TableUpvalue(_) => "UPVAL-002",
            Rule::Prototype(_) => "PROTO-001",
            Rule::Jump(_) => "JUMP-001",
        }
    }

    /// The number that breaks it: an opcode, a register, an index or a jump's target.
    pub fn number(&self) -> i64 {
        match *self {
            Rule::Opcode(n) | Rule::Register(n) | Rule::Upvalue(n) | Rule::TableUpvalue(n) => n.into(),
            Rule::Constant(n) | Rule::Prototype(n) => n.into(),
            Rule::Jump(target) => target,
        }
    }

    /// Registers are warned of; all else is an error.
    pub const fn severity(&self) -> Severity {
        match self {
            Rule::Register(_) => Severity::Warning,
            _ => Severity::Error,
        }
    }

    /// What is wrong, in words that its number completes.
    pub const fn why(&self) -> &'static str {
        match self {
            Rule::Opcode(_) => "there is no opcode",
            Rule::Register(_) => "beyond the stack is register",
            Rule::Constant(_) => "there is no constant",
            Rule::Upvalue(_) | Rule::TableUpvalue(_) => "there is no upvalue",
            Rule::Prototype(_) => "there is no nested function",
            Rule::Jump(_) => "outside the function is the jump's target",
        }
    }
}

/// An instruction that breaks a rule: its function's number, its own in it, and the rule.
#[derive(Debug, Clone, Copy, PartialEq, Eq, Hash)]
#[allow(missing_docs)]
pub struct Finding {
    pub function: usize,
    pub pc: usize,
    pub rule: Rule,
}

impl Finding {
    pub(crate) fn of_numbers([function, pc, rule, number]: [u64; 4]) -> Finding {
        Finding { function: function as usize, pc: pc as usize, rule: Rule::of_numbers(rule, number) }
    }
}

impl fmt::Display for Finding {
    fn fmt(&self, f: &mut fmt::Formatter<'_>) -> fmt::Result {
        let rule = self.rule;
        write!(
            f,
            "{} in function {} at pc {}: {} {} ({})",
            rule.severity(),
            self.function,
            self.pc,
            rule.why(),
            rule.number(),
            rule.name()
        )
    }
}
