// The stricter reading (02, item 7), which the Rust does not have: a walk over its own reader, in the grammar's order, with 31, 32 and 33 where they belong. The self-test has wrong rules for it.
use crate::limits::admitted;
use crate::parts::Parts;
use crate::refusals::Refusal;
use luad_core::limits::ResourceLimits;
use luad_core::reader::SafeReader;
use luad_dialect_lua54::header::parse_header_lua54;

/// The least number that lundump.c does not take for an int.
const BOUND: u64 = (1 << 31) - 128;
const MAIN: usize = 32;
const FORMAT: usize = 5;

/// Wrong rules, each of which must be found; behind them the places of ints, each left out in turn.
pub const WRONG: [&str; 31] = [
    "the strict pass is left out",
    "INT_MAX for the bound",
    "2^31 - 128 is taken",
    "2^31 - 129 is not taken",
    "an int that is cut short is refused as C refuses it",
    "32 for an int that is 3",
    "the place behind the zeros of an int",
    "the limit comes before 32",
    "sizes of strings are ints",
    "33 for an absent source",
    "33 for the absent name of a local",
    "33 for the absent name of an upvalue",
    "a padded size of 0 is no 33",
    "33 at the tag",
    "31 behind 6 to 11",
    "31 only where the file goes on",
    "more names than upvalues are refused",
    "no int: the first line",
    "no int: the last line",
    "no int: the words",
    "no int: the constants",
    "no int: the upvalues",
    "no int: the nested functions",
    "no int: the deltas",
    "no int: the anchors",
    "no int: the pc of an anchor",
    "no int: the line of an anchor",
    "no int: the locals",
    "no int: the startpc of a local",
    "no int: the endpc of a local",
    "no int: the names",
];

/// Whether the stricter reading takes the chunk: 21 and 22 first.
pub fn walk(limits: &ResourceLimits, chunk: &[u8], wrong: Option<usize>) -> Result<(), Refusal> {
    let wrong = wrong.map_or("", |rule| WRONG[rule]);
    admitted(limits, chunk)?;
    if wrong == "the strict pass is left out" {
        return Ok(());
    }
    header(chunk, wrong)?;
    // Byte 31 says nothing, but must be there.
    Parts::at(chunk, limits, MAIN - 1)?.byte()?;
    let mut walk = Walk { parts: Parts::at(chunk, limits, MAIN)?, chunk, limits, wrong, words: 0, functions: 0 };
    walk.function(0)
}

fn refused(number: u8, place: usize) -> Refusal {
    Refusal { number, place: Some(place) }
}

/// The Rust's own header, with 31 where the bytes before the format pass.
fn header(chunk: &[u8], wrong: &str) -> Result<(), Refusal> {
    let parsed = parse_header_lua54(&mut SafeReader::new(chunk)).map(drop).map_err(|error| Refusal::of(&error));
    let odd = chunk.starts_with(b"\x1bLua\x54") && chunk.get(FORMAT).is_some_and(|format| *format != 0);
    let late = match wrong {
        "31 behind 6 to 11" => parsed.is_err(),
        "31 only where the file goes on" => chunk.len() == FORMAT + 1,
        _ => false,
    };
    if odd && !late {
        return Err(refused(31, FORMAT));
    }
    parsed
}

struct Walk<'a> {
    parts: Parts<'a>,
    chunk: &'a [u8],
    limits: &'a ResourceLimits,
    wrong: &'static str,
    /// Instructions and nested functions so far.
    words: u64,
    functions: usize,
}

impl Walk<'_> {
    fn place(&self) -> usize {
        self.parts.place() as usize
    }

    /// A number that lundump.c reads as an int; `what` it is.
    fn int(&mut self, what: &str) -> Result<u64, Refusal> {
        let first = self.place();
        let number = self.parts.number();
        if self.wrong.strip_prefix("no int: ") == Some(what) {
            return number;
        }
        let bound = match self.wrong {
            "INT_MAX for the bound" => i32::MAX as u64 + 1,
            "2^31 - 128 is taken" => BOUND + 1,
            "2^31 - 129 is not taken" => BOUND - 1,
            _ => BOUND,
        };
        match number {
            Ok(value) if value >= bound => {
                let behind = self.wrong == "the place behind the zeros of an int";
                let zeros = self.chunk[first..].iter().take_while(|group| behind && **group == 0).count();
                Err(refused(32, first + zeros))
            }
            Err(Refusal { number: 3, .. }) if self.wrong == "32 for an int that is 3" => Err(refused(32, first)),
            // C tests before each further byte.
            Err(Refusal { number: 1, .. }) if self.wrong == "an int that is cut short is refused as C refuses it" => {
                let groups = self.chunk[first..].iter().fold(0u64, |value, group| value << 7 | u64::from(*group));
                Err(if groups >= BOUND >> 7 { refused(32, first) } else { refused(1, self.chunk.len()) })
            }
            number => number,
        }
    }

    /// The count of a list with a limit, refused above it with this number.
    fn count(&mut self, what: &str, limit: usize, number: u8) -> Result<u64, Refusal> {
        let first = self.place();
        let count = self.int(what);
        let over = |count: u64| if count > limit as u64 { Err(refused(number, first)) } else { Ok(count) };
        match count {
            Err(Refusal { number: 32, .. }) if self.wrong == "the limit comes before 32" => Err(refused(number, first)),
            count => over(count?),
        }
    }

    /// A string that may be absent, but for the rule of this name.
    fn string(&mut self, rule: &str) -> Result<(), Refusal> {
        let first = self.place();
        let size = if self.wrong == "sizes of strings are ints" { self.size_as_int() } else { Ok(()) };
        let [there, ..] = size.and_then(|()| self.parts.text())?;
        if there == 0 && self.wrong == rule {
            return Err(refused(33, first));
        }
        Ok(())
    }

    /// 32 where a size is no int; the size is read again.
    fn size_as_int(&mut self) -> Result<(), Refusal> {
        let first = self.place();
        let size = Parts::at(self.chunk, self.limits, first)?.number();
        match size {
            Ok(size) if size >= BOUND => Err(refused(32, first)),
            _ => Ok(()),
        }
    }

    fn constant(&mut self) -> Result<(), Refusal> {
        let tag_at = self.place();
        match self.parts.byte()? {
            0 | 1 | 17 => {}
            3 | 19 => self.parts.run(8)?,
            4 | 20 => self.string_constant(tag_at)?,
            _ => return Err(refused(12, tag_at)),
        }
        Ok(())
    }

    fn string_constant(&mut self, tag_at: usize) -> Result<(), Refusal> {
        let first = self.place();
        let [there, ..] = self.parts.text()?;
        let taken = self.wrong == "a padded size of 0 is no 33" && self.place() > first + 1;
        if there == 1 || taken {
            return Ok(());
        }
        Err(refused(33, if self.wrong == "33 at the tag" { tag_at } else { first }))
    }

    fn function(&mut self, depth: usize) -> Result<(), Refusal> {
        let limits = self.limits;
        self.string("33 for an absent source")?;
        self.int("the first line")?;
        self.int("the last line")?;
        self.parts.upvalue()?;
        let first = self.place();
        let words = self.count("the words", limits.max_instructions_per_proto, 14)?;
        self.words += words;
        if self.words > limits.max_total_instructions as u64 {
            return Err(refused(15, first));
        }
        (0..words).try_for_each(|_| self.parts.word().map(drop))?;
        let constants = self.count("the constants", limits.max_constants_per_proto, 16)?;
        (0..constants).try_for_each(|_| self.constant())?;
        let upvalues = self.count("the upvalues", limits.max_upvalues_per_proto, 17)?;
        (0..upvalues).try_for_each(|_| self.parts.upvalue().map(drop))?;
        let nested = self.count("the nested functions", limits.max_total_prototypes, 18)?;
        (0..nested).try_for_each(|_| self.nested(depth + 1))?;
        self.debug(upvalues)
    }

    fn nested(&mut self, depth: usize) -> Result<(), Refusal> {
        self.functions += 1;
        if depth > self.limits.max_nesting_depth {
            return Err(refused(19, self.place()));
        }
        if self.functions > self.limits.max_total_prototypes {
            return Err(refused(20, self.place()));
        }
        self.function(depth)
    }

    /// What stands behind the nested functions.
    fn debug(&mut self, upvalues: u64) -> Result<(), Refusal> {
        let deltas = self.int("the deltas")?;
        self.parts.run(deltas)?;
        let anchors = self.int("the anchors")?;
        for _ in 0..anchors {
            self.int("the pc of an anchor")?;
            self.int("the line of an anchor")?;
        }
        let locals = self.int("the locals")?;
        for _ in 0..locals {
            self.string("33 for the absent name of a local")?;
            self.int("the startpc of a local")?;
            self.int("the endpc of a local")?;
        }
        let first = self.place();
        let names = self.int("the names")?;
        if self.wrong == "more names than upvalues are refused" && names > upvalues {
            return Err(refused(17, first));
        }
        (0..names).try_for_each(|_| self.string("33 for the absent name of an upvalue"))
    }
}
