// Parts of a chunk at a place, read by the Rust's own reader: what it has behind the cursor, and where. The tests and their order are chunk.rs's, with the
// function alone in the total of instructions.
use crate::limits::admitted;
use crate::refusals::Refusal;
use luad_core::diagnostic::Diagnostic;
use luad_core::limits::{ParseMode, ResourceLimits};
use luad_core::reader::SafeReader;

/// Whether there is a string, its place just behind its size, its length.
pub type Text = [u64; 3];

/// How many entries, and the place of the first.
pub type List = [u64; 2];

#[derive(Clone)]
pub struct Head {
    pub source: Text,
    pub lines: [u64; 2],
    pub bytes: [u64; 3],
    /// Instructions, constants, upvalues, nested functions.
    pub lists: [List; 4],
}

/// A name in a list, and the place behind its entry.
pub struct Named {
    pub text: Text,
    pub end: u64,
}

pub struct Tail {
    /// Deltas, anchors, locals, upvalue names.
    pub lists: [List; 4],
    pub locals: Vec<Named>,
    pub names: Vec<Named>,
    pub end: u64,
}

pub struct Parts<'a> {
    reader: SafeReader<'a>,
    limits: &'a ResourceLimits,
}

fn refused(diagnostic: Diagnostic) -> Refusal {
    Refusal::of(&diagnostic)
}

impl<'a> Parts<'a> {
    /// 21 and 22 come first. Behind the end there is nothing to read: cut short there.
    pub fn at(chunk: &'a [u8], limits: &'a ResourceLimits, place: usize) -> Result<Parts<'a>, Refusal> {
        admitted(limits, chunk)?;
        let mut reader = SafeReader::with_options(chunk, 0, limits.clone(), ParseMode::Strict);
        match reader.read_exact(place) {
            Ok(_) => Ok(Parts { reader, limits }),
            Err(_) => Err(Refusal { number: 1, place: Some(place) }),
        }
    }

    pub fn place(&self) -> u64 {
        self.reader.position() as u64
    }

    pub fn byte(&mut self) -> Result<u64, Refusal> {
        self.reader.read_u8().map(u64::from).map_err(refused)
    }

    pub fn number(&mut self) -> Result<u64, Refusal> {
        Ok(self.reader.read_varint_lua54().map_err(refused)?.0)
    }

    /// So many bytes in one piece.
    pub fn run(&mut self, bytes: u64) -> Result<(), Refusal> {
        self.reader.read_exact(bytes as usize).map(drop).map_err(refused)
    }

    /// A count, refused above its limit with this number.
    fn count(&mut self, limit: usize, number: u8) -> Result<u64, Refusal> {
        let place = self.reader.position();
        let count = self.number()?;
        if count > limit as u64 {
            return Err(Refusal { number, place: Some(place) });
        }
        Ok(count)
    }

    pub fn text(&mut self) -> Result<Text, Refusal> {
        let (content, _) = self.reader.read_string_lua54().map_err(refused)?;
        Ok(content.map_or([0; 3], |content| [1, self.place() - content.len() as u64, content.len() as u64]))
    }

    pub fn word(&mut self) -> Result<u64, Refusal> {
        self.reader.read_u32_le().map(u64::from).map_err(refused)
    }

    /// Its tag; its bits, or a string's place; a string's length.
    pub fn constant(&mut self) -> Result<[u64; 3], Refusal> {
        let place = self.reader.position();
        let tag = self.byte()?;
        match tag {
            0 | 1 | 17 => Ok([tag, 0, 0]),
            3 | 19 => Ok([tag, self.reader.read_u64_le().map_err(refused)?, 0]),
            4 | 20 => {
                // An absent one reads as empty.
                let [there, at, length] = self.text()?;
                Ok([tag, if there == 1 { at } else { self.place() }, length])
            }
            _ => Err(Refusal { number: 12, place: Some(place) }),
        }
    }

    pub fn upvalue(&mut self) -> Result<[u64; 3], Refusal> {
        Ok([self.byte()?, self.byte()?, self.byte()?])
    }

    pub fn delta(&mut self) -> Result<u64, Refusal> {
        Ok(i64::from(self.byte()? as u8 as i8) as u64)
    }

    pub fn anchor(&mut self) -> Result<[u64; 2], Refusal> {
        Ok([self.number()?, self.number()?])
    }

    pub fn local(&mut self) -> Result<(Text, [u64; 2]), Refusal> {
        Ok((self.text()?, self.anchor()?))
    }

    pub fn head(&mut self) -> Result<Head, Refusal> {
        let source = self.text()?;
        let lines = self.anchor()?;
        let bytes = self.upvalue()?;
        let place = self.reader.position();
        let words = self.count(self.limits.max_instructions_per_proto, 14)?;
        if words > self.limits.max_total_instructions as u64 {
            return Err(Refusal { number: 15, place: Some(place) });
        }
        let words = self.list(words, Parts::word)?;
        let constants = self.count(self.limits.max_constants_per_proto, 16)?;
        let constants = self.list(constants, Parts::constant)?;
        let upvalues = self.count(self.limits.max_upvalues_per_proto, 17)?;
        let upvalues = self.list(upvalues, Parts::upvalue)?;
        let nested = self.count(self.limits.max_total_prototypes, 18)?;
        Ok(Head { source, lines, bytes, lists: [words, constants, upvalues, [nested, self.place()]] })
    }

    pub fn tail(&mut self) -> Result<Tail, Refusal> {
        let deltas = self.number()?;
        let deltas = [deltas, self.place()];
        self.run(deltas[0])?;
        let anchors = self.number()?;
        let anchors = self.list(anchors, Parts::anchor)?;
        let (mut locals, mut names) = (Vec::new(), Vec::new());
        let count = self.number()?;
        let local_list =
            self.list(count, |parts| parts.local().map(|(text, _)| locals.push(Named { text, end: parts.place() })))?;
        let count = self.number()?;
        let name_list =
            self.list(count, |parts| parts.text().map(|text| names.push(Named { text, end: parts.place() })))?;
        Ok(Tail { lists: [deltas, anchors, local_list, name_list], locals, names, end: self.place() })
    }

    /// Goes through the entries.
    fn list<T>(
        &mut self,
        count: u64,
        mut entry: impl FnMut(&mut Parts<'a>) -> Result<T, Refusal>,
    ) -> Result<List, Refusal> {
        let place = self.place();
        for _ in 0..count {
            entry(self)?;
        }
        Ok([count, place])
    }
}
