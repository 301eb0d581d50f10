//! A function of a chunk.
use crate::chunk::Chunk;
use crate::entries::{self, Entries};
use crate::entry::{Anchor, Constant, Local, Upvalue};
use crate::ffi;
use crate::index::{Counts, Row};
use crate::input::granted;
use crate::lines;
use crate::refusal::Refusal;
use crate::text::Text;
use std::fmt;
use std::iter::FusedIterator;

/// A function's fields.
#[derive(Clone, Copy, PartialEq, Eq, Hash)]
#[allow(missing_docs)]
pub struct Fields<'a> {
    /// How deep it is nested; main is 0.
    pub depth: usize,
    /// The number of the function that it is nested in; main's is 0.
    pub parent: usize,
    /// Its source; an absent one is its parent's.
    pub source: Option<&'a [u8]>,
    pub line_defined: u64,
    pub last_line_defined: u64,
    pub numparams: u8,
    pub is_vararg: u8,
    pub maxstacksize: u8,
    pub counts: Counts,
}

impl fmt::Debug for Fields<'_> {
    fn fmt(&self, f: &mut fmt::Formatter<'_>) -> fmt::Result {
        f.debug_struct("Fields")
            .field("depth", &self.depth)
            .field("parent", &self.parent)
            .field("source", &self.source.map(Text))
            .field("line_defined", &self.line_defined)
            .field("last_line_defined", &self.last_line_defined)
            .field("numparams", &self.numparams)
            .field("is_vararg", &self.is_vararg)
            .field("maxstacksize", &self.maxstacksize)
            .field("counts", &self.counts)
            .finish()
    }
}

/// A function of a chunk that was read, with its lists. It has been found once, and its lists go on from there.
#[derive(Clone)]
pub struct Function<'a> {
    chunk: Chunk<'a>,
    number: usize,
    row: Row,
    fields: Fields<'a>,
    places: Places,
}

/// Where each list begins, but for instructions and constants, which are in the row.
#[derive(Debug, Clone)]
struct Places {
    upvalues: usize,
    line_info: usize,
    abs_line_info: usize,
    loc_vars: usize,
    upvalue_names: usize,
}

impl<'a> Function<'a> {
    /// The function of a number below the number of functions: the part before its nested functions is read, and the part behind them.
    pub(crate) fn new(chunk: Chunk<'a>, number: usize) -> Function<'a> {
        let (input, index) = (chunk.input, chunk.indexed());
        let row = index.rows[number];
        let head = granted(ffi::head_at(input.bytes, &input.limits, row.start()));
        // The source is in the index, with those of parents.
        let [_, _, _, line_defined, last_line_defined, numparams, is_vararg, maxstacksize, lists @ ..] = head;
        let [instructions, _, constants, _, upvalues, upvalues_at, protos, nested_at] = lists;
        let tail_at = index.tail(number, nested_at as usize);
        let tail = granted(ffi::tail_at(input.bytes, &input.limits, tail_at));
        let [deltas, deltas_at, anchors, anchors_at, locals, locals_at, names, names_at, _] = tail;
        let fields = Fields {
            depth: row.depth(),
            parent: row.parent(),
            source: index.source(&input, number),
            line_defined,
            last_line_defined,
            numparams: numparams as u8,
            is_vararg: is_vararg as u8,
            maxstacksize: maxstacksize as u8,
            counts: Counts::of_numbers([instructions, constants, upvalues, protos, deltas, anchors, locals, names]),
        };
        let places = Places {
            upvalues: upvalues_at as usize,
            line_info: deltas_at as usize,
            abs_line_info: anchors_at as usize,
            loc_vars: locals_at as usize,
            upvalue_names: names_at as usize,
        };
        Function { chunk, number, row, fields, places }
    }

    /// Its number: functions are numbered from main, 0, in the order their bytes begin.
    pub fn number(&self) -> usize {
        self.number
    }

    /// Where it begins in the chunk.
    pub fn start(&self) -> usize {
        self.row.start()
    }

    /// The place just behind its last byte.
    pub fn end(&self) -> usize {
        self.row.end()
    }

    /// Its fields.
    pub fn fields(&self) -> &Fields<'a> {
        &self.fields
    }

    /// Its source; an absent one is its parent's.
    pub fn source(&self) -> Option<&'a [u8]> {
        self.fields.source
    }

    /// The number of the function that spells its source: its own, or, where it has none of its own, that of the
    /// nearest function around it that has one. `None` where there is no source.
    ///
    /// Who prints all functions prints each source once by it, where it is spelt: thousands of functions may share one
    /// that is nearly as long as the file. It is in the index, so that asking costs nothing.
    ///
    /// ```
    /// use lafzimdo::{Chunk, Limits};
    ///
    /// # let file = concat!(env!("CARGO_MANIFEST_DIR"), "/tests/data/recentre.luac");
    /// # #[cfg(any())]
    /// let file = "recentre.luac";
    /// let bytes = std::fs::read(file)?;
    /// let chunk = Chunk::read(&bytes, Limits::ceilings())?;
    /// for function in chunk.functions() {
    ///     match function.source_function() {
    ///         Some(number) if number != function.number() => println!("the source of function {number}"),
    ///         _ => println!("{:?}", function.source()),
    ///     }
    /// #   assert_eq!(function.source_function(), Some(0));
    /// }
    /// # Ok::<(), Box<dyn std::error::Error>>(())
    /// ```
    pub fn source_function(&self) -> Option<usize> {
        self.chunk.indexed().source_function(self.number)
    }

    /// The functions nested in it, in the order in which CLOSURE counts them.
    pub fn nested(&self) -> Nested<'a> {
        Nested { chunk: self.chunk.clone(), next: self.number + 1, left: self.fields.counts.protos }
    }

    /// Its instruction words ([`decode`](crate::decode) takes one apart).
    pub fn instructions(&self) -> Entries<'a, u32> {
        Entries::new(self.chunk.input, self.fields.counts.instructions, self.row.instructions_at(), entries::word)
    }

    /// Its constants.
    pub fn constants(&self) -> Entries<'a, Constant<'a>> {
        Entries::new(self.chunk.input, self.fields.counts.constants, self.row.constants_at(), entries::constant)
    }

    /// Its upvalues.
    pub fn upvalues(&self) -> Entries<'a, Upvalue> {
        Entries::new(self.chunk.input, self.fields.counts.upvalues, self.places.upvalues, entries::upvalue)
    }

    /// Its line information: how far each instruction's line is from the one before.
    pub fn deltas(&self) -> Entries<'a, i8> {
        Entries::new(self.chunk.input, self.fields.counts.line_info, self.places.line_info, entries::delta)
    }

    /// Its absolute line information.
    pub fn anchors(&self) -> Entries<'a, Anchor> {
        Entries::new(self.chunk.input, self.fields.counts.abs_line_info, self.places.abs_line_info, entries::anchor)
    }

    /// Its local variables.
    pub fn locals(&self) -> Entries<'a, Local<&'a [u8]>> {
        Entries::new(self.chunk.input, self.fields.counts.loc_vars, self.places.loc_vars, entries::local)
    }

    /// The names of its upvalues; there may be more or fewer of them than upvalues.
    pub fn upvalue_names(&self) -> Entries<'a, Option<&'a [u8]>> {
        Entries::new(self.chunk.input, self.fields.counts.upvalue_names, self.places.upvalue_names, entries::string)
    }

    /// The line of each instruction: the proved call [`Chunk::lines`](crate::Chunk::lines) with every pc, a pass over the file. Where that refuses with 29, since the pcs of the anchors do not
    /// rise strictly, it is [`computed_lines`](Function::computed_lines). Refused with 25.
    pub fn lines(&self) -> Result<Vec<u64>, Refusal> {
        let pcs: Vec<u64> = (0..self.fields.counts.instructions as u64).collect();
        let mut lines = vec![0; pcs.len()];
        match ffi::lines(self.chunk.input.bytes, &self.chunk.input.limits, self.number, &pcs, &mut lines) {
            Ok(_) => Ok(lines),
            Err(Refusal::AnchorOrder) => self.computed_lines(),
            Err(refusal) => Err(refusal),
        }
    }

    /// The same lines without a pass over the file, for who goes through all functions of a chunk: in one pass over this function's deltas and anchors.
    ///
    /// This is computed by this crate, by the rules of the proved calls; it is not proved, and is tested against them. Refused with 25.
    pub fn computed_lines(&self) -> Result<Vec<u64>, Refusal> {
        lines::computed(self)
    }
}

impl fmt::Debug for Function<'_> {
    fn fmt(&self, f: &mut fmt::Formatter<'_>) -> fmt::Result {
        f.debug_struct("Function").field("number", &self.number).field("fields", &self.fields).finish_non_exhaustive()
    }
}

/// The functions nested in one, in order.
#[derive(Clone)]
pub struct Nested<'a> {
    chunk: Chunk<'a>,
    next: usize,
    left: usize,
}

impl<'a> Iterator for Nested<'a> {
    type Item = Function<'a>;

    fn next(&mut self) -> Option<Function<'a>> {
        self.left = self.left.checked_sub(1)?;
        let function = self.chunk.found(self.next);
        // Functions are numbered as their bytes begin: the next is the first that does not begin in this one.
        let end = function.end();
        self.next = self.chunk.index().partition_point(|row| row.start() < end);
        Some(function)
    }

    fn size_hint(&self) -> (usize, Option<usize>) {
        (self.left, Some(self.left))
    }
}

impl ExactSizeIterator for Nested<'_> {}
impl FusedIterator for Nested<'_> {}

impl fmt::Debug for Nested<'_> {
    fn fmt(&self, f: &mut fmt::Formatter<'_>) -> fmt::Result {
        f.debug_struct("Nested").field("next", &self.next).field("left", &self.left).finish_non_exhaustive()
    }
}
