//! A chunk that was read.
use crate::entries::{self, Entries};
use crate::entry::{Anchor, Constant, Local, Upvalue};
use crate::ffi;
use crate::finding::{Finding, Verdict};
use crate::function::{Fields, Function};
use crate::header::{Header, Warning};
use crate::index::{Counts, Index, Row};
use crate::input::{granted, Input};
use crate::limits::Limits;
use crate::lines::Lines;
use crate::refusal::Refusal;
use crate::text::Text;
use std::fmt;
use std::iter::FusedIterator;
use std::ops::Range;
use std::sync::{Arc, OnceLock};

/// No list of findings is longer: validation stops at 10,000, and the last instruction may add two.
const MOST_FINDINGS: usize = 10_001;

/// Names up to this length are found in one pass, longer ones in two.
const USUAL_NAME: usize = 256;

/// A chunk that was read under limits. It borrows the bytes, and its strings are parts of them ([`OwnedChunk`](crate::OwnedChunk) owns them). A clone shares the index.
#[derive(Clone)]
pub struct Chunk<'a> {
    pub(crate) input: Input<'a>,
    pub(crate) shown: Arc<Shown>,
}

/// What the summary showed, and the index, which is made when it is first asked for. It holds places, not parts of the bytes, so that a chunk, its functions and its owned form share it.
pub(crate) struct Shown {
    header: Header,
    warnings: [Option<Warning>; 2],
    functions: usize,
    trailing: (u64, u64),
    padded: usize,
    index: OnceLock<Index>,
}

/// A call that reads: the library's summary, or the stricter one.
type Summary = fn(&[u8], &[u64; 9]) -> Result<[u64; 15], Refusal>;

impl<'a> Chunk<'a> {
    /// Reads a chunk, in one pass.
    pub fn read(bytes: &'a [u8], limits: Limits) -> Result<Chunk<'a>, Refusal> {
        Chunk::read_by(ffi::summary, bytes, limits)
    }

    /// Reads a chunk as Lua's own loader would, in two passes: what it objects to is refused besides, with 31 (a format byte other than 0), 32 (a number of 2^31 - 128 or more that
    /// the loader reads as an int, which is every number but a string's size) and 33 (a string constant of size 0), each as soon as its bytes are read. What is read is the chunk that
    /// [`read`](Chunk::read) gives.
    ///
    /// More upvalue names than upvalues pass, as they pass the loader unseen.
    ///
    /// ```
    /// use lafzimdo::{Chunk, Limits, Refusal};
    ///
    /// # let file = concat!(env!("CARGO_MANIFEST_DIR"), "/tests/data/recentre.luac");
    /// # #[cfg(any())]
    /// let file = "recentre.luac";
    /// let mut bytes = std::fs::read(file)?;
    /// assert!(Chunk::read_strict(&bytes, Limits::ceilings()).is_ok());
    /// bytes[5] = 1;
    /// assert!(Chunk::read(&bytes, Limits::ceilings()).is_ok());
    /// assert_eq!(Chunk::read_strict(&bytes, Limits::ceilings()).unwrap_err(), Refusal::Format(5));
    /// # Ok::<(), std::io::Error>(())
    /// ```
    pub fn read_strict(bytes: &'a [u8], limits: Limits) -> Result<Chunk<'a>, Refusal> {
        Chunk::read_by(ffi::strict_summary, bytes, limits)
    }

    fn read_by(summary: Summary, bytes: &'a [u8], limits: Limits) -> Result<Chunk<'a>, Refusal> {
        let input = Input { bytes, limits: limits.numbers() };
        let summary = summary(input.bytes, &input.limits)?;
        let [version, format, isize, intsize, sizet, numsize, num, functions, place, len, rest @ ..] = summary;
        let [code1, place1, code2, place2, padded] = rest;
        let shown = Shown {
            header: Header::of_numbers([version, format, isize, intsize, sizet, numsize, num]),
            warnings: [Warning::of_numbers(code1, place1), Warning::of_numbers(code2, place2)],
            functions: functions as usize,
            trailing: (place, len),
            padded: padded as usize,
            index: OnceLock::new(),
        };
        Ok(Chunk { input, shown: Arc::new(shown) })
    }

    /// All of the bytes.
    pub fn bytes(&self) -> &'a [u8] {
        self.input.bytes
    }

    /// The limits under which it was read.
    pub fn limits(&self) -> Limits {
        Limits::of_numbers(self.input.limits)
    }

    /// The header's fields.
    pub fn header(&self) -> &Header {
        &self.shown.header
    }

    /// What was unusual: at most two warnings, and not more than `max_diagnostics`.
    pub fn warnings(&self) -> impl Iterator<Item = Warning> + '_ {
        self.shown.warnings.iter().flatten().copied()
    }

    /// How many functions there are: one at least.
    pub fn function_count(&self) -> usize {
        self.shown.functions
    }

    /// How many of its numbers, string sizes and counts among them, are padded: spelt with more bytes than their shortest form takes. The archive copy has none.
    pub fn padded_numbers(&self) -> usize {
        self.shown.padded
    }

    /// The bytes behind the main function.
    pub fn trailing_bytes(&self) -> &'a [u8] {
        self.input.string(self.shown.trailing.0, self.shown.trailing.1)
    }

    /// The place just behind the main function.
    pub fn trailing_place(&self) -> usize {
        self.shown.trailing.0 as usize
    }

    /// A row for each function. It is made when it is first asked for, by this call, by [`function`](Chunk::function), [`functions`](Chunk::functions), [`instructions`](Chunk::instructions) or [`constants`](Chunk::constants), and kept.
    pub fn index(&self) -> &[Row] {
        &self.indexed().rows
    }

    pub(crate) fn indexed(&self) -> &Index {
        self.shown.index.get_or_init(|| Index::new(&self.input, self.shown.functions))
    }

    /// A function by its number, with its lists.
    pub fn function(&self, function: usize) -> Result<Function<'a>, Refusal> {
        if function >= self.shown.functions {
            return Err(Refusal::NoFunction);
        }
        Ok(self.found(function))
    }

    /// The instruction words of a function, from the index alone: nothing else of the function is passed over, as [`function`](Chunk::function) does. Refused with 23 where there is no such function.
    pub fn instructions(&self, function: usize) -> Result<Entries<'a, u32>, Refusal> {
        let row = self.index().get(function).ok_or(Refusal::NoFunction)?;
        Ok(Entries::new(self.input, row.counts().instructions, row.instructions_at(), entries::word))
    }

    /// The constants of a function, in the same way.
    pub fn constants(&self, function: usize) -> Result<Entries<'a, Constant<'a>>, Refusal> {
        let row = self.index().get(function).ok_or(Refusal::NoFunction)?;
        Ok(Entries::new(self.input, row.counts().constants, row.constants_at(), entries::constant))
    }

    pub(crate) fn found(&self, function: usize) -> Function<'a> {
        Function::new(self.clone(), function)
    }

    /// All functions, from main on, in the order their bytes begin.
    pub fn functions(&self) -> Functions<'_, 'a> {
        Functions { chunk: self, numbers: 0..self.shown.functions }
    }
}

impl fmt::Debug for Chunk<'_> {
    fn fmt(&self, f: &mut fmt::Formatter<'_>) -> fmt::Result {
        f.debug_struct("Chunk")
            .field("bytes", &self.input.bytes.len())
            .field("header", &self.shown.header)
            .field("warnings", &self.warnings().collect::<Vec<_>>())
            .field("functions", &self.shown.functions)
            .field("padded_numbers", &self.shown.padded)
            .field("trailing_bytes", &Text(self.trailing_bytes()))
            .finish_non_exhaustive()
    }
}

/// Validation, the archive copy and the full copy.
impl Chunk<'_> {
    /// The verdict alone.
    pub fn verdict(&self) -> Verdict {
        let [verdict] = granted(ffi::verdict(self.input.bytes, &self.input.limits));
        Verdict::of_number(verdict)
    }

    /// How many findings there are.
    pub fn finding_count(&self) -> usize {
        let [count] = granted(ffi::finding_count(self.input.bytes, &self.input.limits));
        count as usize
    }

    /// The verdict and the findings, in the order found.
    pub fn validate(&self) -> (Verdict, Vec<Finding>) {
        let mut list = vec![[0; 4]; MOST_FINDINGS];
        let [verdict, count] = granted(ffi::findings(self.input.bytes, &self.input.limits, &mut list));
        let findings = list[..count as usize].iter().map(|numbers| Finding::of_numbers(*numbers)).collect();
        (Verdict::of_number(verdict), findings)
    }

    /// The findings, in the order found.
    pub fn findings(&self) -> Vec<Finding> {
        self.validate().1
    }

    /// The length of the archive copy.
    pub fn copy_length(&self) -> usize {
        let [length] = granted(ffi::copy_length(self.input.bytes, &self.input.limits));
        length as usize
    }

    /// The archive copy.
    pub fn copy(&self) -> Vec<u8> {
        let mut copy = vec![0; self.copy_length()];
        granted(self.copy_into(&mut copy));
        copy
    }

    /// Writes the archive copy at the front of `copy`, and gives its length; what is behind it stays. Refused with 26, and nothing is written, where the space is too short.
    pub fn copy_into(&self, copy: &mut [u8]) -> Result<usize, Refusal> {
        ffi::copy(self.input.bytes, &self.input.limits, copy)
    }

    /// The length of the full copy.
    pub fn full_copy_length(&self) -> usize {
        let [length] = granted(ffi::full_copy_length(self.input.bytes, &self.input.limits));
        length as usize
    }

    /// The full copy: the archive copy, with the source of every nested function that has another than the function around it.
    pub fn full_copy(&self) -> Vec<u8> {
        let mut copy = vec![0; self.full_copy_length()];
        granted(self.full_copy_into(&mut copy));
        copy
    }

    /// Writes the full copy at the front of `copy`, and gives its length; what is behind it stays. Refused with 26, and nothing is written, where the space is too short.
    pub fn full_copy_into(&self, copy: &mut [u8]) -> Result<usize, Refusal> {
        ffi::full_copy(self.input.bytes, &self.input.limits, copy)
    }
}

/// Single questions, by the numbers of function and entry. Each is a pass over the chunk. Refused with 23 where there is no such function, with 24 where it has no such entry.
impl<'a> Chunk<'a> {
    /// The fields of a function.
    pub fn fields(&self, function: usize) -> Result<Fields<'a>, Refusal> {
        let shown = ffi::fields(self.input.bytes, &self.input.limits, function)?;
        let [depth, parent, present, place, len, line_defined, last_line_defined, numparams, is_vararg, maxstacksize, counts @ ..] =
            shown;
        Ok(Fields {
            depth: depth as usize,
            parent: parent as usize,
            source: self.input.string_if([present, place, len]),
            line_defined,
            last_line_defined,
            numparams: numparams as u8,
            is_vararg: is_vararg as u8,
            maxstacksize: maxstacksize as u8,
            counts: Counts::of_numbers(counts),
        })
    }

    /// The line of an instruction; any pc may be asked. Refused with 25 where the first line or an anchor's line is 2^62 or more.
    pub fn line(&self, function: usize, pc: usize) -> Result<u64, Refusal> {
        let [line] = ffi::line(self.input.bytes, &self.input.limits, function, pc)?;
        Ok(line)
    }

    /// The lines of a list of pcs that never falls, in one pass over the chunk, and how many of the function's deltas were read for them, each once. Each line is [`line`](Chunk::line)'s.
    ///
    /// Refused with 25 as that call is, with 29 where the pcs of the function's anchors do not rise strictly, whatever the pcs are, and with 30 where a pc is below the one before it.
    pub fn lines(&self, function: usize, pcs: &[u64]) -> Result<Lines, Refusal> {
        let mut lines = vec![0; pcs.len()];
        let deltas_read = self.lines_into(function, pcs, &mut lines)?;
        Ok(Lines { lines, deltas_read })
    }

    /// The same: the lines are written at the front of `lines`, and the answer is how many deltas were read. What is behind them stays. Refused with 26 last, and nothing is written, where
    /// the space is too short.
    pub fn lines_into(&self, function: usize, pcs: &[u64], lines: &mut [u64]) -> Result<usize, Refusal> {
        ffi::lines(self.input.bytes, &self.input.limits, function, pcs, lines)
    }

    /// An instruction word.
    pub fn instruction(&self, function: usize, entry: usize) -> Result<u32, Refusal> {
        let [word] = ffi::instruction(self.input.bytes, &self.input.limits, function, entry)?;
        Ok(word as u32)
    }

    /// A constant.
    pub fn constant(&self, function: usize, entry: usize) -> Result<Constant<'a>, Refusal> {
        let shown = ffi::constant(self.input.bytes, &self.input.limits, function, entry)?;
        Ok(Constant::of_numbers(&self.input, shown))
    }

    /// An upvalue.
    pub fn upvalue(&self, function: usize, entry: usize) -> Result<Upvalue, Refusal> {
        ffi::upvalue(self.input.bytes, &self.input.limits, function, entry).map(Upvalue::of_numbers)
    }

    /// A delta of the line information.
    pub fn delta(&self, function: usize, entry: usize) -> Result<i8, Refusal> {
        let [delta] = ffi::delta(self.input.bytes, &self.input.limits, function, entry)?;
        Ok(delta as i8)
    }

    /// An entry of the absolute line information.
    pub fn anchor(&self, function: usize, entry: usize) -> Result<Anchor, Refusal> {
        let [pc, line] = ffi::anchor(self.input.bytes, &self.input.limits, function, entry)?;
        Ok(Anchor { pc, line })
    }

    /// A local variable, its name copied.
    pub fn local(&self, function: usize, entry: usize) -> Result<Local<Vec<u8>>, Refusal> {
        let mut name = vec![0; USUAL_NAME];
        let mut shown = self.local_into(function, entry, &mut name);
        if shown == Err(Refusal::LentSpace) {
            // No name is longer than the chunk.
            name = vec![0; self.input.bytes.len()];
            shown = self.local_into(function, entry, &mut name);
        }
        let Local { name: len, startpc, endpc } = shown?;
        name.truncate(len);
        Ok(Local { name, startpc, endpc })
    }

    /// A local variable: its name is written at the front of `name`, and the answer has the name's length instead. What is behind it stays. Refused with 26, and nothing is written,
    /// where the space is too short.
    pub fn local_into(&self, function: usize, entry: usize, name: &mut [u8]) -> Result<Local<usize>, Refusal> {
        let [len, startpc, endpc] = ffi::local(self.input.bytes, &self.input.limits, function, entry, name)?;
        Ok(Local { name: len as usize, startpc, endpc })
    }

    /// The name of an upvalue, if it has one.
    pub fn upvalue_name(&self, function: usize, entry: usize) -> Result<Option<&'a [u8]>, Refusal> {
        let shown = ffi::upvalue_name(self.input.bytes, &self.input.limits, function, entry)?;
        Ok(self.input.string_if(shown))
    }
}

/// The functions of a chunk, in the order their bytes begin.
#[derive(Debug, Clone)]
pub struct Functions<'c, 'a> {
    chunk: &'c Chunk<'a>,
    numbers: Range<usize>,
}

impl<'a> Iterator for Functions<'_, 'a> {
    type Item = Function<'a>;

    fn next(&mut self) -> Option<Function<'a>> {
        self.numbers.next().map(|number| self.chunk.found(number))
    }

    fn nth(&mut self, n: usize) -> Option<Function<'a>> {
        self.numbers.nth(n).map(|number| self.chunk.found(number))
    }

    fn size_hint(&self) -> (usize, Option<usize>) {
        self.numbers.size_hint()
    }
}

impl DoubleEndedIterator for Functions<'_, '_> {
    fn next_back(&mut self) -> Option<Self::Item> {
        self.numbers.next_back().map(|number| self.chunk.found(number))
    }
}

impl ExactSizeIterator for Functions<'_, '_> {}
impl FusedIterator for Functions<'_, '_> {}
