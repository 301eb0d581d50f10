//! The index of a chunk: where its functions are, and what is found from that once for all of them.
use crate::ffi;
use crate::input::{granted, Input};

/// How long the lists of a function are.
#[derive(Debug, Clone, Copy, PartialEq, Eq, Hash)]
#[allow(missing_docs)]
pub struct Counts {
    pub instructions: usize,
    pub constants: usize,
    pub upvalues: usize,
    pub protos: usize,
    pub line_info: usize,
    pub abs_line_info: usize,
    pub loc_vars: usize,
    pub upvalue_names: usize,
}

impl Counts {
    /// Of the eight in the order in which the lists stand in the file.
    pub(crate) fn of_numbers(numbers: [u64; 8]) -> Counts {
        let [instructions, constants, upvalues, protos, line_info, abs_line_info, loc_vars, upvalue_names] =
            numbers.map(|n| n as usize);
        Counts { instructions, constants, upvalues, protos, line_info, abs_line_info, loc_vars, upvalue_names }
    }
}

/// A function's row of the index.
#[derive(Debug, Clone, Copy, PartialEq, Eq, Hash)]
pub struct Row([u32; Row::COLUMNS]);

impl Row {
    /// How many numbers it has.
    pub const COLUMNS: usize = 14;

    /// Where the function begins.
    pub fn start(&self) -> usize {
        self.0[0] as usize
    }

    /// The place just behind its last byte.
    pub fn end(&self) -> usize {
        self.0[1] as usize
    }

    /// How deep it is nested; main is 0.
    pub fn depth(&self) -> usize {
        self.0[2] as usize
    }

    /// The number of the function that it is nested in; main's is 0.
    pub fn parent(&self) -> usize {
        self.0[3] as usize
    }

    /// How long its lists are.
    pub fn counts(&self) -> Counts {
        let [_, _, _, _, counts @ .., _, _] = self.0;
        Counts::of_numbers(counts.map(u64::from))
    }

    /// The place of its first instruction word; with none, the place just after their count.
    pub fn instructions_at(&self) -> usize {
        self.0[12] as usize
    }

    /// The place of its first constant, which is that of its tag; with none, the place just after their count.
    pub fn constants_at(&self) -> usize {
        self.0[13] as usize
    }

    /// The fourteen numbers: start, end, depth, parent, the counts in the order in which the lists stand in the file, and where the instruction words and the constants begin.
    pub fn numbers(&self) -> [u32; Row::COLUMNS] {
        self.0
    }
}

/// A source: the function that spells it, its place and its length.
#[derive(Debug, Clone, Copy)]
struct Source {
    function: u32,
    place: u32,
    len: u32,
}

/// The rows, and for each function what would else be looked for again and again. It holds places, not parts of the chunk, so that a chunk's lifetime can be shortened.
#[derive(Debug, Clone)]
pub(crate) struct Index {
    pub(crate) rows: Vec<Row>,
    /// Where its last nested function ends, 0 where there is none.
    nested_end: Vec<u32>,
    /// Its source, if there is one: an absent one is its parent's.
    sources: Vec<Option<Source>>,
}

impl Index {
    /// The index of a chunk that was read and has so many functions.
    pub(crate) fn new(input: &Input<'_>, functions: usize) -> Index {
        let mut numbers = vec![[0; Row::COLUMNS]; functions];
        granted(ffi::index(input.bytes, &input.limits, &mut numbers));
        let rows: Vec<Row> = numbers.into_iter().map(Row).collect();
        let mut index = Index { nested_end: vec![0; functions], sources: Vec::with_capacity(functions), rows };
        for function in 0..functions {
            index.add(input, function);
        }
        index
    }

    /// Adds a function. Functions come in the order their bytes begin: a parent before its nested ones, the last of which is added last.
    fn add(&mut self, input: &Input<'_>, function: usize) {
        let row = self.rows[function];
        let [present, place, len, _] = granted(ffi::string_at(input.bytes, &input.limits, row.start()));
        let own = Source { function: function as u32, place: place as u32, len: len as u32 };
        let own = (present != 0).then_some(own);
        if function == 0 {
            self.sources.push(own);
        } else {
            self.sources.push(own.or(self.sources[row.parent()]));
            self.nested_end[row.parent()] = row.0[1];
        }
    }

    pub(crate) fn source<'a>(&self, input: &Input<'a>, function: usize) -> Option<&'a [u8]> {
        self.sources[function].map(|source| input.string(source.place.into(), source.len.into()))
    }

    /// The function that spells its source.
    pub(crate) fn source_function(&self, function: usize) -> Option<usize> {
        self.sources[function].map(|source| source.function as usize)
    }

    /// Where the part behind the nested functions begins; `nested_at` is where these begin.
    pub(crate) fn tail(&self, function: usize, nested_at: usize) -> usize {
        if self.rows[function].counts().protos == 0 {
            nested_at
        } else {
            self.nested_end[function] as usize
        }
    }
}
