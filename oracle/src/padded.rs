// The padded numbers of a chunk that was read, which the Rust does not count, and where the words and the constants of its functions begin, which it does not keep of empty lists. Every number is read
// once more by the Rust's own reader, in the grammar's order, and is padded where its bytes are not those that the Rust writes for its value; words and constants begin where the reader then stands behind
// their count. What is read must be what the Rust's chunk holds.
use luad_core::model::{ConstantValue, LuaString, Prototype};
use luad_core::reader::SafeReader;
use luad_dialect_lua54::chunk::write_varint_lua54;

/// What a number of a chunk may be.
pub const KINDS: [&str; 25] = [
    "source size",
    "absent source",
    "nested source size",
    "absent nested source",
    "first line",
    "last line",
    "instruction count",
    "constant count",
    "short string size",
    "long string size",
    "absent constant",
    "upvalue count",
    "nested count",
    "delta count",
    "anchor count",
    "anchor pc",
    "anchor line",
    "local count",
    "local name size",
    "absent local name",
    "startpc",
    "endpc",
    "name count",
    "name size",
    "absent name",
];

/// How many numbers of each kind are padded, in the order of `KINDS`; of each function, in the order their bytes begin, where its words and where its constants begin.
#[derive(Default)]
pub struct Padded {
    pub by_kind: [u64; KINDS.len()],
    pub code: Vec<[usize; 2]>,
}

impl Padded {
    /// Of the chunk of which the Rust read this main function.
    pub fn of(chunk: &[u8], main: &Prototype) -> Padded {
        let mut numbers = Numbers { reader: SafeReader::new(chunk), padded: Padded::default() };
        numbers.pass(main.source.byte_offset);
        numbers.function(main, ["source size", "absent source"]);
        let end = main.source.byte_offset + main.source.byte_length;
        assert_eq!(numbers.reader.position(), end, "the place behind main");
        numbers.padded
    }

    pub fn sum(&self) -> u64 {
        self.by_kind.iter().sum()
    }
}

/// Passes over a chunk.
struct Numbers<'a> {
    reader: SafeReader<'a>,
    padded: Padded,
}

impl Numbers<'_> {
    fn pass(&mut self, bytes: usize) {
        self.reader.read_exact(bytes).expect("bytes of a chunk that was read");
    }

    /// A number, and whether it is padded.
    fn read(&mut self) -> (u64, bool) {
        let (value, spelt) = self.reader.read_varint_lua54().expect("a number of a chunk that was read");
        let mut shortest = Vec::new();
        write_varint_lua54(&mut shortest, value);
        (value, spelt.raw_hex != hex::encode(shortest))
    }

    fn count(&mut self, kind: &str, padded: bool) {
        if padded {
            let place = KINDS.iter().position(|known| *known == kind).expect("a kind of number");
            self.padded.by_kind[place] += 1;
        }
    }

    /// A number that the Rust's chunk shows.
    fn number(&mut self, kind: &str, shown: usize) {
        let (value, padded) = self.read();
        assert_eq!(value, shown as u64, "{kind}");
        self.count(kind, padded);
    }

    /// The count of a list, and the place behind it: where the Rust's chunk has the list's first entry, if there is one.
    fn list(&mut self, kind: &str, places: impl ExactSizeIterator<Item = usize>) -> usize {
        let mut places = places;
        self.number(kind, places.len());
        let place = self.reader.position();
        assert_eq!(places.next().unwrap_or(place), place, "behind the {kind}");
        place
    }

    /// A string with its size, or an absent one, for which the Rust may show another. Their kinds.
    fn string(&mut self, [sized, absent]: [&str; 2], shown: Option<&LuaString>) {
        let (size, padded) = self.read();
        if size == 0 {
            return self.count(absent, padded);
        }
        assert_eq!(Some(size - 1), shown.map(|string| string.raw_bytes.len() as u64), "{sized}");
        self.count(sized, padded);
        self.pass(size as usize - 1);
    }

    fn constant(&mut self, value: &ConstantValue) {
        self.pass(1);
        match value {
            ConstantValue::Nil | ConstantValue::Boolean(_) => {}
            ConstantValue::Integer { .. } | ConstantValue::Float { .. } => self.pass(8),
            ConstantValue::ShortString(string) => self.string(["short string size", "absent constant"], Some(string)),
            ConstantValue::LongString(string) => self.string(["long string size", "absent constant"], Some(string)),
        }
    }

    fn function(&mut self, proto: &Prototype, source: [&str; 2]) {
        self.string(source, proto.source_name.as_ref());
        self.number("first line", proto.line_defined);
        self.number("last line", proto.last_line_defined);
        self.pass(3);
        let words = self.list("instruction count", proto.instructions.iter().map(|word| word.source.byte_offset));
        self.pass(4 * proto.instructions.len());
        let constants = self.list("constant count", proto.constants.iter().map(|one| one.source.byte_offset));
        self.padded.code.push([words, constants]);
        proto.constants.iter().for_each(|constant| self.constant(&constant.value));
        self.number("upvalue count", proto.upvalues.len());
        self.pass(3 * proto.upvalues.len());
        self.number("nested count", proto.protos.len());
        for nested in &proto.protos {
            self.function(nested, ["nested source size", "absent nested source"]);
        }
        self.number("delta count", proto.line_info.len());
        self.pass(proto.line_info.len());
        self.number("anchor count", proto.abs_line_info.len());
        for anchor in &proto.abs_line_info {
            self.number("anchor pc", anchor.pc);
            self.number("anchor line", anchor.line);
        }
        self.number("local count", proto.loc_vars.len());
        for local in &proto.loc_vars {
            self.string(["local name size", "absent local name"], Some(&local.name));
            self.number("startpc", local.startpc);
            self.number("endpc", local.endpc);
        }
        self.number("name count", proto.upvalue_names.len());
        proto.upvalue_names.iter().for_each(|name| self.string(["name size", "absent name"], name.as_ref()));
    }
}
