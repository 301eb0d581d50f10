// The functions of a chunk in the order their bytes begin, main first, with what the index tells of each.
use luad_core::model::Prototype;

pub struct Function<'a> {
    pub proto: &'a Prototype,
    pub depth: usize,
    /// The number of the function around it; main's is 0.
    pub parent: usize,
    pub start: usize,
    /// Just behind its last byte.
    pub end: usize,
}

impl Function<'_> {
    /// The eight counts in the grammar's order.
    pub fn counts(&self) -> [usize; 8] {
        [
            self.proto.instructions.len(),
            self.proto.constants.len(),
            self.proto.upvalues.len(),
            self.proto.protos.len(),
            self.proto.line_info.len(),
            self.proto.abs_line_info.len(),
            self.proto.loc_vars.len(),
            self.proto.upvalue_names.len(),
        ]
    }
}

pub fn functions(main: &Prototype) -> Vec<Function<'_>> {
    let mut list = Vec::new();
    visit(&mut list, main, 0);
    list
}

/// A function's bytes begin before those of its nested functions: a function first, then each nested one with all within it.
fn visit<'a>(list: &mut Vec<Function<'a>>, proto: &'a Prototype, parent: usize) {
    let number = list.len();
    let start = proto.source.byte_offset;
    let end = start + proto.source.byte_length;
    list.push(Function { proto, depth: proto.path.depth(), parent, start, end });
    for nested in &proto.protos {
        visit(list, nested, number);
    }
}
