// The full copy (02, item 6), which the Rust does not have: its archive copy, with the source of a nested function put in where that is not its parent's. Where functions begin in the copy, and which sources they have, is told by
// what the Rust decodes. The self-test has wrong rules for which sources these are.
use crate::functions::{functions, Function};
use crate::limits::{read, CEILING, DIAGNOSTICS_CEILING, NESTING_CEILING};
use crate::make::number;
use crate::parts::Head;
use luad_core::limits::ResourceLimits;

/// Wrong rules: every source is written, none is, it is held against that of the function around the parent, against the parent's as it is spelt, by lengths alone, and an empty one is taken for a missing one.
pub const WRONG: [&str; 6] = ["every", "none", "grandparent", "as spelt", "lengths", "empty"];

/// The rule after which the copy is as long, and other bytes stand in it.
pub const AS_LONG: usize = 5;

type Source<'a> = Option<&'a [u8]>;

fn source<'a>(function: &Function<'a>) -> Source<'a> {
    function.proto.source_name.as_ref().map(|name| name.raw_bytes.as_slice())
}

/// Whether nothing is written of a nested source.
fn absent(wrong: Option<usize>, own: Source, parent: Source, grandparent: Source, spelt: Source) -> bool {
    match wrong {
        None => own == parent,
        Some(0) => own.is_none(),
        Some(1) => true,
        Some(2) => own == grandparent,
        Some(3) => own == spelt,
        Some(4) => own.map(<[u8]>::len) == parent.map(<[u8]>::len),
        _ => own.unwrap_or_default() == parent.unwrap_or_default(),
    }
}

fn ceilings() -> ResourceLimits {
    ResourceLimits {
        max_input_bytes: CEILING,
        max_nesting_depth: NESTING_CEILING,
        max_total_prototypes: CEILING,
        max_instructions_per_proto: CEILING,
        max_total_instructions: CEILING,
        max_constants_per_proto: CEILING,
        max_upvalues_per_proto: CEILING,
        max_string_bytes: CEILING,
        max_diagnostics: DIAGNOSTICS_CEILING,
    }
}

/// The full copy of a chunk with these functions, by its archive copy.
pub fn full_copy(decoded: &[Function], heads: &[Head], copy: &[u8], wrong: Option<usize>) -> Vec<u8> {
    let again = read(&ceilings(), copy).unwrap_or_else(|_| panic!("the copy is read"));
    let places = functions(&again.main_proto);
    assert_eq!(places.len(), decoded.len(), "the copy has the chunk's functions");
    let (mut full, mut from) = (Vec::new(), 0);
    for (function, place) in decoded.iter().zip(&places).skip(1) {
        assert_eq!((copy[place.start], function.parent), (0x80, place.parent), "a nested source is absent in the copy");
        let parent = &decoded[function.parent];
        let spelt = source(parent).filter(|_| heads[function.parent].source[0] == 1);
        let own = source(function);
        if !absent(wrong, own, source(parent), source(&decoded[parent.parent]), spelt) {
            full.extend_from_slice(&copy[from..place.start]);
            let own = own.expect("a source that is written is there");
            number(&mut full, own.len() as u64 + 1);
            full.extend_from_slice(own);
            from = place.start + 1;
        }
    }
    full.extend_from_slice(&copy[from..]);
    full
}
