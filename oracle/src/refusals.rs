// Refusals: the numbers of 01 for the Rust's diagnostic codes, and how a refusal is written.
use crate::text::put;
use luad_core::diagnostic::Diagnostic;

#[derive(Clone, Copy)]
pub struct Refusal {
    pub number: u8,
    pub place: Option<usize>,
}

impl Refusal {
    pub fn without_place(number: u8) -> Refusal {
        Refusal { number, place: None }
    }

    /// The refusal for which the Rust stopped reading.
    pub fn of(diagnostic: &Diagnostic) -> Refusal {
        let place = diagnostic.source.as_ref().map(|source| source.byte_offset);
        Refusal { number: number_of(&diagnostic.code), place }
    }

    /// `refused N PLACE`, without the line's end.
    pub fn put(&self, out: &mut String) {
        put!(out, "refused {} ", self.number);
        match self.place {
            Some(place) => put!(out, "{place}"),
            None => out.push('-'),
        }
    }
}

fn number_of(code: &str) -> u8 {
    match code {
        "CORE-TRUNC-001" => 1,
        "CORE-OVERFLOW-001" => 2,
        "L54-VARINT-001" => 3,
        "L54-HEADER-001" => 4,
        "L54-HEADER-002" => 5,
        "L54-HEADER-004" => 6,
        "L54-HEADER-005" => 7,
        "L54-HEADER-006" => 8,
        "L54-HEADER-007" => 9,
        "L54-HEADER-008" => 10,
        "L54-HEADER-009" => 11,
        "L54-CONST-002" => 12,
        "L54-STR-001" => 13,
        "L54-CODE-001" => 14,
        "CORE-LIMIT-004" => 15,
        "L54-CONST-001" => 16,
        "L54-UPVAL-001" => 17,
        "L54-PROTO-001" => 18,
        "CORE-LIMIT-001" => 19,
        "CORE-LIMIT-002" => 20,
        _ => panic!("reading stopped with {code}, which has no number"),
    }
}
