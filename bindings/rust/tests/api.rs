//! What the crate adds to the calls: nested functions, the owned form, texts in Debug.
mod common;

use common::{chunk, function};
use lafzimdo::{Chunk, Function, Limits, OwnedChunk, Refusal};
use std::collections::BTreeMap;

const RECENTRE: &[u8] = include_bytes!("data/recentre.luac");

/// The numbers of the functions nested in each, by their parents.
fn by_parents(chunk: &Chunk<'_>) -> BTreeMap<usize, Vec<usize>> {
    let mut nested: BTreeMap<usize, Vec<usize>> = BTreeMap::new();
    for function in chunk.functions().skip(1) {
        nested.entry(function.fields().parent).or_default().push(function.number());
    }
    nested
}

fn numbers<'a>(functions: impl Iterator<Item = Function<'a>>) -> Vec<usize> {
    functions.map(|function| function.number()).collect()
}

fn see_nested(chunk: &Chunk<'_>) -> usize {
    let mut expected = by_parents(chunk);
    let mut seen = 0;
    for function in chunk.functions() {
        assert_eq!(function.nested().len(), function.fields().counts.protos);
        let nested = numbers(function.nested());
        seen += nested.len();
        assert_eq!(nested, expected.remove(&function.number()).unwrap_or_default());
    }
    seen
}

#[test]
fn nested_functions() {
    let leaf = || function(1, 1, &[], &[], &[]);
    let deep = function(1, 0, &[function(2, 0, &[leaf()], &[], &[]), leaf()], &[], &[]);
    let bytes = chunk(&function(0, 0, &[leaf(), deep, leaf()], &[], &[]));
    let chunk = Chunk::read(&bytes, Limits::ceilings()).unwrap();
    assert_eq!(numbers(chunk.function(0).unwrap().nested()), [1, 2, 6]);
    assert_eq!(numbers(chunk.function(2).unwrap().nested()), [3, 5]);
    assert_eq!(see_nested(&chunk), 6);
    assert_eq!(see_nested(&Chunk::read(RECENTRE, Limits::ceilings()).unwrap()), 6);
}

#[test]
#[cfg(repository)]
fn nested_functions_of_every_kept_chunk() {
    let seen: usize = common::kept_chunks()
        .into_iter()
        .filter_map(|(limits, bytes, _)| Chunk::read(&bytes, limits).ok().map(|chunk| see_nested(&chunk)))
        .sum();
    assert!(seen > 1_000, "only {seen} nested functions");
}

fn sent<T: Send + Sync + 'static>(value: T) -> T {
    std::thread::spawn(move || value).join().unwrap()
}

#[test]
fn an_owned_chunk() {
    let owned = sent(OwnedChunk::read(RECENTRE.to_vec(), Limits::ceilings()).unwrap());
    let borrowed = Chunk::read(RECENTRE, Limits::ceilings()).unwrap();
    assert_eq!(owned.bytes(), RECENTRE);
    assert_eq!(owned.chunk().limits(), Limits::ceilings());
    assert_eq!(owned.chunk().index(), borrowed.index());
    assert_eq!(owned.chunk().copy(), RECENTRE);
    // The index is made once: these are parts of one.
    let (first, again) = (owned.chunk(), owned.clone());
    assert!(std::ptr::eq(first.index(), again.chunk().index()));
    let of_borrowed: OwnedChunk = borrowed.into();
    assert_eq!(of_borrowed.chunk().function_count(), 7);
    let refused = OwnedChunk::read(&RECENTRE[..45], Limits::ceilings()).unwrap_err();
    assert_eq!(refused, Chunk::read(&RECENTRE[..45], Limits::ceilings()).unwrap_err());
    assert!(matches!(refused, Refusal::Truncated(_)));
}

/// The sample that the tests have when the crate stands alone is the repository's.
#[test]
#[cfg(repository)]
fn the_sample() {
    assert_eq!(std::fs::read(common::file("samples/recentre.luac")).unwrap(), RECENTRE);
}

#[test]
fn texts_in_debug() {
    let chunk = Chunk::read(RECENTRE, Limits::ceilings()).unwrap();
    assert!(format!("{chunk:?}").starts_with("Chunk { bytes: 2372, header: Header { version: 84, "), "{chunk:?}");
    let main = chunk.function(0).unwrap();
    assert!(format!("{main:?}").contains(r#"source: Some("@recentre.lua")"#), "{main:?}");
    let constants: Vec<_> = main.constants().take(3).collect();
    assert_eq!(format!("{constants:?}"), r#"[Float(0.5), ShortString("freq"), Float(131.2)]"#);
    let local = main.locals().next().unwrap();
    assert_eq!(format!("{local:?}"), r#"Local { name: "start", startpc: 4, endpc: 79 }"#);
    assert_eq!(format!("{:?}", chunk.local(0, 0).unwrap()), format!("{local:?}"));
    assert_eq!(format!("{:?}", chunk.local_into(0, 0, &mut [0; 9])), "Ok(Local { name: 5, startpc: 4, endpc: 79 })");
}

#[test]
fn the_librarys_version() {
    let parts = env!("CARGO_PKG_VERSION").split('.').map(|part| part.parse::<u64>().unwrap());
    assert_eq!(lafzimdo::library_version(), parts.fold(0, |number, part| number * 1_000 + part));
}
