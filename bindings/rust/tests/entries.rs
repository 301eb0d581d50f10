//! What the iterators show is what the calls by number show, on every kept chunk; and each refusal of a number that is not there.
#![cfg(repository)]
mod common;

use common::{file, kept_chunks};
use lafzimdo::{Chunk, Function, Limits, Local, Refusal};
use std::fmt::Debug;
use std::fs;

/// Each entry equal to the call by its number, and no entry behind the last.
fn each<T: PartialEq + Debug>(
    entries: impl ExactSizeIterator<Item = T>,
    count: usize,
    by_number: impl Fn(usize) -> Result<T, Refusal>,
) -> usize {
    assert_eq!(entries.len(), count);
    let mut seen = 0;
    for (number, entry) in entries.enumerate() {
        assert_eq!(by_number(number), Ok(entry));
        seen += 1;
    }
    assert_eq!(seen, count);
    for number in [count, usize::MAX] {
        assert_eq!(by_number(number), Err(Refusal::NoEntry));
    }
    seen
}

fn function(chunk: &Chunk<'_>, function: &Function<'_>) -> usize {
    let n = function.number();
    let fields = function.fields();
    let counts = fields.counts;
    let row = chunk.index()[n];
    assert_eq!(chunk.fields(n), Ok(*fields));
    assert_eq!((row.depth(), row.parent(), row.counts()), (fields.depth, fields.parent, counts));
    assert_eq!((row.start(), row.end()), (function.start(), function.end()));
    assert!(chunk.instructions(n).unwrap().eq(function.instructions()));
    assert!(chunk.constants(n).unwrap().eq(function.constants()));
    let owned =
        function.locals().map(|local| Local { name: local.name.to_vec(), startpc: local.startpc, endpc: local.endpc });
    each(function.instructions(), counts.instructions, |entry| chunk.instruction(n, entry))
        + each(function.constants(), counts.constants, |entry| chunk.constant(n, entry))
        + each(function.upvalues(), counts.upvalues, |entry| chunk.upvalue(n, entry))
        + each(function.deltas(), counts.line_info, |entry| chunk.delta(n, entry))
        + each(function.anchors(), counts.abs_line_info, |entry| chunk.anchor(n, entry))
        + each(owned, counts.loc_vars, |entry| chunk.local(n, entry))
        + each(function.upvalue_names(), counts.upvalue_names, |entry| chunk.upvalue_name(n, entry))
}

/// How many entries were compared.
fn whole(bytes: &[u8], limits: Limits) -> usize {
    let Ok(chunk) = Chunk::read(bytes, limits) else {
        return 0;
    };
    let count = chunk.function_count();
    assert_eq!(chunk.functions().len(), count);
    assert_eq!(chunk.index().len(), count);
    assert_eq!(
        chunk.functions().rev().map(|function| function.number()).collect::<Vec<_>>(),
        (0..count).rev().collect::<Vec<_>>()
    );
    for number in [count, usize::MAX] {
        assert_eq!(chunk.function(number).map(|_| ()), Err(Refusal::NoFunction));
        assert_eq!(chunk.fields(number), Err(Refusal::NoFunction));
        assert_eq!(chunk.instructions(number).map(|_| ()), Err(Refusal::NoFunction));
        assert_eq!(chunk.constants(number).map(|_| ()), Err(Refusal::NoFunction));
        assert_eq!(chunk.instruction(number, 0), Err(Refusal::NoFunction));
        assert_eq!(chunk.line(number, 0), Err(Refusal::NoFunction));
    }
    chunk.functions().map(|one| function(&chunk, &one)).sum()
}

#[test]
fn by_iterator_as_by_number() {
    let compared: usize = kept_chunks().iter().map(|(limits, bytes, _)| whole(bytes, *limits)).sum();
    assert!(compared > 50_000, "only {compared} entries");
}

#[test]
fn of_the_samples() {
    for name in ["samples/recentre.luac", "samples/recentre.stripped.luac"] {
        let bytes = fs::read(file(name)).unwrap();
        assert!(whole(&bytes, Limits::ceilings()) > 100);
    }
}

#[test]
fn a_local_with_a_long_name() {
    let mut main = common::function(0, 0, &[], &[], &[]);
    main.truncate(main.len() - 2);
    main.push(0x81);
    main.extend(common::number(3001));
    main.extend([b'n'; 3000]);
    main.extend([0x85, 0x87, 0x80]);
    let bytes = common::chunk(&main);
    let chunk = Chunk::read(&bytes, Limits::ceilings()).unwrap();
    let local = chunk.local(0, 0).unwrap();
    assert_eq!(local, Local { name: vec![b'n'; 3000], startpc: 5, endpc: 7 });
    assert_eq!(chunk.function(0).unwrap().locals().next().unwrap().name, [b'n'; 3000]);
}

#[test]
fn a_chunk_may_be_shared_by_threads() {
    let bytes = fs::read(file("samples/recentre.luac")).unwrap();
    let chunk = Chunk::read(&bytes, Limits::ceilings()).unwrap();
    let counted = || chunk.functions().map(|function| function.instructions().count()).sum::<usize>();
    std::thread::scope(|scope| {
        let both = [scope.spawn(counted), scope.spawn(counted)];
        assert_eq!(both.map(|one| one.join().unwrap()), [248, 248]);
    });
}

#[test]
fn a_chunk_may_live_shorter_than_its_bytes() {
    fn shorter<'a>(chunk: Chunk<'static>, _: &'a str) -> Chunk<'a> {
        chunk
    }
    const BYTES: &[u8] = include_bytes!("../../../samples/recentre.luac");
    let name = String::from("recentre");
    assert_eq!(shorter(Chunk::read(BYTES, Limits::ceilings()).unwrap(), &name).function_count(), 7);
}
