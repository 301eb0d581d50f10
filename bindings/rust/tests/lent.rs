//! Memory lent to the library: what is behind a result stays, and all of it where the call is refused.
#![cfg(repository)]
mod common;

use common::{file, kept_chunks};
use lafzimdo::{Chunk, Limits, Local, Refusal};
use std::fs;

const BEFORE: u8 = 0xa5;

#[test]
fn copies() {
    let mut copied = 0;
    for (limits, bytes, _) in kept_chunks() {
        let Ok(chunk) = Chunk::read(&bytes, limits) else { continue };
        let copy = chunk.copy();
        assert_eq!(chunk.copy_length(), copy.len());
        for more in [0, 1, 100] {
            let mut lent = vec![BEFORE; copy.len() + more];
            assert_eq!(chunk.copy_into(&mut lent), Ok(copy.len()));
            assert_eq!(lent[..copy.len()], copy);
            assert!(lent[copy.len()..].iter().all(|byte| *byte == BEFORE));
        }
        for less in [copy.len() - 1, copy.len() / 2, 0] {
            let mut lent = vec![BEFORE; less];
            assert_eq!(chunk.copy_into(&mut lent), Err(Refusal::LentSpace));
            assert!(lent.iter().all(|byte| *byte == BEFORE));
        }
        copied += 1;
    }
    assert!(copied > 2_000, "only {copied} copies");
}

#[test]
fn names_of_locals() {
    let bytes = fs::read(file("samples/recentre.luac")).unwrap();
    let chunk = Chunk::read(&bytes, Limits::ceilings()).unwrap();
    let mut lent = [BEFORE; 8];
    assert_eq!(chunk.local_into(0, 0, &mut lent), Ok(Local { name: 5, startpc: 4, endpc: 79 }));
    assert_eq!(&lent, b"start\xa5\xa5\xa5");
    let mut short = [BEFORE; 4];
    assert_eq!(chunk.local_into(0, 0, &mut short), Err(Refusal::LentSpace));
    assert_eq!(short, [BEFORE; 4]);
    assert_eq!(chunk.local_into(0, 17, &mut lent), Err(Refusal::NoEntry));
    assert_eq!(chunk.local_into(7, 17, &mut []), Err(Refusal::NoFunction));
}

#[test]
fn copies_of_copies() {
    for (limits, bytes, _) in kept_chunks() {
        // A string limit of 0 refuses the name that an absent one is copied as.
        if limits != Limits::ceilings() {
            continue;
        }
        let Ok(chunk) = Chunk::read(&bytes, limits) else { continue };
        let copy = chunk.copy();
        let again = Chunk::read(&copy, limits).unwrap();
        assert_eq!(again.copy(), copy);
        assert_eq!((again.function_count(), again.trailing_bytes()), (chunk.function_count(), chunk.trailing_bytes()));
    }
}
