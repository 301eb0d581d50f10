//! The functions of each chunk that is named: number, first line, and the texts that it holds.
use lafzimdo::{Chunk, Constant, Limits};
use std::error::Error;

fn main() -> Result<(), Box<dyn Error>> {
    for name in std::env::args().skip(1) {
        let bytes = std::fs::read(&name)?;
        let chunk = Chunk::read(&bytes, Limits::ceilings())?;
        println!("{name}: {} functions, {}", chunk.function_count(), chunk.verdict());
        for function in chunk.functions() {
            let texts = function.constants().filter_map(|constant| match constant {
                Constant::ShortString(text) | Constant::LongString(text) => Some(String::from_utf8_lossy(text)),
                _ => None,
            });
            let texts: Vec<_> = texts.collect();
            println!("  {} from line {}: {}", function.number(), function.fields().line_defined, texts.join(", "));
        }
    }
    Ok(())
}
