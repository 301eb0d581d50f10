// The judge: reads requests from standard input, one a line, and writes the Rust's answers to standard output.
mod chunks;
mod findings;
mod functions;
mod limits;
mod lines;
mod padded;
mod refusals;
mod request;
mod text;
mod words;

use request::Request;
use std::io::{self, BufRead, BufReader, BufWriter, Write};

/// The longest line that is a request, without its line feed.
const LONGEST_REQUEST: usize = 1_048_576;

/// The Rust reads a nested function by recursion, and we number functions so: no nesting in a request shall be short of stack.
const STACK_BYTES: usize = 512 << 20;

const BUFFER_BYTES: usize = 1 << 20;

fn main() {
    let worker = std::thread::Builder::new().stack_size(STACK_BYTES).spawn(serve).expect("a thread");
    match worker.join() {
        Ok(Ok(())) => {}
        Ok(Err(error)) => {
            eprintln!("oracle: {error}");
            std::process::exit(1);
        }
        // The panic has printed its reason.
        Err(_) => std::process::exit(101),
    }
}

/// Answers every request. Answers are held back only while further requests are at hand.
fn serve() -> io::Result<()> {
    let mut input = BufReader::with_capacity(BUFFER_BYTES, io::stdin());
    let mut output = BufWriter::with_capacity(BUFFER_BYTES, io::stdout());
    let mut line = Vec::new();
    let mut answer = String::new();
    loop {
        if input.buffer().is_empty() {
            output.flush()?;
        }
        line.clear();
        if input.read_until(b'\n', &mut line)? == 0 {
            return output.flush();
        }
        if line.last() == Some(&b'\n') {
            line.pop();
        }
        if line.is_empty() || line[0] == b'#' {
            continue;
        }
        answer.clear();
        put_answer(&mut answer, &line);
        answer.push_str("end\n");
        output.write_all(answer.as_bytes())?;
    }
}

/// The answer to one line, without its `end`.
fn put_answer(out: &mut String, line: &[u8]) {
    let request = if line.len() <= LONGEST_REQUEST { request::parse(line) } else { None };
    match request {
        None => out.push_str("bad request\n"),
        Some(Request::Chunk { limits, chunk }) => chunks::put_chunk(out, &limits, &chunk),
        Some(Request::Verdict { limits, chunk }) => chunks::put_verdict_alone(out, &limits, &chunk),
        Some(Request::Lines { limits, chunk, function, pcs }) => {
            lines::put_lookups(out, &limits, &chunk, function, &pcs)
        }
        Some(Request::Word(word)) => words::put_word(out, word),
        Some(Request::Encode(fields)) => words::put_encoded(out, fields),
    }
}
