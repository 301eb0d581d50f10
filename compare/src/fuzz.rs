// The fuzz target, for libFuzzer: an input is which limit, its value, and a chunk; all answers are compared. A difference is printed, and stops it.
use compare::bounds::CEILINGS;
use compare::case::Case;
use compare::check::check;
use compare::lender::{Alteration, Lender, Way};
use compare::tally::Tally;
use std::sync::OnceLock;

static ALTERATION: OnceLock<Option<Alteration>> = OnceLock::new();

/// Done once: panics are told as differences, and COMPARE_ALTER names a call whose first number is changed, to see that the target finds it.
fn prepared() -> Option<Alteration> {
    std::panic::set_hook(Box::new(|_| {}));
    let call = std::env::var("COMPARE_ALTER").ok()?;
    Some(Alteration { call: call.leak(), way: Way::Number(0) })
}

/// A limit from a byte: itself, or near the ceiling, or at the chunk's length.
fn limit(byte: u8, ceiling: u64, length: u64) -> u64 {
    match byte {
        0..=239 => u64::from(byte),
        240 => ceiling,
        241 => ceiling + 1,
        242 => u64::MAX,
        243 => length,
        244 => length.saturating_sub(1),
        _ => ceiling - 1,
    }
}

fn case(data: &[u8]) -> Option<Case> {
    let ([which, value], chunk) = data.split_first_chunk()?;
    let mut limits = CEILINGS;
    if let Some(ceiling) = CEILINGS.get(usize::from(*which)) {
        limits[usize::from(*which)] = limit(*value, *ceiling, chunk.len() as u64);
    }
    // What is asked by chance depends on the input alone.
    let ask =
        data.iter().fold(0xcbf2_9ce4_8422_2325u64, |sum, byte| (sum ^ u64::from(*byte)).wrapping_mul(0x100_0000_01b3));
    Some(Case { chunk: chunk.to_vec(), limits, ask })
}

/// # Safety
/// `data` has `size` bytes.
#[no_mangle]
pub unsafe extern "C" fn LLVMFuzzerTestOneInput(data: *const u8, size: usize) -> i32 {
    let alteration = *ALTERATION.get_or_init(prepared);
    let data = if size == 0 { &[] } else { std::slice::from_raw_parts(data, size) };
    let Some(case) = case(data) else {
        return 0;
    };
    if let Err(difference) = check(&case, &mut Lender { alteration, asked: 0 }, &mut Tally::default()) {
        eprintln!("differs: {}\n  asked with {}\n{difference}", case.request(), case.ask);
        std::process::abort();
    }
    0
}
