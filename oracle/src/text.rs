// The few forms in which answers are written.

/// Formats onto the text. A `String` takes every text, so nothing can fail.
macro_rules! put {
    ($out:expr, $($form:tt)*) => {{
        use std::fmt::Write;
        write!($out, $($form)*).expect("a String takes every text");
    }};
}
pub(crate) use put;

/// STR: `x` and the bytes, or `-` for an absent string.
pub fn put_str(out: &mut String, string: Option<&[u8]>) {
    match string {
        None => out.push('-'),
        Some(bytes) => {
            out.push('x');
            out.push_str(&hex::encode(bytes));
        }
    }
}
