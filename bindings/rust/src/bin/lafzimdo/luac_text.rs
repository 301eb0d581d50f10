//! How luac writes constants and names. Behind `;` and in headings, where luac prints them whole each time, long ones
//! are cut.
use lafzimdo::Constant;
use std::fmt;

/// Of a text that stands in a line for each word, or for each function, this much is printed, in characters: else a
/// file could make the same text stand in millions of lines.
const FRONT: usize = 200;

/// The front of a text, and what tells that it is cut: nothing where it is not. No more than the front is looked at.
/// `width` is how many characters a byte takes.
fn cut(text: &[u8], width: fn(u8) -> usize) -> (&[u8], String) {
    let mut printed = 0;
    let fits = |byte: &&u8| {
        printed += width(**byte);
        printed <= FRONT
    };
    match text.iter().take_while(fits).count() {
        all if all == text.len() => (text, String::new()),
        front => (&text[..front], format!(".. ({} bytes)", text.len())),
    }
}

/// A constant behind `;`, cut where it is long.
pub fn cut_constant(constant: Option<&Constant<'_>>) -> String {
    match constant {
        Some(Constant::ShortString(text) | Constant::LongString(text)) => {
            let (front, mark) = cut(text, width);
            format!("\"{}\"{mark}", Escaped(front))
        }
        other => Value(other).to_string(),
    }
}

/// A name behind `;`, or in a heading, cut where it is long.
pub fn cut_name(name: &[u8]) -> String {
    let (front, mark) = cut(name, name_width);
    format!("{}{mark}", Name(front))
}

/// A constant; `?` where there is none.
pub struct Value<'a>(pub Option<&'a Constant<'a>>);

impl fmt::Display for Value<'_> {
    fn fmt(&self, f: &mut fmt::Formatter<'_>) -> fmt::Result {
        match self.0 {
            None => f.write_str("?"),
            Some(Constant::Nil) => f.write_str("nil"),
            Some(Constant::Boolean(value)) => write!(f, "{value}"),
            Some(Constant::Integer(value)) => write!(f, "{value}"),
            Some(Constant::Float(value)) => f.write_str(&float(*value)),
            Some(Constant::ShortString(text) | Constant::LongString(text)) => write!(f, "\"{}\"", Escaped(text)),
        }
    }
}

/// A float as C's `%.14g` prints it, with `.0` behind what looks like an integer.
fn float(value: f64) -> String {
    if value.is_nan() {
        return if value.is_sign_negative() { "-nan" } else { "nan" }.into();
    }
    if value.is_infinite() {
        return if value < 0.0 { "-inf" } else { "inf" }.into();
    }
    let rounded = format!("{value:.13e}");
    let (digits, exponent) = rounded.split_once('e').unwrap_or((&rounded, "0"));
    let exponent: i32 = exponent.parse().unwrap_or_default();
    if (-4..14).contains(&exponent) {
        let fixed = format!("{value:.*}", (13 - exponent) as usize);
        let short = if fixed.contains('.') { fixed.trim_end_matches('0').trim_end_matches('.') } else { &fixed };
        return if short.contains('.') { short.into() } else { format!("{short}.0") };
    }
    let digits = digits.trim_end_matches('0').trim_end_matches('.');
    format!("{digits}e{}{:02}", if exponent < 0 { '-' } else { '+' }, exponent.abs())
}

/// The bytes of a string between its quotes.
struct Escaped<'a>(&'a [u8]);

impl fmt::Display for Escaped<'_> {
    fn fmt(&self, f: &mut fmt::Formatter<'_>) -> fmt::Result {
        self.0.iter().try_for_each(|byte| match byte {
            b'"' => f.write_str("\\\""),
            b'\\' => f.write_str("\\\\"),
            7 => f.write_str("\\a"),
            8 => f.write_str("\\b"),
            9 => f.write_str("\\t"),
            10 => f.write_str("\\n"),
            11 => f.write_str("\\v"),
            12 => f.write_str("\\f"),
            13 => f.write_str("\\r"),
            b' '..=b'~' => write!(f, "{}", char::from(*byte)),
            _ => write!(f, "\\{byte:03}"),
        })
    }
}

/// How many characters a byte takes in a string.
fn width(byte: u8) -> usize {
    match byte {
        b'"' | b'\\' | 7..=13 => 2,
        b' '..=b'~' => 1,
        _ => 4,
    }
}

/// A name. luac prints its bytes; here those that are not printable are shown as in strings.
pub struct Name<'a>(pub &'a [u8]);

impl fmt::Display for Name<'_> {
    fn fmt(&self, f: &mut fmt::Formatter<'_>) -> fmt::Result {
        self.0.iter().try_for_each(|byte| match byte {
            b' '..=b'~' => write!(f, "{}", char::from(*byte)),
            _ => Escaped(&[*byte]).fmt(f),
        })
    }
}

/// How many characters a byte takes in a name.
fn name_width(byte: u8) -> usize {
    match byte {
        b' '..=b'~' => 1,
        _ => width(byte),
    }
}

/// An upvalue's name; `-` where it has none.
pub struct UpvalueName<'a>(pub Option<&'a [u8]>);

impl fmt::Display for UpvalueName<'_> {
    fn fmt(&self, f: &mut fmt::Formatter<'_>) -> fmt::Result {
        match self.0 {
            Some(name) => Name(name).fmt(f),
            None => f.write_str("-"),
        }
    }
}

#[cfg(test)]
mod tests {
    use super::*;

    #[test]
    fn floats_as_c_prints_them() {
        for (value, text) in [
            (0.0, "0.0"),
            (-0.0, "-0.0"),
            (0.5, "0.5"),
            (100.0, "100.0"),
            (1e14, "1e+14"),
            (99999999999999.0, "99999999999999.0"),
            (1e-4, "0.0001"),
            (1e-5, "1e-05"),
            (0.1 + 0.2, "0.3"),
            (1.0 / 3.0, "0.33333333333333"),
            (99999999999999.99, "1e+14"),
            (1e300, "1e+300"),
            (5e-324, "4.9406564584125e-324"),
            (f64::INFINITY, "inf"),
            (-f64::INFINITY, "-inf"),
        ] {
            assert_eq!(float(value), text);
        }
    }

    #[test]
    fn long_texts_are_cut() {
        let long = [b'x'; 201];
        let (x200, x199) = ("x".repeat(200), "x".repeat(199));
        let string = |text: &[u8]| cut_constant(Some(&Constant::LongString(text)));
        assert_eq!(string(&long[..200]), format!("\"{x200}\""));
        assert_eq!(string(&long), format!("\"{x200}\".. (201 bytes)"));
        assert_eq!(cut_name(&long[..200]), x200);
        assert_eq!(cut_name(&long), format!("{x200}.. (201 bytes)"));
        // By what is printed: an escape is not broken, nor do escapes make a line longer.
        let quoted = [&long[..199], b"\"x"].concat();
        assert_eq!(string(&quoted), format!("\"{x199}\".. (201 bytes)"));
        assert_eq!(string(&[0; 50]), format!("\"{}\"", "\\000".repeat(50)));
        assert_eq!(string(&[0; 51]), format!("\"{}\".. (51 bytes)", "\\000".repeat(50)));
        // What is no string is as it is in the list of constants.
        assert_eq!(cut_constant(Some(&Constant::Float(0.5))), "0.5");
        assert_eq!(cut_constant(None), "?");
    }

    #[test]
    fn widths() {
        for byte in 0..=255 {
            assert_eq!(width(byte), Escaped(&[byte]).to_string().len());
            assert_eq!(name_width(byte), Name(&[byte]).to_string().len());
        }
    }
}
