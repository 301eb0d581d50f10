//! Bytes as a quoted text.
use std::fmt;

/// Quoted: `\"`, `\\`, `\n`, `\r`, `\t`, `\xNN` for all other bytes that are not printable ASCII.
pub struct Quoted<'a>(pub &'a [u8]);

impl fmt::Display for Quoted<'_> {
    fn fmt(&self, f: &mut fmt::Formatter<'_>) -> fmt::Result {
        f.write_str("\"")?;
        for &byte in self.0 {
            match byte {
                b'"' => f.write_str("\\\"")?,
                b'\\' => f.write_str("\\\\")?,
                b'\n' => f.write_str("\\n")?,
                b'\r' => f.write_str("\\r")?,
                b'\t' => f.write_str("\\t")?,
                b' '..=b'~' => write!(f, "{}", byte as char)?,
                _ => write!(f, "\\x{byte:02x}")?,
            }
        }
        f.write_str("\"")
    }
}

/// The same of a string that may be absent, which is `-`.
pub struct QuotedIf<'a>(pub Option<&'a [u8]>);

impl fmt::Display for QuotedIf<'_> {
    fn fmt(&self, f: &mut fmt::Formatter<'_>) -> fmt::Result {
        match self.0 {
            Some(bytes) => Quoted(bytes).fmt(f),
            None => f.write_str("-"),
        }
    }
}

/// Of a long text this much is shown in a comment: else a file could make the same text stand in millions of lines.
const SHORT: usize = 60;

/// Quoted, and cut where it is long.
pub struct Short<'a>(pub &'a [u8]);

impl fmt::Display for Short<'_> {
    fn fmt(&self, f: &mut fmt::Formatter<'_>) -> fmt::Result {
        match self.0.get(..SHORT) {
            Some(front) if self.0.len() > SHORT => write!(f, "{}.. ({} bytes)", Quoted(front), self.0.len()),
            _ => Quoted(self.0).fmt(f),
        }
    }
}

/// A name: as it is where it is a name in Lua or a file's, else quoted; cut where it is long.
pub struct Plain<'a>(pub &'a [u8]);

impl fmt::Display for Plain<'_> {
    fn fmt(&self, f: &mut fmt::Formatter<'_>) -> fmt::Result {
        let plain = |byte: &u8| byte.is_ascii_alphanumeric() || b"_./-+?:()[] ".contains(byte);
        // The length comes first: a name stands in a line for each word that uses it, and may be as long as the file.
        match self.0.len() {
            1..=SHORT if self.0.iter().all(plain) => f.write_str(&String::from_utf8_lossy(self.0)),
            _ => Short(self.0).fmt(f),
        }
    }
}

#[cfg(test)]
mod tests {
    use super::*;

    #[test]
    fn quoted() {
        assert_eq!(Quoted(b"a \"\\\n\r\t\x00\x7f\xc3~").to_string(), r#""a \"\\\n\r\t\x00\x7f\xc3~""#);
        assert_eq!(QuotedIf(Some(b"")).to_string(), "\"\"");
        assert_eq!(QuotedIf(None).to_string(), "-");
    }

    #[test]
    fn short_and_plain() {
        let long = [b'x'; 61];
        assert_eq!(Short(&long[..60]).to_string(), format!("\"{}\"", "x".repeat(60)));
        assert_eq!(Short(&long).to_string(), format!("\"{}\".. (61 bytes)", "x".repeat(60)));
        assert_eq!(Plain(b"lib/main-2.lua").to_string(), "lib/main-2.lua");
        assert_eq!(Plain(b"(for state)").to_string(), "(for state)");
        assert_eq!(Plain(b"a\x1b[2J").to_string(), r#""a\x1b[2J""#);
        assert_eq!(Plain(b"a, R1=b").to_string(), r#""a, R1=b""#);
        assert_eq!(Plain(b"").to_string(), r#""""#);
        assert_eq!(Plain(&long).to_string(), Short(&long).to_string());
    }
}
