//! Strings of a chunk in `Debug`: as text.
use std::fmt::{self, Write};

/// Bytes shown as a quoted text: UTF-8 as it is, `\xNN` for all bytes that are none.
pub(crate) struct Text<'a>(pub(crate) &'a [u8]);

impl fmt::Debug for Text<'_> {
    fn fmt(&self, f: &mut fmt::Formatter<'_>) -> fmt::Result {
        f.write_char('"')?;
        let mut left = self.0;
        while !left.is_empty() {
            let (text, bad, behind) = match std::str::from_utf8(left) {
                Ok(text) => (text, &left[..0], &left[left.len()..]),
                Err(error) => {
                    let (text, rest) = left.split_at(error.valid_up_to());
                    let (bad, behind) = rest.split_at(error.error_len().unwrap_or(rest.len()));
                    (std::str::from_utf8(text).unwrap_or_default(), bad, behind)
                }
            };
            text.chars().try_for_each(|c| match c {
                '\'' => f.write_char(c),
                _ => c.escape_debug().try_for_each(|c| f.write_char(c)),
            })?;
            bad.iter().try_for_each(|byte| write!(f, "\\x{byte:02x}"))?;
            left = behind;
        }
        f.write_char('"')
    }
}

#[cfg(test)]
mod tests {
    use super::*;

    #[test]
    fn as_text() {
        let shown = |bytes: &[u8]| format!("{:?}", Text(bytes));
        assert_eq!(shown(b""), r#""""#);
        assert_eq!(shown(b"it's \"a\"\n"), r#""it's \"a\"\n""#);
        assert_eq!(shown("Grüße".as_bytes()), "\"Grüße\"");
        assert_eq!(shown(b"a\xffb\xc3"), r#""a\xffb\xc3""#);
        assert_eq!(shown(b"\xe2\x82x\0"), r#""\xe2\x82x\0""#);
    }
}
