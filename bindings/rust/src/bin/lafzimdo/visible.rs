//! Text from outside, such as the name of a file, so that a terminal shows what it is.
use std::fmt::{self, Write};

/// These are not seen either, though they count as letters, marks or signs: fillers, joiners, selectors of a variant,
/// and blanks.
const UNSEEN: [(char, char); 10] = [
    ('\u{34f}', '\u{34f}'),
    ('\u{115f}', '\u{1160}'),
    ('\u{17b4}', '\u{17b5}'),
    ('\u{180b}', '\u{180f}'),
    ('\u{2800}', '\u{2800}'),
    ('\u{3164}', '\u{3164}'),
    ('\u{fe00}', '\u{fe0f}'),
    ('\u{ffa0}', '\u{ffa0}'),
    ('\u{1d159}', '\u{1d159}'),
    ('\u{e0100}', '\u{e01ef}'),
];

/// Whether a terminal shows a character as it is. A mark is shown on the letter before it; as the first of a text it
/// would be shown on what was printed before that.
pub fn is_seen(c: char, first: bool) -> bool {
    if let ' '..='~' = c {
        return true;
    }
    let unseen = UNSEEN.iter().any(|(from, to)| (*from..=*to).contains(&c));
    !unseen && (c.escape_debug().len() == 1 || !first && is_mark(c))
}

/// Whether it is shown on the letter before it. That is asked of what a text is escaped to, by all its characters.
fn is_mark(c: char) -> bool {
    let mut text = *b"x\0\0\0\0";
    let end = 1 + c.encode_utf8(&mut text[1..]).len();
    std::str::from_utf8(&text[..end]).is_ok_and(|text| text.escape_debug().count() == 2)
}

/// In one line: control characters, what is not seen (U+200B), and what turns or breaks the line (U+202E, U+2028) are
/// told by their numbers, and so is a blank that is no plain space. All else is as it is, quotes and backslashes too.
pub struct Visible<'a>(pub &'a str);

impl fmt::Display for Visible<'_> {
    fn fmt(&self, f: &mut fmt::Formatter<'_>) -> fmt::Result {
        self.0.char_indices().try_for_each(|(at, c)| match c {
            _ if is_seen(c, at == 0) => f.write_char(c),
            '\n' | '\r' | '\t' | '\0' => write!(f, "{}", c.escape_debug()),
            _ => write!(f, "{}", c.escape_unicode()),
        })
    }
}

#[cfg(test)]
mod tests {
    use super::*;

    fn shown(text: &str) -> String {
        Visible(text).to_string()
    }

    #[test]
    fn as_they_are() {
        let (quotes, accents) = (r#"it's "a" \n"#, "Grüße e\u{301}te\u{301}");
        for text in ["", "a b", quotes, accents, "日本語.luac", "שלום", "किताब", "\u{fffd}", "🙂"] {
            assert_eq!(shown(text), text);
        }
    }

    #[test]
    fn told_by_their_numbers() {
        for (text, told) in [
            ("a\nb\r\t\u{1b}[2J\u{7f}\u{9b}", r"a\nb\r\t\u{1b}[2J\u{7f}\u{9b}"),
            ("a\u{202e}caul.exe", r"a\u{202e}caul.exe"),
            ("\u{2066}\u{2069}\u{200f}\u{61c}", r"\u{2066}\u{2069}\u{200f}\u{61c}"),
            ("a\u{200b}b\u{feff}c\u{ad}d", r"a\u{200b}b\u{feff}c\u{ad}d"),
            ("a\u{2028}b\u{2029}c\u{85}", r"a\u{2028}b\u{2029}c\u{85}"),
            ("a\u{a0}b\u{3000}", r"a\u{a0}b\u{3000}"),
            // Fillers and blanks that count as letters, selectors that count as marks.
            ("a\u{34f}\u{115f}\u{1160}\u{17b4}\u{17b5}", r"a\u{34f}\u{115f}\u{1160}\u{17b4}\u{17b5}"),
            ("a\u{180b}\u{180e}\u{180f}\u{2800}", r"a\u{180b}\u{180e}\u{180f}\u{2800}"),
            ("a\u{3164}\u{ffa0}\u{fe00}\u{fe0f}", r"a\u{3164}\u{ffa0}\u{fe00}\u{fe0f}"),
            ("a\u{1d159}\u{e0100}\u{e01ef}", r"a\u{1d159}\u{e0100}\u{e01ef}"),
            // A mark with nothing before it.
            ("\u{301}a", r"\u{301}a"),
        ] {
            assert_eq!(shown(text), told);
        }
    }
}
