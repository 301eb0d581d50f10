//! JSON: objects, written as they are made. What the members are is in json.txt, which `help json` prints.
use crate::file::Out;
use crate::visible::is_seen;
use std::io::{self, Write};

/// The numbers that every reader of JSON takes as they are.
const MOST: u128 = 1 << 53;

/// An object that is being written.
pub struct Object<'o> {
    out: &'o mut Out,
    empty: bool,
}

impl Object<'_> {
    /// An object in a line of its own.
    pub fn line(out: &mut Out, members: impl FnOnce(&mut Object<'_>) -> io::Result<()>) -> io::Result<()> {
        Object::write(out, members)?;
        out.write_all(b"\n")
    }

    fn write(out: &mut Out, members: impl FnOnce(&mut Object<'_>) -> io::Result<()>) -> io::Result<()> {
        out.write_all(b"{")?;
        members(&mut Object { out, empty: true })?;
        out.write_all(b"}")
    }

    /// The name of the next member.
    fn key(&mut self, name: &str) -> io::Result<()> {
        if !self.empty {
            self.out.write_all(b",")?;
        }
        self.empty = false;
        write!(self.out, "\"{name}\":")
    }

    /// A number; beyond 2^53 a string of its digits.
    pub fn number(&mut self, name: &str, number: impl Number) -> io::Result<()> {
        self.key(name)?;
        put_number(self.out, number)
    }

    /// A number, or null.
    pub fn number_if(&mut self, name: &str, number: Option<impl Number>) -> io::Result<()> {
        match number {
            Some(number) => self.number(name, number),
            None => self.null(name),
        }
    }

    pub fn null(&mut self, name: &str) -> io::Result<()> {
        self.key(name)?;
        self.out.write_all(b"null")
    }

    pub fn truth(&mut self, name: &str, value: bool) -> io::Result<()> {
        self.key(name)?;
        write!(self.out, "{value}")
    }

    pub fn text(&mut self, name: &str, text: &str) -> io::Result<()> {
        self.key(name)?;
        put_text(self.out, text)
    }

    /// Bytes: a string where they are UTF-8, else `{"hex": ".."}`; null where there are none.
    pub fn bytes(&mut self, name: &str, bytes: Option<&[u8]>) -> io::Result<()> {
        self.key(name)?;
        put_bytes(self.out, bytes)
    }

    /// A float: a number where it is finite, else the string `nan`, `inf` or `-inf`.
    pub fn float(&mut self, name: &str, value: f64) -> io::Result<()> {
        self.key(name)?;
        match value {
            value if value.is_nan() => put_text(self.out, "nan"),
            value if value.is_infinite() => put_text(self.out, if value > 0.0 { "inf" } else { "-inf" }),
            value => write!(self.out, "{value:?}"),
        }
    }

    pub fn object(&mut self, name: &str, members: impl FnOnce(&mut Object<'_>) -> io::Result<()>) -> io::Result<()> {
        self.key(name)?;
        Object::write(self.out, members)
    }

    /// A list of objects.
    pub fn objects<T>(
        &mut self,
        name: &str,
        items: impl IntoIterator<Item = T>,
        members: impl Fn(&mut Object<'_>, T) -> io::Result<()>,
    ) -> io::Result<()> {
        self.list(name, items, |out, item| Object::write(out, |object| members(object, item)))
    }

    /// A list of numbers.
    pub fn numbers(&mut self, name: &str, items: impl IntoIterator<Item = impl Number>) -> io::Result<()> {
        self.list(name, items, |out, item| put_number(out, item))
    }

    /// A list of bytes that may be absent.
    pub fn strings<'a>(&mut self, name: &str, items: impl IntoIterator<Item = Option<&'a [u8]>>) -> io::Result<()> {
        self.list(name, items, put_bytes)
    }

    fn list<T>(
        &mut self,
        name: &str,
        items: impl IntoIterator<Item = T>,
        put: impl Fn(&mut Out, T) -> io::Result<()>,
    ) -> io::Result<()> {
        self.key(name)?;
        self.out.write_all(b"[")?;
        for (at, item) in items.into_iter().enumerate() {
            if at > 0 {
                self.out.write_all(b",")?;
            }
            put(self.out, item)?;
        }
        self.out.write_all(b"]")
    }
}

/// A whole number of any kind.
pub trait Number: Copy {
    fn value(self) -> i128;
}

macro_rules! numbers {
    ($($kind:ty)*) => {
        $(impl Number for $kind {
            fn value(self) -> i128 {
                self as i128
            }
        })*
    };
}

numbers! { u8 u32 u64 usize i8 i64 }

fn put_number(out: &mut Out, number: impl Number) -> io::Result<()> {
    let value = number.value();
    if value.unsigned_abs() <= MOST {
        write!(out, "{value}")
    } else {
        write!(out, "\"{value}\"")
    }
}

fn put_bytes(out: &mut Out, bytes: Option<&[u8]>) -> io::Result<()> {
    let Some(bytes) = bytes else {
        return out.write_all(b"null");
    };
    match std::str::from_utf8(bytes) {
        Ok(text) => put_text(out, text),
        Err(_) => {
            out.write_all(b"{\"hex\":\"")?;
            for byte in bytes {
                write!(out, "{byte:02x}")?;
            }
            out.write_all(b"\"}")
        }
    }
}

/// What a terminal would not show as it is, is told by its number: to every reader of JSON that is the same string.
fn put_text(out: &mut Out, text: &str) -> io::Result<()> {
    out.write_all(b"\"")?;
    let (bytes, mut written) = (text.as_bytes(), 0);
    for (at, c) in text.char_indices() {
        let syntax = matches!(c, '"' | '\\');
        if !syntax && is_seen(c, at == 0) {
            continue;
        }
        out.write_all(&bytes[written..at])?;
        match syntax {
            true => write!(out, "\\{c}")?,
            false => put_number_of(out, c)?,
        }
        written = at + c.len_utf8();
    }
    out.write_all(&bytes[written..])?;
    out.write_all(b"\"")
}

/// `\uXXXX`; two beyond U+FFFF.
fn put_number_of(out: &mut Out, c: char) -> io::Result<()> {
    c.encode_utf16(&mut [0; 2]).iter().try_for_each(|unit| write!(out, "\\u{unit:04x}"))
}
