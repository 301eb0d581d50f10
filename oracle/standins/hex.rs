// hex: lower-case encoding, and decoding. These are real: the trailing bytes of a chunk pass through them.
const DIGITS: &[u8; 16] = b"0123456789abcdef";

/// The bytes in hexadecimal, two digits each.
pub fn encode(bytes: impl AsRef<[u8]>) -> String {
    let pairs = bytes.as_ref().iter().flat_map(|byte| [digit(byte >> 4), digit(byte & 15)]);
    String::from_utf8(pairs.collect()).expect("digits")
}

fn digit(value: u8) -> u8 {
    DIGITS[usize::from(value)]
}

#[derive(Debug)]
pub struct FromHexError;

/// The bytes that the digits spell; digits in either case, as in the crate of this name.
pub fn decode(digits: impl AsRef<[u8]>) -> Result<Vec<u8>, FromHexError> {
    let digits = digits.as_ref();
    if digits.len() % 2 != 0 {
        return Err(FromHexError);
    }
    digits.chunks_exact(2).map(|pair| Ok(value(pair[0])? << 4 | value(pair[1])?)).collect()
}

fn value(digit: u8) -> Result<u8, FromHexError> {
    match digit {
        b'0'..=b'9' => Ok(digit - b'0'),
        b'a'..=b'f' => Ok(digit - b'a' + 10),
        b'A'..=b'F' => Ok(digit - b'A' + 10),
        _ => Err(FromHexError),
    }
}
