//! A dump read back: the lines in which docs/PROTOCOL.md spells the same, from the header to the last upvalue name.
use super::string;

pub fn undumped(dump: &str) -> Vec<String> {
    let blocks: Vec<&str> = dump.split("\nfunction ").collect();
    let (last, trailing) = blocks[blocks.len() - 1].split_once("\ntrailing bytes ").unwrap();
    let mut shown = head(blocks[0]);
    shown.push(trailing_line(trailing));
    for block in &blocks[1..blocks.len() - 1] {
        shown.extend(function(block));
    }
    shown.extend(function(last));
    shown
}

/// Header, warnings, number of functions and of padded numbers.
fn head(block: &str) -> Vec<String> {
    let mut lines = block.lines().skip(1);
    let words: Vec<&str> = lines.next().unwrap().split(' ').collect();
    let number = words[18].parse::<f64>().unwrap().to_bits();
    let sizes = [words[6], words[9], words[12], words[15]].join(" ");
    let mut shown = vec![format!("header {} {} {sizes} 22136 {number:016x}", words[1], words[3]), String::new()];
    for line in lines.by_ref().take_while(|line| !line.is_empty()) {
        match line.strip_prefix("warning at ") {
            None => shown.push(line.replace("padded numbers ", "padded ")),
            Some(warning) => {
                let code = warning.rsplit_once("(L54-").unwrap().1.trim_end_matches(')');
                shown.push(format!("warning {code} {}", warning.split_once(':').unwrap().0));
            }
        }
    }
    shown[1] = format!("warnings {}", shown.len() - 4);
    shown
}

fn trailing_line(block: &str) -> String {
    let mut lines = block.lines();
    let (len, place) = lines.next().unwrap().split_once(" at ").unwrap();
    let bytes: String = lines.map(|line| line.replace(' ', "")).collect();
    assert_eq!(len.parse(), Ok(bytes.len() / 2));
    format!("trailing {place} {}", if bytes.is_empty() { "-" } else { &bytes })
}

fn function(block: &str) -> Vec<String> {
    let mut lines = block.lines();
    let words: Vec<&str> = lines.next().unwrap().split(' ').collect();
    let mut shown = vec![format!(
        "function {} depth {} parent {} start {} end {}",
        words[0], words[2], words[4], words[6], words[8]
    )];
    shown.push(format!("source {}", unquoted(lines.next().unwrap().strip_prefix("  source ").unwrap())));
    shown.push(lines.next().unwrap().trim_start().replace(" to ", " "));
    let words: Vec<&str> = lines.next().unwrap().split(' ').collect();
    shown.push(format!("bytes {} {} {}", words[3], words[5], words[7]));
    let (mut counts, mut entries, mut list) = ("counts".to_string(), Vec::new(), "");
    for line in lines.filter(|line| !line.is_empty()) {
        match line.strip_prefix("    ") {
            Some(entry) if list == "deltas" => entries.extend(entry.split(' ').map(|delta| format!("d {delta}"))),
            Some(entry) => entries.push(one_entry(list, entry.split_once(' ').unwrap().1)),
            None => {
                let count;
                (list, count) = line.trim_start().rsplit_once(' ').unwrap();
                counts += &format!(" {count}");
            }
        }
    }
    shown.push(counts);
    shown.extend(entries);
    shown
}

/// An entry of a list, without its number.
fn one_entry(list: &str, entry: &str) -> String {
    let words: Vec<&str> = entry.split(' ').collect();
    match list {
        "instructions" => format!("i {}", words[1]),
        "constants" => constant(entry),
        "upvalues" => format!("u {} {} {}", words[1], words[3], words[5]),
        "anchors" => format!("a {} {}", words[1], words[3]),
        "locals" => {
            let (name, span) = entry.rsplit_once(" pc ").unwrap();
            format!("l {} {}", unquoted(name), span.replace(" to ", " "))
        }
        "upvalue names" => format!("n {}", unquoted(entry)),
        _ => panic!("an entry of {list}: {entry}"),
    }
}

fn constant(entry: &str) -> String {
    match entry.split_once(' ') {
        None => format!("k {entry}"),
        Some(("integer", value)) => format!("k int {value}"),
        Some(("float", value)) => format!("k float {}", value.split_once(' ').unwrap().1),
        Some((length, value)) => format!("k {length} {}", unquoted(value.strip_prefix("string ").unwrap())),
    }
}

/// A quoted string, or `-`, as the protocol spells it.
fn unquoted(quoted: &str) -> String {
    if quoted == "-" {
        return "-".into();
    }
    let mut left = quoted.strip_prefix('"').and_then(|left| left.strip_suffix('"')).unwrap().bytes();
    let mut bytes = Vec::new();
    while let Some(byte) = left.next() {
        let escaped = if byte == b'\\' { left.next() } else { None };
        bytes.push(match escaped {
            None => byte,
            Some(b'n') => b'\n',
            Some(b'r') => b'\r',
            Some(b't') => b'\t',
            Some(b'x') => {
                left.by_ref().take(2).fold(0, |value, digit| value * 16 + (digit as char).to_digit(16).unwrap() as u8)
            }
            Some(byte) => byte,
        });
    }
    string(Some(&bytes))
}
