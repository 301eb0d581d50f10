//! The kept requests and the answers of the Rust, in the text of docs/PROTOCOL.md, told from the lines of
//! crates/vectors/stdin: a call, its arguments, `=` and the numbers of its answer.
use super::{bytes, hex, string};

/// A line with a call.
struct Call {
    letter: String,
    arguments: Vec<u64>,
    numbers: Vec<u64>,
}

impl Call {
    fn new(line: &str) -> Call {
        let mut words = line.split(' ');
        let letter = words.next().unwrap().to_string();
        let arguments = words.by_ref().take_while(|word| *word != "=").map(|word| word.parse().unwrap()).collect();
        let numbers = words.flat_map(|word| match word.strip_prefix('x') {
            Some(digits) => bytes(digits).into_iter().map(u64::from).collect(),
            None => vec![word.parse().unwrap()],
        });
        Call { letter, arguments, numbers: numbers.collect() }
    }

    fn answer(&self) -> Answer<'_> {
        Answer(&self.numbers)
    }
}

/// The numbers of an answer, taken from the front.
struct Answer<'a>(&'a [u64]);

impl Answer<'_> {
    fn number(&mut self) -> u64 {
        let (first, rest) = self.0.split_first().expect("a number");
        self.0 = rest;
        *first
    }

    fn signed(&mut self) -> i64 {
        self.number() as i64
    }

    /// Whether a call answered; its refusal otherwise.
    fn answered(&mut self) -> Result<(), String> {
        match self.number() {
            0 => Ok(()),
            refusal if refusal < 256 => Err(format!("refused {refusal} -")),
            refusal => Err(format!("refused {} {}", refusal % 256, refusal / 256 - 1)),
        }
    }

    fn bytes(&mut self, length: u64) -> Vec<u8> {
        (0..length).map(|_| self.number() as u8).collect()
    }

    /// Length and bytes.
    fn sized(&mut self) -> Vec<u8> {
        let length = self.number();
        self.bytes(length)
    }

    /// Whether there is a string, its length, its bytes.
    fn string(&mut self) -> String {
        let (present, bytes) = (self.number(), self.sized());
        string((present == 1).then_some(&bytes))
    }

    fn joined(&mut self, count: usize) -> String {
        (0..count).map(|_| self.number().to_string()).collect::<Vec<_>>().join(" ")
    }
}

/// The lines of one request, with its limits and its chunk.
struct Asked {
    subject: String,
    calls: Vec<Call>,
}

impl Asked {
    fn request(&self) -> String {
        let Call { letter, arguments, .. } = &self.calls[0];
        match letter.as_str() {
            "s" => self.subject.clone(),
            "t" => format!("verdict {}", self.subject),
            "w" => format!("word {:08x}", arguments[0]),
            "e" => format!("enc {}", arguments.iter().map(|n| (*n as i64).to_string()).collect::<Vec<_>>().join(" ")),
            "p" => {
                let pcs = self.calls.iter().flat_map(pcs).map(|pc| format!(" {pc}"));
                format!("lines {} {}{}", self.subject, arguments[0], pcs.collect::<String>())
            }
            other => panic!("no request begins with {other}"),
        }
    }

    fn answer(&self) -> Vec<String> {
        let first = self.calls[0].answer();
        let answer = match self.calls[0].letter.as_str() {
            "s" => self.whole(),
            "t" => totals(first),
            "w" => Ok(vec![self.word()]),
            "e" => Ok(vec![format!("enc {}", encoded(first))]),
            _ => lines(self.calls[0].arguments[0], &self.calls.iter().collect::<Vec<_>>()),
        };
        answer.unwrap_or_else(|refusal| vec![refusal])
    }

    /// The first call of this letter.
    fn call(&self, letter: &str) -> &Call {
        self.calls.iter().find(|call| call.letter == letter).unwrap()
    }

    /// The first call of this letter on this function.
    fn of(&self, letter: &str, function: u64) -> &Call {
        self.calls.iter().find(|call| call.letter == letter && call.arguments[0] == function).unwrap()
    }

    fn word(&self) -> String {
        const MODES: [&str; 6] = ["iABC", "iABx", "iAsBx", "iAx", "isJ", "-"];
        let mut n = self.calls[0].answer();
        n.answered().unwrap();
        let mut shown = format!("word {:08x} op {}", self.calls[0].arguments[0], n.number());
        shown += &format!(" mode {}", MODES[n.number() as usize]);
        for name in ["a", "k", "b", "sb", "c", "sc", "bx", "sbx", "ax", "sj"] {
            shown += &format!(" {name} {}", n.signed());
        }
        format!("{shown} encode {}", encoded(self.calls[1].answer()))
    }

    fn whole(&self) -> Result<Vec<String>, String> {
        const RULES: [&str; 8] =
            ["", "OPCODE-001", "REG-001", "CONST-001", "UPVAL-001", "UPVAL-002", "PROTO-001", "JUMP-001"];
        let (mut shown, functions) = summary(self.calls[0].answer())?;
        let mut rows = self.call("r").answer();
        rows.answered()?;
        assert_eq!(rows.number(), functions);
        let rows: Vec<_> = (0..functions).map(|_| rows.joined(14)).collect();
        for (function, row) in rows.iter().enumerate() {
            self.function(function as u64, row, &mut shown)?;
        }
        shown.extend(rows.iter().map(|row| format!("row {row}")));
        let mut copy = self.call("c").answer();
        copy.answered()?;
        shown.push(format!("copy {}", hex(&copy.sized())));
        shown.extend(totals(self.call("t").answer())?);
        let mut found = self.call("g").answer();
        found.answered()?;
        let (_, count) = (found.number(), found.number());
        for _ in 0..count {
            let (function, pc, rule, number) = (found.number(), found.number(), found.number(), found.signed());
            let severity = if found.number() == 1 { "warning" } else { "error" };
            shown.push(format!("finding {function} {pc} {} {number} {severity}", RULES[rule as usize]));
        }
        for function in 0..functions {
            let calls = [self.of("p", function), self.of("o", function)];
            shown
                .extend(lines(function, &calls).unwrap_or_else(|refusal| {
                    vec![format!("line {function} {}", refusal.strip_suffix(" -").unwrap())]
                }));
        }
        Ok(shown)
    }

    /// A function's fields and entries; where it starts and ends is in its row.
    fn function(&self, function: u64, row: &str, shown: &mut Vec<String>) -> Result<(), String> {
        let place: Vec<&str> = row.split(' ').collect();
        let mut n = self.of("f", function).answer();
        n.answered()?;
        let (depth, parent) = (n.number(), n.number());
        shown.push(format!("function {function} depth {depth} parent {parent} start {} end {}", place[0], place[1]));
        shown.push(format!("source {}", n.string()));
        shown.push(format!("lines {}", n.joined(2)));
        shown.push(format!("bytes {}", n.joined(3)));
        shown.push(format!("counts {}", n.joined(8)));
        for letter in ["i", "k", "u", "d", "a", "l", "n"] {
            let mut n = self.of(letter, function).answer();
            while n.answered().is_ok() {
                shown.push(format!("{letter} {}", entry(letter, &mut n)));
            }
        }
        Ok(())
    }
}

fn pcs(call: &Call) -> Vec<u64> {
    match call.arguments[..] {
        [_, pc, count] => (0..count).map(|next| pc + next).collect(),
        _ => vec![1 << 32, 1 << 63, u64::MAX],
    }
}

fn encoded(mut n: Answer<'_>) -> String {
    n.answered().map_or_else(|refusal| refusal, |()| format!("{:08x}", n.number()))
}

fn lines(function: u64, calls: &[&Call]) -> Result<Vec<String>, String> {
    let mut shown = format!("line {function}");
    for call in calls {
        let mut n = call.answer();
        for pc in pcs(call) {
            n.answered()?;
            shown += &format!(" {pc}:{}", n.number());
        }
    }
    Ok(vec![shown])
}

fn totals(mut n: Answer<'_>) -> Result<Vec<String>, String> {
    n.answered()?;
    let verdict = ["valid-for-analysis", "invalid", "incomplete"][n.number() as usize];
    n.answered()?;
    Ok(vec![format!("verdict {verdict}"), format!("findings {}", n.number())])
}

/// The lines before the functions, and how many functions there are.
fn summary(mut n: Answer<'_>) -> Result<(Vec<String>, u64), String> {
    n.answered()?;
    let (version, format) = (n.number(), n.number());
    let sizes = n.joined(4);
    let mut shown = vec![format!("header {version:02x} {format:02x} {sizes} 22136 {:016x}", n.number())];
    let (functions, place, length) = (n.number(), n.number(), n.number());
    let warnings = [(n.number(), n.number()), (n.number(), n.number())];
    let padded = n.number();
    let warnings: Vec<_> = warnings.iter().filter(|(code, _)| *code != 0).collect();
    shown.push(format!("warnings {}", warnings.len()));
    for (code, place) in warnings {
        shown.push(format!("warning {} {place}", ["", "HEADER-003", "CHUNK-001"][*code as usize]));
    }
    shown.push(format!("functions {functions}"));
    shown.push(format!("padded {padded}"));
    shown.push(format!("trailing {place} {}", hex(&n.bytes(length))));
    Ok((shown, functions))
}

fn entry(letter: &str, n: &mut Answer<'_>) -> String {
    match letter {
        "i" => format!("{:08x}", n.number()),
        "k" => match n.number() {
            3 => format!("int {}", n.signed()),
            19 => format!("float {:016x}", n.number()),
            4 => format!("short {}", string(Some(&n.sized()))),
            20 => format!("long {}", string(Some(&n.sized()))),
            tag => {
                assert_eq!(n.number(), 0);
                match tag {
                    0 => "nil".into(),
                    1 => "false".into(),
                    17 => "true".into(),
                    _ => panic!("tag {tag}"),
                }
            }
        },
        "u" => n.joined(3),
        "d" => n.signed().to_string(),
        "a" => n.joined(2),
        "l" => {
            let (length, pcs) = (n.number(), n.joined(2));
            let name = n.bytes(length);
            // How much of the lent memory was written.
            n.number();
            format!("{} {pcs}", string(Some(&name)))
        }
        _ => n.string(),
    }
}

/// Each request with its answer, without its line `end`. The last line is altered on purpose, and left out. An empty
/// line stands before each request about a chunk; `w` goes with the `e` behind it.
pub fn told(text: &str) -> Vec<(String, Vec<String>)> {
    let lines: Vec<&str> = text.lines().collect();
    let (altered, lines) = lines.split_last().unwrap();
    assert!(altered.starts_with("s = 0 85 "), "the last line is not altered");
    let (mut asked, mut limits, mut chunk, mut before): (Vec<Asked>, _, _, _) = (Vec::new(), "", "", "");
    for line in lines {
        let (word, rest) = line.split_once(' ').unwrap_or((line, ""));
        match word {
            "" => before = "",
            "limits" => limits = rest,
            "chunk" => chunk = rest,
            _ if word.starts_with('#') => {}
            _ => {
                if before.is_empty() || word == "w" || (word == "e" && before != "w") {
                    asked.push(Asked { subject: format!("{limits} {chunk}"), calls: Vec::new() });
                }
                asked.last_mut().unwrap().calls.push(Call::new(line));
                before = word;
            }
        }
    }
    asked.iter().map(|asked| (asked.request(), asked.answer())).collect()
}
