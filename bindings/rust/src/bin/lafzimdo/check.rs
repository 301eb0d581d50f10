//! `check`: the verdict, what was unusual in reading, and the findings.
use crate::code;
use crate::command::{Asked, Choice, Command};
use crate::file::Out;
use crate::files::{self, Found};
use crate::json::Object;
use crate::json_dump::{put_warnings, source_of};
use crate::listing::{Shown, Source};
use crate::trouble::{Name, Trouble, INCOMPLETE, INVALID};
use lafzimdo::{decode, Chunk, Finding, Verdict};
use std::collections::BTreeMap;
use std::io::{self, Write};

pub const COMMAND: Command = Command {
    name: "check",
    operands: "FILE...",
    short: "the verdict of validation and all findings; the exit status tells too",
    long: "\
Prints the verdict, how many findings there are, and how many warnings reading gave (a format byte that
Lua's own loader refuses, bytes behind the main function); then a line for each warning, and one for each
finding in the order found, with its function and pc, its source, line and instruction. Validation stops at
10,000 findings. Warnings do not make a chunk invalid.
Of many files a line each, behind the file's name; with --verbose the lines of warnings and findings too.
Exit status: 0 valid for analysis, 4 invalid (an error was found), 5 incomplete (stopped, no error so far).
",
    options: &[QUIET, VERBOSE, files::NAMES, files::FROM, files::JSON],
    run,
};

const QUIET: Choice = Choice { short: "-q", long: "--quiet", value: "", text: "print nothing; the exit status tells" };
const VERBOSE: Choice =
    Choice { short: "-v", long: "--verbose", value: "", text: "of many files also each warning and finding" };

fn run(asked: &Asked) -> Result<u8, Trouble> {
    // Where nothing is printed the findings are not needed.
    let (quiet, verbose) = (asked.has(QUIET.long) && !asked.has(files::JSON.long), asked.has(VERBOSE.long));
    files::run(asked, &|chunk| {
        let (verdict, findings) = if quiet { (chunk.verdict(), Vec::new()) } else { chunk.validate() };
        Ok(Box::new(Checked { chunk, verdict, findings, verbose }))
    })
}

struct Checked<'a> {
    chunk: Chunk<'a>,
    verdict: Verdict,
    findings: Vec<Finding>,
    verbose: bool,
}

/// A finding with what it is about: the function's source and who spells it, the instruction's line and word.
struct Detail<'a> {
    finding: Finding,
    source: Option<&'a [u8]>,
    source_of: usize,
    line: Option<u64>,
    word: u32,
}

impl Detail<'_> {
    fn instruction(&self) -> String {
        Shown(&decode(self.word)).to_string()
    }
}

impl<'a> Checked<'a> {
    fn details(&self) -> Vec<Detail<'a>> {
        let mut details = Vec::with_capacity(self.findings.len());
        // They come in the order of the functions, and in one function in that of the instructions.
        for findings in self.findings.chunk_by(|one, next| one.function == next.function) {
            let Ok(function) = self.chunk.function(findings[0].function) else { continue };
            let (lines, source_of) = (code::lines(&function), source_of(&function));
            let mut left = findings.iter().copied().peekable();
            for (pc, word) in function.instructions().enumerate().take(findings[findings.len() - 1].pc + 1) {
                let line = lines.as_ref().map(|lines| lines[pc]);
                while let Some(finding) = left.next_if(|finding| finding.pc == pc) {
                    details.push(Detail { finding, source: function.source(), source_of, line, word });
                }
            }
        }
        details
    }

    /// The lines of warnings and findings, with this before each.
    fn print_details(&self, out: &mut Out, before: &str) -> io::Result<()> {
        for warning in self.chunk.warnings() {
            writeln!(out, "{before}{warning}")?;
        }
        for detail in self.details() {
            let Finding { function, pc, rule, .. } = detail.finding;
            let line = detail.line.map_or("-".into(), |line| line.to_string());
            write!(out, "{before}{} in function {function} at pc {pc}", rule.severity())?;
            write!(out, " ({}:{line}, {})", Source(detail.source), detail.instruction())?;
            writeln!(out, ": {} {} ({})", rule.why(), rule.number(), rule.name())?;
        }
        Ok(())
    }
}

impl Found for Checked<'_> {
    fn alone(&self, out: &mut Out) -> io::Result<()> {
        writeln!(out, "verdict {}", self.verdict)?;
        writeln!(out, "findings {}", self.findings.len())?;
        writeln!(out, "warnings {}", self.chunk.warnings().count())?;
        self.print_details(out, "")
    }

    fn among(&self, out: &mut Out, name: &Name<'_>) -> io::Result<()> {
        let (verdict, findings) = (self.verdict, self.findings.len());
        writeln!(out, "{name}: verdict {verdict} findings {findings} warnings {}", self.chunk.warnings().count())?;
        if self.verbose {
            self.print_details(out, &format!("{name}: "))?;
        }
        Ok(())
    }

    fn json(&self, object: &mut Object<'_>) -> io::Result<()> {
        object.text("verdict", &self.verdict.to_string())?;
        put_warnings(object, &self.chunk)?;
        let details = self.details();
        // Each source once: thousands of findings may share one that is nearly as long as the file.
        let sources: BTreeMap<_, _> = details.iter().map(|detail| (detail.source_of, detail.source)).collect();
        object.objects("sources", sources, |object, (function, source)| {
            object.number("function", function)?;
            object.bytes("source", source)
        })?;
        object.objects("findings", details, |object, detail: Detail<'_>| {
            let Finding { function, pc, rule, .. } = detail.finding;
            object.text("severity", &rule.severity().to_string())?;
            object.text("rule", rule.name())?;
            object.number("number", rule.number())?;
            object.text("why", rule.why())?;
            object.number("function", function)?;
            object.number("pc", pc)?;
            object.number("source_of", detail.source_of)?;
            object.number_if("line", detail.line)?;
            object.number("word", detail.word)?;
            object.text("instruction", &detail.instruction())
        })
    }

    fn status(&self) -> u8 {
        match self.verdict {
            Verdict::ValidForAnalysis => 0,
            Verdict::Invalid => INVALID,
            Verdict::Incomplete => INCOMPLETE,
        }
    }
}
