// What was asked, counted: cases by refusal, verdict and rule, and the answers compared.
use crate::judged::{Judged, RULES, VERDICTS};
use crate::padded::KINDS;

#[derive(Default)]
pub struct Tally {
    pub cases: u64,
    /// By number: of a chunk 1 to 22, of a call 23 to 26, of a word 27 and 28, of a list of pcs 29 and 30.
    refusals: [u64; 31],
    verdicts: [u64; 3],
    /// Findings of each rule, and cases that have one.
    findings: [u64; 7],
    cases_with: [u64; 7],
    warnings: [u64; 3],
    functions: u64,
    /// Padded numbers of each kind, and cases that have one.
    padded: [u64; KINDS.len()],
    cases_padded: u64,
    /// Lines that are refused with 25 and at which the Rust itself stops: its sum leaves 64 bits.
    pub stopped_lines: u64,
    pub entries: u64,
    pub lines: u64,
    /// Lists of pcs that are answered, their pcs, and the deltas read for them.
    pub lists: u64,
    pub listed: u64,
    pub deltas_read: u64,
    pub words: u64,
    pub parts: u64,
    /// Copies that are read, and cases whose full copy is another than the archive copy.
    pub copies: u64,
    sourced: u64,
    /// Of the stricter reading: 31 to 33; cases that are read, and those of 31 to 33 that the ordinary one reads.
    strict: [u64; 3],
    strict_read: u64,
    strict_only: u64,
}

impl Tally {
    pub fn refused(&mut self, number: u8) {
        self.refusals[usize::from(number)] += 1;
    }

    /// The stricter reading's refusal, if any, beside whether the ordinary one reads the chunk. 1 to 22 are those of the ordinary one, counted there.
    pub fn strict(&mut self, refusal: Option<u8>, read: bool) {
        match refusal {
            None => self.strict_read += 1,
            Some(number) if number > 30 => {
                self.strict[usize::from(number) - 31] += 1;
                self.strict_only += u64::from(read);
            }
            Some(_) => {}
        }
    }

    pub fn read(&mut self, judged: &Judged) {
        self.verdicts[judged.verdict as usize] += 1;
        self.warnings[usize::from(judged.summary[10] != 0) + usize::from(judged.summary[12] != 0)] += 1;
        self.functions += judged.functions.len() as u64;
        self.padded.iter_mut().zip(judged.padded.by_kind).for_each(|(sum, count)| *sum += count);
        self.cases_padded += u64::from(judged.padded.sum() > 0);
        self.sourced += u64::from(judged.full != judged.copy);
        let mut rules = [0; 7];
        for finding in judged.findings.chunks_exact(4) {
            rules[finding[2] as usize - 1] += 1;
        }
        for (i, count) in rules.iter().enumerate() {
            self.findings[i] += count;
            self.cases_with[i] += u64::from(*count > 0);
        }
    }

    pub fn add(&mut self, other: &Tally) {
        let lists = [
            (&mut self.refusals[..], &other.refusals[..]),
            (&mut self.verdicts, &other.verdicts),
            (&mut self.findings, &other.findings),
            (&mut self.cases_with, &other.cases_with),
            (&mut self.warnings, &other.warnings),
            (&mut self.padded, &other.padded),
            (&mut self.strict, &other.strict),
        ];
        for (sums, counts) in lists {
            sums.iter_mut().zip(counts).for_each(|(sum, count)| *sum += count);
        }
        self.cases += other.cases;
        self.functions += other.functions;
        self.cases_padded += other.cases_padded;
        self.stopped_lines += other.stopped_lines;
        self.entries += other.entries;
        self.lines += other.lines;
        self.lists += other.lists;
        self.listed += other.listed;
        self.deltas_read += other.deltas_read;
        self.words += other.words;
        self.parts += other.parts;
        self.copies += other.copies;
        self.sourced += other.sourced;
        self.strict_read += other.strict_read;
        self.strict_only += other.strict_only;
    }

    pub fn print(&self) {
        let row = |title: &str, counts: Vec<String>| println!("{title:9}  {}", counts.join("  "));
        let refusals = |from: usize, to: usize| (from..=to).map(|i| format!("{i}: {}", self.refusals[i])).collect();
        println!("cases      {}", self.cases);
        row("refused", refusals(1, 22));
        row("of a call", refusals(23, 26));
        println!("           lines refused with 25 at which the Rust stops: {}", self.stopped_lines);
        row("of a word", refusals(27, 28));
        row("of a list", refusals(29, 30));
        row("strictly", self.strict.iter().zip(31..).map(|(count, number)| format!("{number}: {count}")).collect());
        println!(
            "           of these the ordinary reading reads: {}; the stricter one reads: {}",
            self.strict_only, self.strict_read
        );
        row("verdict", VERDICTS.iter().zip(self.verdicts).map(|(name, count)| format!("{name}: {count}")).collect());
        row("warnings", self.warnings.iter().enumerate().map(|(i, count)| format!("{i}: {count}")).collect());
        row(
            "rule",
            RULES
                .iter()
                .zip(self.cases_with.iter().zip(self.findings))
                .map(|(name, (cases, all))| format!("{name}: {cases} ({all})"))
                .collect(),
        );
        println!("padded     cases: {}", self.cases_padded);
        row("", KINDS.iter().zip(self.padded).map(|(kind, count)| format!("{kind}: {count}")).collect());
        println!(
            "compared   functions: {}  entries by number: {}  parts at a place: {}  lines: {}  words: {}  copies: {}  \
             cases with a full copy of its own: {}",
            self.functions, self.entries, self.parts, self.lines, self.words, self.copies, self.sourced
        );
        println!("lists      answered: {}  pcs: {}  deltas read: {}", self.lists, self.listed, self.deltas_read);
    }
}
