// The smallest input found on which the two still differ, by steps that are the same in every run.
use crate::bounds::CEILINGS;
use crate::case::Case;
use crate::check::check;
use crate::difference::Difference;
use crate::lender::Lender;
use crate::tally::Tally;

/// Beyond so many bytes a count is not tried together with what it counts: that takes the square of them.
const PAIRED: usize = 220;

struct Shrinking<'a> {
    lender: &'a mut Lender,
    call: &'static str,
    least: (Case, Difference),
}

/// A smaller case in which the same call differs.
pub fn shrink(lender: &mut Lender, case: Case, difference: Difference) -> (Case, Difference) {
    let mut shrinking = Shrinking { lender, call: difference.call, least: (case, difference) };
    while shrinking.limits() || shrinking.asked() || shrinking.pieces() || shrinking.counted() || shrinking.values() {}
    shrinking.least
}

impl Shrinking<'_> {
    /// Takes the case if the call still differs.
    fn take(&mut self, case: Case) -> bool {
        match check(&case, self.lender, &mut Tally::default()) {
            Err(difference) if difference.call == self.call => {
                self.least = (case, difference);
                true
            }
            _ => false,
        }
    }

    fn bytes(&mut self, chunk: Vec<u8>) -> bool {
        let case = Case { chunk, ..self.least.0.clone() };
        self.take(case)
    }

    fn limits(&mut self) -> bool {
        let mut any = false;
        for which in 0..9 {
            let mut case = self.least.0.clone();
            if case.limits[which] != CEILINGS[which] {
                case.limits[which] = CEILINGS[which];
                any |= self.take(case);
            }
        }
        any
    }

    /// What is asked by chance, by the least number.
    fn asked(&mut self) -> bool {
        (0..8).any(|ask| ask < self.least.0.ask && self.take(Case { ask, ..self.least.0.clone() }))
    }

    fn pieces(&mut self) -> bool {
        let mut any = false;
        let mut length = self.least.0.chunk.len();
        while length > 0 {
            let mut at = 0;
            while at + length <= self.least.0.chunk.len() {
                let mut chunk = self.least.0.chunk.clone();
                chunk.drain(at..at + length);
                if self.bytes(chunk) {
                    any = true;
                } else {
                    at += 1.max(length / 4);
                }
            }
            length /= 2;
        }
        any
    }

    /// A byte one less, and a few bytes behind it gone: an entry of a list and its count.
    fn counted(&mut self) -> bool {
        let length = self.least.0.chunk.len();
        if length > PAIRED {
            return false;
        }
        for at in 31..length {
            for behind in at + 1..length {
                for gone in 1..=16.min(length - behind) {
                    let mut chunk = self.least.0.chunk.clone();
                    if chunk[at] & 0x7f == 0 {
                        continue;
                    }
                    chunk[at] -= 1;
                    chunk.drain(behind..behind + gone);
                    if self.bytes(chunk) {
                        return true;
                    }
                }
            }
        }
        false
    }

    /// Each byte as small as it can be; 80 is the number 0.
    fn values(&mut self) -> bool {
        let mut any = false;
        for at in 0..self.least.0.chunk.len() {
            for value in [0, 0x80, 1, 0x81] {
                let mut chunk = self.least.0.chunk.clone();
                if rank(value) < rank(chunk[at]) {
                    chunk[at] = value;
                    if self.bytes(chunk) {
                        any = true;
                        break;
                    }
                }
            }
        }
        any
    }
}

fn rank(byte: u8) -> u8 {
    match byte {
        0 => 0,
        0x80 => 1,
        1 => 2,
        0x81 => 3,
        _ => 4,
    }
}
