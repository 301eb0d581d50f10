// The forms in which the calls of a case are asked: with no number, one, two, and with lent space.
use crate::calls::{Call, Entry, Lending, Numbered, Whole, LINES, LOCAL};
use crate::check::Asked;
use crate::difference::Difference;
use crate::lender::{Answer, Filled};

impl Asked<'_> {
    pub fn whole<const N: usize>(&mut self, call: &Call<Whole, N>, expected: Answer<N>) -> Result<(), Difference> {
        let case = self.case;
        self.lender.agree(call.name, &[], expected, |out| unsafe {
            (call.function)(case.chunk.as_ptr(), case.chunk.len(), case.limits.as_ptr(), out)
        })
    }

    /// `number` is a function or a place.
    pub fn numbered<const N: usize>(
        &mut self,
        call: &Call<Numbered, N>,
        number: usize,
        expected: Answer<N>,
    ) -> Result<(), Difference> {
        let case = self.case;
        self.lender.agree(call.name, &[number as u64], expected, |out| unsafe {
            (call.function)(case.chunk.as_ptr(), case.chunk.len(), case.limits.as_ptr(), number, out)
        })
    }

    pub fn entry<const N: usize>(
        &mut self,
        call: &Call<Entry, N>,
        function: usize,
        entry: usize,
        expected: Answer<N>,
    ) -> Result<(), Difference> {
        let case = self.case;
        self.lender.agree(call.name, &[function as u64, entry as u64], expected, |out| unsafe {
            (call.function)(case.chunk.as_ptr(), case.chunk.len(), case.limits.as_ptr(), function, entry, out)
        })
    }

    pub fn local(
        &mut self,
        function: usize,
        entry: usize,
        lent: usize,
        expected: Result<([u64; 3], &[u8]), u64>,
    ) -> Result<(), Difference> {
        let case = self.case;
        let at = [function as u64, entry as u64, lent as u64];
        self.lender.agree_lent("lafzimdo_local", &at, lent, expected, |name, out| unsafe {
            LOCAL(case.chunk.as_ptr(), case.chunk.len(), case.limits.as_ptr(), function, entry, name, lent, out)
        })
    }

    /// The lines of a list of pcs.
    pub fn lines(
        &mut self,
        function: usize,
        pcs: &[u64],
        lent: usize,
        expected: Result<([u64; 1], &[u64]), u64>,
    ) -> Result<(), Difference> {
        let case = self.case;
        let at: Vec<u64> = [function as u64, lent as u64].iter().chain(pcs).copied().collect();
        let (chunk, limits) = (&case.chunk, case.limits.as_ptr());
        self.lender.agree_lent("lafzimdo_lines", &at, lent, expected, |lines, out| unsafe {
            LINES(chunk.as_ptr(), chunk.len(), limits, function, pcs.as_ptr(), pcs.len(), lines, lent, out)
        })
    }

    pub fn lending<T: Filled, const N: usize>(
        &mut self,
        call: &Call<Lending<T>, N>,
        lent: usize,
        expected: Result<([u64; N], &[T]), u64>,
    ) -> Result<(), Difference> {
        let case = self.case;
        self.lender.agree_lent(call.name, &[lent as u64], lent, expected, |space, out| unsafe {
            (call.function)(case.chunk.as_ptr(), case.chunk.len(), case.limits.as_ptr(), space, lent, out)
        })
    }

    /// A number of some list's length that is no entry of it.
    pub fn beyond(&mut self, count: usize) -> usize {
        match self.chance.below(6) {
            0 => usize::MAX,
            1 => count + self.chance.below(300),
            2 => (self.chance.number() as usize).max(count),
            _ => count,
        }
    }
}
