// Asks a call of the library, and holds its answer and the memory lent to it against what is expected. Lent memory is filled beforehand: behind a
// result, and all of it on a refusal, it must be as it was.
use crate::difference::Difference;
use crate::judged::COLUMNS;
use crate::padded::Padded;
use crate::refusals::Refusal;

/// The numbers of an answer, or a refusal as the library codes it.
pub type Answer<const N: usize> = Result<[u64; N], u64>;

/// More than the longest answer.
const OUT: usize = 24;
/// So many items are looked at behind lent space that the call was told of.
const BEHIND: usize = 4;

/// Memory is filled with numbers that depend on their place.
pub trait Filled: Copy + PartialEq + std::fmt::Debug {
    fn filled(place: usize) -> Self;
    fn changed(self) -> Self;
}

macro_rules! filled {
    ($($kind:ty),*) => {
        $(impl Filled for $kind {
            fn filled(place: usize) -> $kind {
                (0xa5a5_a5a5_a5a5_a5a5 ^ (place as u64).wrapping_mul(0x0101_0101_0101_0101)) as $kind
            }

            fn changed(self) -> $kind {
                self ^ 1
            }
        })*
    };
}
filled!(u8, u32, u64);

/// What is changed in a library's answer, to see that the comparison finds it.
#[derive(Clone, Copy, Debug, PartialEq)]
pub enum Way {
    /// A number of the answer.
    Number(usize),
    /// Not the answer, but what is expected: the padded numbers of one kind are left out; the sources of the full copy go by a wrong rule.
    Kind(usize),
    Sources(usize),
    /// And so of a list of pcs: what is expected is wrong in one of the ways of check_lines.rs.
    List(usize),
    /// And so of the stricter reading: what is expected goes by one of the wrong rules of strict.rs.
    Strict(usize),
    /// The refusal's number, and its place.
    Refusal,
    Place,
    /// The array behind the numbers, and on a refusal.
    Behind,
    OnRefusal,
    /// Lent space: the first and the last item of the result, an item behind it, an item on a refusal.
    FirstItem,
    LastItem,
    BehindItems,
    ItemsOnRefusal,
    /// A number of the index's last row.
    Column(usize),
}

#[derive(Clone, Copy, Debug)]
pub struct Alteration {
    pub call: &'static str,
    pub way: Way,
}

#[derive(Default)]
pub struct Lender {
    pub alteration: Option<Alteration>,
    pub asked: u64,
}

/// As a call returns it. A place of 2^32 or more, which only a call at such a place can have, is left out.
pub fn coded(refusal: Refusal) -> u64 {
    let place = refusal.place.filter(|place| *place < 1 << 32);
    u64::from(refusal.number) + place.map_or(0, |place| 256 * (place as u64 + 1))
}

impl Lender {
    /// Asks a call that answers in an array alone.
    pub fn agree<const N: usize>(
        &mut self,
        call: &'static str,
        at: &[u64],
        expected: Answer<N>,
        ask: impl FnOnce(*mut u64) -> u64,
    ) -> Result<(), Difference> {
        let expected = expected.map(|numbers| (numbers, &[][..]));
        self.agree_lent::<u8, N>(call, at, 0, expected, |_, out| ask(out))
    }

    /// Asks a call that takes an array and lent space, of which it is told `lent` items.
    pub fn agree_lent<T: Filled, const N: usize>(
        &mut self,
        call: &'static str,
        at: &[u64],
        lent: usize,
        expected: Result<([u64; N], &[T]), u64>,
        ask: impl FnOnce(*mut T, *mut u64) -> u64,
    ) -> Result<(), Difference> {
        self.asked += 1;
        let mut out: [u64; OUT] = std::array::from_fn(u64::filled);
        let mut space: Vec<T> = if lent == 0 { Vec::new() } else { (0..lent + BEHIND).map(T::filled).collect() };
        let mut code = ask(space.as_mut_ptr(), out.as_mut_ptr());
        let items = expected.as_ref().map_or(0, |(_, items)| items.len());
        self.alter::<T, N>(call, items, &mut code, &mut out, &mut space);

        let answered: Answer<N> = if code == 0 { Ok(std::array::from_fn(|i| out[i])) } else { Err(code) };
        let numbers: Answer<N> = match &expected {
            Ok((numbers, _)) => Ok(*numbers),
            Err(code) => Err(*code),
        };
        if answered != numbers {
            return Err(Difference::new(call, at, Shown(numbers), Shown(answered)));
        }
        let used = if code == 0 { N } else { 0 };
        untouched(call, at, &out, used)?;
        if let Ok((_, result)) = expected {
            if let Some(i) = (0..items).find(|i| space[*i] != result[*i]) {
                return Err(Difference::new(call, at, ("lent space", i, result[i]), ("lent space", i, space[i])));
            }
        }
        untouched(call, at, &space, items)
    }

    /// Whether the self-test changes this.
    pub fn alters(&self, what: &str) -> bool {
        self.alteration.is_some_and(|alteration| alteration.call == what)
    }

    /// How many of the padded numbers the self-test leaves out.
    pub fn left_out(&self, padded: &Padded) -> u64 {
        match self.alteration {
            Some(Alteration { way: Way::Kind(kind), .. }) => padded.by_kind[kind],
            _ => 0,
        }
    }

    /// The wrong rule for the full copy's sources, if the self-test has one.
    pub fn wrong_sources(&self) -> Option<usize> {
        match self.alteration {
            Some(Alteration { way: Way::Sources(rule), .. }) => Some(rule),
            _ => None,
        }
    }

    /// In which way the self-test expects something else of a list of pcs.
    pub fn wrong_list(&self) -> Option<usize> {
        match self.alteration {
            Some(Alteration { way: Way::List(way), .. }) => Some(way),
            _ => None,
        }
    }

    /// The wrong rule for the stricter reading, if the self-test has one.
    pub fn wrong_strict(&self) -> Option<usize> {
        match self.alteration {
            Some(Alteration { way: Way::Strict(rule), .. }) => Some(rule),
            _ => None,
        }
    }

    /// Changes the answer as the self-test asks.
    fn alter<T: Filled, const N: usize>(
        &self,
        call: &'static str,
        items: usize,
        code: &mut u64,
        out: &mut [u64; OUT],
        space: &mut [T],
    ) {
        let Some(alteration) = self.alteration.filter(|alteration| alteration.call == call) else {
            return;
        };
        let answers = *code == 0;
        let item = |space: &mut [T], i: usize| space[i] = space[i].changed();
        match alteration.way {
            Way::Number(i) if answers => out[i] ^= 1,
            Way::Refusal if !answers => *code ^= 1,
            Way::Place if *code >= 256 => *code += 256,
            Way::Behind if answers => out[N] ^= 1,
            Way::OnRefusal if !answers => out[0] ^= 1,
            Way::FirstItem if answers && items > 0 => item(space, 0),
            Way::LastItem if answers && items > 0 => item(space, items - 1),
            Way::BehindItems if answers && items < space.len() => item(space, items),
            Way::ItemsOnRefusal if !answers && !space.is_empty() => item(space, 0),
            Way::Column(i) if answers && items >= COLUMNS => item(space, items - COLUMNS + i),
            _ => {}
        }
    }
}

/// That memory from a place on is as it was filled.
fn untouched<T: Filled>(call: &'static str, at: &[u64], memory: &[T], from: usize) -> Result<(), Difference> {
    match (from..memory.len()).find(|i| memory[*i] != T::filled(*i)) {
        None => Ok(()),
        Some(i) => Err(Difference::new(call, at, ("lent memory untouched at", i, T::filled(i)), memory[i])),
    }
}

/// An answer as it is printed, a refusal by its number and place.
struct Shown<const N: usize>(Answer<N>);

impl<const N: usize> std::fmt::Debug for Shown<N> {
    fn fmt(&self, out: &mut std::fmt::Formatter) -> std::fmt::Result {
        match self.0 {
            Ok(numbers) => write!(out, "{numbers:?}"),
            Err(code) if code >= 256 => write!(out, "refused {} {}", code % 256, code / 256 - 1),
            Err(code) => write!(out, "refused {code} -"),
        }
    }
}
