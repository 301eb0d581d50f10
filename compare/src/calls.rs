// The calls of include/lafzimdo.h, each with its name and how many numbers it answers.
type Status = u64;

/// Calls of a chunk and its limits: with nothing else; with a function or a place; with a function and an entry or a pc; with lent space.
pub type Whole = unsafe extern "C" fn(*const u8, usize, *const u64, *mut u64) -> Status;
pub type Numbered = unsafe extern "C" fn(*const u8, usize, *const u64, usize, *mut u64) -> Status;
pub type Entry = unsafe extern "C" fn(*const u8, usize, *const u64, usize, usize, *mut u64) -> Status;
pub type Lending<T> = unsafe extern "C" fn(*const u8, usize, *const u64, *mut T, usize, *mut u64) -> Status;

pub struct Call<F, const N: usize> {
    pub name: &'static str,
    pub function: F,
}

macro_rules! declared {
    ($name:ident: Whole) => { declared!($name()); };
    ($name:ident: Numbered) => { declared!($name(number: usize)); };
    ($name:ident: Entry) => { declared!($name(function: usize, entry: usize)); };
    ($name:ident: Lending<$item:ty>) => { declared!($name(space: *mut $item, lent: usize)); };
    ($name:ident($($argument:ident: $type:ty),*)) => {
        extern "C" {
            fn $name(chunk: *const u8, len: usize, limits: *const u64, $($argument: $type,)* out: *mut u64) -> Status;
        }
    };
}

macro_rules! calls {
    ($($constant:ident: $kind:ident $(<$item:ty>)?, $numbers:literal, $name:ident;)*) => {
        $(
            declared!($name: $kind $(<$item>)?);
            pub const $constant: Call<$kind $(<$item>)?, $numbers> = Call { name: stringify!($name), function: $name };
        )*
        /// Every call here, and how many numbers it answers.
        pub const CHUNK_CALLS: &[(&str, usize)] = &[$((stringify!($name), $numbers)),*];
    };
}

calls! {
    SUMMARY: Whole, 15, lafzimdo_summary;
    STRICT_SUMMARY: Whole, 15, lafzimdo_strict_summary;
    COPY_LENGTH: Whole, 1, lafzimdo_copy_length;
    FULL_COPY_LENGTH: Whole, 1, lafzimdo_full_copy_length;
    VERDICT: Whole, 1, lafzimdo_verdict;
    FINDING_COUNT: Whole, 1, lafzimdo_finding_count;
    FUNCTION: Numbered, 18, lafzimdo_function;
    LINE: Entry, 1, lafzimdo_line;
    INSTRUCTION: Entry, 1, lafzimdo_instruction;
    CONSTANT: Entry, 3, lafzimdo_constant;
    UPVALUE: Entry, 3, lafzimdo_upvalue;
    DELTA: Entry, 1, lafzimdo_delta;
    ANCHOR: Entry, 2, lafzimdo_anchor;
    UPVALUE_NAME: Entry, 3, lafzimdo_upvalue_name;
    INDEX: Lending<u32>, 1, lafzimdo_index;
    COPY: Lending<u8>, 1, lafzimdo_copy;
    FULL_COPY: Lending<u8>, 1, lafzimdo_full_copy;
    FINDINGS: Lending<u64>, 2, lafzimdo_findings;
    HEAD_AT: Numbered, 16, lafzimdo_head_at;
    TAIL_AT: Numbered, 9, lafzimdo_tail_at;
    WORD_AT: Numbered, 2, lafzimdo_word_at;
    CONSTANT_AT: Numbered, 4, lafzimdo_constant_at;
    UPVALUE_AT: Numbered, 4, lafzimdo_upvalue_at;
    DELTA_AT: Numbered, 2, lafzimdo_delta_at;
    ANCHOR_AT: Numbered, 3, lafzimdo_anchor_at;
    LOCAL_AT: Numbered, 6, lafzimdo_local_at;
    STRING_AT: Numbered, 4, lafzimdo_string_at;
}

declared!(lafzimdo_local(function: usize, entry: usize, name: *mut u8, name_len: usize));
declared!(lafzimdo_lines(function: usize, pcs: *const u64, pcs_len: usize, lines: *mut u64, lines_len: usize));

/// The name into lent space; three numbers.
pub const LOCAL: unsafe extern "C" fn(*const u8, usize, *const u64, usize, usize, *mut u8, usize, *mut u64) -> Status =
    lafzimdo_local;

/// The lines of a list of pcs into lent space; one number.
#[rustfmt::skip]
pub const LINES: unsafe extern "C" fn(*const u8, usize, *const u64, usize, *const u64, usize, *mut u64, usize, *mut u64) -> Status =
    lafzimdo_lines;

extern "C" {
    /// Twelve numbers, and one.
    pub fn lafzimdo_decode(word: u32, out: *mut u64) -> Status;
    #[rustfmt::skip]
    pub fn lafzimdo_encode(
        op: u8,
        a: u8,
        k: u8,
        b: u8,
        c: u8,
        bx: u32,
        sbx: i32,
        ax: u32,
        sj: i32,
        out: *mut u64,
    ) -> Status;
}
