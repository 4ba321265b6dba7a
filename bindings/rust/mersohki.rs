//! Mersohki for Rust: safe functions over the C interface (`include/mersohki.h`), which has what each of them takes,
//! writes and never touches. Slices have their true lengths, what is written overlaps with nothing else, and nobody
//! else can change any of it meanwhile; so nothing is left for a caller to owe.

// A program seldom needs all of it.
#![allow(dead_code)]

/// The first question that was answered "no" (see [`question`]), and the refusal's place.
#[derive(Clone, Copy, Debug, PartialEq, Eq)]
pub struct Refusal {
    pub number: u8,
    pub place: u32,
}

impl std::fmt::Display for Refusal {
    fn fmt(&self, f: &mut std::fmt::Formatter<'_>) -> std::fmt::Result {
        write!(f, "refused {} {}", self.number, self.place)
    }
}

impl std::error::Error for Refusal {}

/// The questions' numbers, named as in the header.
pub mod question {
    pub const HEADER: u8 = 1;
    pub const WORKER_COUNT: u8 = 2;
    pub const OPERATION_COUNT: u8 = 3;
    pub const FILE_SIZE: u8 = 4;
    pub const MARK: u8 = 5;
    pub const WORKER: u8 = 6;
    pub const KIND: u8 = 7;
    pub const EVENT: u8 = 8;
    pub const CELLS: u8 = 9;
    pub const COMPLETE_RUN: u8 = 10;
    pub const TABLE_SPACE: u8 = 11;
    pub const IN_TRACE: u8 = 12;
    pub const DIFFERENT: u8 = 13;
    pub const UNORDERED: u8 = 14;
    pub const RUN_SPACE: u8 = 15;
    pub const RACE_SPACE: u8 = 16;
    pub const OUTPUT_SPACE: u8 = 17;
}

/// An accepted trace has no more than this, so memory of these sizes is enough for every call.
pub const MAX_WORKERS: usize = 16;
pub const MAX_OPERATIONS: usize = 1024;
pub const MAX_FILE: usize = 10 + 10 * MAX_OPERATIONS;
pub const MAX_TABLE: usize = MAX_OPERATIONS * MAX_WORKERS;
pub const MAX_RACES: usize = 491_520;

/// The counts of an accepted trace.
#[derive(Clone, Copy, Debug, PartialEq, Eq)]
pub struct Counts {
    pub workers: u8,
    pub operations: u32,
}

/// The counts of an accepted trace, and how many races are listed.
#[derive(Clone, Copy, Debug, PartialEq, Eq)]
pub struct Listed {
    pub workers: u8,
    pub operations: u32,
    pub races: u32,
}

// The structs and functions of the header, as it declares them. Nothing compares the two but the examples' output.
mod c {
    #[repr(C)]
    pub struct AcceptResult {
        pub number: u8,
        pub place: u32,
        pub workers: u8,
        pub operations: u32,
    }

    #[repr(C)]
    pub struct TableResult {
        pub number: u8,
        pub place: u32,
        pub workers: u8,
        pub operations: u32,
    }

    #[repr(C)]
    pub struct OrderResult {
        pub number: u8,
        pub place: u32,
        pub sign: i8,
    }

    #[repr(C)]
    pub struct RunsResult {
        pub number: u8,
        pub place: u32,
        pub operations: u32,
    }

    #[repr(C)]
    pub struct RacesResult {
        pub number: u8,
        pub place: u32,
        pub workers: u8,
        pub operations: u32,
        pub races: u32,
    }

    #[repr(C)]
    pub struct CanonicalResult {
        pub number: u8,
        pub place: u32,
        pub size: u32,
    }

    #[repr(C)]
    pub struct BeginningResult {
        pub list: u32,
        pub length: usize,
    }

    #[link(name = "capi", kind = "static")]
    unsafe extern "C" {
        pub fn mersohki_accept(file: *const u8, file_length: usize) -> AcceptResult;
        pub fn mersohki_order_table(
            file: *const u8,
            file_length: usize,
            table: *mut u16,
            table_length: usize,
        ) -> TableResult;
        pub fn mersohki_pair_order(
            file: *const u8,
            file_length: usize,
            a: u32,
            b: u32,
        ) -> OrderResult;
        pub fn mersohki_two_runs(
            file: *const u8,
            file_length: usize,
            a: u32,
            b: u32,
            first: *mut u16,
            first_length: usize,
            second: *mut u16,
            second_length: usize,
        ) -> RunsResult;
        pub fn mersohki_races(
            file: *const u8,
            file_length: usize,
            table: *mut u16,
            table_length: usize,
            lower: *mut u16,
            lower_length: usize,
            higher: *mut u16,
            higher_length: usize,
        ) -> RacesResult;
        pub fn mersohki_canonical(
            file: *const u8,
            file_length: usize,
            output: *mut u8,
            output_length: usize,
        ) -> CanonicalResult;
        pub fn mersohki_beginning(
            first: *const u16,
            first_length: usize,
            second: *const u16,
            second_length: usize,
            chosen: u32,
            other: u32,
        ) -> BeginningResult;
    }
}

// `value` where number 0 says that nothing was refused.
fn unless_refused<T>(number: u8, place: u32, value: T) -> Result<T, Refusal> {
    if number == 0 {
        Ok(value)
    } else {
        Err(Refusal { number, place })
    }
}

/// Reads a file: the counts of its trace.
pub fn accept(file: &[u8]) -> Result<Counts, Refusal> {
    // SAFETY: the pointer goes with its length.
    let r = unsafe { c::mersohki_accept(file.as_ptr(), file.len()) };
    let counts = Counts {
        workers: r.workers,
        operations: r.operations,
    };
    unless_refused(r.number, r.place, counts)
}

/// Fills the order table: row k is the `workers` numbers from place k × `workers` on.
pub fn order_table(file: &[u8], table: &mut [u16]) -> Result<Counts, Refusal> {
    // SAFETY: each pointer goes with its length, and `table` overlaps with nothing else.
    let r = unsafe {
        c::mersohki_order_table(file.as_ptr(), file.len(), table.as_mut_ptr(), table.len())
    };
    let counts = Counts {
        workers: r.workers,
        operations: r.operations,
    };
    unless_refused(r.number, r.place, counts)
}

/// The order of a and b: −1 where a is certain before b, +1 where b is certain before a, 0 where neither is.
pub fn pair_order(file: &[u8], a: u32, b: u32) -> Result<i8, Refusal> {
    // SAFETY: the pointer goes with its length.
    let r = unsafe { c::mersohki_pair_order(file.as_ptr(), file.len(), a, b) };
    unless_refused(r.number, r.place, r.sign)
}

/// Writes two complete runs, a before b in the first and b before a in the second; answers how long each is.
pub fn two_runs(
    file: &[u8],
    a: u32,
    b: u32,
    first: &mut [u16],
    second: &mut [u16],
) -> Result<u32, Refusal> {
    // SAFETY: each pointer goes with its length, and the buffers overlap with nothing else.
    let r = unsafe {
        c::mersohki_two_runs(
            file.as_ptr(),
            file.len(),
            a,
            b,
            first.as_mut_ptr(),
            first.len(),
            second.as_mut_ptr(),
            second.len(),
        )
    };
    unless_refused(r.number, r.place, r.operations)
}

/// Lists the races, and fills the order table, which refusal 16 leaves filled too.
pub fn races(
    file: &[u8],
    table: &mut [u16],
    lower: &mut [u16],
    higher: &mut [u16],
) -> Result<Listed, Refusal> {
    // SAFETY: each pointer goes with its length, and table and lists overlap with nothing else.
    let r = unsafe {
        c::mersohki_races(
            file.as_ptr(),
            file.len(),
            table.as_mut_ptr(),
            table.len(),
            lower.as_mut_ptr(),
            lower.len(),
            higher.as_mut_ptr(),
            higher.len(),
        )
    };
    let listed = Listed {
        workers: r.workers,
        operations: r.operations,
        races: r.races,
    };
    unless_refused(r.number, r.place, listed)
}

/// Writes the tidy file, and answers its size.
pub fn canonical(file: &[u8], output: &mut [u8]) -> Result<u32, Refusal> {
    // SAFETY: each pointer goes with its length, and `output` overlaps with nothing else.
    let r = unsafe {
        c::mersohki_canonical(file.as_ptr(), file.len(), output.as_mut_ptr(), output.len())
    };
    unless_refused(r.number, r.place, r.size)
}

/// The part of one of two lists that ends with `chosen`, where `other` comes later; else nothing.
pub fn beginning<'a>(first: &'a [u16], second: &'a [u16], chosen: u32, other: u32) -> &'a [u16] {
    // SAFETY: each pointer goes with its length.
    let r = unsafe {
        c::mersohki_beginning(
            first.as_ptr(),
            first.len(),
            second.as_ptr(),
            second.len(),
            chosen,
            other,
        )
    };
    if r.list == 0 {
        &first[..r.length]
    } else {
        &second[..r.length]
    }
}
