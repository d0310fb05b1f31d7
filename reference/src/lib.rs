//! Files sent to the clearing house: check a file, close a draft, join two
//! files, part one file, and make the records of a draft from values.
//!
//! The functions at the crate root are the plain ones. [`fast`] has the first
//! four operations with the same answers; it accepts well-formed transactions
//! a word at a time and hands everything else to the plain rules.
#![forbid(unsafe_code)]

pub mod answer;
pub mod cases;
mod checker;
pub mod damage;
mod date;
mod field;
mod figures;
pub mod header;
pub mod make;
mod operations;
pub mod program;
pub mod random;
pub mod records;
pub mod sample;
pub mod till;
pub mod vectors;
mod word;
mod writer;

pub mod fast;

pub use make::{make, make_draft};
pub use operations::{check, close, join, part};

/// Bytes of one record, its line feed included.
pub const RECORD: usize = 81;
/// The most records a file may have.
pub const MAX_RECORDS: usize = 200_000;
/// The most assignments a file may have.
pub const MAX_ASSIGNMENTS: u32 = 500;

/// The process day as the caller gives it: year, month, day. Any numbers may
/// be handed in; what is no date from 2000 to 2099 is refusal 1.
pub type Day = (u64, u64, u64);

/// The figures of a checked or written file.
#[derive(Clone, Copy, Debug, PartialEq, Eq)]
pub struct Accepted {
    pub assignments: u32,
    pub transactions: u32,
    pub records: u32,
    /// In øre.
    pub sum: u64,
    /// Year x 10000 + month x 100 + day.
    pub first_date: u32,
}

/// Why an operation was refused, and where.
#[derive(Clone, Copy, Debug, PartialEq, Eq)]
pub struct Refused {
    pub number: u8,
    /// 0, or which of the two joined files is at fault.
    pub operand: u8,
    /// From 1; 0 if the refusal is of no one record.
    pub record: u32,
    /// From 1; 0 if the refusal is of no one field.
    pub field: u8,
}

impl Refused {
    /// A refusal that names no record and no field.
    pub(crate) const fn whole(number: u8) -> Self {
        Self { number, operand: 0, record: 0, field: 0 }
    }

    pub(crate) const fn of_operand(self, operand: u8) -> Self {
        Self { operand, ..self }
    }
}

/// What checking answers.
pub type Verdict = Result<Accepted, Refused>;

/// What closing and joining answer.
pub type Writing = Result<Written, Refused>;

/// The figures of the written file, and how many bytes of the output it has.
#[derive(Clone, Copy, Debug, PartialEq, Eq)]
pub struct Written {
    pub figures: Accepted,
    pub bytes: usize,
}

/// What parting answers.
pub type Parting = Result<Parted, Refused>;

/// How many bytes of each output parting has written.
#[derive(Clone, Copy, Debug, PartialEq, Eq)]
pub struct Parted {
    pub first: usize,
    pub second: usize,
}

/// The operations on files of one variant, to choose between them at run time.
#[allow(clippy::type_complexity)]
#[derive(Clone, Copy)]
pub struct Variant {
    pub name: &'static str,
    pub check: fn(Day, &[u8]) -> Verdict,
    pub close: fn(Day, &[u8], &mut [u8]) -> Writing,
    pub join: fn(Day, &[u8], &[u8], &mut [u8]) -> Writing,
    pub part: fn(Day, &[u8], u64, &mut [u8], &mut [u8]) -> Parting,
}

impl Variant {
    pub const PLAIN: Self = Self { name: "plain", check, close, join, part };
    pub const FAST: Self = Self {
        name: "fast",
        check: fast::check,
        close: fast::close,
        join: fast::join,
        part: fast::part,
    };
}
