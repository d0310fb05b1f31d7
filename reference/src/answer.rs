//! An answer as the operations for C give it: sixteen numbers, each at its
//! place, and 0 wherever a place does not apply.

use crate::make::{BadLine, Drafting, Making};
use crate::{Accepted, Parted, Parting, RECORD, Refused, Verdict, Writing, Written};

/// How many numbers an answer has.
pub const PLACES: usize = 16;

pub type Answer = [u64; PLACES];

/// The places by their names in include/pay.h. Those without a name are always 0.
#[derive(Clone, Copy, Debug, PartialEq, Eq)]
pub enum Place {
    What = 0,
    Number = 1,
    Operand = 2,
    Record = 3,
    Field = 4,
    Assignments = 5,
    Transactions = 6,
    Records = 7,
    Sum = 8,
    FirstDate = 9,
    Written = 10,
    WrittenSecond = 15,
}

impl Place {
    pub const ALL: [Self; 12] = [
        Self::What,
        Self::Number,
        Self::Operand,
        Self::Record,
        Self::Field,
        Self::Assignments,
        Self::Transactions,
        Self::Records,
        Self::Sum,
        Self::FirstDate,
        Self::Written,
        Self::WrittenSecond,
    ];

    /// The number that an answer has here.
    pub fn of(self, answer: &Answer) -> u64 {
        answer[self as usize]
    }
}

/// What an answer is, by its name in include/pay.h.
#[derive(Clone, Copy, Debug, PartialEq, Eq)]
pub enum What {
    Refused = 0,
    Accepted = 1,
    Parted = 2,
    Made = 3,
}

impl What {
    pub const ALL: [Self; 4] = [Self::Refused, Self::Accepted, Self::Parted, Self::Made];
}

fn answer<const N: usize>(what: What, numbers: [(Place, u64); N]) -> Answer {
    let mut answer = [0; PLACES];
    answer[Place::What as usize] = what as u64;
    for (place, number) in numbers {
        answer[place as usize] = number;
    }
    answer
}

fn refused(refused: Refused) -> Answer {
    let Refused { number, operand, record, field } = refused;
    let numbers = [
        (Place::Number, number.into()),
        (Place::Operand, operand.into()),
        (Place::Record, record.into()),
        (Place::Field, field.into()),
    ];
    answer(What::Refused, numbers)
}

fn accepted(figures: Accepted, bytes: usize) -> Answer {
    let Accepted { assignments, transactions, records, sum, first_date } = figures;
    let numbers = [
        (Place::Assignments, assignments.into()),
        (Place::Transactions, transactions.into()),
        (Place::Records, records.into()),
        (Place::Sum, sum),
        (Place::FirstDate, first_date.into()),
        (Place::Written, bytes as u64),
    ];
    answer(What::Accepted, numbers)
}

/// The answer of checking, which writes nothing.
pub fn of_check(verdict: Verdict) -> Answer {
    verdict.map_or_else(refused, |figures| accepted(figures, 0))
}

/// The answer of closing and joining.
pub fn of_writing(writing: Writing) -> Answer {
    writing.map_or_else(refused, |Written { figures, bytes }| accepted(figures, bytes))
}

/// The answer of parting, which tells no figures.
pub fn of_parting(parting: Parting) -> Answer {
    parting.map_or_else(refused, |Parted { first, second }| {
        let numbers = [(Place::Written, first as u64), (Place::WrittenSecond, second as u64)];
        answer(What::Parted, numbers)
    })
}

/// The answer of making a record.
pub fn of_making(making: Making) -> Answer {
    making.map_or_else(refused, |()| answer(What::Made, [(Place::Written, RECORD as u64)]))
}

/// What an answer of making a record says, if a making can give it.
pub fn making(answer: &Answer) -> Option<Making> {
    let [number, field] = [Place::Number, Place::Field].map(|place| place.of(answer) as u8);
    let refused = Refused { number, operand: 0, record: 0, field };
    [Ok(()), Err(refused)].into_iter().find(|&making| of_making(making) == *answer)
}

/// Making a draft is no operation for C. It has an answer of the same form, with
/// how many records were made, or the line in the place of the record.
pub fn of_drafting(drafting: Drafting) -> Answer {
    match drafting {
        Ok(records) => {
            let numbers =
                [(Place::Records, records as u64), (Place::Written, (records * RECORD) as u64)];
            answer(What::Made, numbers)
        }
        Err(BadLine { number, line, field }) => {
            refused(Refused { number, operand: 0, record: line as u32, field })
        }
    }
}
