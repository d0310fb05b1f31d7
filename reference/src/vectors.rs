//! Outside vectors: a file for each, a line that says what is asked and then
//! the input; and the line that a program has to print about it.
//!
//! `check DDMMYY` and the file; `close DDMMYY ROOM 000000 000000` and the
//! draft; `join  DDMMYY LENGTH ROOM 000000`, the first file (of that length)
//! and the second; `part  DDMMYY K ROOM1 ROOM2` and the file; `make  000000
//! ROOM`, blanks up to the same length, and lines of values. Outputs are filled
//! with `#` before the call.

use crate::cases::{Case, Operation};
use crate::make::BadLine;
use crate::{Accepted, Day, Refused, check, close, join, make_draft, part};

/// The most bytes of an output.
const MOST_ROOM: usize = 160_000;
/// The most bytes of a whole vector.
const MOST_BYTES: usize = 163_840;
const FILLER: u8 = b'#';

/// The bytes of a vector.
pub fn written(case: &Case) -> Vec<u8> {
    let (year, month, day) = case.day;
    let date = format!("{day:02}{month:02}{:02}", year % 100);
    let [one, two] = case.rooms;
    let line = match case.operation {
        Operation::Check => format!("check {date}\n"),
        Operation::Close => format!("close {date} {one:06} 000000 000000\n"),
        Operation::Join => format!("join  {date} {:06} {one:06} 000000\n", case.first.len()),
        Operation::Part => format!("part  {date} {:06} {one:06} {two:06}\n", case.k),
        Operation::MakeDraft => format!("make  000000 {one:06}{:14}\n", ""),
        _ => panic!("there are no vectors of {}", case.operation.name()),
    };
    let vector = [line.as_bytes(), &case.first, &case.second].concat();
    assert!(case.rooms.into_iter().all(|room| room <= MOST_ROOM) && vector.len() <= MOST_BYTES);
    vector
}

/// The number in these places of the first line.
fn number(line: &[u8], from: usize, to: usize) -> Option<u64> {
    std::str::from_utf8(line.get(from..to)?).ok()?.parse().ok()
}

fn day(line: &[u8]) -> Option<Day> {
    Some((2000 + number(line, 10, 12)?, number(line, 8, 10)?, number(line, 6, 8)?))
}

/// What a vector asks.
pub fn read(vector: &[u8]) -> Option<Case> {
    let end = vector.iter().position(|&byte| byte == b'\n')?;
    let (line, rest) = (&vector[..end], &vector[end + 1..]);
    let numbers = || Some((number(line, 13, 19)?, number(line, 20, 26)?, number(line, 27, 33)?));
    let whole = |operation, k, rooms| {
        Some(Case { k, rooms, ..Case::new(operation, day(line)?, rest.to_vec()) })
    };
    match line.get(..6)? {
        b"check " => whole(Operation::Check, 0, [0, 0]),
        b"close " => {
            let (room, _, _) = numbers()?;
            whole(Operation::Close, 0, [room as usize, 0])
        }
        b"join  " => {
            let (length, room, _) = numbers()?;
            let (first, second) = rest.split_at_checked(length as usize)?;
            let case = whole(Operation::Join, 0, [room as usize, 0])?;
            Some(Case { first: first.to_vec(), second: second.to_vec(), ..case })
        }
        b"part  " => {
            let (k, one, two) = numbers()?;
            whole(Operation::Part, k, [one as usize, two as usize])
        }
        b"make  " => whole(Operation::MakeDraft, 0, [number(line, 13, 19)? as usize, 0]),
        _ => None,
    }
}

/// A number that stands for all bytes of an output.
fn hash(bytes: &[u8]) -> u32 {
    bytes.iter().fold(0, |h: u32, &byte| h.wrapping_mul(31).wrapping_add(byte.into()))
}

fn accepted(figures: Accepted) -> String {
    let Accepted { assignments, transactions, records, sum, first_date } = figures;
    let (year, month, day) = (first_date / 10_000 % 100, first_date / 100 % 100, first_date % 100);
    format!("accepted {assignments} {transactions} {records} {sum} {day:02}{month:02}{year:02}")
}

fn refused(refused: Refused) -> String {
    let Refused { number, record, field, .. } = refused;
    format!("refused {number} {record} {field}")
}

/// The line to be printed about a case, without the vector's name.
pub fn line(case: &Case) -> String {
    let Case { operation, day, first, second, k, rooms, .. } = case;
    let [mut one, mut two] = rooms.map(|room| vec![FILLER; room]);
    match operation {
        Operation::Check => check(*day, first).map_or_else(refused, accepted),
        Operation::Close => {
            let answer = close(*day, first, &mut one).map(|written| written.figures);
            let answer = answer.map_or_else(refused, accepted);
            format!("{answer} {}", hash(&one))
        }
        Operation::Join => {
            let answer = join(*day, first, second, &mut one).map(|written| written.figures);
            let answer = answer.map_or_else(|r| format!("{} {}", refused(r), r.operand), accepted);
            format!("{answer} {}", hash(&one))
        }
        Operation::Part => {
            let answer = part(*day, first, *k, &mut one, &mut two);
            let answer = answer.map_or_else(refused, |_| "parted".into());
            format!("{answer} {} {}", hash(&one), hash(&two))
        }
        Operation::MakeDraft => {
            let answer = match make_draft(first, &mut one) {
                Ok(records) => format!("made {records}"),
                Err(BadLine { number, line, field }) => format!("refused {number} {line} {field}"),
            };
            format!("{answer} {}", hash(&one))
        }
        _ => panic!("there are no vectors of {}", operation.name()),
    }
}

#[cfg(test)]
mod tests {
    use super::*;
    use crate::records::{whole, with};

    fn case(operation: Operation, first: Vec<u8>, second: Vec<u8>, rooms: [usize; 2]) -> Case {
        Case { second, k: 1, rooms, ..Case::new(operation, (2025, 10, 1), first) }
    }

    #[test]
    fn lines_of_document_01() {
        let twin = with(&whole(), 2, 18, "0000002");
        let check = case(Operation::Check, whole(), vec![], [0, 0]);
        assert_eq!(line(&check), "accepted 1 1 6 80000 011125");
        let itself = case(Operation::Join, whole(), whole(), [0, 0]);
        assert_eq!(line(&itself), "refused 15 2 6 2 0");
        let joined = line(&case(Operation::Join, whole(), twin, [810, 0]));
        assert!(joined.starts_with("accepted 2 2 10 160000 011125 "));
    }

    #[test]
    fn written_and_read_again() {
        use Operation::{Check, Close, Join, MakeDraft, Part};
        for operation in [Check, Close, Join, Part, MakeDraft] {
            let case = case(operation, whole(), vec![], [486, 7]);
            let again = read(&written(&case)).unwrap();
            assert_eq!(line(&again), line(&case));
        }
        let lines = b"10;12345;0110001\n".to_vec();
        let vector = written(&case(MakeDraft, lines.clone(), vec![], [81, 0]));
        assert_eq!(vector, [b"make  000000 000081              \n", &lines[..]].concat());
        assert_eq!(written(&case(Operation::Join, whole(), whole(), [5, 0]))[33], b'\n');
    }

    #[test]
    fn hashes() {
        assert_eq!(hash(b""), 0);
        assert_eq!(hash(b"ab"), 97 * 31 + 98);
        assert_eq!(
            hash(&[255; 9]),
            [255u64; 9].iter().fold(0, |h, b| (h * 31 + b) % (1 << 32)) as u32
        );
    }
}
