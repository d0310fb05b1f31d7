//! Files by chance: the variants agree, and the operations with one another.

mod common;

use common::*;
use reference::answer::Place;
use reference::cases::{Operation, answer, case};
use reference::damage::damage;
use reference::random::Random;
use reference::sample::{Plan, file};
use reference::{RECORD, Variant};
use std::collections::HashSet;

fn plan(seed: u64) -> Plan {
    let mut random = Random(seed);
    Plan {
        seed,
        day: DAY,
        assignments: 1 + random.below(6) as u32,
        transactions: 1 + random.below(8) as u32,
        records: None,
        extras: 50,
        notices: 50,
        unplaced: 30,
        extremes: true,
    }
}

#[test]
fn sound_files() {
    for seed in 0..2_000 {
        let file = file(plan(seed));
        let verdict = check(&file);
        let figures = verdict.unwrap_or_else(|refused| panic!("{seed}: {refused:?}"));
        assert_eq!(figures.records as usize, file.len() / RECORD);
        let draft = draft(&file);
        assert_eq!(closed(&draft), file);
        let (closed, out) = close(&draft, file.len());
        assert_eq!(closed, verdict);
        assert!(out == file);
        for k in 1..u64::from(figures.assignments) {
            let (parted, [out1, out2]) = part(&file, k, [file.len(), file.len()]);
            let parted = parted.unwrap();
            let (joined, out) = join(&out1[..parted.first], &out2[..parted.second], file.len());
            assert_eq!(joined, verdict);
            assert!(out == file);
        }
    }
}

#[test]
fn damaged_files() {
    let mut random = Random(42);
    let mut seen = [0u32; 24];
    for seed in 0..3_000 {
        let file = file(plan(seed));
        let draft = draft(&file);
        for _ in 0..20 {
            let mut damaged = file.clone();
            for _ in 0..1 + random.below(2) {
                damage(&mut random, &mut damaged);
            }
            if let Err(refused) = check(&damaged) {
                seen[refused.number as usize] += 1;
            }
            let _ = part(&damaged, random.below(4), [file.len(), file.len()]);
            let mut damaged = draft.clone();
            damage(&mut random, &mut damaged);
            let (verdict, out) = close(&damaged, file.len() + 81);
            match verdict {
                Ok(figures) => {
                    let length = figures.records as usize * RECORD;
                    assert_eq!(check(&out[..length]), Ok(figures));
                    assert!(out[length..].iter().all(|&byte| byte == 0xEE));
                    assert!(out[..length] == closed(&damaged));
                }
                Err(refused) => {
                    assert!(out.iter().all(|&byte| byte == 0xEE));
                    seen[refused.number as usize] += 1;
                }
            }
        }
    }
    for number in [2, 4, 5, 6, 7, 8, 9, 10, 11, 12, 14, 15, 17, 18] {
        assert!(seen[number] > 0, "refusal {number} never came up: {seen:?}");
    }
}

/// Nothing at a limit, so that any two can be joined.
fn usual(seed: u64) -> Plan {
    Plan { extremes: false, ..plan(seed) }
}

#[test]
fn joined_files() {
    for seed in 0..2_000 {
        let (a, b) = (file(usual(seed)), file(usual(seed + 1_000_000)));
        let (verdict, out) = join(&a, &b, a.len() + b.len());
        let Ok(figures) = verdict else { panic!("{seed}: {verdict:?}") };
        let length = figures.records as usize * RECORD;
        assert_eq!(length, a.len() + b.len() - 2 * RECORD);
        assert_eq!(check(&out[..length]), verdict);
        let drafts = [draft(&a), draft(&b)[RECORD..].to_vec()].concat();
        assert!(out[..length] == closed(&drafts));
    }
}

/// The places that apply to an operation, by what its answer is.
#[rustfmt::skip]
fn places(operation: Operation, what: u64) -> &'static [Place] {
    use Place::*;
    match (what, operation) {
        (0, _) => &[What, Number, Operand, Record, Field],
        (1, Operation::Check) => &[What, Assignments, Transactions, Records, Sum, FirstDate],
        (1, Operation::Close | Operation::Join) => &[What, Assignments, Transactions, Records, Sum, FirstDate, Written],
        (2, Operation::Part) => &[What, Written, WrittenSecond],
        (3, Operation::MakeDraft) => &[What, Records, Written],
        (3, Operation::Make10 | Operation::Make20 | Operation::Make30 | Operation::Make31 | Operation::Make40 | Operation::Make41 | Operation::Make49 | Operation::Make50) => &[What, Written],
        _ => panic!("{operation:?} answers {what}"),
    }
}

/// Cases as the comparison with the archive has them: the variants answer
/// alike and write alike, tell how much they wrote, have zeros where a place
/// does not apply, and every refusal comes up.
#[test]
fn cases_of_every_operation() {
    let mut seen = [0u32; 24];
    for index in 0..40_000 {
        let case = case(1, index, &Operation::ALL);
        let [plain, fast] = [Variant::PLAIN, Variant::FAST].map(|variant| {
            let [mut one, mut two] = case.rooms.map(|room| vec![FILLER; room]);
            (answer(&case, variant, &mut one, &mut two), one, two)
        });
        assert!(plain == fast, "case {index}: {:?} {:?}", plain.0, fast.0);
        let (answer, one, two) = plain;
        let places = places(case.operation, Place::What.of(&answer));
        for at in (0..answer.len()).filter(|&at| !places.iter().any(|&place| place as usize == at))
        {
            assert_eq!(answer[at], 0, "case {index}, place {at}");
        }
        let told = [Place::Written, Place::WrittenSecond].map(|place| place.of(&answer) as usize);
        let found = [written(&one), written(&two)];
        match (case.operation, Place::What.of(&answer)) {
            // Records made before a refused line stay.
            (Operation::MakeDraft, 0) => assert!(found[0].is_multiple_of(RECORD), "case {index}"),
            _ => assert_eq!(told, found, "case {index}"),
        }
        seen[Place::Number.of(&answer) as usize] += 1;
    }
    assert!(seen.iter().all(|&count| count > 0), "{seen:?}");
}

/// Numbers and fields of the refusals of a 41, of a 49 (12 at field 2 among those of the other
/// service), and of making a 41 and a 49 of service 04.
type Refusals = &'static [(u64, u64)];
#[rustfmt::skip]
const OF_41: Refusals = &[(4, 0), (5, 4), (7, 1), (12, 2), (12, 3), (8, 5), (12, 5), (8, 6), (8, 7), (8, 8), (7, 9)];
#[rustfmt::skip]
const OF_49_01: Refusals = &[(4, 0), (5, 4), (7, 1), (12, 2), (12, 3), (8, 5), (12, 5), (7, 6), (7, 7), (7, 8), (17, 7), (23, 7), (8, 9), (7, 10)];
#[rustfmt::skip]
const OF_49_04: Refusals = &[(4, 0), (5, 4), (7, 1), (12, 2), (12, 3), (8, 5), (12, 5), (7, 6), (7, 7), (17, 7), (23, 7), (8, 8), (7, 9)];
#[rustfmt::skip]
const OF_MAKE41: Refusals = &[(22, 2), (22, 3), (22, 5), (22, 6), (22, 7), (22, 8), (7, 2), (7, 3), (8, 6), (8, 7), (8, 8), (19, 0)];
#[rustfmt::skip]
const OF_MAKE49: Refusals = &[(22, 3), (22, 5), (22, 6), (22, 7), (22, 8), (7, 3), (7, 6), (7, 7), (8, 8), (19, 0)];

/// The cases of the comparison come to every refusal of a 41 and of a 49.
#[test]
fn cases_with_second_addresses_and_messages() {
    let mut seen = HashSet::new();
    for index in 0..40_000 {
        let case = case(2, index, &Operation::ALL);
        let [mut one, mut two] = case.rooms.map(|room| vec![FILLER; room]);
        let answer = answer(&case, Variant::PLAIN, &mut one, &mut two);
        let refusal = (Place::Number.of(&answer), Place::Field.of(&answer));
        let data = if Place::Operand.of(&answer) == 2 { &case.second } else { &case.first };
        let record = (Place::Record.of(&answer) as usize).checked_sub(1);
        let record = record.and_then(|record| data.get(record * RECORD..)?.get(..RECORD));
        let wanted = match (case.operation, record) {
            (Operation::Make41, _) => OF_MAKE41,
            (Operation::Make49, _) if case.numbers[0] == 4 => OF_MAKE49,
            (Operation::MakeDraft, _) | (_, None) => continue,
            (_, Some(record)) => match (&record[2..4], &record[6..8]) {
                (_, b"41") => OF_41,
                (b"01", b"49") => OF_49_01,
                (b"04", b"49") => OF_49_04,
                _ => continue,
            },
        };
        seen.insert((wanted, refusal));
    }
    for wanted in [OF_41, OF_49_01, OF_49_04, OF_MAKE41, OF_MAKE49] {
        for &refusal in wanted {
            assert!(seen.contains(&(wanted, refusal)), "{refusal:?} of {wanted:?}");
        }
    }
    // Nothing else is given, but that a making is sound.
    assert!(seen.iter().all(|(of, refusal)| of.contains(refusal) || *refusal == (0, 0)));
}
