//! The document's own examples.

mod common;

use common::*;
use reference::cases::{Case, Operation, answer};
use reference::{Day, Parted, Variant, program};

/// One transaction of service 01 or 04 on that date, and that account.
fn one(service: &str, date: &str, account: &str) -> Vec<u8> {
    let draft = bytes(&[
        r10(),
        r20(service, 1, 1),
        r30(service, "02", 1, date, 80_000, ""),
        r31(service, "02", 1),
    ]);
    closed(&with(&draft, 2, 25, account))
}

fn date_on(day: Day, service: &str, date: &str) -> Option<u8> {
    check_on(day, &one(service, date, ACCOUNT)).err().map(|refused| {
        assert_eq!((refused.record, refused.field), (3, 6));
        refused.number
    })
}

fn account(account: &str) -> Option<u8> {
    check(&one("04", "011125", account)).err().map(|refused| {
        assert_eq!((refused.record, refused.field), (2, 7));
        refused.number
    })
}

#[test]
fn one_file_whole() {
    let file = whole();
    assert_eq!(file.len(), 486);
    assert_eq!(check(&file), Ok(accepted(1, 1, 6, 80_000, 20251101)));
    let input = [b"011025\n", &file[..]].concat();
    assert_eq!(program::answer(&input), "accepted 1 1 6 80000 011125");
    let wrong_sum = with(&file, 5, 41, "1");
    assert_eq!(check(&wrong_sum), Err(refused(18, 5, 7)));
    assert_eq!(program::answer(&[b"011025\n", &wrong_sum[..]].concat()), "refused 18 5 7");
}

#[test]
fn marked_1_to_4_accounts() {
    assert_eq!(account("12345678903"), None);
    assert_eq!(account("12345678901"), Some(11));
    assert_eq!(account("00000000000"), None);
    for last in 0..10 {
        assert_eq!(account(&format!("0000000006{last}")), Some(11));
    }
}

#[test]
fn marked_5_leap_days() {
    assert_eq!(date_on((2024, 3, 1), "04", "290224"), None);
    assert_eq!(date_on((2025, 3, 1), "04", "290225"), Some(9));
}

#[test]
fn marked_6_too_late() {
    for service in ["01", "04"] {
        assert_eq!(date_on(DAY, service, "011026"), None);
        assert_eq!(date_on(DAY, service, "021026"), Some(10));
    }
}

#[test]
fn marked_7_too_early() {
    assert_eq!(date_on(DAY, "01", "300924"), Some(10));
    assert_eq!(date_on(DAY, "04", "300924"), None);
    assert_eq!(date_on(DAY, "01", "011024"), None);
    assert_eq!(date_on(DAY, "04", "011024"), None);
}

#[test]
fn marked_8_from_a_leap_day() {
    assert_eq!(date_on((2024, 2, 29), "04", "280225"), None);
    assert_eq!(date_on((2024, 2, 29), "04", "010325"), Some(10));
}

#[test]
fn marked_9_order_of_dates() {
    let draft = bytes(&[
        r10(),
        r20("04", 1, 1),
        r30("04", "02", 1, "010126", 1, ""),
        r31("04", "02", 1),
        r30("04", "02", 2, "311225", 1, ""),
        r31("04", "02", 2),
    ]);
    let (verdict, out) = close(&draft, 8 * 81);
    assert_eq!(verdict, Ok(accepted(1, 2, 8, 2, 20251231)));
    assert_eq!(&out[6 * 81 + 41..6 * 81 + 53], b"311225010126");
}

#[test]
fn marked_10_sub_specifications() {
    let with_last = |amount, credit| {
        closed(&bytes(&[
            r10(),
            r20("04", 1, 1),
            r30("04", "16", 1, "011125", amount, ""),
            r31("04", "16", 1),
            r50("16", 1, 50_000),
            r50("16", 1, 40_000),
            r50("16", 1, 10_000),
            r50("17", 1, credit),
        ]))
    };
    assert!(check(&with_last(80_000, 20_000)).is_ok());
    assert_eq!(check(&with_last(80_000, 20_001)), Err(refused(14, 9, 0)));
    assert_eq!(check(&with_last(120_000, 20_000)), Err(refused(14, 9, 0)));
}

#[test]
fn run_joined_to_itself() {
    let file = whole();
    let (verdict, out) = join(&file, &file, 2_000);
    assert_eq!(verdict, Err(of_operand(2, 15, 2, 6)));
    assert!(out.iter().all(|&byte| byte == 0xEE));
}

#[test]
fn run_joined_to_its_twin() {
    let file = whole();
    let twin = with(&file, 2, 18, "0000002");
    let (verdict, out) = join(&file, &twin, 900);
    assert_eq!(verdict, Ok(accepted(2, 2, 10, 160_000, 20251101)));
    assert!(out[810..].iter().all(|&byte| byte == 0xEE));
    let joined = &out[..810];
    assert_eq!(check(joined), Ok(accepted(2, 2, 10, 160_000, 20251101)));
    assert_eq!(joined[..405], file[..405]);
    assert_eq!(joined[405..729], twin[81..405]);
    // And parted again.
    let (parted, [out1, out2]) = part(joined, 1, [500, 486]);
    assert_eq!(parted, Ok(Parted { first: 486, second: 486 }));
    assert_eq!(out1[..486], file);
    assert!(out1[486..].iter().all(|&byte| byte == 0xEE));
    assert_eq!(out2, twin);
}

/// The answer's sixteen numbers.
#[test]
#[rustfmt::skip]
fn run_answers() {
    let ask = |operation, first: &[u8], second: &[u8], rooms: [usize; 2]| {
        let case = Case { second: second.into(), k: 1, rooms, ..Case::new(operation, DAY, first.into()) };
        let [plain, fast] = [Variant::PLAIN, Variant::FAST].map(|variant| answer(&case, variant, &mut vec![0; rooms[0]], &mut vec![0; rooms[1]]));
        assert_eq!(plain, fast);
        plain
    };
    let (file, twin, kinds) = (whole(), with(&whole(), 2, 18, "0000002"), every_kind());
    assert_eq!(ask(Operation::Check, &file, b"", [0, 0]), [1, 0, 0, 0, 0, 1, 1, 6, 80_000, 20251101, 0, 0, 0, 0, 0, 0]);
    assert_eq!(ask(Operation::Close, &draft(&file), b"", [486, 0]), [1, 0, 0, 0, 0, 1, 1, 6, 80_000, 20251101, 486, 0, 0, 0, 0, 0]);
    assert_eq!(ask(Operation::Close, &draft(&file), b"", [999, 0]), [1, 0, 0, 0, 0, 1, 1, 6, 80_000, 20251101, 486, 0, 0, 0, 0, 0]);
    assert_eq!(ask(Operation::Join, &file, &twin, [900, 0]), [1, 0, 0, 0, 0, 2, 2, 10, 160_000, 20251101, 810, 0, 0, 0, 0, 0]);
    assert_eq!(ask(Operation::Part, &kinds, b"", [2_000, 2_000]), [2, 0, 0, 0, 0, 0, 0, 0, 0, 0, 1_296, 0, 0, 0, 0, 810]);
    // Refused: a figure, one byte too short, the same key, no boundary.
    assert_eq!(ask(Operation::Check, &with(&file, 5, 41, "1"), b"", [0, 0]), [0, 18, 0, 5, 7, 0, 0, 0, 0, 0, 0, 0, 0, 0, 0, 0]);
    assert_eq!(ask(Operation::Close, &draft(&file), b"", [485, 0]), [0, 19, 0, 0, 0, 0, 0, 0, 0, 0, 0, 0, 0, 0, 0, 0]);
    assert_eq!(ask(Operation::Join, &file, &file, [900, 0]), [0, 15, 2, 2, 6, 0, 0, 0, 0, 0, 0, 0, 0, 0, 0, 0]);
    assert_eq!(ask(Operation::Part, &kinds, b"", [1_296, 809]), [0, 19, 0, 0, 0, 0, 0, 0, 0, 0, 0, 0, 0, 0, 0, 0]);
    assert_eq!(ask(Operation::Part, &file, b"", [999, 999]), [0, 21, 0, 0, 0, 0, 0, 0, 0, 0, 0, 0, 0, 0, 0, 0]);
}

#[test]
fn run_empty_input() {
    assert_eq!(check(b""), Err(refused(2, 0, 0)));
    assert_eq!(program::answer(b"011025\n"), "refused 2 0 0");
}

#[test]
fn program_lines() {
    for line in ["", "\n", "011025", "01102\n", "0110255\n", "01102x\n", "011025\r\n", " 11025\n"] {
        assert_eq!(program::answer(line.as_bytes()), "refused 1 0 0", "{line:?}");
    }
    assert_eq!(program::answer(b"310225\n"), "refused 1 0 0");
    let long = [b"011025\n", &[b'0'; 64_800][..]].concat();
    assert_eq!(program::answer(&long), "refused 4 1 0");
    assert_eq!(program::answer(&[long, vec![b'0']].concat()), "too long");
}
