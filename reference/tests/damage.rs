//! Damaged files: every field of every record, and every refusal.

mod common;

use common::*;
use reference::{Day, Parted, RECORD};

/// (record, field, from, to, bytes that must be refused there, refusal)
#[rustfmt::skip]
fn field_faults() -> Vec<(usize, u8, usize, usize, Vec<u8>, u8)> {
    let mut faults = Vec::new();
    let any = |allowed: fn(u8) -> bool| (0..=255).filter(|&byte| !allowed(byte)).collect::<Vec<u8>>();
    let digit = any(|byte| byte.is_ascii_digit());
    let text = any(|byte| matches!(byte, 32..=126 | 160..=255));
    let zero = any(|byte| byte == b'0');
    let mixed = any(|byte| byte.is_ascii_digit() || byte == b' ');
    let blank = any(|byte| byte == b' ');
    // What all records have; record 15 and 23 are 88s.
    for record in 1..=24 {
        faults.push((record, 1, 1, 1, any(|byte| byte == b'N'), 7));
        faults.push((record, 1, 2, 2, any(|byte| byte == b'Y'), 7));
    }
    for record in [1, 2, 15, 16, 23, 24] { faults.push((record, 3, 5, 6, zero.clone(), 7)); }
    for record in [1, 24] { faults.push((record, 2, 3, 4, zero.clone(), 7)); }
    for record in [2, 16] {
        faults.push((record, 2, 3, 3, zero.clone(), 7));
        faults.push((record, 2, 4, 4, any(|byte| byte == b'1' || byte == b'4'), 7));
    }
    for record in (3..=15).chain([17, 18, 19, 20, 21, 22, 23]) {
        faults.push((record, 2, 3, 3, zero.clone(), 12));
        faults.push((record, 2, 4, 4, any(if record <= 15 { |byte| byte == b'4' } else { |byte| byte == b'1' }), 12));
    }
    // Types of 30 and 50.
    faults.push((3, 3, 5, 5, any(|byte| b"013456".contains(&byte)), 7));
    faults.push((3, 3, 6, 6, any(|byte| b"268".contains(&byte)), 7));
    faults.push((17, 3, 5, 5, zero.clone(), 7));
    faults.push((17, 3, 6, 6, any(|byte| b"23".contains(&byte)), 7));
    faults.push((5, 3, 5, 5, any(|byte| byte == b'1'), 7));
    faults.push((5, 3, 6, 6, any(|byte| b"67".contains(&byte)), 7));
    // Repeated types.
    faults.push((4, 3, 5, 5, any(|byte| byte == b'1'), 12));
    faults.push((4, 3, 6, 6, any(|byte| byte == b'6'), 12));
    for record in [8, 9] { faults.push((record, 3, 6, 6, any(|byte| byte == b'4'), 12)); }
    for record in [11, 12, 18, 19, 20] { faults.push((record, 3, 6, 6, any(|byte| byte == b'3'), 12)); }
    // 10.
    faults.push((1, 5, 9, 16, digit.clone(), 8));
    faults.push((1, 6, 17, 23, digit.clone(), 8));
    faults.push((1, 7, 24, 27, zero.clone(), 7));
    faults.push((1, 7, 28, 28, any(|byte| byte == b'8'), 7));
    faults.push((1, 7, 29, 29, zero.clone(), 7));
    faults.push((1, 7, 30, 30, any(|byte| byte == b'8'), 7));
    faults.push((1, 7, 31, 31, zero.clone(), 7));
    faults.push((1, 8, 32, 80, zero.clone(), 7));
    // 20.
    for record in [2, 16] {
        faults.push((record, 5, 9, 17, digit.clone(), 8));
        faults.push((record, 6, 18, 24, digit.clone(), 8));
        faults.push((record, 7, 25, 35, digit.clone(), 8));
        faults.push((record, 8, 36, 80, zero.clone(), 7));
    }
    // 30.
    for record in [3, 7, 10, 13, 17, 21] {
        faults.push((record, 5, 9, 15, digit.clone(), 8));
        faults.push((record, 6, 16, 21, digit.clone(), 8));
        // A blank at the very left of a claim's account leaves a reference.
        let claim = record >= 17;
        faults.push((record, 7, 22, 22, if claim { mixed.clone() } else { digit.clone() }, 8));
        faults.push((record, 7, 23, 32, digit.clone(), 8));
        faults.push((record, 8, 33, 49, digit.clone(), 8));
        faults.push((record, 10, 75, 80, zero.clone(), 7));
    }
    for record in [3, 7, 10] { faults.push((record, 9, 50, 74, blank.clone(), 8)); }
    faults.push((17, 9, 50, 73, blank.clone(), 8));
    faults.push((17, 9, 74, 74, mixed.clone(), 8));
    faults.push((13, 9, 50, 66, blank.clone(), 8));
    faults.push((13, 9, 67, 68, mixed.clone(), 8));
    faults.push((13, 9, 69, 74, digit.clone(), 8));
    faults.push((21, 9, 50, 71, blank.clone(), 8));
    faults.push((21, 9, 72, 73, mixed.clone(), 8));
    faults.push((21, 9, 74, 74, digit.clone(), 8));
    // 31.
    for record in [4, 8, 11, 14, 18, 22] {
        faults.push((record, 5, 9, 15, digit.clone(), 8));
        faults.push((record, 6, 16, 25, text.clone(), 8));
        faults.push((record, 7, 26, 50, text.clone(), 8));
        faults.push((record, 8, 51, 75, text.clone(), 8));
        faults.push((record, 9, 76, 80, zero.clone(), 7));
    }
    // 40: of type 04 and of type 03.
    for record in [9, 12] {
        faults.push((record, 5, 9, 15, digit.clone(), 8));
        faults.push((record, 6, 16, 45, text.clone(), 8));
        faults.push((record, 9, 53, 77, text.clone(), 8));
        faults.push((record, 10, 78, 80, zero.clone(), 7));
    }
    faults.push((9, 7, 46, 49, digit.clone(), 8));
    faults.push((9, 8, 50, 52, blank.clone(), 8));
    faults.push((12, 7, 46, 49, mixed.clone(), 8));
    faults.push((12, 8, 50, 52, mixed.clone(), 8));
    // 49.
    for record in [19, 20] {
        faults.push((record, 5, 9, 15, digit.clone(), 8));
        faults.push((record, 6, 16, 16, any(|byte| byte == b'3'), 7));
        faults.push((record, 7, 17, 17, zero.clone(), 7));
        faults.push((record, 7, 18, 19, digit.clone(), 7));
        faults.push((record, 8, 20, 20, any(|byte| b"012".contains(&byte)), 7));
        faults.push((record, 9, 21, 60, text.clone(), 8));
        faults.push((record, 10, 61, 80, zero.clone(), 7));
    }
    // 50.
    for record in [5, 6] {
        faults.push((record, 5, 9, 15, digit.clone(), 8));
        faults.push((record, 6, 16, 32, blank.clone(), 8));
        faults.push((record, 6, 33, 34, mixed.clone(), 8));
        faults.push((record, 6, 35, 40, digit.clone(), 8));
        faults.push((record, 7, 41, 57, digit.clone(), 8));
        faults.push((record, 8, 58, 80, zero.clone(), 7));
    }
    // 88 and 89. A wrong figure is 18, no figure 8.
    for record in [15, 23, 24] {
        faults.push((record, 5, 9, 16, digit.clone(), 8));
        faults.push((record, 6, 17, 24, digit.clone(), 8));
        faults.push((record, 7, 25, 41, digit.clone(), 8));
        faults.push((record, 8, 42, 47, digit.clone(), 8));
    }
    for record in [15, 23] {
        faults.push((record, 9, 48, 53, digit.clone(), 8));
        faults.push((record, 10, 54, 80, zero.clone(), 7));
    }
    faults.push((24, 9, 48, 80, zero.clone(), 7));
    // The line feed and the record type.
    for record in 1..=24 {
        faults.push((record, 0, 81, 81, any(|byte| byte == b'\n'), 4));
        faults.push((record, 4, 7, 7, any(|byte| b"123458".contains(&byte)), 5));
        faults.push((record, 4, 8, 8, any(|byte| b"0189".contains(&byte)), 5));
    }
    faults
}

#[test]
fn every_field_of_every_record() {
    let file = every_kind();
    assert_eq!(check(&file), Ok(accepted(2, 6, 24, 71_500, 20241001)));
    for (record, field, from, to, bytes, number) in field_faults() {
        for position in from..=to {
            for &byte in &bytes {
                let damaged = with_bytes(&file, record, position, &[byte]);
                assert_eq!(
                    check(&damaged),
                    Err(refused(number, record as u32, field)),
                    "record {record}, position {position}, byte {byte}"
                );
            }
        }
    }
}

#[test]
fn every_digit_of_the_end_records() {
    let file = every_kind();
    for record in [15, 23, 24] {
        for position in 9..=if record == 24 { 47 } else { 53 } {
            for digit in b'0'..=b'9' {
                let at = (record - 1) * RECORD + position - 1;
                let field = match position {
                    9..=16 => 5,
                    17..=24 => 6,
                    25..=41 => 7,
                    42..=47 => 8,
                    _ => 9,
                };
                let verdict = check(&with_bytes(&file, record, position, &[digit]));
                if file[at] == digit {
                    assert!(verdict.is_ok());
                } else {
                    assert_eq!(verdict, Err(refused(18, record as u32, field)));
                }
            }
        }
    }
}

#[test]
fn process_day() {
    let file = whole();
    let bad: &[Day] = &[
        (1999, 12, 31),
        (2100, 1, 1),
        (2025, 0, 1),
        (2025, 13, 1),
        (2025, 1, 0),
        (2025, 4, 31),
        (2025, 2, 29),
        (25, 10, 1),
        (0, 0, 0),
        (1 << 32 | 2025, 10, 1),
        (2025, 1 << 32 | 10, 1),
        (2025, 10, 1 << 32 | 1),
        (1 << 63 | 2025, 10, 1),
        (u64::MAX, u64::MAX, u64::MAX),
        (2025, u64::MAX, 1),
        (2025, 1, u64::MAX),
    ];
    for &day in bad {
        assert_eq!(check_on(day, &file), Err(refused(1, 0, 0)), "{day:?}");
        assert_eq!(check_on(day, b""), Err(refused(1, 0, 0)), "{day:?}");
        assert_eq!(join_on(day, b"", b"", 0).0, Err(refused(1, 0, 0)));
        assert_eq!(close_on(day, b"", 0).0, Err(refused(1, 0, 0)));
    }
    assert!(check_on((2024, 11, 1), &file).is_ok());
    assert_eq!(check_on((2024, 10, 31), &file), Err(refused(10, 3, 6)));
    assert!(check_on((2099, 12, 31), &file).is_ok());
    assert_eq!(check_on((2000, 1, 1), &file), Err(refused(10, 3, 6)));
    assert_eq!(check_on((2000, 2, 29), &file), Err(refused(10, 3, 6)));
}

#[test]
fn lengths() {
    let file = whole();
    for cut in 1..file.len() {
        let verdict = check(&file[..cut]);
        if cut % 81 == 0 {
            assert_eq!(verdict, Err(refused(6, (cut / 81) as u32 + 1, 0)));
        } else {
            assert_eq!(verdict, Err(refused(2, 0, 0)));
        }
    }
    // Nothing after 89, and 3 before any record.
    let longer = [&file[..], &file[..81]].concat();
    assert_eq!(check(&longer), Err(refused(5, 7, 4)));
    assert_eq!(check(&vec![0; 200_000 * 81]), Err(refused(4, 1, 0)));
    assert_eq!(check(&vec![0; 200_001 * 81]), Err(refused(3, 0, 0)));
    assert_eq!(check(&vec![0; 200_001 * 81 + 1]), Err(refused(2, 0, 0)));
}

/// All orders of two and three records after sound beginnings.
#[test]
fn what_may_follow() {
    let kinds =
        ["10", "20", "30", "31", "40", "41", "49", "50", "88", "89", "32", "42", "  ", "3x"];
    // (records up to here, what may come)
    let beginnings: Vec<(Vec<String>, &[&str])> = vec![
        (vec![], &["10"]),
        (vec![r10()], &["20"]),
        (vec![r10(), r20("04", 1, 1)], &["30"]),
        (vec![r10(), r20("04", 1, 1), r30("04", "02", 1, "011125", 1, "")], &["31"]),
    ];
    let mut beginnings = beginnings;
    let after31: [(&str, &str, &[&str]); 14] = [
        ("04", "16", &["50"]),
        ("04", "04", &["40"]),
        ("04", "03", &["40", "30", "88"]),
        ("01", "03", &["49", "30", "88"]),
        ("01", "02", &["30", "88"]),
        ("04", "01", &["30", "88"]),
        ("04", "02", &["30", "88"]),
        ("04", "12", &["30", "88"]),
        ("04", "18", &["30", "88"]),
        ("04", "32", &["30", "88"]),
        ("04", "37", &["30", "88"]),
        ("04", "62", &["30", "88"]),
        ("04", "65", &["30", "88"]),
        ("04", "66", &["30", "88"]),
    ];
    let begin = |service: &str, code: &str| {
        vec![
            r10(),
            r20(service, 1, 1),
            r30(service, code, 1, "011125", 1, if code == "12" { "1" } else { "" }),
            r31(service, code, 1),
        ]
    };
    for (service, code, next) in after31 {
        beginnings.push((begin(service, code), next));
    }
    for code in ["03", "04"] {
        let (second, message) = (r41(code, 1), r49_04(code, 1, 1, 1));
        let behind = |more: &[&String]| {
            let more = more.iter().map(|&line| line.clone()).collect();
            [begin("04", code), vec![r40(code, 1)], more].concat()
        };
        beginnings.push((behind(&[]), &["41", "49", "30", "88"]));
        beginnings.push((behind(&[&second]), &["49", "30", "88"]));
        beginnings.push((behind(&[&message]), &["49", "30", "88"]));
        beginnings.push((behind(&[&second, &message]), &["49", "30", "88"]));
    }
    beginnings.push(([begin("01", "03"), vec![r49(1, 1, 1)]].concat(), &["49", "30", "88"]));
    beginnings.push(([begin("04", "16"), vec![r50("16", 1, 1)]].concat(), &["50", "30", "88"]));
    let ended = closed(&bytes(&begin("04", "02")));
    let line = |i: usize| String::from_utf8(ended[i * 81..i * 81 + 80].to_vec()).unwrap();
    beginnings.push(((0..5).map(line).collect(), &["20", "89"]));
    beginnings.push(((0..6).map(line).collect(), &[]));
    for (beginning, allowed) in beginnings {
        let at = beginning.len() as u32 + 1;
        for kind in kinds {
            // Field 1 of the record is wrong, which comes after its place is.
            let next = format!("XX0000{kind}{}", "0".repeat(72));
            let data = bytes(&[&beginning[..], &[next]].concat());
            let wanted =
                if allowed.contains(&kind) { refused(7, at, 1) } else { refused(5, at, 4) };
            assert_eq!(check(&data), Err(wanted), "{at} {kind}");
            // And in a draft.
            if beginning.iter().any(|line| matches!(&line[6..8], "88" | "89")) {
                continue;
            }
            let ends = allowed.contains(&"88");
            let allowed = allowed.contains(&kind) && kind != "88" || kind == "20" && ends;
            let wanted = if allowed { refused(7, at, 1) } else { refused(5, at, 4) };
            assert_eq!(close(&data, 0).0, Err(wanted), "draft {at} {kind}");
        }
        if at == 1 {
            continue;
        }
        let data = bytes(&beginning);
        if !allowed.is_empty() {
            assert_eq!(check(&data), Err(refused(6, at, 0)));
        }
        if !beginning.iter().any(|line| &line[6..8] == "88") {
            let wanted =
                if allowed.contains(&"88") { refused(19, 0, 0) } else { refused(6, at, 0) };
            assert_eq!(close(&data, 0).0, Err(wanted));
        }
    }
}

#[test]
fn transaction_numbers() {
    let file = |numbers: &[u32]| {
        let mut lines = vec![r10(), r20("04", 1, 1)];
        for &number in numbers {
            lines.push(r30("04", "02", number, "011125", 1, ""));
            lines.push(r31("04", "02", number));
        }
        closed(&bytes(&lines))
    };
    assert!(check(&file(&[1, 2, 3])).is_ok());
    assert!(check(&file(&[9_999_998, 9_999_999])).is_ok());
    assert_eq!(check(&file(&[0])), Err(refused(12, 3, 5)));
    assert_eq!(check(&file(&[9_999_999, 0])), Err(refused(12, 5, 5)));
    assert_eq!(check(&file(&[9_999_999, 1])), Err(refused(12, 5, 5)));
    assert_eq!(check(&file(&[5, 5])), Err(refused(12, 5, 5)));
    assert_eq!(check(&file(&[5, 7])), Err(refused(12, 5, 5)));
    assert_eq!(check(&file(&[5, 4])), Err(refused(12, 5, 5)));
    let every = every_kind();
    for record in [4, 5, 6, 8, 9, 11, 12, 14, 18, 19, 20, 22] {
        let wrong = with(&every, record, 9, "0000099");
        assert_eq!(check(&wrong), Err(refused(12, record as u32, 5)));
    }
}

#[test]
fn kids_and_references() {
    let file = every_kind();
    let kid = |record, from, kid: &str| {
        let verdict = check(&with(&file, record, from, &format!("{kid:<25}")));
        verdict.err().map(|refused| (refused.number, refused.field))
    };
    // Type 12 and records 50: either end.
    for (record, from, field) in [(13, 50, 9), (5, 16, 6), (6, 16, 6)] {
        assert_eq!(kid(record, from, "1"), None);
        assert_eq!(kid(record, from, "1234567890123456789012345"), None);
        assert_eq!(kid(record, from, "123456789012345678901234"), None);
        assert_eq!(kid(record, from, " 123456789012345678901234"), None);
        assert_eq!(kid(record, from, &format!("{:>25}", 7)), None);
        for bad in ["", " 1", "1 1", "1-1", "\u{7f}", "1                       1", "            1"]
        {
            assert_eq!(kid(record, from, bad), Some((8, field)), "{bad:?}");
        }
    }
    // Claims: right or blank.
    for record in [17, 21] {
        assert_eq!(kid(record, 50, ""), None);
        assert_eq!(kid(record, 50, "1234567890123456789012345"), None);
        assert_eq!(kid(record, 50, " 123456789012345678901234"), None);
        assert_eq!(kid(record, 50, &format!("{:>25}", 7)), None);
        for bad in ["1", "123456789012345678901234", " 1", "1 1"] {
            assert_eq!(kid(record, 50, bad), Some((8, 9)), "{bad:?}");
        }
        let party = |party: &str| {
            let verdict = check(&with(&file, record, 22, party));
            verdict.err().map(|refused| (refused.number, refused.field))
        };
        for good in ["          0", " 0000000001", "12345678903", "  123456789", "00000000000"] {
            assert_eq!(party(good), None, "{good:?}");
        }
        for bad in [
            "           ",
            "1234567890 ",
            "1          ",
            "     1 1   ",
            "     1    1",
            "  x      11",
        ] {
            assert_eq!(party(bad), Some((8, 7)), "{bad:?}");
        }
        assert_eq!(party("12345678901"), Some((11, 7)));
    }
    // Money orders: any eleven digits; others an account.
    assert!(check(&with(&file, 7, 22, "12345678901")).is_ok());
    for record in [3, 10, 13] {
        assert_eq!(
            check(&with(&file, record, 22, "12345678901")),
            Err(refused(11, record as u32, 7))
        );
        assert_eq!(
            check(&with(&file, record, 22, "          1")),
            Err(refused(8, record as u32, 7))
        );
    }
}

#[test]
fn addresses() {
    let file = every_kind();
    let blank = " ".repeat(30);
    // Type 03 may be blank all over.
    assert!(check(&with(&file, 12, 16, &blank)).is_ok());
    assert!(check(&with(&file, 12, 46, "       ")).is_ok());
    assert!(check(&with(&file, 12, 46, "1 2 3 4")).is_ok());
    assert!(check(&with(&file, 12, 53, &blank[..25])).is_ok());
    // Type 04 may not.
    assert_eq!(check(&with(&file, 9, 16, &blank)), Err(refused(8, 9, 6)));
    assert_eq!(check(&with(&file, 9, 46, "015 ")), Err(refused(8, 9, 7)));
    assert_eq!(check(&with(&file, 9, 50, "1  ")), Err(refused(8, 9, 8)));
    assert_eq!(check(&with(&file, 9, 53, &blank[..25])), Err(refused(8, 9, 9)));
    assert!(check(&with(&file, 9, 53, &format!("{}x", &blank[..24]))).is_ok());
    assert!(check(&with(&file, 9, 16, &format!("{}x", &blank[..29]))).is_ok());
    // A no-break space is text, and not a blank.
    let mut name = [b' '; 30];
    name[29] = 160;
    assert!(check(&with_bytes(&file, 9, 16, &name)).is_ok());
}

#[test]
fn message_places() {
    let file =
        |places: &[(u32, u32)]| closed(&messages("01", "03", &[places.to_vec(), places.to_vec()]));
    let all = every_place();
    assert!(check(&file(&all)).is_ok());
    for i in 0..42 {
        let mut again = all.clone();
        again.push(all[i]);
        assert_eq!(check(&file(&again)), Err(refused(17, 47, 7)));
    }
    for (line, column, field) in [(22, 1, 7), (999, 2, 7), (1, 3, 8), (1, 9, 8)] {
        assert_eq!(check(&file(&[(line, column)])), Err(refused(7, 5, field)));
    }
    // The notification code before the line.
    let one = file(&[(1, 1)]);
    for (code, line) in (0..=9).flat_map(|code| (0..=9).map(move |line| (code, line))) {
        let wanted = match (code, line) {
            (3, 0) => check(&one),
            (3, _) => Err(refused(7, 5, 7)),
            _ => Err(refused(7, 5, 6)),
        };
        assert_eq!(check(&with(&one, 5, 16, &format!("{code}{line}011"))), wanted);
    }
    // The place before the text, but after the column.
    let twice = file(&[(1, 1), (1, 1)]);
    assert_eq!(check(&with_bytes(&twice, 6, 21, &[0])), Err(refused(17, 6, 7)));
    assert_eq!(check(&with(&twice, 6, 20, "3")), Err(refused(7, 6, 8)));
}

#[test]
fn amounts() {
    let file = |service: &str, code: &str, amounts: &[u64]| {
        let mut lines = vec![r10(), r20(service, 1, 1)];
        for (number, &amount) in (1..).zip(amounts) {
            lines.push(r30(service, code, number, "011125", amount, ""));
            lines.push(r31(service, code, number));
            if code == "04" {
                lines.push(r40("04", number));
            }
        }
        closed(&bytes(&lines))
    };
    const MOST: u64 = 99_999_999_999_999_999;
    assert!(check(&file("04", "04", &[9_999_999_999, 0])).is_ok());
    assert_eq!(check(&file("04", "04", &[10_000_000_000])), Err(refused(13, 3, 8)));
    assert!(check(&file("04", "02", &[9_999_999_999_999, 0])).is_ok());
    assert_eq!(check(&file("04", "02", &[9_999_999_999_999, 1])), Err(refused(13, 5, 8)));
    assert_eq!(check(&file("04", "02", &[10_000_000_000_000])), Err(refused(13, 3, 8)));
    assert!(check(&file("01", "02", &[MOST, 0])).is_ok());
    assert_eq!(check(&file("01", "02", &[MOST, 0, 1])), Err(refused(13, 7, 8)));
    assert_eq!(check(&with(&every_kind(), 3, 33, "00000000000000000")), Err(refused(13, 3, 8)));
    // The limit before the KID, behind the form.
    let wrong = file("04", "02", &[9_999_999_999_999, 1]);
    assert_eq!(check(&with(&wrong, 5, 50, "x")), Err(refused(13, 5, 8)));
    assert_eq!(check(&with(&wrong, 5, 33, "x")), Err(refused(8, 5, 8)));
    // The file's limit, over two assignments.
    let two = |first: u64, second: u64| {
        let mut lines = vec![r10()];
        for (assignment, amount) in [(1, first), (2, second)] {
            lines.push(r20("01", 1, assignment));
            lines.push(r30("01", "02", 1, "011125", amount, ""));
            lines.push(r31("01", "02", 1));
        }
        closed(&bytes(&lines))
    };
    assert!(check(&two(MOST - 5, 5)).is_ok());
    assert_eq!(check(&two(MOST - 5, 6)), Err(refused(13, 7, 8)));
    assert_eq!(check(&two(MOST, 1)), Err(refused(13, 7, 8)));
}

#[test]
fn sub_specification_sums() {
    const MOST: u64 = 99_999_999_999_999_999;
    let file = |amount: u64, parts: &[(&str, u64)]| {
        let mut lines = vec![r10(), r20("04", 1, 1)];
        lines.push(r30("04", "16", 1, "011125", amount, ""));
        lines.push(r31("04", "16", 1));
        lines.extend(parts.iter().map(|(code, amount)| r50(code, 1, *amount)));
        closed(&bytes(&lines))
    };
    assert!(
        check(&file(5, &[("17", MOST), ("16", MOST), ("16", 0)])).err() == Some(refused(14, 8, 0))
    );
    assert!(check(&file(5, &[("17", MOST - 5), ("16", MOST), ("16", 0)])).is_ok());
    assert_eq!(check(&file(5, &[("16", MOST), ("16", 1)])), Err(refused(13, 6, 7)));
    assert_eq!(check(&file(5, &[("17", MOST), ("17", 1)])), Err(refused(13, 6, 7)));
    assert_eq!(check(&file(5, &[("17", 5)])), Err(refused(14, 6, 0)));
    // 14 behind 4 and 5, before the fields.
    let wrong = file(5, &[("16", 4)]);
    assert_eq!(check(&with(&wrong, 6, 81, "x")), Err(refused(4, 6, 0)));
    assert_eq!(check(&with(&wrong, 6, 7, "20")), Err(refused(5, 6, 4)));
    assert_eq!(check(&with(&wrong, 6, 1, "XX")), Err(refused(14, 6, 0)));
    assert_eq!(check(&with(&wrong, 6, 7, "30")), Err(refused(14, 6, 0)));
    // In a draft: at the next 20, at the end.
    let draft = &wrong[..5 * 81];
    assert_eq!(close(draft, 0).0, Err(refused(14, 6, 0)));
    let more = [draft, &bytes(&[r20("04", 2, 2)])[..]].concat();
    assert_eq!(close(&more, 0).0, Err(refused(14, 6, 0)));
    assert_eq!(check(draft), Err(refused(6, 6, 0)));
}

#[test]
fn repeated_assignments() {
    let file = |keys: &[(&str, u32, u32)]| {
        let mut lines = vec![r10()];
        for &(service, agreement, assignment) in keys {
            lines.push(r20(service, agreement, assignment));
            lines.push(r30(service, "02", 1, "011125", 1, ""));
            lines.push(r31(service, "02", 1));
        }
        closed(&bytes(&lines))
    };
    assert!(check(&file(&[("04", 1, 1), ("04", 1, 2), ("04", 2, 1)])).is_ok());
    assert!(check(&file(&[("04", 0, 0), ("04", 0, 1), ("04", 1, 0)])).is_ok());
    let twice = file(&[("04", 1, 1), ("04", 1, 2), ("01", 1, 1)]);
    assert_eq!(check(&twice), Err(refused(15, 10, 6)));
    // 15 behind the form of field 6, before field 7.
    assert_eq!(check(&with(&twice, 10, 24, "x")), Err(refused(8, 10, 6)));
    assert_eq!(check(&with(&twice, 10, 35, "4")), Err(refused(15, 10, 6)));
    // 500 and 501 assignments; the last repeats the first.
    let keys: Vec<(&str, u32, u32)> = (0..500).map(|i| ("04", i * 7919, i)).collect();
    assert!(check(&file(&keys)).is_ok());
    let mut more = keys.clone();
    more[499] = keys[0];
    assert_eq!(check(&file(&more)), Err(refused(15, 2 + 499 * 4, 6)));
    more.push(keys[1]);
    more[499] = keys[499];
    assert_eq!(check(&file(&more)), Err(refused(16, 2002, 4)));
    assert_eq!(close(&reference::records::draft(&file(&more)), 0).0, Err(refused(16, 1502, 4)));
    // 16 in joining.
    let (first, second) = (file(&keys[..499]), file(&[("04", 5, 5), ("04", 5, 6)]));
    assert_eq!(join(&first, &second, 0).0, Err(refused(16, 0, 0)));
    let second = file(&[("04", 5, 5)]);
    assert_eq!(join(&first, &second, 0).0, Err(refused(19, 0, 0)));
    let (verdict, out) = join(&first, &second, 2002 * 81);
    assert_eq!(verdict, Ok(accepted(500, 500, 2002, 500, 20251101)));
    assert_eq!(check(&out), verdict);
}

#[test]
fn closing() {
    let file = every_kind();
    let draft = reference::records::draft(&file);
    let (verdict, out) = close(&draft, file.len() + 5);
    assert_eq!(verdict, check(&file));
    assert_eq!(out[..file.len()], file);
    assert_eq!(out[file.len()..], [0xEE; 5]);
    for room in [0, 1, 80, file.len() - 1] {
        let (verdict, out) = close(&draft, room);
        assert_eq!(verdict, Err(refused(19, 0, 0)));
        assert!(out.iter().all(|&byte| byte == 0xEE));
    }
    assert_eq!(close(&file, 9_999).0, Err(refused(5, 15, 4)));
    assert_eq!(close(&draft[1..], 9_999).0, Err(refused(2, 0, 0)));
    assert_eq!(close(b"", 9_999).0, Err(refused(2, 0, 0)));
}

#[test]
fn closing_counts_what_it_will_write() {
    // Nothing is sound here but the count.
    let mut draft = vec![b'x'; 199_999 * 81];
    assert_eq!(close(&draft, 0).0, Err(refused(4, 1, 0)));
    draft[100 * 81 + 6..100 * 81 + 8].copy_from_slice(b"20");
    assert_eq!(close(&draft, 0).0, Err(refused(3, 0, 0)));
    assert_eq!(close(&draft[81..], 0).0, Err(refused(4, 1, 0)));
    assert_eq!(close(&vec![b'x'; 200_000 * 81], 0).0, Err(refused(3, 0, 0)));
    // A sound draft that comes to 200,000 records and one that comes to more.
    let mut lines = vec![r10(), r20("04", 1, 1)];
    for number in 1..=99_998 {
        lines.push(r30("04", "02", number, "011125", 1, ""));
        lines.push(r31("04", "02", number));
    }
    let draft = bytes(&lines);
    let (verdict, out) = close(&draft, 16_200_000);
    assert_eq!(verdict, Ok(accepted(1, 99_998, 200_000, 99_998, 20251101)));
    assert_eq!(check(&out), verdict);
    lines.extend([r30("04", "03", 99_999, "011125", 1, ""), r31("04", "03", 99_999)]);
    let draft = bytes(&lines);
    assert_eq!(draft.len() / 81, 200_000);
    assert_eq!(close(&draft, 0).0, Err(refused(3, 0, 0)));
    let draft = &draft[..199_999 * 81];
    assert_eq!(close(draft, 0).0, Err(refused(3, 0, 0)));
}

#[test]
fn joining() {
    let a = whole();
    let b = with(&a, 2, 18, "0000002");
    // The operands' refusals in order, then 20, 15, 19.
    assert_eq!(join(b"", b"", 0).0, Err(of_operand(1, 2, 0, 0)));
    assert_eq!(join(&a, b"", 0).0, Err(of_operand(2, 2, 0, 0)));
    assert_eq!(join(&a[..405], b"", 0).0, Err(of_operand(1, 6, 6, 0)));
    assert_eq!(join(&a, &b[..405], 0).0, Err(of_operand(2, 6, 6, 0)));
    assert_eq!(join(&a, &vec![0; 200_001 * 81], 0).0, Err(of_operand(2, 3, 0, 0)));
    let other = with(&a, 1, 16, "6");
    assert_eq!(join(&a, &other, 0).0, Err(of_operand(2, 20, 1, 5)));
    assert_eq!(join(&a, &a, 0).0, Err(of_operand(2, 15, 2, 6)));
    for room in [0, 809] {
        let (verdict, out) = join(&a, &b, room);
        assert_eq!(verdict, Err(refused(19, 0, 0)));
        assert!(out.iter().all(|&byte| byte == 0xEE));
    }
    // Other numbers of transmission do not matter; the first's stays.
    let b = with(&b, 1, 17, "9999999");
    let (verdict, out) = join(&a, &b, 810);
    assert_eq!(verdict, Ok(accepted(2, 2, 10, 160_000, 20251101)));
    assert_eq!(out[..405], a[..405]);
    // The first repeat counts, in the second file's order.
    let file = |keys: &[u32]| {
        let mut lines = vec![r10()];
        for &key in keys {
            lines.push(r20("04", 1, key));
            lines.push(r30("04", "02", 1, "011125", 1, ""));
            lines.push(r31("04", "02", 1));
        }
        closed(&bytes(&lines))
    };
    assert_eq!(join(&file(&[1, 2, 3]), &file(&[9, 3, 1]), 0).0, Err(of_operand(2, 15, 6, 6)));
    // The sum's limit.
    let sum = |key: u32, amount: u64| {
        closed(&bytes(&[
            r10(),
            r20("01", 1, key),
            r30("01", "02", 1, "011125", amount, ""),
            r31("01", "02", 1),
        ]))
    };
    let most = 99_999_999_999_999_999;
    assert_eq!(join(&sum(1, most), &sum(2, 1), 0).0, Err(refused(13, 0, 0)));
    assert_eq!(join(&sum(1, most), &sum(2, 0), 0).0, Err(refused(19, 0, 0)));
    // The earlier first date.
    let dated = |key: u32, date: &str| {
        closed(&bytes(&[
            r10(),
            r20("04", 1, key),
            r30("04", "02", 1, date, 1, ""),
            r31("04", "02", 1),
        ]))
    };
    let verdict = join(&dated(1, "010126"), &dated(2, "311225"), 810).0;
    assert_eq!(verdict.map(|accepted| accepted.first_date), Ok(20251231));
}

#[test]
fn joining_too_many_records() {
    let file = |key: u32, transactions: u32| {
        let mut lines = vec![r10(), r20("04", 1, key)];
        for number in 1..=transactions {
            lines.push(r30("04", "02", number, "011125", 1, ""));
            lines.push(r31("04", "02", number));
        }
        closed(&bytes(&lines))
    };
    let a = file(1, 50_000);
    assert_eq!(join(&a, &file(2, 49_998), 0).0, Err(refused(3, 0, 0)));
    let (verdict, out) = join(&a, &file(2, 49_997), 16_200_000);
    assert_eq!(verdict, Ok(accepted(2, 99_997, 200_000, 99_997, 20251101)));
    assert_eq!(check(&out), verdict);
}

#[test]
fn parting() {
    let file = every_kind();
    for k in [0, 2, 3, u64::MAX] {
        assert_eq!(part(&file, k, [0, 0]).0, Err(refused(21, 0, 0)));
    }
    assert_eq!(part(&file[..81], 0, [0, 0]).0, Err(refused(6, 2, 0)));
    let (parted, [out1, out2]) = part(&file, 1, [2_000, 2_000]);
    let Parted { first, second } = parted.unwrap();
    assert_eq!((first, second), (16 * 81, 10 * 81));
    assert_eq!(check(&out1[..first]), Ok(accepted(1, 4, 16, 70_600, 20251101)));
    assert_eq!(check(&out2[..second]), Ok(accepted(1, 2, 10, 900, 20241001)));
    assert!(out1[first..].iter().chain(&out2[second..]).all(|&byte| byte == 0xEE));
    assert_eq!(out1[..15 * 81], file[..15 * 81]);
    assert_eq!(out2[..81], file[..81]);
    assert_eq!(out2[81..9 * 81], file[15 * 81..23 * 81]);
    for rooms in [[first - 1, second], [first, second - 1], [0, 0]] {
        let (parted, outs) = part(&file, 1, rooms);
        assert_eq!(parted, Err(refused(19, 0, 0)));
        assert!(outs.concat().iter().all(|&byte| byte == 0xEE));
    }
    assert!(part(&file, 1, [first, second]).0.is_ok());
    let (verdict, out) = join(&out1[..first], &out2[..second], file.len());
    assert_eq!(verdict, check(&file));
    assert_eq!(out, file);
}

#[test]
fn dates() {
    let days = |month: u32, year: u32| match month {
        2 => 28 + u32::from(year.is_multiple_of(4)),
        4 | 6 | 9 | 11 => 30,
        _ => 31,
    };
    let file = with(&whole(), 3, 16, "000000");
    for year in [0, 24, 25, 26, 96, 99] {
        for month in 0..100 {
            for day in 0..100 {
                let date = format!("{day:02}{month:02}{year:02}");
                let mut file = with(&file, 3, 16, &date);
                for (record, from) in [(5, 42), (5, 48), (6, 42)] {
                    file = with(&file, record, from, &date);
                }
                let verdict = check_on((2099, 1, 1), &file);
                let number = 20_000_000 + year * 10_000 + month * 100 + day;
                if (1..=12).contains(&month) && (1..=days(month, year)).contains(&day) {
                    assert_eq!(verdict, Ok(accepted(1, 1, 6, 80_000, number)));
                } else {
                    assert_eq!(verdict, Err(refused(9, 3, 6)));
                }
            }
        }
    }
}
