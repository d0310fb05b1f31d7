//! Second addresses (41) and messages (49) of service 04.

mod common;

use common::*;
use reference::RECORD;

/// A transaction of this service and type with these records behind its 31.
fn transaction(service: &str, code: &str, number: u32, behind: &[String]) -> Vec<String> {
    let head = [r30(service, code, number, "011125", 1, ""), r31(service, code, number)];
    [&head[..], behind].concat()
}

/// A draft of these transactions.
fn draft_of(service: &str, transactions: &[Vec<String>]) -> Vec<u8> {
    let start = vec![r10(), r20(service, 1, 1)];
    bytes(&[start, transactions.concat()].concat())
}

#[test]
fn sound_file() {
    assert_eq!(judged(&draft(&notified())), Ok(accepted(1, 5, 27, 500, 20251101)));
}

/// Each run of at most three records behind the 31, judged whole, with a transaction behind it
/// and without. What may stand where is said here once more, by the types alone.
#[test]
fn every_run_of_records() {
    let record = |service: &str, code: &str, kind: &str, place: u32| match (service, kind) {
        (_, "40") => r40(code, 1).replace("NY04", &format!("NY{service}")),
        (_, "41") => r41(code, 1).replace("NY04", &format!("NY{service}")),
        ("04", _) => r49_04(code, 1, place, 1),
        _ => r49(1, place, 1).replace("NY0103", &format!("NY01{code}")),
    };
    // How many of the records may stand there.
    let sound = |service: &str, code: &str, run: &[&str]| {
        let allowed = |before: &str, kind: &str| match (service, code) {
            ("04", "03" | "04") => {
                matches!((before, kind), ("31", "40") | ("40", "41") | ("40" | "41" | "49", "49"))
            }
            ("01", "03") => kind == "49",
            _ => false,
        };
        let befores = [&["31"], run].concat();
        befores.iter().zip(run).take_while(|(before, kind)| allowed(before, kind)).count()
    };
    let kinds = ["40", "41", "49"];
    let mut runs: Vec<Vec<&str>> = vec![vec![]];
    for length in 0..3 {
        let longest = runs.iter().filter(|run| run.len() == length).cloned();
        let longer = longest.flat_map(|run| kinds.map(|kind| [&run[..], &[kind]].concat()));
        runs.extend(longer.collect::<Vec<_>>());
    }
    assert_eq!(runs.len(), 40);
    let mut accepted = 0;
    for (service, code) in [("04", "03"), ("04", "04"), ("04", "02"), ("01", "03"), ("01", "02")] {
        for run in &runs {
            let behind: Vec<String> =
                (1..).zip(run).map(|(place, kind)| record(service, code, kind, place)).collect();
            let one = transaction(service, code, 1, &behind);
            let next = transaction(service, if service == "04" { "01" } else { "02" }, 2, &[]);
            let good = sound(service, code, run);
            // A money order has to have its 40.
            let lacks = (service, code) == ("04", "04") && run.is_empty();
            for transactions in [&[one.clone()][..], &[one, next]] {
                let draft = draft_of(service, transactions);
                let wanted = match lacks || good < run.len() {
                    false => None,
                    true => Some((5, 4)),
                };
                if lacks && transactions.len() == 1 {
                    // The draft ends here, the file has an 88.
                    assert_eq!(check(&closed(&draft)), Err(refused(5, 5, 4)));
                    assert_eq!(close(&draft, 0).0, Err(refused(6, 5, 0)));
                    continue;
                }
                assert_eq!(fault(&draft, 5 + good), wanted, "{service} {code} {run:?}");
                accepted += u32::from(wanted.is_none());
            }
        }
    }
    // Types 03 and 04: 40 with 0 to 2, or 41 with 0 or 1 of 49 behind it; the 31 alone; claims.
    assert_eq!(accepted, 2 * (2 * 5 + 1 + 1 + 4 + 1));
}

/// The end, a 20 and an 88 behind each of the records.
#[test]
fn what_ends_a_transaction() {
    for code in ["03", "04"] {
        let (first, second, message) = (r40(code, 1), r41(code, 1), r49_04(code, 1, 1, 1));
        let runs = [
            vec![first.clone()],
            vec![first.clone(), second.clone()],
            vec![first.clone(), message.clone()],
            vec![first, second, message],
        ];
        for behind in runs {
            let draft = draft_of("04", &[transaction("04", code, 1, &behind)]);
            assert!(judged(&draft).is_ok());
            let more = [r20("01", 1, 2), r30("01", "02", 1, "011125", 1, ""), r31("01", "02", 1)];
            let more = [draft, bytes(&more)].concat();
            let (verdict, out) = close(&more, 99 * RECORD);
            assert_eq!(verdict, check(&closed(&more)));
            assert!(out.starts_with(&closed(&more)) && verdict.is_ok());
        }
    }
}

/// (record of `notified`, field, from, to, the bytes that may stand there, refusal)
type Field = (usize, u8, usize, usize, fn(u8) -> bool, u8);

fn fields() -> Vec<Field> {
    let is_text: fn(u8) -> bool = |byte| matches!(byte, 32..=126 | 160..=255);
    let is_digit: fn(u8) -> bool = |byte| byte.is_ascii_digit();
    let is_zero: fn(u8) -> bool = |byte| byte == b'0';
    let is_blank: fn(u8) -> bool = |byte| byte == b' ';
    let mut fields: Vec<Field> = Vec::new();
    // 41 of type 03 and of type 04; 49 behind 41, 49 and 40.
    for record in [6, 12, 7, 8, 13, 21] {
        let is_03 = matches!(record, 6..=8);
        fields.extend([
            (record, 0, 81, 81, (|byte| byte == b'\n') as fn(u8) -> bool, 4),
            (record, 1, 1, 1, |byte| byte == b'N', 7),
            (record, 1, 2, 2, |byte| byte == b'Y', 7),
            (record, 2, 3, 3, is_zero, 12),
            (record, 2, 4, 4, |byte| byte == b'4', 12),
            (record, 3, 5, 5, is_zero, 12),
            (record, 3, 6, 6, if is_03 { |byte| byte == b'3' } else { |byte| byte == b'4' }, 12),
            (record, 4, 7, 7, |byte| byte == b'4', 5),
            (record, 4, 8, 8, |byte| b"19".contains(&byte), 5),
            (record, 5, 9, 15, is_digit, 8),
        ]);
    }
    for record in [6, 12] {
        let is_country = if record == 12 { is_blank } else { is_text };
        fields.extend([
            (record, 6, 16, 45, is_text, 8),
            (record, 7, 46, 75, is_text, 8),
            (record, 8, 76, 78, is_country, 8),
            (record, 9, 79, 80, is_zero, 7),
        ]);
    }
    for record in [7, 8, 13, 21] {
        fields.extend([
            (record, 6, 16, 16, is_zero, 7),
            (record, 6, 17, 18, is_digit, 7),
            (record, 7, 19, 19, (|byte| b"012".contains(&byte)) as fn(u8) -> bool, 7),
            (record, 8, 20, 59, is_text, 8),
            (record, 9, 60, 80, is_zero, 7),
        ]);
    }
    fields
}

#[test]
fn every_field_of_every_record() {
    let (file, draft) = (notified(), draft(&notified()));
    for (record, field, from, to, allowed, number) in fields() {
        for position in from..=to {
            for byte in (0..=255).filter(|&byte| !allowed(byte)) {
                let wanted = Err(refused(number, record as u32, field));
                let damaged = with_bytes(&file, record, position, &[byte]);
                assert_eq!(check(&damaged), wanted, "record {record}, {position}, byte {byte}");
                let damaged = with_bytes(&draft, record, position, &[byte]);
                assert_eq!(close(&damaged, 0).0, wanted, "record {record}, {position}, {byte}");
            }
        }
    }
}

/// Of two faults in a record the one of the lower field counts; the place goes behind the column
/// and before the text.
#[test]
fn order_of_fields() {
    let draft = draft(&notified());
    for record in [6, 12, 7, 8, 13, 21] {
        let of_record = fields().into_iter().filter(|each| each.0 == record && each.2 < 81);
        let mut faults: Vec<(u8, usize, u8)> =
            of_record.map(|each| (each.1, each.2, each.5)).collect();
        // The type of a record goes before its fields.
        faults.sort_by_key(|&(field, _, _)| if field == 4 { 0 } else { field });
        for (at, &(field, from, number)) in faults.iter().enumerate() {
            for &(_, behind, _) in &faults[at..] {
                let damaged = with(&with(&draft, record, from, "\u{1}"), record, behind, "\u{1}");
                assert_eq!(
                    fault(&damaged, record),
                    Some((number, field)),
                    "{record} {from} {behind}"
                );
            }
        }
    }
    let twice = with(&draft, 8, 16, "0212");
    assert_eq!(fault(&twice, 8), Some((17, 7)));
    assert_eq!(fault(&with(&twice, 8, 20, "\u{1}"), 8), Some((17, 7)));
    assert_eq!(fault(&with(&twice, 8, 80, "1"), 8), Some((17, 7)));
    assert_eq!(fault(&with(&twice, 8, 19, "3"), 8), Some((7, 7)));
    assert_eq!(fault(&with(&twice, 8, 16, "022"), 8), Some((7, 6)));
    assert_eq!(fault(&with(&twice, 8, 15, "9"), 8), Some((12, 5)));
}

#[test]
fn what_is_repeated() {
    let draft = draft(&notified());
    for (record, other) in [(6, "04"), (7, "04"), (8, "04"), (12, "03"), (13, "03"), (21, "03")] {
        assert_eq!(fault(&with(&draft, record, 3, "01"), record), Some((12, 2)));
        for code in [other, "02", "00", "  "] {
            assert_eq!(fault(&with(&draft, record, 5, code), record), Some((12, 3)));
        }
        for number in ["0000000", "0000009", "9999999", "1000001"] {
            assert_eq!(fault(&with(&draft, record, 9, number), record), Some((12, 5)));
        }
        assert_eq!(fault(&with(&draft, record, 9, "      1"), record), Some((8, 5)));
    }
}

/// A draft of three transactions, each with these places behind a 40, or behind a 41.
fn message(code: &str, has_second: bool, places: &[(u32, u32)]) -> Vec<u8> {
    let transactions = [1, 2, 3].map(|number| {
        let mut behind = vec![r40(code, number)];
        behind.extend(has_second.then(|| r41(code, number)));
        behind.extend(places.iter().map(|&(line, column)| r49_04(code, number, line, column)));
        transaction("04", code, number, &behind)
    });
    draft_of("04", &transactions)
}

#[test]
fn places() {
    let all = every_place();
    for (code, has_second) in [("03", false), ("03", true), ("04", false), ("04", true)] {
        let of = |places: &[(u32, u32)]| message(code, has_second, places);
        let first = 6 + usize::from(has_second);
        assert!(judged(&of(&all)).is_ok());
        let backwards: Vec<(u32, u32)> = all.iter().rev().copied().collect();
        assert!(judged(&of(&backwards)).is_ok());
        for &place in &all {
            // Each is free in each transaction, and no second time in one.
            assert!(judged(&of(&[place])).is_ok());
            assert_eq!(fault(&of(&[place, place]), first + 1), Some((17, 7)));
            let again = [&all[..], &[place]].concat();
            assert_eq!(fault(&of(&again), first + 42), Some((17, 7)));
        }
        for line in 22..=999 {
            assert_eq!(fault(&of(&[(line, 1)]), first), Some((7, 6)));
        }
        for column in 3..=9 {
            assert_eq!(fault(&of(&[(1, column)]), first), Some((7, 7)));
        }
        // Blanks are no line and no column.
        let one = of(&[(1, 1)]);
        for line in ["   ", "  1", " 01", "1  ", "00x"] {
            assert_eq!(fault(&with(&one, first, 16, line), first), Some((7, 6)));
        }
        assert_eq!(fault(&with(&one, first, 19, " "), first), Some((7, 7)));
    }
}

/// A transaction's places do not count for the next, whatever stands between, nor for one of
/// the other service.
#[test]
fn places_start_anew() {
    let message = |number| vec![r40("03", number), r49_04("03", number, 5, 2)];
    let mut lines = vec![r10(), r20("04", 1, 1)];
    lines.extend(transaction("04", "03", 1, &message(1)));
    lines.extend(transaction("04", "02", 2, &[]));
    lines.extend(transaction("04", "03", 3, &message(3)));
    lines.push(r20("01", 1, 2));
    lines.extend(transaction("01", "03", 1, &[r49(1, 5, 2)]));
    lines.push(r20("04", 1, 3));
    lines.extend(transaction("04", "03", 1, &message(1)));
    assert!(check(&closed(&bytes(&lines))).is_ok());
}

/// The layout of the one service in the other.
#[test]
fn layout_of_the_other_service() {
    let draft = message("03", false, &[(1, 1)]);
    let of_01 = r49(1, 1, 1).replace("NY01", "NY04");
    assert_eq!(fault(&with(&draft, 6, 1, &of_01), 6), Some((7, 6)));
    let claim = draft_of("01", &[transaction("01", "03", 1, &[r49(1, 1, 1)])]);
    let of_04 = r49_04("03", 1, 1, 1).replace("NY04", "NY01");
    assert_eq!(fault(&with(&claim, 5, 1, &of_04), 5), Some((7, 6)));
    // Line 300, and line 001 with the column behind it.
    assert_eq!(fault(&with(&draft, 6, 16, "30011"), 6), Some((7, 6)));
    assert_eq!(fault(&with(&claim, 5, 16, "00113"), 5), Some((7, 6)));
}

#[test]
fn countries() {
    let draft = draft(&notified());
    // A no-break space is text, and not a blank.
    for country in [*b"SE ", *b" SE", *b"NOR", *b"123", *b"  -", *b"\xC5\xA0 ", *b"   "] {
        assert_eq!(fault(&with_bytes(&draft, 6, 76, &country), 6), None);
        let wanted = (country != *b"   ").then_some((8, 8));
        assert_eq!(fault(&with_bytes(&draft, 12, 76, &country), 12), wanted);
    }
    // Addresses may be blank, whatever the type, and have nothing to do with the country.
    for record in [6, 12, 17] {
        assert!(judged(&with(&draft, record, 16, &" ".repeat(60))).is_ok());
    }
    // Nor has the 40 of type 03: with a postal code, without one, with a filler.
    for postal in ["0150   ", "       ", "12 34 5"] {
        let draft = with(&draft, 5, 46, postal);
        assert!(judged(&draft).is_ok());
        assert!(judged(&with(&draft, 6, 76, "   ")).is_ok());
    }
}
