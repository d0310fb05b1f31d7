//! Records made from values, and drafts made from lines of values.

mod common;

use common::*;
use reference::answer::{of_drafting, of_making};
use reference::cases::{Operation, case};
use reference::make::{BadLine, Drafting, Making, Values, make, make_draft};
use reference::make::{make10, make20, make30, make31, make40, make41, make49, make50};
use reference::random::Random;
use reference::sample::{Plan, draft_and_file, sound_draft};
use reference::{RECORD, Refused, till};

/// What a making answers and the record it leaves. A refusal changes nothing, and bytes behind
/// the record stay. Short outputs are 19, and only where all else is sound.
fn made(make: impl Fn(&mut [u8]) -> Making) -> Result<String, (u8, u8)> {
    let mut out = [FILLER; 100];
    let making = make(&mut out);
    for room in [0, 1, 80] {
        let mut short = vec![FILLER; room];
        let expected = making.err().unwrap_or(refused(19, 0, 0));
        assert_eq!(make(&mut short), Err(expected));
        assert!(short.iter().all(|&byte| byte == FILLER));
    }
    match making {
        Ok(()) => {
            assert!(out[RECORD..].iter().all(|&byte| byte == FILLER) && out[80] == b'\n');
            let mut exact = [FILLER; RECORD];
            assert_eq!(make(&mut exact), Ok(()));
            assert_eq!(exact, out[..RECORD]);
            Ok(out[..80].iter().map(|&byte| char::from(byte)).collect())
        }
        Err(Refused { number, operand, record, field }) => {
            assert_eq!((operand, record), (0, 0));
            assert!(out.iter().all(|&byte| byte == FILLER));
            Err((number, field))
        }
    }
}

fn m10(sender: u64, number: u64) -> Result<String, (u8, u8)> {
    made(|out| make10(sender, number, out))
}

fn m20(service: u64, agreement: u64, assignment: u64, account: u64) -> Result<String, (u8, u8)> {
    made(|out| make20(service, agreement, assignment, account, out))
}

/// Service, type and the other values of a 30.
fn m30(
    head: (u64, u64),
    date: u64,
    party: &str,
    amount: u64,
    kid: &str,
) -> Result<String, (u8, u8)> {
    let (party, kid) = (party.as_bytes(), kid.as_bytes());
    made(|out| make30(head.0, head.1, 1, date, party, amount, kid, out))
}

fn m31(head: (u64, u64), texts: [&str; 3]) -> Result<String, (u8, u8)> {
    made(|out| make31(head.0, head.1, 1, texts.map(str::as_bytes), out))
}

fn m40(head: (u64, u64), texts: [&str; 4]) -> Result<String, (u8, u8)> {
    let [name, postal, filler, area] = texts.map(str::as_bytes);
    made(|out| make40(head.0, head.1, 1, name, postal, filler, area, out))
}

fn m41(head: (u64, u64), texts: [&str; 3]) -> Result<String, (u8, u8)> {
    let [address1, address2, country] = texts.map(str::as_bytes);
    made(|out| make41(head.0, head.1, 1, address1, address2, country, out))
}

fn m49(head: (u64, u64), line: u64, column: u64, text: &str) -> Result<String, (u8, u8)> {
    made(|out| make49(head.0, head.1, 1, line, column, text.as_bytes(), out))
}

fn m50(head: (u64, u64), kid: &str, amount: u64) -> Result<String, (u8, u8)> {
    made(|out| make50(head.0, head.1, 1, kid.as_bytes(), amount, out))
}

/// What making a draft of these lines answers, and what is then in an output of this room.
fn drafted(lines: impl AsRef<[u8]>, room: usize) -> (Drafting, Vec<u8>) {
    let mut out = vec![FILLER; room];
    (make_draft(lines.as_ref(), &mut out), out)
}

/// The refusal of these lines, or how many records they give.
fn lines(lines: impl AsRef<[u8]>) -> Result<usize, (u8, usize, u8)> {
    let (drafting, out) = drafted(lines, 50 * RECORD);
    if let Ok(records) = drafting {
        assert_eq!(written(&out), records * RECORD);
    }
    drafting.map_err(|BadLine { number, line, field }| (number, line, field))
}

const WHOLE: &str = "10;12345;110001\n\
    20;4;1;1;12345678903\n\
    30;4;2;1;011125;12345678903;80000;\n\
    31;4;2;1;MAKRELL;;\n";

#[test]
fn document_01s_file_from_values() {
    let draft = draft(&whole());
    let (drafting, out) = drafted(WHOLE, 4 * RECORD);
    assert_eq!(drafting, Ok(4));
    assert_eq!(out, draft);
    let (closed, file) = close(&out, 486);
    assert!(closed.is_ok());
    assert_eq!(file, whole());
    assert_eq!(till::plain_lines(&draft), WHOLE.as_bytes());
}

#[test]
fn answers_are_sixteen_numbers() {
    assert_eq!(of_making(Ok(())), [3, 0, 0, 0, 0, 0, 0, 0, 0, 0, 81, 0, 0, 0, 0, 0]);
    let answer = of_making(make10(100_000_000, 0, &mut []));
    assert_eq!(answer, [0, 22, 0, 0, 5, 0, 0, 0, 0, 0, 0, 0, 0, 0, 0, 0]);
    let answer = of_making(make10(1, 0, &mut [0; 80]));
    assert_eq!(answer, [0, 19, 0, 0, 0, 0, 0, 0, 0, 0, 0, 0, 0, 0, 0, 0]);
}

#[test]
fn each_record_type() {
    assert_eq!(m10(12345, 110001), Ok(r10()));
    assert_eq!(m20(4, 7, 2, 12_345_678_903), Ok(r20("04", 7, 2)));
    assert_eq!(m20(1, 7, 2, 0).unwrap()[24..35], *"00000000000");
    let r = m30((4, 12), 11_125, ACCOUNT, 300, "1234567");
    assert_eq!(r, Ok(r30("04", "12", 1, "011125", 300, "1234567")));
    assert_eq!(m31((1, 2), ["MAKRELL", "", ""]), Ok(r31("01", "02", 1)));
    let r = m40((4, 4), ["KARI NORDMANN", "0150", "", "OSLO"]);
    assert_eq!(r, Ok(r40("04", 1)));
    assert_eq!(m41((4, 3), ["POSTBOKS 7", "KAI 3", "SE"]), Ok(r41("03", 1)));
    assert_eq!(m41((4, 4), ["POSTBOKS 7", "KAI 3", ""]), Ok(r41("04", 1)));
    assert_eq!(m49((1, 3), 21, 2, "TEKST"), Ok(r49(1, 21, 2)));
    assert_eq!(m49((4, 3), 21, 2, "TEKST"), Ok(r49_04("03", 1, 21, 2)));
    assert_eq!(m49((4, 4), 1, 1, "TEKST"), Ok(r49_04("04", 1, 1, 1)));
    for (line, column) in [(0, 0), (0, 2), (21, 0)] {
        let made = |head| m49(head, line.into(), column.into(), "TEKST");
        assert_eq!(made((1, 3)), Ok(r49(1, line, column)));
        assert_eq!(made((4, 3)), Ok(r49_04("03", 1, line, column)));
    }
    assert_eq!(m50((4, 17), "1234567", 90), Ok(r50("17", 1, 90)));
}

#[test]
fn too_long_comes_first() {
    let far = u64::MAX;
    assert_eq!(m10(99_999_999, 9_999_999).map(|r| r[8..23].into()), Ok("9".repeat(15)));
    assert_eq!(m10(100_000_000, far), Err((22, 5)));
    assert_eq!(m10(0, 10_000_000), Err((22, 6)));
    assert_eq!(m20(100, 0, 0, 0), Err((22, 2)));
    assert_eq!(m20(9, 1_000_000_000, far, far), Err((22, 5)));
    assert_eq!(m20(9, 999_999_999, 10_000_000, 1), Err((22, 6)));
    assert_eq!(m20(9, 0, 9_999_999, 100_000_000_000), Err((22, 7)));
    let (long, longer) = ("1".repeat(12), "1".repeat(26));
    assert_eq!(m30((far, far), far, &long, far, &longer), Err((22, 2)));
    assert_eq!(m30((9, 100), far, &long, far, &longer), Err((22, 3)));
    assert_eq!(m30((9, 99), 1_000_000, &long, far, &longer), Err((22, 6)));
    assert_eq!(m30((9, 99), 999_999, &long, far, &longer), Err((22, 7)));
    assert_eq!(m30((9, 99), 999_999, "x", MOST + 1, &longer), Err((22, 8)));
    assert_eq!(m30((9, 99), 999_999, "x", MOST, &longer), Err((22, 9)));
    // The length counts, blanks too.
    assert_eq!(m30((9, 99), 999_999, "x", MOST, &" ".repeat(26)), Err((22, 9)));
    assert_eq!(m30((9, 99), 999_999, "x", MOST, "x"), Err((7, 2)));
    let blanks = |n| " ".repeat(n);
    assert_eq!(m31((9, 9), [&blanks(11), "\0", "\0"]), Err((22, 6)));
    assert_eq!(m31((9, 9), ["\0", &blanks(26), "\0"]), Err((22, 7)));
    assert_eq!(m31((9, 9), ["\0", "\0", &blanks(26)]), Err((22, 8)));
    assert_eq!(m40((9, 9), [&blanks(31), "x", "x", "\0"]), Err((22, 6)));
    assert_eq!(m40((9, 9), ["\0", "01500", "x", "\0"]), Err((22, 7)));
    assert_eq!(m40((9, 9), ["\0", "x", "    ", "\0"]), Err((22, 8)));
    assert_eq!(m40((9, 9), ["\0", "x", "x", &blanks(26)]), Err((22, 9)));
    assert_eq!(m41((9, 9), [&blanks(31), &blanks(31), &blanks(4)]), Err((22, 6)));
    assert_eq!(m41((9, 9), ["\0", &blanks(31), &blanks(4)]), Err((22, 7)));
    assert_eq!(m41((9, 9), ["\0", "\0", &blanks(4)]), Err((22, 8)));
    // The layout of a 49 is its service's; what is no service has service 01's.
    for service in [0, 1, 2, 3, 5, 9, 14, 40, 44, 99] {
        assert_eq!(m49((service, 9), 1000, 10, &blanks(41)), Err((22, 7)));
        assert_eq!(m49((service, 9), 999, 10, &blanks(41)), Err((22, 8)));
        assert_eq!(m49((service, 9), 999, 9, &blanks(41)), Err((22, 9)));
    }
    assert_eq!(m49((4, 9), 1000, 10, &blanks(41)), Err((22, 6)));
    assert_eq!(m49((4, 9), 999, 10, &blanks(41)), Err((22, 7)));
    assert_eq!(m49((4, 9), 999, 9, &blanks(41)), Err((22, 8)));
    assert_eq!(m49((104, 9), 1000, 10, &blanks(41)), Err((22, 2)));
    assert_eq!(m50((9, 9), &blanks(26), far), Err((22, 6)));
    assert_eq!(m50((9, 9), "x", MOST + 1), Err((22, 7)));
    assert_eq!(made(|out| make31(9, 9, 10_000_000, [b""; 3], out)), Err((22, 5)));
}

#[test]
fn services_and_types() {
    let listed_01 = [2, 3];
    let listed_04 = [1, 2, 3, 4, 12, 16, 18, 32, 37, 62, 65, 66];
    for service in 0..100 {
        for code in 0..100 {
            let listed = match service {
                1 => Ok(listed_01.contains(&code)),
                4 => Ok(listed_04.contains(&code)),
                _ => Err((7, 2)),
            };
            let expected = listed.and_then(|listed| if listed { Ok(()) } else { Err((7, 3)) });
            let kid = if code == 12 { "1" } else { "" };
            let head = (service, code);
            let found = [
                m30(head, 11_125, ACCOUNT, 1, kid),
                m31(head, ["", "", ""]),
                m40(head, ["K", "0150", "", "K"]),
                m41(head, ["", "", ""]),
                m49(head, 1, 1, ""),
            ];
            for found in found {
                assert_eq!(found.map(drop), expected, "{service} {code}");
            }
            let in_50 = match (service, code) {
                (1 | 4, 16 | 17) => Ok(()),
                (1 | 4, _) => Err((7, 3)),
                _ => Err((7, 2)),
            };
            assert_eq!(m50(head, "1", 0).map(drop), in_50);
        }
        let expected = if service == 1 || service == 4 { Ok(()) } else { Err((7, 2)) };
        assert_eq!(m20(service, 0, 0, 12_345_678_903).map(drop), expected);
    }
}

#[test]
fn own_rules_of_20_and_30() {
    for account in [12_345_678_901, 60, 63, 1] {
        assert_eq!(m20(4, 1, 1, account), Err((11, 7)));
    }
    // Dates: never 10, whatever the year.
    for date in [10_100, 311_299, 290_200, 290_296, 300_924, 311_225] {
        assert!(m30((1, 2), date, ACCOUNT, 1, "").is_ok(), "{date}");
    }
    for date in [0, 290_225, 290_299, 310_425, 11_325, 10_025, 1_125, 320_125, 999_999] {
        assert_eq!(m30((4, 2), date, "x", 1, "x"), Err((9, 6)), "{date}");
    }
    // Field 7 is put to the right.
    let party = |head, party| m30(head, 11_125, party, 1, "").map(|r| r[21..32].to_string());
    assert_eq!(party((1, 2), "7"), Ok("          7".into()));
    assert_eq!(party((1, 2), " 7"), Ok("          7".into()));
    assert_eq!(party((1, 2), ACCOUNT), Ok(ACCOUNT.into()));
    assert_eq!(party((4, 4), "12345678901"), Ok("12345678901".into()));
    for bad in ["", "7 ", "1 2", "x", "-1", "7          ", "1234567890 "] {
        assert_eq!(party((1, 3), bad), Err((8, 7)), "{bad}");
        assert_eq!(party((4, 2), bad), Err((8, 7)), "{bad}");
        assert_eq!(party((4, 4), bad), Err((8, 7)), "{bad}");
    }
    for bad in ["12345678901", "00000000060"] {
        assert_eq!(party((1, 2), bad), Err((11, 7)), "{bad}");
        assert_eq!(party((4, 66), bad), Err((11, 7)), "{bad}");
    }
    assert_eq!(party((4, 2), "1234567890"), Err((8, 7)));
    // Own limits; an assignment's stays with closing.
    let amount = |head, amount| m30(head, 11_125, ACCOUNT, amount, "").map(drop);
    assert_eq!(amount((4, 4), 9_999_999_999), Ok(()));
    assert_eq!(amount((4, 4), 10_000_000_000), Err((13, 8)));
    assert_eq!(amount((4, 16), 0), Err((13, 8)));
    assert_eq!(amount((4, 16), MOST), Ok(()));
    assert_eq!(amount((4, 2), 0), Ok(()));
    assert_eq!(amount((4, 2), MOST), Ok(()));
    assert_eq!(m30((4, 16), 11_125, ACCOUNT, 0, "x"), Err((13, 8)));
    // KIDs.
    let (right, left) = (format!("{:>25}", "12"), format!("{:<25}", "12"));
    let kid = |head, kid: &str| m30(head, 11_125, ACCOUNT, 1, kid).map(|r| r[49..74].to_string());
    assert_eq!(kid((1, 2), "12"), Ok(right.clone()));
    assert_eq!(kid((1, 2), &right), Ok(right.clone()));
    assert_eq!(kid((1, 2), ""), Ok(" ".repeat(25)));
    assert_eq!(kid((1, 2), &left), Err((8, 9)));
    assert_eq!(kid((4, 12), &left), Ok(left.clone()));
    assert_eq!(kid((4, 12), "12 "), Err((8, 9)));
    assert_eq!(kid((4, 12), ""), Err((8, 9)));
    assert_eq!(kid((4, 2), "12"), Err((8, 9)));
    assert_eq!(kid((4, 2), "   "), Ok(" ".repeat(25)));
}

#[test]
fn own_rules_of_31_to_50() {
    for byte in 0..=255u8 {
        let text: &[u8] = &[byte];
        let sound = matches!(byte, 32..=126 | 160..=255);
        for at in 0..3 {
            let mut texts: [&[u8]; 3] = [b""; 3];
            texts[at] = text;
            let found = made(|out| make31(4, 2, 0, texts, out)).map(drop);
            assert_eq!(found, if sound { Ok(()) } else { Err((8, 6 + at as u8)) });
        }
        for (head, field) in [((1, 2), 9), ((4, 2), 8)] {
            let found = made(|out| make49(head.0, head.1, 0, 1, 1, text, out)).map(drop);
            assert_eq!(found, if sound { Ok(()) } else { Err((8, field)) });
        }
        // A 41, whose country is blank in type 04.
        for (head, at) in [((1, 2), 0), ((4, 3), 1), ((4, 66), 2), ((4, 4), 0), ((4, 4), 2)] {
            let mut texts: [&[u8]; 3] = [b""; 3];
            texts[at] = text;
            let [one, two, country] = texts;
            let found = made(|out| make41(head.0, head.1, 0, one, two, country, out)).map(drop);
            let sound = if head == (4, 4) && at == 2 { byte == b' ' } else { sound };
            assert_eq!(found, if sound { Ok(()) } else { Err((8, 6 + at as u8)) });
        }
        let postal = byte.is_ascii_digit() || byte == b' ';
        let found = made(|out| make40(1, 3, 0, b"", text, b"", b"", out)).map(drop);
        assert_eq!(found, if postal { Ok(()) } else { Err((8, 7)) });
        let found = made(|out| make40(4, 2, 0, b"", b"", text, b"", out)).map(drop);
        assert_eq!(found, if postal { Ok(()) } else { Err((8, 8)) });
    }
    // A record 40 of type 04.
    let address = |texts| m40((4, 4), texts).map(drop);
    assert_eq!(address(["K", "0150", "   ", "K"]), Ok(()));
    assert_eq!(address(["", "0150", "", "K"]), Err((8, 6)));
    assert_eq!(address(["    ", "x", "", ""]), Err((8, 6)));
    assert_eq!(address(["K", "015", "1", ""]), Err((8, 7)));
    assert_eq!(address(["K", "", "", "K"]), Err((8, 7)));
    assert_eq!(address(["K", "0150", "1", ""]), Err((8, 8)));
    assert_eq!(address(["K", "0150", "", " "]), Err((8, 9)));
    assert_eq!(m40((4, 3), ["", "", "", ""]).map(drop), Ok(()));
    assert_eq!(m40((1, 2), ["", "1 2", " 3", ""]).unwrap()[45..52], *"1 2  3 ");
    // The texts of a 41 are put to the left.
    let made = m41((4, 3), [" A", "B ", "S"]).unwrap();
    assert_eq!(made[15..80], format!("{:<30}{:<30}S  00", " A", "B "));
    assert_eq!(m41((4, 4), ["\0", "\0", "SE"]), Err((8, 6)));
    assert_eq!(m41((4, 4), ["", "\0", "SE"]), Err((8, 7)));
    assert_eq!(m41((4, 4), ["", "", "   "]).map(drop), Ok(()));
    assert_eq!(m41((1, 4), ["", "", "SE"]), Err((7, 3)));
    // Lines and columns, by the layout of the service.
    for (head, field) in [((1, 3), 7), ((4, 3), 6), ((4, 66), 6)] {
        for (line, column) in (0..1000).flat_map(|line| (0..10).map(move |column| (line, column))) {
            let expected = match (line, column) {
                (22.., _) => Err((7, field)),
                (_, 3..) => Err((7, field + 1)),
                _ => Ok(()),
            };
            assert_eq!(m49(head, line, column, "").map(drop), expected);
            assert_eq!(m49(head, line, column, "\0").map(drop), expected.and(Err((8, field + 2))));
        }
    }
    assert_eq!(m49((4, 2), 7, 1, "A").unwrap()[15..], format!("0071{:<40}{}", "A", "0".repeat(21)));
    assert_eq!(
        m49((1, 2), 7, 1, "A").unwrap()[15..],
        format!("30071{:<40}{}", "A", "0".repeat(20))
    );
    // KIDs in a 50: of service 01 at the right alone.
    let (right, left) = (format!("{:>25}", "12"), format!("{:<25}", "12"));
    for service in [1, 4] {
        assert_eq!(m50((service, 16), &right, 0), m50((service, 16), "12", 0));
        assert!(m50((service, 17), &"1".repeat(25), MOST).is_ok());
        assert_eq!(m50((service, 16), "", 0), Err((8, 6)));
        assert_eq!(m50((service, 16), "1 2", 0), Err((8, 6)));
        assert_eq!(m50((service, 16), "x", 0), Err((8, 6)));
    }
    assert_eq!(m50((1, 16), &left, 0), Err((8, 6)));
    assert_eq!(m50((4, 16), &left, 0).unwrap()[15..40], left);
}

/// Values by chance: what is made reads back, and is in a file what it was alone.
#[test]
fn made_records_read_back() {
    let makings = &Operation::ALL[4..12];
    let (mut sound, mut numbers) = (0, [0u32; 23]);
    for index in 0..100_000 {
        let case = case(3, index, makings);
        let values = case.values().expect("values");
        let mut record = [FILLER; RECORD];
        match make(values, &mut record) {
            Err(refused) => numbers[refused.number as usize] += 1,
            Ok(()) => {
                sound += 1;
                let again = Values::of(&record).expect("a made record");
                assert_eq!(again.bare(), values.bare(), "{index}");
                let mut second = [FILLER; RECORD];
                assert_eq!(make(again, &mut second), Ok(()));
                assert_eq!(second, record, "{index}");
            }
        }
    }
    assert!(sound > 20_000);
    for number in [7, 8, 9, 11, 13, 22] {
        assert!(numbers[number] > 100, "{number}: {numbers:?}");
    }
}

/// A record written by hand, whatever it says, if its values have room in it.
fn by_hand(values: Values) -> Option<Vec<u8>> {
    let left = |text: &[u8], width| [text, &b" ".repeat(width)].concat()[..width].to_vec();
    let right = |text: &[u8], width: usize| [&b" ".repeat(width - text.len()), text].concat();
    let fits = |text: &[u8], width| text.len() <= width;
    let head = |service, code, kind, number| {
        format!("NY{service:02}{code:02}{kind}{number:07}").into_bytes()
    };
    let record = match values {
        Values::Amount1 { service, code, number, date, party, amount, kid } => {
            let fits = fits(party, 11) && fits(kid, 25);
            fits.then(|| {
                let date = format!("{date:06}").into_bytes();
                let amount = format!("{amount:017}").into_bytes();
                let head = head(service, code, 30, number);
                [head, date, right(party, 11), amount, right(kid, 25)].concat()
            })?
        }
        Values::Amount2 { service, code, number, texts: [six, seven, eight] } => {
            let fits = fits(six, 10) && fits(seven, 25) && fits(eight, 25);
            let texts = [left(six, 10), left(seven, 25), left(eight, 25)].concat();
            fits.then(|| [head(service, code, 31, number), texts].concat())?
        }
        Values::Address { service, code, number, name, postal, filler, area } => {
            let fits = fits(name, 30) && fits(postal, 4) && fits(filler, 3) && fits(area, 25);
            let texts = [left(name, 30), left(postal, 4), left(filler, 3), left(area, 25)];
            fits.then(|| [head(service, code, 40, number), texts.concat()].concat())?
        }
        Values::Address2 { service, code, number, address1, address2, country } => {
            let fits = fits(address1, 30) && fits(address2, 30) && fits(country, 3);
            let texts = [left(address1, 30), left(address2, 30), left(country, 3)];
            fits.then(|| [head(service, code, 41, number), texts.concat()].concat())?
        }
        Values::Message { service, code, number, line, column, text } => {
            let notification = if service == 4 { "" } else { "3" };
            let place = format!("{notification}{line:03}{column}").into_bytes();
            let head = head(service, code, 49, number);
            fits(text, 40).then(|| [head, place, left(text, 40)].concat())?
        }
        Values::SubSpec { service, code, number, kid, amount } => {
            let amount = format!("{amount:017}").into_bytes();
            fits(kid, 25)
                .then(|| [head(service, code, 50, number), right(kid, 25), amount].concat())?
        }
        _ => return None,
    };
    // A number that is too long makes it longer.
    let length = match values {
        Values::Amount1 { .. } => 74,
        Values::Amount2 { .. } => 75,
        Values::Address { .. } => 77,
        Values::Address2 { .. } => 78,
        Values::Message { service: 4, .. } => 59,
        Values::Message { .. } => 60,
        _ => 57,
    };
    if record.len() != length {
        return None;
    }
    let rest = [b"0".repeat(80 - length), b"\n".to_vec()].concat();
    Some([record, rest].concat())
}

/// The same records in a draft, where nothing but they can be at fault: closing refuses them by
/// the same number and field, or goes on.
#[test]
fn judged_as_in_a_draft() {
    let makings = &Operation::ALL[6..12];
    let mut compared = [0u32; 7];
    for index in 0..60_000 {
        let mut case = case(4, index, makings);
        // Number 1 agrees; 0 and what does not agree are closing's.
        case.numbers[2] = 1;
        let values = case.values().expect("values");
        let Some(record) = by_hand(values) else { continue };
        let mut out = [FILLER; RECORD];
        let making = make(values, &mut out);
        if making.is_ok() {
            assert_eq!(out[..], record, "{values:?}");
        }
        let (service, code) = (case.numbers[0], case.numbers[1]);
        let (service, code) = (format!("{service:02}"), format!("{code:02}"));
        let mut before = vec![r10(), r20(&service, 1, 1)];
        let mut day = DAY;
        let which = match values {
            // The assignment's limit and the window are closing's.
            Values::Amount1 { service: 1 | 4, amount: 0..10_000_000_000_000, date, .. } => {
                let date = (2000 + date % 100, date / 100 % 100, date / 10_000);
                let is_date = reference::check(date, b"") == Err(refused(2, 0, 0));
                day = if is_date { date } else { DAY };
                0
            }
            Values::Amount2 { service: 1, code: 2 | 3, .. }
            | Values::Amount2 { service: 4, code: 1..=4 | 12 | 16 | 66, .. } => 1,
            Values::Address { service: 4, code: 3 | 4, .. } => 2,
            Values::Message { service: 1, code: 3, .. } => 3,
            Values::SubSpec { service: 4, .. } => 4,
            Values::Address2 { service: 4, code: 3 | 4, .. } => 5,
            Values::Message { service: 4, code: 3 | 4, .. } => 6,
            _ => continue,
        };
        let code = if which == 4 { "16" } else { &code };
        let kid = if service == "04" && code == "12" { "1" } else { "" };
        if which > 0 {
            before.push(r30(&service, code, 1, "011125", 1, kid));
        }
        if which > 1 {
            before.push(r31(&service, code, 1));
        }
        if which > 4 {
            before.push(r40(code, 1));
        }
        let draft = [bytes(&before), record].concat();
        let at = before.len() as u32 + 1;
        let closing = close_on(day, &draft, 2 * draft.len()).0;
        match making {
            Err(Refused { number, field, .. }) => {
                assert_eq!(closing, Err(refused(number, at, field)), "{values:?}");
                compared[which] += 1;
            }
            // Accepted, or the draft is not at its end, or the group does not add up.
            Ok(()) => assert!(
                closing.is_ok()
                    || closing == Err(refused(6, at + 1, 0))
                    || closing == Err(refused(14, at + 1, 0)),
                "{values:?} {closing:?}"
            ),
        }
    }
    assert!(compared.iter().all(|&count| count > 100), "{compared:?}");
}

#[test]
fn sound_drafts_are_made_of_their_values() {
    let mut random = Random(7);
    for seed in 0..300 {
        let plan = Plan {
            seed,
            day: DAY,
            assignments: 1 + random.below(4) as u32,
            transactions: 1 + random.below(6) as u32,
            records: None,
            extras: 50,
            notices: 50,
            unplaced: 30,
            extremes: true,
        };
        let mut draft = sound_draft(plan);
        draft.iter_mut().filter(|byte| **byte == b';').for_each(|byte| *byte = b':');
        let records = draft.len() / RECORD;
        for lines in [till::plain_lines(&draft), till::lines(&mut random, &draft)] {
            let (drafting, out) = drafted(&lines, draft.len());
            assert_eq!(drafting, Ok(records), "{}", lines.escape_ascii());
            assert!(out == draft);
            // One byte short, and all but the last record is there.
            let (drafting, out) = drafted(&lines, draft.len() - 1);
            assert_eq!(drafting.map_err(|bad| (bad.number, bad.field)), Err((19, 0)));
            let before = draft.len() - RECORD;
            assert!(out[..before] == draft[..before]);
            assert!(out[before..].iter().all(|&byte| byte == FILLER));
        }
        assert!(close(&draft, 2 * draft.len() + RECORD).0.is_ok());
    }
}

/// A place that is taken and a piece too many are closing's.
#[test]
fn messages_are_made_piece_by_piece() {
    for (service, code, first) in [("01", "03", 5), ("04", "03", 6), ("04", "04", 7)] {
        for (message, number) in [([(5, 2); 43], 17), ([(0, 2); 43], 23), ([(0, 0); 43], 23)] {
            let draft = messages(service, code, &[message.to_vec()]);
            let (drafting, out) = drafted(till::plain_lines(&draft), draft.len());
            assert_eq!(drafting, Ok(draft.len() / RECORD));
            assert_eq!(out, draft);
            let record = first + if number == 17 { 1 } else { 42 };
            assert_eq!(close(&out, 2 * out.len()).0, Err(refused(number, record, 7)));
        }
    }
}

#[test]
fn the_seasons_draft() {
    let (draft, _) = draft_and_file(Plan::like_a_season(20_000, 5));
    let values = till::bare_values(&draft);
    let mut out = vec![FILLER; draft.len()];
    for (values, place) in values.into_iter().zip(out.chunks_exact_mut(RECORD)) {
        assert_eq!(make(values, place), Ok(()));
    }
    assert!(out == draft);
}

#[test]
fn lines_that_bear_no_record() {
    for none in ["", "\n", "\r\n", "\n\n\n", ";", ";;;\n", "#", "# 10;1;1\n;;\n\r\n", "#\r"] {
        assert_eq!(lines(none), Err((2, 0, 0)), "{none:?}");
    }
    for one in
        ["10;1;1", "10;1;1\n", "10;1;1\r\n", "10;1;1\r", "\n;;\n#x\n10;1;1", "10;1;1;;;;;;;;;"]
    {
        assert_eq!(lines(one), Ok(1), "{one:?}");
    }
    assert_eq!(lines("#10\r\n\r\n10;1;x\r\n"), Err((8, 3, 6)));
    // One carriage return is dropped, and only at the end of a line; nothing else is.
    assert_eq!(lines("10;1;1\r\r\n"), Err((8, 1, 6)));
    assert_eq!(lines("\r\r\n"), Err((7, 1, 4)));
    assert_eq!(lines("\n \n"), Err((7, 2, 4)));
    assert_eq!(lines(" # x"), Err((7, 1, 4)));
}

#[test]
fn too_many_lines() {
    let of = |records| b"10;1;1\n".repeat(records);
    let (drafting, out) = drafted(of(199_998), 199_998 * RECORD);
    assert_eq!(drafting, Ok(199_998));
    assert_eq!(written(&out), 199_998 * RECORD);
    let bad = |number| Err(BadLine { number, line: 0, field: 0 });
    assert_eq!(drafted(of(199_999), 0).0, bad(3));
    assert_eq!(drafted([of(199_998), b"x".to_vec()].concat(), 0).0, bad(3));
    let passed = [of(199_998), b"#\n;;;\n\r\n".repeat(10)].concat();
    let short = Err(BadLine { number: 19, line: 1, field: 0 });
    assert_eq!(drafted(passed, 80).0, short);
}

#[test]
fn record_types_of_lines() {
    for bad in
        ["11;1;1", "88;1", "89", "x", " 10;1;1", "10 ;1;1", "010;1;1", ";10;1;1", "1;0", "\0"]
    {
        assert_eq!(lines(bad), Err((7, 1, 4)), "{bad:?}");
    }
}

#[test]
fn too_few_and_too_many_values() {
    let fields: [(&str, &[u8]); 11] = [
        ("10;1;1", &[5, 6]),
        ("20;4;1;1;12345678903", &[2, 5, 6, 7]),
        ("30;4;2;1;011125;12345678903;1;", &[2, 3, 5, 6, 7, 8, 9]),
        ("31;4;2;1;A;B;C", &[2, 3, 5, 6, 7, 8]),
        ("40;4;3;1;A;0150;;C", &[2, 3, 5, 6, 7, 8, 9]),
        ("41;4;3;1;A;B;SE", &[2, 3, 5, 6, 7, 8]),
        ("49;1;3;1;1;1;A", &[2, 3, 5, 7, 8, 9]),
        ("49;4;3;1;1;1;A", &[2, 3, 5, 6, 7, 8]),
        ("49;004;3;1;1;1;A", &[2, 3, 5, 6, 7, 8]),
        ("49;01;3;1;1;1;A", &[2, 3, 5, 7, 8, 9]),
        ("50;4;16;1;1;1", &[2, 3, 5, 6, 7]),
    ];
    for (line, fields) in fields {
        let values: Vec<&str> = line.split(';').collect();
        assert_eq!(values.len(), fields.len() + 1);
        for (present, &field) in (1..).zip(fields) {
            // Too few go before anything that is wrong with those that are there.
            assert_eq!(lines(values[..present].join(";")), Err((8, 1, field)), "{line}");
            // The service stays, since a 49 has its layout by it.
            let wrong = vec!["x"; present.saturating_sub(2)];
            let few = [&values[..present.min(2)], &wrong].concat().join(";");
            assert_eq!(lines(few), Err((8, 1, field)), "{line}");
        }
        assert_eq!(lines(line), Ok(1));
        assert_eq!(lines(format!("{line};;;")), Ok(1));
        for surplus in [";x", ";;x", ";;;0;", "; "] {
            assert_eq!(lines(format!("{line}{surplus}")), Err((8, 1, 0)));
        }
    }
    // Surplus goes before a letter in a number.
    assert_eq!(lines("10;x;y;z"), Err((8, 1, 0)));
}

#[test]
fn numbers_of_lines() {
    for bad in ["", "x", "1x", "x1", "+1", "-1", " 1", "1 ", "1.0", "0x1", "\0", "1\0", "\u{b2}"] {
        assert_eq!(lines(format!("10;{bad};1")), Err((8, 1, 5)), "{bad:?}");
        assert_eq!(lines(format!("10;1;{bad}")), Err((8, 1, 6)), "{bad:?}");
        // Before too long a number elsewhere.
        assert_eq!(lines(format!("10;999999999;{bad}")), Err((8, 1, 6)), "{bad:?}");
    }
    let zeros = "0".repeat(300);
    assert_eq!(lines(format!("10;{zeros}7;{zeros}")), Ok(1));
    for long in ["18446744073709551615", "18446744073709551616", "18446744073709551617"] {
        assert_eq!(lines(format!("10;{long};1")), Err((22, 1, 5)));
    }
    assert_eq!(lines(format!("10;1{zeros};1")), Err((22, 1, 5)));
    assert_eq!(lines(format!("10;1;{}", "9".repeat(300))), Err((22, 1, 6)));
    // 2 to the power of 64, and 7: a number that had wrapped would be 7.
    assert_eq!(lines("10;18446744073709551623;1"), Err((22, 1, 5)));
    assert_eq!(lines("49;1;3;1;1;x;A"), Err((8, 1, 8)));
    assert_eq!(lines("49;4;3;1;1;x;A"), Err((8, 1, 7)));
    assert_eq!(lines("49;4;3;1;x;x;A"), Err((8, 1, 6)));
    assert_eq!(lines("49;x;3;1;x;x;A"), Err((8, 1, 2)));
    // What is no service has service 01's layout, also where it is no number.
    assert_eq!(lines("49;x;3;1"), Err((8, 1, 7)));
    assert_eq!(lines("49;9;3;1;1;1"), Err((8, 1, 9)));
    assert_eq!(lines("49;18446744073709551620;3;1;1;1"), Err((8, 1, 9)));
    assert_eq!(lines("50;4;16;1;x;"), Err((8, 1, 7)));
}

#[test]
fn the_first_refused_line_ends_it() {
    let text = "10;12345;110001\n\n20;4;1;1;12345678901\n30;x\n";
    let (drafting, out) = drafted(text, 500);
    assert_eq!(drafting, Err(BadLine { number: 11, line: 3, field: 7 }));
    assert_eq!(out[..RECORD], bytes(&[r10()]));
    assert!(out[RECORD..].iter().all(|&byte| byte == FILLER));
    let refused = of_drafting(drafting);
    assert_eq!(refused, [0, 11, 0, 3, 7, 0, 0, 0, 0, 0, 0, 0, 0, 0, 0, 0]);
    // 19 where there is no room, but a fault of the line before it.
    for (room, refused) in [(80, (19, 1, 0)), (81, (11, 3, 7)), (161, (11, 3, 7))] {
        let (drafting, _) = drafted(text, room);
        let found = drafting.map_err(|BadLine { number, line, field }| (number, line, field));
        assert_eq!(found, Err(refused));
    }
    let (drafting, out) = drafted(WHOLE, 2 * RECORD + 80);
    assert_eq!(drafting, Err(BadLine { number: 19, line: 3, field: 0 }));
    assert_eq!(written(&out), 2 * RECORD);
}

#[test]
fn texts_of_lines_are_put_as_they_are() {
    let line = b"31;4;2;1; \xC6\xD8\xC5 ; x;\"y\"".to_vec();
    let (drafting, out) = drafted(&line, RECORD);
    assert_eq!(drafting, Ok(1));
    let texts = [&b" \xC6\xD8\xC5      "[..], b" x                       ", b"\"y\""].concat();
    assert_eq!(out[15..15 + texts.len()], texts);
    assert_eq!(lines(b"31;4;2;1;\0;;"), Err((8, 1, 6)));
    assert_eq!(lines(b"31;4;2;1;;\r;"), Err((8, 1, 7)));
    assert_eq!(lines(b"31;4;2;1;;;\r"), Ok(1));
    assert_eq!(lines(b"31;4;2;1;12345678901;;"), Err((22, 1, 6)));
}
