//! Records written by hand, and files put together from them. Nothing here is
//! checked: it serves sound files and damaged ones.

use crate::RECORD;

/// The account of document 01's examples.
pub const ACCOUNT: &str = "12345678903";

/// The most that 17 digits can say.
pub const MOST: u64 = 99_999_999_999_999_999;

pub fn r10() -> String {
    r10_of("00012345")
}

pub fn r10_of(sender: &str) -> String {
    format!("NY000010{sender}011000100008080{}", "0".repeat(49))
}

pub fn r20(service: &str, agreement: u32, assignment: u32) -> String {
    format!("NY{service}0020{agreement:09}{assignment:07}{ACCOUNT}{}", "0".repeat(45))
}

pub fn r30(service: &str, code: &str, number: u32, date: &str, amount: u64, kid: &str) -> String {
    format!("NY{service}{code}30{number:07}{date}{ACCOUNT}{amount:017}{kid:>25}000000")
}

pub fn r31(service: &str, code: &str, number: u32) -> String {
    format!("NY{service}{code}31{number:07}{:<60}00000", "MAKRELL")
}

pub fn r40(code: &str, number: u32) -> String {
    format!("NY04{code}40{number:07}{:<30}0150   {:<25}000", "KARI NORDMANN", "OSLO")
}

pub fn r41(code: &str, number: u32) -> String {
    let country = if code == "04" { "" } else { "SE" };
    format!("NY04{code}41{number:07}{:<30}{:<30}{country:<3}00", "POSTBOKS 7", "KAI 3")
}

/// A 49 of service 01.
pub fn r49(number: u32, line: u32, column: u32) -> String {
    format!("NY010349{number:07}3{line:03}{column}{:<40}{}", "TEKST", "0".repeat(20))
}

/// A 49 of service 04.
pub fn r49_04(code: &str, number: u32, line: u32, column: u32) -> String {
    format!("NY04{code}49{number:07}{line:03}{column}{:<40}{}", "TEKST", "0".repeat(21))
}

pub fn r50(code: &str, number: u32, amount: u64) -> String {
    format!("NY04{code}50{number:07}{:>25}{amount:017}{}", "1234567", "0".repeat(23))
}

/// A 30 of the commonest type, with its 31.
pub fn transfer(service: &str, number: u32, date: &str, amount: u64) -> [String; 2] {
    [r30(service, "02", number, date, amount, ""), r31(service, "02", number)]
}

/// The records as bytes, each with its line feed.
pub fn bytes<S: AsRef<str>>(lines: &[S]) -> Vec<u8> {
    lines
        .iter()
        .flat_map(|line| {
            assert_eq!(line.as_ref().len(), RECORD - 1, "{}", line.as_ref());
            line.as_ref().bytes().chain([b'\n'])
        })
        .collect()
}

/// Positions 7 and 8.
pub fn kind(record: &[u8]) -> [u8; 2] {
    [record[6], record[7]]
}

/// How many whole records are of this type.
pub fn count(data: &[u8], wanted: &[u8; 2]) -> usize {
    data.chunks_exact(RECORD).filter(|record| kind(record) == *wanted).count()
}

/// A file without its 88s and its 89.
pub fn draft(file: &[u8]) -> Vec<u8> {
    file.chunks(RECORD).filter(|r| !matches!(&r[6..8], b"88" | b"89")).flatten().copied().collect()
}

/// The value of a field; what is no digit counts as 0.
fn value(field: &[u8]) -> u64 {
    field.iter().fold(0, |value, byte| {
        value * 10 + if byte.is_ascii_digit() { u64::from(byte - b'0') } else { 0 }
    })
}

/// YYMMDD of DDMMYY and back: the same turn.
fn turned(date: [u8; 6]) -> [u8; 6] {
    let [a, b, c, d, e, f] = date;
    [e, f, c, d, a, b]
}

/// What the end records of some records say.
struct Figures {
    transactions: usize,
    sum: u64,
    /// Turned, so that they can be compared.
    dates: Vec<[u8; 6]>,
}

impl Figures {
    fn of(records: &[&[u8]]) -> Self {
        let transactions = || records.iter().filter(|record| kind(record) == *b"30");
        let date = |record: &&&[u8]| turned(*record[15..].first_chunk().expect("inside a record"));
        let sum = transactions().fold(0, |sum: u64, r| sum.saturating_add(value(&r[32..49])));
        let mut dates: Vec<[u8; 6]> = transactions().map(|record| date(&record)).collect();
        dates.sort();
        // A sum past the limit is still written in 17 digits.
        Self { transactions: transactions().count(), sum: sum.min(MOST), dates }
    }

    fn record(&self, service: &[u8], kind: &[u8; 2], records: usize, dates: &[[u8; 6]]) -> Vec<u8> {
        let mut record = [b"NY", service, b"00", kind].concat();
        record.extend(format!("{:08}{records:08}{:017}", self.transactions, self.sum).bytes());
        dates.iter().for_each(|&date| record.extend(turned(date)));
        record.resize(RECORD - 1, b'0');
        record.push(b'\n');
        record
    }
}

/// Puts the end records into a draft, trusting all of it. A draft is any
/// number of whole records.
pub fn closed(draft: &[u8]) -> Vec<u8> {
    let records: Vec<&[u8]> = draft.chunks_exact(RECORD).collect();
    let start = usize::from(records.first().is_some_and(|record| kind(record) != *b"20"));
    let (before, rest) = records.split_at(start);
    let mut out = before.concat();
    for assignment in rest.chunk_by(|_, next| kind(next) != *b"20") {
        let figures = Figures::of(assignment);
        let first = figures.dates.first().copied().unwrap_or(*b"000000");
        let last = figures.dates.last().copied().unwrap_or(*b"000000");
        let service = &assignment[0][2..4];
        out.extend(assignment.concat());
        out.extend(figures.record(service, b"88", assignment.len() + 1, &[first, last]));
    }
    let figures = Figures::of(&records);
    let first = figures.dates.first().copied().unwrap_or(*b"000000");
    let records = out.len() / RECORD + 1;
    out.extend(figures.record(b"00", b"89", records, &[first]));
    out
}

/// The document's "One file whole", written out as it stands there.
pub fn whole() -> Vec<u8> {
    let zeros = |n| "0".repeat(n);
    let blanks = |n| " ".repeat(n);
    [
        format!("NY000010{}{}{}{}", "00012345", "0110001", "00008080", zeros(49)),
        format!("NY040020{}{}{}{}", "000000001", "0000001", "12345678903", zeros(45)),
        format!(
            "NY040230{}{}{}{}{}{}",
            "0000001",
            "011125",
            "12345678903",
            "00000000000080000",
            blanks(25),
            zeros(6)
        ),
        format!("NY040231{}{}{}{}", "0000001", "MAKRELL", blanks(53), zeros(5)),
        format!(
            "NY040088{}{}{}{}{}{}",
            "00000001",
            "00000004",
            "00000000000080000",
            "011125",
            "011125",
            zeros(27)
        ),
        format!(
            "NY000089{}{}{}{}{}",
            "00000001",
            "00000006",
            "00000000000080000",
            "011125",
            zeros(33)
        ),
    ]
    .map(|line| line + "\n")
    .concat()
    .into_bytes()
}

/// A file with every kind of record that document 01 has: 1 10, 2 20 (04), 3 30 (16), 4 31, 5 50, 6 50 (17),
/// 7 30 (04), 8 31, 9 40, 10 30 (03), 11 31, 12 40, 13 30 (12), 14 31, 15 88,
/// 16 20 (01), 17 30 (03), 18 31, 19 49, 20 49, 21 30 (02), 22 31, 23 88, 24 89.
pub fn every_kind() -> Vec<u8> {
    closed(&bytes(&[
        r10(),
        r20("04", 7, 1),
        r30("04", "16", 5, "011125", 70_000, ""),
        r31("04", "16", 5),
        r50("16", 5, 90_000),
        r50("17", 5, 20_000),
        r30("04", "04", 6, "311225", 100, ""),
        r31("04", "04", 6),
        r40("04", 6),
        r30("04", "03", 7, "010126", 200, ""),
        r31("04", "03", 7),
        r40("03", 7),
        r30("04", "12", 8, "021125", 300, "1234567"),
        r31("04", "12", 8),
        r20("01", 7, 2),
        r30("01", "03", 1, "151125", 400, ""),
        r31("01", "03", 1),
        r49(1, 1, 1),
        r49(1, 21, 2),
        r30("01", "02", 2, "011024", 500, "99"),
        r31("01", "02", 2),
    ]))
}

/// A file with second addresses and messages of service 04: 1 10, 2 20, 3 30 (03), 4 31, 5 40,
/// 6 41, 7 49, 8 49, 9 30 (04), 10 31, 11 40, 12 41, 13 49, 14 30 (03), 15 31, 16 40, 17 41,
/// 18 30 (04), 19 31, 20 40, 21 49, 22 30 (03), 23 31, 24 40, 25 49, 26 88, 27 89.
pub fn notified() -> Vec<u8> {
    let mut lines = vec![r10(), r20("04", 9, 1)];
    let codes = ["03", "04", "03", "04", "03"];
    for (number, code) in (1..).zip(codes) {
        lines.push(r30("04", code, number, "011125", 100, ""));
        lines.extend([r31("04", code, number), r40(code, number)]);
        if number <= 3 {
            lines.push(r41(code, number));
        }
        if number != 3 {
            lines.push(r49_04(code, number, 21, 2));
        }
        if number == 1 {
            lines.push(r49_04(code, number, 1, 1));
        }
    }
    closed(&bytes(&lines))
}

/// The 42 places of a message, each a line and a column.
pub fn every_place() -> Vec<(u32, u32)> {
    (1..=21).flat_map(|line| [(line, 1), (line, 2)]).collect()
}

/// A draft with a transaction for each message, which has a 49 of each of these lines and columns.
/// Service 04 has a 40 before them, a money order a 41 too.
pub fn messages(service: &str, code: &str, messages: &[Vec<(u32, u32)>]) -> Vec<u8> {
    let mut lines = vec![r10(), r20(service, 1, 1)];
    for (number, message) in (1..).zip(messages) {
        lines.push(r30(service, code, number, "011125", 100, ""));
        lines.push(r31(service, code, number));
        lines.extend((service == "04").then(|| r40(code, number)));
        lines.extend((code == "04").then(|| r41(code, number)));
        lines.extend(message.iter().map(|&(line, column)| match service {
            "04" => r49_04(code, number, line, column),
            _ => r49(number, line, column),
        }));
    }
    bytes(&lines)
}

/// The bytes with one field, from position to position, set to a text.
pub fn with(data: &[u8], record: usize, from: usize, text: &str) -> Vec<u8> {
    with_bytes(data, record, from, text.as_bytes())
}

pub fn with_bytes(data: &[u8], record: usize, from: usize, bytes: &[u8]) -> Vec<u8> {
    let mut data = data.to_vec();
    let at = (record - 1) * RECORD + from - 1;
    data[at..at + bytes.len()].copy_from_slice(bytes);
    data
}

/// A file of one assignment for each key, each with one transfer of that amount.
pub fn file_of(service: &str, keys: &[(u32, u32)], amount: u64) -> Vec<u8> {
    let mut lines = vec![r10()];
    for &(agreement, assignment) in keys {
        lines.push(r20(service, agreement, assignment));
        lines.extend(transfer(service, 1, "011125", amount));
    }
    closed(&bytes(&lines))
}

/// A file of one assignment with so many transfers of 1 øre.
pub fn long_file(key: u32, transactions: u32) -> Vec<u8> {
    let mut lines = vec![r10(), r20("04", 1, key)];
    for number in 1..=transactions {
        lines.extend(transfer("04", number, "011125", 1));
    }
    closed(&bytes(&lines))
}
