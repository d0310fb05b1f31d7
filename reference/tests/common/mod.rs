//! Both variants asked at once.
#![allow(dead_code, unused_imports)]

pub use reference::records::*;
use reference::{Accepted, Day, Parted, Parting, RECORD, Refused, Variant, Verdict, Writing};

pub const DAY: Day = (2025, 10, 1);

pub fn refused(number: u8, record: u32, field: u8) -> Refused {
    Refused { number, operand: 0, record, field }
}

pub fn of_operand(operand: u8, number: u8, record: u32, field: u8) -> Refused {
    Refused { number, operand, record, field }
}

pub fn accepted(
    assignments: u32,
    transactions: u32,
    records: u32,
    sum: u64,
    first_date: u32,
) -> Accepted {
    Accepted { assignments, transactions, records, sum, first_date }
}

/// Both variants' answer, which must be one.
pub fn check_on(day: Day, data: &[u8]) -> Verdict {
    let plain = reference::check(day, data);
    assert_eq!(plain, reference::fast::check(day, data));
    plain
}

pub fn check(data: &[u8]) -> Verdict {
    check_on(DAY, data)
}

/// What outputs are filled with. No file ends with it.
pub const FILLER: u8 = 0xEE;

/// How many bytes of an output are written: all up to the last that changed.
pub fn written(out: &[u8]) -> usize {
    out.iter().rposition(|&byte| byte != FILLER).map_or(0, |last| last + 1)
}

/// The verdict on a written file, whose bytes are told as they are, and which
/// is as long as its records. A refusal changes nothing.
fn verdict(writing: Writing, out: &[u8]) -> Verdict {
    assert_eq!(writing.map_or(0, |file| file.bytes), written(out));
    writing.map(|file| {
        assert_eq!(file.bytes, file.figures.records as usize * RECORD);
        file.figures
    })
}

/// What closing answers and the output it leaves, of this room.
pub fn close_on(day: Day, draft: &[u8], room: usize) -> (Verdict, Vec<u8>) {
    let [plain, fast] = [Variant::PLAIN, Variant::FAST].map(|variant| {
        let mut out = vec![FILLER; room];
        ((variant.close)(day, draft, &mut out), out)
    });
    assert!(plain == fast, "{:?} {:?}", plain.0, fast.0);
    let (writing, out) = plain;
    (verdict(writing, &out), out)
}

pub fn close(draft: &[u8], room: usize) -> (Verdict, Vec<u8>) {
    close_on(DAY, draft, room)
}

pub fn join_on(day: Day, a: &[u8], b: &[u8], room: usize) -> (Verdict, Vec<u8>) {
    let [plain, fast] = [Variant::PLAIN, Variant::FAST].map(|variant| {
        let mut out = vec![FILLER; room];
        ((variant.join)(day, a, b, &mut out), out)
    });
    assert!(plain == fast, "{:?} {:?}", plain.0, fast.0);
    let (writing, out) = plain;
    (verdict(writing, &out), out)
}

pub fn join(a: &[u8], b: &[u8], room: usize) -> (Verdict, Vec<u8>) {
    join_on(DAY, a, b, room)
}

pub fn part(data: &[u8], k: u64, rooms: [usize; 2]) -> (Parting, [Vec<u8>; 2]) {
    let [plain, fast] = [Variant::PLAIN, Variant::FAST].map(|variant| {
        let [mut out1, mut out2] = rooms.map(|room| vec![FILLER; room]);
        ((variant.part)(DAY, data, k, &mut out1, &mut out2), [out1, out2])
    });
    assert!(plain == fast, "{:?} {:?}", plain.0, fast.0);
    let (parting, outs) = plain;
    let Parted { first, second } = parting.unwrap_or(Parted { first: 0, second: 0 });
    assert_eq!([first, second], [written(&outs[0]), written(&outs[1])]);
    (parting, outs)
}

/// What checking says of a draft with its end records, and closing of the draft: the same, since
/// a draft of one assignment has the same numbers of records.
pub fn judged(draft: &[u8]) -> Verdict {
    let file = closed(draft);
    let verdict = check(&file);
    let (closing, out) = close(draft, file.len());
    assert_eq!(closing, verdict);
    assert!(verdict.is_err() || out == file);
    verdict
}

/// The number and the field of a refusal, which is of this record.
pub fn fault(draft: &[u8], record: usize) -> Option<(u8, u8)> {
    judged(draft).err().map(|refused| {
        assert_eq!(refused.record as usize, record);
        (refused.number, refused.field)
    })
}
