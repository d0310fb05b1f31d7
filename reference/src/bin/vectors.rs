//! Makes the outside vectors: keeps those for checking, makes those for
//! closing, joining, parting and making anew, and those on wide amounts behind
//! them, and answers every one of them.
//!
//! `vectors FOLDER`: the vectors lie in FOLDER/data, the lines in FOLDER/stdout.

use reference::cases::{Case, Operation};
use reference::records::*;
use reference::sample::{DAY, Plan, draft_and_file};
use reference::{Day, RECORD, till, vectors};
use std::path::Path;
use std::{fs, io};

fn close_on(day: Day, draft: &[u8], room: usize) -> Case {
    Case { rooms: [room, 0], ..Case::new(Operation::Close, day, draft.to_vec()) }
}

fn join_on(day: Day, first: &[u8], second: &[u8], room: usize) -> Case {
    let case = Case::new(Operation::Join, day, first.to_vec());
    Case { second: second.to_vec(), rooms: [room, 0], ..case }
}

fn part_on(day: Day, file: &[u8], k: u64, rooms: [usize; 2]) -> Case {
    Case { k, rooms, ..Case::new(Operation::Part, day, file.to_vec()) }
}

/// Closed into an output that is just long enough.
fn close(draft: &[u8]) -> Case {
    let starts = count(draft, b"20");
    close_on(DAY, draft, draft.len() + (starts + 1) * RECORD)
}

/// Joined into an output that is just long enough.
fn join(first: &[u8], second: &[u8]) -> Case {
    join_on(DAY, first, second, (first.len() + second.len()).saturating_sub(2 * RECORD))
}

/// How long the parts of a sound file are.
fn parts(file: &[u8], k: u64) -> [usize; 2] {
    let ends = (1..).zip(file.chunks(RECORD)).filter(|(_, record)| kind(record) == *b"88");
    let boundary = ends.map(|(index, _)| index).nth(k as usize - 1).expect("so many assignments");
    [(boundary + 1) * RECORD, (file.len() / RECORD - boundary + 1) * RECORD]
}

/// Parted into outputs that are just long enough.
fn part(file: &[u8], k: u64) -> Case {
    part_on(DAY, file, k, parts(file, k))
}

fn twin() -> Vec<u8> {
    with(&whole(), 2, 18, "0000002")
}

/// One transaction of each type.
fn every_type() -> Vec<u8> {
    let mut lines = vec![r10(), r20("04", 4, 4)];
    let types = ["01", "02", "03", "04", "12", "16", "18", "32", "37", "62", "65", "66"];
    for (number, code) in (1..).zip(types) {
        let date = format!("{number:02}1225");
        lines.push(r30("04", code, number, &date, 1000, if code == "12" { "42" } else { "" }));
        lines.push(r31("04", code, number));
        match code {
            "03" | "04" => lines.push(r40(code, number)),
            "16" => lines.extend([r50("16", number, 1500), r50("17", number, 500)]),
            _ => {}
        }
    }
    lines.push(r20("01", 4, 5));
    for (number, code) in (1..).zip(["02", "03"]) {
        lines.push(r30("01", code, number, "150126", 7, "0123456789"));
        lines.push(r31("01", code, number));
    }
    for place in 0..42 {
        lines.push(r49(2, place % 21 + 1, place / 21 + 1));
    }
    bytes(&lines)
}

/// A draft with these sub-specifications, and what follows them.
fn group(amount: u64, parts: &[(&str, u64)], behind: &[String]) -> Vec<u8> {
    let mut lines = vec![r10(), r20("04", 1, 1)];
    lines.push(r30("04", "16", 1, "011125", amount, ""));
    lines.push(r31("04", "16", 1));
    lines.extend(parts.iter().map(|(code, amount)| r50(code, 1, *amount)));
    lines.extend_from_slice(behind);
    bytes(&lines)
}

/// A draft of transfers with these amounts.
fn transfers(service: &str, amounts: &[u64]) -> Vec<u8> {
    let mut lines = vec![r10(), r20(service, 1, 1)];
    for (number, &amount) in (1..).zip(amounts) {
        lines.extend(transfer(service, number, "011125", amount));
    }
    bytes(&lines)
}

/// A draft with a claim in each of its assignments.
fn claims(amounts: &[u64]) -> Vec<u8> {
    let mut lines = vec![r10()];
    for (assignment, &amount) in (1..).zip(amounts) {
        lines.push(r20("01", 1, assignment));
        lines.extend(transfer("01", 1, "011125", amount));
    }
    bytes(&lines)
}

fn dated(assignment: u32, date: &str) -> Vec<u8> {
    let mut lines = vec![r10(), r20("04", 2, assignment)];
    lines.extend(transfer("04", 1, date, 5));
    closed(&bytes(&lines))
}

fn keys(from: u32, to: u32) -> Vec<(u32, u32)> {
    (from..to).map(|i| (i * 7919 % 1000, i)).collect()
}

fn sound(seed: u64, assignments: u32) -> (Vec<u8>, Vec<u8>) {
    let plan = Plan {
        seed,
        day: DAY,
        assignments,
        transactions: 1 + seed as u32 % 4,
        records: None,
        extras: 40,
        notices: 0,
        unplaced: 0,
        extremes: seed.is_multiple_of(2),
    };
    draft_and_file(plan)
}

/// Sound drafts, into outputs of every length.
fn sound_closings() -> Vec<Case> {
    let draft = draft(&whole());
    let rooms = [0, 1, 80, 81, 405, 485, 486, 487, 567, 1000];
    let mut cases: Vec<Case> = rooms.map(|room| close_on(DAY, &draft, room)).into();
    let kinds = reference::records::draft(&every_kind());
    for room in [1943, 1944, 1945, 9999] {
        cases.push(close_on(DAY, &kinds, room));
    }
    cases.extend([close(&every_type()), close(&claims(&[1, 2, 3, 4, 5]))]);
    for (seed, assignments) in [(1, 1), (2, 2), (3, 3), (4, 4), (5, 6), (6, 7), (8, 2), (10, 3)] {
        cases.push(close(&sound(seed, assignments).0));
    }
    // Dates by the calendar; limits; the longest that fits; a leap day.
    let dates = [("010126", 1), ("311225", 2), ("280226", 3)];
    let mut lines = vec![r10(), r20("04", 1, 1)];
    dates.iter().for_each(|(date, number)| lines.extend(transfer("04", *number, date, 1)));
    cases.push(close(&bytes(&lines)));
    cases.push(close(&transfers("04", &[9_999_999_999_998, 1])));
    cases.push(close(&transfers("01", &[MOST, 0])));
    cases.push(close(&claims(&[MOST - 5, 5])));
    cases.push(close(&group(5, &[("17", MOST - 5), ("16", MOST), ("16", 0)], &[])));
    cases.push(close(&reference::records::draft(&file_of("04", &keys(0, 490), 3))));
    let leap = with(&draft, 3, 16, "280225");
    cases.push(close_on((2024, 2, 29), &leap, 486));
    cases
}

/// Drafts that are refused, each for another reason.
fn refused_closings() -> Vec<Case> {
    let draft = draft(&whole());
    let kinds = reference::records::draft(&every_kind());
    // The kinds without end records: 15 is the second 20, 16 30 (03), 18 and 19
    // 49, 20 30 (02).
    let mut cases: Vec<Case> = [(2025, 2, 31), (2025, 0, 0), (2025, 13, 32), (2025, 2, 29)]
        .map(|day| close_on(day, &draft, 486))
        .into();
    cases.extend([&draft[..0], &draft[..80], &draft[..82], &draft[..323]].map(close));
    let fields: &[(usize, usize, &str)] = &[
        // 4, and 4 before 5.
        (1, 81, "\r"),
        (4, 81, "x"),
        (21, 81, "x"),
        // 5
        (1, 7, "20"),
        (2, 7, "30"),
        (3, 7, "49"),
        (4, 7, "32"),
        (5, 7, "30"),
        (9, 7, "88"),
        (15, 7, "89"),
        // 7
        (1, 1, "XX"),
        (1, 31, "1"),
        (2, 3, "02"),
        (3, 5, "05"),
        (5, 5, "18"),
        (18, 16, "2"),
        (18, 17, "022"),
        (19, 20, "3"),
        (14, 80, "1"),
        // 8
        (1, 16, "x"),
        (2, 18, " "),
        (4, 20, "\u{7f}"),
        (9, 46, "015 "),
        (9, 50, "1"),
        (5, 40, " "),
        (20, 50, "1"),
        (16, 22, "  1 3456789"),
        // 9 and 10
        (3, 16, "310425"),
        (7, 16, "021026"),
        (20, 16, "300924"),
        // 11
        (2, 35, "4"),
        (10, 22, "00000000060"),
        // 12
        (3, 3, "01"),
        (4, 5, "02"),
        (6, 15, "6"),
        (7, 15, "7"),
        (16, 9, "0000000"),
        // 13
        (3, 33, "00000000000000000"),
        (7, 33, "00000010000000000"),
        (10, 33, "00010000000000000"),
        // 14 at the next 30
        (6, 57, "1"),
        // 15, before 11
        (15, 18, "0000001"),
        // 17
        (19, 17, "0011"),
    ];
    for &(record, from, text) in fields {
        cases.push(close(&with(&kinds, record, from, text)));
    }
    // A file with its ends, or with one of them.
    cases.extend([close(&whole()), close(&every_kind()), close(&whole()[..405])]);
    // 6: cut behind 10, 20, 30, and where a 50 or a 40 has to follow.
    cases.extend([81, 162, 243].map(|length| close(&draft[..length])));
    cases.extend([close(&kinds[..4 * 81]), close(&kinds[..8 * 81])]);
    // 13 by sums.
    cases.push(close(&transfers("04", &[9_999_999_999_999, 1])));
    cases.push(close(&transfers("01", &[MOST, 0, 1])));
    cases.push(close(&claims(&[MOST - 5, 6])));
    cases.push(close(&group(5, &[("16", MOST), ("16", 1)], &[])));
    // 14 at the end, at the next 20; behind 5, before the fields.
    let next = r20("04", 2, 2);
    cases.push(close(&group(80_000, &[("16", 50_000), ("16", 40_000)], &[])));
    cases.push(close(&group(5, &[("17", 5)], std::slice::from_ref(&next))));
    cases.push(close(&group(5, &[("16", 4)], &[next.replace("20000", "31000")])));
    cases.push(close(&group(5, &[("16", 4)], &[next.replace("NY", "XX")])));
    // 500 and 501 assignments; the output is too short for either.
    for assignments in [500, 501] {
        let file = file_of("04", &keys(0, assignments), 3);
        cases.push(close_on(DAY, &reference::records::draft(&file), 160_000));
    }
    // 15 by the first of many; 15 before 11; 17 before 8; a fault before 19.
    let mut repeated = keys(0, 40);
    repeated[39] = repeated[0];
    cases.push(close(&reference::records::draft(&file_of("01", &repeated, 3))));
    cases.push(close(&with(&with(&kinds, 15, 18, "0000001"), 15, 35, "4")));
    cases.push(close(&with(&with(&kinds, 19, 17, "0011"), 19, 21, "\u{1}")));
    cases.push(close_on(DAY, &with(&kinds, 20, 80, "1"), 0));
    cases
}

/// A draft of one transaction with these records behind its 31.
fn behind(service: &str, code: &str, records: &[String]) -> Vec<u8> {
    let head = [r10(), r20(service, 1, 1), r30(service, code, 1, "011125", 100, "")];
    bytes(&[&head[..], &[r31(service, code, 1)], records].concat())
}

/// A 40 and a 49 for each of the 42 places.
fn all_places(code: &str) -> Vec<String> {
    let message = (0..42).map(|place| r49_04(code, 1, place / 2 + 1, place % 2 + 1));
    [r40(code, 1)].into_iter().chain(message).collect()
}

/// Drafts with second addresses and messages of service 04.
fn sound_notices() -> Vec<Case> {
    let of = |code: &str, more: &[String]| behind("04", code, &[&[r40(code, 1)], more].concat());
    // A 20 behind a 49 and behind a 41, the end behind a 49, a 41 and a 40.
    let (message, second) = (of("03", &[r49_04("03", 1, 9, 1)]), of("04", &[r41("04", 1)]));
    let two = with(&second, 2, 18, "0000002")[RECORD..].to_vec();
    let three = with(&second, 2, 18, "0000003")[RECORD..].to_vec();
    let notified = draft(&notified());
    let full = behind("04", "03", &all_places("03"));
    [notified, [message, two, three].concat(), of("04", &[]), full]
        .iter()
        .map(|draft| close(draft))
        .collect()
}

/// A draft for each record type that may not follow these records, and for one that is none.
fn misplaced(service: &str, code: &str, records: &[String], may: &[&str]) -> Vec<Vec<u8>> {
    let file = closed(&behind(service, code, &[]));
    let end = |at: usize| {
        String::from_utf8(file[at * RECORD..(at + 1) * RECORD - 1].to_vec()).expect("an end record")
    };
    let others = [
        r10(),
        r31(service, code, 1),
        r40(code, 1),
        r41(code, 1),
        r50("16", 1, 100),
        end(4),
        end(5),
        r31(service, code, 1).replacen("31", "48", 1),
    ];
    others
        .iter()
        .filter(|other| !may.contains(&&other[6..8]))
        .map(|other| {
            let other = other.replacen("NY04", &format!("NY{service}"), 1);
            behind(service, code, &[records, &[other]].concat())
        })
        .collect()
}

/// Drafts in which such a record is wrong, or may not stand.
fn refused_notices() -> Vec<Case> {
    // Straight behind a 31; then behind a 40, a 41 and a 49.
    let mut drafts =
        vec![behind("04", "03", &[r49_04("03", 1, 1, 1)]), behind("04", "04", &[r41("04", 1)])];
    drafts.extend(misplaced("04", "03", &[r40("03", 1)], &["20", "30", "41", "49"]));
    drafts.extend(misplaced("04", "04", &[r40("04", 1), r41("04", 1)], &["20", "30", "49"]));
    let message = r49_04("03", 1, 1, 1);
    drafts.extend(misplaced("04", "03", &[r40("03", 1), message], &["20", "30", "49"]));
    drafts.extend(misplaced("01", "03", &[r49(1, 1, 1)], &["20", "30", "49"]));
    let mut cases: Vec<Case> = drafts.iter().map(|draft| close(draft)).collect();
    let fields = [(6, 15, "2"), (7, 18, "2"), (8, 16, "0212"), (12, 78, "N")];
    let draft = draft(&notified());
    cases.extend(fields.map(|(record, from, text)| close(&with(&draft, record, from, text))));
    // A 43rd record behind a message of all places.
    let more = [all_places("04"), vec![r49_04("04", 1, 11, 2)]].concat();
    cases.push(close(&behind("04", "04", &more)));
    cases
}

/// Three files of one sender with second addresses and messages of service 04. The places of a
/// file's last message are in the next one's too. The second and third: 1 10, 2 20, 3 30, 4 31,
/// 5 40, 6 41, 7 and 8 49, 9 88, 10 89.
fn notified_files() -> [Vec<u8>; 3] {
    let file = |code: &str| {
        let message = [r49_04(code, 1, 21, 2), r49_04(code, 1, 1, 1)];
        closed(&behind("04", code, &[&[r40(code, 1), r41(code, 1)], &message[..]].concat()))
    };
    [notified(), file("04"), with(&file("03"), 2, 18, "0000002")]
}

/// The lines and columns of a full message: each line's column 1, and as many without a place.
fn mixed() -> Vec<(u32, u32)> {
    let without = |line: u32| [(line, 0), (0, 2), (0, 0)][line as usize % 3];
    (1..=21).flat_map(|line| [(line, 1), without(line)]).collect()
}

/// Drafts with messages without a place.
fn sound_messages(service: &str, code: &str) -> Vec<Vec<u8>> {
    let none = vec![(0, 0); 42];
    let drafts = [
        // What has no place cannot clash, and takes none.
        vec![vec![(0, 1), (0, 1)]],
        vec![vec![(1, 0), (1, 0)]],
        vec![vec![(0, 0), (0, 0)]],
        vec![vec![(0, 1), (1, 1), (1, 0), (1, 2), (0, 2), (21, 2), (21, 0), (21, 1)]],
        // 42: with a place, without, both.
        vec![every_place()],
        vec![none.clone()],
        vec![mixed()],
        // Anew in each transaction.
        vec![none.clone(), every_place(), none, mixed()],
    ];
    drafts.map(|draft| messages(service, code, &draft)).into()
}

/// Drafts in which the last piece of a message is refused.
fn refused_messages(service: &str, code: &str) -> Vec<Vec<u8>> {
    let of = |message: &[(u32, u32)]| messages(service, code, &[message.to_vec()]);
    let (places, none, mixed) = (every_place(), vec![(0, 0); 42], mixed());
    let over = |message: &[(u32, u32)], piece| of(&[message, &[piece]].concat());
    let line = if service == "04" { 16 } else { 17 };
    let mut drafts = vec![
        // The 43rd, whose place is taken or not; in the second transaction.
        over(&places, (0, 0)),
        over(&places, (11, 2)),
        over(&none, (0, 0)),
        over(&none, (21, 2)),
        over(&mixed, (7, 0)),
        over(&mixed, (5, 2)),
        over(&mixed, (5, 1)),
        messages(service, code, &[none.clone(), [&mixed[..], &[(0, 1)]].concat()]),
        // Its line and its column go before that.
        over(&none, (22, 0)),
        over(&mixed, (0, 3)),
        // One of the two is wrong, the other 0 or not.
        of(&[(22, 0)]),
        of(&[(0, 3)]),
        of(&[(21, 3)]),
        // A place stays taken.
        of(&[(1, 1), (0, 1), (1, 0), (1, 1)]),
    ];
    let fields = [
        // Blanks are no zeros.
        (of(&[(0, 0)]), line, "   0"),
        (of(&[(0, 0)]), line, "000 "),
        // The text and the filler of an unplaced one; of a 43rd, behind 23 and 17.
        (of(&[(0, 1)]), 59, "\u{1}"),
        (of(&[(1, 0)]), 80, "1"),
        (over(&none, (1, 1)), 59, "\u{1}"),
        (over(&places, (1, 0)), 80, "1"),
        (over(&mixed, (21, 1)), 59, "\u{1}"),
    ];
    drafts.extend(fields.map(|(draft, from, text)| with(&draft, draft.len() / RECORD, from, text)));
    drafts
}

/// Drafts with messages without a place, sound and refused, of both services.
fn message_drafts() -> Vec<Vec<u8>> {
    [
        sound_messages("01", "03"),
        sound_messages("04", "04"),
        refused_messages("01", "03"),
        refused_messages("04", "03"),
    ]
    .concat()
}

fn closings() -> Vec<Case> {
    let messages = message_drafts().iter().map(|draft| close(draft)).collect();
    [sound_closings(), refused_closings(), sound_notices(), refused_notices(), messages].concat()
}

/// Two files of one sender with messages without a place, one of each service.
fn unplaced_files() -> [Vec<u8>; 2] {
    let file = |service, code| closed(&messages(service, code, &[mixed(), vec![(0, 0); 42]]));
    [file("01", "03"), with(&file("04", "04"), 2, 18, "0000002")]
}

/// A file for each refusal that a check of this length can give.
fn refused_files() -> Vec<Vec<u8>> {
    let file = every_kind();
    let without = |record: usize| [&file[..(record - 1) * 81], &file[record * 81..]].concat();
    vec![
        file[..file.len() - 1].to_vec(),
        with(&file, 10, 81, "x"),
        without(4),
        without(24),
        with(&file, 20, 20, "3"),
        with(&file, 9, 46, "015 "),
        with(&file, 13, 16, "310225"),
        with(&file, 21, 16, "300924"),
        with(&file, 16, 35, "4"),
        with(&file, 22, 15, "9"),
        with(&file, 7, 33, "00000010000000000"),
        with(&file, 6, 57, "1"),
        with(&file, 16, 18, "0000001"),
        with(&file, 20, 17, "0011"),
        with(&file, 23, 41, "9"),
        with(&file, 24, 24, "5"),
        closed(&messages("04", "03", &[vec![(0, 0); 43]])),
    ]
}

fn sound_joinings() -> Vec<Case> {
    let (file, twin) = (whole(), twin());
    // Document 01's runs, into outputs of every length.
    let mut cases: Vec<Case> =
        [810, 0, 1, 809, 811, 2000].map(|room| join_on(DAY, &file, &twin, room)).into();
    cases.extend([join(&file, &file), join(&twin, &file), join(&twin, &twin)]);
    let kinds = every_kind();
    cases.extend([join(&kinds, &file), join(&file, &kinds)]);
    // The first file's record 10 stays.
    cases.push(join(&file, &with(&twin, 1, 17, "9999999")));
    cases.push(join(&with(&file, 1, 17, "0000000"), &twin));
    // The earlier first date, of the first or of the second.
    cases.push(join(&dated(1, "010126"), &dated(2, "311225")));
    cases.push(join(&dated(1, "311225"), &dated(2, "010126")));
    cases.push(join(&dated(1, "280226"), &dated(2, "280226")));
    // Three files, the one or the other two first.
    let third = with(&file, 2, 18, "0000003");
    let (left, right) = (joined(&file, &twin), joined(&twin, &third));
    cases.extend([join(&left, &third), join(&file, &right)]);
    for seed in 0..10 {
        let seed = 2 * seed + 1;
        let (first, second) = (sound(seed, 1 + seed as u32 % 5).1, sound(seed + 100, 2).1);
        cases.push(join(&first, &second));
    }
    // The sum at its limit, and the most assignments that fit.
    cases.push(join(&closed(&claims(&[MOST - 5])), &file_of("01", &[(2, 1)], 5)));
    cases.push(join(&file_of("04", &keys(0, 489), 1), &file_of("04", &[(5, 1)], 1)));
    // Second addresses and messages of service 04 in both.
    let [first, second, _] = notified_files();
    cases.push(join(&first, &second));
    // Messages without a place in both.
    let [first, second] = unplaced_files();
    cases.push(join(&first, &second));
    cases
}

/// The two put together by hand.
fn joined(first: &[u8], second: &[u8]) -> Vec<u8> {
    closed(&[draft(first), draft(second)[RECORD..].to_vec()].concat())
}

fn refused_joinings() -> Vec<Case> {
    let (file, twin) = (whole(), twin());
    let mut cases = vec![
        join_on((2025, 2, 30), &file, &twin, 810),
        join_on((2025, 0, 0), &[], &[], 0),
        join(&[], &[]),
        join(&[], &file),
        join(&file, &[]),
    ];
    // A fault of the first, of the second, of both.
    let faults = refused_files();
    cases.extend(faults.iter().map(|fault| join(fault, &file)));
    cases.extend(faults.iter().map(|fault| join(&file, fault)));
    cases.extend([join(&faults[15], &faults[0]), join(&faults[3], &faults[3])]);
    // Senders; they go behind the second file's faults and before a shared key.
    let other = with(&twin, 1, 16, "6");
    cases.extend([
        join(&file, &other),
        join(&other, &file),
        join(&file, &with(&other, 2, 24, "1")),
    ]);
    cases.push(join(&file, &with(&other, 5, 24, "9")));
    // Shared keys: the second's first such 20 counts.
    let of = |keys: &[(u32, u32)]| file_of("04", keys, 10);
    let three = of(&[(1, 1), (1, 2), (1, 3)]);
    cases.push(join(&three, &of(&[(9, 9), (1, 3), (1, 1)])));
    cases.push(join(&three, &of(&[(9, 9), (9, 8), (1, 1)])));
    cases.push(join(&three, &of(&[(1, 2), (9, 8), (9, 9)])));
    cases.push(join(&three, &of(&[(2, 1), (2, 2), (0, 3)])));
    cases.push(join(&three, &file_of("01", &[(3, 3), (1, 3)], 10)));
    cases.push(join_on(DAY, &three, &of(&[(1, 3)]), 0));
    // 500 assignments together are too long for the output, 501 too many; a
    // shared key before that, the sum behind it.
    let first = file_of("04", &keys(0, 250), 1);
    for (from, to) in [(250, 500), (250, 501), (249, 500)] {
        cases.push(join_on(DAY, &first, &file_of("04", &keys(from, to), 1), 160_000));
    }
    // The sum past its limit, before 19.
    let most = closed(&claims(&[MOST - 5]));
    for (amount, room) in [(6, 810), (6, 0), (5, 0), (MOST, 810)] {
        cases.push(join_on(DAY, &most, &file_of("01", &[(2, 1)], amount), room));
    }
    // A place twice in a message of service 04 of the second.
    let [first, second, _] = notified_files();
    cases.push(join(&first, &with(&second, 8, 16, "0212")));
    cases
}

fn partings() -> Vec<Case> {
    let pair = joined(&whole(), &twin());
    let mut cases = vec![part(&pair, 1)];
    // One short, both short, longer, nothing.
    for rooms in [[485, 486], [486, 485], [485, 485], [487, 486], [600, 900], [0, 486], [486, 0]] {
        cases.push(part_on(DAY, &pair, 1, rooms));
    }
    // No boundary; before 19.
    for (file, k) in [(&whole(), 0), (&whole(), 1), (&pair, 0), (&pair, 2), (&pair, 999_999)] {
        cases.push(part_on(DAY, file, k, [810, 810]));
        cases.push(part_on(DAY, file, k, [0, 0]));
    }
    // Every boundary.
    for (seed, assignments) in [(1, 5), (2, 6), (3, 3), (4, 4), (7, 2)] {
        let file = sound(seed, assignments).1;
        cases.extend((1..u64::from(assignments)).map(|k| part(&file, k)));
        let over = u64::from(assignments);
        cases.push(part_on(DAY, &file, over, [file.len(), file.len()]));
    }
    let kinds = every_kind();
    cases.extend([part(&kinds, 1), part_on(DAY, &kinds, 2, [2000, 2000])]);
    let long = file_of("04", &keys(0, 490), 7);
    cases.extend([1, 245, 489].map(|k| part(&long, k)));
    // The first date of each part.
    let dates = joined(&joined(&dated(1, "010126"), &dated(2, "311225")), &dated(3, "280226"));
    cases.extend([part(&dates, 1), part(&dates, 2)]);
    // Second addresses and messages of service 04 in each assignment; messages without a place.
    let [first, second, third] = notified_files();
    let notices = joined(&joined(&first, &second), &third);
    let [one, other] = unplaced_files();
    cases.extend([part(&notices, 1), part(&notices, 2), part(&joined(&one, &other), 1)]);
    // The check's refusals, before 21 and 19.
    cases.extend(refused_files().iter().map(|file| part_on(DAY, file, 1, [2000, 2000])));
    cases.push(part_on((2025, 11, 31), &pair, 1, [486, 486]));
    cases.push(part_on(DAY, &[], 0, [0, 0]));
    cases.push(part_on(DAY, &kinds[..81], 0, [0, 0]));
    cases.push(part_on((2024, 10, 31), &pair, 1, [486, 486]));
    cases
}

fn make_into(lines: &[u8], room: usize) -> Case {
    Case { rooms: [room, 0], ..Case::new(Operation::MakeDraft, DAY, lines.to_vec()) }
}

/// Made into an output that has room for a record of each line.
fn make(lines: impl AsRef<[u8]>) -> Case {
    let lines = lines.as_ref();
    let count = lines.split(|&byte| byte == b'\n').filter(|line| !line.is_empty()).count();
    make_into(lines, count * RECORD)
}

/// The lines of document 01's draft.
const WHOLE: &str = "10;12345;0110001\n\
    20;4;1;1;12345678903\n\
    30;4;2;1;011125;12345678903;80000;\n\
    31;4;2;1;MAKRELL;;\n";

fn sound_makings() -> Vec<Case> {
    // Document 01's draft, in the ways that lines may be written, into outputs of every length.
    let mut cases = vec![make(WHOLE)];
    cases.extend([500, 0, 80, 242].map(|room| make_into(WHOLE.as_bytes(), room)));
    cases.push(make(WHOLE.replace('\n', "\r\n")));
    cases.push(make(WHOLE.trim_end()));
    cases.push(make(format!("# till\n\n;;;\n{}\n#10;x", WHOLE.replace('\n', ";;;\r\n\r\n"))));
    let zeros = "0".repeat(21);
    cases.push(make(WHOLE.replace(";1;", &format!(";{zeros}1;"))));
    // Every kind of record, every type, and values by chance.
    cases.push(make(till::plain_lines(&draft(&every_kind()))));
    cases.push(make(till::plain_lines(&every_type())));
    let mut by_chance = sound(3, 5).0;
    by_chance.iter_mut().filter(|byte| **byte == b';').for_each(|byte| *byte = b',');
    cases.push(make(till::plain_lines(&by_chance)));
    // Values at their ends, and records that can stand nowhere; a line of each type.
    let (right, left) = (format!("{:>25}", "12"), format!("{:<25}", "34"));
    let (long, most) = ("7".repeat(25), MOST);
    cases.push(make("10;99999999;9999999\n20;1;999999999;9999999;0\n"));
    cases.push(make(format!(
        "30;1;2;0;010100;7;{most};{long}\n30;1;3;9999999;311299; 7;0;{right}\n\
         30;4;4;1;290296;12345678901;9999999999;\n30;4;12;1;290200;00000000000;0;{left}\n\
         30;4;16;1;300924;12345678903;1; \n30;4;66;1;011125;12345678903;{most};   \n"
    )));
    let letters: Vec<u8> = (160..=255).collect();
    let texts = [&letters[..10], &letters[10..35], b"!\"$%&'()*+,-./:<=>?@[~ a "].join(&b';');
    cases.push(make([b"31;1;2;0;", &texts[..], b"\n31;4;66;0; a;;\n"].concat()));
    cases.push(make(
        b"40;1;2;1;;;;\n40;4;3;1; a;1 2; 34;b\n40;4;4;1;K;0150;   ;K\n40;4;4;1;\xA0;0000;;.\n",
    ));
    cases.push(make("49;1;3;1;1;1;\n49;1;2;1;021;2;x\n49;4;66;1;21;2;;;"));
    cases.push(make(till::plain_lines(&draft(&notified()))));
    let texts = [&letters[35..65], &letters[65..95], b"SE "].join(&b';');
    cases.push(make(
        [b"41;4;3;9999999;", &texts[..], b"\n41;1;2;0; a;;9 \n41;4;66;1;;b;\n41;4;4;1;;; "]
            .concat(),
    ));
    cases.push(make(format!("50;4;16;1;{left};{most}\n50;1;17;0;{right};0\n50;4;17;1;5;1\n")));
    cases
}

/// Pieces of a message without a place. A place twice and a 43rd piece are closing's.
fn message_makings() -> Vec<Case> {
    let lines = |service, message| till::plain_lines(&messages(service, "03", &[message]));
    vec![
        make("49;1;3;1;0;0;\n49;1;3;1;000;1;\n49;1;2;1;1;0;x\n"),
        make("49;4;3;1;0;0;\n49;4;4;1;0;2;x\n49;4;66;1;021;0;\n"),
        make(lines("01", vec![(5, 1); 2])),
        make(lines("04", vec![(0, 0); 43])),
    ]
}

/// A line for each number and field that making a record of each type can refuse.
fn refused_makings() -> Vec<Case> {
    let (left, over) = (format!("{:<25}", "34"), MOST + 1);
    let blanks = |width| " ".repeat(width);
    let lines: Vec<String> = vec![
        // 10
        "10;100000000;1".into(),
        "10;0;10000000".into(),
        // 20
        "20;100;1;1;1".into(),
        "20;9;1000000000;99999999;1".into(),
        "20;4;1;1;100000000000".into(),
        "20;9;1;1;1".into(),
        "20;4;1;1;12345678901".into(),
        "20;1;1;1;60".into(),
        // 30
        "30;4;102;1;011125;12345678903;1;".into(),
        "30;9;2;1;1011125;12345678903;1;".into(),
        "30;4;2;1;011125; 12345678903;1;".into(),
        format!("30;4;2;1;011125;12345678903;{over};"),
        format!("30;9;9;1;999999;x;0;{}", blanks(26)),
        "30;2;2;1;011125;12345678903;1;".into(),
        "30;1;4;1;011125;12345678903;1;".into(),
        "30;4;2;1;290225;x;1;".into(),
        "30;4;2;1;011125;1234567890;1;".into(),
        "30;4;4;1;011125;1234567890;10000000000;".into(),
        "30;1;2;1;011125;7 ;1;".into(),
        "30;4;2;1;011125;12345678901;1;".into(),
        "30;1;2;1;011125;00000000067;1;".into(),
        "30;4;4;1;011125;12345678901;10000000000;1".into(),
        "30;4;16;1;011125;12345678903;0;1".into(),
        format!("30;1;2;1;011125;7;1;{left}"),
        "30;4;12;1;011125;12345678903;1;".into(),
        "30;4;2;1;011125;12345678903;1;34".into(),
        // 31
        "31;4;2;10000000;MAKRELL;;".into(),
        "31;9;2;1;MAKRELL    ;;".into(),
        format!("31;4;2;1;\u{1};;{}", blanks(26)),
        "31;0;2;1;\u{1};;".into(),
        "31;4;5;1;\u{1};;".into(),
        "31;4;2;1;\t;;".into(),
        "31;4;2;1;;;\u{7f}".into(),
        // 40
        "40;4;4;1;;01500;;".into(),
        format!("40;4;4;1;;;;{}", blanks(26)),
        "40;5;4;1;;;;".into(),
        "40;1;4;1;;;;".into(),
        "40;4;4;1; ;0150;;OSLO".into(),
        "40;4;4;1;K;015;;OSLO".into(),
        "40;4;3;1;K;015x;;OSLO".into(),
        "40;4;4;1;K;0150;1;OSLO".into(),
        "40;4;4;1;K;0150;;".into(),
        // 49
        "49;1;3;1;1000;0;".into(),
        format!("49;9;3;1;0;0;{}", blanks(41)),
        "49;3;3;1;0;0;\0".into(),
        "49;1;4;1;0;0;\0".into(),
        "49;1;3;1;0;0;\0".into(),
        "49;1;3;1;22;1;\0".into(),
        "49;1;3;1;1;0;\0".into(),
        "49;1;3;1;1;3;\0".into(),
        "49;1;3;1;1;2;\0".into(),
        "49;1;3;1;22;0;\0".into(),
        "49;1;3;1;0;3;\0".into(),
        "49;1;3;1;0;2;\0".into(),
        // 41
        "41;9;3;10000000;;;NORD".into(),
        format!("41;9;3;1;{};;", blanks(31)),
        format!("41;4;3;1;;{};NORD", blanks(31)),
        "41;9;9;1;\u{1};;NORD".into(),
        "41;5;3;1;\u{1};;".into(),
        "41;1;4;1;\u{1};;SE".into(),
        "41;4;4;1;\u{1};\u{1};SE".into(),
        "41;4;3;1;;\u{7f};\u{1}".into(),
        "41;4;3;1;;;\tSE".into(),
        "41;4;4;1;;;SE".into(),
        // 49 of service 04
        "49;4;9;1;1000;10;".into(),
        "49;4;9;1;0;10;".into(),
        format!("49;4;9;1;0;0;{}", blanks(41)),
        "49;4;5;1;0;0;\0".into(),
        "49;4;3;1;22;0;\0".into(),
        "49;4;4;1;21;3;\0".into(),
        "49;4;4;1;1;2;\0".into(),
        "49;4;3;1;0;3;\0".into(),
        "49;4;3;1;0;0;\0".into(),
        "49;4;4;1;0;1;\0".into(),
        "49;4;4;1;21;0;\0".into(),
        // 50
        format!("50;4;16;1;{};{over}", blanks(26)),
        format!("50;9;16;1;1;{over}"),
        "50;9;18;1;;1".into(),
        "50;4;2;1;;1".into(),
        "50;4;16;1;;1".into(),
        format!("50;1;16;1;{left};1"),
    ];
    let mut cases: Vec<Case> = lines.iter().map(make).collect();
    // A fault before a short output.
    cases.push(make_into(b"50;4;17;1;x;1", 80));
    cases
}

/// Lines that bear no record, or none that can be made.
fn refused_lines() -> Vec<Case> {
    let mut cases: Vec<Case> =
        ["", "# 10;1;1\n#", "\r\n;;;;\n\n"].map(|none| make_into(none.as_bytes(), 81)).into();
    let lines: &[&[u8]] = &[
        // No record type.
        b"88;1;1",
        b";10;1;1",
        b"10;1;1\n \n",
        b"1\x000;1;1",
        // Too few values, and too many.
        b"10;1",
        b"20",
        b"30;4;2;1;011125;12345678903;80000",
        b"31;x",
        b"41;4;3;1;A;B",
        b"49;4;3;1",
        b"49;9;3;1;1",
        b"10;1;1;;1",
        b"31;4;2;1;MAKRELL;;; ;",
        // No number.
        b"10;1a;2b",
        b"20;4;1;;12345678903",
        b"49;1;3;1;1;+1;",
        b"49;4;3;1;1;x;",
        b"50;4;16;1;1;1\x00",
        b"10;1;1\r\r",
        b"10;100000000;x",
        // Beyond 64 bits; wrapped they would be sound.
        b"10;18446744073709551616;1",
        b"50;4;16;1;1;99999999999999999999999999999999999999999",
        // Bytes of a text.
        b"31;4;2;1;MAK\x00ELL;;",
        b"31;4;2;1;;\r;",
    ];
    cases.extend(lines.iter().map(make));
    // The first refused line ends it; what was made before stays.
    cases.push(make(WHOLE.replace("12345678903;80000", "12345678901;80000")));
    cases.push(make(format!("\r\n#\n{}40;4;2;1;;;;\n\n30;\n41;\n", WHOLE)));
    cases
}

fn makings() -> Vec<Case> {
    [sound_makings(), message_makings(), refused_makings(), refused_lines()].concat()
}

/// A file whose fields of 17 places hold this amount, or 5 more: 1 10, 2 20 (04), 3 30 (16), 4 31,
/// 5 50, 6 50 (17), 7 88, 8 20 (01), 9 30, 10 31, 11 88, 12 89. Only 3 and 7 hold 5.
fn wide(amount: u64) -> Vec<u8> {
    let [first, second] = transfer("01", 1, "011125", amount);
    let behind = [r20("01", 1, 2), first, second];
    closed(&group(5, &[("16", amount + 5), ("17", amount)], &behind))
}

/// Amounts of mostly zeros, and of none.
const FEW_DIGITS: u64 = 80_000;
const ALL_DIGITS: u64 = 12_345_678_987_654_321;

/// Where such a file has its wide fields, each a record and a position: 30, 50, 88, 89.
const WIDE_FIELDS: [(usize, usize); 4] = [(9, 33), (5, 41), (11, 25), (12, 25)];

/// The neighbours of the digits, bytes whose lower half is a digit's, and signs.
const NO_DIGITS: &[u8; 9] = b"/: A\x00\xB0\xB9+-";

/// A byte that is no digit at each place of each wide field, among zeros and digits by turns.
fn no_digits() -> Vec<Vec<u8>> {
    let files = [wide(FEW_DIGITS), wide(ALL_DIGITS)];
    let mut damaged = vec![];
    for (row, (record, from)) in (0..).zip(WIDE_FIELDS) {
        for place in 0..17 {
            let (file, byte) = (&files[(row + place) % 2], NO_DIGITS[(2 * row + place) % 9]);
            damaged.push(with_bytes(file, record, from + place, &[byte]));
        }
    }
    damaged
}

/// Two such bytes, one in the first nine places and one in the last eight. Reckoned with as
/// digits, `/:` is 00; two high bits eight places apart could put each other out.
fn two_no_digits() -> Vec<Vec<u8>> {
    let pairs = [
        [(8, b'/'), (9, b':')],
        [(1, 0xB0), (9, 0xB0)],
        [(8, 0xB9), (16, 0xB9)],
        [(0, b' '), (10, 0x00)],
    ];
    let mut damaged = vec![];
    for ((record, from), pair) in WIDE_FIELDS.into_iter().zip(pairs) {
        let mut file = wide(FEW_DIGITS);
        for (place, byte) in pair {
            file = with_bytes(&file, record, from + place, &[byte]);
        }
        damaged.push(file);
    }
    damaged
}

/// A 30 with a fault in its amount and one in another field: the lower number's is told.
fn amounts_in_order() -> Vec<Vec<u8>> {
    let both = |file: &[u8], record, amount: &str, (from, text): (usize, &str)| {
        with(&with(file, record, 33, amount), record, from, text)
    };
    // Fields 5, 6 and 7, each with every number it can be refused with; 9 and 10.
    let fields = [
        (9, "000000x"),
        (9, "0000000"),
        (16, "01 125"),
        (16, "310425"),
        (16, "021026"),
        (22, "1234567890x"),
        (22, "12345678901"),
        (74, "1"),
        (80, "1"),
    ];
    // No digits; past the assignment's limit.
    let amounts = ["000000:0000080000", "00010000000000000"];
    let of_amount = |amount| fields.map(|field| both(&whole(), 3, amount, field));
    let mut damaged = amounts.map(of_amount).concat();
    // Past the own limit of type 04, whose field 7 is no account.
    let fields = [(15, "7"), (16, "310425"), (22, "1234567890x"), (74, "1"), (80, "1")];
    let own = |field| both(&every_kind(), 7, "00000010000000000", field);
    damaged.extend(fields.map(own));
    damaged
}

/// Drafts with amounts of every width, and of nines about eight digits. Those past the limit of
/// service 04 stand in service 01 too.
fn every_width() -> Vec<Vec<u8>> {
    let powers = (0..17).map(|zeros| 10u64.pow(zeros));
    let nines = [99_999_999, 999_999_999, 9_999_999_999_999_999];
    let (amounts, most): (Vec<u64>, _) = (powers.chain(nines).collect(), 90_000_000_000_000_000);
    let all = || amounts.iter().copied().chain([most]);
    let mut drafts: Vec<Vec<u8>> = all().map(|amount| transfers("04", &[amount])).collect();
    let over = all().filter(|&amount| amount > 9_999_999_999_999);
    drafts.extend(over.map(|amount| transfers("01", &[amount])));
    // The same amounts in records 50. One misread is not made good by another.
    let mut parts: Vec<(&str, u64)> = amounts.iter().map(|&amount| ("16", amount)).collect();
    parts.push(("17", amounts.iter().sum::<u64>() - 5));
    drafts.push(group(5, &parts, &[]));
    drafts.push(group(5, &[("16", most), ("17", most - 5)], &[]));
    // The files that are damaged above.
    drafts.extend([draft(&wide(FEW_DIGITS)), draft(&wide(ALL_DIGITS))]);
    drafts
}

fn wide_checkings() -> Vec<Case> {
    let widths = every_width().iter().map(|draft| closed(draft)).collect();
    [no_digits(), two_no_digits(), amounts_in_order(), widths]
        .concat()
        .into_iter()
        .map(|file| Case::new(Operation::Check, DAY, file))
        .collect()
}

fn wide_closings() -> Vec<Case> {
    every_width().iter().map(|draft| close(draft)).collect()
}

/// A name has four digits.
const NAMES: usize = 10_000;

fn name(index: usize) -> String {
    format!("v{index:04}")
}

/// Writes a file, unless it is there just so: a file that did not change does
/// not get newer than what is made of the crates.
fn put(path: &Path, bytes: &[u8]) -> io::Result<()> {
    let is_there = fs::read(path).is_ok_and(|there| there == bytes);
    if is_there { Ok(()) } else { fs::write(path, bytes) }
}

fn main() -> io::Result<()> {
    let folder = std::env::args().nth(1).expect("vectors FOLDER");
    let (data, stdout) = (Path::new(&folder).join("data"), Path::new(&folder).join("stdout"));
    let is_kept = |index: usize| {
        fs::read(data.join(name(index))).is_ok_and(|vector| vector.starts_with(b"check "))
    };
    let kept = (0..NAMES).take_while(|&index| is_kept(index)).count();

    let groups = [
        ("close", closings()),
        ("join", [sound_joinings(), refused_joinings()].concat()),
        ("part", partings()),
        ("make", makings()),
        ("check", wide_checkings()),
        ("close", wide_closings()),
    ];
    println!("{kept} check vectors kept");
    let mut index = kept;
    for (operation, cases) in groups {
        println!("{} {operation} vectors made, {} on", cases.len(), name(index));
        for case in cases {
            put(&data.join(name(index)), &vectors::written(&case))?;
            index += 1;
        }
    }
    assert!(index <= NAMES, "a name has four digits");
    (index..NAMES).for_each(|index| drop(fs::remove_file(data.join(name(index)))));

    let mut lines = String::new();
    for index in 0..index {
        let vector = fs::read(data.join(name(index)))?;
        let answer = vectors::read(&vector).map_or("no vector".into(), |case| vectors::line(&case));
        lines += &format!("{} {answer}\n", name(index));
    }
    put(&stdout, lines.as_bytes())
}
