//! Faults put into files on purpose.

use crate::RECORD;
use crate::random::Random;
use crate::records::kind;
use crate::sample::place;

/// Bytes that are likely to matter.
const BYTES: &[u8] = b"0123456789 NYx-\n\r\t\x7f\x80\x9f\xa0\xff\x00\x1f/:";

const KINDS: &[[u8; 2]] = &[
    *b"10", *b"20", *b"30", *b"31", *b"40", *b"41", *b"49", *b"50", *b"88", *b"89", *b"00", *b"32",
    *b"42", *b"  ", *b"3 ", *b"8x",
];

const CODES: &[[u8; 2]] = &[
    *b"00", *b"01", *b"02", *b"03", *b"04", *b"05", *b"12", *b"16", *b"17", *b"18", *b"32", *b"37",
    *b"62", *b"65", *b"66", *b"67", *b"99", *b"  ", *b"0x",
];

/// Where the fields of a record lie: first and last position of each, field 1
/// first. A record of no type has one field.
fn fields(record: &[u8]) -> &'static [(usize, usize)] {
    match &kind(record) {
        b"10" => &[(1, 2), (3, 4), (5, 6), (7, 8), (9, 16), (17, 23), (24, 31), (32, 80)],
        b"20" => &[(1, 2), (3, 4), (5, 6), (7, 8), (9, 17), (18, 24), (25, 35), (36, 80)],
        b"30" => &[
            (1, 2),
            (3, 4),
            (5, 6),
            (7, 8),
            (9, 15),
            (16, 21),
            (22, 32),
            (33, 49),
            (50, 74),
            (75, 80),
        ],
        b"31" => &[(1, 2), (3, 4), (5, 6), (7, 8), (9, 15), (16, 25), (26, 50), (51, 75), (76, 80)],
        b"40" => &[
            (1, 2),
            (3, 4),
            (5, 6),
            (7, 8),
            (9, 15),
            (16, 45),
            (46, 49),
            (50, 52),
            (53, 77),
            (78, 80),
        ],
        b"41" => &[(1, 2), (3, 4), (5, 6), (7, 8), (9, 15), (16, 45), (46, 75), (76, 78), (79, 80)],
        b"49" if record[2..4] == *b"04" => {
            &[(1, 2), (3, 4), (5, 6), (7, 8), (9, 15), (16, 18), (19, 19), (20, 59), (60, 80)]
        }
        b"49" => &[
            (1, 2),
            (3, 4),
            (5, 6),
            (7, 8),
            (9, 15),
            (16, 16),
            (17, 19),
            (20, 20),
            (21, 60),
            (61, 80),
        ],
        b"50" => &[(1, 2), (3, 4), (5, 6), (7, 8), (9, 15), (16, 40), (41, 57), (58, 80)],
        b"88" => &[
            (1, 2),
            (3, 4),
            (5, 6),
            (7, 8),
            (9, 16),
            (17, 24),
            (25, 41),
            (42, 47),
            (48, 53),
            (54, 80),
        ],
        b"89" => &[(1, 2), (3, 4), (5, 6), (7, 8), (9, 16), (17, 24), (25, 41), (42, 47), (48, 80)],
        _ => &[(1, 80)],
    }
}

/// A value that fits a field of this width and may be a fault there: codes,
/// dates, accounts, references, amounts at the limits, KIDs.
fn likely_value(random: &mut Random, width: usize) -> Vec<u8> {
    let text = match width {
        2 => return random.pick(CODES).to_vec(),
        3 => random.pick(&["000", "001", "021", "022", "999", " 01", "1 2", "   "]).to_string(),
        6 => random
            .pick(&[
                "290225", "290224", "300225", "310425", "311225", "010126", "010100", "311299",
                "000125", "010025", "011325", "320125", "0a0125", "      ", "011026", "021026",
                "300924", "011024",
            ])
            .to_string(),
        7 | 8 => format!("{:0width$}", random.pick(&[0u32, 1, 2, 3, 9_999_999, 1_000_000])),
        11 => random
            .pick(&[
                "12345678903",
                "12345678901",
                "00000000000",
                "00000000060",
                "00000000061",
                "          1",
                " 1234567890",
                "1          ",
                "     1 2345",
                "           ",
                "1234567890x",
                "         0x",
            ])
            .to_string(),
        17 => {
            let amounts = [
                0u64,
                1,
                9_999_999_999,
                10_000_000_000,
                9_999_999_999_999,
                10_000_000_000_000,
                99_999_999_999_999_998,
                99_999_999_999_999_999,
            ];
            format!("{:017}", random.pick(&amounts))
        }
        25 => {
            let (length, from) = (random.index(26), random.index(26));
            let digits = random.digits(length);
            let text = format!("{}{digits}{}", " ".repeat(from), " ".repeat(25));
            text[..25].to_string()
        }
        _ => random.digits(width),
    };
    text.into_bytes()
}

/// Counts the digits of a field up or down by one.
fn count_on(field: &mut [u8], up: bool) {
    let (end, next) = if up { (b'9', b'0') } else { (b'0', b'9') };
    for byte in field.iter_mut().rev() {
        if *byte == end {
            *byte = next;
        } else {
            *byte = if up { byte.wrapping_add(1) } else { byte.wrapping_sub(1) };
            return;
        }
    }
}

fn damage_field(random: &mut Random, field: &mut [u8]) {
    match random.below(12) {
        0..=3 => {
            let at = random.index(field.len());
            field[at] = if random.percent(80) { random.pick(BYTES) } else { random.draw() as u8 };
        }
        4..=6 => {
            let value = likely_value(random, field.len());
            field.copy_from_slice(&value);
        }
        7 | 8 => count_on(field, random.percent(50)),
        9 => field.fill(random.pick(b"0 9")),
        10 => field.copy_from_slice(random.digits(field.len()).as_bytes()),
        _ => field.iter_mut().for_each(|byte| *byte = random.draw() as u8),
    }
}

/// Damages one field of this record.
fn damage_record(random: &mut Random, record: &mut [u8]) {
    if random.percent(3) {
        record[RECORD - 1] = random.pick(BYTES);
        return;
    }
    let (from, to) = random.pick(fields(record));
    damage_field(random, &mut record[from - 1..to]);
}

/// Puts a byte that is no letter into a field, or in the place of the line feed: wrong wherever
/// it stands.
fn spoil(random: &mut Random, record: &mut [u8]) {
    let fields = fields(record);
    let (from, to) = *fields.get(random.index(fields.len() + 1)).unwrap_or(&(RECORD, RECORD));
    record[from - 1 + random.index(to + 1 - from)] = random.pick(b"\x00\x1f\x7f\x80\x9f");
}

/// Whether this is a 41, or a 49 of service 04.
fn is_notice(record: &[u8]) -> bool {
    matches!((&record[2..4], &record[6..8]), (_, b"41") | (b"04", b"49"))
}

/// Where a record begins: any, or one of those that may stand behind a 40.
fn some_record(random: &mut Random, data: &[u8]) -> usize {
    let any = random.index(data.len() / RECORD) * RECORD;
    if random.percent(60) {
        return any;
    }
    let starts = (0..data.len() / RECORD).map(|index| index * RECORD);
    let notices: Vec<usize> = starts.filter(|&at| is_notice(&data[at..])).collect();
    if notices.is_empty() { any } else { random.pick(&notices) }
}

/// Copies a field from another record of the same type, where there is one.
fn copy_field(random: &mut Random, data: &mut [u8], record: usize) {
    let wanted = kind(&data[record..]);
    let alike: Vec<usize> = (0..data.len() / RECORD)
        .map(|index| index * RECORD)
        .filter(|&at| kind(&data[at..]) == wanted)
        .collect();
    let (from, to) = random.pick(fields(&data[record..]));
    let other = random.pick(&alike);
    data.copy_within(other + from - 1..other + to, record + from - 1);
    // An assignment's key is two fields.
    if wanted == *b"20" && random.percent(60) {
        data.copy_within(other + 8..other + 24, record + 8);
    }
}

/// Sets the field from one position on.
fn set(data: &mut [u8], record: usize, from: usize, text: &str) {
    data[record + from - 1..][..text.len()].copy_from_slice(text.as_bytes());
}

/// A fault that only shows beside other records or at a limit; the form stays.
fn damage_meaning(random: &mut Random, data: &mut [u8], record: usize) {
    match &kind(&data[record..]) {
        b"30" => match random.below(6) {
            0 | 1 => {
                let (day, month, year) =
                    (1 + random.below(31), 1 + random.below(12), random.below(100));
                set(data, record, 16, &format!("{day:02}{month:02}{year:02}"));
            }
            2 => count_on(&mut data[record + 21..record + 32], true),
            3 => count_on(&mut data[record + 8..record + 15], random.percent(50)),
            4 => count_on(&mut data[record + 32..record + 49], random.percent(50)),
            _ => {
                let amount = likely_value(random, 17);
                data[record + 32..record + 49].copy_from_slice(&amount);
            }
        },
        b"49" => {
            let from = line_of(&data[record..]);
            let any = random.below(24);
            let line = random.pick(&[any, any, 0, 21, 22]);
            set(data, record, from, &format!("{line:03}{}", random.below(4)));
            let neighbour = record.saturating_sub(RECORD);
            if random.percent(60) && kind(&data[neighbour..]) == *b"49" {
                data.copy_within(neighbour + from - 1..neighbour + from + 3, record + from - 1);
            }
        }
        b"41" => {
            let (from, to) = random.pick(&[(16, 45), (46, 75), (76, 78), (76, 78)]);
            data[record + from - 1..record + to].fill(random.pick(b" 0\xa0\x7f"));
        }
        b"50" => match random.below(4) {
            0 => set(data, record, 5, random.pick(&["16", "17"])),
            1 => count_on(&mut data[record + 40..record + 57], random.percent(50)),
            _ => {
                let amount = likely_value(random, 17);
                data[record + 40..record + 57].copy_from_slice(&amount);
            }
        },
        b"40" => {
            let (from, to) = random.pick(&[(16, 45), (46, 49), (50, 52), (53, 77)]);
            data[record + from - 1..record + to].fill(random.pick(b" 0\xa0"));
        }
        _ => copy_field(random, data, record),
    }
}

/// Damages the data in one way; nothing at all can be left of it.
pub fn damage(random: &mut Random, data: &mut Vec<u8>) {
    let records = data.len() / RECORD;
    if records == 0 {
        return;
    }
    let record = some_record(random, data);
    match random.below(36) {
        24..=31 => damage_meaning(random, data, record),
        32..=35 => spoil(random, &mut data[record..record + RECORD]),
        0..=9 => damage_record(random, &mut data[record..record + RECORD]),
        10 | 11 => {
            // Two faults in one record.
            damage_record(random, &mut data[record..record + RECORD]);
            damage_record(random, &mut data[record..record + RECORD]);
        }
        12 | 13 => copy_field(random, data, record),
        14 => data[record + 6..record + 8].copy_from_slice(&random.pick(KINDS)),
        15 => data[record + 4..record + 6].copy_from_slice(&random.pick(CODES)),
        16 => data[record + 2..record + 4].copy_from_slice(&random.pick(&[*b"01", *b"04", *b"00"])),
        17 => {
            data.drain(record..record + RECORD);
        }
        18 => {
            let copy = data[record..record + RECORD].to_vec();
            let at = random.index(records + 1) * RECORD;
            data.splice(at..at, copy);
        }
        19 => {
            let other = random.index(records) * RECORD;
            for i in 0..RECORD {
                data.swap(record + i, other + i);
            }
        }
        20 => data.truncate(record + RECORD),
        21 => {
            let copy = data[record..record + RECORD].to_vec();
            data.splice(record..record, copy);
        }
        22 => change_type(random, data, record),
        _ if random.percent(50) => data.truncate(random.index(data.len() + 1)),
        _ => {
            let length = 1 + random.index(100);
            data.extend(random.digits(length).bytes());
        }
    }
}

/// Where the line of a 49 begins, by the layout of its service. The column is behind it.
fn line_of(record: &[u8]) -> usize {
    if record[2..4] == *b"04" { 16 } else { 17 }
}

/// Makes a message, where there is one, of about as many pieces as it may have: all placed,
/// some, or none. The last may be spoiled too.
pub fn crowd(random: &mut Random, data: &mut Vec<u8>) {
    let is_piece = |record: &&[u8]| kind(record) == *b"49";
    let records: Vec<&[u8]> = data.chunks_exact(RECORD).collect();
    let begins = |at: &usize| is_piece(&records[*at]) && !is_piece(&records[at - 1]);
    let messages: Vec<usize> = (1..records.len()).filter(begins).collect();
    if messages.is_empty() {
        return;
    }
    let from = random.pick(&messages);
    let to = from + records[from..].iter().take_while(|&record| is_piece(record)).count();
    let pieces = random.pick(&[41, 42, 42, 43, 43, 43, 43, 43, 43, 44]);
    let (first, unplaced) = (random.below(42), random.pick(&[0, 20, 50, 80, 100]));
    let mut message = records[from].repeat(pieces);
    for (piece, at) in message.chunks_exact_mut(RECORD).zip((first..).step_by(5)) {
        set(piece, 0, line_of(piece), &place(random, at, unplaced));
    }
    if random.percent(20) {
        spoil(random, &mut message[(pieces - 1) * RECORD..]);
    }
    data.splice(from * RECORD..to * RECORD, message);
}

/// Changes the type of a whole transaction, so that what must repeat it does.
fn change_type(random: &mut Random, data: &mut [u8], record: usize) {
    let code = random.pick(CODES);
    let number = data[record + 8..record + 15].to_vec();
    for other in data[record..].chunks_exact_mut(RECORD) {
        if other[8..15] != number || !matches!(&other[6..8], b"30" | b"31" | b"40" | b"41" | b"49")
        {
            break;
        }
        other[4..6].copy_from_slice(&code);
    }
}
