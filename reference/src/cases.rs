//! Cases by chance: what an operation is asked, sound or damaged. The same
//! seed and index make the same case on every machine.

use crate::answer::{self, Answer};
use crate::damage::{crowd, damage};
use crate::make::{Values, make, make_draft};
use crate::random::Random;
use crate::records::{self, closed, count, file_of, long_file};
use crate::sample::{DAY, Plan, days, sound_draft};
use crate::till;
use crate::{Day, RECORD, Variant};

#[derive(Clone, Copy, Debug, PartialEq, Eq)]
pub enum Operation {
    Check,
    Close,
    Join,
    Part,
    Make10,
    Make20,
    Make30,
    Make31,
    Make40,
    Make41,
    Make49,
    Make50,
    /// No operation of its own: the records of lines, each made by one of the eight.
    MakeDraft,
}

impl Operation {
    pub const ALL: [Self; 13] = [
        Self::Check,
        Self::Close,
        Self::Join,
        Self::Part,
        Self::Make10,
        Self::Make20,
        Self::Make30,
        Self::Make31,
        Self::Make40,
        Self::Make41,
        Self::Make49,
        Self::Make50,
        Self::MakeDraft,
    ];

    pub fn name(self) -> &'static str {
        match self {
            Self::Check => "check",
            Self::Close => "close",
            Self::Join => "join",
            Self::Part => "part",
            Self::Make10 => "make10",
            Self::Make20 => "make20",
            Self::Make30 => "make30",
            Self::Make31 => "make31",
            Self::Make40 => "make40",
            Self::Make41 => "make41",
            Self::Make49 => "make49",
            Self::Make50 => "make50",
            Self::MakeDraft => "make",
        }
    }

    /// Of which record type the operation makes a record.
    fn makes(self) -> Option<&'static [u8; 2]> {
        match self {
            Self::Make10 => Some(b"10"),
            Self::Make20 => Some(b"20"),
            Self::Make30 => Some(b"30"),
            Self::Make31 => Some(b"31"),
            Self::Make40 => Some(b"40"),
            Self::Make41 => Some(b"41"),
            Self::Make49 => Some(b"49"),
            Self::Make50 => Some(b"50"),
            _ => None,
        }
    }

    fn is_making(self) -> bool {
        self.makes().is_some() || self == Self::MakeDraft
    }
}

/// One question to an operation. What an operation does not ask for is empty or 0.
#[derive(Clone)]
pub struct Case {
    pub operation: Operation,
    pub day: Day,
    /// Of making a draft: the lines.
    pub first: Vec<u8>,
    /// Of making a draft: what has to come out, and to be closed on that day; empty if nothing
    /// is foretold.
    pub second: Vec<u8>,
    pub k: u64,
    /// The lengths of the lent outputs.
    pub rooms: [usize; 2],
    /// What a record is made of.
    pub numbers: Vec<u64>,
    pub texts: Vec<Vec<u8>>,
}

impl Case {
    pub fn new(operation: Operation, day: Day, first: Vec<u8>) -> Self {
        let (second, numbers, texts) = (Vec::new(), Vec::new(), Vec::new());
        Self { operation, day, first, second, k: 0, rooms: [0, 0], numbers, texts }
    }

    /// What a record is to be made of, where the case asks for one.
    pub fn values(&self) -> Option<Values<'_>> {
        let texts: Vec<&[u8]> = self.texts.iter().map(Vec::as_slice).collect();
        Some(match (self.operation, &self.numbers[..], &texts[..]) {
            (Operation::Make10, &[sender, number], []) => Values::FileStart { sender, number },
            (Operation::Make20, &[service, agreement, assignment, account], []) => {
                Values::AssignmentStart { service, agreement, assignment, account }
            }
            (Operation::Make30, &[service, code, number, date, amount], &[party, kid]) => {
                Values::Amount1 { service, code, number, date, party, amount, kid }
            }
            (Operation::Make31, &[service, code, number], &[six, seven, eight]) => {
                Values::Amount2 { service, code, number, texts: [six, seven, eight] }
            }
            (Operation::Make40, &[service, code, number], &[name, postal, filler, area]) => {
                Values::Address { service, code, number, name, postal, filler, area }
            }
            (Operation::Make41, &[service, code, number], &[address1, address2, country]) => {
                Values::Address2 { service, code, number, address1, address2, country }
            }
            (Operation::Make49, &[service, code, number, line, column], &[text]) => {
                Values::Message { service, code, number, line, column, text }
            }
            (Operation::Make50, &[service, code, number, amount], &[kid]) => {
                Values::SubSpec { service, code, number, kid, amount }
            }
            _ => return None,
        })
    }
}

/// The answer of a variant, the outputs being lent to it. There is one way of making alone.
pub fn answer(case: &Case, variant: Variant, out1: &mut [u8], out2: &mut [u8]) -> Answer {
    let Case { operation, day, first, second, k, .. } = case;
    match operation {
        Operation::Check => answer::of_check((variant.check)(*day, first)),
        Operation::Close => answer::of_writing((variant.close)(*day, first, out1)),
        Operation::Join => answer::of_writing((variant.join)(*day, first, second, out1)),
        Operation::Part => answer::of_parting((variant.part)(*day, first, *k, out1, out2)),
        Operation::MakeDraft => answer::of_drafting(make_draft(first, out1)),
        _ => answer::of_making(make(case.values().expect("values of its record"), out1)),
    }
}

/// The case of this index. A fifth of them are makings, where there are any. Large ones come up
/// once in some thousands.
pub fn case(seed: u64, index: u64, operations: &[Operation]) -> Case {
    let mut random = Random::of_case(seed, index);
    let (makings, others): (Vec<Operation>, Vec<Operation>) =
        operations.iter().partition(|operation| operation.is_making());
    let is_making = others.is_empty() || !makings.is_empty() && random.percent(20);
    // A record 30 has the most rules.
    let operation = match operations.contains(&Operation::Make30) {
        true if is_making && random.percent(30) => Operation::Make30,
        _ => random.pick(if is_making { &makings } else { &others }),
    };
    let size = random.below(20_000);
    if let Some(kind) = operation.makes() {
        return making(&mut random, operation, kind);
    }
    if operation == Operation::MakeDraft {
        return drafting(&mut random, size < 20);
    }
    let mut case = match size {
        0..=1 => huge(&mut random, operation),
        2..=60 => many_assignments(&mut random, operation),
        _ => small(&mut random, operation),
    };
    if random.percent(2) {
        case.day = no_day(&mut random);
    }
    case
}

/// A record to be made.
fn making(random: &mut Random, operation: Operation, kind: &[u8; 2]) -> Case {
    let (numbers, texts) = till::values(random, kind);
    let more = RECORD + random.index(400);
    let room = random.pick(&[81, 81, 81, 81, 81, 81, 82, more, more, 80, 0, 40]);
    Case { numbers, texts, rooms: [room, 0], ..Case::new(operation, DAY, Vec::new()) }
}

/// Lines of values: a sound draft, which has to come out and to be closed; or damaged ones.
fn drafting(random: &mut Random, is_long: bool) -> Case {
    let operation = Operation::MakeDraft;
    if is_long {
        // As many lines as there may be, and one too many.
        let lines = b"10;12345;1\n;;\n".repeat(random.pick(&[199_998, 199_998, 199_999]));
        let rooms = [random.pick(&[0, 162, 199_998 * RECORD]), 0];
        return Case { rooms, ..Case::new(operation, DAY, lines) };
    }
    let day = process_day(random);
    let mut draft = sound_draft(plan(random, day));
    draft.iter_mut().filter(|byte| **byte == b';').for_each(|byte| *byte = b',');
    let mut lines = till::lines(random, &draft);
    if random.percent(50) {
        let rooms = [draft.len() + random.pick(&[0, 0, 1, 81, 200]), 0];
        return Case { second: draft, rooms, ..Case::new(operation, day, lines) };
    }
    for _ in 0..random.pick(&[0, 1, 1, 1, 2]) {
        till::damage(random, &mut lines);
    }
    let rooms = [room(random, draft.len()), 0];
    Case { rooms, ..Case::new(operation, day, lines) }
}

fn process_day(random: &mut Random) -> Day {
    match random.below(10) {
        0..=4 => DAY,
        5 => (2000 + 4 * random.below(25), 2, 29),
        6 => random.pick(&[(2000, 1, 1), (2099, 12, 31), (2025, 12, 31), (2026, 1, 1)]),
        _ => {
            let (year, month) = (2000 + random.below(100), 1 + random.below(12));
            (year, month, 1 + random.below(days(year, month)))
        }
    }
}

fn no_day(random: &mut Random) -> Day {
    let far = random.draw();
    random.pick(&[
        (2025, 2, 29),
        (2025, 4, 31),
        (2025, 0, 1),
        (2025, 13, 1),
        (2025, 1, 0),
        (2025, 1, 32),
        (1999, 12, 31),
        (2100, 1, 1),
        (25, 10, 1),
        (0, 0, 0),
        (far, 10, 1),
        (2025, far, 1),
        (2025, 10, far),
        (1 << 32 | 2025, 10, 1),
        (2025, 1 << 32 | 10, 1),
        (2025, 10, 1 << 32 | 1),
        (u64::MAX, u64::MAX, u64::MAX),
    ])
}

fn plan(random: &mut Random, day: Day) -> Plan {
    Plan {
        seed: random.draw(),
        day,
        assignments: random.pick(&[1, 1, 1, 2, 2, 3, 4, 6]),
        transactions: random.pick(&[1, 1, 2, 3, 5]),
        records: None,
        extras: random.pick(&[0, 40, 100]),
        notices: random.pick(&[0, 50, 100, 100]),
        unplaced: random.pick(&[0, 0, 30, 100]),
        extremes: random.percent(50),
    }
}

/// Damages the data once, or twice.
fn damaged(random: &mut Random, mut data: Vec<u8>) -> Vec<u8> {
    for _ in 0..random.pick(&[1, 1, 1, 2]) {
        damage(random, &mut data);
    }
    data
}

fn random_bytes(random: &mut Random) -> Vec<u8> {
    let any = random.index(900);
    let length = random.pick(&[0, 1, 80, 81, 82, 162, 405, 486, any]);
    (0..length).map(|_| random.draw() as u8).collect()
}

/// Sets the date of some 30 to one just inside or just outside the window.
fn edge_of_window(random: &mut Random, mut draft: Vec<u8>, (year, month, day): Day) -> Vec<u8> {
    let payments: Vec<usize> = (0..draft.len() / RECORD)
        .map(|index| index * RECORD)
        .filter(|&at| records::kind(&draft[at..]) == *b"30")
        .collect();
    let at = random.pick(&payments);
    let year = random.pick(&[year + 1, year + 1, year - 1]) % 100;
    let day = random.pick(&[day, day + 1, day - 1]);
    let date = format!("{day:02}{month:02}{year:02}");
    draft[at + 15..at + 21].copy_from_slice(date.as_bytes());
    draft
}

/// A draft with messages, one of which is full or has a piece too many.
fn crowded(random: &mut Random, plan: Plan) -> Vec<u8> {
    let mut draft = sound_draft(Plan { extras: 100, notices: 100, ..plan });
    crowd(random, &mut draft);
    draft
}

/// A file that is sound, or damaged before or after its ends were written.
fn file(random: &mut Random, day: Day, sound: u64) -> Vec<u8> {
    let plan = plan(random, day);
    file_by(random, plan, sound)
}

fn file_by(random: &mut Random, plan: Plan, sound: u64) -> Vec<u8> {
    let draft = sound_draft(plan);
    if random.percent(sound) {
        return closed(&draft);
    }
    match random.below(25) {
        20 | 21 => closed(&edge_of_window(random, draft, plan.day)),
        22..=24 => closed(&crowded(random, plan)),
        0..=8 => closed(&damaged(random, draft)),
        9..=16 => damaged(random, closed(&draft)),
        17 => {
            let file = closed(&damaged(random, draft));
            damaged(random, file)
        }
        18 => wrong_ends(random, closed(&draft)),
        _ => random_bytes(random),
    }
}

/// Damages end records alone.
fn wrong_ends(random: &mut Random, mut file: Vec<u8>) -> Vec<u8> {
    let ends: Vec<usize> = (0..file.len() / RECORD)
        .map(|index| index * RECORD)
        .filter(|&at| matches!(&records::kind(&file[at..]), b"88" | b"89"))
        .collect();
    let at = random.pick(&ends);
    let place = at + 8 + random.index(45);
    file[place] = random.pick(b"0123456789x ");
    file
}

/// A draft that is sound, or damaged, or has an 88 or 89 in it.
fn draft(random: &mut Random, day: Day) -> Vec<u8> {
    let plan = plan(random, day);
    let draft = sound_draft(plan);
    match random.below(25) {
        20 | 21 => edge_of_window(random, draft, day),
        22..=24 => crowded(random, plan),
        0..=5 => draft,
        6..=16 => damaged(random, draft),
        17 => {
            // A file and all of it, or a part that has an end in it.
            let file = closed(&draft);
            let records = 1 + random.index(file.len() / RECORD);
            file[..records * RECORD].to_vec()
        }
        18 => {
            let file = closed(&draft);
            let end = file[file.len() - RECORD * (1 + random.index(2))..][..RECORD].to_vec();
            let at = random.index(draft.len() / RECORD + 1) * RECORD;
            [&draft[..at], &end, &draft[at..]].concat()
        }
        _ => random_bytes(random),
    }
}

/// The length of an output of which so much is needed.
fn room(random: &mut Random, needed: usize) -> usize {
    match random.below(12) {
        0..=4 => needed,
        5 => needed.saturating_sub(1),
        6 => 0,
        7 => random.index(needed + 1),
        8 => needed + 1,
        _ => needed + random.index(400),
    }
}

/// What the two parts of a file come to, in bytes.
fn parts(file: &[u8], k: u64) -> [usize; 2] {
    let ends = (1..).zip(file.chunks_exact(RECORD)).filter(|(_, r)| records::kind(r) == *b"88");
    let mut boundary = 1;
    for (index, _) in ends.take(k.min(501) as usize) {
        boundary = index;
    }
    let all = file.len() / RECORD;
    [(boundary + 1) * RECORD, (all + 1).saturating_sub(boundary) * RECORD]
}

/// Puts the key of an assignment of the first file into one of the second.
fn share_key(random: &mut Random, first: &[u8], second: &mut [u8]) {
    let starts = |data: &[u8]| -> Vec<usize> {
        (0..data.len() / RECORD)
            .map(|index| index * RECORD)
            .filter(|&at| records::kind(&data[at..]) == *b"20")
            .collect()
    };
    let (of_first, of_second) = (starts(first), starts(second));
    if of_first.is_empty() || of_second.is_empty() {
        return;
    }
    let which = |random: &mut Random, of: &[usize]| match random.below(3) {
        0 => of[0],
        1 => of[of.len() - 1],
        _ => random.pick(of),
    };
    let (from, to) = (which(random, &of_first), which(random, &of_second));
    second[to + 8..to + 24].copy_from_slice(&first[from + 8..from + 24]);
}

fn small(random: &mut Random, operation: Operation) -> Case {
    let mut day = process_day(random);
    match operation {
        Operation::Check => Case::new(operation, day, file(random, day, 12)),
        Operation::Close => {
            let draft = draft(random, day);
            let needed = draft.len() + (count(&draft, b"20") + 1) * RECORD;
            let rooms = [room(random, needed), 0];
            Case { rooms, ..Case::new(operation, day, draft) }
        }
        Operation::Join => {
            let (first, mut second) = if random.percent(12) {
                day = DAY;
                sums_together(random)
            } else {
                let sound = random.pick(&[(100, 100), (100, 100), (100, 100), (0, 100), (100, 0)]);
                (file(random, day, sound.0), file(random, day, sound.1))
            };
            if random.percent(20) {
                share_key(random, &first, &mut second);
            }
            if random.percent(5) && second.len() >= RECORD {
                let at = 8 + random.index(16);
                second[at] = random.pick(b"0123456789");
            }
            let needed = (first.len() + second.len()).saturating_sub(2 * RECORD);
            let rooms = [room(random, needed), 0];
            Case { second, rooms, ..Case::new(operation, day, first) }
        }
        Operation::Part => {
            let mut plan = plan(random, day);
            plan.assignments += u32::from(random.percent(85));
            let file = file_by(random, plan, 75);
            let k = boundary(random, &file);
            let rooms = parts(&file, k).map(|needed| room(random, needed));
            Case { k, rooms, ..Case::new(operation, day, file) }
        }
        _ => unreachable!("a making"),
    }
}

/// Two files whose sums together come to the limit, or pass it.
fn sums_together(random: &mut Random) -> (Vec<u8>, Vec<u8>) {
    let one = random.below(records::MOST + 1);
    let other = records::MOST - one + random.pick(&[0, 0, 1, 2]);
    let other = other.min(records::MOST);
    (file_of("01", &[(1, 1)], one), file_of("01", &[(1, 2)], other))
}

fn boundary(random: &mut Random, file: &[u8]) -> u64 {
    let assignments = count(file, b"88") as u64;
    match random.below(12) {
        0 => 0,
        1 => assignments,
        2 => random.pick(&[assignments + 1, u64::MAX, 1 << 32, 1 << 32 | 1, 500, 501]),
        _ => 1 + random.below(assignments.max(2) - 1),
    }
}

/// Files about the limit of 500 assignments.
fn many_assignments(random: &mut Random, operation: Operation) -> Case {
    let day = DAY;
    let assignments = random.pick(&[499, 500, 500, 501, 502]);
    let service = random.pick(&["01", "04"]);
    let keys: Vec<(u32, u32)> = (0..assignments).map(|i| (i * 7919 % 1000, i)).collect();
    let file = file_of(service, &keys, random.below(1000));
    let mut case = Case::new(operation, day, file);
    match operation {
        Operation::Check => {
            if random.percent(50) {
                damage(random, &mut case.first);
            }
        }
        Operation::Close => {
            case.first = records::draft(&case.first);
            case.rooms[0] = case.first.len() + (count(&case.first, b"20") + 1) * RECORD;
            if random.percent(50) {
                damage(random, &mut case.first);
            }
        }
        Operation::Join => {
            let at = 1 + random.index(assignments as usize - 1);
            let (first, second) = keys.split_at(at);
            case.first = file_of(service, first, 1);
            case.second = file_of(service, second, 2);
            if random.percent(30) {
                share_key(random, &case.first, &mut case.second);
            }
            case.rooms[0] = case.first.len() + case.second.len() - 2 * RECORD;
        }
        Operation::Part => {
            case.k = boundary(random, &case.first);
            case.rooms = parts(&case.first, case.k);
        }
        _ => unreachable!("a making"),
    }
    case
}

/// Files about the limit of 200,000 records.
fn huge(random: &mut Random, operation: Operation) -> Case {
    let day = DAY;
    // An even number of records, and by one transfer too many.
    let transactions = random.pick(&[99_998, 99_998, 99_999]);
    match operation {
        Operation::Check => {
            let mut file = long_file(1, transactions);
            if random.percent(30) {
                damage(random, &mut file);
            }
            Case::new(operation, day, file)
        }
        Operation::Close => {
            let mut draft = records::draft(&long_file(1, transactions));
            if random.percent(30) {
                // Something else than a 20 may be named 20, and counts.
                let at = random.index(draft.len() / RECORD) * RECORD;
                draft[at + 6..at + 8].copy_from_slice(b"20");
            }
            let rooms = [draft.len() + 2 * RECORD, 0];
            Case { rooms, ..Case::new(operation, day, draft) }
        }
        Operation::Join => {
            let first = 1 + random.below(99_996) as u32;
            let (a, b) = (long_file(1, first), long_file(2, transactions - 1 - first));
            let rooms = [a.len() + b.len() - 2 * RECORD, 0];
            Case { second: b, rooms, ..Case::new(operation, day, a) }
        }
        Operation::Part => {
            let file = long_file(1, transactions);
            let k = random.below(2);
            let rooms = parts(&file, k);
            Case { k, rooms, ..Case::new(operation, day, file) }
        }
        _ => unreachable!("a making"),
    }
}
