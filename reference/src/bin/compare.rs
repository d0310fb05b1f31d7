//! Asks the proved operations and this implementation the same, case by case,
//! and compares all that they answer and every byte that they were lent.
//!
//! `compare N SEED` runs N cases. `compare case SEED INDEX` runs one of them
//! and prints it. `compare vectors FOLDER` runs the vectors in FOLDER.

#[path = "../archive.rs"]
mod archive;

use reference::answer::{Answer, PLACES, Place};
use reference::cases::{Case, Operation, answer, case};
use reference::{RECORD, Variant, vectors};
use std::collections::BTreeMap;
use std::process::ExitCode;

/// Bytes around a lent output that nobody may touch.
const MARGIN: usize = 96;

/// An output with margins, filled so that no byte is like its neighbours.
struct Lent {
    all: Vec<u8>,
}

impl Lent {
    fn new(room: usize) -> Self {
        Self { all: (0..room + 2 * MARGIN).map(|i| (i * 151 + i / 256 * 7 + 13) as u8).collect() }
    }

    fn out(&mut self) -> &mut [u8] {
        let end = self.all.len() - MARGIN;
        &mut self.all[MARGIN..end]
    }
}

/// An answer, and all that is then in and around the outputs.
#[derive(PartialEq, Eq)]
struct Outcome {
    answer: Answer,
    outputs: [Vec<u8>; 2],
}

/// The answer of this implementation.
fn expected(case: &Case, variant: Variant) -> Outcome {
    let [mut one, mut two] = case.rooms.map(Lent::new);
    let answer = answer(case, variant, one.out(), two.out());
    Outcome { answer, outputs: [one.all, two.all] }
}

/// The answer of the archive, which has this operation. Its inputs stay.
fn found(case: &Case) -> Outcome {
    let [mut one, mut two] = case.rooms.map(Lent::new);
    let before = case.clone();
    let answer = archive::ask(case, one.out(), two.out()).expect("the archive has the operation");
    assert!(
        before.first == case.first && before.second == case.second && before.texts == case.texts,
        "an input was changed"
    );
    Outcome { answer, outputs: [one.all, two.all] }
}

/// Whether a sound draft that was made of its values is what was foretold and can be closed.
fn comes_out(case: &Case, outcome: &Outcome) -> bool {
    if case.operation != Operation::MakeDraft || case.second.is_empty() {
        return true;
    }
    let written = &outcome.outputs[0][MARGIN..][..Place::Written.of(&outcome.answer) as usize];
    let mut out = vec![0; 2 * written.len() + RECORD];
    written == case.second && reference::close(case.day, written, &mut out).is_ok()
}

fn differs(case: &Case) -> bool {
    found(case) != expected(case, Variant::PLAIN)
}

/// The case without some records of one of its inputs, if it has them.
fn without(case: &Case, of_second: bool, from: usize, records: usize) -> Option<Case> {
    let mut smaller = case.clone();
    let data = if of_second { &mut smaller.second } else { &mut smaller.first };
    let (from, to) = (from * RECORD, (from + records) * RECORD);
    (to <= data.len()).then(|| data.drain(from..to).count())?;
    Some(smaller)
}

/// Leaves out runs of records, long ones first, as long as the answers still
/// differ. What a record is made of is small as it is, and so are lines.
fn smallest(mut case: Case) -> Case {
    if case.values().is_some() || case.operation == Operation::MakeDraft {
        return case;
    }
    let mut run = case.first.len().max(case.second.len()) / RECORD;
    while run > 0 {
        for of_second in [false, true] {
            let mut from = 0;
            while let Some(smaller) = without(&case, of_second, from, run) {
                if differs(&smaller) {
                    case = smaller;
                } else {
                    from += 1;
                }
            }
        }
        run /= 2;
    }
    case
}

fn show(name: &str, data: &[u8]) {
    println!("{name}: {} bytes", data.len());
    for record in data.chunks(RECORD).take(60) {
        println!("  {}", record.escape_ascii());
    }
}

/// Both answers, a line for each place.
fn report_answers(expected: &Answer, found: &Answer) {
    println!("place                       reference              archive");
    for place in 0..PLACES {
        let named = Place::ALL.into_iter().find(|&named| named as usize == place);
        let name = named.map_or("(always 0)".into(), |named| format!("{named:?}"));
        let mark = if expected[place] == found[place] { "" } else { "  differs" };
        let found = match found[place] {
            archive::UNWRITTEN => "not written".into(),
            number => number.to_string(),
        };
        println!("{place:>5} {name:<13} {:>17} {found:>20}{mark}", expected[place]);
    }
}

fn report(case: &Case) {
    let Case { operation, day, first, second, k, rooms, .. } = case;
    let name = operation.name();
    if let Some(values) = case.values() {
        println!("{name} output of {} bytes", rooms[0]);
        println!("numbers: {:?}", case.numbers);
        for text in &case.texts {
            println!("text: {} bytes \"{}\"", text.len(), text.escape_ascii());
        }
        println!("that is {values:?}");
    } else if *operation == Operation::MakeDraft {
        println!("{name} output of {} bytes, of {} bytes of lines", rooms[0], first.len());
        for line in first.split_inclusive(|&byte| byte == b'\n').take(60) {
            println!("  {}", line.escape_ascii());
        }
        show("foretold", second);
    } else {
        println!("{name} day {day:?} k {k} outputs of {rooms:?} bytes");
        show("first", first);
        show("second", second);
    }
    let (expected, found) = (expected(case, Variant::PLAIN), found(case));
    report_answers(&expected.answer, &found.answer);
    for (name, a, b) in [
        ("first", &expected.outputs[0], &found.outputs[0]),
        ("second", &expected.outputs[1], &found.outputs[1]),
    ] {
        if let Some(at) = a.iter().zip(b).position(|(a, b)| a != b) {
            let place = at as i64 - MARGIN as i64;
            println!("{name} output: byte {place} is {} and {}", a[at], b[at]);
        }
    }
}

/// A type that the documents know. That of a 49 of service 04 bears the service.
fn known_type(kind: &[u8], is_04: bool) -> String {
    match kind {
        b"49" if is_04 => "49/04".into(),
        b"10" | b"20" | b"30" | b"31" | b"40" | b"41" | b"49" | b"50" | b"88" | b"89" => {
            String::from_utf8_lossy(kind).into()
        }
        _ => "none".into(),
    }
}

/// The type of the record that a line of values bears.
fn type_of_line(line: &[u8]) -> String {
    let mut words = line.split(|&byte| byte == b';');
    let (kind, service) = (words.next().unwrap_or_default(), words.next().unwrap_or_default());
    let zeros = service.iter().take_while(|&&byte| byte == b'0').count();
    match kind {
        b"88" | b"89" => "none".into(),
        _ => known_type(kind, service[zeros..] == *b"4"),
    }
}

/// The type of the record that a refusal names, or that is to be made.
fn record_type(case: &Case, answer: &Answer) -> String {
    let (operand, record) = (Place::Operand.of(answer), Place::Record.of(answer) as usize);
    match case.operation {
        Operation::Make49 => return known_type(b"49", case.numbers[0] == 4),
        Operation::MakeDraft if record > 0 => {
            let mut lines = case.first.split(|&byte| byte == b'\n');
            return lines.nth(record - 1).map_or("none".into(), type_of_line);
        }
        _ if record == 0 => return "-".into(),
        _ => {}
    }
    let data = if operand == 2 { &case.second } else { &case.first };
    let rest = data.get((record - 1) * RECORD..).unwrap_or_default();
    let types = rest.get(6..8).zip(rest.get(2..4));
    types.map_or("end".into(), |(kind, service)| known_type(kind, service == b"04"))
}

/// How often each sort of answer was given.
#[derive(Default)]
struct Histogram(BTreeMap<(&'static str, u64, u64, u64, String), u64>);

impl Histogram {
    fn add(&mut self, case: &Case, answer: &Answer) {
        let [number, operand, field] =
            [Place::Number, Place::Operand, Place::Field].map(|place| place.of(answer));
        let key = (case.operation.name(), number, operand, field, record_type(case, answer));
        *self.0.entry(key).or_default() += 1;
    }

    fn print(&self) {
        println!("operation  number operand field record     cases");
        for ((operation, number, operand, field, kind), count) in &self.0 {
            match number {
                0 => println!("{operation:<9}  sound {kind:>21} {count:>9}"),
                _ => println!(
                    "{operation:<9}  {number:>6} {operand:>7} {field:>5} {kind:>6} {count:>9}"
                ),
            }
        }
    }
}

/// The operations that can be compared; says which cannot.
fn operations() -> Vec<Operation> {
    let operations = archive::operations();
    for operation in Operation::ALL {
        if !operations.contains(&operation) {
            println!("left out: {} (not in the archive)", operation.name());
        }
    }
    operations
}

fn success(all_is_well: bool) -> ExitCode {
    if all_is_well { ExitCode::SUCCESS } else { ExitCode::FAILURE }
}

/// Runs the vectors of a folder, from v0000 on.
fn run_vectors(folder: &str) -> ExitCode {
    let operations = operations();
    let (mut asked, mut differ) = (0, 0);
    for index in 0..10_000 {
        let name = format!("v{index:04}");
        let Ok(vector) = std::fs::read(std::path::Path::new(folder).join(&name)) else { break };
        let case = vectors::read(&vector).expect("a vector");
        if operations.contains(&case.operation) {
            asked += 1;
            if differs(&case) {
                differ += 1;
                println!("{name} differs");
                report(&case);
            }
        }
    }
    println!("{asked} vectors, {differ} differ");
    success(asked > 0 && differ == 0 && operations == Operation::ALL)
}

fn run(cases: u64, seed: u64) -> ExitCode {
    let operations = operations();
    let mut histogram = Histogram::default();
    let mut drafts = 0;
    for index in 0..cases {
        let case = case(seed, index, &operations);
        let expected = expected(&case, Variant::PLAIN);
        histogram.add(&case, &expected.answer);
        if self::expected(&case, Variant::FAST) != expected {
            println!("case {index} of seed {seed}: the plain and the fast variant differ");
            return ExitCode::FAILURE;
        }
        if !comes_out(&case, &expected) {
            println!("case {index} of seed {seed}: the draft made is not the one foretold");
            report(&case);
            return ExitCode::FAILURE;
        }
        drafts += u64::from(case.operation == Operation::MakeDraft && !case.second.is_empty());
        if found(&case) != expected {
            println!("case {index} of seed {seed} differs; again: compare case {seed} {index}");
            println!("the smallest found:");
            report(&smallest(case));
            return ExitCode::FAILURE;
        }
    }
    histogram.print();
    if drafts > 0 {
        println!("{drafts} sound drafts made of their values, all of them closed");
    }
    println!("{cases} cases, 0 differ");
    success(operations == Operation::ALL)
}

fn main() -> ExitCode {
    let words: Vec<String> = std::env::args().skip(1).collect();
    let words: Vec<&str> = words.iter().map(String::as_str).collect();
    let number = |word: &str| word.parse::<u64>().ok();
    if let Some(lacking) = archive::lacking() {
        eprintln!("{lacking}");
        return ExitCode::from(2);
    }
    match words[..] {
        ["case", seed, index] => match (number(seed), number(index)) {
            (Some(seed), Some(index)) => {
                report(&case(seed, index, &archive::operations()));
                return ExitCode::SUCCESS;
            }
            _ => eprintln!("compare case SEED INDEX"),
        },
        ["vectors", folder] => return run_vectors(folder),
        [cases, seed] => match (number(cases), number(seed)) {
            (Some(cases), Some(seed)) => return run(cases, seed),
            _ => eprintln!("compare N SEED"),
        },
        _ => eprintln!("compare N SEED, compare case SEED INDEX, or compare vectors FOLDER"),
    }
    ExitCode::from(2)
}
