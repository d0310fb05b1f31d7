//! Times the proved operations and this implementation in one process, turn by
//! turn: on a season's file, on one with second addresses and messages of service 04,
//! and on files of other sizes. `bench [PICTURE.svg]` also draws how the cost grows.

#[path = "../archive.rs"]
mod archive;
#[path = "../picture.rs"]
mod picture;

use picture::{Line, Panel};
use reference::answer::{Answer, PLACES, Place, What, of_making};
use reference::cases::{Case, Operation, answer};
use reference::make::Values;
use reference::records::{count, kind};
use reference::sample::{DAY, Plan, draft_and_file};
use reference::{RECORD, Variant, make, till};
use std::hint::black_box;
use std::process::ExitCode;
use std::time::Instant;

const RUNS: usize = 15;
/// The growth is measured in rounds over all files, so that what else the
/// machine does for a while does not bend the lines.
const ROUNDS: usize = 5;

/// What a piece of work takes, in seconds.
#[derive(Clone, Copy)]
struct Times {
    median: f64,
    /// What it takes when nothing else runs on the machine.
    best: f64,
}

impl Times {
    fn of(mut seconds: Vec<f64>) -> Self {
        seconds.sort_by(f64::total_cmp);
        Self { median: seconds[seconds.len() / 2], best: seconds[0] }
    }
}

/// Seconds for one of so many repetitions.
fn time(times: usize, mut work: impl FnMut()) -> f64 {
    let start = Instant::now();
    (0..times).for_each(|_| work());
    start.elapsed().as_secs_f64() / times as f64
}

/// How often a work on so many records is done in a run.
fn repeats(records: usize) -> usize {
    (20_000 / records).max(1)
}

fn sound(answer: &Answer) {
    assert!(Place::What.of(answer) != What::Refused as u64, "refused: {answer:?}");
}

/// An operation to be timed. Its outputs are just long enough.
struct Work {
    case: Case,
    /// Of the file that is checked, written or parted.
    records: usize,
}

impl Work {
    fn ask_archive(&self, out1: &mut [u8], out2: &mut [u8]) {
        let answer = archive::ask(black_box(&self.case), out1, out2).expect("it has the operation");
        sound(&answer);
    }

    fn ask_reference(&self, out1: &mut [u8], out2: &mut [u8]) {
        sound(&answer(black_box(&self.case), Variant::PLAIN, out1, out2));
    }

    /// The archive's times, if it has the operation, and this implementation's.
    fn times(&self, runs: usize) -> (Option<Times>, Times) {
        let [mut out1, mut out2] = self.case.rooms.map(|room| vec![0; room]);
        let has = archive::operations().contains(&self.case.operation);
        if has {
            self.ask_archive(&mut out1, &mut out2);
        }
        self.ask_reference(&mut out1, &mut out2);
        let repeats = repeats(self.records);
        let (mut of_archive, mut of_reference) = (Vec::new(), Vec::new());
        for _ in 0..runs {
            if has {
                of_archive.push(time(repeats, || self.ask_archive(&mut out1, &mut out2)));
            }
            of_reference.push(time(repeats, || self.ask_reference(&mut out1, &mut out2)));
        }
        (has.then(|| Times::of(of_archive)), Times::of(of_reference))
    }
}

/// The four operations on one sound file. What has no boundary is not joined
/// from parts, nor parted.
fn works(plan: Plan) -> Vec<Work> {
    let (draft, file) = draft_and_file(plan);
    let records = file.len() / RECORD;
    let case = |operation, first: &[u8], rooms| Case {
        rooms,
        ..Case::new(operation, DAY, first.to_vec())
    };
    let mut cases = vec![
        case(Operation::Check, &file, [0, 0]),
        case(Operation::Close, &draft, [file.len(), 0]),
    ];
    if plan.assignments > 1 {
        let k = u64::from(plan.assignments / 2);
        let [mut one, mut two] = [vec![0; file.len()], vec![0; file.len()]];
        let parted = reference::part(DAY, &file, k, &mut one, &mut two).expect("a boundary");
        one.truncate(parted.first);
        two.truncate(parted.second);
        let rooms = [one.len(), two.len()];
        cases.push(Case { second: two, ..case(Operation::Join, &one, [file.len(), 0]) });
        cases.push(Case { k, ..case(Operation::Part, &file, rooms) });
    }
    cases.into_iter().map(|case| Work { case, records }).collect()
}

/// The records of a draft, each made from its values by its operation and put behind those
/// before it. The values are at hand.
struct Making<'a> {
    draft: &'a [u8],
    values: Vec<Values<'a>>,
}

impl<'a> Making<'a> {
    fn new(draft: &'a [u8]) -> Self {
        Self { draft, values: till::bare_values(draft) }
    }

    /// Has every record made.
    #[inline]
    fn make_all(&self, out: &mut [u8], mut make: impl FnMut(Values, &mut [u8], &mut Answer)) {
        let mut answer = [0; PLACES];
        for (&values, place) in self.values.iter().zip(out.chunks_exact_mut(RECORD)) {
            make(black_box(values), place, &mut answer);
            assert!(answer[Place::What as usize] == What::Made as u64, "{values:?} {answer:?}");
        }
    }

    fn ask_archive(&self, out: &mut [u8]) {
        self.make_all(out, |values, place, answer| {
            archive::make(values, place, answer);
        });
    }

    fn ask_reference(&self, out: &mut [u8]) {
        self.make_all(out, |values, place, answer| *answer = of_making(make(values, place)));
    }

    /// The archive's times, if it makes records, and this implementation's.
    fn times(&self) -> (Option<Times>, Times) {
        let mut out = vec![0; self.draft.len()];
        let has = archive::operations().contains(&Operation::MakeDraft);
        if has {
            self.ask_archive(&mut out);
            assert!(out == self.draft, "the archive made another draft");
            out.fill(0);
        }
        self.ask_reference(&mut out);
        assert!(out == self.draft, "the reference made another draft");
        let repeats = repeats(self.values.len());
        let (mut of_archive, mut of_reference) = (Vec::new(), Vec::new());
        for _ in 0..RUNS {
            if has {
                of_archive.push(time(repeats, || self.ask_archive(&mut out)));
            }
            of_reference.push(time(repeats, || self.ask_reference(&mut out)));
        }
        (has.then(|| Times::of(of_archive)), Times::of(of_reference))
    }
}

fn per_record(seconds: f64, records: usize) -> f64 {
    seconds * 1e9 / records as f64
}

fn row(name: &str, who: &str, times: Times, records: usize) -> String {
    format!(
        "{name:<7} {who:<10} {:>9.2} {:>9.2} {:>9.2} {:>9.0}",
        times.median * 1e3,
        per_record(times.median, records),
        per_record(times.best, records),
        (records * RECORD) as f64 / times.median / 1e6
    )
}

/// The processor's name, where the system tells it.
fn processor() -> String {
    let text = std::fs::read_to_string("/proc/cpuinfo").unwrap_or_default();
    let value = |key: &str| {
        text.lines().find_map(|line| Some(line.strip_prefix(key)?.split_once(": ")?.1.to_string()))
    };
    let part =
        || Some(format!("implementer {}, part {}", value("CPU implementer")?, value("CPU part")?));
    let name = value("model name").or_else(part).unwrap_or("unknown".into());
    format!("{name} ({})", std::env::consts::ARCH)
}

/// The two lines of an operation.
fn rows(name: &str, (of_archive, of_reference): (Option<Times>, Times), records: usize) {
    match of_archive {
        Some(times) => println!(
            "{}  {:.2} : 1 (best {:.2} : 1)",
            row(name, "archive", times, records),
            times.median / of_reference.median,
            times.best / of_reference.best
        ),
        None => println!("{name:<7} archive    has it not"),
    }
    println!("{}", row(name, "reference", of_reference, records));
}

const COLUMNS: &str =
    "                      ms  ns/record      best      MB/s  archive : reference";

fn season() {
    let (draft, file) = draft_and_file(Plan::SEASON);
    let figures = reference::check(DAY, &file).expect("the season's file is sound");
    let records = file.len() / RECORD;
    println!("processor: {}; median and best of {RUNS} runs, turn by turn", processor());
    println!(
        "season's file: {records} records, {} bytes, {} assignments, {} transactions",
        file.len(),
        figures.assignments,
        figures.transactions
    );
    println!("{COLUMNS}");
    for work in works(Plan::SEASON) {
        rows(work.case.operation.name(), work.times(RUNS), records);
    }
    let making = Making::new(&draft);
    rows("make", making.times(), making.values.len());
    let mut out = vec![0; file.len()];
    let mut copy = || time(1, || black_box(&mut out).copy_from_slice(black_box(&file)));
    copy();
    let copies = (0..RUNS).map(|_| copy()).collect();
    println!("{}", row("memcpy", "floor", Times::of(copies), records));
}

/// What the season's file has not: records 41, and 49 of service 04.
fn notices() {
    let (draft, file) = draft_and_file(Plan::NOTICES);
    let figures = reference::check(DAY, &file).expect("the file is sound");
    let records = file.len() / RECORD;
    let [addresses, seconds, messages] = [b"40", b"41", b"49"].map(|kind| count(&draft, kind));
    println!(
        "\naddresses and messages: {records} records, {} transactions, all of service 04; \
         {addresses} 40s, {seconds} 41s, {messages} 49s",
        figures.transactions
    );
    println!("{COLUMNS}");
    let check = Work { case: Case::new(Operation::Check, DAY, file), records };
    rows(check.case.operation.name(), check.times(RUNS), records);
    let only_41: Vec<u8> =
        draft.chunks(RECORD).filter(|r| kind(r) == *b"41").flatten().copied().collect();
    for (name, records) in [("make", &draft), ("make41", &only_41)] {
        let making = Making::new(records);
        rows(name, making.times(), making.values.len());
    }
}

/// The operations on one file, and their best times in ns for a record: the
/// archive's, without end where it has not the operation, and the reference's.
struct Spot {
    at: usize,
    works: Vec<(Work, [f64; 2])>,
}

impl Spot {
    fn new(at: usize, plan: Plan) -> Self {
        let works = works(plan).into_iter().map(|work| (work, [f64::INFINITY; 2]));
        Self { at, works: works.collect() }
    }

    fn measure(&mut self) {
        for (work, best) in &mut self.works {
            let (of_archive, of_reference) = work.times(RUNS / ROUNDS);
            for (best, times) in best.iter_mut().zip([of_archive, Some(of_reference)]) {
                if let Some(times) = times {
                    *best = best.min(per_record(times.best, work.records));
                }
            }
        }
    }

    fn print(&self, what: &str) {
        let mut text = format!("{:>7} {what}", self.at);
        for (work, best) in &self.works {
            text += &format!("  {:<5}", work.case.operation.name());
            for value in best {
                text += &if value.is_finite() { format!(" {value:>5.1}") } else { "     -".into() };
            }
        }
        println!("{text}");
    }
}

/// A line for each operation on files by the archive, and one by the reference.
fn lines(spots: &[Spot]) -> Vec<Line> {
    let line = |operation: Operation, who: usize| {
        let of = |spot: &Spot| {
            let (_, best) = spot.works.iter().find(|(work, _)| work.case.operation == operation)?;
            best[who].is_finite().then_some((spot.at as f64, best[who]))
        };
        Line {
            name: format!("{} {}", operation.name(), ["archive", "reference"][who]),
            dashed: who == 1,
            points: spots.iter().filter_map(of).collect(),
        }
    };
    [Operation::Check, Operation::Close, Operation::Join, Operation::Part]
        .into_iter()
        .flat_map(|operation| [0, 1].map(|who| line(operation, who)))
        .collect()
}

/// Measures the files in rounds and prints a line for each.
fn grown(mut spots: Vec<Spot>, what: &str) -> Vec<Line> {
    for _ in 0..ROUNDS {
        spots.iter_mut().for_each(Spot::measure);
    }
    spots.iter().for_each(|spot| spot.print(what));
    lines(&spots)
}

fn growth() -> [Panel; 2] {
    println!("\nns for a record (best of {RUNS}): archive, reference");
    let spots = [1_000, 10_000, 100_000, 200_000].map(|records| {
        let assignments = (records as u32 / 4_444).max(2);
        Spot::new(records, Plan::like_a_season(records, assignments))
    });
    let by_records = grown(spots.into(), "records");

    println!("\nthe same, 20000 records in so many assignments");
    let spots = [1, 2, 10, 50, 100, 200, 300, 400, 500].map(|assignments| {
        Spot::new(assignments as usize, Plan::like_a_season(20_000, assignments))
    });
    let by_assignments = grown(spots.into(), "assignments");
    [
        Panel {
            title: "ns for a record, by the records of the file".into(),
            logarithmic: true,
            marks: vec![1e3, 1e4, 1e5, 2e5],
            lines: by_records,
        },
        Panel {
            title: "ns for a record, 20,000 records, by assignments".into(),
            logarithmic: false,
            marks: vec![1., 100., 200., 300., 400., 500.],
            lines: by_assignments,
        },
    ]
}

fn main() -> ExitCode {
    if let Some(lacking) = archive::lacking() {
        eprintln!("{lacking}");
        return ExitCode::from(2);
    }
    season();
    notices();
    let panels = growth();
    let path = std::env::args().nth(1);
    let written = path.map_or(Ok(()), |path| std::fs::write(path, picture::svg(&panels)));
    written.map_or_else(
        |error| {
            eprintln!("the picture could not be written: {error}");
            ExitCode::FAILURE
        },
        |()| ExitCode::SUCCESS,
    )
}
