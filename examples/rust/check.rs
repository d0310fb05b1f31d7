//! Is a file as the clearing house wants it? Prints the first line that `pay check` prints. From the project's root:
//!
//! ```text
//! reference/archive
//! rustc --edition 2024 -O examples/rust/check.rs -C link-arg=crates/pay_c/out/libpay_c.a -o target/check
//! target/check 011025 examples/whole.txt
//! ```
//!
//! It ends with 0 accepted, 1 refused, 2 trouble, which is told on standard error.

// this program checks, and calls no other operation
#[allow(dead_code)]
mod pay;

use pay::{Accepted, Day, PAY_MOST_BYTES, PAY_RECORD_BYTES};
use std::ffi::{OsStr, OsString};
use std::fs::File;
use std::io::{self, Read};
use std::process::ExitCode;

/// A file of full size and a record more, which the check refuses.
const MOST: usize = PAY_MOST_BYTES + PAY_RECORD_BYTES;

/// The day that DDMMYY names. A word of another form gives 0, 0, 0, which the check refuses as no date.
fn day_from(word: &str) -> Day {
    if word.len() != 6 || !word.bytes().all(|byte| byte.is_ascii_digit()) {
        return Day { year: 0, month: 0, day: 0 };
    }
    let two = |at: usize| word[at..at + 2].parse::<u64>().expect("two digits");
    Day { year: 2000 + two(4), month: two(2), day: two(0) }
}

/// The whole file, or the first bytes of one that is too long.
fn read_file(name: &OsStr) -> io::Result<Vec<u8>> {
    let mut bytes = Vec::new();
    File::open(name)?.take(MOST as u64 + 1).read_to_end(&mut bytes)?;
    Ok(bytes)
}

fn print_accepted(file: Accepted) {
    let (year, month, day) =
        (file.first_date / 10000 % 100, file.first_date / 100 % 100, file.first_date % 100);
    print!("accepted {} {} {} {}", file.assignments, file.transactions, file.records, file.sum);
    println!(" {day:02}{month:02}{year:02}");
}

fn run(day: &OsStr, name: &OsStr) -> Result<ExitCode, String> {
    let file = read_file(name).map_err(|error| error.to_string())?;
    if file.len() > MOST {
        return Err("it is too long, a file has at most 200,000 records".to_string());
    }
    match pay::check(day_from(&day.to_string_lossy()), &file) {
        Ok(figures) => {
            print_accepted(figures);
            Ok(ExitCode::from(0))
        }
        Err(fault) => {
            println!("refused {} {} {}", fault.number, fault.record, fault.field);
            Ok(ExitCode::from(1))
        }
    }
}

fn main() -> ExitCode {
    let words: Vec<OsString> = std::env::args_os().collect();
    let [_, day, name] = words.as_slice() else {
        eprintln!("usage: check DDMMYY FILE");
        return ExitCode::from(2);
    };
    run(day, name).unwrap_or_else(|what| {
        eprintln!("trouble with {}: {what}", name.to_string_lossy());
        ExitCode::from(2)
    })
}
