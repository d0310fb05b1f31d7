//! The program on standard input: a line DDMMYY, then up to 800 records.

use crate::check;

const MOST: usize = 800 * 81;

/// What the program prints, without its line feed.
pub fn answer(input: &[u8]) -> String {
    let Some((&[d1, d2, m1, m2, y1, y2, b'\n'], data)) = input.split_first_chunk() else {
        return "refused 1 0 0".into();
    };
    let line = [d1, d2, m1, m2, y1, y2];
    if !line.iter().all(u8::is_ascii_digit) {
        return "refused 1 0 0".into();
    }
    if data.len() > MOST {
        return "too long".into();
    }
    let two = |tens: u8, ones: u8| u64::from(tens - b'0') * 10 + u64::from(ones - b'0');
    match check((2000 + two(y1, y2), two(m1, m2), two(d1, d2)), data) {
        Ok(file) => {
            let (year, month, day) = (
                file.first_date / 10_000 % 100,
                file.first_date / 100 % 100,
                file.first_date % 100,
            );
            format!(
                "accepted {} {} {} {} {day:02}{month:02}{year:02}",
                file.assignments, file.transactions, file.records, file.sum
            )
        }
        Err(refused) => format!("refused {} {} {}", refused.number, refused.record, refused.field),
    }
}
