//! Sound files by chance, made without any help of the checker or the writer.

use crate::random::Random;
use crate::records::{MOST, closed, draft, r10_of};
use crate::{Day, RECORD};
use std::collections::HashSet;

/// The process day of document 01's examples.
pub const DAY: Day = (2025, 10, 1);

/// How a file is to be made.
#[derive(Clone, Copy)]
pub struct Plan {
    pub seed: u64,
    pub day: Day,
    pub assignments: u32,
    /// Per assignment.
    pub transactions: u32,
    /// If given, how many records the file must have; one last transaction of
    /// type 16 makes up for what is missing.
    pub records: Option<usize>,
    /// Of a hundred transactions, how many are of a type that has records 40,
    /// 49 or 50.
    pub extras: u64,
    /// Of a hundred records 40, how many have a 41, records 49 or both behind them.
    pub notices: u64,
    /// Of a hundred records 49, how many have no place.
    pub unplaced: u64,
    /// Whether values at the ends of what is allowed come up often.
    pub extremes: bool,
}

impl Plan {
    /// A season's file: 200,000 records, 45 assignments, 90,000 transactions.
    pub const SEASON: Self = Self {
        seed: 2025,
        day: DAY,
        assignments: 45,
        transactions: 2_000,
        records: Some(200_000),
        extras: 17,
        notices: 0,
        unplaced: 0,
        extremes: false,
    };

    /// A file of service 04 alone in which most payments have addresses and messages: 50,000
    /// records, one assignment, 11,750 transactions.
    pub const NOTICES: Self = Self {
        seed: 1,
        assignments: 1,
        transactions: 11_750,
        records: Some(50_000),
        extras: 100,
        notices: 100,
        ..Self::SEASON
    };

    /// A file like a season's with so many records and assignments.
    pub fn like_a_season(records: usize, assignments: u32) -> Self {
        let inside = records as u32 - 2 - 2 * assignments;
        let transactions = (inside / 100 * 45 / assignments).max(1);
        Self { assignments, transactions, records: Some(records), ..Self::SEASON }
    }
}

/// The days of a month of the years 2000 to 2099.
pub fn days(year: u64, month: u64) -> u64 {
    match month {
        2 => 28 + u64::from(year.is_multiple_of(4)),
        4 | 6 | 9 | 11 => 30,
        _ => 31,
    }
}

pub fn ddmmyy((year, month, day): Day) -> String {
    format!("{day:02}{month:02}{:02}", year % 100)
}

fn date_number((year, month, day): Day) -> u64 {
    year * 10_000 + month * 100 + day
}

/// Line and column of one of the 42 places, counted round and round; of a hundred, so many lack
/// the line, the column or both.
pub fn place(random: &mut Random, place: u64, unplaced: u64) -> String {
    let (line, column) = (place / 2 % 21 + 1, place % 2 + 1);
    let (line, column) = match unplaced > 0 && random.percent(unplaced) {
        true => random.pick(&[(0, column), (line, 0), (0, 0)]),
        false => (line, column),
    };
    format!("{line:03}{column}")
}

const TYPES_04: &[&str] =
    &["01", "01", "02", "02", "02", "12", "12", "18", "32", "37", "62", "65", "66"];
const TEXT: &[u8] =
    "ABCDEFGHIJKLMNOPQRSTUVWXYZabcdefghijklmnopqrstuvwxyz    .,-/&0123456789".as_bytes();
/// Æ Ø Å æ ø å é ü ÿ and the no-break space, in ISO 8859-1.
const NORDIC: &[u8] = &[0xC6, 0xD8, 0xC5, 0xE6, 0xF8, 0xE5, 0xE9, 0xFC, 0xFF, 0xA0];

struct Maker {
    random: Random,
    plan: Plan,
    out: Vec<u8>,
    number: u64,
    service: &'static str,
    /// What may still be added to the assignment's sum, and to the file's.
    left: u64,
    left_of_file: u64,
    keys: HashSet<(u64, u64)>,
}

impl Maker {
    fn line(&mut self, line: &[u8]) {
        assert_eq!(line.len(), RECORD - 1);
        self.out.extend_from_slice(line);
        self.out.push(b'\n');
    }

    fn extreme(&mut self, chance: u64) -> bool {
        self.plan.extremes && self.random.percent(chance)
    }

    fn text(&mut self, width: usize) -> Vec<u8> {
        if self.extreme(8) {
            return (0..width).map(|_| self.any_letter()).collect();
        }
        let length = self.random.index(width + 1);
        let mut text: Vec<u8> = (0..length)
            .map(|_| {
                if self.random.percent(3) {
                    self.random.pick(NORDIC)
                } else {
                    self.random.pick(TEXT)
                }
            })
            .collect();
        text.resize(width, b' ');
        text
    }

    /// 32 to 126 or 160 to 255.
    fn any_letter(&mut self) -> u8 {
        match self.random.below(95 + 96) as u8 {
            n @ 0..95 => 32 + n,
            n => 160 + (n - 95),
        }
    }

    /// Text that is not blank.
    fn name(&mut self, width: usize) -> Vec<u8> {
        let mut text = self.text(width);
        let at = if self.extreme(20) { self.random.index(width) } else { 0 };
        text[at] = if self.extreme(20) { 0xA0 } else { b'K' };
        text
    }

    fn in_window(&self, date: Day) -> bool {
        let (date, day) = (date_number(date), date_number(self.plan.day));
        date <= day + 10_000 && (self.service == "04" || date >= day - 10_000)
    }

    fn random_date(&mut self) -> Day {
        let year = self.plan.day.0;
        // Only service 04 may go far back.
        let far = self.service == "04" && self.random.percent(3);
        let earliest = if far { 2000 } else { (year - 1).max(2000) };
        let year = earliest + self.random.below((year + 1).min(2099) - earliest + 1);
        let month = 1 + self.random.below(12);
        (year, month, 1 + self.random.below(days(year, month)))
    }

    /// A date at an end of the window, or a leap day; perhaps none.
    fn extreme_date(&mut self) -> Option<Day> {
        let (year, month, day) = self.plan.day;
        let date = match self.random.below(4) {
            0 => (year + 1, month, day),
            1 => (year - 1, month, day),
            2 => (year, month, day),
            _ => (year / 4 * 4, 2, 29),
        };
        let is_date = (2000..=2099).contains(&date.0) && date.2 <= days(date.0, date.1);
        (is_date && self.in_window(date)).then_some(date)
    }

    fn date(&mut self) -> String {
        if self.extreme(25)
            && let Some(date) = self.extreme_date()
        {
            return ddmmyy(date);
        }
        loop {
            let date = self.random_date();
            if self.in_window(date) {
                return ddmmyy(date);
            }
        }
    }

    fn kid(&mut self, either_end: bool) -> String {
        let length = self.random.pick(&[1, 3, 7, 10, 14, 16, 20, 24, 25]);
        let kid = self.random.digits(length);
        if either_end && self.random.percent(15) {
            format!("{kid:<25}")
        } else {
            format!("{kid:>25}")
        }
    }

    /// An amount that no limit forbids.
    fn amount(&mut self, code: &str) -> u64 {
        let own = if self.service == "04" && code == "04" { 9_999_999_999 } else { MOST };
        let most = own.min(self.left);
        let least = u64::from(self.service == "04" && code == "16");
        if self.extreme(12) {
            let nearly = most.saturating_sub(1);
            return self.random.pick(&[least, most, nearly, 1]).clamp(least, most);
        }
        (1_000_000 + self.random.below(9_000_000)).min(most).max(least)
    }

    fn party(&mut self, code: &str) -> String {
        match (self.service, code) {
            ("01", _) if self.random.percent(40) => {
                let length = 1 + self.random.index(10);
                format!("{:>11}", self.random.digits(length))
            }
            ("04", "04") => self.random.digits(11),
            _ if self.extreme(3) => "00000000000".to_string(),
            _ => self.random.account(),
        }
    }

    fn transaction(&mut self, code: &str, extras: Option<usize>) {
        let code = if code == "16" && self.left == 0 { "02" } else { code };
        let (service, number) = (self.service, format!("{:07}", self.number));
        let amount = self.amount(code);
        let (date, party) = (self.date(), self.party(code));
        let kid = match (service, code) {
            ("01", _) if self.random.percent(60) => self.kid(false),
            ("04", "12") => self.kid(true),
            _ => " ".repeat(25),
        };
        let line = format!("NY{service}{code}30{number}{date}{party}{amount:017}{kid}000000");
        self.line(line.as_bytes());
        self.left -= amount;
        self.left_of_file -= amount;

        let mut line = format!("NY{service}{code}31{number}").into_bytes();
        line.extend(self.name(10));
        line.extend(self.text(25));
        line.extend(self.text(25));
        line.extend(b"00000");
        self.line(&line);

        match (service, code) {
            ("04", "04") => self.address(code, &number, true),
            ("04", "03") if self.random.percent(70) => self.address(code, &number, false),
            ("01", "03") => self.message(code, &number),
            ("04", "16") => self.sub_specifications(&number, amount, extras),
            _ => {}
        }
        self.number += 1;
    }

    fn address(&mut self, code: &str, number: &str, complete: bool) {
        let mut line = format!("NY04{code}40{number}").into_bytes();
        line.extend(if complete { self.name(30) } else { self.text(30) });
        let postal = if complete || self.random.percent(70) {
            self.random.digits(4) + "   "
        } else {
            self.random.pick(&["       ", "1234567", "12 34 5"]).to_string()
        };
        line.extend(postal.as_bytes());
        line.extend(if complete { self.name(25) } else { self.text(25) });
        line.extend(b"000");
        self.line(&line);
        if self.plan.notices > 0 && self.random.percent(self.plan.notices) {
            self.notice(code, number);
        }
    }

    /// What may stand behind a 40.
    fn notice(&mut self, code: &str, number: &str) {
        let which = self.random.below(4);
        if which != 0 {
            self.second_address(code, number);
        }
        if which != 1 {
            self.message(code, number);
        }
    }

    fn second_address(&mut self, code: &str, number: &str) {
        let mut line = format!("NY04{code}41{number}").into_bytes();
        line.extend(self.text(30));
        line.extend(self.text(30));
        line.extend(match code {
            "04" => b"   ".to_vec(),
            _ if self.random.percent(50) => self.text(3),
            _ => self.random.pick(&[b"SE ", b"DK ", b"GBR", b" PL", b"   "]).to_vec(),
        });
        line.extend(b"00");
        self.line(&line);
    }

    fn message(&mut self, code: &str, number: &str) {
        let pieces = if self.extreme(3) { 42 } else { self.random.below(4) };
        let first = self.random.below(42);
        // Service 01 has a notification code before the line.
        let notification = if self.service == "01" { "3" } else { "" };
        for i in 0..pieces {
            let place = place(&mut self.random, first + 5 * i, self.plan.unplaced);
            let head = format!("NY{}{code}49{number}{notification}{place}", self.service);
            let mut line = head.into_bytes();
            line.extend(self.text(40));
            line.resize(RECORD - 1, b'0');
            self.line(&line);
        }
    }

    fn sub_specification(&mut self, code: &str, number: &str, amount: u64) {
        let kid = self.kid(true);
        let line = format!("NY04{code}50{number}{kid}{amount:017}{}", "0".repeat(23));
        self.line(line.as_bytes());
    }

    fn sub_specifications(&mut self, number: &str, amount: u64, count: Option<usize>) {
        if count.is_none() && self.extreme(15) {
            // Both sums as great as they can be.
            let credit = MOST - amount;
            let one = self.random.below(credit + 1);
            for (code, part) in [("17", one), ("16", MOST), ("17", credit - one), ("16", 0)] {
                self.sub_specification(code, number, part);
            }
            return;
        }
        let count = count.unwrap_or(1 + self.random.index(3));
        // All but the last are small and the last makes up the amount.
        let (mut debit, mut credit) = (0, 0);
        for i in 1..=count {
            let last = i == count;
            let code = if !last && self.random.percent(25) { "17" } else { "16" };
            let part = if last {
                amount + credit - debit
            } else {
                self.random.below((amount / count as u64).max(1))
            };
            if code == "16" {
                debit += part
            } else {
                credit += part
            }
            self.sub_specification(code, number, part);
        }
    }

    /// An agreement and an assignment number that have not stood before, often
    /// near to ones that have.
    fn key(&mut self) -> (u64, u64) {
        loop {
            let known = self.keys.iter().min().copied().unwrap_or((0, 0));
            let key = match self.random.below(6) {
                0 => (known.0, self.random.below(10_000_000)),
                1 => (self.random.below(1_000_000_000), known.1),
                2 if self.plan.extremes => {
                    (self.random.pick(&[0, 1, 999_999_999]), self.random.pick(&[0, 1, 9_999_999]))
                }
                _ => (self.random.below(1_000_000_000), self.random.below(10_000_000)),
            };
            if self.keys.insert(key) {
                return key;
            }
        }
    }

    fn start_of_assignment(&mut self) {
        self.left = if self.service == "04" { 9_999_999_999_999 } else { MOST };
        self.left = self.left.min(self.left_of_file);
        let transactions = u64::from(self.plan.transactions);
        self.number = match self.random.below(20) {
            0..=15 => 1,
            16 if self.plan.extremes => 9_999_999 + 1 - transactions,
            _ => 1 + self.random.below(9_000_000),
        };
        let ((agreement, assignment), account) = (self.key(), self.random.account());
        let line = format!(
            "NY{}0020{agreement:09}{assignment:07}{account}{}",
            self.service,
            "0".repeat(45)
        );
        self.line(line.as_bytes());
    }

    fn code(&mut self) -> &'static str {
        let extras = self.random.percent(self.plan.extras);
        match (self.service, extras) {
            ("01", true) => "03",
            ("01", false) => "02",
            (_, true) => self.random.pick(&["03", "03", "04", "16"]),
            (_, false) => self.random.pick(TYPES_04),
        }
    }

    /// The last transaction of a file of so many records.
    fn last_transaction(&mut self, records: usize) {
        // The 30, the 31 and all 88s and the 89 are still to come.
        let ends = self.plan.assignments as usize + 1;
        let missing = records.checked_sub(self.out.len() / RECORD + 2 + ends);
        match missing.expect("the plan has too many extras") {
            0 => self.transaction("02", None),
            extras => self.transaction("16", Some(extras)),
        }
    }

    fn draft(&mut self) {
        let sender = if self.extreme(5) { "99999999" } else { "00012345" };
        self.line(r10_of(sender).as_bytes());
        for assignment in 1..=self.plan.assignments {
            let last_assignment = assignment == self.plan.assignments;
            let remittance = self.plan.records.is_some() && last_assignment;
            self.service = if remittance || self.random.percent(67) { "04" } else { "01" };
            self.start_of_assignment();
            for transaction in 1..=self.plan.transactions {
                let last = last_assignment && transaction == self.plan.transactions;
                if let (Some(records), true) = (self.plan.records, last) {
                    self.last_transaction(records);
                } else {
                    let code = self.code();
                    self.transaction(code, None);
                }
            }
        }
    }
}

/// A sound draft.
pub fn sound_draft(plan: Plan) -> Vec<u8> {
    let mut maker = Maker {
        random: Random(plan.seed),
        plan,
        out: Vec::with_capacity(plan.records.unwrap_or(0) * RECORD),
        number: 0,
        service: "04",
        left: 0,
        left_of_file: MOST,
        keys: HashSet::new(),
    };
    maker.draft();
    maker.out
}

/// A sound file.
pub fn file(plan: Plan) -> Vec<u8> {
    closed(&sound_draft(plan))
}

/// A sound draft and the file it comes to.
pub fn draft_and_file(plan: Plan) -> (Vec<u8>, Vec<u8>) {
    let file = file(plan);
    (draft(&file), file)
}

#[cfg(test)]
mod tests {
    use super::*;
    use crate::records::count;

    #[test]
    fn a_file_with_notices() {
        let (draft, file) = draft_and_file(Plan::NOTICES);
        assert_eq!((count(&file, b"30"), file.len() / RECORD), (11_750, 50_000));
        assert!(draft[RECORD..].chunks(RECORD).all(|record| record[2..4] == *b"04"));
        let counts = [b"40", b"41", b"49"].map(|kind| count(&file, kind));
        assert_eq!(counts, [7_103, 5_358, 8_166]);
    }

    /// What is measured stays the same file, whatever other files have in them.
    #[test]
    fn the_seasons_file_stays() {
        let number = |bytes: &[u8]| {
            bytes.iter().fold(0u64, |n, &byte| n.wrapping_mul(31).wrapping_add(byte.into()))
        };
        let (draft, file) = draft_and_file(Plan::SEASON);
        assert_eq!((draft.len() / RECORD, file.len() / RECORD), (199_954, 200_000));
        let numbers = (16_657_496_608_773_999_916, 9_754_531_626_570_050_998);
        assert_eq!((number(&draft), number(&file)), numbers);
    }
}
