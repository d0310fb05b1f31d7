//! Values by chance, as a till might give them, sound or wrong; and lines of them.

use crate::RECORD;
use crate::make::Values;
use crate::random::Random;
use crate::records::{ACCOUNT, MOST};
use crate::sample::{days, ddmmyy};

/// What a number is of.
#[derive(Clone, Copy)]
enum Number {
    /// So many places.
    Of(u32),
    Service,
    Type,
    SideType,
    Date,
    Account,
    Amount,
    Line,
    Column,
}

/// What a text is of.
#[derive(Clone, Copy)]
enum Text {
    /// At most so many bytes.
    Of(usize),
    /// The same, and not blank.
    Name(usize),
    Digits(usize),
    Blanks(usize),
    Party,
    Kid,
}

use Number::{Account, Amount, Column, Date, Line, Service, SideType, Type};
use Text::{Blanks, Digits, Kid, Name, Party};

/// The numbers and the texts of a record of this type, each in their order.
fn slots(kind: &[u8; 2], complete: bool) -> (Vec<Number>, Vec<Text>) {
    let head = [Service, Type, Number::Of(7)];
    let with = |numbers: &[Number]| [&head[..], numbers].concat();
    match kind {
        b"10" => (vec![Number::Of(8), Number::Of(7)], vec![]),
        b"20" => (vec![Service, Number::Of(9), Number::Of(7), Account], vec![]),
        b"30" => (with(&[Date, Amount]), vec![Party, Kid]),
        b"31" => (with(&[]), vec![Text::Of(10), Text::Of(25), Text::Of(25)]),
        b"40" if complete => (with(&[]), vec![Name(30), Digits(4), Blanks(3), Name(25)]),
        b"40" => (with(&[]), vec![Text::Of(30), Digits(4), Digits(3), Text::Of(25)]),
        b"41" if complete => (with(&[]), vec![Text::Of(30), Text::Of(30), Blanks(3)]),
        b"41" => (with(&[]), vec![Text::Of(30), Text::Of(30), Text::Of(3)]),
        b"49" => (with(&[Line, Column]), vec![Text::Of(40)]),
        _ => (vec![Service, SideType, Number::Of(7), Amount], vec![Kid]),
    }
}

const TYPES_01: &[u64] = &[2, 3];
const TYPES_04: &[u64] = &[1, 2, 3, 4, 12, 16, 18, 32, 37, 62, 65, 66];

struct Till<'a> {
    random: &'a mut Random,
    kind: [u8; 2],
    service: u64,
    code: u64,
}

/// The numbers and the texts of a record of this type: sound, or with one or
/// more that are wrong or at the ends of what is allowed.
pub fn values(random: &mut Random, kind: &[u8; 2]) -> (Vec<u64>, Vec<Vec<u8>>) {
    let service = random.pick(&[1, 4, 4]);
    let code = match service {
        1 => random.pick(TYPES_01),
        _ if random.percent(50) => random.pick(&[4, 12, 16]),
        _ => random.pick(TYPES_04),
    };
    let (numbers, texts) = slots(kind, service == 4 && code == 4);
    let slots = numbers.len() + texts.len();
    let chance = random.pick(&[0, 0, 0, 0, 5, 30]);
    let one = if random.percent(55) { random.index(slots) } else { slots };
    let mut till = Till { random, kind: *kind, service, code };
    let mut at = 0;
    let mut wrong = |till: &mut Till| {
        at += 1;
        at - 1 == one || chance > 0 && till.random.percent(chance)
    };
    let mut number = |&slot| match wrong(&mut till) {
        true => till.other_number(slot),
        false => till.number(slot),
    };
    let numbers = numbers.iter().map(&mut number).collect();
    let mut text = |&slot| match wrong(&mut till) {
        true => till.other_text(slot),
        false => till.text(slot),
    };
    (numbers, texts.iter().map(&mut text).collect())
}

impl Till<'_> {
    /// A sound number.
    fn number(&mut self, slot: Number) -> u64 {
        let random = &mut *self.random;
        match slot {
            Number::Of(width) => {
                let end = 10u64.pow(width);
                let any = random.below(end);
                random.pick(&[0, 1, end - 1, any, any, any])
            }
            Service => self.service,
            Type => self.code,
            SideType => random.pick(&[16, 17]),
            Date => self.date(),
            Account => random.account().parse().expect("digits"),
            Amount if self.kind == *b"50" => random.pick(&[0, 1, 50_000, MOST]),
            Amount => match (self.service, self.code) {
                (4, 4) => random.pick(&[0, 1, 80_000, 9_999_999_999]),
                (4, 16) => random.pick(&[1, 80_000, MOST]),
                _ => random.pick(&[0, 1, 80_000, 10_000_000_000, 10_000_000_000_000, MOST]),
            },
            Line => random.pick(&[0, 0, 1, 2, 9, 10, 20, 21]),
            Column => random.pick(&[0, 1, 2]),
        }
    }

    fn date(&mut self) -> u64 {
        let year = match self.random.below(4) {
            0 => 2000 + 4 * self.random.below(25),
            _ => 2000 + self.random.below(100),
        };
        let month = match self.random.below(3) {
            0 => 2,
            _ => 1 + self.random.below(12),
        };
        let last = days(year, month);
        let any = 1 + self.random.below(last);
        let day = self.random.pick(&[1, last, any]);
        ddmmyy((year, month, day)).parse().expect("digits")
    }

    /// A number that is sound only by chance.
    fn other_number(&mut self, slot: Number) -> u64 {
        let sound = self.number(slot);
        let random = &mut *self.random;
        let width = match slot {
            Number::Of(width) => width,
            Service | Type | SideType => 2,
            Date => 6,
            Account => 11,
            Amount => 17,
            Line => 3,
            Column => 1,
        };
        let end = 10u64.pow(width);
        let far = random.draw();
        if random.percent(35) {
            let places = random.below(19) as u32;
            return random.pick(&[
                0,
                end - 1,
                end,
                end + 1,
                end + sound,
                10 * end - 1,
                10u64.pow(places),
                1 << 32 | sound,
                u64::MAX,
                u64::MAX - 1,
                far,
                sound + 1,
            ]);
        }
        match slot {
            Number::Of(_) => random.below(end),
            Service => random.pick(&[0, 1, 2, 3, 4, 5, 10, 14, 40, 41, 44, 99]),
            Type | SideType => {
                let any = random.below(100);
                let listed = random.pick(TYPES_04);
                random.pick(&[any, any, listed, listed, 0, 2, 3, 15, 16, 17])
            }
            Date => {
                let (day, month) = (random.below(34), random.below(15));
                let (any, year) = (random.below(end), random.below(100));
                let near = day * 10_000 + month * 100 + year;
                let none = random.pick(&[290_225, 290_223, 300_224, 310_425, 290_200, 290_296]);
                random.pick(&[none, none, near, near, any, 0, 11_125, 1_100, 321_225, 11_325])
            }
            Account => self.wrong_account().parse().expect("digits"),
            Amount => match self.code {
                16 => random.pick(&[0, 0, 1]),
                _ => random.pick(&[0, 9_999_999_999, 10_000_000_000, 99_999_999_999, MOST]),
            },
            Line => random.pick(&[0, 1, 21, 22, 23, 100, 121, 210, 999]),
            Column => random.below(10),
        }
    }

    /// Eleven digits of which the last is wrong, or of which none is right.
    fn wrong_account(&mut self) -> String {
        match self.random.below(4) {
            0 => format!("0000000006{}", self.random.below(10)),
            1 => {
                // Remainder 1: ten digits before which no last digit is right.
                let weighted = |ten: &str| -> u32 {
                    let weights = [5, 4, 3, 2, 7, 6, 5, 4, 3, 2];
                    ten.bytes().zip(weights).map(|(byte, w)| u32::from(byte - b'0') * w).sum()
                };
                loop {
                    let ten = self.random.digits(10);
                    if weighted(&ten) % 11 == 1 {
                        return ten + self.random.pick(&["0", "1", "9"]);
                    }
                }
            }
            _ => {
                let account = self.random.account();
                let last = account.as_bytes()[10] - b'0';
                let other = (u64::from(last) + 1 + self.random.below(9)) % 10;
                format!("{}{other}", &account[..10])
            }
        }
    }

    /// 32 to 126 or 160 to 255.
    fn letter(&mut self) -> u8 {
        match self.random.below(95 + 96) as u8 {
            n @ 0..95 => 32 + n,
            n => 160 + (n - 95),
        }
    }

    fn letters(&mut self, length: usize) -> Vec<u8> {
        (0..length).map(|_| self.letter()).collect()
    }

    /// A number of bytes up to so many.
    fn length(&mut self, most: usize) -> usize {
        let any = self.random.index(most + 1);
        self.random.pick(&[0, 1, most - 1, most, any, any, any, any])
    }

    /// A sound text.
    fn text(&mut self, slot: Text) -> Vec<u8> {
        match slot {
            Text::Of(width) => {
                let length = self.length(width);
                match self.random.below(4) {
                    0 => vec![b' '; length],
                    _ => self.letters(length),
                }
            }
            Name(width) => {
                let length = self.length(width).max(1);
                let mut name = self.letters(length);
                let at = self.random.index(length);
                name[at] = self.random.pick(&[b'K', b'K', 0xA0]);
                name
            }
            Digits(width) => match (self.service, self.code) {
                (4, 4) => self.random.digits(width).into(),
                _ => {
                    let length = self.length(width);
                    (0..length).map(|_| self.random.pick(b"0123456789 ")).collect()
                }
            },
            Blanks(width) => vec![b' '; self.length(width)],
            Party => match (self.service, self.code) {
                (1, _) if self.random.percent(60) => {
                    let length = 1 + self.random.index(10);
                    let digits = self.random.digits(length);
                    let blanks = self.random.pick(&[0, 0, 11 - length, 1]);
                    [" ".repeat(blanks), digits].concat().into()
                }
                (4, 4) => self.random.digits(11).into(),
                _ => self.random.account().into(),
            },
            Kid => match (self.kind, self.service, self.code) {
                (kind, 1, _) if kind == *b"50" || self.random.percent(60) => self.kid(false),
                (kind, _, _) if kind == *b"50" => self.kid(true),
                (_, 4, 12) => self.kid(true),
                _ => vec![b' '; self.random.pick(&[0, 0, 0, 1, 24, 25])],
            },
        }
    }

    fn kid(&mut self, either_end: bool) -> Vec<u8> {
        let length = self.random.pick(&[1, 2, 7, 8, 16, 24, 25]);
        let digits = self.random.digits(length);
        match self.random.below(4) {
            0 => format!("{digits:>25}").into(),
            1 if either_end => format!("{digits:<25}").into(),
            _ => digits.into(),
        }
    }

    /// A text that is sound only by chance.
    fn other_text(&mut self, slot: Text) -> Vec<u8> {
        let width = match slot {
            Text::Of(width) | Name(width) | Digits(width) | Blanks(width) => width,
            Party => 11,
            Kid => 25,
        };
        let (fits, any) = (self.random.index(width + 1), self.random.index(2 * width + 2));
        let lengths = [0, 1, width - 1, width, width, fits, fits, width + 1, width + 2, 300, any];
        let length = self.random.pick(&lengths);
        let mut sound = self.text(slot);
        match self.random.below(14) {
            // Too long by blanks, before or behind.
            0 => {
                sound.resize(width + 1, b' ');
                sound.rotate_right(self.random.index(2));
                sound
            }
            1 => vec![b' '; length],
            2 => self.letters(length),
            3 => self.random.digits(length).into(),
            4 => (0..length).map(|_| self.random.draw() as u8).collect(),
            5 => (0..length).map(|_| self.random.pick(b"0123456789 ")).collect(),
            // One byte of a sound one is another.
            6 | 7 if !sound.is_empty() => {
                let at = self.random.index(sound.len());
                let any = self.random.draw() as u8;
                sound[at] =
                    self.random.pick(&[any, any, 0, 10, 13, 31, 127, 128, 159, b' ', b'x', b'0']);
                sound
            }
            8 => match slot {
                Party => self.wrong_account().into(),
                // At the left, with as many bytes as the field has, or fewer.
                Kid => {
                    let length = 1 + self.random.index(25);
                    let mut kid = self.random.digits(length).into_bytes();
                    let behind = self.random.index(26 - length);
                    kid.resize(self.random.pick(&[length + behind, 25]), b' ');
                    kid
                }
                _ => self.letters(length),
            },
            9 => match slot {
                Party => self.random.pick(&[ACCOUNT, "           ", "1          ", "1 2"]).into(),
                Kid => self.random.pick(&["1 1", "11                      1", "-1", "1x"]).into(),
                _ => vec![b' '; width],
            },
            10 => self.random.digits(width).into(),
            // It fits, and one byte is no letter.
            11 | 12 => {
                let mut text = self.letters(fits.max(1));
                let at = self.random.index(text.len());
                text[at] = self.random.pick(&[0, 10, 31, 127, 128, 159]);
                text
            }
            _ => {
                let last = self.random.index(2);
                sound.truncate(sound.len().saturating_sub(last));
                sound.push(self.random.pick(b" 07xK"));
                sound
            }
        }
    }
}

/// The numbers and the texts of values as a line has them.
fn words(values: Values) -> Vec<Vec<u8>> {
    let n = |number: u64| number.to_string().into_bytes();
    let t = |text: &[u8]| text.to_vec();
    let head = |kind: &[u8], service, code, number| vec![t(kind), n(service), n(code), n(number)];
    let with = |head: Vec<Vec<u8>>, more: Vec<Vec<u8>>| [head, more].concat();
    match values {
        Values::FileStart { sender, number } => vec![t(b"10"), n(sender), n(number)],
        Values::AssignmentStart { service, agreement, assignment, account } => {
            vec![t(b"20"), n(service), n(agreement), n(assignment), n(account)]
        }
        Values::Amount1 { service, code, number, date, party, amount, kid } => with(
            head(b"30", service, code, number),
            vec![format!("{date:06}").into(), t(party), n(amount), t(kid)],
        ),
        Values::Amount2 { service, code, number, texts } => {
            with(head(b"31", service, code, number), texts.map(t).into())
        }
        Values::Address { service, code, number, name, postal, filler, area } => {
            with(head(b"40", service, code, number), [name, postal, filler, area].map(t).into())
        }
        Values::Address2 { service, code, number, address1, address2, country } => {
            with(head(b"41", service, code, number), [address1, address2, country].map(t).into())
        }
        Values::Message { service, code, number, line, column, text } => {
            with(head(b"49", service, code, number), vec![n(line), n(column), t(text)])
        }
        Values::SubSpec { service, code, number, kid, amount } => {
            with(head(b"50", service, code, number), vec![t(kid), n(amount)])
        }
    }
}

/// A line of these values, without its end.
pub fn line(values: Values) -> Vec<u8> {
    words(values).join(&b';')
}

/// A draft's records as values without the blanks that making puts.
pub fn bare_values(draft: &[u8]) -> Vec<Values<'_>> {
    let (records, _) = draft.as_chunks::<RECORD>();
    let values = |record| Values::of(record).expect("no record of a draft").bare();
    records.iter().map(values).collect()
}

/// A draft's records as lines, written plainly.
pub fn plain_lines(draft: &[u8]) -> Vec<u8> {
    bare_values(draft)
        .into_iter()
        .flat_map(|values| [line(values), b"\n".to_vec()].concat())
        .collect()
}

/// A draft's records as lines, written in one of the ways that come to the same. A text
/// with a semicolon in it cannot be written, so there has to be none.
pub fn lines(random: &mut Random, draft: &[u8]) -> Vec<u8> {
    let (records, _) = draft.as_chunks::<RECORD>();
    let end: &[u8] = random.pick(&[b"\n", b"\n", b"\r\n"]);
    let padded = random.pick(&[0, 0, 3]);
    let mut text = Vec::new();
    for (at, record) in records.iter().enumerate() {
        if random.percent(6) {
            let passed: &[u8] = random.pick(&[b"", b"", b"# 10;x;\xFF", b"#", b";", b";;;;;;;;"]);
            text.extend([passed, end].concat());
        }
        let values = Values::of(record).expect("no record of a draft");
        let bare = random.percent(70);
        let mut words = words(if bare { values.bare() } else { values });
        // The first values are numbers in every type of record.
        for word in words.iter_mut().skip(1).take(3) {
            if random.percent(10) {
                *word = [&b"00000000000000000000000"[..random.index(24)], word].concat();
            }
        }
        text.extend(words.join(&b';'));
        text.extend(vec![b';'; random.index(padded + 1)]);
        if at + 1 < records.len() || random.percent(70) {
            text.extend(end);
        }
    }
    text
}

/// Makes some change in lines.
pub fn damage(random: &mut Random, text: &mut Vec<u8>) {
    let places = |text: &[u8], of: &[u8]| -> Vec<usize> {
        (0..text.len()).filter(|&at| of.contains(&text[at])).collect()
    };
    let marks = places(text, b";\n");
    let any = random.draw() as u8;
    let byte = random.pick(&[any, any, 0, b'\r', b'\n', b';', b'x', b' ', b'0', b'9', b'#']);
    match random.below(9) {
        // Behind or before a mark, where a value begins or ends.
        0 | 1 if !marks.is_empty() => {
            let at = random.pick(&marks);
            text.insert(at + random.index(2), byte);
        }
        2 if !marks.is_empty() => drop(text.remove(random.pick(&marks))),
        3 if !marks.is_empty() => {
            let at = random.pick(&marks);
            let length = random.pick(&[1, 5, 12, 26, 31]);
            let digits = random.digits(length);
            text.splice(at..at, digits.bytes());
        }
        4 if !text.is_empty() => {
            let at = random.index(text.len());
            text[at] = byte;
        }
        5 if !text.is_empty() => drop(text.remove(random.index(text.len()))),
        6 => text.truncate(random.index(text.len() + 1)),
        7 => {
            let digits = places(text, b"0123456789");
            if !digits.is_empty() {
                let at = random.pick(&digits);
                text[at] = random.pick(b"0123456789");
            }
        }
        _ => text.insert(random.index(text.len() + 1), byte),
    }
}
