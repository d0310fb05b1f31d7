//! Records made from values, and a draft made from lines of values.
//!
//! A value that is too long for its field is looked for first, over all values;
//! then the rules that look at the made record alone; a short output last. What
//! needs an earlier record or the process day is left to closing.

use crate::checker::{
    Fault, Payment, Record, Service, account, at, demand, fault, texts as sound_texts,
};
use crate::date::Date;
use crate::field::Kid;
use crate::figures::Ore;
use crate::{RECORD, Refused};

/// What making a record answers.
pub type Making = Result<(), Refused>;

impl From<Fault> for Refused {
    fn from(Fault { number, field }: Fault) -> Self {
        Self { number, operand: 0, record: 0, field }
    }
}

/// The bytes from one position to another, both counted from 1, to be written.
macro_rules! field {
    ($record:expr, $from:literal ..= $to:literal) => {
        &mut $record[$from - 1..$to]
    };
}

/// A record of this type with nothing but zeros in it.
#[inline]
fn zeros(kind: &[u8; 2]) -> Record {
    let mut record = [b'0'; RECORD];
    record[..2].copy_from_slice(b"NY");
    record[6..8].copy_from_slice(kind);
    record[80] = b'\n';
    record
}

/// Puts a number to the right, two digits at a time, into a field of zeros. It has room.
#[inline]
fn put(field: &mut [u8], mut value: u64) {
    for digits in field.rchunks_mut(2) {
        if value == 0 {
            return;
        }
        let pair = (value % 100) as u8;
        value /= 100;
        match digits {
            [tens, ones] => {
                *tens = b'0' + pair / 10;
                *ones = b'0' + pair % 10;
            }
            _ => digits[0] = b'0' + pair,
        }
    }
}

/// Puts a text to the left, blanks behind it.
#[inline]
fn put_left(field: &mut [u8], text: &[u8]) {
    field.fill(b' ');
    field[..text.len()].copy_from_slice(text);
}

/// Puts a text to the right, blanks before it.
#[inline]
fn put_right(field: &mut [u8], text: &[u8]) {
    field.fill(b' ');
    let from = field.len() - text.len();
    field[from..].copy_from_slice(text);
}

/// Refuses a number of more than so many places.
#[inline]
fn places(value: u64, places: u32, field: u8) -> Result<(), Fault> {
    demand(value < 10u64.pow(places), 22, field)
}

/// Refuses a text of more than so many bytes.
#[inline]
fn bytes(text: &[u8], most: usize, field: u8) -> Result<(), Fault> {
    demand(text.len() <= most, 22, field)
}

/// Refuses a service, a type or a transaction number that is too long.
#[inline]
fn places_of_head(service: u64, code: u64, number: u64) -> Result<(), Fault> {
    places(service, 2, 2)?;
    places(code, 2, 3)?;
    places(number, 7, 5)
}

/// What records 30 to 50 begin with.
#[inline]
fn head(kind: &[u8; 2], service: u64, code: u64, number: u64) -> Record {
    let mut record = zeros(kind);
    put(field!(record, 3..=4), service);
    put(field!(record, 5..=6), code);
    put(field!(record, 9..=15), number);
    record
}

#[inline]
fn service_of(record: &Record) -> Result<Service, Fault> {
    Service::of(at!(record, 3..=4)).ok_or_else(|| fault(7, 2))
}

/// What the service and the type come to, the type being listed for the service.
#[inline]
fn payment_of(record: &Record) -> Result<Payment, Fault> {
    Payment::of(service_of(record)?, at!(record, 5..=6)).ok_or_else(|| fault(7, 3))
}

/// Puts a sound record into the output.
#[inline]
fn deliver(record: &Record, out: &mut [u8]) -> Making {
    let place = out.first_chunk_mut().ok_or(Refused::whole(19))?;
    *place = *record;
    Ok(())
}

pub fn make10(sender: u64, number: u64, out: &mut [u8]) -> Making {
    places(sender, 8, 5)?;
    places(number, 7, 6)?;
    let mut record = zeros(b"10");
    put(field!(record, 9..=16), sender);
    put(field!(record, 17..=23), number);
    put(field!(record, 24..=31), 8080);
    deliver(&record, out)
}

pub fn make20(
    service: u64,
    agreement: u64,
    assignment: u64,
    account_number: u64,
    out: &mut [u8],
) -> Making {
    places(service, 2, 2)?;
    places(agreement, 9, 5)?;
    places(assignment, 7, 6)?;
    places(account_number, 11, 7)?;
    let mut record = zeros(b"20");
    put(field!(record, 3..=4), service);
    put(field!(record, 9..=17), agreement);
    put(field!(record, 18..=24), assignment);
    put(field!(record, 25..=35), account_number);
    service_of(&record)?;
    account(at!(record, 25..=35), 7)?;
    deliver(&record, out)
}

#[allow(clippy::too_many_arguments)]
pub fn make30(
    service: u64,
    code: u64,
    number: u64,
    date: u64,
    party: &[u8],
    amount: u64,
    kid: &[u8],
    out: &mut [u8],
) -> Making {
    places_of_head(service, code, number)?;
    places(date, 6, 6)?;
    bytes(party, 11, 7)?;
    places(amount, 17, 8)?;
    bytes(kid, 25, 9)?;
    let mut record = head(b"30", service, code, number);
    put(field!(record, 16..=21), date);
    put_right(field!(record, 22..=32), party);
    put(field!(record, 33..=49), amount);
    put_right(field!(record, 50..=74), kid);
    let payment = payment_of(&record)?;
    demand(Date::from_ddmmyy(date as u32).is_some(), 9, 6)?;
    payment.party(at!(record, 22..=32))?;
    demand(payment.allows(Ore(amount)), 13, 8)?;
    payment.kid(at!(record, 50..=74))?;
    deliver(&record, out)
}

pub fn make31(
    service: u64,
    code: u64,
    number: u64,
    [text6, text7, text8]: [&[u8]; 3],
    out: &mut [u8],
) -> Making {
    places_of_head(service, code, number)?;
    bytes(text6, 10, 6)?;
    bytes(text7, 25, 7)?;
    bytes(text8, 25, 8)?;
    let mut record = head(b"31", service, code, number);
    put_left(field!(record, 16..=25), text6);
    put_left(field!(record, 26..=50), text7);
    put_left(field!(record, 51..=75), text8);
    payment_of(&record)?;
    sound_texts(&record)?;
    deliver(&record, out)
}

#[allow(clippy::too_many_arguments)]
pub fn make40(
    service: u64,
    code: u64,
    number: u64,
    name: &[u8],
    postal: &[u8],
    filler: &[u8],
    area: &[u8],
    out: &mut [u8],
) -> Making {
    places_of_head(service, code, number)?;
    bytes(name, 30, 6)?;
    bytes(postal, 4, 7)?;
    bytes(filler, 3, 8)?;
    bytes(area, 25, 9)?;
    let mut record = head(b"40", service, code, number);
    put_left(field!(record, 16..=45), name);
    put_left(field!(record, 46..=49), postal);
    put_left(field!(record, 50..=52), filler);
    put_left(field!(record, 53..=77), area);
    payment_of(&record)?.address(&record)?;
    deliver(&record, out)
}

pub fn make41(
    service: u64,
    code: u64,
    number: u64,
    address1: &[u8],
    address2: &[u8],
    country: &[u8],
    out: &mut [u8],
) -> Making {
    places_of_head(service, code, number)?;
    bytes(address1, 30, 6)?;
    bytes(address2, 30, 7)?;
    bytes(country, 3, 8)?;
    let mut record = head(b"41", service, code, number);
    put_left(field!(record, 16..=45), address1);
    put_left(field!(record, 46..=75), address2);
    put_left(field!(record, 76..=78), country);
    payment_of(&record)?.address2(&record)?;
    deliver(&record, out)
}

/// By the layout of its service; what is no service has service 01's.
pub fn make49(
    service: u64,
    code: u64,
    number: u64,
    line: u64,
    column: u64,
    text: &[u8],
    out: &mut [u8],
) -> Making {
    places_of_head(service, code, number)?;
    // Service 01 has a notification code before the line.
    let field = if service == 4 { 6 } else { 7 };
    places(line, 3, field)?;
    places(column, 1, field + 1)?;
    bytes(text, 40, field + 2)?;
    let mut record = head(b"49", service, code, number);
    if service == 4 {
        put(field!(record, 16..=18), line);
        put(field!(record, 19..=19), column);
        put_left(field!(record, 20..=59), text);
    } else {
        put(field!(record, 16..=16), 3);
        put(field!(record, 17..=19), line);
        put(field!(record, 20..=20), column);
        put_left(field!(record, 21..=60), text);
    }
    payment_of(&record)?;
    let service = service_of(&record)?;
    service.place(&record)?;
    service.message(&record)?;
    deliver(&record, out)
}

pub fn make50(
    service: u64,
    code: u64,
    number: u64,
    kid: &[u8],
    amount: u64,
    out: &mut [u8],
) -> Making {
    places_of_head(service, code, number)?;
    bytes(kid, 25, 6)?;
    places(amount, 17, 7)?;
    let mut record = head(b"50", service, code, number);
    put_right(field!(record, 16..=40), kid);
    put(field!(record, 41..=57), amount);
    let service = service_of(&record)?;
    demand(code == 16 || code == 17, 7, 3)?;
    let kid = Kid::new(at!(record, 16..=40));
    let sound = match service {
        Service::Autogiro => kid.is_at_right(),
        Service::Remittance => kid.is_at_either_end(),
    };
    demand(sound, 8, 6)?;
    deliver(&record, out)
}

/// The values of a record of each type, in the order of its fields.
#[derive(Clone, Copy, Debug, PartialEq, Eq)]
pub enum Values<'a> {
    FileStart {
        sender: u64,
        number: u64,
    },
    AssignmentStart {
        service: u64,
        agreement: u64,
        assignment: u64,
        account: u64,
    },
    Amount1 {
        service: u64,
        code: u64,
        number: u64,
        date: u64,
        party: &'a [u8],
        amount: u64,
        kid: &'a [u8],
    },
    Amount2 {
        service: u64,
        code: u64,
        number: u64,
        texts: [&'a [u8]; 3],
    },
    Address {
        service: u64,
        code: u64,
        number: u64,
        name: &'a [u8],
        postal: &'a [u8],
        filler: &'a [u8],
        area: &'a [u8],
    },
    Address2 {
        service: u64,
        code: u64,
        number: u64,
        address1: &'a [u8],
        address2: &'a [u8],
        country: &'a [u8],
    },
    Message {
        service: u64,
        code: u64,
        number: u64,
        line: u64,
        column: u64,
        text: &'a [u8],
    },
    SubSpec {
        service: u64,
        code: u64,
        number: u64,
        kid: &'a [u8],
        amount: u64,
    },
}

/// Makes the record of these values.
#[inline]
pub fn make(values: Values, out: &mut [u8]) -> Making {
    match values {
        Values::FileStart { sender, number } => make10(sender, number, out),
        Values::AssignmentStart { service, agreement, assignment, account } => {
            make20(service, agreement, assignment, account, out)
        }
        Values::Amount1 { service, code, number, date, party, amount, kid } => {
            make30(service, code, number, date, party, amount, kid, out)
        }
        Values::Amount2 { service, code, number, texts } => {
            make31(service, code, number, texts, out)
        }
        Values::Address { service, code, number, name, postal, filler, area } => {
            make40(service, code, number, name, postal, filler, area, out)
        }
        Values::Address2 { service, code, number, address1, address2, country } => {
            make41(service, code, number, address1, address2, country, out)
        }
        Values::Message { service, code, number, line, column, text } => {
            make49(service, code, number, line, column, text, out)
        }
        Values::SubSpec { service, code, number, kid, amount } => {
            make50(service, code, number, kid, amount, out)
        }
    }
}

/// The number in a field of digits; what is no digit counts as 0.
fn number_in(field: &[u8]) -> u64 {
    field.iter().fold(0, |value, byte| value * 10 + u64::from(byte.saturating_sub(b'0').min(9)))
}

impl<'a> Values<'a> {
    /// The values of a made record, each text with its blanks. Other records have none.
    pub fn of(r: &'a Record) -> Option<Self> {
        let (service, code) = (number_in(at!(r, 3..=4)), number_in(at!(r, 5..=6)));
        let number = number_in(at!(r, 9..=15));
        Some(match at!(r, 7..=8) {
            b"10" => Self::FileStart {
                sender: number_in(at!(r, 9..=16)),
                number: number_in(at!(r, 17..=23)),
            },
            b"20" => Self::AssignmentStart {
                service,
                agreement: number_in(at!(r, 9..=17)),
                assignment: number_in(at!(r, 18..=24)),
                account: number_in(at!(r, 25..=35)),
            },
            b"30" => Self::Amount1 {
                service,
                code,
                number,
                date: number_in(at!(r, 16..=21)),
                party: at!(r, 22..=32),
                amount: number_in(at!(r, 33..=49)),
                kid: at!(r, 50..=74),
            },
            b"31" => {
                let texts: [&[u8]; 3] = [at!(r, 16..=25), at!(r, 26..=50), at!(r, 51..=75)];
                Self::Amount2 { service, code, number, texts }
            }
            b"40" => Self::Address {
                service,
                code,
                number,
                name: at!(r, 16..=45),
                postal: at!(r, 46..=49),
                filler: at!(r, 50..=52),
                area: at!(r, 53..=77),
            },
            b"41" => Self::Address2 {
                service,
                code,
                number,
                address1: at!(r, 16..=45),
                address2: at!(r, 46..=75),
                country: at!(r, 76..=78),
            },
            b"49" if service == 4 => Self::Message {
                service,
                code,
                number,
                line: number_in(at!(r, 16..=18)),
                column: number_in(at!(r, 19..=19)),
                text: at!(r, 20..=59),
            },
            b"49" => Self::Message {
                service,
                code,
                number,
                line: number_in(at!(r, 17..=19)),
                column: number_in(at!(r, 20..=20)),
                text: at!(r, 21..=60),
            },
            b"50" => Self::SubSpec {
                service,
                code,
                number,
                kid: at!(r, 16..=40),
                amount: number_in(at!(r, 41..=57)),
            },
            _ => return None,
        })
    }

    /// The same without the blanks that making puts.
    #[must_use]
    pub fn bare(mut self) -> Self {
        fn left(text: &mut &[u8]) {
            while let [rest @ .., b' '] = text {
                *text = rest;
            }
        }
        fn right(text: &mut &[u8]) {
            while let [b' ', rest @ ..] = text {
                *text = rest;
            }
        }
        match &mut self {
            Self::FileStart { .. } | Self::AssignmentStart { .. } => {}
            Self::Amount1 { party, kid, .. } => [party, kid].into_iter().for_each(right),
            Self::Amount2 { texts, .. } => texts.iter_mut().for_each(left),
            Self::Address { name, postal, filler, area, .. } => {
                [name, postal, filler, area].into_iter().for_each(left);
            }
            Self::Address2 { address1, address2, country, .. } => {
                [address1, address2, country].into_iter().for_each(left);
            }
            Self::Message { text, .. } => left(text),
            Self::SubSpec { kid, .. } => right(kid),
        }
        self
    }
}

/// The most records that a draft may have: a file has an 88 and an 89 besides.
const MOST_RECORDS: usize = crate::MAX_RECORDS - 2;

/// Why a draft could not be made, and where.
#[derive(Clone, Copy, Debug, PartialEq, Eq)]
pub struct BadLine {
    pub number: u8,
    /// From 1; 0 if the refusal is of no one line.
    pub line: usize,
    /// 0 if the refusal is of no one field.
    pub field: u8,
}

/// What making a draft answers: how many records were made.
pub type Drafting = Result<usize, BadLine>;

/// Makes a draft of lines of values. Records made before a refused line stay.
pub fn make_draft(values: &[u8], out: &mut [u8]) -> Drafting {
    make_draft_with(values, out, make)
}

/// As [`make_draft`], each record made by `make`.
pub fn make_draft_with(
    values: &[u8],
    out: &mut [u8],
    mut make: impl FnMut(Values, &mut [u8]) -> Making,
) -> Drafting {
    match lines(values).count() {
        0 => return Err(BadLine { number: 2, line: 0, field: 0 }),
        1..=MOST_RECORDS => {}
        _ => return Err(BadLine { number: 3, line: 0, field: 0 }),
    }
    let mut records = 0;
    for (line, text) in lines(values) {
        let rest = &mut out[records * RECORD..];
        let made = read(text).map_err(Refused::from).and_then(|values| make(values, rest));
        made.map_err(|Refused { number, field, .. }| BadLine { number, line, field })?;
        records += 1;
    }
    Ok(records)
}

/// The lines that bear a record, each with its number.
fn lines(values: &[u8]) -> impl Iterator<Item = (usize, &[u8])> {
    let lines = values.split(|&byte| byte == b'\n');
    let lines = lines.map(|line| line.strip_suffix(b"\r").unwrap_or(line));
    let bears = |line: &[u8]| !line.starts_with(b"#") && line.iter().any(|&byte| byte != b';');
    (1..).zip(lines).filter(move |(_, line)| bears(line))
}

/// A number that stands in digits. One beyond 64 bits is as great as can be:
/// too long for every field.
fn number_of(digits: &[u8]) -> Option<u64> {
    let digit = |value: u64, byte: &u8| {
        let digit = byte.is_ascii_digit().then(|| u64::from(byte - b'0'))?;
        Some(value.saturating_mul(10).saturating_add(digit))
    };
    if digits.is_empty() { None } else { digits.iter().try_fold(0, digit) }
}

/// The fields of a line's values, numbers and texts.
#[derive(Clone, Copy)]
enum Column {
    Number(u8),
    Text(u8),
}

/// The columns behind the type. Those of a 49 are by its service.
fn columns(kind: &[u8], service: Option<u64>) -> Option<&'static [Column]> {
    use Column::{Number, Text};
    Some(match kind {
        b"10" => &[Number(5), Number(6)],
        b"20" => &[Number(2), Number(5), Number(6), Number(7)],
        b"30" => &[Number(2), Number(3), Number(5), Number(6), Text(7), Number(8), Text(9)],
        b"31" => &[Number(2), Number(3), Number(5), Text(6), Text(7), Text(8)],
        b"40" => &[Number(2), Number(3), Number(5), Text(6), Text(7), Text(8), Text(9)],
        b"41" => &[Number(2), Number(3), Number(5), Text(6), Text(7), Text(8)],
        b"49" if service == Some(4) => {
            &[Number(2), Number(3), Number(5), Number(6), Number(7), Text(8)]
        }
        b"49" => &[Number(2), Number(3), Number(5), Number(7), Number(8), Text(9)],
        b"50" => &[Number(2), Number(3), Number(5), Text(6), Number(7)],
        _ => return None,
    })
}

/// The values of a line that bears a record.
fn read(line: &[u8]) -> Result<Values<'_>, Fault> {
    let mut parts = line.split(|&byte| byte == b';');
    let kind = parts.next().unwrap_or_default();
    let service = parts.clone().next().and_then(number_of);
    let columns = columns(kind, service).ok_or_else(|| fault(7, 4))?;

    let mut texts: [&[u8]; 7] = [b""; 7];
    for (text, &(Column::Number(field) | Column::Text(field))) in texts.iter_mut().zip(columns) {
        *text = parts.next().ok_or_else(|| fault(8, field))?;
    }
    demand(parts.all(<[u8]>::is_empty), 8, 0)?;

    let mut numbers = [0; 7];
    for (at, column) in columns.iter().enumerate() {
        if let &Column::Number(field) = column {
            numbers[at] = number_of(texts[at]).ok_or_else(|| fault(8, field))?;
        }
    }
    let [service, code, number, ..] = numbers;
    Ok(match kind {
        b"10" => Values::FileStart { sender: numbers[0], number: numbers[1] },
        b"20" => Values::AssignmentStart {
            service,
            agreement: numbers[1],
            assignment: numbers[2],
            account: numbers[3],
        },
        b"30" => Values::Amount1 {
            service,
            code,
            number,
            date: numbers[3],
            party: texts[4],
            amount: numbers[5],
            kid: texts[6],
        },
        b"31" => Values::Amount2 { service, code, number, texts: [texts[3], texts[4], texts[5]] },
        b"40" => Values::Address {
            service,
            code,
            number,
            name: texts[3],
            postal: texts[4],
            filler: texts[5],
            area: texts[6],
        },
        b"41" => Values::Address2 {
            service,
            code,
            number,
            address1: texts[3],
            address2: texts[4],
            country: texts[5],
        },
        b"49" => Values::Message {
            service,
            code,
            number,
            line: numbers[3],
            column: numbers[4],
            text: texts[5],
        },
        _ => Values::SubSpec { service, code, number, kid: texts[3], amount: numbers[4] },
    })
}
