//! The pay office's operations for programs in Rust: the declarations of `include/pay.h`, and safe functions over them.
//! The header says what goes in, what comes out and how much room an output needs; `check.rs` is a program over this file.
//!
//! To use it in a package, copy it to `src/` and let `build.rs` name the archive:
//!
//! ```text
//! println!("cargo::rustc-link-search=native=/where/it/lies");
//! println!("cargo::rustc-link-lib=static=pay_c");
//! ```

unsafe extern "C" {
    fn pay_check(
        year: u64,
        month: u64,
        day: u64,
        file: *const u8,
        file_length: u64,
        answer: *mut [u64; 16],
    );
    fn pay_close(
        year: u64,
        month: u64,
        day: u64,
        draft: *const u8,
        draft_length: u64,
        out: *mut u8,
        out_length: u64,
        answer: *mut [u64; 16],
    );
    fn pay_join(
        year: u64,
        month: u64,
        day: u64,
        first: *const u8,
        first_length: u64,
        second: *const u8,
        second_length: u64,
        out: *mut u8,
        out_length: u64,
        answer: *mut [u64; 16],
    );
    fn pay_part(
        year: u64,
        month: u64,
        day: u64,
        file: *const u8,
        file_length: u64,
        k: u64,
        first: *mut u8,
        first_length: u64,
        second: *mut u8,
        second_length: u64,
        answer: *mut [u64; 16],
    );
    fn pay_make10(sender: u64, number: u64, out: *mut u8, out_length: u64, answer: *mut [u64; 16]);
    fn pay_make20(
        service: u64,
        agreement: u64,
        assignment: u64,
        account: u64,
        out: *mut u8,
        out_length: u64,
        answer: *mut [u64; 16],
    );
    fn pay_make30(
        service: u64,
        r#type: u64,
        number: u64,
        date: u64,
        party: *const u8,
        party_length: u64,
        amount: u64,
        kid: *const u8,
        kid_length: u64,
        out: *mut u8,
        out_length: u64,
        answer: *mut [u64; 16],
    );
    fn pay_make31(
        service: u64,
        r#type: u64,
        number: u64,
        text6: *const u8,
        text6_length: u64,
        text7: *const u8,
        text7_length: u64,
        text8: *const u8,
        text8_length: u64,
        out: *mut u8,
        out_length: u64,
        answer: *mut [u64; 16],
    );
    fn pay_make40(
        service: u64,
        r#type: u64,
        number: u64,
        name: *const u8,
        name_length: u64,
        postal: *const u8,
        postal_length: u64,
        filler: *const u8,
        filler_length: u64,
        area: *const u8,
        area_length: u64,
        out: *mut u8,
        out_length: u64,
        answer: *mut [u64; 16],
    );
    fn pay_make41(
        service: u64,
        r#type: u64,
        number: u64,
        address1: *const u8,
        address1_length: u64,
        address2: *const u8,
        address2_length: u64,
        country: *const u8,
        country_length: u64,
        out: *mut u8,
        out_length: u64,
        answer: *mut [u64; 16],
    );
    fn pay_make49(
        service: u64,
        r#type: u64,
        number: u64,
        line: u64,
        column: u64,
        text: *const u8,
        text_length: u64,
        out: *mut u8,
        out_length: u64,
        answer: *mut [u64; 16],
    );
    fn pay_make50(
        service: u64,
        r#type: u64,
        number: u64,
        kid: *const u8,
        kid_length: u64,
        amount: u64,
        out: *mut u8,
        out_length: u64,
        answer: *mut [u64; 16],
    );
}

pub const PAY_RECORD_BYTES: usize = 81;
pub const PAY_MOST_BYTES: usize = 16200000;

const PAY_WHAT: usize = 0;
const PAY_NUMBER: usize = 1;
const PAY_OPERAND: usize = 2;
const PAY_RECORD: usize = 3;
const PAY_FIELD: usize = 4;
const PAY_ASSIGNMENTS: usize = 5;
const PAY_TRANSACTIONS: usize = 6;
const PAY_RECORDS: usize = 7;
const PAY_SUM: usize = 8;
const PAY_FIRST_DATE: usize = 9;
const PAY_WRITTEN: usize = 10;
const PAY_WRITTEN_SECOND: usize = 15;
const PAY_ANSWER: usize = 16;

const PAY_REFUSED: u64 = 0;

/// The process day: 2025, 10, 1. Any numbers may stand here; what is no date is refused.
#[derive(Clone, Copy, Debug)]
pub struct Day {
    pub year: u64,
    pub month: u64,
    pub day: u64,
}

/// The figures of a file that was checked or written, and how many bytes of the output are the file.
#[derive(Clone, Copy, Debug, PartialEq, Eq)]
pub struct Accepted {
    pub assignments: u64,
    pub transactions: u64,
    pub records: u64,
    /// in hundredths of a krone
    pub sum: u64,
    /// as 20251101
    pub first_date: u64,
    pub written: usize,
}

/// How many bytes of the two outputs are the parts.
#[derive(Clone, Copy, Debug, PartialEq, Eq)]
pub struct Parted {
    pub written: usize,
    pub written_second: usize,
}

/// Service, type (`code`) and number of a transaction, which its records repeat: 4, 2, 1. A 50 has a type of its own, 16 or 17.
#[derive(Clone, Copy, Debug)]
pub struct Transaction {
    pub service: u64,
    pub code: u64,
    pub number: u64,
}

/// The first fault. No byte of an output was changed.
#[derive(Clone, Copy, Debug, PartialEq, Eq)]
pub struct Refused {
    pub number: u64,
    /// which of two files, when joining: 1 or 2, else 0
    pub operand: u64,
    /// 0 for the whole file, and when making
    pub record: u64,
    pub field: u64,
}

type Answer = [u64; PAY_ANSWER];

fn refused(answer: &Answer) -> Result<(), Refused> {
    if answer[PAY_WHAT] != PAY_REFUSED {
        return Ok(());
    }
    Err(Refused {
        number: answer[PAY_NUMBER],
        operand: answer[PAY_OPERAND],
        record: answer[PAY_RECORD],
        field: answer[PAY_FIELD],
    })
}

fn accepted(answer: &Answer) -> Result<Accepted, Refused> {
    refused(answer)?;
    Ok(Accepted {
        assignments: answer[PAY_ASSIGNMENTS],
        transactions: answer[PAY_TRANSACTIONS],
        records: answer[PAY_RECORDS],
        sum: answer[PAY_SUM],
        first_date: answer[PAY_FIRST_DATE],
        written: answer[PAY_WRITTEN] as usize,
    })
}

fn parted(answer: &Answer) -> Result<Parted, Refused> {
    refused(answer)?;
    Ok(Parted {
        written: answer[PAY_WRITTEN] as usize,
        written_second: answer[PAY_WRITTEN_SECOND] as usize,
    })
}

fn made(answer: &Answer) -> Result<usize, Refused> {
    refused(answer)?;
    Ok(answer[PAY_WRITTEN] as usize)
}

// In each call below: a pointer goes with the length of its slice, and a slice that is lent for writing overlaps nothing else.

/// Is this file as the clearing house wants it?
pub fn check(on: Day, file: &[u8]) -> Result<Accepted, Refused> {
    let mut answer = [0; PAY_ANSWER];
    // SAFETY: as above.
    unsafe { pay_check(on.year, on.month, on.day, file.as_ptr(), file.len() as u64, &mut answer) };
    accepted(&answer)
}

/// Adds the end records 88 and 89 to a draft. `2 * draft.len() + PAY_RECORD_BYTES` bytes of room are always enough.
pub fn close(on: Day, draft: &[u8], out: &mut [u8]) -> Result<Accepted, Refused> {
    let (from, length) = (draft.as_ptr(), draft.len() as u64);
    let mut answer = [0; PAY_ANSWER];
    // SAFETY: as above.
    unsafe {
        pay_close(
            on.year,
            on.month,
            on.day,
            from,
            length,
            out.as_mut_ptr(),
            out.len() as u64,
            &mut answer,
        )
    };
    accepted(&answer)
}

/// Makes one file of two. `first.len() + second.len()` bytes of room are always enough.
pub fn join(on: Day, first: &[u8], second: &[u8], out: &mut [u8]) -> Result<Accepted, Refused> {
    let (one, one_length) = (first.as_ptr(), first.len() as u64);
    let (two, two_length) = (second.as_ptr(), second.len() as u64);
    let (to, room) = (out.as_mut_ptr(), out.len() as u64);
    let mut answer = [0; PAY_ANSWER];
    // SAFETY: as above.
    unsafe {
        pay_join(on.year, on.month, on.day, one, one_length, two, two_length, to, room, &mut answer)
    };
    accepted(&answer)
}

/// Makes two files of one, the first `k` assignments and the others. `file.len()` bytes of room for each are always enough.
pub fn part(
    on: Day,
    file: &[u8],
    k: u64,
    first: &mut [u8],
    second: &mut [u8],
) -> Result<Parted, Refused> {
    let (from, length) = (file.as_ptr(), file.len() as u64);
    let (one, one_room) = (first.as_mut_ptr(), first.len() as u64);
    let (two, two_room) = (second.as_mut_ptr(), second.len() as u64);
    let mut answer = [0; PAY_ANSWER];
    // SAFETY: as above.
    unsafe {
        pay_part(
            on.year,
            on.month,
            on.day,
            from,
            length,
            k,
            one,
            one_room,
            two,
            two_room,
            &mut answer,
        )
    };
    parted(&answer)
}

// Each of these makes a record from values at the start of the output, and gives how many bytes it has: PAY_RECORD_BYTES, which are always room enough.
// Texts are bytes of ISO 8859-1. A date is the number DDMMYY, 1 November 2025 being 11125.

/// The start of a file.
pub fn make10(sender: u64, number: u64, out: &mut [u8]) -> Result<usize, Refused> {
    let mut answer = [0; PAY_ANSWER];
    // SAFETY: as above.
    unsafe { pay_make10(sender, number, out.as_mut_ptr(), out.len() as u64, &mut answer) };
    made(&answer)
}

/// The start of an assignment.
pub fn make20(
    service: u64,
    agreement: u64,
    assignment: u64,
    account: u64,
    out: &mut [u8],
) -> Result<usize, Refused> {
    let (to, room) = (out.as_mut_ptr(), out.len() as u64);
    let mut answer = [0; PAY_ANSWER];
    // SAFETY: as above.
    unsafe { pay_make20(service, agreement, assignment, account, to, room, &mut answer) };
    made(&answer)
}

/// A payment or a claim.
pub fn make30(
    of: Transaction,
    date: u64,
    party: &[u8],
    amount: u64,
    kid: &[u8],
    out: &mut [u8],
) -> Result<usize, Refused> {
    let mut answer = [0; PAY_ANSWER];
    // SAFETY: as above.
    unsafe {
        pay_make30(
            of.service,
            of.code,
            of.number,
            date,
            party.as_ptr(),
            party.len() as u64,
            amount,
            kid.as_ptr(),
            kid.len() as u64,
            out.as_mut_ptr(),
            out.len() as u64,
            &mut answer,
        )
    };
    made(&answer)
}

/// The references of a payment: short name, own reference, reference for the other party.
pub fn make31(
    of: Transaction,
    text6: &[u8],
    text7: &[u8],
    text8: &[u8],
    out: &mut [u8],
) -> Result<usize, Refused> {
    let mut answer = [0; PAY_ANSWER];
    // SAFETY: as above.
    unsafe {
        pay_make31(
            of.service,
            of.code,
            of.number,
            text6.as_ptr(),
            text6.len() as u64,
            text7.as_ptr(),
            text7.len() as u64,
            text8.as_ptr(),
            text8.len() as u64,
            out.as_mut_ptr(),
            out.len() as u64,
            &mut answer,
        )
    };
    made(&answer)
}

/// The payee's address: name, postal code, postal filler, area.
pub fn make40(
    of: Transaction,
    name: &[u8],
    postal: &[u8],
    filler: &[u8],
    area: &[u8],
    out: &mut [u8],
) -> Result<usize, Refused> {
    let mut answer = [0; PAY_ANSWER];
    // SAFETY: as above.
    unsafe {
        pay_make40(
            of.service,
            of.code,
            of.number,
            name.as_ptr(),
            name.len() as u64,
            postal.as_ptr(),
            postal.len() as u64,
            filler.as_ptr(),
            filler.len() as u64,
            area.as_ptr(),
            area.len() as u64,
            out.as_mut_ptr(),
            out.len() as u64,
            &mut answer,
        )
    };
    made(&answer)
}

/// The second half of the payee's address: first and second address line, country code.
pub fn make41(
    of: Transaction,
    address1: &[u8],
    address2: &[u8],
    country: &[u8],
    out: &mut [u8],
) -> Result<usize, Refused> {
    let mut answer = [0; PAY_ANSWER];
    // SAFETY: as above.
    unsafe {
        pay_make41(
            of.service,
            of.code,
            of.number,
            address1.as_ptr(),
            address1.len() as u64,
            address2.as_ptr(),
            address2.len() as u64,
            country.as_ptr(),
            country.len() as u64,
            out.as_mut_ptr(),
            out.len() as u64,
            &mut answer,
        )
    };
    made(&answer)
}

/// A piece of a message. Its line, column and text are fields 6, 7 and 8 in service 4, else 7, 8 and 9.
pub fn make49(
    of: Transaction,
    line: u64,
    column: u64,
    text: &[u8],
    out: &mut [u8],
) -> Result<usize, Refused> {
    let (from, length) = (text.as_ptr(), text.len() as u64);
    let mut answer = [0; PAY_ANSWER];
    // SAFETY: as above.
    unsafe {
        pay_make49(
            of.service,
            of.code,
            of.number,
            line,
            column,
            from,
            length,
            out.as_mut_ptr(),
            out.len() as u64,
            &mut answer,
        )
    };
    made(&answer)
}

/// A sub-specification.
pub fn make50(of: Transaction, kid: &[u8], amount: u64, out: &mut [u8]) -> Result<usize, Refused> {
    let (from, length) = (kid.as_ptr(), kid.len() as u64);
    let mut answer = [0; PAY_ANSWER];
    // SAFETY: as above.
    unsafe {
        pay_make50(
            of.service,
            of.code,
            of.number,
            from,
            length,
            amount,
            out.as_mut_ptr(),
            out.len() as u64,
            &mut answer,
        )
    };
    made(&answer)
}

#[cfg(test)]
mod tests {
    use super::*;

    const ON: Day = Day { year: 2025, month: 10, day: 1 };
    const WHOLE: &[u8] = include_bytes!("../whole.txt");
    const TWIN: &[u8] = include_bytes!("../twin.txt");
    const DRAFT: &[u8] = include_bytes!("../draft.txt");
    const EVERY: &[u8] = include_bytes!("../every.txt");

    fn figures(assignments: u64, written: usize) -> Accepted {
        let (transactions, records) = (assignments, 4 * assignments + 2);
        let (sum, first_date) = (80000 * assignments, 20251101);
        Accepted { assignments, transactions, records, sum, first_date, written }
    }

    fn fault(number: u64, operand: u64, record: u64, field: u64) -> Refused {
        Refused { number, operand, record, field }
    }

    fn joined(first: &[u8], second: &[u8]) -> Vec<u8> {
        let mut out = vec![0; first.len() + second.len()];
        let file = join(ON, first, second, &mut out).expect("two sound files");
        out.truncate(file.written);
        out
    }

    #[test]
    fn a_file_is_checked() {
        assert_eq!(check(ON, WHOLE), Ok(figures(1, 0)));
        assert_eq!(check(ON, DRAFT), Err(fault(6, 0, 5, 0)));
        assert_eq!(check(ON, &[]), Err(fault(2, 0, 0, 0)));
    }

    #[test]
    fn a_draft_is_closed() {
        let mut out = vec![0; 2 * DRAFT.len() + PAY_RECORD_BYTES];
        assert_eq!(close(ON, DRAFT, &mut out), Ok(figures(1, WHOLE.len())));
        assert_eq!(&out[..WHOLE.len()], WHOLE);
        assert_eq!(close(ON, DRAFT, &mut []), Err(fault(19, 0, 0, 0)));
    }

    #[test]
    fn two_files_are_joined() {
        assert_eq!(check(ON, &joined(WHOLE, TWIN)), Ok(figures(2, 0)));
        let mut out = vec![0; WHOLE.len() + WHOLE.len()];
        assert_eq!(join(ON, WHOLE, WHOLE, &mut out), Err(fault(15, 2, 2, 6)));
    }

    #[test]
    fn a_file_is_parted() {
        let mut third = TWIN.to_vec();
        third[PAY_RECORD_BYTES + 23] = b'3';
        let others = joined(TWIN, &third);
        let file = joined(WHOLE, &others);
        let (mut first, mut second) = (vec![0; file.len()], vec![0; file.len()]);
        let parts = part(ON, &file, 1, &mut first, &mut second).expect("three assignments");
        assert_eq!(&first[..parts.written], WHOLE);
        assert_eq!(&second[..parts.written_second], others);
        assert_eq!(part(ON, &file, 3, &mut first, &mut second), Err(fault(21, 0, 0, 0)));
    }

    /// Records of `every.txt` again, from their values.
    #[test]
    fn records_are_made() {
        let pay = |code, number| Transaction { service: 4, code, number };
        let draw = |number| Transaction { service: 1, code: 3, number };
        let mut out = [0; PAY_RECORD_BYTES];
        let mut same = |at: usize, made: &dyn Fn(&mut [u8]) -> Result<usize, Refused>| {
            assert_eq!(made(&mut out), Ok(PAY_RECORD_BYTES));
            assert_eq!(out, EVERY[(at - 1) * PAY_RECORD_BYTES..at * PAY_RECORD_BYTES]);
        };
        same(1, &|out| make10(12345, 110002, out));
        same(2, &|out| make20(4, 1, 1, 12345678903, out));
        same(3, &|out| make30(pay(3, 1), 11125, b"11111111113", 125000, b"", out));
        same(4, &|out| make31(pay(3, 1), b"HANSEN", b"LANDING 441", b"TORSK UKE 44", out));
        same(5, &|out| make40(pay(3, 1), b"KARI HANSEN", b"7680", b"", b"THYBOR\xd8N", out));
        same(6, &|out| make41(pay(3, 1), b"HAVNEGADE 7", b"", b"DK", out));
        same(7, &|out| make49(pay(3, 1), 1, 1, b"TORSK UKE 44: 50 KG", out));
        same(13, &|out| make30(pay(12, 3), 101125, b"22222222226", 45050, b"00012345678", out));
        same(17, &|out| make50(pay(16, 4), b"00012345686", 50000, out));
        same(26, &|out| make49(draw(2), 1, 1, b"IS OKTOBER: 350 KG", out));
    }

    #[test]
    fn values_are_refused() {
        let claim = Transaction { service: 1, code: 3, number: 2 };
        let before = [b'#'; PAY_RECORD_BYTES];
        let mut out = before;
        assert_eq!(make10(100000000, 1, &mut out), Err(fault(22, 0, 0, 5)));
        assert_eq!(make20(4, 1, 1, 12345678904, &mut out), Err(fault(11, 0, 0, 7)));
        assert_eq!(make49(claim, 22, 1, b"", &mut out), Err(fault(7, 0, 0, 7)));
        let slip = Transaction { service: 4, code: 4, number: 1 };
        assert_eq!(make41(slip, b"HAMNGATAN 5", b"", b"SE", &mut out), Err(fault(8, 0, 0, 8)));
        assert_eq!(make49(slip, 22, 1, b"", &mut out), Err(fault(7, 0, 0, 6)));
        assert_eq!(make10(12345, 1, &mut out[..80]), Err(fault(19, 0, 0, 0)));
        assert_eq!(out, before);
    }
}
