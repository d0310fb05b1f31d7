//! The proved operations, through the archive of crate `pay_c`. What the
//! archive does not have answers nothing.

use reference::answer::{self, Answer, PLACES};
use reference::cases::{Case, Operation};
use reference::make::{Making, Values, make_draft_with};

/// What a place has before it is written: no number that an operation gives.
pub const UNWRITTEN: u64 = 0xAAAA_AAAA_AAAA_AAAA;
const UNANSWERED: Answer = [UNWRITTEN; PLACES];

// As include/pay.h has them, parameter by parameter; tests/header.rs holds them to it.
#[allow(dead_code)]
unsafe extern "C" {
    fn pay_check(
        year: u64,
        month: u64,
        day: u64,
        file: *const u8,
        file_length: u64,
        answer: *mut [u64; 16],
    );
    fn pay_close(
        year: u64,
        month: u64,
        day: u64,
        draft: *const u8,
        draft_length: u64,
        out: *mut u8,
        out_length: u64,
        answer: *mut [u64; 16],
    );
    fn pay_join(
        year: u64,
        month: u64,
        day: u64,
        first: *const u8,
        first_length: u64,
        second: *const u8,
        second_length: u64,
        out: *mut u8,
        out_length: u64,
        answer: *mut [u64; 16],
    );
    fn pay_part(
        year: u64,
        month: u64,
        day: u64,
        file: *const u8,
        file_length: u64,
        k: u64,
        first: *mut u8,
        first_length: u64,
        second: *mut u8,
        second_length: u64,
        answer: *mut [u64; 16],
    );
    fn pay_make10(sender: u64, number: u64, out: *mut u8, out_length: u64, answer: *mut [u64; 16]);
    fn pay_make20(
        service: u64,
        agreement: u64,
        assignment: u64,
        account: u64,
        out: *mut u8,
        out_length: u64,
        answer: *mut [u64; 16],
    );
    fn pay_make30(
        service: u64,
        r#type: u64,
        number: u64,
        date: u64,
        party: *const u8,
        party_length: u64,
        amount: u64,
        kid: *const u8,
        kid_length: u64,
        out: *mut u8,
        out_length: u64,
        answer: *mut [u64; 16],
    );
    fn pay_make31(
        service: u64,
        r#type: u64,
        number: u64,
        text6: *const u8,
        text6_length: u64,
        text7: *const u8,
        text7_length: u64,
        text8: *const u8,
        text8_length: u64,
        out: *mut u8,
        out_length: u64,
        answer: *mut [u64; 16],
    );
    fn pay_make40(
        service: u64,
        r#type: u64,
        number: u64,
        name: *const u8,
        name_length: u64,
        postal: *const u8,
        postal_length: u64,
        filler: *const u8,
        filler_length: u64,
        area: *const u8,
        area_length: u64,
        out: *mut u8,
        out_length: u64,
        answer: *mut [u64; 16],
    );
    fn pay_make41(
        service: u64,
        r#type: u64,
        number: u64,
        address1: *const u8,
        address1_length: u64,
        address2: *const u8,
        address2_length: u64,
        country: *const u8,
        country_length: u64,
        out: *mut u8,
        out_length: u64,
        answer: *mut [u64; 16],
    );
    fn pay_make49(
        service: u64,
        r#type: u64,
        number: u64,
        line: u64,
        column: u64,
        text: *const u8,
        text_length: u64,
        out: *mut u8,
        out_length: u64,
        answer: *mut [u64; 16],
    );
    fn pay_make50(
        service: u64,
        r#type: u64,
        number: u64,
        kid: *const u8,
        kid_length: u64,
        amount: u64,
        out: *mut u8,
        out_length: u64,
        answer: *mut [u64; 16],
    );
}

/// Whether the archive makes records of every type.
const MAKES_ALL: bool = cfg!(all(
    pay_make10, pay_make20, pay_make30, pay_make31, pay_make40, pay_make41, pay_make49, pay_make50
));

/// The operations that the archive has.
pub fn operations() -> Vec<Operation> {
    let has = |operation| match operation {
        Operation::Check => cfg!(pay_check),
        Operation::Close => cfg!(pay_close),
        Operation::Join => cfg!(pay_join),
        Operation::Part => cfg!(pay_part),
        Operation::Make10 => cfg!(pay_make10),
        Operation::Make20 => cfg!(pay_make20),
        Operation::Make30 => cfg!(pay_make30),
        Operation::Make31 => cfg!(pay_make31),
        Operation::Make40 => cfg!(pay_make40),
        Operation::Make41 => cfg!(pay_make41),
        Operation::Make49 => cfg!(pay_make49),
        Operation::Make50 => cfg!(pay_make50),
        Operation::MakeDraft => MAKES_ALL,
    };
    Operation::ALL.into_iter().filter(|&operation| has(operation)).collect()
}

/// What is to be said where there is no operation to ask.
pub fn lacking() -> Option<String> {
    let said = concat!("no archive to ask: ", env!("ARCHIVE"), " ", env!("ARCHIVE_FAULT"));
    let remedy = "reference/archive makes one for this machine, and PAY_C may name another";
    operations().is_empty().then(|| format!("{said}; {remedy}"))
}

/// The archive's answer to a case, the outputs being lent to it. A draft is made of its lines
/// record by record; reading the lines is this implementation's.
pub fn ask(case: &Case, out1: &mut [u8], out2: &mut [u8]) -> Option<Answer> {
    if case.operation == Operation::MakeDraft {
        return MAKES_ALL.then(|| answer::of_drafting(make_draft_with(&case.first, out1, making)));
    }
    // The numbers before and behind the answer have to stay.
    let mut answers = [UNANSWERED; 3];
    let asked = asked(case, out1, out2, answers.as_mut_ptr().wrapping_add(1));
    let [before, answer, behind] = answers;
    assert!(before == UNANSWERED && behind == UNANSWERED, "more than an answer was written");
    asked.then_some(answer)
}

#[rustfmt::skip]
#[allow(unused_variables, unreachable_code)]
fn asked(case: &Case, out1: &mut [u8], out2: &mut [u8], answer: *mut Answer) -> bool {
    if let Some(values) = case.values() {
        return make(values, out1, answer);
    }
    let (year, month, day) = case.day;
    let (first, first_length) = (case.first.as_ptr(), case.first.len() as u64);
    let (second, second_length) = (case.second.as_ptr(), case.second.len() as u64);
    let (one, one_length) = (out1.as_mut_ptr(), out1.len() as u64);
    let (two, two_length) = (out2.as_mut_ptr(), out2.len() as u64);
    // SAFETY: every pointer goes with the length of its slice, the outputs are
    // lent for writing and overlap nothing, and the answer has sixteen places.
    match case.operation {
        #[cfg(pay_check)]
        Operation::Check => unsafe { pay_check(year, month, day, first, first_length, answer) },
        #[cfg(pay_close)]
        Operation::Close => unsafe { pay_close(year, month, day, first, first_length, one, one_length, answer) },
        #[cfg(pay_join)]
        Operation::Join => unsafe { pay_join(year, month, day, first, first_length, second, second_length, one, one_length, answer) },
        #[cfg(pay_part)]
        Operation::Part => unsafe { pay_part(year, month, day, first, first_length, case.k, one, one_length, two, two_length, answer) },
        #[allow(unreachable_patterns)]
        _ => return false,
    }
    true
}

/// What the archive answers to these values.
fn making(values: Values, out: &mut [u8]) -> Making {
    let mut answer = UNANSWERED;
    make(values, out, &mut answer);
    answer::making(&answer).unwrap_or_else(|| panic!("no answer of a making: {answer:?}"))
}

/// Has the archive make a record; whether it can.
#[rustfmt::skip]
#[inline]
#[allow(unused_variables, unreachable_code)]
pub fn make(values: Values, out: &mut [u8], answer: *mut Answer) -> bool {
    let (out, out_length) = (out.as_mut_ptr(), out.len() as u64);
    let length = |text: &[u8]| text.len() as u64;
    // SAFETY: as above.
    match values {
        #[cfg(pay_make10)]
        Values::FileStart { sender, number } => unsafe { pay_make10(sender, number, out, out_length, answer) },
        #[cfg(pay_make20)]
        Values::AssignmentStart { service, agreement, assignment, account } => unsafe { pay_make20(service, agreement, assignment, account, out, out_length, answer) },
        #[cfg(pay_make30)]
        Values::Amount1 { service, code, number, date, party, amount, kid } => unsafe { pay_make30(service, code, number, date, party.as_ptr(), length(party), amount, kid.as_ptr(), length(kid), out, out_length, answer) },
        #[cfg(pay_make31)]
        Values::Amount2 { service, code, number, texts: [six, seven, eight] } => unsafe { pay_make31(service, code, number, six.as_ptr(), length(six), seven.as_ptr(), length(seven), eight.as_ptr(), length(eight), out, out_length, answer) },
        #[cfg(pay_make40)]
        Values::Address { service, code, number, name, postal, filler, area } => unsafe { pay_make40(service, code, number, name.as_ptr(), length(name), postal.as_ptr(), length(postal), filler.as_ptr(), length(filler), area.as_ptr(), length(area), out, out_length, answer) },
        #[cfg(pay_make41)]
        Values::Address2 { service, code, number, address1, address2, country } => unsafe { pay_make41(service, code, number, address1.as_ptr(), length(address1), address2.as_ptr(), length(address2), country.as_ptr(), length(country), out, out_length, answer) },
        #[cfg(pay_make49)]
        Values::Message { service, code, number, line, column, text } => unsafe { pay_make49(service, code, number, line, column, text.as_ptr(), length(text), out, out_length, answer) },
        #[cfg(pay_make50)]
        Values::SubSpec { service, code, number, kid, amount } => unsafe { pay_make50(service, code, number, kid.as_ptr(), length(kid), amount, out, out_length, answer) },
        #[allow(unreachable_patterns)]
        _ => return false,
    }
    true
}
