//! The two sides: the original's rules, and ours through the C interface.
use crate::rules::{amount, bic, country, currency, datetime, iban, lei, Rule};
use crate::schemes::common;

/// What both sides can say of a field: refused, or accepted with the cents (0 for kinds that have none).
pub type Verdict = Option<u64>;

/// The longest field that the comparison speaks of.
pub const LIMIT: usize = 4096;

fn passes(rule: &dyn Rule, value: &str) -> Verdict {
    rule.validate(value, "").is_empty().then_some(0)
}

/// The original's word on a field, given its bytes.
pub fn original(kind: u16, field: &[u8]) -> Verdict {
    let value = std::str::from_utf8(field).ok()?;
    match kind {
        1 => passes(&iban::IbanRule, value),
        2 => passes(&lei::LeiRule, value),
        3 => passes(&bic::BicRule, value),
        4 => passes(&datetime::IsoDateRule, value),
        5 => passes(&datetime::IsoDateTimeRule, value),
        6 => passes(&amount::AmountFormatRule, value),
        7 => passes(&country::CountryCodeRule, value),
        8 => passes(&currency::CurrencyRule, value),
        9 => common::parse_amount_cents(value),
        10 => common::parse_amount_cents_lenient(value),
        _ => None,
    }
}

extern "C" {
    fn stitchbarrow_check(kind: u16, value: *const u8, value_len: usize, answer: *mut u8, answer_len: usize) -> u8;
}

/// One call of the C interface.
pub fn check(kind: u16, field: &[u8], answer: &mut [u8; 12]) -> u8 {
    unsafe { stitchbarrow_check(kind, field.as_ptr(), field.len(), answer.as_mut_ptr(), answer.len()) }
}

/// Our answer to a field: number, place and value.
pub fn answer(kind: u16, field: &[u8]) -> (u8, u16, u64) {
    let mut bytes = [0u8; 12];
    let number = check(kind, field, &mut bytes);
    assert_eq!(number, bytes[0], "the answer's number is returned and written");
    assert_eq!(bytes[1], 0);
    (number, u16::from_le_bytes([bytes[2], bytes[3]]), u64::from_le_bytes(bytes[4..].try_into().unwrap()))
}

/// Our word on a field, in the original's terms.
pub fn ours(kind: u16, field: &[u8]) -> Verdict {
    let (number, _, value) = answer(kind, field);
    (number == 0).then_some(if kind >= 9 { value } else { 0 })
}
