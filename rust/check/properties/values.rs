//! Single values in and around the forms of document 01.

use crate::rng::Rng;

pub const DIGITS: &[u8] = b"0123456789";
pub const CAPITALS: &[u8] = b"ABCDEFGHIJKLMNOPQRSTUVWXYZ";
pub const CAPITALS_AND_DIGITS: &[u8] = b"ABCDEFGHIJKLMNOPQRSTUVWXYZ0123456789";

/// Bytes just outside of the classes that the rules name, and a few inside.
const EDGE_BYTES: &[u8] = b"/09:@AZ[`az{ ,+-.?~BSNIEKJCPFTOARWX1245\x00\x1f\x7f\x80\xb1\xff";

/// Whether a byte may stand in a field.
fn fits_field(byte: u8) -> bool {
    !matches!(byte, b';' | b'\r' | b'\n' | b'\'')
}

/// Any bytes that may stand in a field.
pub fn free_text(rng: &mut Rng, length: usize) -> Vec<u8> {
    (0..length)
        .map(|_| loop {
            let byte = rng.byte();
            if fits_field(byte) {
                break byte;
            }
        })
        .collect()
}

/// A value one byte away: replaced, put in or taken out.
pub fn near(rng: &mut Rng, value: &[u8]) -> Vec<u8> {
    let mut value = value.to_vec();
    let at = rng.below(value.len() + 1);
    match rng.below(3) {
        0 if at < value.len() => value[at] = *rng.pick(EDGE_BYTES),
        1 if at < value.len() => {
            value.remove(at);
        }
        _ => value.insert(at, *rng.pick(EDGE_BYTES)),
    }
    value
}

/// Capitals or digits, of one of these lengths.
pub fn name(rng: &mut Rng, lengths: &[usize]) -> Vec<u8> {
    let length = *rng.pick(lengths);
    rng.text(CAPITALS_AND_DIGITS, length)
}

pub fn bank_code(rng: &mut Rng) -> Vec<u8> {
    rng.text(DIGITS, 5)
}

/// A SWIFT address of eight or eleven bytes.
pub fn address(rng: &mut Rng) -> Vec<u8> {
    let mut address = rng.text(CAPITALS, 6);
    address.extend(rng.text(CAPITALS_AND_DIGITS, 2));
    match rng.below(3) {
        0 => {}
        1 => address.extend(b"XXX"),
        _ => address.extend(rng.text(CAPITALS_AND_DIGITS, 3)),
    }
    address
}

/// The sum over the digits that a text becomes, worked out over the whole list of them.
pub fn digit_sum(text: &[u8]) -> u64 {
    let mut digits = Vec::new();
    for &byte in text {
        match byte {
            b'0'..=b'9' => digits.push(byte - b'0'),
            _ => {
                let value = byte.saturating_sub(b'A') + 10;
                digits.extend([value / 10, value % 10]);
            }
        }
    }
    let mut sum = 0;
    for (steps, digit) in digits.iter().rev().enumerate() {
        sum += u64::from(if steps % 2 == 0 {
            2 * digit / 10 + 2 * digit % 10
        } else {
            *digit
        });
    }
    sum
}

/// The check digit of eleven bytes.
fn check_digit(eleven: &[u8]) -> u8 {
    ((10 - digit_sum(eleven) % 10) % 10) as u8 + b'0'
}

/// A valid ISIN.
pub fn isin(rng: &mut Rng) -> Vec<u8> {
    let mut isin = rng.text(CAPITALS, 2);
    let letters = if rng.chance(50) {
        DIGITS
    } else {
        CAPITALS_AND_DIGITS
    };
    isin.extend(rng.text(letters, 9));
    isin.push(check_digit(&isin));
    isin
}

/// A value of ISIN form with any check digit.
pub fn isin_form(rng: &mut Rng) -> Vec<u8> {
    let mut isin = isin(rng);
    isin[11] = *rng.pick(DIGITS);
    isin
}

/// A valid decimal of the form `N whole,fraction`.
pub fn decimal(rng: &mut Rng, whole: usize, fraction: usize) -> Vec<u8> {
    let alphabets: [&[u8]; 4] = [DIGITS, b"0", b"9", b"01"];
    let digits = *rng.pick(&alphabets);
    let length = *rng.pick(&[1, 1, 2, 3, whole - 1, whole]);
    let mut decimal = rng.text(digits, length.min(whole));
    if rng.chance(60) {
        decimal.push(b',');
        let length = rng.within(1..=fraction);
        decimal.extend(rng.text(digits, length));
    }
    decimal
}

/// A valid decimal of the form `N whole,fraction` that is not zero.
pub fn positive_decimal(rng: &mut Rng, whole: usize, fraction: usize) -> Vec<u8> {
    loop {
        let decimal = decimal(rng, whole, fraction);
        if decimal.iter().any(|digit| (b'1'..=b'9').contains(digit)) {
            return decimal;
        }
    }
}

/// A value around the edges of the form `N whole,fraction`, now and then all zeros.
pub fn near_decimal(rng: &mut Rng, whole: usize, fraction: usize) -> Vec<u8> {
    let digits = *rng.pick(&[DIGITS, DIGITS, DIGITS, b"0"]);
    let length = *rng.pick(&[0, 1, whole - 1, whole, whole + 1]);
    let mut decimal = rng.text(digits, length);
    if rng.chance(70) {
        decimal.push(*rng.pick(b",,,,,,,.+"));
        let length = *rng.pick(&[0, 1, fraction - 1, fraction, fraction + 1]);
        decimal.extend(rng.text(digits, length));
    }
    if rng.chance(20) {
        decimal = near(rng, &decimal);
    }
    decimal
}

const LAST_DAYS: [usize; 12] = [31, 28, 31, 30, 31, 30, 31, 31, 30, 31, 30, 31];

/// A real date in 2000 to 2099.
pub fn date(rng: &mut Rng) -> Vec<u8> {
    let (year, month) = (rng.within(2000..=2099), rng.within(1..=12));
    let leap_day = usize::from(month == 2 && year % 4 == 0);
    let last = LAST_DAYS[month - 1] + leap_day;
    let any = rng.within(1..=last);
    let day = *rng.pick(&[1, last, any]);
    format!("{year:04}{month:02}{day:02}").into_bytes()
}

/// Eight digits around the edges of real dates.
pub fn near_date(rng: &mut Rng) -> Vec<u8> {
    let any = rng.within(2000..=2099);
    let year = *rng.pick(&[
        any, 1999, 2000, 2001, 2004, 2012, 2013, 2096, 2099, 2100, 9999,
    ]);
    let month = *rng.pick(&[0, 1, 2, 2, 2, 3, 4, 5, 6, 7, 8, 9, 10, 11, 12, 13, 99]);
    let day = *rng.pick(&[0, 1, 28, 29, 30, 31, 32, 99]);
    format!("{year:04}{month:02}{day:02}").into_bytes()
}

/// A real time of day, with or without seconds.
pub fn time(rng: &mut Rng, seconds: bool) -> Vec<u8> {
    let mut time = format!("{:02}{:02}", rng.below(24), rng.below(60));
    if seconds {
        time += &format!("{:02}", rng.below(60));
    }
    time.into_bytes()
}

/// Digits around the edges of a time of day.
pub fn near_time(rng: &mut Rng, seconds: bool) -> Vec<u8> {
    let mut time = String::new();
    time += *rng.pick(&["00", "09", "10", "19", "20", "23", "24", "29", "99"]);
    time += *rng.pick(&["00", "09", "59", "60", "99"]);
    if seconds {
        time += *rng.pick(&["00", "59", "60", "61", "99"]);
    }
    time.into_bytes()
}
