//! The forms of single values: names, addresses, ISINs, decimals, dates and times.

/// A capital letter or a digit.
pub fn is_capital_or_digit(byte: &u8) -> bool {
    byte.is_ascii_uppercase() || byte.is_ascii_digit()
}

/// 1 to `longest` capitals or digits.
pub fn is_name(bytes: &[u8], longest: usize) -> bool {
    (1..=longest).contains(&bytes.len()) && bytes.iter().all(is_capital_or_digit)
}

/// Five digits.
pub fn is_bank_code(bytes: &[u8]) -> bool {
    bytes.len() == 5 && bytes.iter().all(u8::is_ascii_digit)
}

/// SWIFT form: six capitals, then two or five capitals or digits.
pub fn is_address(bytes: &[u8]) -> bool {
    matches!(bytes.len(), 8 | 11)
        && bytes[..6].iter().all(u8::is_ascii_uppercase)
        && bytes[6..].iter().all(is_capital_or_digit)
}

/// Whether two values are the same address once eight bytes are completed with XXX.
pub fn same_address(one: &[u8], other: &[u8]) -> bool {
    match (one.len(), other.len()) {
        (8, 11) => other.strip_suffix(b"XXX") == Some(one),
        (11, 8) => one.strip_suffix(b"XXX") == Some(other),
        _ => one == other,
    }
}

/// ISIN form: two capitals, nine capitals or digits, a digit.
pub fn is_isin_form(bytes: &[u8]) -> bool {
    bytes.len() == 12
        && bytes[..2].iter().all(u8::is_ascii_uppercase)
        && bytes[2..11].iter().all(is_capital_or_digit)
        && bytes[11].is_ascii_digit()
}

/// The sum over the digits of a text of capitals and digits, modulo 10: a capital becomes two
/// digits, and from the last digit leftwards the first, the third and so on are doubled, their own
/// digits added.
pub fn isin_sum(text: &[u8]) -> u64 {
    let mut sum = 0;
    let mut doubled = true;
    let mut add = |digit: u8| {
        sum += u64::from(match (doubled, digit) {
            (false, _) => digit,
            (true, 0..=4) => 2 * digit,
            (true, _) => 2 * digit - 9,
        });
        doubled = !doubled;
    };
    for &byte in text.iter().rev() {
        if byte.is_ascii_digit() {
            add(byte - b'0');
        } else {
            let value = byte - b'A' + 10;
            add(value % 10);
            add(value / 10);
        }
    }
    sum % 10
}

/// Whether the check digit of a value in ISIN form is right.
pub fn has_right_check_digit(isin: &[u8]) -> bool {
    (isin_sum(&isin[..11]) + u64::from(isin[11] - b'0')) % 10 == 0
}

/// ISIN form with the right check digit.
pub fn is_isin(bytes: &[u8]) -> bool {
    is_isin_form(bytes) && has_right_check_digit(bytes)
}

/// `N whole,fraction`: 1 to `whole` digits, then nothing or a comma and 1 to `fraction` digits.
pub fn is_decimal(bytes: &[u8], whole: usize, fraction: usize) -> bool {
    let digits = |part: &[u8], most: usize| {
        (1..=most).contains(&part.len()) && part.iter().all(u8::is_ascii_digit)
    };
    match bytes.iter().position(|&byte| byte == b',') {
        None => digits(bytes, whole),
        Some(comma) => digits(&bytes[..comma], whole) && digits(&bytes[comma + 1..], fraction),
    }
}

/// Whether the value of a decimal is zero: none of its digits is above 0.
pub fn is_zero(decimal: &[u8]) -> bool {
    !decimal.iter().any(|byte| matches!(byte, b'1'..=b'9'))
}

/// The value of an N15,4 decimal in ten-thousandths.
pub fn ten_thousandths(decimal: &[u8]) -> u64 {
    let mut value = 0;
    let mut places = None;
    for &byte in decimal {
        if byte == b',' {
            places = Some(0);
        } else {
            value = value * 10 + u64::from(byte - b'0');
            places = places.map(|count: u32| count + 1);
        }
    }
    value * 10u64.pow(4 - places.unwrap_or(0))
}

/// The number that one to nine digits spell.
fn number(digits: &[u8]) -> Option<u32> {
    digits.iter().try_fold(0, |value, byte| {
        byte.is_ascii_digit()
            .then(|| value * 10 + u32::from(byte - b'0'))
    })
}

/// `YYYYMMDD`, a real date in 2000 to 2099.
pub fn is_date(bytes: &[u8]) -> bool {
    if bytes.len() != 8 {
        return false;
    }
    let Some(date) = number(bytes) else {
        return false;
    };
    let (year, month, day) = (date / 10_000, date / 100 % 100, date % 100);
    let days = match month {
        1 | 3 | 5 | 7 | 8 | 10 | 12 => 31,
        4 | 6 | 9 | 11 => 30,
        // Every fourth year of 2000 to 2099 is a leap year, 2000 included.
        2 if year % 4 == 0 => 29,
        2 => 28,
        _ => return false,
    };
    (2000..=2099).contains(&year) && (1..=days).contains(&day)
}

/// `HHMM`, 0000 to 2359 with minutes to 59.
pub fn is_time_of_day(bytes: &[u8]) -> bool {
    bytes.len() == 4 && number(bytes).is_some_and(|time| time <= 2359 && time % 100 <= 59)
}

/// `HHMMSS`, up to 235959 with minutes and seconds to 59.
pub fn is_time_with_seconds(bytes: &[u8]) -> bool {
    bytes.len() == 6
        && number(bytes)
            .is_some_and(|time| time <= 235_959 && time / 100 % 100 <= 59 && time % 100 <= 59)
}

#[cfg(test)]
mod tests {
    use super::*;

    #[test]
    fn isin_check_digits() {
        assert!(is_isin(b"AT0000831706"));
        assert!(is_isin(b"AT0000A02MR0"));
        assert!(!is_isin(b"AT0000831707"));
    }

    #[test]
    fn decimals() {
        assert!(is_decimal(b"999999999999999,9999", 15, 4));
        assert!(is_decimal(b"0,20", 15, 4));
        assert_eq!(ten_thousandths(b"0,20"), 2_000);
        assert_eq!(
            ten_thousandths(b"999999999999999,9999"),
            9_999_999_999_999_999_999
        );
        assert!(!is_decimal(b"1234567890123456", 15, 4));
        assert!(!is_decimal(b"5,", 15, 4));
        assert!(!is_decimal(b",5", 15, 4));
    }

    #[test]
    fn zeros() {
        for decimal in [b"0".as_slice(), b"0,0000", b"000,0"] {
            assert!(is_zero(decimal) && ten_thousandths(decimal) == 0);
            assert!(is_decimal(decimal, 15, 4));
            assert!(is_decimal(decimal, 7, 4));
            assert!(is_decimal(decimal, 10, 6));
        }
        assert!(!is_zero(b"0,0001"));
    }

    #[test]
    fn dates() {
        assert!(is_date(b"20120229"));
        assert!(!is_date(b"20130229"));
    }

    #[test]
    fn eight_bytes_mean_the_same_with_xxx() {
        assert!(same_address(b"AAAAATW1", b"AAAAATW1XXX"));
        assert!(same_address(b"AAAAATW1XXX", b"AAAAATW1"));
        assert!(!same_address(b"AAAAATW1", b"AAAAATW1XXY"));
    }
}
