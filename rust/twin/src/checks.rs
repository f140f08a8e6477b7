//! The sixty-four checks of a record.

use crate::fields::Fields;
use crate::forms::{
    has_right_check_digit, is_address, is_bank_code, is_date, is_decimal, is_isin, is_isin_form,
    is_name, is_time_with_seconds, is_zero, same_address,
};
use crate::ledger::Compartment;
use crate::tables::{is_special, Currencies, Reporter, Reporters};

/// The code of each place.
pub const CODES: [u16; 64] = [
    9001, 10, 11, 20, 21, 22, 24, // 0 to 6, the sender check
    30, 31, 40, 41, 42, 44, 9045, // 7 to 13
    9051, 9060, 9061, 9062, // 14 to 17
    9071, 9081, 9091, 9141, 9142, 9151, 9181, // 18 to 24
    191, 200, 201, 204, 206, 207, // 25 to 30
    210, 211, 220, 221, 230, 231, 232, 240, 241, 250, 251, // 31 to 41
    280, 281, 282, 283, 284, // 42 to 46
    290, 292, 293, 301, 321, // 47 to 51
    331, 332, 335, 336, 337, 338, 339, // 52 to 58
    9381, 9391, // 59 and 60
    9392, 161, 9900, // 61 to 63, on the compartment
];

/// The set of failed checks, bit k for place k.
#[derive(Clone, Copy, Default, PartialEq, Eq)]
pub struct Failures(u64);

impl Failures {
    /// The set in a number.
    pub fn from_bits(bits: u64) -> Self {
        Failures(bits)
    }

    /// The failure of place 0, which keeps all others from being judged.
    pub fn not_38_semicolons() -> Self {
        Failures(1)
    }

    /// The set as a number.
    pub fn bits(self) -> u64 {
        self.0
    }

    /// Whether no check failed.
    pub fn is_empty(self) -> bool {
        self.0 == 0
    }

    /// The lowest failed place.
    pub fn first(self) -> Option<u8> {
        (!self.is_empty()).then(|| self.0.trailing_zeros() as u8)
    }

    /// The failures at places 0 to 60, those that no ledger is asked for.
    pub fn before_booking(self) -> Self {
        Failures(self.0 & ((1 << 61) - 1))
    }

    fn fail_if(&mut self, place: u8, failed: bool) {
        self.0 |= u64::from(failed) << place;
    }
}

/// Places 1 to 6: the reporter row that the record passes for.
///
/// # Errors
///
/// The failures, if there are any.
pub fn check_sender<'a>(
    fields: &Fields,
    reporters: Reporters<'a>,
    sender: &[u8],
) -> Result<(usize, Reporter<'a>), Failures> {
    let [f1, f2, ..] = *fields;
    let found = match f1 {
        b"B" => reporters.by_bank_code(f2),
        b"S" => reporters.by_address(f2),
        _ => None,
    };
    match found {
        Some((row, reporter)) if reporter.mailbox() == sender => Ok((row, reporter)),
        _ => {
            let mut failures = Failures::default();
            let unknown = !f2.is_empty() && found.is_none();
            failures.fail_if(1, f1.is_empty());
            failures.fail_if(2, !matches!(f1, b"" | b"B" | b"S"));
            failures.fail_if(3, f2.is_empty());
            failures.fail_if(4, f1 == b"B" && unknown);
            failures.fail_if(5, f1 == b"S" && unknown);
            failures.fail_if(6, found.is_some());
            Err(failures)
        }
    }
}

/// Places 7 to 60.
pub fn check_content(fields: &Fields, reporter: Reporter, currencies: Currencies) -> Failures {
    #[rustfmt::skip]
    let [
        _, _, f3, f4, f5, f6, f7, f8, f9, _,
        _, _, _, f14, f15, _, _, f18, f19, f20,
        f21, f22, f23, f24, f25, _, _, f28, f29, f30,
        _, f32, f33, _, _, _, _, f38, f39,
    ] = *fields;
    let mut failures = Failures::default();
    let mut fail_if = |place, failed| failures.fail_if(place, failed);

    // Ordering party.
    fail_if(7, f3.is_empty());
    fail_if(8, !matches!(f3, b"" | b"B" | b"S" | b"N" | b"I"));
    fail_if(9, f4.is_empty());
    if !f4.is_empty() {
        fail_if(10, f3 == b"B" && !is_bank_code(f4));
        fail_if(11, f3 == b"S" && !is_address(f4));
        fail_if(12, f3 == b"N" && !is_name(f4, 8));
        fail_if(13, f3 == b"I" && f4.len() > 16);
    }

    // Counterparty.
    fail_if(14, !matches!(f5, b"" | b"B" | b"S" | b"N"));
    fail_if(15, f5.is_empty() != f6.is_empty());
    if !f6.is_empty() {
        fail_if(
            16,
            match f5 {
                b"B" => !is_bank_code(f6),
                b"S" => !is_address(f6),
                b"N" => !is_name(f6, 8) || f6.starts_with(b"W"),
                _ => false,
            },
        );
    }
    fail_if(
        17,
        !f5.is_empty()
            && f3 == f5
            && match f5 {
                b"S" => same_address(f4, f6),
                _ => f4 == f6,
            },
    );

    // Side, date, time and venue of the trade.
    let is_venue_kind = matches!(f19, b"A" | b"R");
    fail_if(18, !matches!(f7, b"B" | b"S"));
    fail_if(19, !is_date(f8));
    fail_if(20, !is_time_with_seconds(f9));
    fail_if(
        21,
        (f15 == b"J" || is_venue_kind) && !(f14.len() == 4 && is_name(f14, 4)),
    );
    fail_if(22, f15 == b"N" && !f14.is_empty() && !is_venue_kind);
    fail_if(23, !is_yes_or_no(f15));
    fail_if(24, !is_yes_or_no(f18));

    // Instrument.
    fail_if(25, !matches!(f19, b"S" | b"E" | b"O" | b"A" | b"R" | b"I"));
    fail_if(26, f20.is_empty());
    if !f20.is_empty() {
        let is_form = is_isin_form(f20);
        fail_if(27, f19 == b"S" && !is_form);
        fail_if(28, f19 == b"R" && f20.len() > 4);
        fail_if(29, f19 == b"S" && is_form && !has_right_check_digit(f20));
        fail_if(
            30,
            match f19 {
                b"E" => f20.len() > 20,
                b"O" | b"A" | b"I" => f20.len() > 15,
                _ => false,
            },
        );
    }

    // Currency or unit, quantity and price.
    let special = is_special(f21);
    let money = currencies.has(f21);
    fail_if(31, f21.is_empty());
    fail_if(32, !f21.is_empty() && !special && !money);
    fail_if(33, f22.is_empty());
    fail_if(
        34,
        !f22.is_empty() && (!is_decimal(f22, 15, 4) || is_zero(f22)),
    );
    fail_if(35, f23.is_empty());
    fail_if(36, !matches!(f23, b"" | b"1" | b"2" | b"3" | b"4"));
    fail_if(
        37,
        match f23 {
            b"1" | b"4" => money,
            b"2" | b"3" => special,
            _ => false,
        },
    );
    fail_if(38, money && !f24.is_empty());
    fail_if(39, special && !currencies.has(f24));
    fail_if(40, f25.is_empty());
    fail_if(41, !f25.is_empty() && !is_decimal(f25, 7, 4));

    // For the reporter's own account (E) or a client (K).
    let names_own_row = match f3 {
        b"B" => f4 == reporter.bank_code(),
        b"S" => same_address(f4, reporter.address()),
        _ => false,
    };
    fail_if(42, f28.is_empty());
    fail_if(43, !matches!(f28, b"" | b"E" | b"K"));
    fail_if(44, f28 == b"E" && f18 == b"N");
    fail_if(45, f28 == b"K" && names_own_row);
    fail_if(46, f28 == b"E" && !f4.is_empty() && !names_own_row);

    // Derivatives and warrants.
    let (is_derivative, is_warrant, is_certificate) = (f21 == b"XXK", f21 == b"XXO", f21 == b"XXZ");
    fail_if(
        47,
        (is_derivative || is_warrant) && !matches!(f29, b"C" | b"P" | b"F"),
    );
    fail_if(48, is_warrant && f29 == b"F");
    fail_if(
        49,
        (money || f21 == b"XXX" || is_certificate) && !f29.is_empty(),
    );
    fail_if(50, is_derivative && !is_decimal(f30, 10, 6));
    fail_if(
        51,
        (is_warrant || is_derivative && matches!(f29, b"C" | b"P")) && !is_decimal(f32, 10, 6),
    );

    // Underlying.
    if is_derivative || is_warrant || is_certificate {
        match f33 {
            [kind, rest @ ..] if f33.len() <= 41 => {
                fail_if(53, *kind == b'S' && !is_isin(rest));
                fail_if(54, f19 == b"E" && matches!(kind, b'O' | b'A' | b'T'));
                fail_if(55, *kind == b'T' && !is_underlying_word(rest));
                fail_if(56, !matches!(kind, b'S' | b'E' | b'O' | b'A' | b'T'));
                fail_if(57, f19 == b"O" && matches!(kind, b'E' | b'A' | b'T'));
                fail_if(58, matches!(kind, b'E' | b'O' | b'A') && rest.is_empty());
            }
            _ => fail_if(52, true),
        }
    }

    fail_if(59, !is_yes_or_no(f38));
    fail_if(60, !is_name(f39, 16));
    failures
}

/// Places 61 to 63, on the compartment as it stands: the live row to cancel, if any.
///
/// # Errors
///
/// The failures, if there are any.
pub fn check_booking(fields: &Fields, compartment: Compartment) -> Result<Option<usize>, Failures> {
    let (f16, f39) = (fields[15], fields[38]);
    let cancels = compartment.find_live(f16);
    let mut failures = Failures::default();
    failures.fail_if(61, compartment.find(f39).is_some());
    failures.fail_if(62, !f16.is_empty() && cancels.is_none());
    failures.fail_if(63, compartment.is_full());
    if failures.is_empty() {
        Ok(cancels)
    } else {
        Err(failures)
    }
}

fn is_yes_or_no(field: &[u8]) -> bool {
    matches!(field, b"J" | b"N")
}

fn is_underlying_word(word: &[u8]) -> bool {
    matches!(
        word,
        b"BASKET" | b"COMMODITY" | b"METAL" | b"NON-METAL" | b"INTEREST" | b"CURRENCY"
    )
}
