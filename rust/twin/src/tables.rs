//! The lent reference tables: reporters and currencies.

use crate::forms::{is_address, is_bank_code, is_name, same_address};

/// Bytes of a reporters row.
pub const REPORTER_SIZE: usize = 32;
/// Most rows of a reporters table.
pub const MOST_REPORTERS: usize = 16;
/// Most codes of a currency list.
pub const MOST_CURRENCIES: usize = 512;

/// One row of the reporters table.
#[derive(Clone, Copy)]
pub struct Reporter<'a>(&'a [u8; REPORTER_SIZE]);

impl<'a> Reporter<'a> {
    /// Five digits.
    pub fn bank_code(self) -> &'a [u8] {
        &self.0[..5]
    }

    /// The SWIFT address in eleven-byte form.
    pub fn address(self) -> &'a [u8] {
        &self.0[5..16]
    }

    /// The mailbox without its trailing spaces.
    pub fn mailbox(self) -> &'a [u8] {
        let padded = &self.0[16..24];
        let end = padded.iter().rposition(|&byte| byte != b' ');
        &padded[..end.map_or(0, |last| last + 1)]
    }

    fn is_well_formed(self) -> bool {
        is_bank_code(self.bank_code())
            && is_address(self.address())
            && is_name(self.mailbox(), 8)
            && self.0[24..] == [0; 8]
    }
}

/// A reporters table that is as document 01 wants it.
#[derive(Clone, Copy)]
pub struct Reporters<'a>(&'a [[u8; REPORTER_SIZE]]);

impl<'a> Reporters<'a> {
    /// The table in these bytes, if they are one.
    pub fn read(bytes: &'a [u8]) -> Option<Self> {
        let (rows, rest) = bytes.as_chunks();
        let table = Reporters(rows);
        let sound = rest.is_empty()
            && rows.len() <= MOST_REPORTERS
            && table.iter().enumerate().all(|(at, row)| {
                row.is_well_formed()
                    && table.iter().take(at).all(|earlier| {
                        earlier.bank_code() != row.bank_code() && earlier.address() != row.address()
                    })
            });
        sound.then_some(table)
    }

    fn iter(self) -> impl Iterator<Item = Reporter<'a>> {
        self.0.iter().map(Reporter)
    }

    /// The row of this bank code and its number.
    pub fn by_bank_code(self, code: &[u8]) -> Option<(usize, Reporter<'a>)> {
        self.iter()
            .enumerate()
            .find(|(_, row)| row.bank_code() == code)
    }

    /// The row of this SWIFT address, eight bytes or eleven, and its number.
    pub fn by_address(self, address: &[u8]) -> Option<(usize, Reporter<'a>)> {
        self.iter()
            .enumerate()
            .find(|(_, row)| same_address(row.address(), address))
    }
}

/// Whether a value is one of the codes that stand for no currency.
pub fn is_special(code: &[u8]) -> bool {
    matches!(code, b"XXX" | b"XXK" | b"XXO" | b"XXZ")
}

/// A currency list that is as document 01 wants it.
#[derive(Clone, Copy)]
pub struct Currencies<'a>(&'a [[u8; 3]]);

/// A code as a number in the order of the list.
fn order(&[first, second, third]: &[u8; 3]) -> u32 {
    u32::from_be_bytes([0, first, second, third])
}

impl<'a> Currencies<'a> {
    /// The list in these bytes, if they are one.
    pub fn read(bytes: &'a [u8]) -> Option<Self> {
        let (codes, rest) = bytes.as_chunks();
        let sound = rest.is_empty()
            && codes.len() <= MOST_CURRENCIES
            && bytes.iter().all(u8::is_ascii_uppercase)
            && codes.is_sorted_by(|one, next| order(one) < order(next));
        let list = Currencies(codes);
        let specials = [b"XXX", b"XXK", b"XXO", b"XXZ"];
        (sound && !specials.iter().any(|&code| list.has(code))).then_some(list)
    }

    /// Whether this code is in the list: "money".
    pub fn has(self, code: &[u8]) -> bool {
        <&[u8; 3]>::try_from(code)
            .is_ok_and(|code| self.0.binary_search_by_key(&order(code), order).is_ok())
    }
}
