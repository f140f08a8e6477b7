//! The ledger: 16 compartments of 64 rows of 32 bytes.

use crate::forms::is_capital_or_digit;

/// Bytes of a row.
pub const ROW_SIZE: usize = 32;
/// Rows of a compartment.
pub const ROWS: usize = 64;
/// Compartments of a ledger.
pub const COMPARTMENTS: usize = 16;
/// Bytes of a ledger.
pub const LEDGER_SIZE: usize = COMPARTMENTS * ROWS * ROW_SIZE;

const LONGEST_NUMBER: usize = 16;
/// In ten-thousandths.
const LARGEST_QUANTITY: u64 = 9_999_999_999_999_999_999;
const NO_PARTNER: u16 = u16::MAX;

const FREE: u8 = 0;
const LIVE: u8 = 1;
const CANCELLED: u8 = 2;
const CANCELLATION: u8 = 3;

type Row = [u8; ROW_SIZE];

/// A row's length byte and padded number.
type Key = [u8; 1 + LONGEST_NUMBER];

fn state(row: &Row) -> u8 {
    row[0]
}

fn key(row: &Row) -> &Key {
    row[1..].first_chunk().expect("a row is longer")
}

fn quantity(row: &Row) -> u64 {
    u64::from_le_bytes(*row[18..].first_chunk().expect("a row is longer"))
}

fn partner(row: &Row) -> u16 {
    u16::from_le_bytes([row[26], row[27]])
}

fn set_partner(row: &mut Row, partner: usize) {
    let partner = u16::try_from(partner).expect("a compartment has 64 rows");
    row[26..28].copy_from_slice(&partner.to_le_bytes());
}

/// The key of a row with this number, if a row can hold it.
fn key_of(number: &[u8]) -> Option<Key> {
    let mut key = [0; 1 + LONGEST_NUMBER];
    key[1..].get_mut(..number.len())?.copy_from_slice(number);
    key[0] = u8::try_from(number.len()).ok()?;
    Some(key)
}

/// The form of a filled row, its partner left aside.
fn is_well_formed(row: &Row) -> bool {
    let (&length, padded) = key(row).split_first().expect("a key is longer");
    let length = usize::from(length);
    (1..=LONGEST_NUMBER).contains(&length)
        && (0..).zip(padded).fold(true, |fits, (at, byte)| {
            // Without an early end the sixteen bytes are tested side by side.
            fits & if at < length {
                is_capital_or_digit(byte)
            } else {
                *byte == 0
            }
        })
        && quantity(row) <= LARGEST_QUANTITY
        && matches!(row[28], b'B' | b'S')
        && row[29..] == [0; 3]
}

/// Whether the partner of row `at` is as its state wants it.
fn has_right_partner(filled: &[Row], at: usize) -> bool {
    let row = &filled[at];
    let other = usize::from(partner(row));
    let points_back = |state_of_other: u8| {
        filled
            .get(other)
            .is_some_and(|back| state(back) == state_of_other && usize::from(partner(back)) == at)
    };
    match state(row) {
        LIVE => partner(row) == NO_PARTNER,
        CANCELLED => other > at && points_back(CANCELLATION),
        CANCELLATION => other < at && points_back(CANCELLED),
        _ => false,
    }
}

fn has_distinct_numbers(filled: &[Row]) -> bool {
    // Padded with zeros, numbers of different lengths differ too.
    let mut numbers = [0; ROWS];
    for (number, row) in numbers.iter_mut().zip(filled) {
        *number = u128::from_le_bytes(*row[2..].first_chunk().expect("a row is longer"));
    }
    let numbers = &mut numbers[..filled.len()];
    numbers.sort_unstable();
    numbers.windows(2).all(|pair| pair[0] != pair[1])
}

fn is_sound(rows: &[Row; ROWS]) -> bool {
    let first_free = rows.iter().position(|row| state(row) == FREE);
    let (filled, free) = rows.split_at(first_free.unwrap_or(ROWS));
    free.as_flattened().iter().fold(0, |all, byte| all | byte) == 0
        && filled.iter().all(is_well_formed)
        && (0..filled.len()).all(|at| has_right_partner(filled, at))
        && has_distinct_numbers(filled)
}

/// A ledger that is sound, lent to be read.
#[derive(Clone, Copy)]
pub struct Ledger<'a>(&'a [[Row; ROWS]]);

impl<'a> Ledger<'a> {
    /// The ledger in these bytes, if they are a sound one.
    pub fn read(bytes: &'a [u8]) -> Option<Self> {
        if bytes.len() != LEDGER_SIZE {
            return None;
        }
        let (rows, _) = bytes.as_chunks();
        let (compartments, _) = rows.as_chunks();
        compartments
            .iter()
            .all(is_sound)
            .then_some(Ledger(compartments))
    }

    /// The compartment of a reporter row.
    pub fn compartment(self, reporter: usize) -> Compartment<'a> {
        Compartment(&self.0[reporter])
    }
}

/// A ledger that is sound, lent to be written.
pub struct LedgerMut<'a>(&'a mut [[Row; ROWS]]);

impl<'a> LedgerMut<'a> {
    /// The ledger in these bytes, if they are a sound one.
    pub fn read(bytes: &'a mut [u8]) -> Option<Self> {
        Ledger::read(bytes)?;
        let (rows, _) = bytes.as_chunks_mut();
        let (compartments, _) = rows.as_chunks_mut();
        Some(LedgerMut(compartments))
    }

    /// The ledger to be read.
    pub fn as_read(&self) -> Ledger<'_> {
        Ledger(self.0)
    }

    /// Books an entry in the lowest free row of a reporter's compartment and gives that row's
    /// number.
    pub fn book(&mut self, reporter: usize, entry: &Entry) -> usize {
        let at = self.as_read().compartment(reporter).filled();
        let rows = &mut self.0[reporter];
        let row = &mut rows[at];
        let key = key_of(entry.number).expect("the number was judged");
        row[1..18].copy_from_slice(&key);
        row[18..26].copy_from_slice(&entry.quantity.to_le_bytes());
        row[28] = entry.side;
        match entry.cancels {
            None => {
                row[0] = LIVE;
                row[26..28].copy_from_slice(&NO_PARTNER.to_le_bytes());
            }
            Some(original) => {
                row[0] = CANCELLATION;
                set_partner(row, original);
                let cancelled = &mut rows[original];
                cancelled[0] = CANCELLED;
                set_partner(cancelled, at);
            }
        }
        at
    }
}

/// What a booking enters into its row.
pub struct Entry<'a> {
    /// 1 to 16 capitals or digits.
    pub number: &'a [u8],
    /// In ten-thousandths.
    pub quantity: u64,
    /// `B` or `S`.
    pub side: u8,
    /// The live row that the new one cancels.
    pub cancels: Option<usize>,
}

/// One reporter's compartment, sound.
#[derive(Clone, Copy)]
pub struct Compartment<'a>(&'a [Row; ROWS]);

impl Compartment<'_> {
    /// Number of filled rows, and so of the lowest free row where there is one.
    pub fn filled(self) -> usize {
        self.0.partition_point(|row| state(row) != FREE)
    }

    /// Whether all rows are filled.
    pub fn is_full(self) -> bool {
        state(&self.0[ROWS - 1]) != FREE
    }

    /// The filled row with this number.
    pub fn find(self, number: &[u8]) -> Option<usize> {
        let wanted = key_of(number).filter(|_| !number.is_empty())?;
        let filled = &self.0[..self.filled()];
        filled.iter().position(|row| *key(row) == wanted)
    }

    /// The live row with this number.
    pub fn find_live(self, number: &[u8]) -> Option<usize> {
        self.find(number).filter(|&at| state(&self.0[at]) == LIVE)
    }
}
