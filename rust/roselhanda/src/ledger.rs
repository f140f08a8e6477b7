//! The ledger.

use std::fmt;

use crate::Refusal;

const ROW_SIZE: usize = 32;
const COMPARTMENT_SIZE: usize = 64 * ROW_SIZE;

/// Bytes of a ledger: 16 compartments of 64 rows of 32 bytes.
pub const LEDGER_SIZE: usize = 16 * COMPARTMENT_SIZE;

/// The bookings of all banks.
#[derive(Clone, PartialEq, Eq)]
pub struct Ledger(Box<[u8; LEDGER_SIZE]>);

impl Ledger {
    /// A ledger without bookings.
    pub fn new() -> Self {
        Ledger(Box::new([0; LEDGER_SIZE]))
    }

    /// The ledger in these bytes, as [`Ledger::as_bytes`] gave them.
    ///
    /// # Errors
    ///
    /// Refused by 4 where they are not [`LEDGER_SIZE`]. Whether the ledger is sound is tested by
    /// each call.
    pub fn from_bytes(bytes: &[u8]) -> Result<Self, Refusal> {
        let bytes: Box<[u8]> = bytes.into();
        Ok(Ledger(bytes.try_into().map_err(|_| Refusal::new(4))?))
    }

    /// The ledger's bytes.
    pub fn as_bytes(&self) -> &[u8] {
        self.0.as_slice()
    }

    /// The ledger's bytes for a call.
    pub(crate) fn as_mut_bytes(&mut self) -> &mut [u8] {
        self.0.as_mut_slice()
    }
}

impl Default for Ledger {
    fn default() -> Self {
        Ledger::new()
    }
}

/// Shows how many rows are filled of each compartment that has any.
impl fmt::Debug for Ledger {
    fn fmt(&self, f: &mut fmt::Formatter<'_>) -> fmt::Result {
        let is_filled = |row: &&[u8]| row[0] != 0;
        let filled = self
            .0
            .chunks(COMPARTMENT_SIZE)
            .map(|compartment| compartment.chunks(ROW_SIZE).filter(is_filled).count())
            .enumerate()
            .filter(|&(_, rows)| rows != 0);
        f.write_str("Ledger ")?;
        f.debug_map().entries(filled).finish()
    }
}
