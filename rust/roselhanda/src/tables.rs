//! The reference tables of a call.

use std::fmt;

/// The reference tables of a call, in document 01's bytes; each call tests them.
#[derive(Clone, Default, PartialEq, Eq)]
#[non_exhaustive]
pub struct Tables {
    /// Up to 16 rows of 32 bytes: bank code, SWIFT address, mailbox, zeros.
    pub reporters: Vec<u8>,
    /// Up to 512 codes of three capitals, ascending.
    pub currencies: Vec<u8>,
}

impl Tables {
    /// These two tables.
    pub fn new(reporters: impl Into<Vec<u8>>, currencies: impl Into<Vec<u8>>) -> Self {
        Tables {
            reporters: reporters.into(),
            currencies: currencies.into(),
        }
    }
}

/// Shows the tables as text.
impl fmt::Debug for Tables {
    fn fmt(&self, f: &mut fmt::Formatter<'_>) -> fmt::Result {
        f.debug_struct("Tables")
            .field("reporters", &String::from_utf8_lossy(&self.reporters))
            .field("currencies", &String::from_utf8_lossy(&self.currencies))
            .finish()
    }
}
