//! Refused calls.

use std::error::Error;
use std::fmt;

/// Why a call was refused; a refused call changes nothing.
#[derive(Clone, Copy, Debug, PartialEq, Eq, Hash)]
pub struct Refusal(u64);

impl Refusal {
    pub(crate) fn new(number: u64) -> Self {
        Refusal(number)
    }

    /// The number that documents 01 and 02 give this refusal: 1 to 19, or 29.
    pub fn number(self) -> u64 {
        self.0
    }

    /// The reason in words.
    pub fn reason(self) -> &'static str {
        match self.0 {
            1 => "the file is larger than 32,768 bytes",
            2 => "the reporters are malformed, or a bank stands twice among them",
            3 => "the currencies are malformed, out of order, or hold a special code",
            4 => "the ledger is damaged or has the wrong size",
            5 => "the file does not begin like a report",
            6 => "the report is dated on a day or at a time that does not exist",
            7 => "the report is addressed to somebody else",
            8 => "the records do not stand one to a line",
            9 => "the file does not end like a report",
            10 => "the report ends with another control word than it begins with",
            11 => "the report has more than 1,024 records",
            12 => "there is no room for all answers",
            13 => "the sender is no mailbox name",
            14 => "the record is too long, or has an end of line or an apostrophe in it",
            15 => "the answers are not one to a record, or one has a code that no check has",
            16 => "a list of texts is malformed, or a code stands twice in it",
            17 => "a code of the answers has a text in neither list",
            18 => "the error file is dated on a day or at a time that does not exist",
            19 => "there is no room for the error file",
            29 => "the earlier answer has the wrong size, or not the failures of this record",
            _ => "no reason is known for this number",
        }
    }
}

impl fmt::Display for Refusal {
    fn fmt(&self, f: &mut fmt::Formatter<'_>) -> fmt::Result {
        write!(f, "refused {}: {}", self.number(), self.reason())
    }
}

impl Error for Refusal {}
