//! The answer record and the codes of the checks.

use std::fmt;

/// Bytes of an answer record.
pub const ANSWER_SIZE: usize = 16;

#[rustfmt::skip]
const CODES: [u16; 64] = [
    /*  0 */ 9001,   10,   11,   20,   21,   22,   24,   30,
    /*  8 */   31,   40,   41,   42,   44, 9045, 9051, 9060,
    /* 16 */ 9061, 9062, 9071, 9081, 9091, 9141, 9142, 9151,
    /* 24 */ 9181,  191,  200,  201,  204,  206,  207,  210,
    /* 32 */  211,  220,  221,  230,  231,  232,  240,  241,
    /* 40 */  250,  251,  280,  281,  282,  283,  284,  290,
    /* 48 */  292,  293,  301,  321,  331,  332,  335,  336,
    /* 56 */  337,  338,  339, 9381, 9391, 9392,  161, 9900,
];

/// The code of a place, `None` for a number that is no place.
pub fn code_of(place: u8) -> Option<u16> {
    CODES.get(usize::from(place)).copied()
}

/// What became of a record, or would have where it was only judged.
#[derive(Clone, Copy, Debug, PartialEq, Eq, Hash)]
pub enum Status {
    /// No check failed; the record stands in its reporter's compartment.
    Booked,
    /// The sender check failed.
    SenderFailed,
    /// The sender check passed, the content failed.
    ContentFailed,
    /// The content passed, the booking failed on the compartment.
    BookingFailed,
}

impl Status {
    fn from_byte(byte: u8) -> Option<Self> {
        match byte {
            0 => Some(Status::Booked),
            1 => Some(Status::SenderFailed),
            2 => Some(Status::ContentFailed),
            3 => Some(Status::BookingFailed),
            _ => None,
        }
    }
}

impl fmt::Display for Status {
    fn fmt(&self, f: &mut fmt::Formatter<'_>) -> fmt::Result {
        f.pad(match self {
            Status::Booked => "booked",
            Status::SenderFailed => "sender check failed",
            Status::ContentFailed => "content failed",
            Status::BookingFailed => "booking failed",
        })
    }
}

/// The answer to one record.
#[derive(Clone, Copy, PartialEq, Eq, Hash)]
pub struct Answer {
    bytes: [u8; ANSWER_SIZE],
    status: Status,
}

impl Answer {
    /// The answer in these bytes, as [`Answer::as_bytes`] gave them; `None` if they are not
    /// [`ANSWER_SIZE`] or tell no status.
    pub fn from_bytes(bytes: &[u8]) -> Option<Self> {
        let bytes: [u8; ANSWER_SIZE] = bytes.try_into().ok()?;
        let status = Status::from_byte(bytes[11])?;
        Some(Answer { bytes, status })
    }

    /// The answer's bytes, as document 01 lays them out.
    pub fn as_bytes(&self) -> &[u8] {
        &self.bytes
    }

    /// What became of the record.
    pub fn status(&self) -> Status {
        self.status
    }

    /// Whether no check failed, and so the record was booked, or would have been.
    pub fn is_booked(&self) -> bool {
        self.status == Status::Booked
    }

    /// The set of failed checks, bit k for place k.
    pub fn set(&self) -> u128 {
        let bytes = self.bytes[..8].iter().rev();
        bytes.fold(0, |set, &byte| set << 8 | u128::from(byte))
    }

    /// The failed places, lowest first.
    pub fn failed_places(&self) -> impl Iterator<Item = u8> {
        let set = self.set();
        (0..128).filter(move |place| set >> place & 1 == 1)
    }

    /// The count of failed checks.
    pub fn failure_count(&self) -> u32 {
        self.set().count_ones()
    }

    /// The code at the lowest failed place.
    pub fn first_code(&self) -> Option<u16> {
        Some(self.number_at(8)).filter(|&code| code != 0)
    }

    /// The reporter's row, where the sender check passed.
    pub fn reporter_row(&self) -> Option<u8> {
        Some(self.bytes[10]).filter(|&row| row != u8::MAX)
    }

    /// The new row's number in its compartment, where the record was booked.
    pub fn booked_row(&self) -> Option<u16> {
        Some(self.number_at(12)).filter(|&row| row != u16::MAX)
    }

    /// The record's length in bytes.
    pub fn length(&self) -> u16 {
        self.number_at(14)
    }

    fn number_at(&self, at: usize) -> u16 {
        u16::from_le_bytes([self.bytes[at], self.bytes[at + 1]])
    }
}

/// Shows the answer as a line of the program does, behind the record's number: first code, count
/// of failed checks, reporter's row or `-`.
impl fmt::Display for Answer {
    fn fmt(&self, f: &mut fmt::Formatter<'_>) -> fmt::Result {
        let code = self.first_code().unwrap_or(0);
        write!(f, "{code:04} {} ", self.failure_count())?;
        match self.reporter_row() {
            Some(row) => write!(f, "{row}"),
            None => f.write_str("-"),
        }
    }
}

impl fmt::Debug for Answer {
    fn fmt(&self, f: &mut fmt::Formatter<'_>) -> fmt::Result {
        let failed: Vec<u8> = self.failed_places().collect();
        f.debug_struct("Answer")
            .field("status", &self.status())
            .field("failed_places", &failed)
            .field("first_code", &self.first_code())
            .field("reporter_row", &self.reporter_row())
            .field("booked_row", &self.booked_row())
            .field("length", &self.length())
            .finish()
    }
}
