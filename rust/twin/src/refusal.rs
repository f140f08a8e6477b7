//! Why a call is refused.

/// Why a call was refused; a refused call changes nothing.
#[derive(Clone, Copy, Debug, PartialEq, Eq)]
#[repr(u8)]
pub enum Refusal {
    /// The file is over 32,768 bytes.
    FileTooLong = 1,
    /// The reporters table is not as it should be.
    Reporters = 2,
    /// The currency list is not as it should be.
    Currencies = 3,
    /// The ledger has another length or is not sound.
    Ledger = 4,
    /// The head is not of the layout.
    Head = 5,
    /// The head's date or time is not real.
    DateOrTime = 6,
    /// The receiver is another one.
    Receiver = 7,
    /// The body is not of the layout.
    Body = 8,
    /// The tail is not of the layout.
    Tail = 9,
    /// The words of head and tail differ.
    ControlWords = 10,
    /// The file has over 1,024 records.
    TooManyRecords = 11,
    /// The answer buffer is too short.
    AnswerBuffer = 12,
    /// The sender is not 1 to 8 capitals or digits.
    Sender = 13,
    /// The record is too long, or has a byte that ends a record.
    Record = 14,
    /// The answers are not 16 bytes a record, or one has a code that is no place's.
    Answers = 15,
    /// A list of texts is not of its form, or has a code twice.
    Texts = 16,
    /// A code of the answers is in neither list of texts.
    NoText = 17,
    /// The date or time given for the error file is not real.
    GivenDateOrTime = 18,
    /// The buffer is shorter than the error file.
    Room = 19,
    /// The earlier answer is not 16 bytes, or its places 0 to 60 are not the record's.
    Earlier = 29,
}

impl Refusal {
    /// Its number in documents 01 and 02.
    pub fn number(self) -> u64 {
        self as u64
    }
}
