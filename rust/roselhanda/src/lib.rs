//! Safe calls of the proved checks and bookings of securities transaction reports.
//!
//! The checks, their proofs and their exact rules (documents 01 and 02) are elsewhere; this crate
//! lends them Rust's slices and gives their answers Rust's types.
//!
//! ```
//! use roselhanda::{book_file, book_record, field, Ledger, Refusal, Status, Tables};
//!
//! let reporters = b"98001AAAAATW1XXXMBONE   \0\0\0\0\0\0\0\0";
//! let tables = Tables::new(reporters, b"CHFEURUSD");
//! let mut ledger = Ledger::new();
//! let record = b"B;98001;I;4711;;;B;20130903;101500;;;;;WBAH;J;;;N;S;AT0000831706;XXX;\
//!     1500;1;EUR;54,7;;;K;;;;;;;;;;N;A1";
//!
//! // The first time it is booked, the second time its number is taken.
//! let answer = book_record(&tables, &mut ledger, b"MBONE", record)?;
//! assert_eq!(answer.status(), Status::Booked);
//! assert_eq!((answer.reporter_row(), answer.booked_row()), (Some(0), Some(0)));
//! let answer = book_record(&tables, &mut ledger, b"MBONE", record)?;
//! assert_eq!(answer.first_code(), Some(9392));
//! assert!(answer.failed_places().eq([61]));
//! assert_eq!(answer.to_string(), "9392 1 0");
//! assert_eq!(format!("{ledger:?}"), "Ledger {0: 1}");
//!
//! // A file without records, and one that is cut off.
//! let file = b"UNB+UNOA:1+MBONE+ATBWA+20130903:1015+W1++BWAMS'UNH+BWA+BWA:0'\r\n\
//!     'UNT+3+BWA'UNZ+1+W1'";
//! assert_eq!(book_file(&tables, &mut ledger, file)?, []);
//! let cut = &file[..file.len() - 1];
//! let refusal = book_file(&tables, &mut ledger, cut).unwrap_err();
//! assert_eq!(refusal.number(), 9);
//! assert_eq!(refusal.to_string(), "refused 9: the file does not end like a report");
//!
//! assert_eq!(field(record, 20), b"AT0000831706");
//! # Ok::<(), Refusal>(())
//! ```

#![warn(missing_docs)]
#![deny(unsafe_op_in_unsafe_fn)]

mod answer;
mod ledger;
pub mod raw;
mod refusal;
mod tables;

pub use answer::{code_of, Answer, Status, ANSWER_SIZE};
pub use ledger::{Ledger, LEDGER_SIZE};
pub use refusal::Refusal;
pub use tables::Tables;

/// Most records of a file.
pub const MOST_RECORDS: usize = 1_024;

/// Bytes of a row of a list of texts.
pub const TEXT_ROW_SIZE: usize = 80;

/// Judges one record of a sender and books it if no check fails.
///
/// # Errors
///
/// Refused by 2, 3, 4, 13 or 14, the first that applies; the ledger then stays as it was.
pub fn book_record(
    tables: &Tables,
    ledger: &mut Ledger,
    sender: &[u8],
    record: &[u8],
) -> Result<Answer, Refusal> {
    let mut answer = [0; ANSWER_SIZE];
    carried_out(raw::record(
        &tables.reporters,
        &tables.currencies,
        ledger.as_mut_bytes(),
        sender,
        record,
        &mut answer,
    ))?;
    Ok(written(&answer))
}

/// Judges and books the records of a report file in order, as single calls by its sender would.
///
/// # Errors
///
/// Refused by 1 to 11, the first that applies; the ledger then stays as it was.
pub fn book_file(
    tables: &Tables,
    ledger: &mut Ledger,
    file: &[u8],
) -> Result<Vec<Answer>, Refusal> {
    let mut answers = [[0; ANSWER_SIZE]; MOST_RECORDS];
    let mut records = 0;
    carried_out(raw::file(
        file,
        &tables.reporters,
        &tables.currencies,
        ledger.as_mut_bytes(),
        answers.as_flattened_mut(),
        &mut records,
    ))?;
    Ok(answers[..records as usize].iter().map(written).collect())
}

/// Judges one record of a sender, and books nothing: the answer that [`book_record`] would give.
///
/// A status [`Status::Booked`] and a row then say what would become of the record, were it booked
/// now. [`book_judged`] takes the answer later on.
///
/// ```
/// use roselhanda::{book_judged, book_record, judge_record, Ledger, Refusal, Status, Tables};
///
/// let tables = Tables::new(b"98001AAAAATW1XXXMBONE   \0\0\0\0\0\0\0\0", b"CHFEURUSD");
/// let mut ledger = Ledger::new();
/// let record = |quantity: u32| {
///     format!(
///         "B;98001;I;4711;;;B;20130903;101500;;;;;WBAH;J;;;N;S;AT0000831706;XXX;{quantity};1;\
///          EUR;54,7;;;K;;;;;;;;;;N;A1"
///     )
///     .into_bytes()
/// };
///
/// // In the morning nothing speaks against it, and nothing is booked.
/// let earlier = judge_record(&tables, &ledger, b"MBONE", &record(1500))?;
/// assert_eq!((earlier.status(), earlier.booked_row()), (Status::Booked, Some(0)));
/// assert_eq!(ledger, Ledger::new());
///
/// // At noon another record takes its number, and in the evening it fails.
/// assert!(book_record(&tables, &mut ledger, b"MBONE", &record(20))?.is_booked());
/// let answer = book_judged(&tables, &mut ledger, b"MBONE", &record(1500), &earlier)?;
/// assert_eq!(answer.to_string(), "9392 1 0");
///
/// // An earlier answer without failures does not belong to a record that has some.
/// let refusal = book_judged(&tables, &mut ledger, b"MBONE", &record(0), &earlier).unwrap_err();
/// assert_eq!(refusal.number(), 29);
/// # Ok::<(), Refusal>(())
/// ```
///
/// # Errors
///
/// Refused by 2, 3, 4, 13 or 14, the first that applies.
pub fn judge_record(
    tables: &Tables,
    ledger: &Ledger,
    sender: &[u8],
    record: &[u8],
) -> Result<Answer, Refusal> {
    let mut answer = [0; ANSWER_SIZE];
    carried_out(raw::judge(
        &tables.reporters,
        &tables.currencies,
        ledger.as_bytes(),
        sender,
        record,
        &mut answer,
    ))?;
    Ok(written(&answer))
}

/// Books one record of a sender that was judged earlier: does and answers what [`book_record`]
/// would on this ledger.
///
/// The earlier answer is the one that [`judge_record`] gave, or that [`Answer::from_bytes`] made of
/// a stored one. Of it only the failures at places 0 to 60 are read, which have to be the record's;
/// places 61 to 63 are judged again, on the ledger as it is now. The example of [`judge_record`]
/// shows both.
///
/// # Errors
///
/// Refused by 2, 3, 4, 13, 14 or 29, the first that applies; the ledger then stays as it was.
pub fn book_judged(
    tables: &Tables,
    ledger: &mut Ledger,
    sender: &[u8],
    record: &[u8],
    earlier: &Answer,
) -> Result<Answer, Refusal> {
    let mut answer = [0; ANSWER_SIZE];
    carried_out(raw::book(
        &tables.reporters,
        &tables.currencies,
        ledger.as_mut_bytes(),
        sender,
        record,
        earlier.as_bytes(),
        &mut answer,
    ))?;
    Ok(written(&answer))
}

/// Field `n` of a record, 1 to 39, as a part of it: the empty part at its start for another
/// number, or for a record without 38 semicolons.
pub fn field(record: &[u8], n: usize) -> &[u8] {
    let mut length = 0;
    let start = raw::field(record, n as u64, &mut length);
    &record[start as usize..][..length as usize]
}

/// The error file of a report: its refused records for its sender, each with its code and a text.
///
/// The answers are those that [`book_file`] gave for the report, or that [`Answer::from_bytes`] made
/// of stored ones; only their codes are read. A list of texts is any number of rows of
/// [`TEXT_ROW_SIZE`] bytes: a code of four digits, and its text with spaces behind it, of bytes from
/// 0x20 to 0x7E other than the apostrophe. Our text stands for the codes that the member's list
/// lacks. The file is dated by `date` and `time`, `YYYYMMDD` and `HHMM`.
///
/// It may be longer than a report may be; a buffer of one's own is for [`raw::error_file`].
///
/// ```
/// use roselhanda::{book_file, error_file, Ledger, Refusal, Tables};
///
/// let report = b"UNB+UNOA:1+MBONE+ATBWA+20130903:1015+W1++BWAMS'UNH+BWA+BWA:0'\r\n\
///     not a record\r\n'UNT+3+BWA'UNZ+1+W1'";
/// let answers = book_file(&Tables::default(), &mut Ledger::new(), report)?;
/// assert_eq!(answers[0].first_code(), Some(9001));
///
/// let ours = format!("{:04}{:<76}", 9001, "38 semicolons are due");
/// let file = error_file(report, &answers, b"", ours.as_bytes(), b"20130904", b"0800")?;
/// assert_eq!(
///     file,
///     b"UNB+UNOA:1+ATBWA+MBONE+20130904:0800+W1++BWAMSERR'UNH+BWA+BWERR:0'\r\n\
///     not a record\r\n9001-38 semicolons are due\r\n'UNT+3+BWA'UNZ+1+W1'"
/// );
///
/// let refusal = error_file(report, &answers, b"", b"", b"20130904", b"0800").unwrap_err();
/// assert_eq!(refusal.number(), 17);
/// # Ok::<(), Refusal>(())
/// ```
///
/// # Errors
///
/// Refused by 1, 5 to 11 or 15 to 18, the first that applies.
pub fn error_file(
    report: &[u8],
    answers: &[Answer],
    member_texts: &[u8],
    our_texts: &[u8],
    date: &[u8],
    time: &[u8],
) -> Result<Vec<u8>, Refusal> {
    // Its head is five bytes longer than the report's, and behind each refused record stands a
    // line more: a row of a list at most, with a hyphen, CR and LF.
    let refused = answers
        .iter()
        .filter(|answer| answer.first_code().is_some());
    let mut file = vec![0; report.len() + 5 + refused.count() * (TEXT_ROW_SIZE + 3)];
    let answers: Vec<u8> = answers.iter().flat_map(Answer::as_bytes).copied().collect();
    let mut length = 0;
    carried_out(raw::error_file(
        report,
        &answers,
        member_texts,
        our_texts,
        date,
        time,
        &mut file,
        &mut length,
    ))?;
    file.truncate(length as usize);
    Ok(file)
}

/// The last digit of the sum that the check digit of an ISIN is told by, over a text of any length.
///
/// A capital becomes two digits, `A` 10 to `Z` 35. All digits are added up; the last one and every
/// second one to its left are doubled first, and where that gives two digits these are added. Bytes
/// that are neither capitals nor digits are summed too, in a way that means nothing to an ISIN.
///
/// ```
/// use roselhanda::isin_sum;
///
/// let check_digit = |isin: &[u8]| (10 - isin_sum(&isin[..11])) % 10;
/// assert_eq!(check_digit(b"AT0000831706"), 6);
/// assert_eq!(check_digit(b"AT0000A02MR0"), 0);
/// ```
pub fn isin_sum(text: &[u8]) -> u64 {
    raw::isin_sum(text)
}

/// A reply as a result.
fn carried_out(reply: u64) -> Result<(), Refusal> {
    match reply {
        0 => Ok(()),
        number => Err(Refusal::new(number)),
    }
}

/// The answer in the bytes that a call has written.
fn written(bytes: &[u8; ANSWER_SIZE]) -> Answer {
    Answer::from_bytes(bytes).expect("a written answer has a status")
}
