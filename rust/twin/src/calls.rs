//! The calls of a single record, judged and booked at once or apart, and that of a whole file.

use crate::checks::{check_booking, check_content, check_sender, Failures, CODES};
use crate::envelope::{Envelope, LONGEST_FILE};
use crate::fields::{self, Fields};
use crate::forms::{is_name, ten_thousandths};
use crate::ledger::{Compartment, Entry, Ledger, LedgerMut};
use crate::refusal::Refusal;
use crate::tables::{Currencies, Reporters};

/// Bytes of an answer record.
pub const ANSWER_SIZE: usize = 16;
/// Most bytes of a record.
pub const LONGEST_RECORD: usize = 32_768;

const NO_REPORTER: u8 = 255;
const NO_ROW: u16 = 65_535;

/// Tables of a call, found to be as document 01 wants them.
struct Tables<'a> {
    reporters: Reporters<'a>,
    currencies: Currencies<'a>,
}

/// Failed checks of a record.
struct Failed {
    failures: Failures,
    /// The reporter's row, where the sender check passed.
    reporter: Option<usize>,
}

/// A record with no failure at places 0 to 60.
struct Passed<'a> {
    fields: &'a Fields<'a>,
    /// The reporter's row.
    reporter: usize,
}

/// Where a record without failures is booked.
struct Booked {
    reporter: usize,
    row: usize,
}

impl<'a> Tables<'a> {
    fn open(reporters: &'a [u8], currencies: &'a [u8]) -> Result<Self, Refusal> {
        Ok(Tables {
            reporters: Reporters::read(reporters).ok_or(Refusal::Reporters)?,
            currencies: Currencies::read(currencies).ok_or(Refusal::Currencies)?,
        })
    }

    /// Judges a record at places 0 to 60, for which no ledger is needed; one without 38 semicolons
    /// has no fields.
    #[inline]
    fn judge<'r>(
        &self,
        sender: &[u8],
        fields: Option<&'r Fields<'r>>,
    ) -> Result<Passed<'r>, Failed> {
        let failed = |failures, reporter| Failed { failures, reporter };
        let fields = fields.ok_or_else(|| failed(Failures::not_38_semicolons(), None))?;
        let (row, reporter) = check_sender(fields, self.reporters, sender)
            .map_err(|failures| failed(failures, None))?;
        let failures = check_content(fields, reporter, self.currencies);
        if !failures.is_empty() {
            return Err(failed(failures, Some(row)));
        }
        Ok(Passed {
            fields,
            reporter: row,
        })
    }
}

impl<'a> Passed<'a> {
    /// Judges the record at places 61 to 63, on its reporter's compartment as it stands: what is
    /// to be booked.
    #[inline]
    fn entry(&self, compartment: Compartment) -> Result<Entry<'a>, Failed> {
        let Passed { fields, reporter } = *self;
        match check_booking(fields, compartment) {
            Ok(cancels) => Ok(Entry {
                number: fields[38],
                quantity: ten_thousandths(fields[21]),
                side: fields[6][0],
                cancels,
            }),
            Err(failures) => Err(Failed {
                failures,
                reporter: Some(reporter),
            }),
        }
    }

    /// Judges the record on a ledger that stays as it is: where it would be booked.
    fn foresee(&self, ledger: Ledger) -> Result<Booked, Failed> {
        let compartment = ledger.compartment(self.reporter);
        self.entry(compartment)?;
        Ok(Booked {
            reporter: self.reporter,
            row: compartment.filled(),
        })
    }

    /// Judges the record on a ledger, and books it there when no check fails.
    #[inline]
    fn book(&self, ledger: &mut LedgerMut) -> Result<Booked, Failed> {
        let entry = self.entry(ledger.as_read().compartment(self.reporter))?;
        Ok(Booked {
            reporter: self.reporter,
            row: ledger.book(self.reporter, &entry),
        })
    }
}

/// Tables and ledger of a call that books.
struct Books<'a> {
    tables: Tables<'a>,
    ledger: LedgerMut<'a>,
}

impl<'a> Books<'a> {
    fn open(
        reporters: &'a [u8],
        currencies: &'a [u8],
        ledger: &'a mut [u8],
    ) -> Result<Self, Refusal> {
        Ok(Books {
            tables: Tables::open(reporters, currencies)?,
            ledger: LedgerMut::read(ledger).ok_or(Refusal::Ledger)?,
        })
    }

    /// Judges a record, and books it when no check fails.
    fn book(&mut self, sender: &[u8], record: &[u8]) -> [u8; ANSWER_SIZE] {
        let fields = fields::split(record);
        let judged = self.tables.judge(sender, fields.as_ref());
        answer(
            record,
            judged.and_then(|passed| passed.book(&mut self.ledger)),
        )
    }
}

/// The answer record to a record.
fn answer(record: &[u8], outcome: Result<Booked, Failed>) -> [u8; ANSWER_SIZE] {
    let (failures, reporter, booked) = match outcome {
        Ok(booked) => (Failures::default(), Some(booked.reporter), Some(booked.row)),
        Err(failed) => (failed.failures, failed.reporter, None),
    };
    let (code, status) = match failures.first() {
        None => (0, 0),
        Some(place @ 0..=6) => (CODES[usize::from(place)], 1),
        Some(place @ 7..=60) => (CODES[usize::from(place)], 2),
        Some(place) => (CODES[usize::from(place)], 3),
    };
    // Rows and lengths are small: 16 reporters, 64 rows, 32,768 bytes.
    let reporter = reporter.map_or(NO_REPORTER, |row| row as u8);
    let booked = booked.map_or(NO_ROW, |row| row as u16);
    let length = record.len() as u16;

    let mut bytes = [0; ANSWER_SIZE];
    bytes[..8].copy_from_slice(&failures.bits().to_le_bytes());
    bytes[8..10].copy_from_slice(&code.to_le_bytes());
    bytes[10] = reporter;
    bytes[11] = status;
    bytes[12..14].copy_from_slice(&booked.to_le_bytes());
    bytes[14..].copy_from_slice(&length.to_le_bytes());
    bytes
}

/// Whether an earlier answer is one to a record with these failures at places 0 to 60. Nothing
/// else of it is asked for.
fn fits(earlier: &[u8], failures: Failures) -> bool {
    let Ok(earlier) = <&[u8; ANSWER_SIZE]>::try_from(earlier) else {
        return false;
    };
    let set = u64::from_le_bytes(*earlier.first_chunk().expect("an answer is longer"));
    Failures::from_bits(set).before_booking() == failures
}

/// Tests the sender and the record of a single call.
fn test_single(sender: &[u8], record: &[u8]) -> Result<(), Refusal> {
    if !is_name(sender, 8) {
        return Err(Refusal::Sender);
    }
    if record.len() > LONGEST_RECORD
        || record
            .iter()
            .any(|byte| matches!(byte, b'\r' | b'\n' | b'\''))
    {
        return Err(Refusal::Record);
    }
    Ok(())
}

/// The single-record call: judges one record of a sender, books it when no check fails, and
/// writes 16 bytes at the start of `buffer`.
///
/// # Errors
///
/// Refused by 2, 3, 4, 13, 14 or 12, the first that applies; nothing is changed then.
pub fn book_record(
    reporters: &[u8],
    currencies: &[u8],
    ledger: &mut [u8],
    sender: &[u8],
    record: &[u8],
    buffer: &mut [u8],
) -> Result<(), Refusal> {
    let mut books = Books::open(reporters, currencies, ledger)?;
    test_single(sender, record)?;
    let buffer = buffer.first_chunk_mut().ok_or(Refusal::AnswerBuffer)?;
    *buffer = books.book(sender, record);
    Ok(())
}

/// Judging alone: writes the answer that [`book_record`] would give to the start of `buffer`, and
/// leaves the ledger.
///
/// # Errors
///
/// Refused by 2, 3, 4, 13, 14 or 12, the first that applies; nothing is changed then.
pub fn judge_record(
    reporters: &[u8],
    currencies: &[u8],
    ledger: &[u8],
    sender: &[u8],
    record: &[u8],
    buffer: &mut [u8],
) -> Result<(), Refusal> {
    let tables = Tables::open(reporters, currencies)?;
    let ledger = Ledger::read(ledger).ok_or(Refusal::Ledger)?;
    test_single(sender, record)?;
    let buffer = buffer.first_chunk_mut().ok_or(Refusal::AnswerBuffer)?;
    let fields = fields::split(record);
    let judged = tables.judge(sender, fields.as_ref());
    *buffer = answer(record, judged.and_then(|passed| passed.foresee(ledger)));
    Ok(())
}

/// Booking what was judged earlier: what [`book_record`] does and answers on this ledger, for an
/// earlier answer that has the record's failures at places 0 to 60.
///
/// # Errors
///
/// Refused by 2, 3, 4, 13, 14, 29 or 12, the first that applies; nothing is changed then.
pub fn book_judged(
    reporters: &[u8],
    currencies: &[u8],
    ledger: &mut [u8],
    sender: &[u8],
    record: &[u8],
    earlier: &[u8],
    buffer: &mut [u8],
) -> Result<(), Refusal> {
    let mut books = Books::open(reporters, currencies, ledger)?;
    test_single(sender, record)?;
    let fields = fields::split(record);
    let judged = books.tables.judge(sender, fields.as_ref());
    let failures = judged.as_ref().err().map(|failed| failed.failures);
    if !fits(earlier, failures.unwrap_or_default()) {
        return Err(Refusal::Earlier);
    }
    let buffer = buffer.first_chunk_mut().ok_or(Refusal::AnswerBuffer)?;
    *buffer = answer(
        record,
        judged.and_then(|passed| passed.book(&mut books.ledger)),
    );
    Ok(())
}

/// The whole-file call: opens the envelope, judges its records in file order as single calls of
/// its sender, writes 16 bytes for each from the start of `answers`, and gives their count.
///
/// # Errors
///
/// Refused by 1 to 12, the first that applies; nothing is changed then.
pub fn book_file(
    file: &[u8],
    reporters: &[u8],
    currencies: &[u8],
    ledger: &mut [u8],
    answers: &mut [u8],
) -> Result<usize, Refusal> {
    if file.len() > LONGEST_FILE {
        return Err(Refusal::FileTooLong);
    }
    let mut books = Books::open(reporters, currencies, ledger)?;
    let envelope = Envelope::open(file)?;
    let count = envelope.lines.len();
    let (answers, _) = answers.as_chunks_mut();
    let answers = answers.get_mut(..count).ok_or(Refusal::AnswerBuffer)?;
    for (answer, record) in answers.iter_mut().zip(envelope.lines) {
        *answer = books.book(envelope.head.sender, record);
    }
    Ok(count)
}

#[cfg(test)]
mod tests {
    use super::*;
    use crate::ledger::LEDGER_SIZE;

    const REPORTERS: &[u8] = b"98001AAAAATW1XXXMBONE   \0\0\0\0\0\0\0\0\
                               98003CCCCATW1XXXMBTWO   \0\0\0\0\0\0\0\0";
    const CURRENCIES: &[u8] = b"CHFEURUSD";

    /// Document 01's R1 with another bank, number to cancel, account or number of its own.
    fn record(bank: &str, cancels: &str, account: &str, number: &str) -> Vec<u8> {
        format!(
            "B;{bank};I;4711;;;B;20130903;101500;;;;;WBAH;J;{cancels};;N;S;AT0000831706;XXX;1500;\
             1;EUR;54,7;;;{account};;;;;;;;;;N;{number}"
        )
        .into_bytes()
    }

    type Outcome = Result<[u8; ANSWER_SIZE], u64>;

    fn outcome(called: Result<(), Refusal>, buffer: [u8; ANSWER_SIZE]) -> Outcome {
        called.map(|()| buffer).map_err(Refusal::number)
    }

    fn judged(ledger: &[u8], record: &[u8]) -> Outcome {
        let mut buffer = [0xa5; ANSWER_SIZE];
        let called = judge_record(REPORTERS, CURRENCIES, ledger, b"MBONE", record, &mut buffer);
        outcome(called, buffer)
    }

    fn booked(ledger: &mut [u8], record: &[u8], earlier: &[u8]) -> Outcome {
        let mut buffer = [0xa5; ANSWER_SIZE];
        let called = book_judged(
            REPORTERS,
            CURRENCIES,
            ledger,
            b"MBONE",
            record,
            earlier,
            &mut buffer,
        );
        outcome(called, buffer)
    }

    fn at_once(ledger: &mut [u8], record: &[u8]) -> Outcome {
        let mut buffer = [0xa5; ANSWER_SIZE];
        let called = book_record(REPORTERS, CURRENCIES, ledger, b"MBONE", record, &mut buffer);
        outcome(called, buffer)
    }

    /// The worked records of document 01, and one without semicolons.
    fn records() -> [Vec<u8>; 6] {
        [
            record("98001", "", "K", "A1"),
            record("98003", "", "K", "A2"),
            record("98001", "A1", "K", "A3"),
            record("98001", "A1", "K", "A4"),
            record("98001", "", "E", "A5"),
            b"no fields".to_vec(),
        ]
    }

    #[test]
    fn judged_and_booked_in_a_row() {
        let (mut apart, mut together) = (vec![0; LEDGER_SIZE], vec![0; LEDGER_SIZE]);
        for record in records() {
            let earlier = judged(&apart, &record).expect("it is judged");
            let answer = at_once(&mut together, &record);
            assert_eq!(Ok(earlier), answer);
            assert_eq!(booked(&mut apart, &record, &earlier), answer);
            assert_eq!(apart, together);
        }
        assert_eq!(
            apart[..2 * 32].iter().filter(|&&byte| byte == b'A').count(),
            2
        );
    }

    #[test]
    fn judged_in_the_morning_and_booked_in_the_evening() {
        let empty = vec![0; LEDGER_SIZE];
        let mut ledger = empty.clone();
        let [original, _, cancellation, ..] = records();
        let set = |answer: Outcome| {
            let answer = answer.expect("it is answered");
            u64::from_le_bytes(*answer.first_chunk().expect("an answer is longer"))
        };
        let early = judged(&empty, &original).expect("it is judged");
        let too_early = judged(&empty, &cancellation).expect("it is judged");
        assert_eq!((set(Ok(early)), set(Ok(too_early))), (0, 1 << 62));
        assert_eq!(set(booked(&mut ledger, &original, &early)), 0);
        // It failed for want of what is booked by now, and its number is free no longer.
        assert_eq!(set(booked(&mut ledger, &cancellation, &too_early)), 0);
        assert_eq!(set(booked(&mut ledger, &original, &early)), 1 << 61);
        assert_eq!(
            set(booked(&mut ledger, &cancellation, &too_early)),
            1 << 61 | 1 << 62
        );
    }

    #[test]
    fn what_is_read_of_an_earlier_answer() {
        let empty = vec![0; LEDGER_SIZE];
        for record in records() {
            let earlier = judged(&empty, &record).expect("it is judged");
            let answer = at_once(&mut empty.clone(), &record);
            let mut other = earlier;
            other[7] ^= 0xe0;
            other[8..].fill(0x5a);
            assert_eq!(booked(&mut empty.clone(), &record, &other), answer);
            for place in 0..64 {
                let mut turned = earlier;
                turned[place / 8] ^= 1 << (place % 8);
                let due = if place < 61 { Err(29) } else { answer };
                let mut ledger = empty.clone();
                assert_eq!(booked(&mut ledger, &record, &turned), due);
                assert!(due.is_ok() || ledger == empty);
            }
            for earlier in [&earlier[..15], &[&earlier[..], &[0]].concat(), b""] {
                assert_eq!(booked(&mut empty.clone(), &record, earlier), Err(29));
            }
        }
    }

    #[test]
    fn the_order_of_refusals() {
        let mut ledger = vec![0; LEDGER_SIZE];
        let record = record("98001", "", "K", "A1");
        let earlier = judged(&ledger, &record).expect("it is judged");
        // What a call is lent beside its ledger: the first so many are sound.
        let mut called = |sound: usize| {
            let lent = [REPORTERS, CURRENCIES, b"", b"MBONE", &record, &earlier, b""];
            let part = |at: usize| if at < sound { lent[at] } else { &b"'"[..] };
            let (length, room) = (if sound > 2 { LEDGER_SIZE } else { 32 }, 15 + sound / 7);
            let mut buffer = vec![0xa5; room];
            let judging = judge_record(
                part(0),
                part(1),
                &ledger[..length],
                part(3),
                part(4),
                &mut buffer,
            );
            let booking = book_judged(
                part(0),
                part(1),
                &mut ledger[..length],
                part(3),
                part(4),
                part(5),
                &mut buffer,
            );
            let is_kept = buffer == vec![0xa5; room] && ledger == vec![0; LEDGER_SIZE];
            let [judging, booking] = [judging, booking].map(|call| call.map_err(Refusal::number));
            (judging, booking, is_kept)
        };
        for (sound, number) in [2, 3, 4, 13, 14, 29, 12].into_iter().enumerate() {
            let judging = if number == 29 { 12 } else { number };
            assert_eq!(called(sound), (Err(judging), Err(number), true));
        }
        assert_eq!(called(7), (Ok(()), Ok(()), false));
    }
}
