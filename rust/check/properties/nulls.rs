//! Null pointers for what is empty. This is the one place that calls the archive by pointers, as
//! its C header declares them.

use std::{ptr, slice};

use roselhanda::ANSWER_SIZE;

use crate::compare::Outcome;
use crate::files::Parts;
use crate::records::{valid, Setting};
use crate::rng::Rng;
use crate::tally::Check;
use crate::world::{ledger, World};

extern "C" {
    fn roselhanda_record(
        reporters: *const u8,
        reporters_length: u64,
        currencies: *const u8,
        currencies_length: u64,
        ledger: *mut u8,
        ledger_length: u64,
        sender: *const u8,
        sender_length: u64,
        record: *const u8,
        record_length: u64,
        answer: *mut u8,
        answer_length: u64,
    ) -> u64;

    fn roselhanda_file(
        file: *const u8,
        file_length: u64,
        reporters: *const u8,
        reporters_length: u64,
        currencies: *const u8,
        currencies_length: u64,
        ledger: *mut u8,
        ledger_length: u64,
        answers: *mut u8,
        answers_length: u64,
        records: *mut u64,
    ) -> u64;

    fn roselhanda_judge(
        reporters: *const u8,
        reporters_length: u64,
        currencies: *const u8,
        currencies_length: u64,
        ledger: *const u8,
        ledger_length: u64,
        sender: *const u8,
        sender_length: u64,
        record: *const u8,
        record_length: u64,
        answer: *mut u8,
        answer_length: u64,
    ) -> u64;

    fn roselhanda_book(
        reporters: *const u8,
        reporters_length: u64,
        currencies: *const u8,
        currencies_length: u64,
        ledger: *mut u8,
        ledger_length: u64,
        sender: *const u8,
        sender_length: u64,
        record: *const u8,
        record_length: u64,
        earlier: *const u8,
        earlier_length: u64,
        answer: *mut u8,
        answer_length: u64,
    ) -> u64;

    fn roselhanda_field(record: *const u8, record_length: u64, n: u64, length: *mut u64) -> u64;

    fn roselhanda_error_file(
        report: *const u8,
        report_length: u64,
        answers: *const u8,
        answers_length: u64,
        member_texts: *const u8,
        member_texts_length: u64,
        our_texts: *const u8,
        our_texts_length: u64,
        date: *const u8,
        date_length: u64,
        time: *const u8,
        time_length: u64,
        out: *mut u8,
        out_length: u64,
        written: *mut u64,
    ) -> u64;

    fn roselhanda_isin_sum(text: *const u8, text_length: u64) -> u64;
}

/// The calls that are lent tables and a ledger.
#[derive(Clone, Copy, PartialEq, Eq)]
enum Call {
    Record,
    File,
    Judge,
    Book,
}

/// What a call is lent; a slice that is empty is lent as a null pointer.
#[derive(Clone, PartialEq, Eq)]
struct Lent {
    reporters: Vec<u8>,
    currencies: Vec<u8>,
    ledger: Vec<u8>,
    sender: Vec<u8>,
    /// The record, or the file.
    text: Vec<u8>,
    answers: Vec<u8>,
    earlier: Vec<u8>,
}

fn read(bytes: &[u8]) -> (*const u8, u64) {
    let null_if_empty = if bytes.is_empty() {
        ptr::null()
    } else {
        bytes.as_ptr()
    };
    (null_if_empty, bytes.len() as u64)
}

fn write(bytes: &mut [u8]) -> (*mut u8, u64) {
    let null_if_empty = if bytes.is_empty() {
        ptr::null_mut()
    } else {
        bytes.as_mut_ptr()
    };
    (null_if_empty, bytes.len() as u64)
}

impl Lent {
    /// The call by pointers.
    fn call(&mut self, call: Call) -> Outcome {
        let (reporters, reporters_length) = read(&self.reporters);
        let (currencies, currencies_length) = read(&self.currencies);
        let (ledger, ledger_length) = write(&mut self.ledger);
        let (sender, sender_length) = read(&self.sender);
        let (text, text_length) = read(&self.text);
        let (answers, answers_length) = write(&mut self.answers);
        let (earlier, earlier_length) = read(&self.earlier);
        let mut count = 1;
        // SAFETY: each pointer is that of a vector of the length beside it, or null with length 0;
        // all are distinct and live through the call, and the lent word is a local.
        let reply = unsafe {
            match call {
                Call::Record => roselhanda_record(
                    reporters,
                    reporters_length,
                    currencies,
                    currencies_length,
                    ledger,
                    ledger_length,
                    sender,
                    sender_length,
                    text,
                    text_length,
                    answers,
                    answers_length,
                ),
                Call::File => roselhanda_file(
                    text,
                    text_length,
                    reporters,
                    reporters_length,
                    currencies,
                    currencies_length,
                    ledger,
                    ledger_length,
                    answers,
                    answers_length,
                    &mut count,
                ),
                Call::Judge => roselhanda_judge(
                    reporters,
                    reporters_length,
                    currencies,
                    currencies_length,
                    ledger,
                    ledger_length,
                    sender,
                    sender_length,
                    text,
                    text_length,
                    answers,
                    answers_length,
                ),
                Call::Book => roselhanda_book(
                    reporters,
                    reporters_length,
                    currencies,
                    currencies_length,
                    ledger,
                    ledger_length,
                    sender,
                    sender_length,
                    text,
                    text_length,
                    earlier,
                    earlier_length,
                    answers,
                    answers_length,
                ),
            }
        };
        if reply == 0 {
            Ok(count)
        } else {
            Err(reply)
        }
    }

    /// The same call of the twin.
    fn twin_call(&mut self, call: Call) -> Outcome {
        let Lent {
            reporters,
            currencies,
            ledger,
            sender,
            text,
            answers,
            earlier,
        } = self;
        let outcome = match call {
            Call::Record => {
                twin::book_record(reporters, currencies, ledger, sender, text, answers).map(|()| 1)
            }
            Call::File => twin::book_file(text, reporters, currencies, ledger, answers),
            Call::Judge => {
                twin::judge_record(reporters, currencies, ledger, sender, text, answers).map(|()| 1)
            }
            Call::Book => twin::book_judged(
                reporters, currencies, ledger, sender, text, earlier, answers,
            )
            .map(|()| 1),
        };
        outcome
            .map(|count| count as u64)
            .map_err(twin::Refusal::number)
    }

    /// Empties the slices that stand in a set.
    fn empty(&mut self, set: u32) {
        let slices = [
            &mut self.reporters,
            &mut self.currencies,
            &mut self.ledger,
            &mut self.sender,
            &mut self.text,
            &mut self.answers,
            &mut self.earlier,
        ];
        for (k, slice) in slices.into_iter().enumerate() {
            if set >> k & 1 == 1 {
                slice.clear();
            }
        }
    }
}

/// Each set of the slices of each call empty, and so null; and the field view of no record.
pub fn null_pointers(check: &mut Check, rng: &mut Rng, rounds: usize) {
    check.section("null pointers for what is empty");
    for _ in 0..rounds {
        let world = World::random(rng, 16);
        let ledger = ledger(rng, 20);
        let bank = world.random_bank(rng);
        let record = valid(rng, &Setting::new(&world, bank, &ledger)).to_bytes();
        let sender = world.banks[bank].mailbox.clone();
        let file = Parts::new(&sender, b"W", slice::from_ref(&record)).to_bytes();
        let without_records = Parts::new(&sender, b"W", &[]).to_bytes();
        let mut answer = [0; ANSWER_SIZE];
        twin::judge_record(
            &world.reporters,
            &world.currencies,
            &ledger,
            &sender,
            &record,
            &mut answer,
        )
        .expect("nothing is refused");
        for (text, call) in [
            (&record, Call::Record),
            (&file, Call::File),
            (&without_records, Call::File),
            (&record, Call::Judge),
            (&record, Call::Book),
        ] {
            let whole = Lent {
                reporters: world.reporters.clone(),
                currencies: world.currencies.clone(),
                ledger: ledger.clone(),
                sender: sender.clone(),
                text: text.clone(),
                answers: vec![0xa5; ANSWER_SIZE + 3],
                earlier: answer.to_vec(),
            };
            // The earlier answer is lent to one of the calls only.
            let sets = if call == Call::Book { 128 } else { 64 };
            for set in 0..sets {
                let mut lent = whole.clone();
                lent.empty(set);
                let mut twin = lent.clone();
                let (proved, due) = (lent.call(call), twin.twin_call(call));
                check.case(proved == due && lent == twin, || {
                    format!("slices {set:07b} null: {proved:?}, and {due:?} of the twin")
                });
            }
        }
    }
    for n in 0..42 {
        let mut length = u64::MAX;
        // SAFETY: a null pointer with length 0, and a local as the lent word.
        let start = unsafe { roselhanda_field(ptr::null(), 0, n, &mut length) };
        check.case((start, length) == (0, 0), || {
            format!("field {n} of a null record is ({start}, {length})")
        });
    }
}

/// What an error-file call is lent: report, answers, the member's list and ours, date, time, and
/// the buffer. A slice that is empty is lent as a null pointer.
#[derive(Clone, PartialEq, Eq)]
struct ErrorLent([Vec<u8>; 7]);

impl ErrorLent {
    /// The call by pointers.
    fn call(&mut self) -> Outcome {
        let [inputs @ .., out] = &mut self.0;
        let [report, answers, member, ours, date, time] =
            inputs.each_ref().map(|input| read(input));
        let (out, out_length) = write(out);
        let mut length = 0;
        // SAFETY: each pointer is that of a vector of the length beside it, or null with length 0;
        // all are distinct and live through the call, and the lent word is a local.
        let reply = unsafe {
            roselhanda_error_file(
                report.0,
                report.1,
                answers.0,
                answers.1,
                member.0,
                member.1,
                ours.0,
                ours.1,
                date.0,
                date.1,
                time.0,
                time.1,
                out,
                out_length,
                &mut length,
            )
        };
        if reply == 0 {
            Ok(length)
        } else {
            Err(reply)
        }
    }

    /// The same call of the twin.
    fn twin_call(&mut self) -> Outcome {
        let [report, answers, member, ours, date, time, out] = &mut self.0;
        twin::error_file(report, answers, member, ours, date, time, out)
            .map(|length| length as u64)
            .map_err(twin::Refusal::number)
    }
}

/// Each set of the slices of an error-file call empty, and so null: of a report with a refused
/// record, with one that is not, and without any.
pub fn error_files(check: &mut Check) {
    check.section("null pointers for what is empty: error files");
    let list = |code: u16, text: &str| format!("{code:04}{text:<76}").into_bytes();
    for codes in [&[9001u16][..], &[0], &[]] {
        let records = vec![b"record".to_vec(); codes.len()];
        let answers = codes.iter().flat_map(|code| {
            let mut answer = [0; ANSWER_SIZE];
            answer[8..10].copy_from_slice(&code.to_le_bytes());
            answer
        });
        let whole = [
            Parts::new(b"MBONE", b"W", &records).to_bytes(),
            answers.collect(),
            list(9001, "the member says"),
            list(9001, "we say"),
            b"20130904".to_vec(),
            b"0800".to_vec(),
            vec![0xa5; 200],
        ];
        for set in 0..128 {
            let mut lent = ErrorLent(whole.clone());
            for (k, slice) in lent.0.iter_mut().enumerate() {
                if set >> k & 1 == 1 {
                    slice.clear();
                }
            }
            let mut twin = lent.clone();
            let (proved, due) = (lent.call(), twin.twin_call());
            check.case(proved == due && lent == twin, || {
                format!("slices {set:07b} null: {proved:?}, and {due:?} of the twin")
            });
        }
    }
}

/// The sum over an empty text.
pub fn sum(check: &mut Check) {
    check.section("null pointers for what is empty: sums");
    // SAFETY: a null pointer with length 0 is read nowhere.
    let sum = unsafe { roselhanda_isin_sum(ptr::null(), 0) };
    check.case(sum == 0, || format!("the sum over nothing is {sum}"));
}
