//! The inputs of single-record calls, of judging and booking apart, and of file calls.

use crate::desks::{Booking, Desk, Outcome};

pub const ANSWER_SIZE: usize = 16;
const ROWS: usize = 64;
const ROW_SIZE: usize = 32;
const BANKS: usize = 16;
const LEDGER_SIZE: usize = BANKS * ROWS * ROW_SIZE;
const CURRENCIES: usize = 180;
pub const SENDER: &str = "MBONE";
/// The control word of a file.
pub const WORD: &str = "BENCH1";

/// A row of the benchmark.
pub trait Named {
    fn name(&self) -> &'static str;
    fn desk(&self) -> Box<dyn Desk>;
}

/// The call of a row.
#[derive(Clone, Copy)]
pub enum Call {
    /// Valid records in a file.
    File(usize),
    /// Records of a few bytes in a file.
    ShortFile(usize),
    /// Records of as many bytes as valid ones, all of them spaces, in a file.
    SpacedFile(usize),
    /// Records that pass the sender check and are blank behind it, in a file.
    BlankFile(usize),
    /// One valid record.
    Single,
    /// One valid record, judged alone.
    Judge,
    /// One valid record, booked with an earlier answer.
    Book,
    /// Valid records in a file, and no room for an answer: refused by 12 once the file is opened.
    Opened(usize),
    /// The same with a head that is none: refused by 5, and never opened.
    Unopened(usize),
}

/// How many rows of each compartment are filled before the call.
#[derive(Clone, Copy)]
pub enum Fill {
    Empty,
    Half,
    Full,
}

/// The numbers of the ledger's rows and of the records.
#[derive(Clone, Copy)]
pub enum Numbers {
    Usual,
    /// Two equal halves: all fall into one slot of the test for doubles.
    OneSlot,
    /// One length, one beginning and one last byte: each is a candidate in the search for another.
    OneEnd,
    /// All bytes but the first two: each is a candidate, and is compared nearly to its start.
    OneTail,
}

/// A call on a ledger.
#[derive(Clone, Copy)]
pub struct Row {
    name: &'static str,
    call: Call,
    fill: Fill,
    numbers: Numbers,
}

impl Named for Row {
    fn name(&self) -> &'static str {
        self.name
    }

    fn desk(&self) -> Box<dyn Desk> {
        Box::new(Booking::new(self.inputs()))
    }
}

const fn row(name: &'static str, call: Call, fill: Fill) -> Row {
    worst(name, call, fill, Numbers::Usual)
}

const fn worst(name: &'static str, call: Call, fill: Fill, numbers: Numbers) -> Row {
    Row {
        name,
        call,
        fill,
        numbers,
    }
}

/// The usual cases.
pub const USUAL: [Row; 22] = [
    row("single-empty", Call::Single, Fill::Empty),
    row("single-full", Call::Single, Fill::Full),
    row("judge-empty", Call::Judge, Fill::Empty),
    row("judge-full", Call::Judge, Fill::Full),
    row("book-empty", Call::Book, Fill::Empty),
    row("book-full", Call::Book, Fill::Full),
    row("file-1-empty", Call::File(1), Fill::Empty),
    row("file-1-half", Call::File(1), Fill::Half),
    row("file-1-full", Call::File(1), Fill::Full),
    row("file-60-empty", Call::File(60), Fill::Empty),
    row("file-60-half", Call::File(60), Fill::Half),
    row("file-60-full", Call::File(60), Fill::Full),
    row("file-125-empty", Call::File(125), Fill::Empty),
    row("file-125-half", Call::File(125), Fill::Half),
    row("file-250-empty", Call::File(250), Fill::Empty),
    row("file-250-half", Call::File(250), Fill::Half),
    row("file-250-full", Call::File(250), Fill::Full),
    row("short-1024-empty", Call::ShortFile(1_024), Fill::Empty),
    row("short-1024-half", Call::ShortFile(1_024), Fill::Half),
    row("short-1024-full", Call::ShortFile(1_024), Fill::Full),
    row("opened-250", Call::Opened(250), Fill::Empty),
    row("unopened-250", Call::Unopened(250), Fill::Empty),
];

/// What the proved code's short cuts are worst at.
pub const WORST: [Row; 5] = [
    worst("one-slot-full", Call::Single, Fill::Full, Numbers::OneSlot),
    worst(
        "one-end-250-half",
        Call::File(250),
        Fill::Half,
        Numbers::OneEnd,
    ),
    worst(
        "one-tail-250-half",
        Call::File(250),
        Fill::Half,
        Numbers::OneTail,
    ),
    row("spaces-250-empty", Call::SpacedFile(250), Fill::Empty),
    row("blank-250-empty", Call::BlankFile(250), Fill::Empty),
];

/// The function that a row calls.
#[derive(Clone, Copy)]
pub enum Function {
    Record,
    Judge,
    Book,
    File,
}

/// What a row's call is lent.
pub struct Inputs {
    pub function: Function,
    pub reporters: Vec<u8>,
    pub currencies: Vec<u8>,
    pub ledger: Vec<u8>,
    pub sender: Vec<u8>,
    /// The file of a file call, else the record.
    pub text: Vec<u8>,
    /// An earlier answer without failures, which fits a valid record.
    pub earlier: [u8; ANSWER_SIZE],
    /// Answers that there is room for.
    pub room: usize,
    /// What the call has to come to.
    pub due: Outcome,
    /// Records that are to be booked, or would be.
    pub booked: usize,
}

impl Row {
    fn inputs(&self) -> Inputs {
        let record = |at| valid_record(at, &self.numbers.of_record(at));
        let valid = |count| file((0..count).map(record));
        let (text, room) = match self.call {
            Call::Single | Call::Judge | Call::Book => (record(0).into_bytes(), 1),
            Call::File(count) => (valid(count), count),
            Call::ShortFile(count) => (file((0..count).map(short_record)), count),
            Call::SpacedFile(count) => (file((0..count).map(spaced_record)), count),
            Call::BlankFile(count) => (file((0..count).map(blank_record)), count),
            Call::Opened(count) => (valid(count), 0),
            Call::Unopened(count) => (without_head(valid(count)), 0),
        };
        let due = match self.call {
            Call::Opened(_) => Err(12),
            Call::Unopened(_) => Err(5),
            _ => Ok(room as u64),
        };
        let booked = match (self.call, self.fill) {
            (Call::ShortFile(_) | Call::SpacedFile(_) | Call::BlankFile(_), _)
            | (_, Fill::Full) => 0,
            _ => room,
        };
        Inputs {
            function: match self.call {
                Call::Single => Function::Record,
                Call::Judge => Function::Judge,
                Call::Book => Function::Book,
                _ => Function::File,
            },
            reporters: (0..BANKS).flat_map(reporter).collect(),
            currencies: currencies(),
            ledger: ledger(
                match self.fill {
                    Fill::Empty => 0,
                    Fill::Half => ROWS / 2,
                    Fill::Full => ROWS,
                },
                self.numbers,
            ),
            sender: SENDER.into(),
            text,
            earlier: [0; ANSWER_SIZE],
            room,
            due,
            booked,
        }
    }
}

impl Numbers {
    /// The number of a row of the ledger.
    fn of_row(self, at: usize) -> String {
        match self {
            Numbers::Usual => format!("OLD{at:05}"),
            Numbers::OneSlot => format!("OLD{at:05}").repeat(2),
            Numbers::OneEnd => format!("TRADEOLD{at:07}X"),
            Numbers::OneTail => with_one_tail(at),
        }
    }

    /// The number of a record.
    pub fn of_record(self, at: usize) -> String {
        match self {
            Numbers::Usual => format!("NEW{at}"),
            Numbers::OneSlot => format!("NEW{at:05}").repeat(2),
            Numbers::OneEnd => format!("TRADENEW{at:07}X"),
            Numbers::OneTail => with_one_tail(BANKS * ROWS + at),
        }
    }
}

/// A reporters row; all banks have the sender's mailbox.
fn reporter(bank: usize) -> Vec<u8> {
    let letter = char::from(b'A' + bank as u8);
    let mut row = format!("98{bank:03}BANK{letter}TW1XXX{SENDER:<8}").into_bytes();
    row.resize(ROW_SIZE, 0);
    row
}

/// 180 codes spread over the alphabet, EUR among them.
fn currencies() -> Vec<u8> {
    let mut codes: Vec<[u8; 3]> = (0..CURRENCIES - 1)
        .map(|k| {
            let [first, second] = [k * 25 / CURRENCIES, k * 7 % 26].map(|at| b'A' + at as u8);
            [first, second, b'A' + (k % 26) as u8]
        })
        .collect();
    codes.push(*b"EUR");
    codes.sort();
    codes.dedup();
    assert_eq!(codes.len(), CURRENCIES);
    codes.concat()
}

/// A record like R1 of document 01, of one bank after the other.
pub fn valid_record(at: usize, number: &str) -> String {
    let bank = at % BANKS;
    let quantity = 1_500 + at;
    format!(
        "B;98{bank:03};I;4711;;;B;20130903;101500;;;;;WBAH;J;;;N;S;AT0000831706;XXX;\
         {quantity};1;EUR;54,7;;;K;;;;;;;;;;N;{number}"
    )
}

/// Nothing, or a few bytes.
fn short_record(at: usize) -> String {
    ["", "A", ";", "B;98001", "", "test"][at % 6].to_string()
}

/// As long as a valid record.
fn spaced_record(at: usize) -> String {
    " ".repeat(valid_record(at, &Numbers::Usual.of_record(at)).len())
}

/// Blank but for its kind and its bank.
fn blank_record(at: usize) -> String {
    format!("B;98{:03}{}", at % BANKS, ";".repeat(37))
}

/// A number of sixteen bytes that begins as no other does, and ends as each does.
fn with_one_tail(at: usize) -> String {
    let letters = b"0123456789ABCDEFGHIJKLMNOPQRSTUVWXYZ";
    let letter = |k: usize| char::from(letters[k % letters.len()]);
    format!("{}{}{}", letter(at / 36), letter(at), "A".repeat(14))
}

pub fn file(records: impl Iterator<Item = String>) -> Vec<u8> {
    let lines: String = records.map(|record| record + "\r\n").collect();
    format!(
        "UNB+UNOA:1+{SENDER}+ATBWA+20130903:1015+{WORD}++BWAMS'UNH+BWA+BWA:0'\r\n\
         {lines}'UNT+3+BWA'UNZ+1+{WORD}'"
    )
    .into_bytes()
}

fn without_head(mut file: Vec<u8>) -> Vec<u8> {
    file[0] = b'X';
    file
}

/// A sound ledger with this many rows in each compartment: live ones, and every fourth row
/// cancelled by the one after it.
fn ledger(filled: usize, numbers: Numbers) -> Vec<u8> {
    let mut ledger = vec![0; LEDGER_SIZE];
    for compartment in ledger.chunks_mut(ROWS * ROW_SIZE) {
        for (at, row) in compartment.chunks_mut(ROW_SIZE).take(filled).enumerate() {
            let number = numbers.of_row(at);
            let (state, partner) = match at % 4 {
                2 => (2, at as u16 + 1),
                3 => (3, at as u16 - 1),
                _ => (1, u16::MAX),
            };
            row[0] = state;
            row[1] = number.len() as u8;
            row[2..2 + number.len()].copy_from_slice(number.as_bytes());
            row[18..26].copy_from_slice(&15_000_000u64.to_le_bytes());
            row[26..28].copy_from_slice(&partner.to_le_bytes());
            row[28] = b'B';
        }
    }
    ledger
}
