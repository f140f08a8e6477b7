//! The inputs of the error files.

use roselhanda::code_of;

use crate::desks::{Desk, Errors};
use crate::rows::{self, Numbers, ANSWER_SIZE, SENDER, WORD};

const PLACES: usize = 64;
/// The first so many places have their text in the member's list.
const OF_THE_MEMBER: usize = 8;
/// Numbers of four digits.
const NUMBERS: u16 = 10_000;

/// The rows of the two lists.
#[derive(Clone, Copy)]
enum Lists {
    /// One for each of the 64 places, 8 in the member's list and 56 in ours.
    Places,
    /// One for each number of four digits, in both lists.
    Full,
}

/// An error file of so many usual records, of which so many are refused, spread evenly.
#[derive(Clone, Copy)]
pub struct Row {
    name: &'static str,
    records: usize,
    refused: usize,
    lists: Lists,
}

const fn row(name: &'static str, records: usize, refused: usize, lists: Lists) -> Row {
    Row {
        name,
        records,
        refused,
        lists,
    }
}

pub const ERRORS: [Row; 6] = [
    row("texts-64", 0, 0, Lists::Places),
    row("error-1", 1, 1, Lists::Places),
    row("error-60", 60, 60, Lists::Places),
    row("error-250", 250, 250, Lists::Places),
    row("error-250-few", 250, 5, Lists::Places),
    row("error-10000", 60, 60, Lists::Full),
];

/// What a row's call is lent.
pub struct Inputs {
    pub report: Vec<u8>,
    pub answers: Vec<u8>,
    pub member: Vec<u8>,
    pub ours: Vec<u8>,
    pub date: Vec<u8>,
    pub time: Vec<u8>,
    /// The file that the call has to write.
    pub due: Vec<u8>,
}

impl rows::Named for Row {
    fn name(&self) -> &'static str {
        self.name
    }

    fn desk(&self) -> Box<dyn Desk> {
        Box::new(Errors::new(self.inputs()))
    }
}

impl Row {
    fn inputs(&self) -> Inputs {
        let records: Vec<String> = (0..self.records)
            .map(|at| rows::valid_record(at, &Numbers::Usual.of_record(at)))
            .collect();
        let codes: Vec<u16> = (0..self.records).map(|at| self.code(at)).collect();
        let (member, ours) = self.lists.rows();
        let refused = records.iter().zip(&codes).filter(|&(_, &code)| code != 0);
        let lines: String = refused
            .map(|(record, &code)| format!("{record}\r\n{code:04}-{}\r\n", text(code)))
            .collect();
        Inputs {
            report: rows::file(records.into_iter()),
            answers: codes.iter().flat_map(|&code| answer(code)).collect(),
            member: member.concat().into_bytes(),
            ours: ours.concat().into_bytes(),
            date: b"20130904".to_vec(),
            time: b"0800".to_vec(),
            due: format!(
                "UNB+UNOA:1+ATBWA+{SENDER}+20130904:0800+{WORD}++BWAMSERR'UNH+BWA+BWERR:0'\r\n\
                 {lines}'UNT+3+BWA'UNZ+1+{WORD}'"
            )
            .into_bytes(),
        }
    }

    /// The code of a record: one place after the other, 0 where it is not refused.
    fn code(&self, at: usize) -> u16 {
        let is_refused = at * self.refused % self.records < self.refused;
        if is_refused {
            code_at(at)
        } else {
            0
        }
    }
}

/// The code of a place, and from the last on those of the first again.
fn code_at(at: usize) -> u16 {
    code_of((at % PLACES) as u8).expect("a place")
}

impl Lists {
    /// The rows of the member's list and of ours.
    fn rows(self) -> (Vec<String>, Vec<String>) {
        let row = |code: u16| format!("{code:04}{:<76}", text(code));
        match self {
            Lists::Places => {
                let mut member: Vec<String> = (0..PLACES).map(|at| row(code_at(at))).collect();
                let ours = member.split_off(OF_THE_MEMBER);
                (member, ours)
            }
            Lists::Full => {
                let rows: Vec<String> = (0..NUMBERS).map(row).collect();
                (rows.clone(), rows)
            }
        }
    }
}

/// A text of the usual length, and a little more or less.
fn text(code: u16) -> String {
    let more = ["", " or missing", " or too long for its field"][usize::from(code % 3)];
    format!("Check {code} failed: the value is malformed{more}")
}

/// An answer with this code.
fn answer(code: u16) -> [u8; ANSWER_SIZE] {
    let mut answer = [0; ANSWER_SIZE];
    answer[8..10].copy_from_slice(&code.to_le_bytes());
    answer
}
