//! Error files: of booked reports and of forged answers, every input damaged, several at once.

use std::collections::BTreeSet;

use roselhanda::raw;
use roselhanda::{code_of, error_file, Answer, ANSWER_SIZE, TEXT_ROW_SIZE};

use crate::compare::{ErrorCall, Outcome};
use crate::files::{
    control_word, damage_later_part, every_change, Desk, Parts, DAMAGES, LONGEST_FILE, MOST_RECORDS,
};
use crate::rng::Rng;
use crate::tally::Check;
use crate::values::{date, free_text, name, near_date, near_time, time};

/// Bytes of a code in a row.
const DIGITS: usize = 4;
/// Numbers of four digits.
const NUMBERS: u16 = 10_000;

type TextRow = [u8; TEXT_ROW_SIZE];

/// The codes of the places.
fn place_codes() -> Vec<u16> {
    (0..).map_while(code_of).collect()
}

/// A row of a list.
fn row(code: u16, text: &[u8]) -> TextRow {
    let mut row = [b' '; TEXT_ROW_SIZE];
    row[..DIGITS].copy_from_slice(format!("{code:04}").as_bytes());
    row[DIGITS..][..text.len()].copy_from_slice(text);
    row
}

/// A text in its form, with the edges of length and bytes frequent.
fn text(rng: &mut Rng) -> Vec<u8> {
    let any: Vec<u8> = (b' '..=b'~').filter(|&byte| byte != b'\'').collect();
    let alphabets: [&[u8]; 4] = [&any, b" !&(~}", b"ABC ", b" "];
    let alphabet = *rng.pick(&alphabets);
    let length = *rng.pick(&[0, 1, 2, 15, 40, 75, 76]);
    rng.text(alphabet, length)
}

fn shuffle<T>(rng: &mut Rng, values: &mut [T]) {
    for last in (1..values.len()).rev() {
        values.swap(last, rng.below(last + 1));
    }
}

/// Two lists, the member's and ours, that have a text for each of these codes in one of them or in
/// both, and a few rows more, in any order.
fn lists(rng: &mut Rng, codes: &[u16]) -> [Vec<u8>; 2] {
    let mut all: BTreeSet<u16> = codes.iter().copied().filter(|&code| code != 0).collect();
    for _ in 0..rng.within(3..=12) {
        all.insert(rng.below(NUMBERS.into()) as u16);
    }
    let percent = *rng.pick(&[5, 50, 50, 95]);
    let mut lists = [Vec::new(), Vec::new()];
    for code in all {
        let [member, ours] = &mut lists;
        let in_both = rng.chance(30);
        let is_members = rng.chance(percent);
        if in_both || is_members {
            member.push(row(code, &text(rng)));
        }
        if in_both || !is_members {
            ours.push(row(code, &text(rng)));
        }
    }
    lists.map(|mut rows| {
        shuffle(rng, &mut rows);
        rows.concat()
    })
}

/// Everything that a call is lent but its room, sound at first.
#[derive(Clone)]
struct Lent {
    parts: Parts,
    answers: Vec<u8>,
    member: Vec<u8>,
    ours: Vec<u8>,
    date: Vec<u8>,
    time: Vec<u8>,
}

impl Lent {
    /// Records of up to so many bytes, answered with these codes and otherwise with any bytes.
    fn forged(rng: &mut Rng, codes: &[u16], longest: usize) -> Self {
        let records: Vec<Vec<u8>> = codes
            .iter()
            .map(|_| {
                let any = rng.below(longest + 1);
                let length = *rng.pick(&[0, 1, any, any, any]);
                free_text(rng, length)
            })
            .collect();
        let (sender, word) = (name(rng, &[1, 2, 5, 7, 8]), control_word(rng));
        let mut answers = rng.bytes(ANSWER_SIZE * codes.len());
        for (answer, code) in answers.chunks_mut(ANSWER_SIZE).zip(codes) {
            answer[8..10].copy_from_slice(&code.to_le_bytes());
        }
        let parts = Parts::dated(rng, &sender, &word, &records);
        Lent::answered(rng, parts, answers)
    }

    /// A few records, some of them refused.
    fn random(rng: &mut Rng) -> Self {
        let count = rng.within(3..=8);
        let mut codes = drawn_codes(rng, count, 60);
        codes[rng.below(count)] = *rng.pick(&place_codes());
        Lent::forged(rng, &codes, 120)
    }

    /// A report with its answers, and lists, date and time for them.
    fn answered(rng: &mut Rng, parts: Parts, answers: Vec<u8>) -> Self {
        let codes: Vec<u16> = answers.chunks(ANSWER_SIZE).map(code_in).collect();
        let [member, ours] = lists(rng, &codes);
        Lent {
            parts,
            answers,
            member,
            ours,
            date: date(rng),
            time: time(rng, false),
        }
    }

    fn call<'a>(&'a self, report: &'a [u8], room: usize) -> ErrorCall<'a> {
        ErrorCall {
            report,
            answers: &self.answers,
            member: &self.member,
            ours: &self.ours,
            date: &self.date,
            time: &self.time,
            room,
        }
    }

    /// As much room as the file can need, and a little more.
    fn ample_room(&self) -> usize {
        let lines = self.answers.len() / ANSWER_SIZE * (TEXT_ROW_SIZE + 3);
        self.parts.to_bytes().len() + lines + 20
    }

    fn expecting(&self, check: &mut Check, room: usize, due: Outcome, label: &str) {
        let report = self.parts.to_bytes();
        check.error_file_expecting(&self.call(&report, room), Some(due), label);
    }

    /// The call with ample room: it has to be accepted. Gives the length of the file.
    fn accepted(&self, check: &mut Check, label: &str) -> usize {
        let report = self.parts.to_bytes();
        let call = self.call(&report, self.ample_room());
        let outcome = check.error_file(&call).outcome;
        check.case(outcome.is_ok(), || format!("{label}: {outcome:?}"));
        outcome.unwrap_or(0) as usize
    }

    fn refused(&self, check: &mut Check, number: u64, label: &str) {
        self.expecting(check, self.ample_room(), Err(number), label);
    }

    /// The call with ample room, with just as much as it needs, with a byte more, and with less.
    fn with_rooms(&self, check: &mut Check, rng: &mut Rng, label: &str) {
        let length = self.accepted(check, label);
        for room in [length, length + 1] {
            self.expecting(check, room, Ok(length as u64), label);
        }
        for room in [length.saturating_sub(1), rng.below(length.max(1))] {
            self.expecting(check, room, Err(19), label);
        }
    }

    fn list(&mut self, rng: &mut Rng) -> &mut Vec<u8> {
        if rng.chance(50) {
            &mut self.member
        } else {
            &mut self.ours
        }
    }

    /// Where an answer begins: the first, the last or any, of those with a code where that is asked.
    fn some_answer(&self, rng: &mut Rng, is_refused: bool) -> usize {
        let all: Vec<usize> = (0..self.answers.len())
            .step_by(ANSWER_SIZE)
            .filter(|&at| !is_refused || code_in(&self.answers[at..]) != 0)
            .collect();
        let any = *rng.pick(&all);
        *rng.pick(&[all[0], all[all.len() - 1], any])
    }

    fn set_code(&mut self, at: usize, code: u16) {
        self.answers[at + 8..at + 10].copy_from_slice(&code.to_le_bytes());
    }

    /// A list with this text for each code of the answers.
    fn same_text(&self, text: &[u8]) -> Vec<u8> {
        let codes: BTreeSet<u16> = self.answers.chunks(ANSWER_SIZE).map(code_in).collect();
        codes.iter().flat_map(|&code| row(code, text)).collect()
    }

    /// Takes the rows of a code out of both lists.
    fn take_out(&mut self, code: u16) {
        let digits = format!("{code:04}");
        for list in [&mut self.member, &mut self.ours] {
            let rows = list.chunks(TEXT_ROW_SIZE);
            *list = rows
                .filter(|row| !row.starts_with(digits.as_bytes()))
                .flatten()
                .copied()
                .collect();
        }
    }
}

/// The code of an answer.
fn code_in(answer: &[u8]) -> u16 {
    u16::from_le_bytes([answer[8], answer[9]])
}

/// So many codes, about `percent` of them not 0.
fn drawn_codes(rng: &mut Rng, count: usize, percent: usize) -> Vec<u16> {
    let all = place_codes();
    (0..count)
        .map(|_| {
            if rng.chance(percent) {
                *rng.pick(&all)
            } else {
                0
            }
        })
        .collect()
}

/// Reports that the archive has booked, with the answers that it gave.
pub fn booked_reports(check: &mut Check, rng: &mut Rng, count: usize) {
    check.section("error files: of booked reports");
    for case in 0..count {
        let desk = Desk::random(rng);
        let lines = desk.lines(rng, case);
        let parts = Parts::random(rng, &desk.world, &lines);
        let report = parts.to_bytes();
        let mut answers = vec![0; ANSWER_SIZE * lines.len()];
        let mut count = 0;
        let reply = raw::file(
            &report,
            &desk.world.reporters,
            &desk.world.currencies,
            &mut desk.ledger.clone(),
            &mut answers,
            &mut count,
        );
        check.case((reply, count) == (0, lines.len() as u64), || {
            format!("{} is not booked", report.escape_ascii())
        });
        let lent = Lent::answered(rng, parts, answers);
        lent.with_rooms(check, rng, "a booked report");

        // The safe call makes a buffer of its own.
        let answers: Option<Vec<Answer>> = lent
            .answers
            .chunks(ANSWER_SIZE)
            .map(Answer::from_bytes)
            .collect();
        let safe = error_file(
            &report,
            &answers.expect("answers of a booked report"),
            &lent.member,
            &lent.ours,
            &lent.date,
            &lent.time,
        );
        let call = lent.call(&report, lent.ample_room());
        let written = check.error_file(&call).written.clone();
        check.case(safe.as_ref() == Ok(&written), || {
            format!("{safe:?} of the safe call for {}", report.escape_ascii())
        });
    }
}

/// Any codes in answers that are otherwise any bytes: none refused, some, all, every code.
pub fn forged_answers(check: &mut Check, rng: &mut Rng, count: usize) {
    check.section("error files: of forged answers");
    for case in 0..count {
        let few = rng.below(12);
        let (codes, longest) = match case % 25 {
            0 => (drawn_codes(rng, few, 0), 120),
            1 => (Vec::new(), 0),
            2 | 3 => {
                let mut codes = [place_codes(), drawn_codes(rng, few, 50)].concat();
                shuffle(rng, &mut codes);
                (codes, 300)
            }
            4 | 5 => {
                let many = rng.within(800..=MOST_RECORDS);
                (drawn_codes(rng, many, 95), 25)
            }
            6 => (vec![*rng.pick(&place_codes()); few], 120),
            7 => (drawn_codes(rng, MOST_RECORDS, 5), 25),
            _ => (drawn_codes(rng, few, 60), 120),
        };
        Lent::forged(rng, &codes, longest).with_rooms(check, rng, "forged answers");
    }
}

/// Every number as the code of an answer, the lists having a text for each place: only 0 and the
/// codes of the places are taken.
pub fn every_code(check: &mut Check, rng: &mut Rng) {
    check.section("error files: every number as a code");
    let all = place_codes();
    let mut lent = Lent::forged(rng, &[0, 161, 0], 10);
    [lent.member, lent.ours] = lists(rng, &all);
    let report = lent.parts.to_bytes();
    for number in 0..=u16::MAX {
        let at = ANSWER_SIZE * rng.below(3);
        let before = code_in(&lent.answers[at..]);
        lent.set_code(at, number);
        let call = lent.call(&report, lent.ample_room());
        let outcome = check.error_file(&call).outcome;
        let is_taken = number == 0 || all.contains(&number);
        check.case(outcome.is_ok() == is_taken, || {
            format!("{number} as a code: {outcome:?}")
        });
        lent.set_code(at, before);
    }
}

/// Every byte of both lists, of the date and of the time replaced by every other.
pub fn every_byte(check: &mut Check, rng: &mut Rng) {
    check.section("error files: every byte of the lists replaced");
    let mut lent = Lent::forged(rng, &[161, 24, 0], 10);
    lent.member = [row(161, b"of the member"), row(1, b" "), row(9999, b"")].concat();
    lent.ours = [row(24, b"ours"), row(161, b"ours"), row(0, &[b'~'; 76])].concat();
    let sound = lent.clone();
    let room = lent.ample_room();
    let mut replaced = |which: fn(&mut Lent) -> &mut Vec<u8>, at: usize, is_text: bool| {
        for byte in 0..=255 {
            let mut lent = sound.clone();
            which(&mut lent)[at] = byte;
            let report = lent.parts.to_bytes();
            let outcome = check.error_file(&lent.call(&report, room)).outcome;
            if is_text {
                let fits = (0x20..=0x7e).contains(&byte) && byte != 0x27;
                check.case(outcome.err() == (!fits).then_some(16), || {
                    format!("byte {byte:#x} at {at} of a list: {outcome:?}")
                });
            }
        }
    };
    for at in 0..sound.member.len() {
        let is_text = at % TEXT_ROW_SIZE >= DIGITS;
        replaced(|lent| &mut lent.member, at, is_text);
        replaced(|lent| &mut lent.ours, at, is_text);
    }
    for at in 0..sound.date.len() {
        replaced(|lent| &mut lent.date, at, false);
    }
    for at in 0..sound.time.len() {
        replaced(|lent| &mut lent.time, at, false);
    }
}

/// Every change of a report outside of its records, and records of every length around the
/// longest report.
pub fn reports(check: &mut Check, rng: &mut Rng) {
    check.section("error files: every byte of a report replaced");
    let lent = Lent::forged(rng, &[9001], 10);
    let room = lent.ample_room();
    every_change(&lent.parts.to_bytes(), |report| {
        check.error_file(&lent.call(report, room));
    });
    for length in LONGEST_FILE - 60..=LONGEST_FILE + 60 {
        let mut lent = lent.clone();
        let padding = length - lent.parts.to_bytes().len();
        lent.parts.body.splice(2..2, vec![b'A'; padding]);
        if length > LONGEST_FILE {
            lent.refused(check, 1, "length of a report");
        } else {
            lent.with_rooms(check, rng, "length of a report");
        }
    }
}

/// Every time of four digits, and dates around the real ones.
pub fn dates_and_times(check: &mut Check, rng: &mut Rng, dates: usize) {
    check.section("error files: every time, dates");
    let mut lent = Lent::random(rng);
    let report = lent.parts.to_bytes();
    let room = lent.ample_room();
    let sound = lent.clone();
    for number in 0..NUMBERS {
        lent.time = format!("{number:04}").into_bytes();
        let outcome = check.error_file(&lent.call(&report, room)).outcome;
        let is_real = number / 100 < 24 && number % 100 < 60;
        check.case(outcome.err() == (!is_real).then_some(18), || {
            format!("{number:04} as time: {outcome:?}")
        });
    }
    for _ in 0..dates {
        lent.date = if rng.chance(20) {
            date(rng)
        } else {
            near_date(rng)
        };
        lent.time = if rng.chance(80) {
            sound.time.clone()
        } else {
            near_time(rng, false)
        };
        check.error_file(&lent.call(&report, room));
    }
}

/// A change for which a call is refused by its number.
type Damage = fn(&mut Rng, &mut Lent);

/// Changes of the answers, refused by 15.
const BAD_ANSWERS: &[(&str, Damage)] = &[
    ("a byte too few", |_, lent| {
        lent.answers.pop();
    }),
    ("a byte too many", |rng, lent| {
        let byte = rng.byte();
        lent.answers.push(byte);
    }),
    ("an answer too few", |_, lent| {
        let length = lent.answers.len();
        lent.answers.truncate(length - ANSWER_SIZE);
    }),
    ("an answer too many", |rng, lent| {
        let at = lent.some_answer(rng, false);
        let answer = lent.answers[at..][..ANSWER_SIZE].to_vec();
        lent.answers.extend(answer);
    }),
    ("no answers", |_, lent| lent.answers.clear()),
    ("a number that is no code", |rng, lent| {
        let at = lent.some_answer(rng, false);
        let known = place_codes();
        let number = loop {
            let (any, near) = (rng.next() as u16, *rng.pick(&known));
            let number = *rng.pick(&[any, near + 1, near - 1, near + 10_000, 1, 9_999, 65_535]);
            if number != 0 && !known.contains(&number) {
                break number;
            }
        };
        lent.set_code(at, number);
    }),
    ("a code with its bytes swapped", |rng, lent| {
        let at = lent.some_answer(rng, false);
        let known = place_codes();
        let swapped = loop {
            let swapped = rng.pick(&known).swap_bytes();
            if !known.contains(&swapped) {
                break swapped;
            }
        };
        lent.set_code(at, swapped);
    }),
];

/// Where a row begins: the first, the last or any.
fn some_row(rng: &mut Rng, list: &[u8]) -> usize {
    let last = list.len() / TEXT_ROW_SIZE - 1;
    let any = rng.below(last + 1);
    TEXT_ROW_SIZE * *rng.pick(&[0, last, any])
}

/// Two rows of a list, the earlier one first: the first two, the last two, the first and the last,
/// or any.
fn two_rows(rng: &mut Rng, list: &[u8]) -> [usize; 2] {
    let last = list.len() / TEXT_ROW_SIZE - 1;
    let second = rng.within(1..=last);
    let any = [rng.below(second), second];
    let pair = *rng.pick(&[[0, 1], [last - 1, last], [0, last], any]);
    pair.map(|at| TEXT_ROW_SIZE * at)
}

/// A change of one list.
type ListDamage = fn(&mut Rng, &mut Vec<u8>);

/// Changes of one of the lists, refused by 16.
const BAD_LISTS: &[(&str, ListDamage)] = &[
    ("a byte too few", |_, list| {
        list.pop();
    }),
    ("a byte too many", |rng, list| {
        list.push(*rng.pick(b" 0A"));
    }),
    ("a row cut off", |rng, list| {
        let length = list.len();
        list.truncate(length - rng.within(1..=TEXT_ROW_SIZE - 1));
    }),
    ("the first byte missing", |_, list| {
        list.remove(0);
    }),
    ("a code without a digit", |rng, list| {
        let at = some_row(rng, list) + rng.below(DIGITS);
        list[at] = *rng.pick(b"/:A -+\x00\x1f\x7f\x80\xb0\xff");
    }),
    ("a byte that is none of a text", |rng, list| {
        let any = rng.within(DIGITS..=TEXT_ROW_SIZE - 1);
        let at = some_row(rng, list) + *rng.pick(&[DIGITS, any, TEXT_ROW_SIZE - 1]);
        list[at] = *rng.pick(b"\x1f\x7f\x27\x80\x00\t\r\n\xa0\xa7\xff");
    }),
    ("a code twice", |rng, list| {
        let [first, second] = two_rows(rng, list);
        list.copy_within(first..first + DIGITS, second);
    }),
    ("a row twice", |rng, list| {
        let [first, second] = two_rows(rng, list);
        list.copy_within(first..first + TEXT_ROW_SIZE, second);
    }),
    ("a row more, and so twice", |rng, list| {
        let at = some_row(rng, list);
        let again = list[at..][..TEXT_ROW_SIZE].to_vec();
        let before = some_row(rng, list);
        list.splice(before..before, again);
    }),
    ("a row of spaces", |rng, list| {
        let at = some_row(rng, list);
        list[at..][..TEXT_ROW_SIZE].fill(b' ');
    }),
    ("a row of zeros", |_, list| list.extend([0; TEXT_ROW_SIZE])),
    ("rows with an end of line", |_, list| {
        let rows = list.chunks(TEXT_ROW_SIZE);
        *list = rows.flat_map(|row| [row, b"\n"].concat()).collect();
    }),
];

/// Changes that leave a code without a text, refused by 17.
const NO_TEXT: &[(&str, Damage)] = &[
    ("a code taken out of both lists", |rng, lent| {
        let at = lent.some_answer(rng, true);
        lent.take_out(code_in(&lent.answers[at..]));
    }),
    ("an answer with a code of neither list", |rng, lent| {
        let code = *rng.pick(&place_codes());
        lent.take_out(code);
        let at = lent.some_answer(rng, false);
        lent.set_code(at, code);
    }),
    ("a code whose neighbours alone are listed", |rng, lent| {
        let at = lent.some_answer(rng, true);
        let code = code_in(&lent.answers[at..]);
        for number in [code - 1, code, code + 1] {
            lent.take_out(number);
        }
        for number in [code - 1, code + 1] {
            lent.list(rng).extend(row(number, b"a neighbour"));
        }
    }),
];

/// Dates and times that are none, refused by 18.
const NO_DATE: &[(&str, Damage)] = &[
    ("no such day", |rng, lent| {
        let days = [
            b"20130229",
            b"20131301",
            b"20130431",
            b"20130900",
            b"20990230",
            b"20130001",
        ];
        lent.date = rng.pick(&days).to_vec();
    }),
    ("a day of another century", |rng, lent| {
        lent.date = rng.pick(&[b"19991231", b"21000101", b"00000000"]).to_vec();
    }),
    ("a date of another length", |rng, lent| match rng.below(4) {
        0 => lent.date.clear(),
        1 => {
            lent.date.pop();
        }
        2 => lent.date.push(b'0'),
        _ => lent.date.insert(0, b'0'),
    }),
    ("a date not of digits", |rng, lent| {
        let at = rng.below(8);
        lent.date[at] = *rng.pick(b"/:A -\x00\xff");
    }),
    ("no such time", |rng, lent| {
        let times = [b"2400", b"2360", b"0060", b"9999", b"1260"];
        lent.time = rng.pick(&times).to_vec();
    }),
    ("a time of another length", |rng, lent| match rng.below(4) {
        0 => lent.time.clear(),
        1 => {
            lent.time.pop();
        }
        2 => lent.time.push(b'0'),
        _ => lent.time.insert(0, b'0'),
    }),
    ("a time not of digits", |rng, lent| {
        let at = rng.below(4);
        lent.time[at] = *rng.pick(b"/:A -\x00\xff");
    }),
];

/// Changes for which no call is refused.
const HARMLESS: &[(&str, Damage)] = &[
    ("nothing", |_, _| {}),
    ("a list of the member's alone", |_, lent| {
        lent.member = lent.same_text(b"the member says");
        lent.ours.clear();
    }),
    ("our list alone", |_, lent| {
        lent.ours = lent.same_text(b"we say");
        lent.member.clear();
    }),
    ("one list for both", |_, lent| {
        lent.ours = lent.same_text(b"both say");
        lent.member.clone_from(&lent.ours);
    }),
    ("no lists where nothing is refused", |_, lent| {
        for at in (0..lent.answers.len()).step_by(ANSWER_SIZE) {
            lent.set_code(at, 0);
        }
        lent.member.clear();
        lent.ours.clear();
    }),
    ("the first and the last number in a list", |rng, lent| {
        for number in [0, 9_999] {
            lent.take_out(number);
            lent.list(rng).extend(row(number, b"no code"));
        }
    }),
    ("bytes of an answer beside its code", |rng, lent| {
        let at = lent.some_answer(rng, false);
        let beside = *rng.pick(&[0, 7, 10, 11, 12, 15]);
        lent.answers[at + beside] = rng.byte();
    }),
];

/// Makes a fault of this number; tells which one.
fn fault(rng: &mut Rng, number: u64, lent: &mut Lent) -> &'static str {
    let among = |rng: &mut Rng, lent: &mut Lent, damages: &[(&'static str, Damage)]| {
        let &(label, damage) = rng.pick(damages);
        damage(rng, lent);
        label
    };
    match number {
        1 => {
            lent.parts.end.extend([b'A'; LONGEST_FILE]);
            "a report too long"
        }
        15 => among(rng, lent, BAD_ANSWERS),
        16 => {
            let &(label, damage) = rng.pick(BAD_LISTS);
            damage_list(rng, lent, damage);
            label
        }
        17 => among(rng, lent, NO_TEXT),
        18 => among(rng, lent, NO_DATE),
        _ => {
            let of_number: Vec<_> = DAMAGES.iter().filter(|damage| damage.0 == number).collect();
            let &&(_, label, damage) = rng.pick(&of_number);
            damage(rng, &mut lent.parts);
            label
        }
    }
}

/// Damages one of the lists, which gets rows where it has fewer than two.
fn damage_list(rng: &mut Rng, lent: &mut Lent, damage: ListDamage) {
    let list = lent.list(rng);
    if list.len() < 2 * TEXT_ROW_SIZE {
        *list = [row(1, b"no code"), row(2, b"nor this")].concat();
    }
    damage(rng, list);
}

/// Each damage of each input alone, and changes that are none.
pub fn damaged(check: &mut Check, rng: &mut Rng, rounds: usize) {
    check.section("error files: each input damaged");
    for _ in 0..rounds {
        for (label, change) in HARMLESS {
            let mut lent = Lent::random(rng);
            change(rng, &mut lent);
            lent.with_rooms(check, rng, label);
        }
        for (number, damages) in [(15, BAD_ANSWERS), (17, NO_TEXT), (18, NO_DATE)] {
            for (label, damage) in damages {
                let mut lent = Lent::random(rng);
                damage(rng, &mut lent);
                lent.refused(check, number, label);
            }
        }
        for &(label, damage) in BAD_LISTS {
            let mut lent = Lent::random(rng);
            damage_list(rng, &mut lent, damage);
            lent.refused(check, 16, label);
        }
        for &(number, label, damage) in DAMAGES {
            let mut lent = Lent::random(rng);
            damage(rng, &mut lent.parts);
            damage_later_part(rng, number, &mut lent.parts);
            lent.refused(check, number, label);
        }
        // Over 1,024 records, and as many answers.
        let many = MOST_RECORDS + rng.within(1..=3);
        let codes = drawn_codes(rng, many, 50);
        Lent::forged(rng, &codes, 20).refused(check, 11, "over 1,024 records, each answered");
    }
}

const FAULTS: [u64; 13] = [1, 5, 6, 7, 8, 9, 10, 11, 15, 16, 17, 18, 19];

/// Faults of two numbers: with the later one alone its own number is due, with both the earlier.
/// Then faults of any set of numbers.
pub fn order(check: &mut Check, rng: &mut Rng, rounds: usize) {
    check.section("error files: two faults and more");
    for _ in 0..rounds {
        for (at, &late) in FAULTS.iter().enumerate().filter(|(_, &late)| late >= 15) {
            for &early in &FAULTS[..at] {
                let mut lent = Lent::random(rng);
                let mut room = lent.ample_room();
                if late == 19 {
                    let length = lent.accepted(check, "without a fault");
                    let any = rng.below(length);
                    room = *rng.pick(&[0, any, length - 1]);
                } else {
                    fault(rng, late, &mut lent);
                }
                lent.expecting(check, room, Err(late), "the later of two faults");
                let label = fault(rng, early, &mut lent);
                lent.expecting(check, room, Err(early), label);
            }
        }
        for _ in 0..30 {
            let mut lent = Lent::random(rng);
            let mut room = lent.ample_room();
            let mut due = None;
            // From the last to the first, so that the report is damaged once at most.
            let of_report = *rng.pick(&FAULTS[..8]);
            for number in [19, 18, 17, 16, 15, of_report] {
                if rng.chance(40) {
                    due = Some(number);
                    if number == 19 {
                        room = rng.below(60);
                    } else {
                        fault(rng, number, &mut lent);
                    }
                }
            }
            match due {
                Some(number) => lent.expecting(check, room, Err(number), "any faults"),
                None => lent.with_rooms(check, rng, "no faults"),
            }
        }
    }
}

/// A sound list of so many rows, in ascending order or in any.
fn long_list(rng: &mut Rng, count: usize) -> Vec<u8> {
    let mut numbers: Vec<u16> = (0..NUMBERS).collect();
    if rng.chance(70) {
        shuffle(rng, &mut numbers);
    }
    let texts = [text(rng), text(rng), text(rng)];
    numbers[..count]
        .iter()
        .flat_map(|&number| row(number, &texts[usize::from(number) % 3]))
        .collect()
}

/// Lists of up to 10,000 rows, one of them with a row for each number; and a code twice in one.
pub fn long_lists(check: &mut Check, rng: &mut Rng, rounds: usize) {
    check.section("error files: lists of up to 10,000 rows");
    let all = usize::from(NUMBERS);
    for _ in 0..rounds {
        let some = *rng.pick(&[600, 6_000, all]);
        let [member, ours] = *rng.pick(&[[some, all], [all, some]]);
        let mut lent = Lent::random(rng);
        lent.member = long_list(rng, member);
        lent.ours = long_list(rng, ours);
        lent.with_rooms(check, rng, "long lists");
        for &(label, damage) in BAD_LISTS.iter().filter(|bad| bad.0.contains("twice")) {
            let mut lent = lent.clone();
            damage_list(rng, &mut lent, damage);
            lent.refused(check, 16, label);
        }
    }
}

/// Calls with one to three bytes of any input replaced, put in or taken out.
pub fn edited(check: &mut Check, rng: &mut Rng, cases: usize) {
    check.section("error files: bytes of any input changed");
    for _ in 0..cases {
        let mut lent = Lent::random(rng);
        let mut report = lent.parts.to_bytes();
        let length = lent.ample_room();
        for _ in 0..rng.within(1..=3) {
            let input = match rng.below(7) {
                0 => &mut report,
                1 => &mut lent.answers,
                2 | 3 => &mut lent.member,
                4 => &mut lent.ours,
                5 => &mut lent.date,
                _ => &mut lent.time,
            };
            let byte = if rng.chance(50) {
                rng.byte()
            } else {
                *rng.pick(b" 09A'\r\n-+:")
            };
            let at = rng.below(input.len() + 1);
            match rng.below(8) {
                0 => input.insert(at, byte),
                1 if at < input.len() => {
                    input.remove(at);
                }
                _ if at < input.len() => input[at] = byte,
                _ => {}
            }
        }
        let any = rng.below(length);
        let room = *rng.pick(&[length, length, length, any]);
        check.error_file(&lent.call(&report, room));
    }
}

/// The same bytes lent twice: what is only read may be shared.
pub fn shared_lists(check: &mut Check, rng: &mut Rng, cases: usize) {
    check.section("error files: one list lent as both");
    for _ in 0..cases {
        let count = rng.below(10);
        let codes = drawn_codes(rng, count, 60);
        let mut lent = Lent::forged(rng, &codes, 60);
        lent.ours = codes
            .iter()
            .collect::<BTreeSet<_>>()
            .into_iter()
            .flat_map(|&code| row(code, &text(rng)))
            .collect();
        let report = lent.parts.to_bytes();
        let mut outs = [vec![0xa5; lent.ample_room()], vec![0xa5; lent.ample_room()]];
        let mut length = 0;
        let reply = raw::error_file(
            &report,
            &lent.answers,
            &lent.ours,
            &lent.ours,
            &lent.date,
            &lent.time,
            &mut outs[0],
            &mut length,
        );
        let twin = twin::error_file(
            &report,
            &lent.answers,
            &lent.ours,
            &lent.ours,
            &lent.date,
            &lent.time,
            &mut outs[1],
        );
        let agrees = reply == 0 && twin == Ok(length as usize) && outs[0] == outs[1];
        check.case(agrees, || format!("{reply}, and {twin:?} of the twin"));
    }
}
