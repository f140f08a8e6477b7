//! The error file of a report (document 02, Item 1): its refused records go back to the sender,
//! each with its code and a text.

use crate::calls::ANSWER_SIZE;
use crate::checks::CODES;
use crate::envelope::{Envelope, BUREAU, END_OF_ERROR_HEAD, LONGEST_FILE};
use crate::forms::{is_date, is_time_of_day};
use crate::refusal::Refusal;

/// Bytes of a row of a list of texts: a code of four digits, a text, spaces.
pub const TEXT_ROW_SIZE: usize = 80;

type TextRow = [u8; TEXT_ROW_SIZE];

const DIGITS: usize = 4;
/// Numbers of four digits.
const NUMBERS: usize = 10_000;
const NO_PLACE: u8 = u8::MAX;
/// By its code.
static PLACES: [u8; NUMBERS] = places();

const fn places() -> [u8; NUMBERS] {
    let mut places = [NO_PLACE; NUMBERS];
    let mut place = 0;
    while place < CODES.len() {
        places[CODES[place] as usize] = place as u8;
        place += 1;
    }
    places
}

/// The place that has this code.
fn place_of(code: usize) -> Option<usize> {
    let &place = PLACES.get(code)?;
    (place != NO_PLACE).then_some(usize::from(place))
}

/// The code of an answer, 0 where no check failed.
fn code_of(answer: &[u8; ANSWER_SIZE]) -> usize {
    usize::from(u16::from_le_bytes([answer[8], answer[9]]))
}

/// The rows of two lists by the place of their code.
struct Texts<'a>([Option<&'a TextRow>; CODES.len()]);

impl<'a> Texts<'a> {
    /// The rows of both lists, the member's before ours, if both lists are of their form.
    fn read(member: &'a [u8], ours: &'a [u8]) -> Option<Self> {
        let mut texts = Texts([None; CODES.len()]);
        (texts.add(ours) && texts.add(member)).then_some(texts)
    }

    /// Adds the rows of a list, over those that are there; tells whether it is of its form.
    fn add(&mut self, list: &'a [u8]) -> bool {
        let (rows, rest) = list.as_chunks();
        // A bit for each number.
        let mut listed = [0u64; NUMBERS.div_ceil(64)];
        rest.is_empty()
            && rows.iter().all(|row| {
                let Some(code) = listed_code(row) else {
                    return false;
                };
                let bit = 1 << (code % 64);
                let is_new = listed[code / 64] & bit == 0;
                listed[code / 64] |= bit;
                if let Some(place) = place_of(code) {
                    self.0[place] = Some(row);
                }
                is_new && is_text(row)
            })
    }
}

/// The code of a row, if it begins with four digits.
fn listed_code(row: &TextRow) -> Option<usize> {
    row[..DIGITS].iter().try_fold(0, |code, byte| {
        byte.is_ascii_digit()
            .then(|| code * 10 + usize::from(byte - b'0'))
    })
}

/// Whether the bytes behind the code are from 0x20 to 0x7E, and no apostrophe.
fn is_text(row: &TextRow) -> bool {
    // Without an early end the bytes are tested side by side. Digits are such bytes too.
    row.iter().fold(true, |fits, byte| {
        fits & matches!(byte, b' '..=b'~') & (*byte != b'\'')
    })
}

/// A buffer, written from its start.
struct Page<'a>(&'a mut [u8]);

impl Page<'_> {
    fn write(&mut self, bytes: &[u8]) {
        let (room, rest) = std::mem::take(&mut self.0).split_at_mut(bytes.len());
        room.copy_from_slice(bytes);
        self.0 = rest;
    }
}

/// Writes the error file of a report to the start of `out` and gives its length: the envelope goes
/// from the bureau to the report's sender, under this date and time, with the report's control
/// word; its lines are each record that has a code in its answer, and behind it the code, a hyphen
/// and the text that the member's list has for it, else ours.
///
/// # Errors
///
/// Refused by 1, 5 to 11 or 15 to 19, the first that applies; nothing is written then.
pub fn error_file(
    report: &[u8],
    answers: &[u8],
    member: &[u8],
    ours: &[u8],
    date: &[u8],
    time: &[u8],
    out: &mut [u8],
) -> Result<usize, Refusal> {
    if report.len() > LONGEST_FILE {
        return Err(Refusal::FileTooLong);
    }
    let Envelope { head, lines } = Envelope::open(report)?;

    let (answers, rest) = answers.as_chunks();
    let are_known = answers
        .iter()
        .map(code_of)
        .all(|code| code == 0 || place_of(code).is_some());
    if !rest.is_empty() || answers.len() != lines.len() || !are_known {
        return Err(Refusal::Answers);
    }
    let refused = || {
        let places = answers.iter().map(|answer| place_of(code_of(answer)));
        lines
            .iter()
            .zip(places)
            .filter_map(|(&record, place)| Some((record, place?)))
    };

    // Code and text by place, for the places that are asked for.
    let texts = Texts::read(member, ours).ok_or(Refusal::Texts)?;
    let mut reasons = [(&[][..], &[][..]); CODES.len()];
    let asked = refused().fold(0u64, |places, (_, place)| places | 1 << place);
    for (place, reason) in reasons.iter_mut().enumerate() {
        if asked >> place & 1 == 1 {
            let row = texts.0[place].ok_or(Refusal::NoText)?;
            // The code in front ends the search for the last byte of an empty text.
            *reason = row.trim_ascii_end().split_at(DIGITS);
        }
    }
    if !is_date(date) || !is_time_of_day(time) {
        return Err(Refusal::GivenDateOrTime);
    }

    let start: [&[u8]; 12] = [
        b"UNB+UNOA:1+",
        BUREAU,
        b"+",
        head.sender,
        b"+",
        date,
        b":",
        time,
        b"+",
        head.word,
        END_OF_ERROR_HEAD,
        b"\r\n",
    ];
    let end: [&[u8]; 3] = [b"'UNT+3+BWA'UNZ+1+", head.word, b"'"];
    let of_envelope: usize = start.iter().chain(&end).map(|part| part.len()).sum();
    let of_lines: usize = refused()
        .map(|(record, place)| {
            let (code, text) = reasons[place];
            record.len() + code.len() + text.len() + b"\r\n-\r\n".len()
        })
        .sum();
    let length = of_envelope + of_lines;
    let mut page = Page(out.get_mut(..length).ok_or(Refusal::Room)?);

    start.iter().for_each(|part| page.write(part));
    for (record, place) in refused() {
        let (code, text) = reasons[place];
        page.write(record);
        page.write(b"\r\n");
        page.write(code);
        page.write(b"-");
        page.write(text);
        page.write(b"\r\n");
    }
    end.iter().for_each(|part| page.write(part));
    Ok(length)
}

#[cfg(test)]
mod tests {
    use super::*;

    const REPORT: &[u8] = b"UNB+UNOA:1+MBONE+ATBWA+20130903:1015+W1++BWAMS'UNH+BWA+BWA:0'\r\n\
        first\r\nsecond\r\n\r\nfourth\r\n'UNT+3+BWA'UNZ+1+W1'";

    /// A list of texts.
    fn list(rows: &[(u16, &str)]) -> Vec<u8> {
        let rows = rows
            .iter()
            .map(|(code, text)| format!("{code:04}{text:<76}"));
        rows.collect::<String>().into_bytes()
    }

    /// Answers with these codes; no other byte of them is asked for.
    fn answers(codes: &[u16]) -> Vec<u8> {
        let answer = |code: &u16| {
            let mut answer = [0xa5; ANSWER_SIZE];
            answer[8..10].copy_from_slice(&code.to_le_bytes());
            answer
        };
        codes.iter().flat_map(answer).collect()
    }

    /// What the call of the report comes to, and what it leaves of 1,000 bytes.
    fn called(codes: &[u16], member: &[u8], ours: &[u8]) -> (Result<usize, Refusal>, Vec<u8>) {
        let mut out = vec![0xa5; 1_000];
        let outcome = error_file(
            REPORT,
            &answers(codes),
            member,
            ours,
            b"20130904",
            b"0800",
            &mut out,
        );
        (outcome, out)
    }

    fn refused(codes: &[u16], member: &[u8], ours: &[u8]) -> u64 {
        let (outcome, out) = called(codes, member, ours);
        assert_eq!(out, [0xa5; 1_000]);
        outcome.expect_err("it is refused").number()
    }

    #[test]
    fn the_file_in_full() {
        let member = list(&[(161, "  not  there"), (9001, "")]);
        let ours = list(&[(9001, "ours"), (24, "no right"), (161, "ours")]);
        let (outcome, out) = called(&[161, 0, 9001, 24], &member, &ours);
        let due = "UNB+UNOA:1+ATBWA+MBONE+20130904:0800+W1++BWAMSERR'UNH+BWA+BWERR:0'\r\n\
            first\r\n0161-  not  there\r\n\r\n9001-\r\nfourth\r\n0024-no right\r\n\
            'UNT+3+BWA'UNZ+1+W1'";
        assert_eq!(outcome, Ok(due.len()));
        assert_eq!(out[..due.len()], *due.as_bytes());
        assert!(out[due.len()..].iter().all(|&byte| byte == 0xa5));

        let read = Envelope::open_error_file(&out[..due.len()]).expect("it is an error file");
        assert_eq!(
            (read.head.sender, read.head.receiver),
            (BUREAU, &b"MBONE"[..])
        );
        assert_eq!(
            (read.head.date, read.head.time),
            (&b"20130904"[..], &b"0800"[..])
        );
        assert_eq!(read.head.word, b"W1");
        assert_eq!(read.lines.len(), 6);
        assert_eq!(read.lines[3], b"9001-");
    }

    #[test]
    fn no_refused_record() {
        let (outcome, out) = called(&[0; 4], b"", b"");
        let due = b"UNB+UNOA:1+ATBWA+MBONE+20130904:0800+W1++BWAMSERR'UNH+BWA+BWERR:0'\r\n\
            'UNT+3+BWA'UNZ+1+W1'";
        assert_eq!(outcome, Ok(due.len()));
        assert_eq!(out[..due.len()], *due);
    }

    #[test]
    fn answers_that_are_not_the_reports() {
        let ours = list(&[(161, "text")]);
        for codes in [
            &[161; 3][..],
            &[161; 5],
            &[161, 0, 1, 0],
            &[0, 0, 0, 10_161],
        ] {
            assert_eq!(refused(codes, b"", &ours), 15);
        }
        // 0x00A1 is 161; the two bytes the other way round are no code.
        assert_eq!(refused(&[0xa100, 0, 0, 0], b"", &ours), 15);
        assert!(CODES.iter().all(|&code| place_of(code.into()).is_some()));
        assert_eq!((0..=65_535).filter_map(place_of).count(), 64);
    }

    #[test]
    fn the_form_of_a_list() {
        let all: Vec<(u16, &str)> = (0..10_000).map(|code| (code, "text")).collect();
        assert!(called(&[161, 0, 0, 24], &list(&all), &list(&all)).0.is_ok());
        let mut twice = all.clone();
        twice[9_999].0 = 0;
        assert_eq!(refused(&[0; 4], &list(&twice), b""), 16);
        assert_eq!(refused(&[0; 4], b"", &list(&twice)), 16);

        let sound = list(&[(161, "text"), (9999, "not a place's")]);
        for (at, byte) in [
            (0, b'/'),
            (3, b':'),
            (80, b' '),
            (4, 0x1f),
            (79, 0x7f),
            (84, b'\''),
            (159, 0x80),
        ] {
            let mut damaged = sound.clone();
            damaged[at] = byte;
            assert_eq!(refused(&[161, 0, 0, 0], &damaged, &sound), 16);
            assert_eq!(refused(&[161, 0, 0, 0], &sound, &damaged), 16);
        }
        assert_eq!(refused(&[0; 4], &sound[1..], &sound), 16);
        assert_eq!(refused(&[0; 4], &sound, &sound[..159]), 16);
    }

    #[test]
    fn the_order_of_refusals() {
        let ours = list(&[(161, "text")]);
        let call = |report: &[u8], codes: &[u16], list: &[u8], date: &[u8], room: usize| {
            let mut out = vec![0; room];
            let outcome = error_file(report, &answers(codes), b"", list, date, b"0800", &mut out);
            outcome.map_err(Refusal::number)
        };
        let long = [REPORT, &[b'A'; 32_768]].concat();
        let (date, no_date) = (&b"20130904"[..], &b"20130931"[..]);
        assert_eq!(call(&long, &[1], b"1", no_date, 0), Err(1));
        assert_eq!(call(&REPORT[1..], &[1], b"1", no_date, 0), Err(5));
        assert_eq!(call(REPORT, &[1; 4], b"1", no_date, 0), Err(15));
        assert_eq!(call(REPORT, &[24; 4], b"1", no_date, 0), Err(16));
        assert_eq!(call(REPORT, &[24; 4], &ours, no_date, 0), Err(17));
        assert_eq!(call(REPORT, &[161; 4], &ours, no_date, 0), Err(18));
        assert_eq!(call(REPORT, &[161; 4], &ours, &date[1..], 0), Err(18));
        let length = call(REPORT, &[161; 4], &ours, date, 1_000).expect("there is room");
        assert_eq!(call(REPORT, &[161; 4], &ours, date, length - 1), Err(19));
        assert_eq!(call(REPORT, &[161; 4], &ours, date, length), Ok(length));
    }
}
