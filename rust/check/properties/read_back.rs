//! Error files read back: the envelope by the twin's reader, and each line against what the call
//! was lent, looked up row by row.

use roselhanda::{ANSWER_SIZE, TEXT_ROW_SIZE};
use twin::envelope::Envelope;

use crate::compare::ErrorCall;

/// A record that was given back, with the texts that the lists have for its code.
pub struct Told<'a> {
    pub code: u16,
    record: &'a [u8],
    member: Option<&'a [u8]>,
    ours: Option<&'a [u8]>,
}

impl Told<'_> {
    /// The text that is due.
    fn text(&self) -> &[u8] {
        let text = self.member.or(self.ours);
        text.expect("an accepted call has a text for each code")
    }
}

/// An error file that was read back.
pub struct ReadBack<'a> {
    pub told: Vec<Told<'a>>,
    /// Records of its report.
    records: usize,
    length: usize,
    room: usize,
}

/// The text that a list has for a code, without the spaces at its end.
fn listed(list: &[u8], code: u16) -> Option<&[u8]> {
    let digits = format!("{code:04}");
    let mut rows = list.chunks(TEXT_ROW_SIZE);
    let row = rows.find(|row| row.starts_with(digits.as_bytes()))?;
    let mut text = &row[4..];
    while let Some(shorter) = text.strip_suffix(b" ") {
        text = shorter;
    }
    Some(text)
}

impl<'a> ReadBack<'a> {
    /// Reads the file that an accepted call wrote; says what is wrong with it, if anything is.
    pub fn read(call: &ErrorCall<'a>, file: &[u8]) -> Result<Self, String> {
        let report = Envelope::open(call.report)
            .map_err(|refusal| format!("a report refused by {} was accepted", refusal.number()))?;
        let told: Vec<Told> = report
            .lines
            .iter()
            .zip(call.answers.chunks(ANSWER_SIZE))
            .map(|(&record, answer)| (record, u16::from_le_bytes([answer[8], answer[9]])))
            .filter(|&(_, code)| code != 0)
            .map(|(record, code)| Told {
                code,
                record,
                member: listed(call.member, code),
                ours: listed(call.ours, code),
            })
            .collect();
        let without_text = |told: &&Told| told.member.or(told.ours).is_none();
        if let Some(told) = told.iter().find(without_text) {
            return Err(format!("{:04} has no text, and was accepted", told.code));
        }

        let read = Envelope::open_error_file(file)
            .map_err(|refusal| format!("read back it is refused by {}", refusal.number()))?;
        let Envelope { head, lines } = read;
        let found = [head.sender, head.receiver, head.date, head.time, head.word];
        let due = [
            b"ATBWA",
            report.head.sender,
            call.date,
            call.time,
            report.head.word,
        ];
        if found != due {
            return Err(format!("the head of \"{}\"", file.escape_ascii()));
        }
        let line = |told: &Told| [format!("{:04}-", told.code).as_bytes(), told.text()].concat();
        let due = told
            .iter()
            .flat_map(|told| [told.record.to_vec(), line(told)]);
        if !lines.into_iter().eq(due) {
            return Err(format!("the lines of \"{}\"", file.escape_ascii()));
        }
        Ok(ReadBack {
            told,
            records: report.lines.len(),
            length: file.len(),
            room: call.room,
        })
    }

    /// How many of the records that were given back are so.
    fn count(&self, is_so: impl Fn(&Told) -> bool) -> u64 {
        self.told.iter().filter(|told| is_so(told)).count() as u64
    }
}

/// How often a file shows something.
type Count = fn(&ReadBack) -> u64;

/// What has to be seen of error files.
pub const SIGHTS: [(&str, Count); 14] = [
    ("the member's text, ours being another", |file| {
        file.count(|told| {
            told.member.is_some() && told.ours.is_some_and(|ours| ours != told.text())
        })
    }),
    ("the member's text, and none of ours", |file| {
        file.count(|told| told.ours.is_none())
    }),
    ("our text", |file| file.count(|told| told.member.is_none())),
    ("an empty text", |file| {
        file.count(|told| told.text().is_empty())
    }),
    ("an empty text of the member's before ours", |file| {
        file.count(|told| told.text().is_empty() && told.ours.is_some_and(|ours| !ours.is_empty()))
    }),
    ("a text behind spaces", |file| {
        file.count(|told| told.text().starts_with(b" "))
    }),
    ("a text of 76 bytes", |file| {
        file.count(|told| told.text().len() == 76)
    }),
    ("an empty record", |file| {
        file.count(|told| told.record.is_empty())
    }),
    ("records, and none of them refused", |file| {
        u64::from(file.records > 0 && file.told.is_empty())
    }),
    ("no record", |file| u64::from(file.records == 0)),
    ("all 64 codes in a file", |file| {
        let mut codes: Vec<u16> = file.told.iter().map(|told| told.code).collect();
        codes.sort_unstable();
        codes.dedup();
        u64::from(codes.len() == 64)
    }),
    ("a file over 32,768 bytes", |file| {
        u64::from(file.length > 32_768)
    }),
    ("a buffer of the file's length", |file| {
        u64::from(file.room == file.length)
    }),
    ("a buffer of a byte more", |file| {
        u64::from(file.room == file.length + 1)
    }),
];
