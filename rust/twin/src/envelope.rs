//! The envelope of a file: of a report, and of the error file that answers one.

use crate::forms::{is_date, is_name, is_time_of_day};
use crate::refusal::Refusal;

/// Most bytes of a report.
pub const LONGEST_FILE: usize = 32_768;
/// Most records of a report.
pub const MOST_RECORDS: usize = 1_024;
/// The bureau's name: the receiver of a report, and the sender of an error file.
pub const BUREAU: &[u8] = b"ATBWA";

const END_OF_REPORT_HEAD: &[u8] = b"++BWAMS'UNH+BWA+BWA:0'";
pub(crate) const END_OF_ERROR_HEAD: &[u8] = b"++BWAMSERR'UNH+BWA+BWERR:0'";

/// An opened file.
pub struct Envelope<'a> {
    /// What its head says.
    pub head: Head<'a>,
    /// The lines of its body in file order: the records of a report; the refused records of an
    /// error file, and behind each the line that says why.
    pub lines: Vec<&'a [u8]>,
}

/// The parts of a head that differ from file to file.
pub struct Head<'a> {
    /// The mailbox that it comes from.
    pub sender: &'a [u8],
    /// The mailbox that it is for.
    pub receiver: &'a [u8],
    /// `YYYYMMDD`.
    pub date: &'a [u8],
    /// `HHMM`.
    pub time: &'a [u8],
    /// The control word.
    pub word: &'a [u8],
}

impl<'a> Envelope<'a> {
    /// Reads the whole layout of a report: head, body and tail.
    ///
    /// # Errors
    ///
    /// Refused by 5 to 11, the first that applies.
    pub fn open(file: &'a [u8]) -> Result<Self, Refusal> {
        let (head, rest) = Head::read(file, END_OF_REPORT_HEAD)?;
        if head.receiver != BUREAU {
            return Err(Refusal::Receiver);
        }
        let lines = head.read_lines(rest)?;
        if lines.len() > MOST_RECORDS {
            return Err(Refusal::TooManyRecords);
        }
        Ok(Envelope { head, lines })
    }

    /// Reads the whole layout of an error file, which may be longer than a report and have any
    /// receiver.
    ///
    /// # Errors
    ///
    /// Refused by 5, 6, 8, 9 or 10, as a report would be.
    pub fn open_error_file(file: &'a [u8]) -> Result<Self, Refusal> {
        let (head, rest) = Head::read(file, END_OF_ERROR_HEAD)?;
        let lines = head.read_lines(rest)?;
        Ok(Envelope { head, lines })
    }
}

impl<'a> Head<'a> {
    /// A head with this end, and what follows it.
    fn read(file: &'a [u8], end: &[u8]) -> Result<(Self, &'a [u8]), Refusal> {
        let (head, rest) = read_head(file, end).ok_or(Refusal::Head)?;
        if !is_date(head.date) || !is_time_of_day(head.time) {
            return Err(Refusal::DateOrTime);
        }
        Ok((head, rest))
    }

    /// The lines of the body behind a head, before a tail with its control word.
    fn read_lines(&self, after_head: &'a [u8]) -> Result<Vec<&'a [u8]>, Refusal> {
        let (lines, rest) = read_body(after_head).ok_or(Refusal::Body)?;
        let word = read_tail(rest).ok_or(Refusal::Tail)?;
        if word != self.word {
            return Err(Refusal::ControlWords);
        }
        Ok(lines)
    }
}

/// `UNB+UNOA:1+Sender+Receiver+YYYYMMDD:HHMM+Word` and this end, and what follows it.
fn read_head<'a>(file: &'a [u8], end: &[u8]) -> Option<(Head<'a>, &'a [u8])> {
    let rest = file.strip_prefix(b"UNB+UNOA:1+")?;
    let (sender, rest) = part_before(rest, b'+')?;
    let (receiver, rest) = part_before(rest, b'+')?;
    let (date, rest) = rest.split_at_checked(8)?;
    let rest = rest.strip_prefix(b":")?;
    let (time, rest) = rest.split_at_checked(4)?;
    let rest = rest.strip_prefix(b"+")?;
    let word_length = rest.iter().position(|&byte| byte == b'+')?;
    let (word, rest) = rest.split_at(word_length);
    let rest = rest.strip_prefix(end)?;

    let of_the_layout = is_name(sender, 8)
        && is_name(receiver, 8)
        && date.iter().chain(time).all(u8::is_ascii_digit)
        && is_control_word(word);
    let head = Head {
        sender,
        receiver,
        date,
        time,
        word,
    };
    of_the_layout.then_some((head, rest))
}

/// CR LF, then lines with CR LF each, up to an apostrophe: the lines, and what follows, from the
/// apostrophe on.
fn read_body(after_head: &[u8]) -> Option<(Vec<&[u8]>, &[u8])> {
    let mut rest = after_head.strip_prefix(b"\r\n")?;
    let mut lines = Vec::with_capacity(MOST_RECORDS);
    loop {
        let end = rest
            .iter()
            .position(|byte| matches!(byte, b'\r' | b'\n' | b'\''))?;
        let (line, after) = rest.split_at(end);
        if after[0] == b'\'' {
            return line.is_empty().then_some((lines, after));
        }
        rest = after.strip_prefix(b"\r\n")?;
        lines.push(line);
    }
}

/// `'UNT+3+BWA'UNZ+1+Word'` and the end of the file: the control word.
fn read_tail(rest: &[u8]) -> Option<&[u8]> {
    let word = rest
        .strip_prefix(b"'UNT+3+BWA'UNZ+1+")?
        .strip_suffix(b"'")?;
    is_control_word(word).then_some(word)
}

/// 1 to 14 bytes from 0x20 to 0x7E without `+ ' : ?`.
fn is_control_word(bytes: &[u8]) -> bool {
    (1..=14).contains(&bytes.len())
        && bytes
            .iter()
            .all(|byte| matches!(byte, b' '..=b'~') && !matches!(byte, b'+' | b'\'' | b':' | b'?'))
}

/// The part before the first separator, and what follows the separator.
fn part_before(bytes: &[u8], separator: u8) -> Option<(&[u8], &[u8])> {
    let at = bytes.iter().position(|&byte| byte == separator)?;
    Some((&bytes[..at], &bytes[at + 1..]))
}
