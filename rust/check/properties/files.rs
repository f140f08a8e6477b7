//! Whole-file calls: valid files, files damaged in every part, and several damages at once.

use roselhanda::raw;
use roselhanda::ANSWER_SIZE;

use crate::compare::FileCall;
use crate::records::{edit, valid, Record, Setting};
use crate::rng::Rng;
use crate::singles::worked_records;
use crate::tally::Check;
use crate::values::{date, name, near, near_date, near_time, time, CAPITALS};
use crate::world::{ledger, World, LEDGER_SIZE};

pub const LONGEST_FILE: usize = 32_768;
pub const MOST_RECORDS: usize = 1_024;

/// A file in the parts of its layout.
#[derive(Clone)]
pub struct Parts {
    pub start: Vec<u8>,
    pub sender: Vec<u8>,
    pub receiver: Vec<u8>,
    pub date: Vec<u8>,
    pub time: Vec<u8>,
    pub word: Vec<u8>,
    pub message: Vec<u8>,
    pub body: Vec<u8>,
    pub trailer: Vec<u8>,
    pub last_word: Vec<u8>,
    pub end: Vec<u8>,
}

impl Parts {
    pub fn new(sender: &[u8], word: &[u8], records: &[Vec<u8>]) -> Self {
        let mut body = b"\r\n".to_vec();
        for record in records {
            body.extend(record);
            body.extend(b"\r\n");
        }
        Parts {
            start: b"UNB+UNOA:1+".to_vec(),
            sender: sender.to_vec(),
            receiver: b"ATBWA".to_vec(),
            date: b"20130903".to_vec(),
            time: b"1015".to_vec(),
            word: word.to_vec(),
            message: b"++BWAMS'UNH+BWA+BWA:0'".to_vec(),
            body,
            trailer: b"'UNT+3+BWA'UNZ+1+".to_vec(),
            last_word: word.to_vec(),
            end: b"'".to_vec(),
        }
    }

    /// A valid file of this sender, on any date.
    pub fn dated(rng: &mut Rng, sender: &[u8], word: &[u8], records: &[Vec<u8>]) -> Self {
        let mut parts = Parts::new(sender, word, records);
        parts.date = date(rng);
        parts.time = time(rng, false);
        parts
    }

    /// A valid file of a random sender.
    pub fn random(rng: &mut Rng, world: &World, records: &[Vec<u8>]) -> Self {
        let word = control_word(rng);
        let sender = &rng.pick(&world.banks).mailbox;
        Parts::dated(rng, sender, &word, records)
    }

    pub fn to_bytes(&self) -> Vec<u8> {
        [
            &self.start,
            &self.sender,
            b"+".as_slice(),
            &self.receiver,
            b"+",
            &self.date,
            b":",
            &self.time,
            b"+",
            &self.word,
            &self.message,
            &self.body,
            &self.trailer,
            &self.last_word,
            &self.end,
        ]
        .concat()
    }

    fn part(&mut self, n: usize) -> &mut Vec<u8> {
        match n {
            0 => &mut self.start,
            1 => &mut self.sender,
            2 => &mut self.receiver,
            3 => &mut self.date,
            4 => &mut self.time,
            5 => &mut self.word,
            6 => &mut self.message,
            7 => &mut self.body,
            8 => &mut self.trailer,
            9 => &mut self.last_word,
            _ => &mut self.end,
        }
    }
}

/// A control word of 1 to 14 bytes.
pub fn control_word(rng: &mut Rng) -> Vec<u8> {
    let alphabet: Vec<u8> = (b' '..=b'~')
        .filter(|byte| !b"+':?".contains(byte))
        .collect();
    let length = *rng.pick(&[1, 2, 8, 13, 14]);
    rng.text(&alphabet, length)
}

/// Records of the banks behind a mailbox, numbers and cancellations included.
fn records(rng: &mut Rng, world: &World, ledger: &[u8], count: usize) -> Vec<Vec<u8>> {
    let mut records = Vec::new();
    let mut numbers = Vec::new();
    for _ in 0..count {
        let bank = world.random_bank(rng);
        let setting = Setting::new(world, bank, ledger);
        let mut record = valid(rng, &setting);
        if rng.chance(30) && !numbers.is_empty() {
            let number: &Vec<u8> = rng.pick(&numbers);
            record.set(16, number.as_slice());
        }
        if rng.chance(10) {
            edit(rng, &setting, &mut record);
        }
        numbers.push(record.get(39).to_vec());
        records.push(if rng.chance(3) {
            Vec::new()
        } else {
            record.to_bytes()
        });
    }
    records
}

/// A sound setting for file calls.
pub struct Desk {
    pub world: World,
    pub ledger: Vec<u8>,
}

impl Desk {
    pub fn random(rng: &mut Rng) -> Self {
        let any = rng.within(1..=16);
        let count = *rng.pick(&[any, 3, 16]);
        Desk {
            world: World::random(rng, count),
            ledger: ledger(rng, 20),
        }
    }

    /// The records of the report of a case: a few; in one case of twenty 60, and in one as many of
    /// 250 as a report takes.
    pub fn lines(&self, rng: &mut Rng, case: usize) -> Vec<Vec<u8>> {
        let length = match case % 20 {
            0 => 250,
            1 => 60,
            _ => rng.below(12),
        };
        let mut lines = records(rng, &self.world, &self.ledger, length);
        while lines.concat().len() + 2 * lines.len() > 32_000 {
            lines.pop();
        }
        lines
    }

    fn call<'a>(&'a self, file: &'a [u8], room: usize) -> FileCall<'a> {
        FileCall {
            file,
            reporters: &self.world.reporters,
            currencies: &self.world.currencies,
            ledger: &self.ledger,
            room,
        }
    }
}

/// Valid files; each is also made with a byte too little room, and of single calls of the archive.
pub fn valid_files(check: &mut Check, rng: &mut Rng, count: usize) {
    check.section("files: valid, and equal to single calls");
    for case in 0..count {
        let desk = Desk::random(rng);
        let lines = desk.lines(rng, case);
        let parts = Parts::random(rng, &desk.world, &lines);
        let file = parts.to_bytes();
        let need = ANSWER_SIZE * lines.len();
        if need > 0 {
            check.file_expecting(&desk.call(&file, need - 1), Some(Err(12)), "a byte short");
        }
        let call = desk.call(&file, need + rng.below(40));
        let left = check.file_expecting(&call, Some(Ok(lines.len() as u64)), "valid file");
        let (after, answers) = (left.ledger.clone(), left.written.clone());

        let mut ledger = desk.ledger.clone();
        let mut singly = vec![0; need];
        let mut replies = 0;
        for (record, answer) in lines.iter().zip(singly.chunks_mut(ANSWER_SIZE)) {
            replies |= raw::record(
                &desk.world.reporters,
                &desk.world.currencies,
                &mut ledger,
                &parts.sender,
                record,
                answer,
            );
        }
        check.case(replies == 0 && singly == answers && ledger == after, || {
            format!("{} differs from its single calls", file.escape_ascii())
        });
    }
}

/// One byte of a file replaced, taken out or put in, everywhere outside of its records, and the
/// file cut off after each byte.
pub fn every_change(file: &[u8], mut changed: impl FnMut(&[u8])) {
    let head = file.iter().position(|&byte| byte == b'\r').expect("a body");
    let body_end = file
        .iter()
        .rposition(|&byte| byte == b'\r')
        .expect("a body");
    let framing = (0..head + 12).chain(body_end - 4..file.len());
    for at in framing {
        for byte in 0..=255 {
            let mut file = file.to_vec();
            file[at] = byte;
            changed(&file);
        }
        for byte in [
            b'A', b'0', b'+', b'\'', b':', b'?', b' ', b'\r', b'\n', 0, 0xff,
        ] {
            let mut file = file.to_vec();
            file.insert(at, byte);
            changed(&file);
        }
        let mut file = file.to_vec();
        file.remove(at);
        changed(&file);
    }
    for end in 0..=file.len() {
        changed(&file[..end]);
    }
}

/// The worked file with every change outside of its records, and with a byte behind it.
pub fn every_byte(check: &mut Check) {
    check.section("files: every byte of a file replaced");
    let world = World::worked();
    let desk = Desk {
        world,
        ledger: vec![0; LEDGER_SIZE],
    };
    let records = worked_records();
    let file = Parts::new(b"MBONE", b"W1", &records[..1]).to_bytes();
    let room = 4 * ANSWER_SIZE;
    every_change(&file, |changed| {
        check.file(&desk.call(changed, room));
    });
    for byte in 0..=255 {
        let longer = [file.as_slice(), &[byte]].concat();
        check.file_expecting(&desk.call(&longer, room), Some(Err(9)), "longer file");
    }
}

/// Records of up to fifty letters with another byte at each of their places, before a record that
/// is booked: the archive reads records in blocks, the twin byte by byte.
pub fn every_place(check: &mut Check) {
    check.section("files: another byte at every place of a record");
    let desk = Desk {
        world: World::worked(),
        ledger: vec![0; LEDGER_SIZE],
    };
    let worked = &worked_records()[0];
    for length in 0..=50 {
        for at in 0..length {
            for byte in *b"\r\n'&( \x00\xff" {
                let mut record = vec![b'A'; length];
                record[at] = byte;
                let parts = Parts::new(b"MBONE", b"W1", &[record, worked.clone()]);
                check.file(&desk.call(&parts.to_bytes(), 4 * ANSWER_SIZE));
            }
        }
    }
}

/// Files with random edits in their parts.
pub fn edited_files(check: &mut Check, rng: &mut Rng, count: usize) {
    check.section("files: parts edited, bytes flipped, cut off");
    let mut desk = Desk::random(rng);
    for case in 0..count {
        if case % 100 == 0 {
            desk = Desk::random(rng);
        }
        let length = rng.below(5);
        let lines = records(rng, &desk.world, &desk.ledger, length);
        let mut parts = Parts::random(rng, &desk.world, &lines);
        let edits = rng.below(3);
        for _ in 0..edits {
            let n = rng.below(11);
            let part = parts.part(n);
            let edited = match (rng.below(8), n) {
                (0, _) => Vec::new(),
                (1, _) => [part.as_slice(), part.as_slice()].concat(),
                (2, _) => part.to_ascii_lowercase(),
                (3, 1 | 2) => name(rng, &[1, 5, 8, 9]),
                (3, 3) => near_date(rng),
                (3, 4) => near_time(rng, false),
                (3, 5 | 9) => control_word(rng),
                (4, 7) => {
                    let at = rng.below(part.len() + 1);
                    let mut body = part.clone();
                    body.insert(at, *rng.pick(b"\r\n'"));
                    body
                }
                _ => near(rng, part),
            };
            *part = edited;
        }
        let mut file = parts.to_bytes();
        match rng.below(8) {
            0 => file.truncate(rng.below(file.len() + 1)),
            1 => {
                let at = rng.below(file.len());
                file[at] ^= 1 << rng.below(8);
            }
            2 => {
                let at = rng.below(file.len());
                file[at] = rng.byte();
            }
            3 => {
                let at = rng.below(file.len());
                file.insert(at, *rng.pick(b"\r\n'+:; \x00"));
            }
            _ => {}
        }
        let any = rng.below(120);
        let room = *rng.pick(&[any, ANSWER_SIZE * length, ANSWER_SIZE * length + 5, 200]);
        check.file(&desk.call(&file, room));
    }
}

/// Files of random bytes, some behind a valid head.
pub fn random_files(check: &mut Check, rng: &mut Rng, count: usize) {
    check.section("files: random bytes");
    let desk = Desk::random(rng);
    for case in 0..count {
        let length = if case % 50 == 0 {
            rng.within(LONGEST_FILE - 300..=LONGEST_FILE + 300)
        } else {
            rng.below(300)
        };
        let mut file = rng.text(b"\r\n'\r\n;A0UNBTZ+:1 ", length);
        match rng.below(4) {
            0 => file = rng.bytes(length),
            1 => {
                let mut parts = Parts::random(rng, &desk.world, &[]);
                parts.body = file;
                file = parts.to_bytes();
            }
            2 => {
                let mut parts = Parts::random(rng, &desk.world, &[]);
                parts.body = file.into_iter().filter(|&byte| byte != b'\'').collect();
                parts.body = parts
                    .body
                    .split(|byte| b"\r\n".contains(byte))
                    .collect::<Vec<_>>()
                    .join(&b"\r\n"[..]);
                parts.body.splice(..0, *b"\r\n");
                parts.body.extend(b"\r\n");
                file = parts.to_bytes();
            }
            _ => {}
        }
        check.file(&desk.call(&file, 4_000 + rng.below(14_000)));
    }
}

/// Counts of records around 1,024, lengths around 32,768 bytes, and rooms around the need.
pub fn counts_and_lengths(check: &mut Check, rng: &mut Rng, rounds: usize) {
    check.section("files: counts, lengths and rooms at their edges");
    for _ in 0..rounds {
        let desk = Desk::random(rng);
        for count in [0, 1, 2, 1_023, MOST_RECORDS, MOST_RECORDS + 1, 1_026, 4_000] {
            let lines: Vec<Vec<u8>> = (0..count)
                .map(|_| {
                    let length = rng.below(6);
                    rng.text(b"A;0", length)
                })
                .collect();
            let file = Parts::random(rng, &desk.world, &lines).to_bytes();
            let need = ANSWER_SIZE * count;
            for room in [
                need,
                need + 7,
                need.saturating_sub(1),
                need.saturating_sub(16),
                0,
            ] {
                let due = if count > MOST_RECORDS {
                    Err(11)
                } else if room < need {
                    Err(12)
                } else {
                    Ok(count as u64)
                };
                check.file_expecting(&desk.call(&file, room), Some(due), "count and room");
            }
        }
        for length in [
            LONGEST_FILE - 1,
            LONGEST_FILE,
            LONGEST_FILE + 1,
            LONGEST_FILE + 5_000,
        ] {
            let setting = Setting::without_rows(&desk.world, 0);
            let mut record = valid(rng, &setting);
            record.set(10, "");
            let file = |record: &Record| {
                let mailbox = &desk.world.banks[0].mailbox;
                Parts::new(mailbox, b"W", &[record.to_bytes()]).to_bytes()
            };
            let padding = length - file(&record).len();
            record.set(10, rng.text(CAPITALS, padding));
            let file = file(&record);
            let due = if length > LONGEST_FILE { Err(1) } else { Ok(1) };
            check.file_expecting(&desk.call(&file, 16), Some(due), "length of a file");
        }
    }
}

/// A change that a file is refused for, whatever else is wrong with later parts.
pub type Damage = fn(&mut Rng, &mut Parts);

/// Damages by the refusal that each is due; each part of the layout has its own.
pub const DAMAGES: &[(u64, &str, Damage)] = &[
    (5, "start altered", |rng, parts| {
        let at = rng.below(parts.start.len());
        parts.start[at] ^= 0x20;
    }),
    (5, "start short", |rng, parts| {
        let at = rng.below(parts.start.len());
        parts.start.remove(at);
    }),
    (5, "sender empty", |_, parts| parts.sender.clear()),
    (5, "sender of nine bytes", |rng, parts| {
        parts.sender = name(rng, &[9, 12])
    }),
    (5, "sender not capitals or digits", |rng, parts| {
        let at = rng.below(parts.sender.len());
        parts.sender[at] = *rng.pick(b"az /:@[");
    }),
    (5, "receiver empty", |_, parts| parts.receiver.clear()),
    (5, "receiver of nine bytes", |_, parts| {
        parts.receiver = b"ATBWATEST".to_vec()
    }),
    (5, "receiver not capitals or digits", |rng, parts| {
        let at = rng.below(parts.receiver.len());
        parts.receiver[at] = *rng.pick(b"az /:@[");
    }),
    (5, "date not digits", |rng, parts| {
        let at = rng.below(parts.date.len());
        parts.date[at] = *rng.pick(b"/:A -");
    }),
    (5, "date of seven digits", |_, parts| parts.date.truncate(7)),
    (5, "date of nine digits", |_, parts| parts.date.push(b'1')),
    (5, "time not digits", |rng, parts| {
        let at = rng.below(parts.time.len());
        parts.time[at] = *rng.pick(b"/:A -");
    }),
    (5, "time of three digits", |_, parts| parts.time.truncate(3)),
    (5, "time of five digits", |_, parts| parts.time.push(b'0')),
    (5, "control word empty", |_, parts| parts.word.clear()),
    (5, "control word of fifteen bytes", |_, parts| {
        parts.word.resize(15, b'W')
    }),
    (5, "control word with a bad byte", |rng, parts| {
        let at = rng.below(parts.word.len());
        parts.word[at] = *rng.pick(b"+':?\x00\x1f\x7f\x80\xff");
    }),
    (5, "message altered", |rng, parts| {
        let at = rng.below(parts.message.len());
        parts.message[at] ^= 0x40;
    }),
    (5, "other class", |_, parts| {
        parts.message = b"++BWAMSERR'UNH+BWA+BWA:0'".to_vec()
    }),
    (6, "no such day", |rng, parts| {
        parts.date = rng
            .pick(&[
                b"20130229",
                b"20131301",
                b"20130431",
                b"20130900",
                b"20990230",
            ])
            .to_vec();
    }),
    (6, "other century", |rng, parts| {
        parts.date = rng.pick(&[b"19991231", b"21000101", b"00000000"]).to_vec();
    }),
    (6, "no such time", |rng, parts| {
        parts.time = rng
            .pick(&[b"2400", b"2360", b"0060", b"9999", b"1260"])
            .to_vec();
    }),
    (7, "another receiver", |rng, parts| {
        parts.receiver = rng
            .pick(&["ATBW", "ATBWAX", "ATBWB", "MBONE", "A"])
            .as_bytes()
            .to_vec();
    }),
    (8, "body without its first CR LF", |rng, parts| {
        parts.body.drain(..2);
        parts.body.insert(0, *rng.pick(b"A;"));
    }),
    (8, "body with a lone CR", |_, parts| {
        parts.body.splice(2..2, *b"\rA\r\n").for_each(drop)
    }),
    (8, "body with a lone LF", |_, parts| {
        parts.body.splice(2..2, *b"A\n").for_each(drop)
    }),
    (8, "body with LF CR", |_, parts| {
        parts.body.splice(2..2, *b"\n\r").for_each(drop)
    }),
    (8, "body with CR CR LF", |_, parts| {
        parts.body.splice(2..2, *b"A\r\r\n").for_each(drop)
    }),
    (8, "body that ends in a record", |_, parts| {
        parts.body.push(b'A')
    }),
    (8, "body that ends in CR", |_, parts| {
        parts.body.pop();
    }),
    (8, "apostrophe in a record", |_, parts| {
        parts.body.splice(2..2, *b"A'B\r\n").for_each(drop)
    }),
    (8, "empty body", |_, parts| parts.body.clear()),
    (9, "apostrophe after CR LF", |_, parts| {
        parts.body.splice(2..2, *b"'A\r\n").for_each(drop)
    }),
    (9, "trailer altered", |rng, parts| {
        let at = rng.within(1..=parts.trailer.len() - 1);
        parts.trailer[at] ^= 0x40;
    }),
    (9, "trailer short", |rng, parts| {
        let at = rng.within(1..=parts.trailer.len() - 1);
        parts.trailer.remove(at);
    }),
    (9, "last word empty", |_, parts| parts.last_word.clear()),
    (9, "last word of fifteen bytes", |_, parts| {
        parts.last_word.resize(15, b'W')
    }),
    (9, "last word with a bad byte", |rng, parts| {
        let at = rng.below(parts.last_word.len());
        parts.last_word[at] = *rng.pick(b"+':?\r\x00\x1f\x7f\x80\xff");
    }),
    (9, "no last apostrophe", |_, parts| parts.end.clear()),
    (9, "a byte after the end", |rng, parts| {
        parts.end.push(*rng.pick(b"'\r\n A\x00"))
    }),
    (9, "an end of line after the end", |_, parts| {
        parts.end.extend(b"\r\n")
    }),
    (10, "words of different lengths", |_, parts| {
        if parts.last_word.len() == 14 {
            parts.last_word.pop();
        } else {
            parts.last_word.push(b'X');
        }
    }),
    (10, "words of different bytes", |rng, parts| {
        let at = rng.below(parts.last_word.len());
        parts.last_word[at] = if parts.last_word[at] == b'A' {
            b'B'
        } else {
            b'A'
        };
    }),
    (11, "over 1,024 records", |_, parts| {
        let line = b"\r\n".repeat(MOST_RECORDS + 1);
        parts.body.splice(2..2, line).for_each(drop);
    }),
];

/// Damages a file, so that it is refused.
pub fn damage(rng: &mut Rng, parts: &mut Parts) {
    let &(_, _, damage) = rng.pick(DAMAGES);
    damage(rng, parts);
}

/// Now and then damages a later part too; the refusal that was due stays the one that is.
pub fn damage_later_part(rng: &mut Rng, due: u64, parts: &mut Parts) {
    let &(number, _, other) = rng.pick(DAMAGES);
    let is_later_part = match due {
        5 | 7 => number >= 8,
        6 => number >= 7,
        8 => number == 10,
        9 | 10 => number == 11,
        _ => false,
    };
    if is_later_part {
        other(rng, parts);
    }
}

/// Each damage alone, and damages of several parts at once: the lowest number is due.
pub fn damaged_files(check: &mut Check, rng: &mut Rng, rounds: usize) {
    check.section("files: each part damaged, alone and together");
    for _ in 0..rounds {
        let desk = Desk::random(rng);
        for &(due, label, damage) in DAMAGES {
            let length = rng.below(4);
            let lines = records(rng, &desk.world, &desk.ledger, length);
            let mut parts = Parts::random(rng, &desk.world, &lines);
            damage(rng, &mut parts);
            let mut call_due = due;
            let mut room = 20_000;
            damage_later_part(rng, due, &mut parts);
            if rng.chance(30) {
                room = 0;
            }
            let mut file = parts.to_bytes();
            let mut reporters = desk.world.reporters.clone();
            let mut currencies = desk.world.currencies.clone();
            let mut ledger = desk.ledger.clone();
            match rng.below(12) {
                0 => {
                    reporters.push(0);
                    call_due = 2;
                }
                1 => {
                    currencies.push(b'A');
                    call_due = 3;
                }
                2 => {
                    ledger.pop();
                    call_due = 4;
                }
                3 => {
                    ledger[0] = 9;
                    call_due = 4;
                }
                4 => {
                    file.resize(LONGEST_FILE + 1, b'A');
                    reporters.clear();
                    currencies.push(b'A');
                    call_due = 1;
                }
                _ => {}
            }
            let call = FileCall {
                file: &file,
                reporters: &reporters,
                currencies: &currencies,
                ledger: &ledger,
                room,
            };
            check.file_expecting(&call, Some(Err(call_due)), label);
        }
    }
}
