//! Single-record calls: worked inputs, edited records, every byte of a record, random bytes,
//! refusals, and the field view.

use roselhanda::raw;
use roselhanda::{code_of, Answer};

use crate::compare::RecordCall;
use crate::records::{edit, valid, Record, Setting};
use crate::rng::Rng;
use crate::tally::{set_of, Check};
use crate::values::{name, near};
use crate::world::{compartment, fill, ledger, put, World, LEDGER_SIZE};

pub const R1: &[u8] = b"B;98001;I;4711;;;B;20130903;101500;;;;;WBAH;J;;;N;S;AT0000831706;XXX;1500;1;EUR;54,7;;;K;;;;;;;;;;N;A1";

/// Records over 32,768 bytes and the longest that may be judged.
const LONGEST_RECORD: usize = 32_768;

/// The five worked records of document 01.
pub fn worked_records() -> Vec<Vec<u8>> {
    let with = |changes: &[(usize, &str)]| {
        let mut record = Record::parse(R1);
        for &(n, value) in changes {
            record.set(n, value);
        }
        record.to_bytes()
    };
    vec![
        R1.to_vec(),
        with(&[(2, "98003"), (39, "A2")]),
        with(&[(16, "A1"), (39, "A3")]),
        with(&[(16, "A1"), (39, "A4")]),
        with(&[(28, "E"), (39, "A5")]),
    ]
}

/// The worked inputs, with the answers that document 01 prints; and the codes of both sides.
pub fn worked_inputs(check: &mut Check) {
    check.section("single calls: worked inputs");
    let world = World::worked();
    let mut ledger = vec![0; LEDGER_SIZE];
    let expected = [
        (0, Some(0), Some(0)),
        (1 << 6, None, None),
        (0, Some(0), Some(1)),
        (1 << 62, Some(0), None),
        (87_960_930_222_080, Some(0), None),
    ];
    for (record, expected) in worked_records().iter().zip(expected) {
        let left = check.record(&RecordCall {
            room: 20,
            ..RecordCall::new(&world, &ledger, b"MBONE", record)
        });
        let answer = Answer::from_bytes(&left.written).expect("worked inputs are answered");
        ledger.clone_from(&left.ledger);
        let found = (answer.set(), answer.reporter_row(), answer.booked_row());
        check.case(found == expected, || {
            format!(
                "{} gives {found:?}, due {expected:?}",
                record.escape_ascii()
            )
        });
    }
    // A1 is cancelled by A3, 1500 pieces each.
    let mut row = [0; 64];
    row[..4].copy_from_slice(b"\x02\x02A1");
    row[18..26].copy_from_slice(&15_000_000u64.to_le_bytes());
    row[26..29].copy_from_slice(b"\x01\x00B");
    row[32..36].copy_from_slice(b"\x03\x02A3");
    row[50..58].copy_from_slice(&15_000_000u64.to_le_bytes());
    row[58..61].copy_from_slice(b"\x00\x00B");
    let zeros = ledger[64..].iter().all(|&byte| byte == 0);
    check.case(ledger[..64] == row && zeros, || {
        "the ledger of the worked inputs".into()
    });
    check.case((0..).map_while(code_of).eq(twin::checks::CODES), || {
        "the codes of the places".into()
    });
}

/// ISINs with a verdict from outside (python-stdnum 1.18), as instrument and as underlying.
pub fn published_isins(check: &mut Check) {
    check.section("single calls: ISINs judged elsewhere");
    let world = World::worked();
    let ledger = vec![0; LEDGER_SIZE];
    for line in include_str!("../../../crates/vectors/data/isin.txt").lines() {
        // A label may follow.
        let mut words = line.split_whitespace();
        let isin = words.next().expect("an ISIN");
        let is_wrong = u64::from(words.next().expect("its verdict") != "1");
        let mut instrument = Record::parse(R1);
        instrument.set(20, isin);
        let mut underlying = Record::parse(R1);
        underlying.set(21, "XXZ");
        underlying.set(33, format!("S{isin}"));
        for (record, due) in [(instrument, is_wrong << 29), (underlying, is_wrong << 53)] {
            let record = record.to_bytes();
            let left = check.record(&RecordCall::new(&world, &ledger, b"MBONE", &record));
            let set = set_of(&left.written);
            check.case(set == due, || format!("{line} gives the set {set:x}"));
        }
    }
}

/// Chains of records, each one edit away from the one before, on one ledger.
pub fn edited_records(check: &mut Check, rng: &mut Rng, chains: usize) {
    check.section("single calls: valid and edited records");
    let mut world = World::worked();
    let mut ledger = vec![0; LEDGER_SIZE];
    for chain in 0..chains {
        if chain % 200 == 0 {
            let any = rng.within(1..=16);
            let count = *rng.pick(&[any, 3, 16]);
            world = World::random(rng, count);
            ledger.fill(0);
        }
        let bank = world.random_bank(rng);
        let count = fill(rng);
        let mut filled = compartment(rng, count);
        put(&mut ledger, bank, &filled);
        let setting = Setting::new(&world, bank, &ledger);
        let mut sender = world.banks[bank].mailbox.clone();
        let mut record = valid(rng, &setting);
        let mut before = None;
        for step in 0..rng.within(2..=6) {
            if step > 0 {
                match rng.below(40) {
                    0 => sender.clone_from(&rng.pick(&world.banks).mailbox),
                    1 => sender = near(rng, &sender),
                    2..=4 if filled.last().is_some_and(|row| row.state == 1) => {
                        // The last row is taken back.
                        filled.pop();
                        put(&mut ledger, bank, &filled);
                    }
                    _ => edit(rng, &setting, &mut record),
                }
            }
            let left = check.record(&RecordCall {
                room: 16 + rng.below(20),
                ..RecordCall::new(&world, &ledger, &sender, &record.to_bytes())
            });
            let set = left.outcome.is_ok().then(|| set_of(&left.written));
            if let (Some(before), Some(set)) = (before, set) {
                check.beside(before, set);
            }
            before = set;
        }
        if chain % 8 != 0 {
            put(&mut ledger, bank, &[]);
        }
    }
}

/// Every byte of the first worked record replaced by every other.
pub fn every_byte(check: &mut Check) {
    check.section("single calls: every byte of R1 replaced");
    let world = World::worked();
    let ledger = vec![0; LEDGER_SIZE];
    for at in 0..R1.len() {
        for byte in 0..=255 {
            let mut record = R1.to_vec();
            record[at] = byte;
            let left = check.record(&RecordCall::new(&world, &ledger, b"MBONE", &record));
            if left.outcome.is_ok() {
                let set = set_of(&left.written);
                check.beside(0, set);
            }
        }
    }
}

/// Random bytes as records, with few or many semicolons, up to the longest record and beyond.
pub fn random_records(check: &mut Check, rng: &mut Rng, cases: usize) {
    check.section("single calls: random bytes");
    let world = World::random(rng, 16);
    let ledger = ledger(rng, 10);
    for case in 0..cases {
        let length = match case % 100 {
            0 => rng.within(LONGEST_RECORD - 2..=LONGEST_RECORD + 2),
            1 => rng.below(LONGEST_RECORD),
            _ => rng.below(200),
        };
        let mut record = match rng.below(3) {
            0 => rng.bytes(length),
            1 => rng.text(b";;;;BSNIEKJ0123456789XAWM,", length),
            _ => rng.text(b"ABC;0123456789,+-", length),
        };
        if rng.chance(80) {
            record.retain(|byte| !matches!(byte, b'\r' | b'\n' | b'\''));
        }
        if case % 100 == 0 {
            record.resize(length, b'A');
        }
        let bank = rng.pick(&world.banks);
        if rng.chance(30) {
            // A sender check that passes, in front of random fields.
            let start = [b"B;", bank.code.as_slice(), b";"].concat();
            let room = record.len().min(start.len());
            record.splice(..room, start);
            let semicolons = record.iter().filter(|&&byte| byte == b';').count();
            record.extend(vec![b';'; 38usize.saturating_sub(semicolons)]);
        }
        check.record(&RecordCall {
            room: 16 + rng.below(40),
            ..RecordCall::new(&world, &ledger, &bank.mailbox, &record)
        });
    }
}

/// Records that are booked where there is room for an answer, and refused by 12 where there is not.
pub fn rooms(check: &mut Check, rng: &mut Rng, rounds: usize) {
    check.section("single calls: rooms of 0 to 17 bytes");
    for _ in 0..rounds {
        let world = World::random(rng, 16);
        let ledger = ledger(rng, 0);
        let bank = world.random_bank(rng);
        let record = valid(rng, &Setting::new(&world, bank, &ledger)).to_bytes();
        for room in 0..=17 {
            let call = RecordCall {
                room,
                ..RecordCall::new(&world, &ledger, &world.banks[bank].mailbox, &record)
            };
            let due = if room < 16 { Err(12) } else { Ok(1) };
            check.record_expecting(&call, Some(due), "room");
        }
    }
}

/// Refusals 12, 13 and 14, one at a time and together.
pub fn refused_records(check: &mut Check, rng: &mut Rng, cases: usize) {
    check.section("single calls: senders, records and room refused");
    let world = World::random(rng, 16);
    let ledger = ledger(rng, 10);
    for _ in 0..cases {
        let bank = world.random_bank(rng);
        let setting = Setting::without_rows(&world, bank);
        let mut sender = world.banks[bank].mailbox.clone();
        let mut record = valid(rng, &setting);
        if rng.chance(5) {
            // Up to the longest record, by a field that no check looks at.
            record.set(10, "");
            let padding = LONGEST_RECORD - record.to_bytes().len() - rng.below(3);
            record.set(10, vec![b'A'; padding]);
        }
        let mut record = record.to_bytes();
        let mut room = 16 + rng.below(40);
        let mut due = Some(Ok(1));
        if rng.chance(30) {
            room = rng.below(16);
            due = Some(Err(12));
        }
        if rng.chance(30) {
            let at = rng.below(record.len() + 1);
            if rng.chance(70) {
                record.insert(at, *rng.pick(b"\r\n'"));
            } else {
                let length = rng.within(LONGEST_RECORD + 1..=LONGEST_RECORD + 3);
                record.resize(length, *rng.pick(b";A"));
            }
            due = Some(Err(14));
        }
        match rng.below(4) {
            0 => {
                sender = match rng.below(4) {
                    0 => Vec::new(),
                    1 => name(rng, &[9, 10, 40]),
                    2 => {
                        let at = rng.below(sender.len());
                        sender[at] = *rng.pick(b"/:@[`az{ +'\x00\xff");
                        sender
                    }
                    _ => [sender.as_slice(), b" "].concat(),
                };
                due = Some(Err(13));
            }
            1 => {
                sender = near(rng, &sender);
                due = None;
            }
            _ => {}
        }
        let call = RecordCall {
            room,
            ..RecordCall::new(&world, &ledger, &sender, &record)
        };
        check.record_expecting(&call, due, "refused single call");
    }
}

/// The field view, for numbers in and around 1 to 39, of valid, edited and random records.
pub fn field_views(check: &mut Check, rng: &mut Rng, cases: usize) {
    check.section("field views");
    let world = World::random(rng, 16);
    for case in 0..cases {
        let setting = Setting::without_rows(&world, world.random_bank(rng));
        let record = match case % 4 {
            0 => valid(rng, &setting).to_bytes(),
            1 => {
                let mut record = valid(rng, &setting);
                while record.0.len() == 39 {
                    edit(rng, &setting, &mut record);
                }
                record.to_bytes()
            }
            2 => {
                let length = rng.below(120);
                rng.text(b";;;;A\r\n'\x00\xff", length)
            }
            _ => {
                let mut record = vec![b';'; 38];
                for _ in 0..rng.below(60) {
                    let at = rng.below(record.len() + 1);
                    let byte = rng.byte();
                    record.insert(at, if byte == b';' { b'A' } else { byte });
                }
                record
            }
        };
        let numbers = (0..=41).chain([u64::MAX, 1 << 32 | 5, 1 << 63, 256 + 7, u64::MAX - 38]);
        for n in numbers {
            let mut length = u64::MAX;
            let start = raw::field(&record, n, &mut length);
            let view = twin::field(&record, n as usize);
            let due = (
                view.as_ptr() as usize - record.as_ptr() as usize,
                view.len(),
            );
            check.case((start, length) == (due.0 as u64, due.1 as u64), || {
                format!(
                    "field {n} of {} is ({start}, {length}), due {due:?}",
                    record.escape_ascii()
                )
            });
        }
    }
}
