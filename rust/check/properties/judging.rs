//! Judging alone, and booking with an earlier answer: in a row, with answers that fit the record
//! and with others, and on another ledger than the record was judged on.

use roselhanda::{Answer, Status, ANSWER_SIZE};

use crate::compare::{BookCall, Left, RecordCall};
use crate::records::{edit, valid, Setting};
use crate::rng::Rng;
use crate::singles::R1;
use crate::tally::{set_of, Check};
use crate::values::{name, near};
use crate::world::{
    compartment, fill, fresh_number, ledger, put, Row, World, LEDGER_SIZE, NO_PARTNER, ROWS,
};

/// What a record that is judged and booked apart came to, as document 02, Item 5, says of it.
#[derive(Clone, Copy)]
pub enum Apart {
    Booked,
    SenderFailed,
    ContentFailed,
    BookingFailed,
    Refused,
    AsJudged,
    Redrawn,
    NoBytes,
    ByteShort,
    ByteLong,
    NoFailures,
    SameFailures,
    OtherFailures,
    Fails61,
    Fails62,
    Fails63,
    Passes61,
    Passes62,
    Passes63,
    Unfit2,
    Unfit3,
    Unfit4,
    Unfit13,
    Unfit14,
    UnfitWithoutRoom,
    ListBooked,
    ListRefused,
}

pub const APART: [&str; 27] = [
    "in a row, and booked",
    "in a row, the sender check failed",
    "in a row, the content failed",
    "in a row, the booking failed",
    "in a row, refused",
    "with the answer as it was",
    "with all drawn but places 0 to 60",
    "with 0 bytes, refused by 29",
    "with 15 bytes, refused by 29",
    "with 17 bytes, refused by 29",
    "with no failures where some are, so by 29",
    "with another's answer of the same failures",
    "with another's answer of others, so by 29",
    "where place 61 fails by then",
    "where place 62 fails by then",
    "where place 63 fails by then",
    "where place 61 fails no longer",
    "where place 62 fails no longer",
    "where place 63 fails no longer",
    "with an unfit answer, refused by 2",
    "with an unfit answer, refused by 3",
    "with an unfit answer, refused by 4",
    "with an unfit answer, refused by 13",
    "with an unfit answer, refused by 14",
    "with an unfit answer and no room, so by 29",
    "in a list, carried out",
    "in a list, refused by 29",
];

/// Places 0 to 60 of a set.
const BEFORE_BOOKING: u64 = (1 << 61) - 1;

/// The failures of an answer at places 0 to 60.
fn before_booking(answer: &[u8]) -> u64 {
    set_of(answer) & BEFORE_BOOKING
}

/// Turns the bit of a place.
fn turn(answer: &mut [u8], place: usize) {
    answer[place / 8] ^= 1 << (place % 8);
}

/// An answer with the same failures at places 0 to 60, and anything else.
pub fn redrawn(rng: &mut Rng, answer: &[u8]) -> Vec<u8> {
    let set = before_booking(answer) | rng.next() & !BEFORE_BOOKING;
    [set.to_le_bytes().to_vec(), rng.bytes(8)].concat()
}

/// One that differs at places 0 to 60, or in its length.
pub fn unfit(rng: &mut Rng, answer: &[u8]) -> Vec<u8> {
    let mut earlier = redrawn(rng, answer);
    match rng.below(4) {
        0 => earlier.truncate(*rng.pick(&[0, 1, 8, 15])),
        1 => {
            let more = *rng.pick(&[1, 2, 8, 16]);
            earlier.extend(rng.bytes(more));
        }
        _ => turn(&mut earlier, rng.below(61)),
    }
    earlier
}

/// Tables and ledger with a record and its sender: valid, or a few edits away.
struct Drawn {
    reporters: Vec<u8>,
    currencies: Vec<u8>,
    ledger: Vec<u8>,
    sender: Vec<u8>,
    record: Vec<u8>,
}

impl Drawn {
    /// A call that is not refused.
    fn new(rng: &mut Rng, world: &World) -> Self {
        let bank = world.random_bank(rng);
        let mut ledger = vec![0; LEDGER_SIZE];
        let filled = fill(rng);
        put(&mut ledger, bank, &compartment(rng, filled));
        let setting = Setting::new(world, bank, &ledger);
        let mut record = valid(rng, &setting);
        for _ in 0..*rng.pick(&[0, 0, 0, 1, 1, 1, 2, 4]) {
            edit(rng, &setting, &mut record);
        }
        let other = world.random_bank(rng);
        let sender = if rng.chance(10) { other } else { bank };
        Drawn {
            reporters: world.reporters.clone(),
            currencies: world.currencies.clone(),
            sender: world.banks[sender].mailbox.clone(),
            record: record.to_bytes(),
            ledger,
        }
    }

    fn call(&self, room: usize) -> RecordCall<'_> {
        RecordCall {
            reporters: &self.reporters,
            currencies: &self.currencies,
            ledger: &self.ledger,
            sender: &self.sender,
            record: &self.record,
            room,
        }
    }

    /// One of the changes that the call is refused for.
    fn damage(&mut self, rng: &mut Rng, number: u64) {
        match number {
            2 => self.reporters.push(0),
            3 => self.currencies.push(b'Z'),
            4 if rng.chance(50) => self.ledger[LEDGER_SIZE - 1] = 1,
            4 => self.ledger.truncate(rng.below(LEDGER_SIZE)),
            13 => self.sender.push(*rng.pick(b" a\x00")),
            _ => {
                let at = rng.below(self.record.len() + 1);
                self.record.insert(at, *rng.pick(b"\r\n'"));
            }
        }
    }
}

/// One case beside the booking itself: with an earlier answer that fits, it leaves what the old
/// call leaves; with another it is refused by 29.
fn booked(check: &mut Check, call: &BookCall, fits: bool, old: &Left) -> bool {
    let due = if fits { old.outcome } else { Err(29) };
    let left = check.book_expecting(call, Some(due), "booking");
    let ok = left.outcome == due && (!fits || left == old);
    check.case(ok, || {
        format!(
            "the booking of {} with {:02x?} is not the old call",
            call.call.record.escape_ascii(),
            call.earlier
        )
    });
    ok
}

/// Judging gives the old call's answer, or refusal, and leaves the ledger; the booking with this
/// answer then leaves what the old call leaves, and has its answer.
pub fn in_a_row(check: &mut Check, rng: &mut Rng, cases: usize) {
    check.section("judging and booking in a row");
    let mut world = World::worked();
    for case in 0..cases {
        if case % 100 == 0 {
            let any = rng.within(1..=16);
            let count = *rng.pick(&[any, 3, 16]);
            world = World::random(rng, count);
        }
        let mut drawn = Drawn::new(rng, &world);
        let mut room = ANSWER_SIZE + rng.below(20);
        match rng.below(20) {
            0 => drawn.damage(rng, 2),
            1 => drawn.damage(rng, 3),
            2 => drawn.damage(rng, 4),
            3 => drawn.sender = near(rng, &drawn.sender),
            4 => drawn.damage(rng, 14),
            5 => room = rng.below(ANSWER_SIZE),
            _ => {}
        }
        let call = drawn.call(room);
        let judged = check.judge(&call).clone();
        let old = check.record(&call).clone();
        let same = (judged.outcome, &judged.written) == (old.outcome, &old.written);
        check.case(same, || {
            format!("judging {} is not the old call", call.record.escape_ascii())
        });
        let (seen, earlier) = match Answer::from_bytes(&judged.written) {
            Some(answer) => (
                match answer.status() {
                    Status::Booked => Apart::Booked,
                    Status::SenderFailed => Apart::SenderFailed,
                    Status::ContentFailed => Apart::ContentFailed,
                    Status::BookingFailed => Apart::BookingFailed,
                },
                judged.written,
            ),
            // There is no answer, and a booking with any bytes is refused too.
            None => {
                let length = *rng.pick(&[0, 15, 16, 17]);
                (Apart::Refused, rng.bytes(length))
            }
        };
        let booking = call.booking(&earlier);
        let ok = match old.outcome {
            Err(12) => check.book(&booking).outcome.is_err(),
            _ => booked(check, &booking, true, &old),
        };
        if ok && same {
            check.apart(seen);
        }
    }
}

/// Earlier answers that fit and others: as they were, redrawn, with each bit turned, with other
/// sets and other lengths.
pub fn earlier_answers(check: &mut Check, rng: &mut Rng, rounds: usize) {
    check.section("bookings: every bit of the earlier set turned");
    for _ in 0..rounds {
        let count = rng.within(1..=16);
        let world = World::random(rng, count);
        let drawn = Drawn::new(rng, &world);
        let call = drawn.call(ANSWER_SIZE + rng.below(20));
        let answer = check.judge(&call).written.clone();
        let old = check.record(&call).clone();

        if booked(check, &call.booking(&answer), true, &old) {
            check.apart(Apart::AsJudged);
        }
        for _ in 0..4 {
            let other = redrawn(rng, &answer);
            if booked(check, &call.booking(&other), true, &old) {
                check.apart(Apart::Redrawn);
            }
        }
        for place in 0..64 {
            let mut turned = answer.clone();
            turn(&mut turned, place);
            if booked(check, &call.booking(&turned), place > 60, &old) {
                check.turned(set_of(&answer), place);
            }
        }
        for (length, seen) in [
            (0, Some(Apart::NoBytes)),
            (1, None),
            (8, None),
            (15, Some(Apart::ByteShort)),
            (17, Some(Apart::ByteLong)),
            (24, None),
            (32, None),
        ] {
            let mut other = [answer.clone(), rng.bytes(ANSWER_SIZE)].concat();
            other.truncate(length);
            let ok = booked(check, &call.booking(&other), false, &old);
            if let (true, Some(seen)) = (ok, seen) {
                check.apart(seen);
            }
        }
        for set in [rng.next(), rng.next() & rng.next() & rng.next(), 0, !0] {
            let mut other = answer.clone();
            other[..8].copy_from_slice(&set.to_le_bytes());
            let fits = before_booking(&other) == before_booking(&answer);
            let ok = booked(check, &call.booking(&other), fits, &old);
            if ok && set == 0 && !fits {
                check.apart(Apart::NoFailures);
            }
        }
    }
}

/// Earlier answers without one of the record's failures, for records further and further away from
/// a valid one: they do not fit, except without one of places 61 to 63. Of a record's failures it
/// is the one that was left out least often.
pub fn failures_left_out(check: &mut Check, rng: &mut Rng, chains: usize) {
    check.section("bookings: each failure left out");
    for _ in 0..chains {
        let world = World::random(rng, 3);
        let bank = world.random_bank(rng);
        let mut ledger = vec![0; LEDGER_SIZE];
        let filled = *rng.pick(&[0, 1, 5, 64]);
        put(&mut ledger, bank, &compartment(rng, filled));
        let setting = Setting::new(&world, bank, &ledger);
        let first = valid(rng, &setting);
        let mut record = first.clone();
        let other = world.random_bank(rng);
        let sender = if rng.chance(10) { other } else { bank };
        if rng.chance(10) && filled > 0 {
            record.set(39, rng.pick(&setting.rows).1.as_slice());
        }
        for _ in 0..20 {
            let bytes = record.to_bytes();
            let call = RecordCall::new(&world, &ledger, &world.banks[sender].mailbox, &bytes);
            let mut answer = [0; ANSWER_SIZE];
            twin::judge_record(
                call.reporters,
                call.currencies,
                call.ledger,
                call.sender,
                call.record,
                &mut answer,
            )
            .expect("nothing is refused");
            if let Some(place) = check.least_taken(set_of(&answer)) {
                let mut earlier = answer;
                turn(&mut earlier, place);
                let old = check.record(&call).clone();
                if booked(check, &call.booking(&earlier), place > 60, &old) {
                    check.turned(set_of(&answer), place);
                }
            }
            edit(rng, &setting, &mut record);
            if rng.chance(80) {
                // Behind a failed sender check nothing else is judged.
                record.set(1, first.get(1));
                record.set(2, first.get(2));
            }
        }
    }
}

/// Answers to another record, to another sender, and by other tables: they fit where the failures
/// at places 0 to 60 are the same.
pub fn others_answers(check: &mut Check, rng: &mut Rng, cases: usize) {
    check.section("bookings: answers to something else");
    for _ in 0..cases {
        let count = rng.within(1..=16);
        let world = World::random(rng, count);
        let drawn = Drawn::new(rng, &world);
        let mut other = Drawn::new(rng, &world);
        match rng.below(4) {
            0 => {}
            1 => {
                other.record.clone_from(&drawn.record);
                other.sender.clone_from(&rng.pick(&world.banks).mailbox);
            }
            2 => {
                (other.record, other.sender) = (drawn.record.clone(), drawn.sender.clone());
                other.currencies = World::random(rng, 1).currencies;
            }
            _ => {
                (other.record, other.sender) = (drawn.record.clone(), drawn.sender.clone());
                let mut banks = world.banks.clone();
                let at = rng.below(banks.len());
                banks[at].mailbox = name(rng, &[1, 8]);
                other.reporters = World::new(banks, world.codes.clone()).reporters;
            }
        }
        let earlier = check.judge(&other.call(ANSWER_SIZE)).written.clone();
        let call = drawn.call(ANSWER_SIZE);
        let old = check.record(&call).clone();
        let fits = before_booking(&earlier) == before_booking(&old.written);
        if booked(check, &call.booking(&earlier), fits, &old) {
            check.apart(if fits {
                Apart::SameFailures
            } else {
                Apart::OtherFailures
            });
        }
    }
}

/// A live row with this number.
fn live(number: Vec<u8>) -> Row {
    Row {
        state: 1,
        number,
        quantity: 10_000,
        partner: NO_PARTNER,
        side: b'B',
    }
}

/// A record of a bank with two ledgers: on the first no check fails, on the second this one of
/// places 61 to 63.
fn failing_on_one(
    rng: &mut Rng,
    world: &World,
    bank: usize,
    place: u8,
) -> (Vec<u8>, Vec<u8>, Vec<u8>) {
    let (mut rows, original) = loop {
        let filled = rng.within(1..=ROWS - 2);
        let rows = compartment(rng, filled);
        let live: Vec<usize> = (0..filled).filter(|&at| rows[at].state == 1).collect();
        if !live.is_empty() {
            break (rows, *rng.pick(&live));
        }
    };
    let [mut passes, mut fails] = [ledger(rng, 20), ledger(rng, 20)];
    put(&mut passes, bank, &rows);
    let mut record = valid(rng, &Setting::new(world, bank, &passes));
    let number = record.get(39).to_vec();
    let another = |rng: &mut Rng, rows: &[Row]| loop {
        let fresh = fresh_number(rng, rows);
        if fresh != number {
            break fresh;
        }
    };
    match place {
        61 => rows.push(live(number)),
        62 => {
            record.set(16, rows[original].number.as_slice());
            let mut cancellation = live(another(rng, &rows));
            (cancellation.state, cancellation.partner) = (3, original as u16);
            (rows[original].state, rows[original].partner) = (2, rows.len() as u16);
            rows.push(cancellation);
        }
        _ => {
            while rows.len() < ROWS {
                rows.push(live(another(rng, &rows)));
            }
        }
    }
    put(&mut fails, bank, &rows);
    (record.to_bytes(), passes, fails)
}

/// Judged on one ledger and booked on another: one of places 61 to 63 fails by then, or fails no
/// longer; and on any ledger.
pub fn morning_and_evening(check: &mut Check, rng: &mut Rng, rounds: usize) {
    check.section("judged in the morning, booked in the evening");
    let places = [
        (61, Apart::Fails61, Apart::Passes61),
        (62, Apart::Fails62, Apart::Passes62),
        (63, Apart::Fails63, Apart::Passes63),
    ];
    for _ in 0..rounds {
        let world = World::random(rng, 16);
        for (place, by_then, no_longer) in places {
            let bank = world.random_bank(rng);
            let (record, passes, fails) = failing_on_one(rng, &world, bank, place);
            let any = ledger(rng, 60);
            let call =
                |ledger| RecordCall::new(&world, ledger, &world.banks[bank].mailbox, &record);
            let failure = 1 << place;
            for (morning, evening, made_for) in [
                (&passes, &fails, Some(((0, failure), by_then))),
                (&fails, &passes, Some(((failure, 0), no_longer))),
                (&fails, &any, None),
                (&any, &passes, None),
            ] {
                let earlier = check.judge(&call(morning)).written.clone();
                let old = check.record(&call(evening)).clone();
                let ok = booked(check, &call(evening).booking(&earlier), true, &old);
                if let Some((due, seen)) = made_for {
                    let sets = (set_of(&earlier), set_of(&old.written));
                    check.case(sets == due, || format!("the sets {sets:x?}, due {due:x?}"));
                    if ok && sets == due {
                        check.apart(seen);
                    }
                }
            }
        }
    }
}

/// What is refused comes in the order 2, 3, 4, 13, 14, 29, 12, several at once.
pub fn order(check: &mut Check, rng: &mut Rng, cases: usize) {
    check.section("judging and booking: several refused at once");
    let before_29 = [
        (14, Apart::Unfit14),
        (13, Apart::Unfit13),
        (4, Apart::Unfit4),
        (3, Apart::Unfit3),
        (2, Apart::Unfit2),
    ];
    for _ in 0..cases {
        let count = rng.within(1..=16);
        let world = World::random(rng, count);
        let mut drawn = Drawn::new(rng, &world);
        let answer = check.judge(&drawn.call(ANSWER_SIZE)).written.clone();
        let mut room = ANSWER_SIZE + rng.below(20);
        let mut due = Ok(1);
        if rng.chance(50) {
            room = rng.below(ANSWER_SIZE);
            due = Err(12);
        }
        let mut judging_due = due;
        let mut earlier = redrawn(rng, &answer);
        let mut seen = None;
        let is_unfit = rng.chance(60);
        if is_unfit {
            earlier = unfit(rng, &answer);
            seen = due.is_err().then_some(Apart::UnfitWithoutRoom);
            due = Err(29);
        }
        for (number, sight) in before_29 {
            if rng.chance(15) {
                drawn.damage(rng, number);
                (judging_due, due) = (Err(number), Err(number));
                seen = is_unfit.then_some(sight);
            }
        }
        let call = drawn.call(room);
        check.judge_expecting(&call, Some(judging_due), "order");
        let left = check.book_expecting(&call.booking(&earlier), Some(due), "order");
        if let (true, Some(seen)) = (left.outcome == due, seen) {
            check.apart(seen);
        }
    }
}

/// Records that are judged and booked where there is room for an answer, and refused by 12 where
/// there is not; by 29 with whatever room.
pub fn rooms(check: &mut Check, rng: &mut Rng, rounds: usize) {
    check.section("judging and booking: rooms of 0 to 17 bytes");
    for _ in 0..rounds {
        let world = World::random(rng, 16);
        let drawn = Drawn::new(rng, &world);
        let answer = check.judge(&drawn.call(ANSWER_SIZE)).written.clone();
        let unfit = unfit(rng, &answer);
        for room in 0..=17 {
            let call = drawn.call(room);
            let due = if room < 16 { Err(12) } else { Ok(1) };
            check.judge_expecting(&call, Some(due), "room");
            for (earlier, due) in [(&answer, due), (&unfit, Err(29))] {
                check.book_expecting(&call.booking(earlier), Some(due), "room");
            }
        }
    }
}

/// Every byte of the first worked record replaced by every other, judged, and booked with the
/// answer to the record as it was.
pub fn every_byte(check: &mut Check) {
    check.section("judging and booking: every byte of R1 replaced");
    let world = World::worked();
    let ledger = vec![0; LEDGER_SIZE];
    let as_it_was = RecordCall::new(&world, &ledger, b"MBONE", R1);
    let earlier = check.judge(&as_it_was).written.clone();
    for at in 0..R1.len() {
        for byte in 0..=255 {
            let mut record = R1.to_vec();
            record[at] = byte;
            let call = RecordCall {
                record: &record,
                ..as_it_was
            };
            let judged = check.judge(&call);
            let due = match judged.outcome {
                Ok(_) if before_booking(&judged.written) != 0 => Err(29),
                outcome => outcome,
            };
            check.book_expecting(&call.booking(&earlier), Some(due), "a byte of R1");
        }
    }
}
