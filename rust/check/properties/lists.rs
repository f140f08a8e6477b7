//! Lists of exported calls on one ledger, single records, files and bookings with earlier answers
//! in a random mix, and demand 3 over them and over bookings alone.

use roselhanda::raw;
use roselhanda::{Answer, ANSWER_SIZE};

use crate::compare::{FileCall, Outcome, RecordCall};
use crate::files::{control_word, damage, Parts};
use crate::judging::{redrawn, unfit, Apart};
use crate::records::{edit, valid, Setting};
use crate::rng::Rng;
use crate::tally::Check;
use crate::values::name;
use crate::world::{ledger, World, BANKS, COMPARTMENT_SIZE, LEDGER_SIZE};

type AnswerBytes = [u8; ANSWER_SIZE];

/// One call of a list; its tables and the ledger are the list's.
struct Call {
    sender: Vec<u8>,
    /// The one of a single call or a booking; those of a file, unless it is damaged.
    records: Vec<Vec<u8>>,
    kind: Kind,
    room: usize,
}

enum Kind {
    Single,
    /// With this earlier answer.
    Booking(Vec<u8>),
    File(Vec<u8>),
}

/// How the calls of a list are drawn: for these tables, and the ledger as it stands.
type Draw = fn(&mut Rng, &World, &[u8]) -> Call;

/// A record of a bank: mostly valid, with numbers from a small stock so that bookings meet.
fn record(rng: &mut Rng, world: &World, ledger: &[u8], bank: usize) -> Vec<u8> {
    let setting = Setting::new(world, bank, ledger);
    let mut record = valid(rng, &setting);
    if rng.chance(30) {
        record.set(39, name(rng, &[1]));
    }
    if rng.chance(20) {
        record.set(16, name(rng, &[1]));
    }
    if rng.chance(15) {
        edit(rng, &setting, &mut record);
    }
    record.to_bytes()
}

fn single_call(rng: &mut Rng, world: &World, ledger: &[u8]) -> Call {
    let bank = world.random_bank(rng);
    let mut record = record(rng, world, ledger, bank);
    let mut sender = world.banks[bank].mailbox.clone();
    let mut room = ANSWER_SIZE + rng.below(20);
    match rng.below(40) {
        // Another member, a stranger, and the three refusals.
        0 | 1 => sender.clone_from(&rng.pick(&world.banks).mailbox),
        2 => sender = name(rng, &[1, 8]),
        3 => sender = rng.pick(&[b"".to_vec(), b"mbone".to_vec()]).clone(),
        4 => record.push(*rng.pick(b"\r\n'")),
        5 | 6 => room = rng.below(ANSWER_SIZE),
        _ => {}
    }
    Call {
        sender,
        records: vec![record],
        kind: Kind::Single,
        room,
    }
}

/// A single call as a booking. The record was judged on the ledger as it stands, or on an empty one
/// before; some earlier answers do not fit it.
fn booking_call(rng: &mut Rng, world: &World, ledger: &[u8]) -> Call {
    let call = single_call(rng, world, ledger);
    let mut answer = [0; ANSWER_SIZE];
    let morning: &[u8] = if rng.chance(50) {
        ledger
    } else {
        &[0; LEDGER_SIZE]
    };
    // A call that is refused leaves the zeros, and will be refused again.
    let _ = twin::judge_record(
        &world.reporters,
        &world.currencies,
        morning,
        &call.sender,
        &call.records[0],
        &mut answer,
    );
    let earlier = match rng.below(10) {
        0 | 1 => unfit(rng, &answer),
        2 => rng.bytes(ANSWER_SIZE),
        3..=5 => redrawn(rng, &answer),
        _ => answer.to_vec(),
    };
    Call {
        kind: Kind::Booking(earlier),
        ..call
    }
}

/// A file of a mailbox, with records of its own banks and of others; some are damaged, some get
/// too little room.
fn file_call(rng: &mut Rng, world: &World, ledger: &[u8]) -> Call {
    let sender = rng.pick(&world.banks).mailbox.clone();
    let own: Vec<usize> = (0..world.banks.len())
        .filter(|&bank| world.banks[bank].mailbox == sender)
        .collect();
    let mut records = Vec::new();
    for _ in 0..rng.below(8) {
        let mut bank = *rng.pick(&own);
        if rng.chance(15) {
            bank = world.random_bank(rng);
        }
        let record = record(rng, world, ledger, bank);
        records.push(record);
    }
    let mut parts = Parts::new(&sender, &control_word(rng), &records);
    let mut room = ANSWER_SIZE * records.len() + rng.below(20);
    match rng.below(10) {
        0 => damage(rng, &mut parts),
        1 if room > 0 => room = rng.below(room),
        _ => {}
    }
    Call {
        kind: Kind::File(parts.to_bytes()),
        sender,
        records,
        room,
    }
}

/// A call of any kind.
fn any_call(rng: &mut Rng, world: &World, ledger: &[u8]) -> Call {
    match rng.below(10) {
        0..=2 => file_call(rng, world, ledger),
        3..=5 => booking_call(rng, world, ledger),
        _ => single_call(rng, world, ledger),
    }
}

/// Lists over all banks, both sides compared after each call.
pub fn lists(check: &mut Check, rng: &mut Rng, count: usize) {
    check.section("lists of calls, files and bookings");
    for list in 0..count {
        let banks = if list % 4 == 0 { rng.within(1..=4) } else { 16 };
        let world = World::random(rng, banks);
        let percent = *rng.pick(&[0, 0, 10, 50]);
        let mut shared = ledger(rng, percent);
        // Few banks and many calls fill compartments.
        let length = if list % 4 == 0 { 200 } else { 100 };
        for _ in 0..length {
            let call = any_call(rng, &world, &shared);
            let single = || RecordCall {
                room: call.room,
                ..RecordCall::new(&world, &shared, &call.sender, &call.records[0])
            };
            let left = match &call.kind {
                Kind::Single => check.record(&single()),
                Kind::Booking(earlier) => check.book(&single().booking(earlier)),
                Kind::File(file) => check.file(&FileCall {
                    file,
                    reporters: &world.reporters,
                    currencies: &world.currencies,
                    ledger: &shared,
                    room: call.room,
                }),
            };
            shared.clone_from(&left.ledger);
        }
    }
}

/// A call of the archive alone: what it came to, and the answers that it wrote.
fn proved(world: &World, ledger: &mut [u8], call: &Call) -> (Outcome, Vec<AnswerBytes>) {
    let mut answers = vec![0xa5; call.room];
    let mut count = 1;
    let reply = match &call.kind {
        Kind::Single => raw::record(
            &world.reporters,
            &world.currencies,
            ledger,
            &call.sender,
            &call.records[0],
            &mut answers,
        ),
        Kind::Booking(earlier) => raw::book(
            &world.reporters,
            &world.currencies,
            ledger,
            &call.sender,
            &call.records[0],
            earlier,
            &mut answers,
        ),
        Kind::File(file) => raw::file(
            file,
            &world.reporters,
            &world.currencies,
            ledger,
            &mut answers,
            &mut count,
        ),
    };
    if reply != 0 {
        return (Err(reply), Vec::new());
    }
    let (answers, _) = answers.as_chunks();
    (Ok(count), answers[..count as usize].to_vec())
}

/// One record of a list that was judged, by its sender, with its answer; of a booking, also with
/// the earlier one.
struct Judged<'a> {
    sender: &'a [u8],
    record: &'a [u8],
    earlier: Option<&'a [u8]>,
    answer: AnswerBytes,
}

impl Judged<'_> {
    /// The bank that the record passed the sender check for.
    fn bank(&self) -> Option<usize> {
        let answer = Answer::from_bytes(&self.answer)?;
        answer.reporter_row().map(usize::from)
    }

    /// Whether a single call on this ledger, or a booking where there is an earlier answer, gives
    /// the same answer.
    fn again(&self, world: &World, ledger: &mut [u8], earlier: Option<&[u8]>) -> bool {
        let World {
            reporters,
            currencies,
            ..
        } = world;
        let (sender, record) = (self.sender, self.record);
        let mut answer = [0xa5; ANSWER_SIZE];
        let reply = match earlier {
            None => raw::record(reporters, currencies, ledger, sender, record, &mut answer),
            Some(earlier) => raw::book(
                reporters,
                currencies,
                ledger,
                sender,
                record,
                earlier,
                &mut answer,
            ),
        };
        reply == 0 && answer == self.answer
    }
}

fn compartment(ledger: &[u8], bank: usize) -> &[u8] {
    &ledger[bank * COMPARTMENT_SIZE..][..COMPARTMENT_SIZE]
}

/// Demand 3: each bank's answers and compartment are those of a lone run of its own records, singly
/// and without earlier answers; the records taken bank after bank leave the same ledger, bookings
/// as bookings; and each call comes to what it comes to on an empty ledger, never to refusal 4.
/// One case for each bank of a list, and one for each of the other two.
pub fn demand_three(check: &mut Check, rng: &mut Rng, count: usize) {
    check.section("demand 3 over calls, files and bookings");
    isolated(check, rng, count, any_call);
}

/// The same over bookings alone, those that are refused among them.
pub fn demand_three_bookings(check: &mut Check, rng: &mut Rng, count: usize) {
    check.section("demand 3 over bookings");
    isolated(check, rng, count, booking_call);
}

fn isolated(check: &mut Check, rng: &mut Rng, count: usize, draw: Draw) {
    for _ in 0..count {
        let any = rng.within(1..=16);
        let banks = *rng.pick(&[16, 16, 16, any]);
        let world = World::random(rng, banks);
        let percent = *rng.pick(&[0, 20, 50]);
        let start = ledger(rng, percent);
        let length = rng.below(100);

        let mut shared = start.clone();
        let mut calls = Vec::new();
        let mut outcomes_agree = true;
        for _ in 0..length {
            let call = draw(rng, &world, &shared);
            let (outcome, answers) = proved(&world, &mut shared, &call);
            let (on_empty, _) = proved(&world, &mut vec![0; LEDGER_SIZE], &call);
            outcomes_agree &= outcome == on_empty && outcome != Err(4);
            match (&call.kind, outcome) {
                (Kind::Booking(_), Ok(_)) => check.apart(Apart::ListBooked),
                (Kind::Booking(_), Err(29)) => check.apart(Apart::ListRefused),
                _ => {}
            }
            calls.push((call, answers));
        }
        check.case(outcomes_agree, || {
            format!("what calls of a list of {length} come to depends on the ledger")
        });

        // What was refused has no answers, and so no step.
        let judged: Vec<Judged> = calls
            .iter()
            .flat_map(|(call, answers)| {
                let earlier = match &call.kind {
                    Kind::Booking(earlier) => Some(earlier.as_slice()),
                    _ => None,
                };
                let pairs = call.records.iter().zip(answers);
                pairs.map(move |(record, answer)| Judged {
                    sender: &call.sender,
                    record,
                    earlier,
                    answer: *answer,
                })
            })
            .collect();

        let mut in_turn = start.clone();
        let mut in_turn_agrees = true;
        for bank in 0..BANKS {
            let mut lone = vec![0; LEDGER_SIZE];
            let own = bank * COMPARTMENT_SIZE..(bank + 1) * COMPARTMENT_SIZE;
            lone[own.clone()].copy_from_slice(&start[own.clone()]);
            let mut agrees = true;
            for step in judged.iter().filter(|step| step.bank() == Some(bank)) {
                agrees &= step.again(&world, &mut lone, None);
                in_turn_agrees &= step.again(&world, &mut in_turn, step.earlier);
            }
            agrees &= compartment(&lone, bank) == compartment(&shared, bank);
            lone[own].fill(0);
            agrees &= lone.iter().all(|&byte| byte == 0);
            check.case(agrees, || {
                format!("bank {bank} of a list of {length} differs from its lone copy")
            });
        }
        check.case(in_turn_agrees && in_turn == shared, || {
            format!("a list of {length} calls, taken bank after bank, differs")
        });
    }
}
