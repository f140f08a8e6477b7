//! Tables and ledgers: each rule of document 01 broken on purpose, changes that break none, every
//! byte replaced, and random bytes.

use crate::compare::{FileCall, Outcome, RecordCall};
use crate::files::Parts;
use crate::records::{valid, Setting};
use crate::rng::Rng;
use crate::tally::Check;
use crate::values::{name, CAPITALS};
use crate::world::{
    compartment, currency_codes, fresh_number, ledger, put, Bank, Row, World, BANKS,
    LARGEST_QUANTITY, LEDGER_SIZE, NO_PARTNER, ROWS, ROW_SIZE, SPECIALS,
};

/// Everything that a call is lent, sound at first.
struct Lent {
    world: World,
    reporters: Vec<u8>,
    currencies: Vec<u8>,
    ledger: Vec<u8>,
    /// The compartment to damage, and its rows: live ones, two pairs and free ones.
    bank: usize,
    rows: Vec<Row>,
}

impl Lent {
    fn random(rng: &mut Rng) -> Self {
        let any = rng.within(2..=16);
        let count = *rng.pick(&[2, any, 16]);
        let world = World::random(rng, count);
        let mut ledger = ledger(rng, 15);
        let bank = rng.below(BANKS);
        let rows = loop {
            let filled = rng.within(8..=ROWS - 2);
            let rows = compartment(rng, filled);
            let count = |state: u8| rows.iter().filter(|row| row.state == state).count();
            if count(1) >= 2 && count(3) >= 2 {
                break rows;
            }
        };
        put(&mut ledger, bank, &rows);
        Lent {
            reporters: world.reporters.clone(),
            currencies: world.currencies.clone(),
            world,
            ledger,
            bank,
            rows,
        }
    }

    /// The bytes of a row of the chosen compartment.
    fn row(&mut self, at: usize) -> &mut [u8] {
        &mut self.ledger[(self.bank * ROWS + at) * ROW_SIZE..][..ROW_SIZE]
    }

    /// Some row of this state.
    fn some(&self, rng: &mut Rng, state: u8) -> usize {
        *rng.pick(&self.all(state))
    }

    /// Two rows of this state, the earlier one first.
    fn two(&self, rng: &mut Rng, state: u8) -> (usize, usize) {
        let all = self.all(state);
        let second = rng.within(1..=all.len() - 1);
        (all[rng.below(second)], all[second])
    }

    fn all(&self, state: u8) -> Vec<usize> {
        (0..self.rows.len())
            .filter(|&at| self.rows[at].state == state)
            .collect()
    }

    fn filled(&self, rng: &mut Rng) -> usize {
        rng.below(self.rows.len())
    }

    fn free(&self, rng: &mut Rng) -> usize {
        rng.within(self.rows.len()..=ROWS - 1)
    }

    /// A row with a number of these lengths.
    fn with_length(&self, rng: &mut Rng, fits: impl Fn(usize) -> bool) -> Option<usize> {
        let all: Vec<usize> = (0..self.rows.len())
            .filter(|&at| fits(self.rows[at].number.len()))
            .collect();
        (!all.is_empty()).then(|| *rng.pick(&all))
    }

    fn point(&mut self, from: usize, to: u16) {
        self.row(from)[26..28].copy_from_slice(&to.to_le_bytes());
    }

    fn reporter(&mut self, rng: &mut Rng) -> &mut [u8] {
        let at = rng.below(self.world.banks.len());
        &mut self.reporters[at * ROW_SIZE..][..ROW_SIZE]
    }
}

/// Replaces a byte of a range by one of these.
fn replace(rng: &mut Rng, bytes: &mut [u8], by: &[u8]) {
    let at = rng.below(bytes.len());
    bytes[at] = *rng.pick(by);
}

const NOT_DIGITS: &[u8] = b"/:A z\x00\xff";
const NOT_CAPITALS: &[u8] = b"@[a09 \x00\xff";
const NOT_CAPITALS_OR_DIGITS: &[u8] = b"/:@[`az{ \x00\xff";

type Change = fn(&mut Rng, &mut Lent);

/// Changes of the reporters table that break one rule each.
const BAD_REPORTERS: &[(&str, Change)] = &[
    ("length no multiple of a row", |rng, lent| {
        let length = lent.reporters.len();
        lent.reporters
            .resize(length - rng.within(1..=ROW_SIZE - 1), 0);
    }),
    ("length one over", |_, lent| lent.reporters.push(0)),
    ("seventeen rows", |rng, lent| {
        let world = World::random(rng, 17);
        lent.reporters = world.reporters;
    }),
    ("bank code not digits", |rng, lent| {
        let (at, byte) = (rng.below(5), *rng.pick(NOT_DIGITS));
        lent.reporter(rng)[at] = byte;
    }),
    ("start of the address not capitals", |rng, lent| {
        let (at, byte) = (rng.within(5..=10), *rng.pick(NOT_CAPITALS));
        lent.reporter(rng)[at] = byte;
    }),
    ("end of the address not capitals or digits", |rng, lent| {
        let (at, byte) = (rng.within(11..=15), *rng.pick(NOT_CAPITALS_OR_DIGITS));
        lent.reporter(rng)[at] = byte;
    }),
    ("address of eight bytes", |rng, lent| {
        lent.reporter(rng)[13..16].fill(b' ');
    }),
    ("mailbox empty", |rng, lent| {
        lent.reporter(rng)[16..24].fill(b' ')
    }),
    ("mailbox with zeros behind it", |rng, lent| {
        lent.reporter(rng)[16..24].copy_from_slice(b"MBONE\0\0\0");
    }),
    ("mailbox behind a space", |rng, lent| {
        lent.reporter(rng)[16..24].copy_from_slice(b" MBONE  ");
    }),
    ("mailbox with a space inside", |rng, lent| {
        lent.reporter(rng)[16..24].copy_from_slice(b"MB ONE  ");
    }),
    ("mailbox not capitals or digits", |rng, lent| {
        let byte = *rng.pick(b"/:@[`az{\x00\xff");
        lent.reporter(rng)[16] = byte;
    }),
    ("bytes 24 to 31 not zero", |rng, lent| {
        let (at, byte) = (rng.within(24..=31), *rng.pick(b" 0\x01\x80\xff"));
        lent.reporter(rng)[at] = byte;
    }),
    ("a bank code twice", |rng, lent| {
        let second = rng.within(1..=lent.world.banks.len() - 1);
        let first = rng.below(second);
        let code: [u8; 5] = *lent.reporters[first * ROW_SIZE..]
            .first_chunk()
            .expect("a row");
        lent.reporters[second * ROW_SIZE..][..5].copy_from_slice(&code);
    }),
    ("an address twice", |rng, lent| {
        let second = rng.within(1..=lent.world.banks.len() - 1);
        let first = rng.below(second);
        let address: [u8; 11] = *lent.reporters[first * ROW_SIZE + 5..]
            .first_chunk()
            .expect("a row");
        lent.reporters[second * ROW_SIZE + 5..][..11].copy_from_slice(&address);
    }),
    ("an empty row", |rng, lent| lent.reporter(rng).fill(0)),
];

/// Changes of the currency list that break one rule each.
const BAD_CURRENCIES: &[(&str, Change)] = &[
    ("length no multiple of a code", |rng, lent| {
        let length = lent.currencies.len();
        lent.currencies.truncate(length - rng.within(1..=2));
    }),
    ("length one over", |_, lent| lent.currencies.push(b'Z')),
    ("513 codes", |rng, lent| {
        lent.currencies = currency_codes(rng, 513).concat()
    }),
    ("not capitals", |rng, lent| {
        replace(rng, &mut lent.currencies, NOT_CAPITALS)
    }),
    ("a code twice", |rng, lent| {
        let codes = &lent.world.codes;
        let at = rng.below(codes.len());
        let mut doubled = codes.clone();
        doubled.insert(at, codes[at].clone());
        lent.currencies = doubled.concat();
    }),
    ("two codes out of order", |rng, lent| {
        let mut codes = currency_codes(rng, 20);
        let second = rng.within(1..=19);
        let first = rng.below(second);
        codes.swap(first, second);
        lent.currencies = codes.concat();
    }),
    ("a special code in its place", |rng, lent| {
        let mut codes = lent.world.codes.clone();
        if codes.len() == 512 {
            codes.pop();
        }
        codes.push(rng.pick(&SPECIALS).to_vec());
        codes.sort();
        lent.currencies = codes.concat();
    }),
];

/// Changes of the ledger that break one rule each.
const BAD_LEDGERS: &[(&str, Change)] = &[
    ("another length", |rng, lent| {
        let length = *rng.pick(&[
            0,
            1,
            32,
            2_048,
            LEDGER_SIZE - 32,
            LEDGER_SIZE - 1,
            LEDGER_SIZE + 1,
            LEDGER_SIZE + 32,
            2 * LEDGER_SIZE,
        ]);
        lent.ledger.resize(length, 0);
    }),
    ("a free row not zero", |rng, lent| {
        let (row, at, byte) = (
            lent.free(rng),
            rng.within(1..=31),
            rng.within(1..=255) as u8,
        );
        lent.row(row)[at] = byte;
    }),
    ("a row behind a free one", |rng, lent| {
        let last = lent.rows.len() - 1;
        let mut row = lent.rows[last].clone();
        row.number = fresh_number(rng, &lent.rows);
        (row.state, row.partner) = (1, NO_PARTNER);
        let at = rng.within(last + 2..=ROWS - 1);
        lent.row(at).copy_from_slice(&row.to_bytes());
    }),
    ("a live row emptied", |rng, lent| {
        let all = lent.all(1);
        let at = all[rng.below(all.len() - 1)];
        lent.row(at).fill(0);
    }),
    ("only the state emptied", |rng, lent| {
        let at = lent.filled(rng);
        lent.row(at)[0] = 0;
    }),
    ("state over 3", |rng, lent| {
        let (at, state) = (lent.filled(rng), *rng.pick(&[4, 5, 0x81, 0xff]));
        lent.row(at)[0] = state;
    }),
    ("number of length 0", |rng, lent| {
        let at = lent.filled(rng);
        lent.row(at)[1] = 0;
        if rng.chance(50) {
            lent.row(at)[2..18].fill(0);
        }
    }),
    ("number of length over 16", |rng, lent| {
        let (at, length) = (lent.filled(rng), *rng.pick(&[17, 18, 31, 255]));
        lent.row(at)[1] = length;
        if rng.chance(50) {
            lent.row(at)[2..18].fill(b'A');
        }
    }),
    ("length over the number", |rng, lent| {
        match lent.with_length(rng, |length| length < 16) {
            Some(at) => lent.row(at)[1] += 1,
            None => lent.ledger.clear(),
        }
    }),
    ("length under the number", |rng, lent| {
        match lent.with_length(rng, |length| length > 1) {
            Some(at) => lent.row(at)[1] -= 1,
            None => lent.ledger.clear(),
        }
    }),
    ("number not capitals or digits", |rng, lent| {
        let at = lent.filled(rng);
        let length = lent.rows[at].number.len();
        let by = *rng.pick(NOT_CAPITALS_OR_DIGITS);
        let place = 2 + rng.below(length);
        lent.row(at)[place] = by;
    }),
    ("not zeros behind the number", |rng, lent| {
        match lent.with_length(rng, |length| length < 15) {
            Some(at) => {
                let length = lent.rows[at].number.len();
                let place = rng.within(2 + length..=17);
                let by = *rng.pick(b"A0 \x01\xff");
                lent.row(at)[place] = by;
            }
            None => lent.ledger.clear(),
        }
    }),
    ("a number twice", |rng, lent| {
        let second = rng.within(1..=lent.rows.len() - 1);
        let first = rng.below(second);
        let number: [u8; 17] = *lent.row(first)[1..].first_chunk().expect("a row");
        lent.row(second)[1..18].copy_from_slice(&number);
    }),
    ("quantity too large", |rng, lent| {
        let at = lent.filled(rng);
        let quantity = *rng.pick(&[
            LARGEST_QUANTITY + 1,
            LARGEST_QUANTITY + 2,
            1 << 63 | 1 << 62,
            u64::MAX,
        ]);
        lent.row(at)[18..26].copy_from_slice(&quantity.to_le_bytes());
    }),
    ("a live row with a partner", |rng, lent| {
        let at = lent.some(rng, 1);
        let other = lent.filled(rng) as u16;
        let partner = *rng.pick(&[other, at as u16, 0, 63, 64, 0x00ff, 0xff00, 65_534]);
        lent.point(at, partner);
    }),
    ("two live rows as partners", |rng, lent| {
        let (first, second) = lent.two(rng, 1);
        lent.point(first, second as u16);
        lent.point(second, first as u16);
    }),
    ("a cancellation without a partner", |rng, lent| {
        let at = lent.some(rng, 3);
        lent.point(at, NO_PARTNER);
    }),
    ("a cancelled row without a partner", |rng, lent| {
        let at = lent.some(rng, 2);
        lent.point(at, NO_PARTNER);
    }),
    ("a partner outside of the compartment", |rng, lent| {
        let state = *rng.pick(&[2, 3]);
        let at = lent.some(rng, state);
        let beyond = *rng.pick(&[64, 128, 256, 1_024, 65_534]);
        let partner = lent.rows[at].partner | beyond;
        lent.point(at, partner);
    }),
    ("a row as its own partner", |rng, lent| {
        let state = *rng.pick(&[2, 3]);
        let at = lent.some(rng, state);
        lent.point(at, at as u16);
    }),
    ("a cancellation of another's row", |rng, lent| {
        let (first, second) = lent.two(rng, 3);
        let other = lent.rows[second].partner;
        lent.point(first, other);
    }),
    (
        "a cancelled row with another's cancellation",
        |rng, lent| {
            let (first, second) = lent.two(rng, 2);
            let other = lent.rows[second].partner;
            lent.point(first, other);
        },
    ),
    ("two cancellations of one row", |rng, lent| {
        let (_, second) = lent.two(rng, 1);
        let original = lent.some(rng, 2);
        lent.row(second)[0] = 3;
        lent.point(second, original as u16);
    }),
    ("a cancellation of a live row", |rng, lent| {
        let (at, live) = (lent.some(rng, 3), lent.some(rng, 1));
        lent.point(at, live as u16);
    }),
    ("a cancellation of a free row", |rng, lent| {
        let (at, free) = (lent.some(rng, 3), lent.free(rng));
        lent.point(at, free as u16);
    }),
    ("a cancelled row that points to a live one", |rng, lent| {
        let (at, live) = (lent.some(rng, 2), lent.some(rng, 1));
        lent.point(at, live as u16);
    }),
    ("a cancelled row that points to a free one", |rng, lent| {
        let (at, free) = (lent.some(rng, 2), lent.free(rng));
        lent.point(at, free as u16);
    }),
    ("a cancellation before its original", |rng, lent| {
        let at = lent.some(rng, 3);
        let original = usize::from(lent.rows[at].partner);
        lent.row(at)[0] = 2;
        lent.row(original)[0] = 3;
    }),
    ("two cancelled rows as partners", |rng, lent| {
        let at = lent.some(rng, 3);
        lent.row(at)[0] = 2;
    }),
    ("two cancellations as partners", |rng, lent| {
        let at = lent.some(rng, 2);
        lent.row(at)[0] = 3;
    }),
    ("a live row with a cancellation", |rng, lent| {
        let at = lent.some(rng, 2);
        lent.row(at)[0] = 1;
        if rng.chance(50) {
            lent.point(at, NO_PARTNER);
        }
    }),
    ("a cancelled row whose cancellation is live", |rng, lent| {
        let at = lent.some(rng, 3);
        lent.row(at)[0] = 1;
        lent.point(at, NO_PARTNER);
    }),
    ("side not B or S", |rng, lent| {
        let (at, side) = (lent.filled(rng), *rng.pick(b"\0ACRTbs \xff"));
        lent.row(at)[28] = side;
    }),
    ("bytes 29 to 31 not zero", |rng, lent| {
        let (at, place, byte) = (
            lent.filled(rng),
            rng.within(29..=31),
            rng.within(1..=255) as u8,
        );
        lent.row(at)[place] = byte;
    }),
];

/// Changes that break no rule.
const HARMLESS: &[(&str, Change)] = &[
    ("nothing", |_, _| {}),
    ("no reporters", |_, lent| lent.reporters.clear()),
    ("sixteen reporters of one mailbox", |rng, lent| {
        let mut world = World::random(rng, 16);
        let mailbox = name(rng, &[1, 8]);
        world
            .banks
            .iter_mut()
            .for_each(|bank| bank.mailbox.clone_from(&mailbox));
        lent.reporters = world.banks.iter().flat_map(Bank::row).collect();
    }),
    ("no currencies", |_, lent| lent.currencies.clear()),
    ("512 currencies", |rng, lent| {
        lent.currencies = currency_codes(rng, 512).concat()
    }),
    ("neighbours of the special codes", |rng, lent| {
        let all = CAPITALS.iter().map(|&last| vec![b'X', b'X', last]);
        let codes: Vec<Vec<u8>> = all
            .filter(|code| !SPECIALS.contains(&code.as_slice()) && rng.chance(80))
            .collect();
        lent.currencies = codes.concat();
    }),
    ("no bookings", |_, lent| lent.ledger.fill(0)),
    ("largest and smallest quantities", |rng, lent| {
        for quantity in [0, LARGEST_QUANTITY] {
            let at = lent.filled(rng);
            lent.row(at)[18..26].copy_from_slice(&quantity.to_le_bytes());
        }
    }),
    ("the same compartment for every bank", |_, lent| {
        let rows = lent.rows.clone();
        for bank in 0..BANKS {
            put(&mut lent.ledger, bank, &rows);
        }
    }),
    ("every compartment full", |rng, lent| {
        let rows = compartment(rng, ROWS);
        for bank in 0..BANKS {
            put(&mut lent.ledger, bank, &rows);
        }
    }),
    ("the first row cancelled by the last", |rng, lent| {
        let mut rows = compartment(rng, 1);
        while rows.len() < ROWS {
            let number = fresh_number(rng, &rows);
            rows.push(Row {
                number,
                ..rows[0].clone()
            });
        }
        (rows[0].state, rows[0].partner) = (2, 63);
        (rows[63].state, rows[63].partner) = (3, 0);
        put(&mut lent.ledger, lent.bank, &rows);
    }),
    ("every row cancelled", |rng, lent| {
        let mut rows = compartment(rng, 1);
        while rows.len() < ROWS {
            let number = fresh_number(rng, &rows);
            rows.push(Row {
                number,
                ..rows[0].clone()
            });
        }
        for at in 0..ROWS / 2 {
            let other = ROWS - 1 - at;
            (rows[at].state, rows[at].partner) = (2, other as u16);
            (rows[other].state, rows[other].partner) = (3, at as u16);
        }
        put(&mut lent.ledger, lent.bank, &rows);
    }),
    ("numbers that begin alike", |_, lent| {
        let rows: Vec<Row> = (1..=16)
            .map(|length| Row {
                state: 1,
                number: vec![b'A'; length],
                quantity: 1,
                partner: NO_PARTNER,
                side: b'B',
            })
            .collect();
        put(&mut lent.ledger, lent.bank, &rows);
    }),
];

/// All calls on what is lent, with the outcome that the damage asks for.
fn all_calls(check: &mut Check, rng: &mut Rng, lent: &Lent, due: Option<Outcome>, label: &str) {
    let bank = lent.world.random_bank(rng);
    let setting = Setting::without_rows(&lent.world, bank);
    let record = valid(rng, &setting).to_bytes();
    let mut sender = lent.world.banks[bank].mailbox.as_slice();
    let mut room = 32;
    // Refusals 2 to 4 come first, whatever else is wrong.
    if due.is_some_and(|due| due.is_err()) && rng.chance(10) {
        (sender, room) = (b"", 3);
    }
    let call = RecordCall {
        reporters: &lent.reporters,
        currencies: &lent.currencies,
        ledger: &lent.ledger,
        sender,
        record: &record,
        room,
    };
    check.record_expecting(&call, due, label);
    let mut earlier = check.judge_expecting(&call, due, label).written.clone();
    if earlier.is_empty() {
        let length = *rng.pick(&[0, 15, 16]);
        earlier = rng.bytes(length);
    }
    check.book_expecting(&call.booking(&earlier), due, label);
    let file = Parts::new(sender, b"W", &[record]).to_bytes();
    let call = FileCall {
        file: &file,
        reporters: &lent.reporters,
        currencies: &lent.currencies,
        ledger: &lent.ledger,
        room,
    };
    check.file_expecting(&call, due, label);
}

/// Each rule broken on purpose, one at a time, and changes that break none.
pub fn rules(check: &mut Check, rng: &mut Rng, rounds: usize) {
    check.section("tables and ledgers: each rule broken");
    let lists = [
        (Ok(1), HARMLESS),
        (Err(2), BAD_REPORTERS),
        (Err(3), BAD_CURRENCIES),
        (Err(4), BAD_LEDGERS),
    ];
    for _ in 0..rounds {
        for (due, changes) in lists {
            for (label, change) in changes {
                let mut lent = Lent::random(rng);
                change(rng, &mut lent);
                all_calls(check, rng, &lent, Some(due), label);
            }
        }
    }
}

/// Two or three of the tables and the ledger damaged: the lowest number is due.
pub fn precedence(check: &mut Check, rng: &mut Rng, cases: usize) {
    check.section("tables and ledgers: several damaged");
    for _ in 0..cases {
        let mut lent = Lent::random(rng);
        let mut due = Ok(1);
        for (number, changes) in [(4, BAD_LEDGERS), (3, BAD_CURRENCIES), (2, BAD_REPORTERS)] {
            if rng.chance(60) {
                rng.pick(changes).1(rng, &mut lent);
                due = Err(number);
            }
        }
        all_calls(check, rng, &lent, Some(due), "several damaged");
    }
}

/// Every byte of small tables and of a compartment's rows replaced by every other.
pub fn every_byte(check: &mut Check, rng: &mut Rng) {
    check.section("tables and ledgers: every byte replaced");
    let world = World::worked();
    let record = crate::singles::R1;
    let mut sound = vec![0; LEDGER_SIZE];
    let row = |state: u8, number: &str, partner: u16| Row {
        state,
        number: number.into(),
        quantity: LARGEST_QUANTITY,
        partner,
        side: b'S',
    };
    let rows = [
        row(1, "A", NO_PARTNER),
        row(2, "B2", 3),
        row(1, "ABCDEFGHIJKLMNOP", NO_PARTNER),
        row(3, "B3", 1),
    ];
    let bank = rng.below(BANKS);
    put(&mut sound, bank, &rows);
    let mut replaced = |which: usize, at: usize| {
        for byte in 0..=255 {
            let mut lent = [world.reporters.clone(), world.currencies.clone()];
            let mut ledger = sound.clone();
            match which {
                2 => ledger[at] = byte,
                _ => lent[which][at] = byte,
            }
            let call = RecordCall {
                reporters: &lent[0],
                currencies: &lent[1],
                ledger: &ledger,
                sender: b"MBONE",
                record,
                room: 16,
            };
            check.record(&call);
            check.judge(&call);
            check.book(&call.booking(&[0; 16]));
        }
    };
    for at in 0..world.reporters.len() {
        replaced(0, at);
    }
    for at in 0..world.currencies.len() {
        replaced(1, at);
    }
    let start = bank * ROWS * ROW_SIZE;
    for at in start..start + 5 * ROW_SIZE {
        replaced(2, at);
    }
}

/// Random bytes, and sound tables and ledgers with one to three bytes changed.
pub fn random_bytes(check: &mut Check, rng: &mut Rng, cases: usize) {
    check.section("tables and ledgers: random bytes");
    for _ in 0..cases {
        let mut lent = Lent::random(rng);
        let changes = rng.within(1..=3);
        match rng.below(6) {
            0 => lent.reporters = rng.bytes([0, 32, 64, 512][changes]),
            1 => lent.currencies = rng.text(CAPITALS, [0, 3, 6, 9][changes]),
            2 => {
                for _ in 0..changes {
                    let by = rng.byte();
                    replace(rng, &mut lent.reporters, &[by]);
                }
            }
            3 => {
                for _ in 0..changes {
                    let by = *rng.pick(CAPITALS);
                    replace(rng, &mut lent.currencies, &[by]);
                }
            }
            4 => {
                for _ in 0..changes {
                    let by = rng.byte();
                    replace(rng, &mut lent.ledger, &[by]);
                }
            }
            _ => {
                for _ in 0..changes {
                    let at = rng.below(lent.rows.len() + 1);
                    let by = rng.byte() % 66;
                    let place = *rng.pick(&[0, 1, 2, 3, 17, 25, 26, 27, 28, 29]);
                    lent.row(at)[place] = by;
                }
            }
        }
        all_calls(check, rng, &lent, None, "random bytes");
    }
}
