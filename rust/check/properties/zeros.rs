//! Zero as quantity, price, contract size and strike price, and rows with quantity 0.

use crate::compare::RecordCall;
use crate::records::{valid, Record, Setting};
use crate::rng::Rng;
use crate::tally::{set_of, Check, Zero};
use crate::world::{
    compartment, put, World, COMPARTMENT_SIZE, LARGEST_QUANTITY, LEDGER_SIZE, ROW_SIZE,
};

/// The fields that hold a decimal: their number and form, what is seen where they are zero, and the
/// set of checks that then fail.
const DECIMALS: [(usize, usize, usize, Zero, u64); 4] = [
    (22, 15, 4, Zero::Quantity, 1 << 34),
    (25, 7, 4, Zero::Price, 0),
    (30, 10, 6, Zero::Size, 0),
    (32, 10, 6, Zero::Strike, 0),
];

/// Every zero of the form `N whole,fraction`.
fn zeros(whole: usize, fraction: usize) -> Vec<Vec<u8>> {
    let of = |whole: usize, fraction: usize| match fraction {
        0 => vec![b'0'; whole],
        _ => [vec![b'0'; whole], vec![b','], vec![b'0'; fraction]].concat(),
    };
    (1..=whole)
        .flat_map(|whole| (0..=fraction).map(move |fraction| of(whole, fraction)))
        .collect()
}

/// A valid record in which all four decimals are judged.
fn option(rng: &mut Rng, setting: &Setting) -> Record {
    loop {
        let record = valid(rng, setting);
        if record.get(21) == b"XXK" && matches!(record.get(29), b"C" | b"P") {
            return record;
        }
    }
}

/// The call of a bank's record on a ledger.
fn call<'a>(world: &'a World, bank: usize, ledger: &'a [u8], record: &'a [u8]) -> RecordCall<'a> {
    RecordCall::new(world, ledger, &world.banks[bank].mailbox, record)
}

/// Every zero in each of the four fields, and with each of its digits replaced by another.
pub fn every_zero(check: &mut Check, rng: &mut Rng, rounds: usize) {
    check.section("zeros: every one, and each digit of it replaced");
    let ledger = vec![0; LEDGER_SIZE];
    for _ in 0..rounds {
        let world = World::random(rng, 16);
        for (n, whole, fraction, seen, failed) in DECIMALS {
            for zero in zeros(whole, fraction) {
                let bank = world.random_bank(rng);
                let mut record = option(rng, &Setting::new(&world, bank, &ledger));
                let mut judge = |value: &[u8], due: u64| {
                    record.set(n, value);
                    let left = check.record(&call(&world, bank, &ledger, &record.to_bytes()));
                    let set = set_of(&left.written);
                    check.case(set == due, || {
                        format!("{} as F{n} gives {set:x}", value.escape_ascii())
                    });
                    set == due
                };
                let told = judge(&zero, failed);
                for at in (0..zero.len()).filter(|&at| zero[at] == b'0') {
                    let mut other = zero.clone();
                    other[at] = *rng.pick(b"123456789");
                    judge(&other, 0);
                }
                if told {
                    check.zero(seen);
                }
            }
        }
    }
}

/// Live rows with quantity 0, cancelled; and with another quantity, which gives the same answer.
pub fn stored(check: &mut Check, rng: &mut Rng, cases: usize) {
    check.section("zeros: rows with quantity 0 cancelled");
    let world = World::random(rng, 16);
    for _ in 0..cases {
        let bank = world.random_bank(rng);
        let filled = rng.within(1..=63);
        let mut rows = compartment(rng, filled);
        let live: Vec<usize> = (0..filled).filter(|&at| rows[at].state == 1).collect();
        if live.is_empty() {
            continue;
        }
        let at = *rng.pick(&live);
        let mut ledger = vec![0; LEDGER_SIZE];
        put(&mut ledger, bank, &rows);
        let mut record = valid(rng, &Setting::new(&world, bank, &ledger));
        record.set(16, rows[at].number.as_slice());
        let any = rng.next() % (LARGEST_QUANTITY + 1);
        let answers = [0, any].map(|quantity| {
            rows[at].quantity = quantity;
            put(&mut ledger, bank, &rows);
            let left = check.record(&call(&world, bank, &ledger, &record.to_bytes()));
            let state = left.ledger[bank * COMPARTMENT_SIZE + at * ROW_SIZE];
            (set_of(&left.written), left.written.clone(), state)
        });
        let (set, _, state) = answers[0];
        let ok = set == 0 && state == 2 && answers[0] == answers[1];
        check.case(ok, || format!("row {at} with 0 gives {answers:x?}"));
        if ok {
            check.zero(Zero::Stored);
        }
    }
}
