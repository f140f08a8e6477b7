//! Sound tables and ledgers.

use crate::rng::Rng;
use crate::values::{address, bank_code, name, CAPITALS, CAPITALS_AND_DIGITS};

pub const ROW_SIZE: usize = 32;
pub const ROWS: usize = 64;
pub const COMPARTMENT_SIZE: usize = ROWS * ROW_SIZE;
pub const BANKS: usize = 16;
pub const LEDGER_SIZE: usize = BANKS * COMPARTMENT_SIZE;
pub const LARGEST_QUANTITY: u64 = 9_999_999_999_999_999_999;
pub const NO_PARTNER: u16 = 65_535;
pub const SPECIALS: [&[u8]; 4] = [b"XXX", b"XXK", b"XXO", b"XXZ"];

/// One reporter.
#[derive(Clone)]
pub struct Bank {
    pub code: Vec<u8>,
    /// Eleven bytes.
    pub address: Vec<u8>,
    pub mailbox: Vec<u8>,
}

impl Bank {
    pub fn row(&self) -> Vec<u8> {
        let mut row = self.code.clone();
        row.extend(&self.address);
        row.extend(&self.mailbox);
        row.resize(24, b' ');
        row.resize(ROW_SIZE, 0);
        row
    }

    /// The address in its shortest form.
    pub fn short_address(&self) -> &[u8] {
        self.address.strip_suffix(b"XXX").unwrap_or(&self.address)
    }
}

/// Sound reference tables.
#[derive(Clone)]
pub struct World {
    pub banks: Vec<Bank>,
    /// At least one code.
    pub codes: Vec<Vec<u8>>,
    pub reporters: Vec<u8>,
    pub currencies: Vec<u8>,
}

impl World {
    pub fn new(banks: Vec<Bank>, codes: Vec<Vec<u8>>) -> Self {
        let reporters = banks.iter().flat_map(Bank::row).collect();
        let currencies = codes.concat();
        World {
            banks,
            codes,
            reporters,
            currencies,
        }
    }

    /// The tables of document 01's worked inputs.
    pub fn worked() -> Self {
        let bank = |code: &str, address: &str, mailbox: &str| Bank {
            code: code.into(),
            address: address.into(),
            mailbox: mailbox.into(),
        };
        World::new(
            vec![
                bank("98001", "AAAAATW1XXX", "MBONE"),
                bank("98002", "BBBBATW1XXX", "MBONE"),
                bank("98003", "CCCCATW1XXX", "MBTWO"),
            ],
            vec![b"CHF".to_vec(), b"EUR".to_vec(), b"USD".to_vec()],
        )
    }

    /// Tables with this many banks; some banks share a mailbox, some share the first eight bytes
    /// of their addresses.
    pub fn random(rng: &mut Rng, count: usize) -> Self {
        let mailboxes: Vec<Vec<u8>> = (0..rng.within(1..=5))
            .map(|_| name(rng, &[1, 2, 5, 7, 8]))
            .collect();
        let mut banks: Vec<Bank> = Vec::new();
        while banks.len() < count {
            let mut bank = Bank {
                code: bank_code(rng),
                address: address(rng),
                mailbox: rng.pick(&mailboxes).clone(),
            };
            if let (true, Some(last)) = (rng.chance(30), banks.last()) {
                bank.address[..8].copy_from_slice(&last.address[..8]);
                bank.code[..4].copy_from_slice(&last.code[..4]);
            }
            if bank.address.len() == 8 {
                bank.address.extend(b"XXX");
            }
            let differs = |other: &Bank| other.code != bank.code && other.address != bank.address;
            if banks.iter().all(differs) {
                banks.push(bank);
            }
        }
        let any = rng.within(1..=512);
        let count = *rng.pick(&[1, 2, 3, 12, 60, 180, any, 512]);
        World::new(banks, currency_codes(rng, count))
    }

    pub fn random_bank(&self, rng: &mut Rng) -> usize {
        rng.below(self.banks.len())
    }
}

/// Sorted codes of three capitals without the special ones; neighbours of those are frequent.
pub fn currency_codes(rng: &mut Rng, count: usize) -> Vec<Vec<u8>> {
    let mut codes = std::collections::BTreeSet::new();
    while codes.len() < count {
        let mut code = rng.text(CAPITALS, 3);
        if rng.chance(10) {
            code = [b"XX".to_vec(), rng.text(CAPITALS, 1)].concat();
        }
        if !SPECIALS.contains(&code.as_slice()) {
            codes.insert(code);
        }
    }
    codes.into_iter().collect()
}

/// One filled row of a compartment.
#[derive(Clone)]
pub struct Row {
    pub state: u8,
    pub number: Vec<u8>,
    pub quantity: u64,
    pub partner: u16,
    pub side: u8,
}

impl Row {
    pub fn to_bytes(&self) -> [u8; ROW_SIZE] {
        let mut row = [0; ROW_SIZE];
        row[0] = self.state;
        row[1] = self.number.len() as u8;
        row[2..2 + self.number.len()].copy_from_slice(&self.number);
        row[18..26].copy_from_slice(&self.quantity.to_le_bytes());
        row[26..28].copy_from_slice(&self.partner.to_le_bytes());
        row[28] = self.side;
        row
    }
}

/// A number that stands in none of these rows.
pub fn fresh_number(rng: &mut Rng, rows: &[Row]) -> Vec<u8> {
    loop {
        let mut number = name(rng, &[1, 2, 2, 3, 8, 15, 16]);
        if let (true, Some(row)) = (rng.chance(20), rows.last()) {
            // A longer or shorter neighbour of a number that is there.
            number = row.number.clone();
            if number.len() == 16 {
                number.pop();
            } else {
                number.push(*rng.pick(CAPITALS_AND_DIGITS));
            }
        }
        if rows.iter().all(|row| row.number != number) {
            return number;
        }
    }
}

/// A sound compartment with this many filled rows, about every third one a cancellation.
pub fn compartment(rng: &mut Rng, filled: usize) -> Vec<Row> {
    let mut rows: Vec<Row> = Vec::new();
    while rows.len() < filled {
        let any = rng.next() % (LARGEST_QUANTITY + 1);
        let mut row = Row {
            state: 1,
            number: fresh_number(rng, &rows),
            quantity: *rng.pick(&[any, 0, 1, LARGEST_QUANTITY]),
            partner: NO_PARTNER,
            side: *rng.pick(b"BS"),
        };
        let live: Vec<usize> = (0..rows.len()).filter(|&at| rows[at].state == 1).collect();
        if rng.chance(35) && !live.is_empty() {
            let original = *rng.pick(&live);
            row.state = 3;
            row.partner = original as u16;
            rows[original].state = 2;
            rows[original].partner = rows.len() as u16;
        }
        rows.push(row);
    }
    rows
}

/// Puts rows into a compartment; the rest of it becomes free.
pub fn put(ledger: &mut [u8], bank: usize, rows: &[Row]) {
    let compartment = &mut ledger[bank * COMPARTMENT_SIZE..][..COMPARTMENT_SIZE];
    compartment.fill(0);
    for (bytes, row) in compartment.chunks_mut(ROW_SIZE).zip(rows) {
        bytes.copy_from_slice(&row.to_bytes());
    }
}

/// A number of filled rows, with the edges frequent.
pub fn fill(rng: &mut Rng) -> usize {
    let any = rng.within(0..=ROWS);
    *rng.pick(&[0, 0, 1, 2, 5, any, any, 62, 63, 64])
}

/// A sound ledger; about `percent` of its compartments have rows.
pub fn ledger(rng: &mut Rng, percent: usize) -> Vec<u8> {
    let mut ledger = vec![0; LEDGER_SIZE];
    for bank in 0..BANKS {
        if rng.chance(percent) {
            let filled = fill(rng);
            put(&mut ledger, bank, &compartment(rng, filled));
        }
    }
    ledger
}

/// State and number of each filled row of a compartment.
pub fn rows_of(ledger: &[u8], bank: usize) -> Vec<(u8, Vec<u8>)> {
    ledger[bank * COMPARTMENT_SIZE..][..COMPARTMENT_SIZE]
        .chunks(ROW_SIZE)
        .take_while(|row| row[0] != 0)
        .map(|row| (row[0], row[2..2 + usize::from(row[1])].to_vec()))
        .collect()
}
