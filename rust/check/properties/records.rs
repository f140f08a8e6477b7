//! Records: valid ones, and edits that move them over the edges of the rules.

use crate::rng::Rng;
use crate::values::*;
use crate::world::{rows_of, World, SPECIALS};

pub const FIELDS: usize = 39;

/// Fields that no check looks at.
const UNJUDGED: [usize; 12] = [10, 11, 12, 13, 17, 26, 27, 31, 34, 35, 36, 37];
const UNDERLYING_WORDS: [&[u8]; 6] = [
    b"BASKET",
    b"COMMODITY",
    b"METAL",
    b"NON-METAL",
    b"INTEREST",
    b"CURRENCY",
];

/// What a record is made for: a bank of the tables, and the rows of its compartment.
pub struct Setting<'a> {
    pub world: &'a World,
    pub bank: usize,
    /// State and number of each filled row.
    pub rows: Vec<(u8, Vec<u8>)>,
}

impl<'a> Setting<'a> {
    /// A bank with the rows that it has in a ledger.
    pub fn new(world: &'a World, bank: usize, ledger: &[u8]) -> Self {
        let rows = rows_of(ledger, bank);
        Setting { world, bank, rows }
    }

    /// A bank whose rows do not matter.
    pub fn without_rows(world: &'a World, bank: usize) -> Self {
        let rows = Vec::new();
        Setting { world, bank, rows }
    }
}

/// A record as its fields; edits may leave more or fewer than 39.
#[derive(Clone)]
pub struct Record(pub Vec<Vec<u8>>);

impl Record {
    pub fn parse(bytes: &[u8]) -> Self {
        Record(
            bytes
                .split(|&byte| byte == b';')
                .map(<[u8]>::to_vec)
                .collect(),
        )
    }

    pub fn to_bytes(&self) -> Vec<u8> {
        self.0.join(&b';')
    }

    pub fn get(&self, n: usize) -> &[u8] {
        self.0.get(n - 1).map_or(b"", Vec::as_slice)
    }

    pub fn set(&mut self, n: usize, value: impl Into<Vec<u8>>) {
        if let Some(field) = self.0.get_mut(n - 1) {
            *field = value.into();
        }
    }
}

fn one_of(rng: &mut Rng, values: &[&[u8]]) -> Vec<u8> {
    rng.pick(values).to_vec()
}

/// An identification of one of the kinds B, S, N and I.
fn identification(rng: &mut Rng, kind: &[u8]) -> Vec<u8> {
    match kind {
        b"B" => bank_code(rng),
        b"S" => address(rng),
        b"N" => name(rng, &[1, 4, 7, 8]),
        _ => {
            let length = *rng.pick(&[1, 4, 15, 16]);
            free_text(rng, length)
        }
    }
}

/// A record that no check fails on in a compartment with room.
pub fn valid(rng: &mut Rng, setting: &Setting) -> Record {
    let bank = &setting.world.banks[setting.bank];
    let money = |rng: &mut Rng| rng.pick(&setting.world.codes).clone();
    let mut record = Record(vec![Vec::new(); FIELDS]);

    if rng.chance(60) {
        record.set(1, "B");
        record.set(2, bank.code.as_slice());
    } else {
        record.set(1, "S");
        record.set(2, one_of(rng, &[bank.short_address(), &bank.address]));
    }

    if rng.chance(25) {
        record.set(28, "E");
        record.set(18, "J");
        if rng.chance(50) {
            record.set(3, "B");
            record.set(4, bank.code.as_slice());
        } else {
            record.set(3, "S");
            record.set(4, one_of(rng, &[bank.short_address(), &bank.address]));
        }
    } else {
        record.set(28, "K");
        record.set(18, one_of(rng, &[b"J", b"N"]));
        let kind = one_of(rng, &[b"B", b"S", b"N", b"I"]);
        record.set(4, identification(rng, &kind));
        record.set(3, kind);
    }
    if rng.chance(60) {
        let kind = one_of(rng, &[b"B", b"S", b"N"]);
        let mut value = identification(rng, &kind);
        if kind == b"N" && value[0] == b'W' {
            value[0] = b'V';
        }
        // Not the client itself, which place 17 would tell.
        if (kind.as_slice(), value.as_slice()) != (record.get(3), record.get(4)) {
            record.set(5, kind);
            record.set(6, value);
        }
    }

    record.set(7, one_of(rng, &[b"B", b"S"]));
    record.set(8, date(rng));
    record.set(9, time(rng, true));
    record.set(15, one_of(rng, &[b"J", b"N"]));
    let kind = one_of(rng, &[b"S", b"E", b"O", b"A", b"R", b"I"]);
    if record.get(15) == b"J" || kind == b"A" || kind == b"R" {
        record.set(14, name(rng, &[4]));
    }
    let instrument = match kind.as_slice() {
        b"S" => isin(rng),
        b"R" => name(rng, &[1, 3, 4]),
        b"E" => name(rng, &[1, 12, 19, 20]),
        _ => name(rng, &[1, 12, 14, 15]),
    };
    record.set(20, instrument);

    if rng.chance(30) {
        record.set(21, money(rng));
        record.set(23, one_of(rng, &[b"2", b"3"]));
    } else {
        let special = one_of(rng, &SPECIALS);
        record.set(23, one_of(rng, &[b"1", b"4"]));
        record.set(24, money(rng));
        match special.as_slice() {
            b"XXK" => {
                record.set(29, one_of(rng, &[b"C", b"P", b"F"]));
                record.set(30, decimal(rng, 10, 6));
            }
            b"XXO" => record.set(29, one_of(rng, &[b"C", b"P"])),
            _ => {}
        }
        if matches!(record.get(29), b"C" | b"P") {
            record.set(32, decimal(rng, 10, 6));
        }
        if special != b"XXX" {
            record.set(33, underlying(rng, &kind));
        }
        record.set(21, special);
    }
    record.set(19, kind);
    record.set(22, positive_decimal(rng, 15, 4));
    record.set(25, decimal(rng, 7, 4));

    let live: Vec<_> = setting
        .rows
        .iter()
        .filter(|(state, _)| *state == 1)
        .collect();
    if rng.chance(30) && !live.is_empty() {
        record.set(16, rng.pick(&live).1.as_slice());
    }
    record.set(38, one_of(rng, &[b"J", b"N"]));
    record.set(39, number(rng, setting));
    for n in UNJUDGED {
        if rng.chance(5) {
            let length = rng.within(1..=12);
            record.set(n, free_text(rng, length));
        }
    }
    record
}

/// A number that no row of the compartment has.
fn number(rng: &mut Rng, setting: &Setting) -> Vec<u8> {
    loop {
        let number = name(rng, &[1, 2, 3, 3, 8, 15, 16]);
        if setting.rows.iter().all(|(_, taken)| *taken != number) {
            return number;
        }
    }
}

/// An identification at the edges of its kind.
fn near_identification(rng: &mut Rng, kind: &[u8]) -> Vec<u8> {
    match kind {
        b"B" => {
            let length = rng.within(4..=6);
            rng.text(DIGITS, length)
        }
        b"S" => {
            let mut value = rng.text(CAPITALS, 6);
            value.extend(name(rng, &[1, 2, 2, 3, 4, 5, 5, 6]));
            value
        }
        b"N" => {
            let mut value = name(rng, &[1, 7, 8, 9]);
            value[0] = *rng.pick(b"VWX0");
            value
        }
        _ => {
            let length = rng.within(15..=18);
            free_text(rng, length)
        }
    }
}

/// A valid underlying for an instrument of this kind.
fn underlying(rng: &mut Rng, instrument: &[u8]) -> Vec<u8> {
    let kind = match instrument {
        b"E" => *rng.pick(b"SE"),
        b"O" => *rng.pick(b"SO"),
        _ => *rng.pick(b"SEOAT"),
    };
    let rest = match kind {
        b'S' => isin(rng),
        b'T' => one_of(rng, &UNDERLYING_WORDS),
        _ => {
            let length = *rng.pick(&[1, 12, 39, 40]);
            free_text(rng, length)
        }
    };
    [vec![kind], rest].concat()
}

/// Changes one thing of a record: mostly one field, sometimes the number of fields.
pub fn edit(rng: &mut Rng, setting: &Setting, record: &mut Record) {
    if rng.chance(3) || record.0.len() != FIELDS {
        edit_count(rng, record);
        return;
    }
    let n = match rng.below(20) {
        0 => *rng.pick(&UNJUDGED),
        1..=6 => *rng.pick(&[1, 2, 4, 6, 16, 19, 20, 21, 28, 29, 33, 39]),
        _ => loop {
            let n = rng.within(1..=FIELDS);
            if !UNJUDGED.contains(&n) {
                break n;
            }
        },
    };
    let value = match rng.below(10) {
        0 => Vec::new(),
        1..=3 => near(rng, record.get(n)),
        4 => {
            let other = rng.within(1..=FIELDS);
            record.get(other).to_vec()
        }
        _ => value(rng, setting, record, n),
    };
    record.set(n, value);
}

/// One semicolon more or less.
fn edit_count(rng: &mut Rng, record: &mut Record) {
    let at = rng.below(record.0.len());
    if record.0.len() > FIELDS || record.0.len() == FIELDS && rng.chance(50) {
        let taken = record.0.remove(at);
        if rng.chance(50) {
            // Only the semicolon goes.
            let next = at.min(record.0.len() - 1);
            record.0[next].extend(taken);
        }
    } else {
        record.0.insert(at, Vec::new());
    }
}

/// A value for field `n` in or around its rules.
fn value(rng: &mut Rng, setting: &Setting, record: &Record, n: usize) -> Vec<u8> {
    let world = setting.world;
    let bank = &world.banks[setting.bank];
    let other = rng.pick(&world.banks);
    match n {
        1 => one_of(rng, &[b"B", b"S", b"N", b"I", b"b", b"BB", b"BS", b" "]),
        2 => {
            let candidates: [&[u8]; 9] = [
                &bank.code,
                &bank.address,
                bank.short_address(),
                &bank.address[..8],
                &bank.address[..10],
                &other.code,
                &other.address,
                other.short_address(),
                &bank.code[..4],
            ];
            let mut value = one_of(rng, &candidates);
            if rng.chance(20) {
                value = near(rng, &value);
            }
            value
        }
        3 | 5 => one_of(
            rng,
            &[
                b"B", b"S", b"N", b"I", b"B", b"S", b"N", b"Q", b"b", b"SS", b"E", b" ",
            ],
        ),
        4 | 6 => {
            let same = record.get(10 - n);
            match rng.below(20) {
                0 => bank.code.clone(),
                1 => bank.address.clone(),
                2 => bank.short_address().to_vec(),
                3 => bank_code(rng),
                4 => address(rng),
                5 => name(rng, &[1, 7, 8, 9]),
                6 => [b"W".to_vec(), name(rng, &[0, 3, 7])].concat(),
                7 => name(rng, &[15, 16, 17, 20]),
                8 => rng.text(DIGITS, 6),
                9 => other.address.clone(),
                10 => same.to_vec(),
                11 => [same, b"XXX"].concat(),
                12 => same.strip_suffix(b"XXX").unwrap_or(same).to_vec(),
                13 => {
                    let value = address(rng);
                    near(rng, &value)
                }
                _ => near_identification(rng, record.get(n - 1)),
            }
        }
        7 => one_of(rng, &[b"B", b"S", b"b", b"K", b"V", b"BS", b" "]),
        8 => match rng.below(5) {
            0 => date(rng),
            1 => {
                let value = date(rng);
                near(rng, &value)
            }
            _ => near_date(rng),
        },
        9 => match rng.below(5) {
            0 => time(rng, true),
            1 => time(rng, false),
            _ => near_time(rng, true),
        },
        14 => {
            let value = name(rng, &[3, 4, 4, 4, 5]);
            if rng.chance(30) {
                near(rng, &value)
            } else {
                value
            }
        }
        15 | 18 | 38 => one_of(rng, &[b"J", b"N", b"J", b"N", b"j", b"Y", b"JN", b" "]),
        16 | 39 => match rng.below(6) {
            0 | 1 if !setting.rows.is_empty() => rng.pick(&setting.rows).1.clone(),
            2 if !setting.rows.is_empty() => {
                let taken = &rng.pick(&setting.rows).1;
                [
                    taken.as_slice(),
                    one_of(rng, &[b"\0", b"A", b" ", b"0"]).as_slice(),
                ]
                .concat()
            }
            3 if !setting.rows.is_empty() => {
                let value = rng.pick(&setting.rows).1.clone();
                near(rng, &value)
            }
            4 => record.get(55 - n).to_vec(),
            _ => name(rng, &[1, 2, 15, 16, 17, 18]),
        },
        19 => one_of(
            rng,
            &[b"S", b"E", b"O", b"A", b"R", b"I", b"T", b"s", b"SE", b" "],
        ),
        20 => match rng.below(6) {
            0 => isin(rng),
            1 => isin_form(rng),
            2 => {
                let value = isin(rng);
                near(rng, &value)
            }
            3 => rng.text(CAPITALS, 12),
            _ => {
                let length = *rng.pick(&[1, 4, 5, 11, 13, 14, 15, 16, 19, 20, 21, 30]);
                free_text(rng, length)
            }
        },
        21 | 24 => match rng.below(8) {
            0..=2 => rng.pick(&world.codes).clone(),
            3..=5 => one_of(rng, &SPECIALS),
            6 => {
                let value = rng.pick(&world.codes).clone();
                near(rng, &value)
            }
            _ => rng.text(CAPITALS, 3),
        },
        22 => near_decimal(rng, 15, 4),
        23 => one_of(
            rng,
            &[b"1", b"2", b"3", b"4", b"0", b"5", b"01", b"11", b" "],
        ),
        25 => near_decimal(rng, 7, 4),
        28 => one_of(rng, &[b"E", b"K", b"E", b"K", b"e", b"EK", b"D", b" "]),
        29 => one_of(rng, &[b"C", b"P", b"F", b"c", b"CP", b"X", b" "]),
        30 | 32 => near_decimal(rng, 10, 6),
        33 => match rng.below(8) {
            0 => [b"S".to_vec(), isin(rng)].concat(),
            1 => [b"S".to_vec(), isin_form(rng)].concat(),
            2 => [b"T".to_vec(), one_of(rng, &UNDERLYING_WORDS)].concat(),
            3 => {
                let word = one_of(rng, &UNDERLYING_WORDS);
                [b"T".to_vec(), near(rng, &word)].concat()
            }
            4 => rng.text(b"SEOATXI ", 1),
            _ => {
                let length = *rng.pick(&[1, 3, 12, 39, 40, 41]);
                [rng.text(b"SEOATXI1", 1), free_text(rng, length)].concat()
            }
        },
        _ => {
            let length = rng.within(0..=20);
            free_text(rng, length)
        }
    }
}
