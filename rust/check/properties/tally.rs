//! Counting: cases in groups, hits of places, refusals, what error files show, what sums end in,
//! where zero was seen and what judging and booking apart came to, and the verdict.

use std::fmt::Display;
use std::time::Instant;

use roselhanda::raw;
use roselhanda::{code_of, ANSWER_SIZE};

use crate::compare::{BookCall, ErrorCall, FileCall, Left, Outcome, RecordCall, Sides};
use crate::judging::{Apart, APART};
use crate::read_back::{ReadBack, SIGHTS};
use crate::values::digit_sum;

/// Cases of one group.
const GROUP: u64 = 1_000;
/// Each place, refusal, last digit and sight has to be hit at least so often.
const FEWEST_HITS: u64 = 100;
/// Failed cases that are shown in full.
const SHOWN: u64 = 10;

/// The calls that are counted.
#[derive(Clone, Copy)]
enum Kind {
    Record,
    File,
    ErrorFile,
    Judge,
    Book,
}

const KINDS: [Kind; 5] = [
    Kind::Record,
    Kind::File,
    Kind::ErrorFile,
    Kind::Judge,
    Kind::Book,
];

impl Kind {
    /// The refusals that the call can give.
    fn refusals(self) -> &'static [usize] {
        match self {
            Kind::Record | Kind::Judge => &[2, 3, 4, 12, 13, 14],
            Kind::Book => &[2, 3, 4, 12, 13, 14, 29],
            Kind::File => &[1, 2, 3, 4, 5, 6, 7, 8, 9, 10, 11, 12],
            Kind::ErrorFile => &[1, 5, 6, 7, 8, 9, 10, 11, 15, 16, 17, 18, 19],
        }
    }
}

/// One more than the last refusal.
const NUMBERS: usize = 30;

/// Where zero was seen, and came to what document 02, Item 4, says of it.
#[derive(Clone, Copy)]
pub enum Zero {
    Quantity,
    Price,
    Size,
    Strike,
    Stored,
}

const ZEROS: [&str; 5] = [
    "as quantity, which fails at 34",
    "as price, which is booked",
    "as contract size, which is booked",
    "as strike price, which is booked",
    "as quantity of a row, which is cancelled",
];

/// How often a place was seen.
#[derive(Clone, Copy, Default)]
struct PlaceHits {
    failed: u64,
    /// Judged, and held.
    held: u64,
    /// Judged and held one edit away from a case where it failed.
    beside: u64,
    /// Its code was told in an error file.
    told: u64,
    /// Its bit was put into an earlier answer, and that came to what it has to.
    put: u64,
    /// Its bit was taken out of an earlier answer, and that came to what it has to.
    taken: u64,
}

#[derive(Default)]
struct Section {
    name: &'static str,
    started: Option<Instant>,
    cases: u64,
    failed: u64,
    group_failed: bool,
}

/// The state of a whole test run.
pub struct Check {
    sides: Sides,
    section: Section,
    passed: u64,
    failed: u64,
    cases: u64,
    shown: u64,
    places: [PlaceHits; 64],
    /// Of each kind of call, by number.
    refusals: [[u64; NUMBERS]; KINDS.len()],
    sights: [u64; SIGHTS.len()],
    /// By the last digit of a sum.
    sums: [u64; 10],
    zeros: [u64; ZEROS.len()],
    apart: [u64; APART.len()],
}

/// Whether a place was judged in an answer with this set of failures.
fn is_judged(place: u32, set: u64) -> bool {
    let below = |first: u32| set & ((1 << first) - 1) == 0;
    match place {
        0 => true,
        1..=6 => below(1),
        7..=60 => below(7),
        _ => below(61),
    }
}

fn shown(bytes: &[u8]) -> String {
    const LONGEST: usize = 2_000;
    let text = bytes[..bytes.len().min(LONGEST)].escape_ascii();
    let more = if bytes.len() > LONGEST { ".." } else { "" };
    format!("\"{text}{more}\" ({} bytes)", bytes.len())
}

impl Check {
    pub fn new() -> Self {
        Check {
            sides: Sides::default(),
            section: Section::default(),
            passed: 0,
            failed: 0,
            cases: 0,
            shown: 0,
            places: [PlaceHits::default(); 64],
            refusals: [[0; NUMBERS]; KINDS.len()],
            sights: [0; SIGHTS.len()],
            sums: [0; 10],
            zeros: [0; ZEROS.len()],
            apart: [0; APART.len()],
        }
    }

    /// Begins a section; the one before it is closed.
    pub fn section(&mut self, name: &'static str) {
        self.close_section();
        self.section = Section {
            name,
            started: Some(Instant::now()),
            ..Section::default()
        };
    }

    fn close_section(&mut self) {
        if !self.section.cases.is_multiple_of(GROUP) {
            self.close_group();
        }
        if let Some(started) = self.section.started {
            println!(
                "{:<47} {:>7} cases {:>6} failed {:>7.2} s",
                self.section.name,
                self.section.cases,
                self.section.failed,
                started.elapsed().as_secs_f64()
            );
        }
    }

    fn close_group(&mut self) {
        self.count(!self.section.group_failed);
        self.section.group_failed = false;
    }

    /// Counts a case with its verdict; `describe` is asked where it failed.
    pub fn case(&mut self, ok: bool, describe: impl FnOnce() -> String) {
        if !ok {
            self.section.group_failed = true;
            self.section.failed += 1;
            self.shown += 1;
            if self.shown <= SHOWN {
                println!("FAILED in {}: {}", self.section.name, describe());
            }
        }
        self.cases += 1;
        self.section.cases += 1;
        if self.section.cases.is_multiple_of(GROUP) {
            self.close_group();
        }
    }

    /// One case: a single-record call of both sides. Gives what the proved side left.
    pub fn record(&mut self, call: &RecordCall) -> &Left {
        self.record_expecting(call, None, "")
    }

    /// One case: a single-record call of both sides, with the outcome that the case was made for.
    pub fn record_expecting(
        &mut self,
        call: &RecordCall,
        due: Option<Outcome>,
        label: &str,
    ) -> &Left {
        let verdict = self.sides.record(call);
        self.made(Kind::Record, verdict, due, || shown_call(label, call))
    }

    /// One case: judging alone of both sides. Gives what the proved side left.
    pub fn judge(&mut self, call: &RecordCall) -> &Left {
        self.judge_expecting(call, None, "")
    }

    /// One case: judging alone of both sides, with the outcome that the case was made for.
    pub fn judge_expecting(
        &mut self,
        call: &RecordCall,
        due: Option<Outcome>,
        label: &str,
    ) -> &Left {
        let verdict = self.sides.judge(call);
        self.made(Kind::Judge, verdict, due, || shown_call(label, call))
    }

    /// One case: a booking of both sides. Gives what the proved side left.
    pub fn book(&mut self, call: &BookCall) -> &Left {
        self.book_expecting(call, None, "")
    }

    /// One case: a booking of both sides, with the outcome that the case was made for.
    pub fn book_expecting(&mut self, call: &BookCall, due: Option<Outcome>, label: &str) -> &Left {
        let verdict = self.sides.book(call);
        self.made(Kind::Book, verdict, due, || {
            format!(
                "{}\n  earlier answer {:02x?}",
                shown_call(label, &call.call),
                call.earlier
            )
        })
    }

    /// One case: a whole-file call of both sides. Gives what the proved side left.
    pub fn file(&mut self, call: &FileCall) -> &Left {
        self.file_expecting(call, None, "")
    }

    /// One case: a whole-file call of both sides, with the outcome that the case was made for.
    pub fn file_expecting(&mut self, call: &FileCall, due: Option<Outcome>, label: &str) -> &Left {
        let verdict = self.sides.file(call);
        self.made(Kind::File, verdict, due, || {
            format!(
                "{label}\n  file {}\n  reporters {}\n  currencies {}\n  room {}\n  ledger {}",
                shown(call.file),
                shown(call.reporters),
                shown(call.currencies),
                call.room,
                shown_ledger(call.ledger),
            )
        })
    }

    /// One case: an error-file call of both sides, what it wrote read back. Gives what the proved
    /// side left.
    pub fn error_file(&mut self, call: &ErrorCall) -> &Left {
        self.error_file_expecting(call, None, "")
    }

    /// One case: an error-file call of both sides, with the outcome that the case was made for.
    pub fn error_file_expecting(
        &mut self,
        call: &ErrorCall,
        due: Option<Outcome>,
        label: &str,
    ) -> &Left {
        let mut verdict = self.sides.error_file(call);
        if self.sides.left.outcome.is_ok() {
            match ReadBack::read(call, &self.sides.left.written) {
                Ok(file) => self.saw(&file),
                Err(problem) => verdict = verdict.and(Err(problem)),
            }
        }
        self.made(Kind::ErrorFile, verdict, due, || {
            format!(
                "{label}\n  report {}\n  answers {}\n  member {}\n  ours {}\n  date {}\n  time {}\n  room {}",
                shown(call.report),
                shown(call.answers),
                shown(call.member),
                shown(call.ours),
                shown(call.date),
                shown(call.time),
                call.room,
            )
        })
    }

    /// One case: the sum over a text, held to the list of its digits and, if it is one of capitals
    /// and digits, to the twin. Gives the sum of the proved side.
    pub fn sum(&mut self, text: &[u8]) -> u64 {
        let sum = raw::isin_sum(text);
        let due = digit_sum(text) % 10;
        let is_usual = text.iter().all(twin::forms::is_capital_or_digit);
        let twin = if is_usual { twin::isin_sum(text) } else { due };
        if let Some(hits) = self.sums.get_mut(sum as usize) {
            *hits += 1;
        }
        self.case(sum == due && sum == twin, || {
            format!(
                "{sum}, {due} by its digits, {twin} of the twin: {}",
                shown(text)
            )
        });
        sum
    }

    /// Counts a zero.
    pub fn zero(&mut self, seen: Zero) {
        self.zeros[seen as usize] += 1;
    }

    /// Counts what judging and booking apart came to.
    pub fn apart(&mut self, seen: Apart) {
        self.apart[seen as usize] += 1;
    }

    /// Counts a place whose bit was turned in an earlier answer with this set.
    pub fn turned(&mut self, set: u64, place: usize) {
        let hits = &mut self.places[place];
        if set >> place & 1 == 1 {
            hits.taken += 1;
        } else {
            hits.put += 1;
        }
    }

    /// The place of a set that was taken out of earlier answers least often, and not often enough.
    pub fn least_taken(&self, set: u64) -> Option<usize> {
        (0..64)
            .filter(|place| set >> place & 1 == 1)
            .filter(|&place| self.places[place].taken < 2 * FEWEST_HITS)
            .min_by_key(|&place| self.places[place].taken)
    }

    /// Counts what an error file shows.
    fn saw(&mut self, file: &ReadBack) {
        for (hits, (_, count)) in self.sights.iter_mut().zip(SIGHTS) {
            *hits += count(file);
        }
        for told in &file.told {
            let place = (0..).map_while(code_of).position(|code| code == told.code);
            if let Some(place) = place {
                self.places[place].told += 1;
            }
        }
    }

    /// Counts a call that was made of both sides, and what it hit.
    fn made(
        &mut self,
        kind: Kind,
        verdict: Result<(), String>,
        due: Option<Outcome>,
        describe: impl FnOnce() -> String,
    ) -> &Left {
        let outcome = self.sides.left.outcome;
        let verdict = verdict.and_then(|()| match due {
            Some(due) if due != outcome => Err(format!("{outcome:?} where {due:?} is due")),
            _ => Ok(()),
        });
        match (outcome, kind) {
            (Ok(_), Kind::Record | Kind::File | Kind::Judge | Kind::Book) => {
                count_answers(&mut self.places, &self.sides.left.written)
            }
            (Ok(_), Kind::ErrorFile) => {}
            (Err(number), _) => {
                if let Some(hits) = self.refusals[kind as usize].get_mut(number as usize) {
                    *hits += 1;
                }
            }
        }
        let problem = verdict.err();
        self.case(problem.is_none(), || {
            format!("{} in {}", problem.unwrap_or_default(), describe())
        });
        &self.sides.left
    }

    /// Counts the places that fail in only one of two answers one edit apart.
    pub fn beside(&mut self, one: u64, other: u64) {
        for place in 0..64 {
            let differs = (one ^ other) >> place & 1 == 1;
            if differs && is_judged(place, one) && is_judged(place, other) {
                self.places[place as usize].beside += 1;
            }
        }
    }

    /// Prints the hits and gives the counts of what passed and failed.
    pub fn report(mut self) -> (u64, u64) {
        self.close_section();
        println!(
            "\n{} cases in all; each row below needs {FEWEST_HITS} hits",
            self.cases
        );
        println!("\nplace  code    failed      held    beside      told       put     taken");
        for place in 0..64 {
            let hits = self.places[usize::from(place)];
            let ok = [hits.failed, hits.beside, hits.told, hits.put, hits.taken]
                .iter()
                .all(|&hits| hits >= FEWEST_HITS);
            println!(
                "{place:>5}  {:04} {:>9} {:>9} {:>9} {:>9} {:>9} {:>9}{}",
                code_of(place).expect("a place"),
                hits.failed,
                hits.held,
                hits.beside,
                hits.told,
                hits.put,
                hits.taken,
                if ok { "" } else { "  TOO FEW" }
            );
            self.count(ok);
        }
        println!("\nrefusal    record      file     error     judge      book");
        let is_given = |number: &usize| KINDS.iter().any(|kind| kind.refusals().contains(number));
        for number in (1..NUMBERS).filter(is_given) {
            let mut ok = true;
            let columns = KINDS.map(|kind| {
                let hits = self.refusals[kind as usize][number];
                if kind.refusals().contains(&number) {
                    ok &= hits >= FEWEST_HITS;
                    hits.to_string()
                } else {
                    ok &= hits == 0;
                    "-".to_string()
                }
            });
            let [record, file, error, judge, book] = columns;
            println!(
                "{number:>7} {record:>9} {file:>9} {error:>9} {judge:>9} {book:>9}{}",
                if ok { "" } else { "  TOO FEW OR NONE DUE" }
            );
            self.count(ok);
        }
        let sights = SIGHTS.map(|(name, _)| name).into_iter().zip(self.sights);
        self.table("error files with", sights);
        let sums = self.sums.into_iter().enumerate();
        self.table("sums that end in", sums);
        let zeros = ZEROS.into_iter().zip(self.zeros);
        self.table("zero", zeros);
        let apart = APART.into_iter().zip(self.apart);
        self.table("judged, and booked", apart);
        println!();
        (self.passed, self.failed)
    }

    /// Prints a table of hits, and counts each row.
    fn table(&mut self, title: &str, rows: impl Iterator<Item = (impl Display, u64)>) {
        println!("\n{title:<43} {:>9}", "hits");
        for (name, hits) in rows {
            let ok = hits >= FEWEST_HITS;
            println!("{name:<43} {hits:>9}{}", if ok { "" } else { "  TOO FEW" });
            self.count(ok);
        }
    }

    /// Counts what passed or failed.
    fn count(&mut self, ok: bool) {
        if ok {
            self.passed += 1;
        } else {
            self.failed += 1;
        }
    }
}

fn count_answers(places: &mut [PlaceHits; 64], answers: &[u8]) {
    let (answers, _) = answers.as_chunks::<ANSWER_SIZE>();
    for answer in answers {
        let set = set_of(answer);
        for (place, hits) in (0..64).zip(places.iter_mut()) {
            if set >> place & 1 == 1 {
                hits.failed += 1;
            } else if is_judged(place, set) {
                hits.held += 1;
            }
        }
    }
}

/// The set of failed checks of an answer record.
pub fn set_of(answer: &[u8]) -> u64 {
    u64::from_le_bytes(*answer.first_chunk().expect("an answer has 16 bytes"))
}

fn shown_call(label: &str, call: &RecordCall) -> String {
    format!(
        "{label}\n  reporters {}\n  currencies {}\n  sender {}\n  record {}\n  room {}\n  ledger {}",
        shown(call.reporters),
        shown(call.currencies),
        shown(call.sender),
        shown(call.record),
        call.room,
        shown_ledger(call.ledger),
    )
}

fn shown_ledger(ledger: &[u8]) -> String {
    let filled: Vec<String> = ledger
        .chunks(32)
        .enumerate()
        .filter(|(_, row)| row.iter().any(|&byte| byte != 0))
        .take(140)
        .map(|(at, row)| format!("\n    {}/{} {:02x?}", at / 64, at % 64, row))
        .collect();
    format!("({} bytes){}", ledger.len(), filled.concat())
}
