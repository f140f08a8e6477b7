//! One call made of both sides, on equal bytes, with every lent byte compared afterwards.

use roselhanda::raw;
use roselhanda::ANSWER_SIZE;

use crate::world::World;

/// Arguments of a single-record call, or of judging alone; `room` is the length of its answer
/// buffer.
#[derive(Clone, Copy)]
pub struct RecordCall<'a> {
    pub reporters: &'a [u8],
    pub currencies: &'a [u8],
    pub ledger: &'a [u8],
    pub sender: &'a [u8],
    pub record: &'a [u8],
    pub room: usize,
}

/// Arguments of a booking: those of a single-record call, and any bytes as the earlier answer.
#[derive(Clone, Copy)]
pub struct BookCall<'a> {
    pub call: RecordCall<'a>,
    pub earlier: &'a [u8],
}

impl<'a> RecordCall<'a> {
    /// A call under the tables of a world, with room for one answer.
    pub fn new(world: &'a World, ledger: &'a [u8], sender: &'a [u8], record: &'a [u8]) -> Self {
        RecordCall {
            reporters: &world.reporters,
            currencies: &world.currencies,
            ledger,
            sender,
            record,
            room: ANSWER_SIZE,
        }
    }

    /// The same record booked with an earlier answer.
    pub fn booking(self, earlier: &'a [u8]) -> BookCall<'a> {
        BookCall {
            call: self,
            earlier,
        }
    }
}

/// Arguments of a whole-file call; `room` is the length of its answer buffer.
#[derive(Clone, Copy)]
pub struct FileCall<'a> {
    pub file: &'a [u8],
    pub reporters: &'a [u8],
    pub currencies: &'a [u8],
    pub ledger: &'a [u8],
    pub room: usize,
}

/// Arguments of an error-file call; `room` is the length of its buffer.
#[derive(Clone, Copy)]
pub struct ErrorCall<'a> {
    pub report: &'a [u8],
    pub answers: &'a [u8],
    pub member: &'a [u8],
    pub ours: &'a [u8],
    pub date: &'a [u8],
    pub time: &'a [u8],
    pub room: usize,
}

/// What a call came to: its count of records, 1 for a single call, the length of an error file, or
/// the number of its refusal.
pub type Outcome = Result<u64, u64>;

/// What the proved side left behind.
#[derive(Clone, PartialEq, Eq)]
pub struct Left {
    pub outcome: Outcome,
    /// Empty where the call writes none.
    pub ledger: Vec<u8>,
    /// What it wrote to its buffer: answers, or an error file.
    pub written: Vec<u8>,
}

impl Default for Left {
    fn default() -> Self {
        Left {
            outcome: Ok(0),
            ledger: Vec::new(),
            written: Vec::new(),
        }
    }
}

const GUARD: usize = 48;
/// What stands in a lent word, and on both sides of it, before a call.
const WORD: u64 = 0x0b30_557a_9fc4_e90e;

/// The byte that stands at a place of a buffer before a call.
fn pattern(at: usize) -> u8 {
    (at * 37 + 11) as u8
}

/// A buffer with guarding bytes on both sides.
#[derive(Default)]
struct Lent(Vec<u8>);

impl Lent {
    fn hold(&mut self, content: &[u8]) {
        self.0.clear();
        self.0.extend((0..GUARD).map(pattern));
        self.0.extend_from_slice(content);
        self.0.extend((0..GUARD).map(pattern));
    }

    fn hold_pattern(&mut self, length: usize) {
        self.0.clear();
        self.0.extend((0..GUARD).map(pattern));
        self.0.extend((0..length).map(pattern));
        self.0.extend((0..GUARD).map(pattern));
    }

    fn bytes(&self) -> &[u8] {
        &self.0[GUARD..self.0.len() - GUARD]
    }

    fn bytes_mut(&mut self) -> &mut [u8] {
        let end = self.0.len() - GUARD;
        &mut self.0[GUARD..end]
    }

    fn is_guarded(&self) -> bool {
        let end = self.0.len() - GUARD;
        let as_before = |guard: &[u8]| guard.iter().enumerate().all(|(at, &b)| b == pattern(at));
        as_before(&self.0[..GUARD]) && as_before(&self.0[end..])
    }
}

/// The buffers of both sides, kept from call to call. A call that has fewer inputs, or no ledger,
/// is lent nothing for them.
#[derive(Default)]
pub struct Sides {
    inputs: [Lent; 6],
    ledgers: [Lent; 2],
    outs: [Lent; 2],
    pub left: Left,
}

impl Sides {
    fn hold(&mut self, inputs: [&[u8]; 6], ledger: &[u8], room: usize) {
        for (lent, bytes) in self.inputs.iter_mut().zip(inputs) {
            lent.hold(bytes);
        }
        for lent in &mut self.ledgers {
            lent.hold(ledger);
        }
        for lent in &mut self.outs {
            lent.hold_pattern(room);
        }
    }

    /// Makes the call of both sides; the proved side's outcome is left in `left`.
    pub fn record(&mut self, call: &RecordCall) -> Result<(), String> {
        let inputs = [
            call.reporters,
            call.currencies,
            call.sender,
            call.record,
            &[],
            &[],
        ];
        self.hold(inputs, call.ledger, call.room);
        let [proved_ledger, twin_ledger] = &mut self.ledgers;
        let [proved_answer, twin_answer] = &mut self.outs;
        let [reporters, currencies, sender, record, ..] = &self.inputs;
        let reply = raw::record(
            reporters.bytes(),
            currencies.bytes(),
            proved_ledger.bytes_mut(),
            sender.bytes(),
            record.bytes(),
            proved_answer.bytes_mut(),
        );
        let twin = twin::book_record(
            call.reporters,
            call.currencies,
            twin_ledger.bytes_mut(),
            call.sender,
            call.record,
            twin_answer.bytes_mut(),
        );
        self.compare_single(inputs, call.ledger, reply, twin)
    }

    /// Makes the call of both sides; the proved side's outcome is left in `left`. The ledger is an
    /// input, and has to stay as it is.
    pub fn judge(&mut self, call: &RecordCall) -> Result<(), String> {
        let inputs = [
            call.reporters,
            call.currencies,
            call.sender,
            call.record,
            call.ledger,
            &[],
        ];
        self.hold(inputs, &[], call.room);
        let [proved_answer, twin_answer] = &mut self.outs;
        let [reporters, currencies, sender, record, ledger, _] = &self.inputs;
        let reply = raw::judge(
            reporters.bytes(),
            currencies.bytes(),
            ledger.bytes(),
            sender.bytes(),
            record.bytes(),
            proved_answer.bytes_mut(),
        );
        let twin = twin::judge_record(
            call.reporters,
            call.currencies,
            call.ledger,
            call.sender,
            call.record,
            twin_answer.bytes_mut(),
        );
        self.compare_single(inputs, &[], reply, twin)
    }

    /// Makes the call of both sides; the proved side's outcome is left in `left`.
    pub fn book(&mut self, BookCall { call, earlier }: &BookCall) -> Result<(), String> {
        let inputs = [
            call.reporters,
            call.currencies,
            call.sender,
            call.record,
            earlier,
            &[],
        ];
        self.hold(inputs, call.ledger, call.room);
        let [proved_ledger, twin_ledger] = &mut self.ledgers;
        let [proved_answer, twin_answer] = &mut self.outs;
        let [reporters, currencies, sender, record, lent_earlier, _] = &self.inputs;
        let reply = raw::book(
            reporters.bytes(),
            currencies.bytes(),
            proved_ledger.bytes_mut(),
            sender.bytes(),
            record.bytes(),
            lent_earlier.bytes(),
            proved_answer.bytes_mut(),
        );
        let twin = twin::book_judged(
            call.reporters,
            call.currencies,
            twin_ledger.bytes_mut(),
            call.sender,
            call.record,
            earlier,
            twin_answer.bytes_mut(),
        );
        self.compare_single(inputs, call.ledger, reply, twin)
    }

    /// Makes the call of both sides; the proved side's outcome is left in `left`.
    pub fn file(&mut self, call: &FileCall) -> Result<(), String> {
        let inputs = [call.reporters, call.currencies, call.file, &[], &[], &[]];
        self.hold(inputs, call.ledger, call.room);
        let [proved_ledger, twin_ledger] = &mut self.ledgers;
        let [proved_answers, twin_answers] = &mut self.outs;
        let [reporters, currencies, file, ..] = &self.inputs;
        let mut words = [WORD; 3];
        let reply = raw::file(
            file.bytes(),
            reporters.bytes(),
            currencies.bytes(),
            proved_ledger.bytes_mut(),
            proved_answers.bytes_mut(),
            &mut words[1],
        );
        let twin = twin::book_file(
            call.file,
            call.reporters,
            call.currencies,
            twin_ledger.bytes_mut(),
            twin_answers.bytes_mut(),
        );
        let proved = told(reply, words);
        let twin = twin
            .map(|count| count as u64)
            .map_err(twin::Refusal::number);
        self.compare(inputs, call.ledger, proved, twin, ANSWER_SIZE)?;
        words_kept(reply, words)
    }

    /// Makes the call of both sides; the proved side's outcome is left in `left`.
    pub fn error_file(&mut self, call: &ErrorCall) -> Result<(), String> {
        let inputs = [
            call.report,
            call.answers,
            call.member,
            call.ours,
            call.date,
            call.time,
        ];
        self.hold(inputs, &[], call.room);
        let [proved_out, twin_out] = &mut self.outs;
        let [report, answers, member, ours, date, time] = &self.inputs;
        let mut words = [WORD; 3];
        let reply = raw::error_file(
            report.bytes(),
            answers.bytes(),
            member.bytes(),
            ours.bytes(),
            date.bytes(),
            time.bytes(),
            proved_out.bytes_mut(),
            &mut words[1],
        );
        let twin = twin::error_file(
            call.report,
            call.answers,
            call.member,
            call.ours,
            call.date,
            call.time,
            twin_out.bytes_mut(),
        );
        let proved = told(reply, words);
        let twin = twin
            .map(|length| length as u64)
            .map_err(twin::Refusal::number);
        self.compare(inputs, &[], proved, twin, 1)?;
        words_kept(reply, words)
    }

    /// Compares what both sides did with one record.
    fn compare_single(
        &mut self,
        inputs: [&[u8]; 6],
        ledger: &[u8],
        reply: u64,
        twin: Result<(), twin::Refusal>,
    ) -> Result<(), String> {
        let proved = if reply == 0 { Ok(1) } else { Err(reply) };
        let twin = twin.map(|()| 1).map_err(twin::Refusal::number);
        self.compare(inputs, ledger, proved, twin, ANSWER_SIZE)
    }

    /// Compares what both sides did; an accepted call has written so many bytes for each that its
    /// outcome counts.
    fn compare(
        &mut self,
        inputs: [&[u8]; 6],
        ledger: &[u8],
        proved: Outcome,
        twin: Outcome,
        each: usize,
    ) -> Result<(), String> {
        let [proved_ledger, twin_ledger] = &self.ledgers;
        let [proved_out, twin_out] = &self.outs;
        let out = proved_out.bytes();
        // A refused call has written nothing.
        let written = proved.map_or(0, |count| each.saturating_mul(count as usize));
        let kept = written.min(out.len());

        self.left.outcome = proved;
        self.left.ledger.clear();
        self.left.ledger.extend_from_slice(proved_ledger.bytes());
        self.left.written.clear();
        self.left.written.extend_from_slice(&out[..kept]);

        let mut wrong = Vec::new();
        if proved != twin {
            wrong.push(format!("outcomes {proved:?} and {twin:?} (proved, twin)"));
        }
        if out != twin_out.bytes() {
            wrong.push(format!(
                "wrote \"{}\" and \"{}\"",
                out[..kept].escape_ascii(),
                twin_out.bytes()[..kept].escape_ascii()
            ));
        }
        if proved_ledger.bytes() != twin_ledger.bytes() {
            let mut pairs = proved_ledger.bytes().iter().zip(twin_ledger.bytes());
            let at = pairs.position(|(one, other)| one != other);
            wrong.push(format!("ledgers differ from byte {at:?} on"));
        }
        if proved.is_err() && proved_ledger.bytes() != ledger {
            wrong.push("a refused call changed the ledger".to_string());
        }
        let untouched = out.iter().enumerate().skip(kept);
        if untouched.clone().any(|(at, &byte)| byte != pattern(at)) {
            wrong.push("the rest of the buffer was changed".to_string());
        }
        if written > out.len() {
            wrong.push("accepted without room for what is written".to_string());
        }
        let lent = self.inputs.iter().chain([proved_ledger, proved_out]);
        if !lent.clone().all(Lent::is_guarded) {
            wrong.push("bytes outside of a lent buffer were changed".to_string());
        }
        if self
            .inputs
            .iter()
            .zip(inputs)
            .any(|(lent, bytes)| lent.bytes() != bytes)
        {
            wrong.push("an input was changed".to_string());
        }
        if wrong.is_empty() {
            Ok(())
        } else {
            Err(wrong.join("; "))
        }
    }
}

/// What a call came to that tells a number in a lent word, the middle one of three.
fn told(reply: u64, words: [u64; 3]) -> Outcome {
    if reply == 0 {
        Ok(words[1])
    } else {
        Err(reply)
    }
}

/// Whether a call left the words beside the lent one, and a refused call that one too.
fn words_kept(reply: u64, [before, lent, after]: [u64; 3]) -> Result<(), String> {
    if (before, after) != (WORD, WORD) {
        return Err("words beside the lent one were changed".to_string());
    }
    if reply != 0 && lent != WORD {
        return Err("a refused call wrote its lent word".to_string());
    }
    Ok(())
}
