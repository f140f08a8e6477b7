//! The calls of both sides, on the inputs of a row.

use std::hint::black_box;

use roselhanda::raw;

use crate::error_rows;
use crate::rows::{Function, Inputs, ANSWER_SIZE};
use crate::sum_rows;

#[derive(Clone, Copy, PartialEq, Eq)]
pub enum Side {
    Proved,
    Twin,
    /// No call at all.
    None,
}

/// What a call comes to: its count of records, 1 for a single call, the length of an error file, a
/// sum, or the number of its refusal.
pub type Outcome = Result<u64, u64>;

/// The inputs of a row with the buffers that its calls write.
pub trait Desk {
    /// Puts back what the next call reads as it was.
    fn restore(&mut self);

    /// The call of a side.
    fn call(&mut self, side: Side) -> Outcome;

    /// Both sides come to the same, all that they write too, and to what the row is made for.
    fn agrees(&mut self) -> bool;

    /// Bytes of the file that the call writes or of the text that it sums, if it does.
    fn bytes(&self) -> Option<usize>;
}

/// A single-record call, judging or booking alone, or a file call.
pub struct Booking {
    inputs: Inputs,
    ledger: Vec<u8>,
    answers: Vec<u8>,
}

impl Booking {
    pub fn new(inputs: Inputs) -> Self {
        Booking {
            ledger: inputs.ledger.clone(),
            answers: vec![0; ANSWER_SIZE * inputs.room],
            inputs,
        }
    }
}

impl Desk for Booking {
    fn restore(&mut self) {
        black_box(&mut self.ledger).copy_from_slice(&self.inputs.ledger);
    }

    fn call(&mut self, side: Side) -> Outcome {
        let Inputs {
            reporters,
            currencies,
            sender,
            text,
            earlier,
            function,
            ..
        } = &self.inputs;
        let (ledger, answers) = (&mut self.ledger, &mut self.answers);
        let mut count = 1;
        match side {
            Side::Proved => {
                let reply = match function {
                    Function::Record => {
                        raw::record(reporters, currencies, ledger, sender, text, answers)
                    }
                    Function::Judge => {
                        raw::judge(reporters, currencies, ledger, sender, text, answers)
                    }
                    Function::Book => raw::book(
                        reporters, currencies, ledger, sender, text, earlier, answers,
                    ),
                    Function::File => {
                        raw::file(text, reporters, currencies, ledger, answers, &mut count)
                    }
                };
                match reply {
                    0 => Ok(count),
                    number => Err(number),
                }
            }
            Side::Twin => {
                let called = match function {
                    Function::Record => {
                        twin::book_record(reporters, currencies, ledger, sender, text, answers)
                    }
                    Function::Judge => {
                        twin::judge_record(reporters, currencies, ledger, sender, text, answers)
                    }
                    Function::Book => twin::book_judged(
                        reporters, currencies, ledger, sender, text, earlier, answers,
                    ),
                    Function::File => twin::book_file(text, reporters, currencies, ledger, answers)
                        .map(|records| count = records as u64),
                };
                match called {
                    Ok(()) => Ok(count),
                    Err(refusal) => Err(refusal.number()),
                }
            }
            Side::None => Ok(0),
        }
    }

    fn agrees(&mut self) -> bool {
        let mut outcome = |side| {
            self.restore();
            self.answers.fill(0xa5);
            let outcome = self.call(side);
            (outcome, self.ledger.clone(), self.answers.clone())
        };
        let proved = outcome(Side::Proved);
        let same = proved == outcome(Side::Twin);
        let booked = proved
            .2
            .chunks(ANSWER_SIZE)
            .filter(|answer| answer[11] == 0);
        same && proved.0 == self.inputs.due && booked.count() == self.inputs.booked
    }

    fn bytes(&self) -> Option<usize> {
        None
    }
}

/// An error-file call; its buffer has the length of the file.
pub struct Errors {
    inputs: error_rows::Inputs,
    out: Vec<u8>,
}

impl Errors {
    pub fn new(inputs: error_rows::Inputs) -> Self {
        Errors {
            out: vec![0; inputs.due.len()],
            inputs,
        }
    }
}

impl Desk for Errors {
    fn restore(&mut self) {
        black_box(&mut self.out);
    }

    fn call(&mut self, side: Side) -> Outcome {
        let error_rows::Inputs {
            report,
            answers,
            member,
            ours,
            date,
            time,
            ..
        } = &self.inputs;
        let out = &mut self.out;
        match side {
            Side::Proved => {
                let mut length = 0;
                match raw::error_file(report, answers, member, ours, date, time, out, &mut length) {
                    0 => Ok(length),
                    number => Err(number),
                }
            }
            Side::Twin => match twin::error_file(report, answers, member, ours, date, time, out) {
                Ok(length) => Ok(length as u64),
                Err(refusal) => Err(refusal.number()),
            },
            Side::None => Ok(0),
        }
    }

    fn agrees(&mut self) -> bool {
        [Side::Proved, Side::Twin].into_iter().all(|side| {
            self.out.fill(0xa5);
            self.call(side) == Ok(self.out.len() as u64) && self.out == self.inputs.due
        })
    }

    fn bytes(&self) -> Option<usize> {
        Some(self.inputs.due.len())
    }
}

/// A sum over a text.
pub struct Sum {
    inputs: sum_rows::Inputs,
}

impl Sum {
    pub fn new(inputs: sum_rows::Inputs) -> Self {
        Sum { inputs }
    }
}

impl Desk for Sum {
    fn restore(&mut self) {
        black_box(&mut self.inputs.text);
    }

    fn call(&mut self, side: Side) -> Outcome {
        match side {
            Side::Proved => Ok(raw::isin_sum(&self.inputs.text)),
            Side::Twin => Ok(twin::isin_sum(&self.inputs.text)),
            Side::None => Ok(0),
        }
    }

    fn agrees(&mut self) -> bool {
        [Side::Proved, Side::Twin]
            .into_iter()
            .all(|side| self.call(side) == Ok(self.inputs.due))
    }

    fn bytes(&self) -> Option<usize> {
        Some(self.inputs.text.len())
    }
}
