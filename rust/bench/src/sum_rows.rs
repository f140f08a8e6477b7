//! The inputs of the sums over texts.

use crate::desks::{Desk, Sum};
use crate::rows;

/// A text of so many letters: what comes round, again and again, and what ends it.
#[derive(Clone, Copy)]
pub struct Row {
    name: &'static str,
    letters: usize,
    round: &'static str,
    end: &'static str,
    /// What the sum ends in.
    due: u64,
}

const fn row(
    name: &'static str,
    letters: usize,
    round: &'static str,
    end: &'static str,
    due: u64,
) -> Row {
    Row {
        name,
        letters,
        round,
        end,
        due,
    }
}

const CAPITALS: &str = "QWERTZUIOPASDFGHJKLYXCVBNM";
const DIGITS: &str = "3141592653";

/// ISINs before their check digit, and texts of 32,768 letters. Where a digit ends the text, the
/// last digit of no capital is doubled.
pub const SUMS: [Row; 6] = [
    row("isin-11", 11, "AT000083170", "", 4),
    row("isin-11-letters", 11, "AT0000A02MR", "", 0),
    row("isin-32768", 32_768, "AT0000A02MR", "", 3),
    row("capitals-32768", 32_768, CAPITALS, "", 4),
    row("capitals-single", 32_768, CAPITALS, "0", 5),
    row("digits-32768", 32_768, DIGITS, "", 6),
];

/// What a row's call is lent.
pub struct Inputs {
    pub text: Vec<u8>,
    pub due: u64,
}

impl rows::Named for Row {
    fn name(&self) -> &'static str {
        self.name
    }

    fn desk(&self) -> Box<dyn Desk> {
        let before_end = self.letters - self.end.len();
        let text = self.round.bytes().cycle().take(before_end);
        Box::new(Sum::new(Inputs {
            text: text.chain(self.end.bytes()).collect(),
            due: self.due,
        }))
    }
}
