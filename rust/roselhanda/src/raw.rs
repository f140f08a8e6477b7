//! The calls of the C header on slices: their replies are numbers, their buffers the caller's.
//!
//! A call gives 0 where it is carried out, else the number of its refusal, and then writes
//! nothing.

mod archive {
    extern "C" {
        pub fn roselhanda_record(
            reporters: *const u8,
            reporters_length: usize,
            currencies: *const u8,
            currencies_length: usize,
            ledger: *mut u8,
            ledger_length: usize,
            sender: *const u8,
            sender_length: usize,
            record: *const u8,
            record_length: usize,
            answer: *mut u8,
            answer_length: usize,
        ) -> u64;

        pub fn roselhanda_file(
            file: *const u8,
            file_length: usize,
            reporters: *const u8,
            reporters_length: usize,
            currencies: *const u8,
            currencies_length: usize,
            ledger: *mut u8,
            ledger_length: usize,
            answers: *mut u8,
            answers_length: usize,
            records: *mut u64,
        ) -> u64;

        pub fn roselhanda_judge(
            reporters: *const u8,
            reporters_length: usize,
            currencies: *const u8,
            currencies_length: usize,
            ledger: *const u8,
            ledger_length: usize,
            sender: *const u8,
            sender_length: usize,
            record: *const u8,
            record_length: usize,
            answer: *mut u8,
            answer_length: usize,
        ) -> u64;

        pub fn roselhanda_book(
            reporters: *const u8,
            reporters_length: usize,
            currencies: *const u8,
            currencies_length: usize,
            ledger: *mut u8,
            ledger_length: usize,
            sender: *const u8,
            sender_length: usize,
            record: *const u8,
            record_length: usize,
            earlier: *const u8,
            earlier_length: usize,
            answer: *mut u8,
            answer_length: usize,
        ) -> u64;

        pub fn roselhanda_field(
            record: *const u8,
            record_length: usize,
            n: u64,
            length: *mut u64,
        ) -> u64;

        pub fn roselhanda_error_file(
            report: *const u8,
            report_length: usize,
            answers: *const u8,
            answers_length: usize,
            member_texts: *const u8,
            member_texts_length: usize,
            our_texts: *const u8,
            our_texts_length: usize,
            date: *const u8,
            date_length: usize,
            time: *const u8,
            time_length: usize,
            out: *mut u8,
            out_length: usize,
            written: *mut u64,
        ) -> u64;

        pub fn roselhanda_isin_sum(text: *const u8, text_length: usize) -> u64;
    }
}

/// The single-record call: writes the answer to the start of `answer` and the booking to `ledger`.
pub fn record(
    reporters: &[u8],
    currencies: &[u8],
    ledger: &mut [u8],
    sender: &[u8],
    record: &[u8],
    answer: &mut [u8],
) -> u64 {
    // SAFETY: each pointer comes with the length of its slice, the slices live through the call,
    // and the two that are written are borrowed alone.
    unsafe {
        archive::roselhanda_record(
            reporters.as_ptr(),
            reporters.len(),
            currencies.as_ptr(),
            currencies.len(),
            ledger.as_mut_ptr(),
            ledger.len(),
            sender.as_ptr(),
            sender.len(),
            record.as_ptr(),
            record.len(),
            answer.as_mut_ptr(),
            answer.len(),
        )
    }
}

/// The file call: writes an answer for each record from the start of `answers`, the bookings to
/// `ledger`, and the count of records to `records`.
pub fn file(
    file: &[u8],
    reporters: &[u8],
    currencies: &[u8],
    ledger: &mut [u8],
    answers: &mut [u8],
    records: &mut u64,
) -> u64 {
    // SAFETY: each pointer comes with the length of its slice, slices and word live through the
    // call, and the three that are written are borrowed alone.
    unsafe {
        archive::roselhanda_file(
            file.as_ptr(),
            file.len(),
            reporters.as_ptr(),
            reporters.len(),
            currencies.as_ptr(),
            currencies.len(),
            ledger.as_mut_ptr(),
            ledger.len(),
            answers.as_mut_ptr(),
            answers.len(),
            records,
        )
    }
}

/// Judging alone: writes the answer that [`record`] would give to the start of `answer`.
pub fn judge(
    reporters: &[u8],
    currencies: &[u8],
    ledger: &[u8],
    sender: &[u8],
    record: &[u8],
    answer: &mut [u8],
) -> u64 {
    // SAFETY: each pointer comes with the length of its slice, the slices live through the call,
    // and the one that is written is borrowed alone.
    unsafe {
        archive::roselhanda_judge(
            reporters.as_ptr(),
            reporters.len(),
            currencies.as_ptr(),
            currencies.len(),
            ledger.as_ptr(),
            ledger.len(),
            sender.as_ptr(),
            sender.len(),
            record.as_ptr(),
            record.len(),
            answer.as_mut_ptr(),
            answer.len(),
        )
    }
}

/// Booking what was judged earlier: writes the answer to the start of `answer` and the booking to
/// `ledger`, as [`record`] does. Any bytes may be lent as the earlier answer.
pub fn book(
    reporters: &[u8],
    currencies: &[u8],
    ledger: &mut [u8],
    sender: &[u8],
    record: &[u8],
    earlier: &[u8],
    answer: &mut [u8],
) -> u64 {
    // SAFETY: each pointer comes with the length of its slice, the slices live through the call,
    // and the two that are written are borrowed alone.
    unsafe {
        archive::roselhanda_book(
            reporters.as_ptr(),
            reporters.len(),
            currencies.as_ptr(),
            currencies.len(),
            ledger.as_mut_ptr(),
            ledger.len(),
            sender.as_ptr(),
            sender.len(),
            record.as_ptr(),
            record.len(),
            earlier.as_ptr(),
            earlier.len(),
            answer.as_mut_ptr(),
            answer.len(),
        )
    }
}

/// The field view, never refused: gives where field `n` of the record starts, and writes its
/// length to `length`.
pub fn field(record: &[u8], n: u64, length: &mut u64) -> u64 {
    // SAFETY: the pointer comes with the length of its slice, slice and word live through the
    // call, and the word is borrowed alone.
    unsafe { archive::roselhanda_field(record.as_ptr(), record.len(), n, length) }
}

/// The error file: writes it to the start of `out`, and its length to `written`.
#[expect(clippy::too_many_arguments, reason = "they are those of the C header")]
pub fn error_file(
    report: &[u8],
    answers: &[u8],
    member_texts: &[u8],
    our_texts: &[u8],
    date: &[u8],
    time: &[u8],
    out: &mut [u8],
    written: &mut u64,
) -> u64 {
    // SAFETY: each pointer comes with the length of its slice, slices and word live through the
    // call, and the two that are written are borrowed alone.
    unsafe {
        archive::roselhanda_error_file(
            report.as_ptr(),
            report.len(),
            answers.as_ptr(),
            answers.len(),
            member_texts.as_ptr(),
            member_texts.len(),
            our_texts.as_ptr(),
            our_texts.len(),
            date.as_ptr(),
            date.len(),
            time.as_ptr(),
            time.len(),
            out.as_mut_ptr(),
            out.len(),
            written,
        )
    }
}

/// The sum over the digits of a text, modulo 10, never refused.
pub fn isin_sum(text: &[u8]) -> u64 {
    // SAFETY: the pointer comes with the length of its slice, which lives through the call.
    unsafe { archive::roselhanda_isin_sum(text.as_ptr(), text.len()) }
}
