//! Property tests: the proved archive and its twin get the same calls, and every byte that they
//! leave is compared. Seeds are fixed, so each run makes the same cases.
//!
//! The last line printed is `N passed, M failed`; what is counted are groups of up to 1,000 cases,
//! and one for each place, each refusal, each sight of an error file, each last digit of a sum,
//! each sight of a zero and each of judging and booking apart that has to be hit.

mod compare;
mod damage;
mod errors;
mod files;
mod judging;
mod lists;
mod nulls;
mod read_back;
mod records;
mod rng;
mod singles;
mod sums;
mod tally;
mod values;
mod world;
mod zeros;

use std::process::ExitCode;

use rng::Rng;
use tally::Check;

fn main() -> ExitCode {
    let mut check = Check::new();
    singles::worked_inputs(&mut check);
    singles::published_isins(&mut check);
    singles::edited_records(&mut check, &mut Rng::new(1), 100_000);
    singles::every_byte(&mut check);
    singles::random_records(&mut check, &mut Rng::new(2), 20_000);
    singles::refused_records(&mut check, &mut Rng::new(3), 10_000);
    singles::rooms(&mut check, &mut Rng::new(16), 100);
    singles::field_views(&mut check, &mut Rng::new(4), 4_000);
    lists::lists(&mut check, &mut Rng::new(5), 400);
    lists::demand_three(&mut check, &mut Rng::new(6), 1_500);
    files::valid_files(&mut check, &mut Rng::new(7), 2_000);
    files::every_byte(&mut check);
    files::every_place(&mut check);
    files::edited_files(&mut check, &mut Rng::new(8), 30_000);
    files::random_files(&mut check, &mut Rng::new(9), 5_000);
    files::counts_and_lengths(&mut check, &mut Rng::new(10), 20);
    files::damaged_files(&mut check, &mut Rng::new(11), 200);
    damage::rules(&mut check, &mut Rng::new(12), 200);
    damage::precedence(&mut check, &mut Rng::new(13), 2_000);
    damage::every_byte(&mut check, &mut Rng::new(14));
    damage::random_bytes(&mut check, &mut Rng::new(15), 10_000);
    nulls::null_pointers(&mut check, &mut Rng::new(17), 20);
    nulls::error_files(&mut check);
    errors::booked_reports(&mut check, &mut Rng::new(18), 500);
    errors::forged_answers(&mut check, &mut Rng::new(19), 3_000);
    errors::every_code(&mut check, &mut Rng::new(20));
    errors::every_byte(&mut check, &mut Rng::new(21));
    errors::reports(&mut check, &mut Rng::new(22));
    errors::dates_and_times(&mut check, &mut Rng::new(23), 10_000);
    errors::damaged(&mut check, &mut Rng::new(24), 200);
    errors::order(&mut check, &mut Rng::new(25), 100);
    errors::long_lists(&mut check, &mut Rng::new(26), 60);
    errors::edited(&mut check, &mut Rng::new(27), 30_000);
    errors::shared_lists(&mut check, &mut Rng::new(28), 1_000);
    sums::published(&mut check);
    sums::drawn(&mut check, &mut Rng::new(29), 20_000, 40);
    sums::any_bytes(&mut check, &mut Rng::new(30), 20_000);
    nulls::sum(&mut check);
    zeros::every_zero(&mut check, &mut Rng::new(31), 4);
    zeros::stored(&mut check, &mut Rng::new(32), 4_000);
    judging::in_a_row(&mut check, &mut Rng::new(33), 30_000);
    judging::every_byte(&mut check);
    judging::earlier_answers(&mut check, &mut Rng::new(34), 300);
    judging::failures_left_out(&mut check, &mut Rng::new(35), 5_000);
    judging::others_answers(&mut check, &mut Rng::new(36), 4_000);
    judging::morning_and_evening(&mut check, &mut Rng::new(37), 400);
    judging::order(&mut check, &mut Rng::new(38), 10_000);
    judging::rooms(&mut check, &mut Rng::new(39), 100);
    lists::demand_three_bookings(&mut check, &mut Rng::new(40), 500);

    let (passed, failed) = check.report();
    println!("{passed} passed, {failed} failed");
    if failed == 0 {
        ExitCode::SUCCESS
    } else {
        ExitCode::FAILURE
    }
}
