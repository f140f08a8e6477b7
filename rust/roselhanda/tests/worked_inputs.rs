//! The worked inputs of document 01 through the safe calls.

use roselhanda::{
    book_file, book_judged, book_record, code_of, error_file, field, judge_record, Answer, Ledger,
    Refusal, Status, Tables, LEDGER_SIZE, TEXT_ROW_SIZE,
};

const REPORTERS: &[u8] = b"98001AAAAATW1XXXMBONE   \0\0\0\0\0\0\0\0\
                           98002BBBBATW1XXXMBONE   \0\0\0\0\0\0\0\0\
                           98003CCCCATW1XXXMBTWO   \0\0\0\0\0\0\0\0";

const REPORT: &str = "UNB+UNOA:1+MBONE+ATBWA+20130903:1015+W1++BWAMS'UNH+BWA+BWA:0'\r\n\
    B;98001;I;4711;;;B;20130903;101500;;;;;WBAH;J;;;N;S;AT0000831706;XXX;1500;1;EUR;54,7;;;K;;;;;;;;;;N;A1\r\n\
    B;98003;I;4711;;;B;20130903;101500;;;;;WBAH;J;;;N;S;AT0000831706;XXX;1500;1;EUR;54,7;;;K;;;;;;;;;;N;A2\r\n\
    B;98001;I;4711;;;B;20130903;101500;;;;;WBAH;J;A1;;N;S;AT0000831706;XXX;1500;1;EUR;54,7;;;K;;;;;;;;;;N;A3\r\n\
    B;98001;I;4711;;;B;20130903;101500;;;;;WBAH;J;A1;;N;S;AT0000831706;XXX;1500;1;EUR;54,7;;;K;;;;;;;;;;N;A4\r\n\
    B;98001;I;4711;;;B;20130903;101500;;;;;WBAH;J;;;N;S;AT0000831706;XXX;1500;1;EUR;54,7;;;E;;;;;;;;;;N;A5\r\n\
    'UNT+3+BWA'UNZ+1+W1'";

fn tables() -> Tables {
    Tables::new(REPORTERS, b"CHFEURUSD")
}

#[test]
fn the_worked_report() {
    let mut ledger = Ledger::new();
    let answers = book_file(&tables(), &mut ledger, REPORT.as_bytes()).unwrap();
    let lines: Vec<String> = answers.iter().map(Answer::to_string).collect();
    assert_eq!(
        lines,
        ["0000 0 0", "0024 1 -", "0000 0 0", "0161 1 0", "0282 2 0"]
    );
    let statuses: Vec<Status> = answers.iter().map(Answer::status).collect();
    assert_eq!(
        statuses,
        [
            Status::Booked,
            Status::SenderFailed,
            Status::Booked,
            Status::BookingFailed,
            Status::ContentFailed,
        ]
    );
    assert_eq!(answers.iter().filter(|a| a.is_booked()).count(), 2);
    assert_eq!(answers[2].booked_row(), Some(1));
    assert_eq!(answers[4].set(), 87_960_930_222_080);
    assert!(answers[4].failed_places().eq([44, 46]));
    assert_eq!(answers[4].length(), 102);
}

#[test]
fn a_file_is_its_single_calls() {
    let (mut together, mut singly) = (Ledger::new(), Ledger::new());
    let answers = book_file(&tables(), &mut together, REPORT.as_bytes()).unwrap();
    let records = REPORT.lines().skip(1).take(5);
    let single = records
        .map(|record| book_record(&tables(), &mut singly, b"MBONE", record.as_bytes()).unwrap());
    assert!(single.eq(answers));
    assert_eq!(together, singly);
}

#[test]
fn judged_and_booked_in_a_row() {
    let (mut at_once, mut apart) = (Ledger::new(), Ledger::new());
    for record in REPORT.lines().skip(1).take(5) {
        let record = record.as_bytes();
        let before = apart.clone();
        let earlier = judge_record(&tables(), &apart, b"MBONE", record).unwrap();
        assert_eq!(apart, before);
        let answer = book_record(&tables(), &mut at_once, b"MBONE", record).unwrap();
        assert_eq!(earlier, answer);
        let booked = book_judged(&tables(), &mut apart, b"MBONE", record, &earlier);
        assert_eq!(booked, Ok(answer));
        assert_eq!(apart, at_once);
    }
}

#[test]
fn judged_in_the_morning_and_booked_in_the_evening() {
    let records = || REPORT.lines().skip(1).take(5).map(str::as_bytes);
    let morning = Ledger::new();
    let judged: Vec<Answer> = records()
        .map(|record| judge_record(&tables(), &morning, b"MBONE", record).unwrap())
        .collect();
    let lines: Vec<String> = judged.iter().map(Answer::to_string).collect();
    // Each by itself: nothing is there yet that the third and the fourth could cancel.
    assert_eq!(
        lines,
        ["0000 0 0", "0024 1 -", "0161 1 0", "0161 1 0", "0282 2 0"]
    );

    let mut evening = Ledger::new();
    let booked = records()
        .zip(&judged)
        .map(|(record, earlier)| book_judged(&tables(), &mut evening, b"MBONE", record, earlier));
    let booked: Result<Vec<Answer>, Refusal> = booked.collect();
    let mut at_once = Ledger::new();
    assert_eq!(
        booked,
        book_file(&tables(), &mut at_once, REPORT.as_bytes())
    );
    assert_eq!(evening, at_once);
}

#[test]
fn an_earlier_answer_of_another_record() {
    let records: Vec<&[u8]> = REPORT.lines().skip(1).take(5).map(str::as_bytes).collect();
    let mut ledger = Ledger::new();
    let [sound, strange] =
        [0, 1].map(|at| judge_record(&tables(), &ledger, b"MBONE", records[at]).unwrap());
    let mut number = |sender, record, earlier| {
        let booked = book_judged(&tables(), &mut ledger, sender, record, earlier);
        booked.map_or_else(Refusal::number, |_| 0)
    };
    assert_eq!(number(b"MBONE", records[0], &strange), 29);
    assert_eq!(number(b"MBONE", records[1], &sound), 29);
    // The bank's own mailbox: what failed for the sender does not fail for it.
    assert_eq!(number(b"MBTWO", records[1], &strange), 29);
    assert_eq!(number(b"", records[0], &strange), 13);
    assert_eq!(number(b"MBONE", b"'", &strange), 14);
    assert_eq!(ledger, Ledger::new());

    let refusal = book_judged(&tables(), &mut ledger, b"MBONE", records[0], &strange).unwrap_err();
    assert_eq!(
        refusal.to_string(),
        "refused 29: the earlier answer has the wrong size, or not the failures of this record"
    );
    // Failures of another record that are the same ones will do.
    let booked = book_judged(&tables(), &mut ledger, b"MBTWO", records[1], &sound);
    assert_eq!(booked.unwrap().status(), Status::Booked);
}

#[test]
fn refusals() {
    let mut ledger = Ledger::new();
    let mut single = |sender, record| book_record(&tables(), &mut ledger, sender, record);
    assert_eq!(single(b"", b"").unwrap_err().number(), 13);
    assert_eq!(single(b"M", b"'").unwrap_err().number(), 14);
    assert_eq!(ledger, Ledger::new());

    let whole = |tables: &Tables, file| book_file(tables, &mut Ledger::new(), file);
    assert_eq!(whole(&tables(), b"").unwrap_err().number(), 5);
    let stranger = REPORT.replace("ATBWA", "ATBWB");
    let refusal = whole(&tables(), stranger.as_bytes()).unwrap_err();
    assert_eq!(
        refusal.to_string(),
        "refused 7: the report is addressed to somebody else"
    );
    let mut tables = tables();
    tables.currencies.push(b'X');
    let refusal = whole(&tables, REPORT.as_bytes()).unwrap_err();
    assert_eq!(refusal.number(), 3);
}

#[test]
fn ledgers_as_bytes() {
    let mut ledger = Ledger::new();
    book_file(&tables(), &mut ledger, REPORT.as_bytes()).unwrap();
    assert_eq!(ledger.as_bytes().len(), LEDGER_SIZE);
    assert_eq!(Ledger::from_bytes(ledger.as_bytes()), Ok(ledger.clone()));
    let refusal: Refusal = Ledger::from_bytes(&[0; 32]).unwrap_err();
    assert_eq!(refusal.number(), 4);
}

#[test]
fn what_people_read() {
    let mut ledger = Ledger::new();
    let answers = book_file(&tables(), &mut ledger, REPORT.as_bytes()).unwrap();
    assert_eq!(format!("{ledger:?}"), "Ledger {0: 2}");
    assert_eq!(format!("{:?}", Ledger::new()), "Ledger {}");
    assert_eq!(
        format!("{:?}", answers[4]),
        "Answer { status: ContentFailed, failed_places: [44, 46], first_code: Some(282), \
         reporter_row: Some(0), booked_row: None, length: 102 }"
    );
    assert_eq!(answers[3].status().to_string(), "booking failed");
    assert_eq!(
        format!("{:?}", Tables::new(b"", b"CHFEUR")),
        "Tables { reporters: \"\", currencies: \"CHFEUR\" }"
    );
}

#[test]
fn answers_as_bytes() {
    let record = REPORT.lines().nth(1).unwrap().as_bytes();
    let answer = book_record(&tables(), &mut Ledger::new(), b"MBONE", record).unwrap();
    assert_eq!(Answer::from_bytes(answer.as_bytes()), Some(answer));
    assert_eq!(Answer::from_bytes(&answer.as_bytes()[1..]), None);
    let mut bytes = answer.as_bytes().to_vec();
    bytes[11] = 4;
    assert_eq!(Answer::from_bytes(&bytes), None);
}

/// A list of texts.
fn texts(rows: &[(u16, &str)]) -> Vec<u8> {
    let rows = rows
        .iter()
        .map(|(code, text)| format!("{code:04}{text:<76}"));
    rows.collect::<String>().into_bytes()
}

fn worked_answers() -> Vec<Answer> {
    book_file(&tables(), &mut Ledger::new(), REPORT.as_bytes()).unwrap()
}

#[test]
fn the_error_file_of_the_worked_report() {
    let ours = texts(&[
        (24, "Another member reports for this bank"),
        (161, "Nothing live to cancel"),
        (282, ""),
    ]);
    let member = texts(&[(161, "Ask the back office")]);
    let file = error_file(
        REPORT.as_bytes(),
        &worked_answers(),
        &member,
        &ours,
        b"20130904",
        b"0800",
    )
    .unwrap();
    let record = |at: usize| REPORT.lines().nth(at).unwrap();
    assert_eq!(
        String::from_utf8(file).unwrap(),
        [
            "UNB+UNOA:1+ATBWA+MBONE+20130904:0800+W1++BWAMSERR'UNH+BWA+BWERR:0'",
            record(2),
            "0024-Another member reports for this bank",
            record(4),
            "0161-Ask the back office",
            record(5),
            "0282-",
            "'UNT+3+BWA'UNZ+1+W1'",
        ]
        .join("\r\n")
    );
}

#[test]
fn room_for_the_longest_error_file() {
    let mut bytes = worked_answers()[1].as_bytes().to_vec();
    bytes[8..10].copy_from_slice(&9900u16.to_le_bytes());
    let answers = [Answer::from_bytes(&bytes).unwrap(); 5];
    let ours = texts(&[(9900, &"~".repeat(TEXT_ROW_SIZE - 4))]);
    let report = REPORT.as_bytes();
    let file = error_file(report, &answers, b"", &ours, b"20130904", b"0800").unwrap();
    assert_eq!(file.len(), report.len() + 5 + 5 * 83);
}

#[test]
fn refused_error_files() {
    let ours = texts(&[(24, "a"), (161, "b"), (282, "c")]);
    let answers = worked_answers();
    let report = REPORT.as_bytes();
    let number = |report: &[u8], answers: &[Answer], ours: &[u8], date: &[u8]| {
        let file = error_file(report, answers, b"", ours, date, b"2359");
        file.map_or_else(Refusal::number, |_| 0)
    };
    let date = b"20120229";
    assert_eq!(number(report, &answers, &ours, date), 0);
    assert_eq!(number(&[b'A'; 32_769], &answers, &ours, date), 1);
    assert_eq!(number(&report[1..], &answers, &ours, date), 5);
    assert_eq!(number(report, &answers[1..], &ours, date), 15);
    assert_eq!(number(report, &answers, &ours[1..], date), 16);
    assert_eq!(number(report, &answers, &ours[80..], date), 17);
    assert_eq!(number(report, &answers, &ours, b"20130229"), 18);
    let refusal = error_file(report, &answers, &ours, b"", date, b"2400").unwrap_err();
    assert_eq!(
        refusal.to_string(),
        "refused 18: the error file is dated on a day or at a time that does not exist"
    );
}

#[test]
fn fields_and_codes() {
    let record = REPORT.lines().nth(1).unwrap().as_bytes();
    assert_eq!(field(record, 1), b"B");
    assert_eq!(field(record, 39), b"A1");
    assert_eq!(field(record, 40), b"");
    assert_eq!(field(b"B;98001", 1), b"");
    assert_eq!(
        (code_of(0), code_of(62), code_of(64)),
        (Some(9001), Some(161), None)
    );
}
