//! The exam sheet: the form of the page, its figures, the order of the refusals, what stays, and the sheets of an archive.

use std::io::Write;
use std::process::{Command, Stdio};

use reference::dispersion::Ending;
use reference::random::Random;
use reference::samples::{
    busy, put_downstream, put_exits, put_u16, put_u32, quiet, random_record, RecordBytes,
};
use reference::sheet::{sheet, sheet_ending, sheets, sheets_to, PAGE_BYTES, SHEETS_ROOM};
use reference::vectors::archive::write;
use reference::vectors::discharge::refused_by_volume;
use reference::vectors::faults::faults;
use reference::vectors::sheet::longest;
use reference::working::{work, Refused, Working};

/// Lengths of page, output, first and second work profile.
type Lengths = [usize; 4];

/// A page and three profiles, lent to a call.
#[derive(Clone, Debug, PartialEq)]
struct Lent {
    page: Vec<u8>,
    profiles: [Vec<u32>; 3],
}

fn lent([page, output, first, second]: Lengths) -> Lent {
    Lent {
        page: vec![b'#'; page],
        profiles: [vec![11; output], vec![12; first], vec![13; second]],
    }
}

/// Just enough.
fn exact(cycle: usize) -> Lengths {
    [4380, 4 * cycle, cycle, cycle]
}

fn made(record: &[u8], lengths: Lengths) -> (Result<Working, Refused>, Lent) {
    let mut lent = lent(lengths);
    let [output, first, second] = &mut lent.profiles;
    let result = sheet(record, &mut lent.page, output, first, second);
    (result, lent)
}

/// The number of refusal; a refusal must leave the page and all profiles.
fn number(record: &[u8], lengths: Lengths) -> u32 {
    match made(record, lengths) {
        (Ok(_), _) => 0,
        (Err(refused), after) => {
            assert_eq!(after, lent(lengths));
            assert!(refused.number == 15 || refused.last_sum == 0.0);
            refused.number
        }
    }
}

/// The text of an accepted record's page.
fn page(record: &[u8], cycle: usize) -> String {
    let (result, lent) = made(record, exact(cycle));
    assert!(result.is_ok());
    String::from_utf8(lent.page).unwrap()
}

const EXAMPLE: &str = concat!(
    "card 1 cycle 60 shift 34 rounds 1                                       \n",
    "          0          0          0          0                            \n",
    "          0          0          0          0                            \n",
    "          0          0          0          0                            \n",
    "          0     360000          0          0                            \n",
    "exit l total 0 green 0 permille 0                                       \n",
    "exit t total 21600000 green 10800000 permille 500                       \n",
    "exit r total 0 green 0 permille 0                                       \n",
    "    360    360    360    360    360    360    360    360    360    360  \n",
    "    360    360    360    360    360    360    360    360    360    360  \n",
    "    360    360    360    360    360    360    360    360    360    360  \n",
    "    360    360    360    360    360    360    360    360    360    360  \n",
    "    360    360    360    360    360    360    360    360    360    360  \n",
    "    360    360    360    360    360    360    360    360    360    360  \n",
);
const BLANK: &str = "                                                                        \n";

/// The record that paper 01 prints.
fn example() -> RecordBytes {
    let mut record = quiet(60);
    put_u16(&mut record, 36, 360);
    put_exits(&mut record, [0, 360, 0, 0]);
    put_downstream(&mut record, [(0, 0), (0, 30), (0, 0)]);
    record
}

#[test]
fn printed_example_on_a_page() {
    assert_eq!(BLANK.len(), 73);
    let expected = EXAMPLE.to_owned() + &BLANK.repeat(46);
    assert_eq!(expected.len(), 4380);
    assert_eq!(page(&example(), 60), expected);
}

/// A whole page by the formatting of the standard library.
fn expected_page(lines: &[String]) -> String {
    let lines = lines.iter().map(String::as_str);
    let all = lines.chain(std::iter::repeat("")).take(60);
    all.map(|line| format!("{line:<72}\n")).collect()
}

fn expected_lines(number: u32, working: &Working, through: &[u32]) -> Vec<String> {
    let columns = |flows: &[u32; 4]| {
        let [left, through, right, access] = flows;
        format!("{left:>11}{through:>11}{right:>11}{access:>11}")
    };
    let (cycle, shift, rounds) = (through.len(), working.shift, working.rounds);
    let mut lines = vec![format!(
        "card {number} cycle {cycle} shift {shift} rounds {rounds}"
    )];
    lines.extend(working.flows.iter().map(columns));
    for (name, exit) in ["l", "t", "r"].iter().zip(&working.exits) {
        let (total, green) = (exit.total, exit.green);
        let permille = exit.permille;
        lines.push(format!(
            "exit {name} total {total} green {green} permille {permille}"
        ));
    }
    let thousands: Vec<String> = through.iter().map(|q| format!("{:>7}", q / 1000)).collect();
    lines.extend(thousands.chunks(10).map(|row| row.concat()));
    lines
}

/// Sixty lines of 72 bytes, all of them printable.
fn check_form(text: &str) {
    assert_eq!(text.len(), 4380);
    let lines: Vec<&str> = text.split_terminator('\n').collect();
    assert_eq!(lines.len(), 60);
    for line in lines {
        assert_eq!(line.len(), 72);
        assert!(line.bytes().all(|byte| (32..=126).contains(&byte)));
    }
}

/// The numbers of a line in columns of this width; the rest of the line is blank.
fn read_columns(line: &str, width: usize, count: usize) -> Vec<u32> {
    let (columns, rest) = line.split_at(width * count);
    assert!(rest.trim().is_empty());
    let column = |j: usize| columns[j * width..(j + 1) * width].trim_start();
    (0..count).map(|j| column(j).parse().unwrap()).collect()
}

fn check_columns(text: &str, working: &Working, through: &[u32]) {
    let lines: Vec<&str> = text.lines().collect();
    for (line, flows) in lines[1..5].iter().zip(&working.flows) {
        assert_eq!(read_columns(line, 11, 4), flows);
    }
    let rows = through.chunks(10);
    for (line, flows) in lines[8..].iter().zip(rows.clone()) {
        let thousands = read_columns(line, 7, flows.len());
        for (&thousand, &flow) in thousands.iter().zip(flows) {
            assert!(thousand * 1000 <= flow && flow < thousand * 1000 + 1000);
        }
    }
    assert!(lines[8 + rows.len()..]
        .iter()
        .all(|line| line.trim().is_empty()));
}

/// Answer and profiles are those of the working; bytes and numbers beyond stay.
fn check_sheet(record: &RecordBytes, cycle: usize) -> bool {
    let lengths = [4380 + 75, 4 * cycle + 5, cycle + 3, cycle + 4];
    let (result, after) = made(record, lengths);
    let mut profiles = lent(lengths).profiles;
    let [output, first, second] = &mut profiles;
    let worked = work(record, output, first, second);
    assert_eq!((result, &after.profiles), (worked, &profiles));
    let Ok(working) = result else {
        assert_eq!(after, lent(lengths));
        return false;
    };
    let (text, beyond) = after.page.split_at(4380);
    assert_eq!(beyond, [b'#'; 75]);
    let text = std::str::from_utf8(text).unwrap();
    let through = &profiles[0][cycle..2 * cycle];
    check_form(text);
    check_columns(text, &working, through);
    let number = u32::from_le_bytes(record[..4].try_into().unwrap());
    let lines = expected_lines(number, &working, through);
    assert_eq!(text, expected_page(&lines));
    true
}

#[test]
fn pages_of_random_records() {
    let mut random = Random::new(71);
    let accepted = (0..900)
        .filter(|_| {
            let cycle = random.with_ends(30, 240);
            check_sheet(&random_record(&mut random, cycle), cycle as usize)
        })
        .count();
    assert!(accepted > 300, "{accepted}");
}

#[test]
fn every_length_of_the_last_row() {
    for cycle in 30..=240 {
        assert!(check_sheet(&busy(cycle), cycle as usize));
    }
}

/// No line is cut or goes past its columns.
#[test]
fn longest_lines() {
    let mut texts = String::new();
    for record in longest() {
        assert!(check_sheet(&record, 240));
        texts += &page(&record, 240);
    }
    for name in ["l", "t", "r"] {
        let line = format!("exit {name} total 5760000000 green 5760000000 permille 1000");
        assert_eq!(line.len(), 54);
        assert!(texts.contains(&format!("\n{line:<72}\n")));
    }
    let first = "card 4294967295 cycle 240 shift 259 rounds 200";
    assert!(texts.contains(&format!("{first:<72}\n")));
    assert!(texts.contains(&("  42000".repeat(10) + "  \n")));
}

/// The same page and profiles where no cycle is worked that only repeats.
#[test]
fn the_same_ending_at_rest() {
    let mut random = Random::new(72);
    for _ in 0..300 {
        let cycle = random.with_ends(30, 240);
        let record = random_record(&mut random, cycle);
        let lengths = exact(cycle as usize);
        let mut early = lent(lengths);
        let [output, first, second] = &mut early.profiles;
        let ending = Ending::AtRest;
        let result = sheet_ending(&record, ending, &mut early.page, output, first, second);
        assert_eq!(made(&record, lengths), (result, early));
    }
}

const SHORT_PAGES: [usize; 3] = [0, 1, 4379];

#[test]
fn a_short_page_is_refused_last() {
    for page in SHORT_PAGES {
        assert_eq!(number(&busy(30), [page, 120, 30, 30]), 21);
        assert_eq!(number(&busy(30), [page, 960, 240, 300]), 21);
        assert_eq!(number(&busy(240), [page, 960, 240, 240]), 21);
    }
    for page in [4380, 4381, 4452, 4500, 10_000] {
        assert_eq!(number(&busy(30), [page, 120, 30, 30]), 0);
    }
}

/// Each refusal of the working comes before 21 and leaves a page that is long enough, too.
#[test]
fn the_working_refuses_first() {
    for page in SHORT_PAGES.into_iter().chain([4380, 4500]) {
        assert_eq!(number(&busy(30)[1..], [page, 120, 30, 30]), 6);
        for fault in faults(30) {
            let record = fault.applied(busy(30));
            assert_eq!(number(&record, [page, 120, 30, 30]), fault.number);
            assert_eq!(number(&record, [page, 0, 0, 0]), fault.number);
        }
        for short in [[119, 30, 30], [120, 29, 30], [120, 30, 29], [0, 0, 0]] {
            let [output, first, second] = short;
            assert_eq!(number(&busy(30), [page, output, first, second]), 16);
        }
        let expected = [13, 13, 14, 14, 15, 15];
        for (record, expected) in refused_by_volume().iter().zip(expected) {
            assert_eq!(number(record, [page, 120, 30, 30]), expected);
            assert_eq!(number(record, [page, 119, 30, 30]), 16);
        }
    }
}

/// The last sum comes with 15 as from the working, whatever the page.
#[test]
fn the_last_sum_of_unsettled_records() {
    for record in &refused_by_volume()[4..] {
        let mut profiles = lent(exact(30)).profiles;
        let [output, first, second] = &mut profiles;
        let worked = work(record, output, first, second);
        for page in SHORT_PAGES.into_iter().chain([4380]) {
            assert_eq!(made(record, [page, 120, 30, 30]).0, worked);
        }
        assert!(worked.unwrap_err().last_sum > 0.0);
    }
}

fn sheets_of(input: &[u8]) -> String {
    let mut text = Vec::new();
    sheets(input, &mut text);
    String::from_utf8(text).unwrap()
}

/// What the program itself prints.
fn printed(arguments: &[&str], input: &[u8]) -> String {
    let mut child = Command::new(env!("CARGO_BIN_EXE_sheets"))
        .args(arguments)
        .stdin(Stdio::piped())
        .stdout(Stdio::piped())
        .spawn()
        .unwrap();
    let mut stdin = child.stdin.take().unwrap();
    // The program may stop reading once the input is too long.
    let _ = stdin.write_all(input);
    drop(stdin);
    String::from_utf8(child.wait_with_output().unwrap().stdout).unwrap()
}

#[test]
fn sheets_of_empty_and_refused_archives() {
    assert_eq!(sheets_of(&[0, 0, 0, 0, 68, 82]), "");
    assert_eq!(sheets_of(&[]), "drawer refused 1\n");
    assert_eq!(sheets_of(&[1, 0, 0, 0, 68, 82]), "drawer refused 2\n");
    let good = write(&[(busy(30), b"title".to_vec())]);
    assert_eq!(sheets_of(&good[..good.len() - 1]), "drawer refused 1\n");
    assert_eq!(
        sheets_of(&write(&[(busy(30), vec![b'a'; 41])])),
        "drawer refused 3\n"
    );
    assert_eq!(
        sheets_of(&write(&[(busy(30), vec![9])])),
        "drawer refused 4\n"
    );
    let twice = write(&[(busy(30), vec![]), (busy(30), vec![])]);
    assert_eq!(sheets_of(&twice), "drawer refused 5\n");
}

#[test]
fn sheets_of_long_input() {
    let zeros = vec![0; 65537];
    assert_eq!(sheets_of(&zeros[..65536]), "drawer refused 1\n");
    assert_eq!(sheets_of(&zeros), "drawer refused 2\n");
    assert_eq!(printed(&[], &zeros[..65536]), "drawer refused 1\n");
    assert_eq!(printed(&[], &zeros), "drawer refused 2\n");
}

/// A page for each record; what one record leaves in the profiles or on its page does not show on the next.
#[test]
fn sheets_in_order() {
    let mut bad_cycle = busy(30);
    put_u16(&mut bad_cycle, 4, 29);
    let mut records = [busy(240), bad_cycle, example(), quiet(60)];
    let numbers = [1, 7, 4_000_000_000, u32::MAX];
    for (record, number) in records.iter_mut().zip(numbers) {
        put_u32(record, 0, number);
    }
    let text = sheets_of(&write(&records.map(|record| (record, b"title".to_vec()))));
    let expected = [
        page(&records[0], 240),
        expected_page(&["card 7 refused 7".into()]),
        page(&records[2], 60),
        expected_page(&["card 4294967295 refused 13".into()]),
    ];
    assert_eq!(text, expected.concat());
}

/// Five hundred and twelve records, some of them refused.
fn full_archive() -> Vec<u8> {
    let mut random = Random::new(73);
    let record = |number| {
        let cycle = random.between(30, 240);
        let mut record = random_record(&mut random, cycle);
        put_u32(&mut record, 0, number);
        (record, vec![b'x'; number as usize % 41])
    };
    write(&(1..=512).map(record).collect::<Vec<_>>())
}

#[test]
fn short_buffers_are_refused_and_stay() {
    assert_eq!(SHEETS_ROOM, 2_242_560);
    let archive = write(&[(busy(30), vec![])]);
    for input in [&archive[..], &archive[1..], &[0, 0, 0, 0, 68, 82]] {
        for room in [0, PAGE_BYTES, SHEETS_ROOM - 1] {
            let mut buffer = vec![7; room];
            assert_eq!(sheets_to(input, &mut buffer), Err(17));
            assert_eq!(buffer, vec![7; room]);
        }
        let mut buffer = vec![7; SHEETS_ROOM + 3];
        let text = sheets_of(input);
        assert_eq!(sheets_to(input, &mut buffer), Ok(text.len()));
        assert_eq!(&buffer[..text.len()], text.as_bytes());
        assert!(buffer[text.len()..].iter().all(|&byte| byte == 7));
    }
}

#[test]
fn program_prints_the_sheets() {
    let archive = full_archive();
    let text = sheets_of(&archive);
    assert_eq!(text.len(), SHEETS_ROOM);
    let refused = |page: &&[u8]| page.windows(9).take(20).any(|part| part == b" refused ");
    let refused = text.as_bytes().chunks(4380).filter(refused).count();
    assert!((20..400).contains(&refused), "{refused}");
    assert_eq!(printed(&[], &archive), text);
    assert_eq!(printed(&["at-rest"], &archive), text);
    assert_eq!(printed(&[], &[0, 0, 0, 0, 68, 82]), "");
    let mut buffer = vec![7; SHEETS_ROOM];
    assert_eq!(sheets_to(&archive, &mut buffer), Ok(SHEETS_ROOM));
    assert_eq!(buffer, text.as_bytes());
}
