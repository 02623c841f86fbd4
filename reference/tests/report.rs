//! The report program.

use std::io::Write;
use std::process::{Command, Stdio};

use reference::random::Random;
use reference::report::{report, report_to, TEXT_ROOM};
use reference::samples::{busy, put_u32, random_record};
use reference::vectors::archive::write;

fn text(input: &[u8]) -> String {
    let mut text = Vec::new();
    report(input, &mut text);
    String::from_utf8(text).unwrap()
}

/// What the program itself prints.
fn printed(input: &[u8]) -> String {
    printed_with(&[], input)
}

/// What it prints where it is given these arguments.
fn printed_with(arguments: &[&str], input: &[u8]) -> String {
    let mut child = Command::new(env!("CARGO_BIN_EXE_report"))
        .args(arguments)
        .stdin(Stdio::piped())
        .stdout(Stdio::piped())
        .spawn()
        .unwrap();
    let mut stdin = child.stdin.take().unwrap();
    // The program may stop reading once the input is too long.
    let _ = stdin.write_all(input);
    drop(stdin);
    String::from_utf8(child.wait_with_output().unwrap().stdout).unwrap()
}

#[test]
fn empty_and_refused_archives() {
    assert_eq!(text(&[0, 0, 0, 0, 68, 82]), "");
    assert_eq!(text(&[]), "drawer refused 1\n");
    assert_eq!(text(&[1, 0, 0, 0, 68, 82]), "drawer refused 2\n");
    let mut record = busy(30);
    record[0] = 0;
    assert_eq!(text(&write(&[(record, vec![])])), "drawer refused 5\n");
    assert_eq!(
        text(&write(&[(record, vec![b'a'; 41])])),
        "drawer refused 3\n"
    );
}

#[test]
fn short_buffers_are_refused_and_stay() {
    let archive = [0, 0, 0, 0, 68, 83];
    for room in [0, 16, TEXT_ROOM - 1] {
        let mut buffer = vec![7; room];
        assert_eq!(report_to(&archive, &mut buffer), Err(17));
        assert_eq!(buffer, vec![7; room]);
    }
    let mut buffer = vec![7; TEXT_ROOM];
    assert_eq!(report_to(&archive, &mut buffer), Ok(17));
    assert_eq!(&buffer[..18], b"drawer refused 1\n\x07");
}

#[test]
fn long_input() {
    let zeros = vec![0; 65537];
    assert_eq!(text(&zeros[..65536]), "drawer refused 1\n");
    assert_eq!(text(&zeros), "drawer refused 2\n");
    assert_eq!(printed(&zeros[..65536]), "drawer refused 1\n");
    assert_eq!(printed(&zeros), "drawer refused 2\n");
    assert_eq!(printed(&[0; 100_000]), "drawer refused 2\n");
}

#[test]
fn refused_records_among_others() {
    let mut first = busy(30);
    first[4] = 29;
    let mut second = busy(30);
    put_u32(&mut second, 0, 4_000_000_000);
    let text = text(&write(&[(first, vec![]), (second, b"title".to_vec())]));
    let lines: Vec<&str> = text.lines().collect();
    assert_eq!(lines[0], "card 1 refused 7");
    assert!(lines[1].starts_with("card 4000000000 cycle 30 shift 34 rounds "));
    assert_eq!(lines.len(), 7);
    assert!(lines[6].starts_with("blocked ") && lines[6].ends_with(" of 30"));
}

#[test]
fn program_prints_the_report() {
    let mut random = Random::new(51);
    let record = |number| {
        let cycle = random.between(30, 240);
        let mut record = random_record(&mut random, cycle);
        put_u32(&mut record, 0, number);
        (record, vec![b'x'; number as usize % 41])
    };
    let archive = write(&(1..=512).map(record).collect::<Vec<_>>());
    assert_eq!(printed(&archive), text(&archive));
    assert_eq!(printed_with(&["at-rest"], &archive), text(&archive));
    assert_eq!(printed(&[0, 0, 0, 0, 68, 82]), "");
}
