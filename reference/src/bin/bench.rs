//! Times a report program and the reference's, which works all cycles or ends at rest, in turn on the same archives.
//! Prints the medians and the product's ratio to both.
//! usage: bench PRODUCT REFERENCE [REPEATS]
//!        bench archive few|many|refused CYCLE RECORDS [RUNNING_TIME]    (the bytes of one of its archives, for a profiler)

use std::fs::{self, File};
use std::io::{self, Write};
use std::ops::RangeInclusive;
use std::path::Path;
use std::process::{Command, ExitCode, Stdio};
use std::time::{Duration, Instant};

use reference::archive::{add, EMPTY};
use reference::balance::ROUND_LIMIT;
use reference::dispersion::Ending;
use reference::random::Random;
use reference::record::{CYCLE_MOST, NUMBER_AT};
use reference::samples::{busy, put_u32, random_street, RecordBytes};
use reference::working::work_ending;

const RECORDS: usize = 512;
const SEED: u64 = 0x5e67_3e47;

/// What a record of an archive must come to.
#[derive(Clone, Copy)]
enum Kind {
    /// Settles in at most ten rounds.
    Few,
    /// Settles in more than thirty rounds.
    Many,
    /// Is refused for its cycle.
    Refused,
}

const KINDS: [(&str, Kind); 3] = [
    ("few", Kind::Few),
    ("many", Kind::Many),
    ("refused", Kind::Refused),
];

/// An archive of random records: how many, their cycle, their running time unless it is any, what they come to.
#[derive(Clone, Copy)]
struct Line {
    records: usize,
    cycle: u32,
    running_time: Option<u32>,
    name: &'static str,
    kind: Kind,
}

/// The rounds of a record that is accepted.
fn rounds(record: &RecordBytes) -> Option<u32> {
    let (mut output, mut first, mut second) = (vec![0; 960], vec![0; 240], vec![0; 240]);
    let ending = Ending::AtRest;
    let result = work_ending(record, ending, &mut output, &mut first, &mut second);
    result.ok().map(|working| working.rounds)
}

/// The next random record that settles in as many rounds as wanted.
fn settling(random: &mut Random, line: &Line, wanted: RangeInclusive<u32>) -> RecordBytes {
    loop {
        let record = random_street(random, line.cycle, line.running_time);
        if rounds(&record).is_some_and(|rounds| wanted.contains(&rounds)) {
            return record;
        }
    }
}

fn record(random: &mut Random, line: &Line) -> RecordBytes {
    match line.kind {
        Kind::Few => settling(random, line, 1..=10),
        Kind::Many => settling(random, line, 31..=ROUND_LIMIT),
        Kind::Refused => busy(CYCLE_MOST + 1),
    }
}

fn archive(line: &Line) -> Vec<u8> {
    let mut random = Random::new(SEED);
    let mut archive = EMPTY.to_vec();
    // a record that takes many rounds is rare, so a few are used again and again
    let kept = [(); 16].map(|_| record(&mut random, line));
    for n in 0..line.records {
        let mut record = kept[n % kept.len()];
        put_u32(&mut record, NUMBER_AT, n as u32 + 1);
        let mut buffer = vec![0; archive.len() + 71];
        add(&archive, &record, b"", &mut buffer).expect("an archive with room");
        archive = buffer;
    }
    archive
}

fn print_archive(arguments: &[String]) {
    let (name, kind) = *KINDS
        .iter()
        .find(|(name, _)| *name == arguments[0])
        .expect("few, many or refused");
    let line = Line {
        records: arguments[2].parse().expect("RECORDS"),
        cycle: arguments[1].parse().expect("CYCLE"),
        running_time: arguments.get(3).map(|r| r.parse().expect("RUNNING_TIME")),
        name,
        kind,
    };
    io::stdout()
        .write_all(&archive(&line))
        .expect("standard output");
}

/// A program with the argument that it is given, if any.
type Program<'a> = (&'a Path, Option<&'a str>);

fn once((program, argument): Program, input: &Path) -> Duration {
    let stdin = File::open(input).expect("the archive");
    let start = Instant::now();
    let status = Command::new(program)
        .args(argument)
        .stdin(stdin)
        .stdout(Stdio::null())
        .status()
        .expect("the program");
    assert!(status.success());
    start.elapsed()
}

fn median(mut times: Vec<Duration>) -> f64 {
    times.sort();
    times[times.len() / 2].as_secs_f64() * 1e3
}

/// The programs in turn, so that what else the machine does falls on all of them.
fn side_by_side(programs: [Program; 3], input: &Path, repeats: usize) -> [f64; 3] {
    let mut times = [(); 3].map(|()| Vec::new());
    for _ in 0..repeats {
        for (times, program) in times.iter_mut().zip(programs) {
            times.push(once(program, input));
        }
    }
    times.map(median)
}

/// Streets of any running time; then a short street, and the longest with few and with many steps to a cycle.
fn lines() -> Vec<Line> {
    let line = |records, cycle, (name, kind)| Line {
        records,
        cycle,
        running_time: None,
        name,
        kind,
    };
    let mut lines = vec![line(0, 60, ("empty", Kind::Few))];
    let full = |kind| [60, 120, 240].map(|cycle| line(RECORDS, cycle, kind));
    lines.extend(KINDS.into_iter().flat_map(full));
    lines.extend([64, 128, 256].map(|records| line(records, 120, KINDS[0])));
    let streets = [(90, 10_000), (30, 300_000), (240, 300_000)];
    lines.extend(streets.map(|(cycle, running_time)| Line {
        running_time: Some(running_time),
        ..line(RECORDS, cycle, KINDS[0])
    }));
    lines
}

fn print_line(line: &Line, [product, plain, at_rest]: [f64; 3]) {
    let Line {
        records,
        cycle,
        name,
        ..
    } = line;
    let street = line.running_time.map_or("any".into(), |r| r.to_string());
    let (to_plain, to_at_rest) = (product / plain, product / at_rest);
    println!(
        "{records:7} {cycle:5} {street:>7}  {name:8} {product:10.2} {plain:8.2} {at_rest:10.2} {to_plain:8.2} {to_at_rest:10.2}"
    );
}

fn print_table(product: &Path, reference: &Path, repeats: usize) {
    let directory = std::env::temp_dir().join("segment-bench");
    fs::create_dir_all(&directory).expect("a folder for the archives");
    let input = directory.join("archive");
    let programs = [
        (product, None),
        (reference, None),
        (reference, Some("at-rest")),
    ];
    println!("records cycle  street  kind     product ms plain ms at rest ms to plain to at rest");
    for line in lines() {
        fs::write(&input, archive(&line)).expect("the archive");
        print_line(&line, side_by_side(programs, &input, repeats));
    }
    fs::remove_dir_all(&directory).ok();
}

fn main() -> ExitCode {
    let arguments: Vec<String> = std::env::args().collect();
    if arguments.len() < 3 {
        eprintln!("usage: bench PRODUCT REFERENCE [REPEATS]");
        return ExitCode::FAILURE;
    }
    if arguments[1] == "archive" && arguments.len() >= 5 {
        print_archive(&arguments[2..]);
        return ExitCode::SUCCESS;
    }
    let repeats = arguments.get(3).map_or(41, |n| n.parse().expect("REPEATS"));
    let (product, reference) = (Path::new(&arguments[1]), Path::new(&arguments[2]));
    print_table(product, reference, repeats);
    ExitCode::SUCCESS
}
