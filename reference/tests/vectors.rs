//! The vectors: read back by their formats and run again.

mod reader;

use reference::archive;
use reference::balance::{balance, check_volumes, pair_flows, Four, Outcome, ROUND_LIMIT};
use reference::discharge::discharge;
use reference::dispersion::{disperse_cycles, Ending};
use reference::points::{work_points, Point, Points};
use reference::record::{decode, Seeds};
use reference::samples::RecordBytes;
use reference::sheet::sheet;
use reference::vectors::rest::{late_to_rest, slow_to_rest, soon_at_rest, to_rest};
use reference::vectors::{all, buffer_before, profile_before};
use reference::working::{work, Refused, Working};

use reader::{cases, Reader};

fn discharge_agrees(body: &mut Reader) -> bool {
    let length = body.number(2) as usize;
    let record = body.bytes(length);
    let mut profile = profile_before(3_000_000_000, body.number(2) as usize);
    let result = discharge(record, &mut profile);
    body.word() == result.err().unwrap_or(0)
        && body.words(3) == result.unwrap_or([0; 3])
        && body.words(profile.len()) == profile
}

fn archive_agrees(body: &mut Reader) -> bool {
    let kind = body.number(1);
    let length = body.count();
    let bytes = body.bytes(length);
    match kind {
        1 => read_agrees(body, bytes),
        2 => find_agrees(body, bytes),
        _ => add_agrees(body, bytes),
    }
}

fn read_agrees(body: &mut Reader, bytes: &[u8]) -> bool {
    let result = archive::read(bytes);
    let places = result.map_or(Vec::new(), |archive| archive.records().collect());
    let agrees = body.word() == result.err().unwrap_or(0) && body.count() == places.len();
    agrees && places.iter().all(|&place| body.count() == place)
}

fn find_agrees(body: &mut Reader, bytes: &[u8]) -> bool {
    let number = body.word();
    let result = archive::find(bytes, number);
    let title = archive::title(bytes, number);
    body.word() == result.err().unwrap_or(0)
        && body.count() == result.unwrap_or(0)
        && body.count() == title.len()
        && body.bytes(title.len()) == title
}

fn add_agrees(body: &mut Reader, bytes: &[u8]) -> bool {
    let length = body.count();
    let record = body.bytes(length);
    let length = body.count();
    let title = body.bytes(length);
    let mut buffer = buffer_before(body.count());
    let result = archive::add(bytes, record, title, &mut buffer);
    body.word() == result.err().unwrap_or(0)
        && body.count() == result.unwrap_or(0)
        && body.bytes(buffer.len()) == buffer
}

fn balance_agrees(body: &mut Reader) -> bool {
    let [volumes, exits] = [(); 2].map(|_| body.words(4).try_into().unwrap());
    let seeds = [(); 4].map(|_| body.bytes(4).try_into().unwrap());
    let (head, cells) = balanced(&volumes, &exits, &seeds);
    let flows = match head[0] {
        0 => pair_flows(&volumes, &cells).concat(),
        _ => vec![0; 16],
    };
    let cells = cells.concat();
    [4, 4, 4, 8].map(|width| body.number(width)) == head
        && cells.iter().all(|cell| body.number(8) == cell.to_bits())
        && body.words(16) == flows
}

/// Number of refusal, outcome, rounds and bits of the last sum; the cells.
fn balanced(volumes: &[u32; 4], exits: &[u32; 4], seeds: &Seeds) -> ([u64; 4], [Four; 4]) {
    if let Err(number) = check_volumes(volumes, exits, seeds) {
        return ([u64::from(number), 2, 0, 0], [[0.0; 4]; 4]);
    }
    let found = balance(volumes, exits, seeds, ROUND_LIMIT);
    let rounds = u64::from(found.rounds);
    let head = match found.outcome {
        Outcome::Settled(sum) => [0, 1, rounds, sum.to_bits()],
        Outcome::Unsettled(sum) => [15, 0, rounds, sum.to_bits()],
    };
    (head, found.cells)
}

fn working_agrees(body: &mut Reader) -> bool {
    let length = body.number(2) as usize;
    let record = body.bytes(length);
    let mut profiles = [3_000_000_000, 3_100_000_000, 3_200_000_000]
        .map(|start| profile_before(start, body.count()));
    let [output, first, second] = &mut profiles;
    let numbers = match work(record, output, first, second) {
        Err(refused) => refused_numbers(&refused),
        Ok(working) => working_numbers(&working),
    };
    let widths = [&[4, 8][..], &[4; 18], &[8, 8, 4, 8, 8, 4, 8, 8, 4, 8, 4]].concat();
    let agrees = widths
        .iter()
        .zip(&numbers)
        .all(|(&width, &number)| body.number(width) == number);
    assert_eq!(widths.len(), numbers.len());
    agrees
        && profiles
            .iter()
            .all(|profile| body.words(profile.len()) == *profile)
}

fn points_agree(body: &mut Reader) -> bool {
    let length = body.number(2) as usize;
    let record = body.bytes(length);
    let points = read_points(body);
    let mut profiles = [3_000_000_000, 3_300_000_000, 3_100_000_000, 3_200_000_000]
        .map(|start| profile_before(start, body.count()));
    let [output, passing, first, second] = &mut profiles;
    let result = work_points(record, &points, output, passing, first, second);
    body.word() == result.err().map_or(0, |refused| refused.number)
        && body.words(8) == result.map_or([0; 8], |worked| worked.blocked)
        && profiles
            .iter()
            .all(|profile| body.words(profile.len()) == *profile)
}

fn sheet_agrees(body: &mut Reader) -> bool {
    let length = body.number(2) as usize;
    let record = body.bytes(length);
    let mut page = buffer_before(body.count());
    let mut profiles = [3_000_000_000, 3_100_000_000, 3_200_000_000]
        .map(|start| profile_before(start, body.count()));
    let [output, first, second] = &mut profiles;
    let (number, last_sum) = match sheet(record, &mut page, output, first, second) {
        Err(refused) => (refused.number, refused.last_sum),
        Ok(working) => (0, working.last_sum),
    };
    body.word() == number
        && body.number(8) == last_sum.to_bits()
        && body.bytes(page.len()) == page
        && profiles
            .iter()
            .all(|profile| body.words(profile.len()) == *profile)
}

fn read_points(body: &mut Reader) -> Points {
    let count = body.word();
    let at = [(); 8].map(|_| Point {
        running: body.word(),
        headway: body.word(),
    });
    Points { count, at }
}

fn refused_numbers(refused: &Refused) -> Vec<u64> {
    let mut numbers = vec![0; 31];
    numbers[0] = u64::from(refused.number);
    numbers[1] = refused.last_sum.to_bits();
    numbers
}

fn working_numbers(working: &Working) -> Vec<u64> {
    let mut numbers = vec![0, working.last_sum.to_bits()];
    numbers.extend([working.shift, working.rounds].map(u64::from));
    numbers.extend(working.flows.concat().into_iter().map(u64::from));
    for exit in working.exits {
        numbers.extend([exit.total, exit.green, u64::from(exit.permille)]);
    }
    numbers.extend([working.access_total, u64::from(working.blocked)]);
    numbers
}

/// The cases that differ; a case that agrees is read to its end.
fn differing(bytes: &[u8], agrees: fn(&mut Reader) -> bool) -> Vec<usize> {
    let mut differing = Vec::new();
    for (case, mut body) in cases(bytes).into_iter().enumerate() {
        if !agrees(&mut body) {
            differing.push(case);
        } else {
            assert!(body.is_empty());
        }
    }
    differing
}

#[test]
fn only_the_last_case_differs() {
    let agrees = [
        discharge_agrees,
        archive_agrees,
        balance_agrees,
        working_agrees,
        points_agree,
        sheet_agrees,
    ];
    for ((name, file), agrees) in all().iter().zip(agrees) {
        let last = file.len() - 1;
        assert_eq!(differing(&file.bytes(), agrees), [last], "{name}");
        let expected = format!("case {last} differs\n{} cases, 1 differs\n", last + 1);
        assert_eq!(file.expected(), expected);
    }
}

#[test]
fn the_same_each_time_and_small() {
    let most = [900_000, 1_500_000, 400_000, 3_000_000, 1_200_000, 1_300_000];
    for (((name, one), (_, two)), most) in all().iter().zip(&all()).zip(most) {
        let bytes = one.bytes();
        assert!(bytes == two.bytes() && bytes.len() <= most, "{name}");
    }
}

#[test]
fn every_refusal_is_met() {
    let labels: [&[&str]; 6] = [
        &["0", "6", "7", "8", "9", "10", "11", "12", "16"],
        &[
            "read 0", "read 1", "read 2", "read 3", "read 4", "read 5", "find 0", "find 1",
            "find 2", "find 3", "find 4", "find 5", "find 6", "add 0", "add 1", "add 2", "add 3",
            "add 4", "add 5", "add 6", "add 17", "add 18",
        ],
        &["0", "13", "14", "15"],
        &[
            "0", "6", "7", "8", "9", "10", "11", "12", "13", "14", "15", "16",
        ],
        &[
            "0", "6", "7", "8", "9", "10", "11", "12", "13", "14", "15", "16", "19", "20",
        ],
        &[
            "0", "6", "7", "8", "9", "10", "11", "12", "13", "14", "15", "16", "21",
        ],
    ];
    for ((name, file), labels) in all().iter().zip(labels) {
        let lacking: Vec<&&str> = labels
            .iter()
            .filter(|&&label| !file.tally.contains_key(label))
            .collect();
        assert!(lacking.is_empty(), "{name} lacks {lacking:?}");
        assert_eq!(file.tally.len(), labels.len() + 1);
    }
}

/// The right entry's arrivals in one of the cycles of a record of 30 steps.
fn right_arrivals(bytes: &RecordBytes, cycle: usize) -> Vec<u32> {
    let mut leaving = [0; 90];
    discharge(bytes, &mut leaving).unwrap();
    let (time, all) = (decode(bytes).unwrap().running_time, Ending::AllCycles);
    let (mut first, mut second) = ([0; 30], [0; 30]);
    disperse_cycles(&leaving[60..], time, cycle, all, &mut first, &mut second).to_vec()
}

/// Cycles that are the same for long, and the last is another: by arrivals alone no end could be told.
#[test]
fn the_last_cycle_is_another() {
    for record in late_to_rest() {
        let [early, before, last] = [26, 64, 65].map(|cycle| right_arrivals(&record, cycle));
        assert!(early == before && before != last);
        let (mut output, mut first, mut second) = ([0; 120], [0; 30], [0; 30]);
        work(&record, &mut output, &mut first, &mut second).unwrap();
        assert_eq!((&first[..], &second[..]), (&last[..], &before[..]));
    }
}

/// The records that are there for how soon they come to rest do so.
#[test]
fn late_and_soon_at_rest() {
    for record in slow_to_rest() {
        let most = (0..3).map(|i| to_rest(&record, i)).max();
        assert!(most >= Some(20), "{most:?}");
    }
    for record in soon_at_rest() {
        assert_eq!([0, 1, 2].map(|i| to_rest(&record, i)), [3; 3]);
    }
}
