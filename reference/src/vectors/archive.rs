//! Vectors of reading, finding and adding.

use super::{buffer_before, product, Body, File};
use crate::archive::{add, find, read, title, COUNT_MOST, EMPTY, MARK, TITLE_MOST, TRAILER_END};
use crate::random::Random;
use crate::record::{NUMBER_AT, RECORD_BYTES};
use crate::samples::{put_u32, RecordBytes};

const SEED: u64 = 0x0101_a2c4;

const READ: u8 = 1;
const FIND: u8 = 2;
const ADD: u8 = 3;

/// A record with its title.
type Filed = (RecordBytes, Vec<u8>);
type Change = fn(&mut Vec<Filed>);

pub fn file() -> File {
    let mut file = File::default();
    let mut random = Random::new(SEED);
    add_good(&mut file, &mut random);
    add_title_lengths(&mut file, &mut random);
    add_title_bytes(&mut file, &mut random);
    add_full(&mut file, &mut random);
    add_bad_ends(&mut file, &mut random);
    add_bad_bodies(&mut file, &mut random);
    add_damaged(&mut file, &mut random);
    add_noise(&mut file, &mut random);
    add_additions(&mut file, &mut random);
    add_refused_additions(&mut file, &mut random);
    let archive = write(&filed(&mut random, &[3, 5, 9]));
    file.push("wrong".into(), read_case(&archive, 1).1);
    file
}

/// The bytes of an archive, put together without the library's adding.
pub fn write(filed: &[Filed]) -> Vec<u8> {
    let mut body = Vec::new();
    let mut places = Vec::new();
    for (record, title) in filed {
        places.extend((body.len() as u16).to_le_bytes());
        body.extend(record);
        body.push(title.len() as u8);
        body.extend(title);
    }
    end(body, &places, filed.len())
}

/// A body with its trailer: places, count, the trailer's own place, mark.
fn end(body: Vec<u8>, places: &[u8], count: usize) -> Vec<u8> {
    let own = (body.len() as u16).to_le_bytes();
    [&body, places, &(count as u16).to_le_bytes(), &own, &MARK].concat()
}

/// Any bytes but for the number.
fn any_record(random: &mut Random, number: u32) -> RecordBytes {
    let mut record = [0; RECORD_BYTES];
    record.copy_from_slice(&random.bytes(RECORD_BYTES));
    put_u32(&mut record, NUMBER_AT, number);
    record
}

fn good_title(random: &mut Random, length: usize) -> Vec<u8> {
    (0..length)
        .map(|_| random.with_ends(32, 126) as u8)
        .collect()
}

/// Records with these numbers and titles of some bytes.
fn filed(random: &mut Random, numbers: &[u32]) -> Vec<Filed> {
    let one = |&number: &u32| {
        let length = random.below(7) as usize;
        (any_record(random, number), good_title(random, length))
    };
    numbers.iter().map(one).collect()
}

fn start(kind: u8, archive: &[u8]) -> Body {
    let mut body = Body::default();
    body.byte(kind);
    body.count(archive.len());
    body.bytes(archive);
    body
}

/// Reading; `off` is added to the last place.
fn read_case(archive: &[u8], off: usize) -> (u32, Body) {
    let mut body = start(READ, archive);
    let result = read(archive);
    let number = result.err().unwrap_or(0);
    let mut places: Vec<usize> = result.map_or(Vec::new(), |a| a.records().collect());
    if let Some(last) = places.last_mut() {
        *last += off;
    }
    body.word(number);
    body.count(places.len());
    body.counts(&places);
    (number, body)
}

fn add_read(file: &mut File, archive: &[u8]) {
    let (number, body) = read_case(archive, 0);
    file.push(format!("read {number}"), body);
}

fn add_find(file: &mut File, archive: &[u8], record_number: u32) {
    let mut body = start(FIND, archive);
    let result = find(archive, record_number);
    let number = result.err().unwrap_or(0);
    let title = title(archive, record_number);
    body.word(record_number);
    body.word(number);
    body.count(result.unwrap_or(0));
    body.count(title.len());
    body.bytes(title);
    file.push(format!("find {number}"), body);
}

fn add_add(file: &mut File, archive: &[u8], record: &[u8], title: &[u8], room: usize) {
    let mut body = start(ADD, archive);
    let mut buffer = buffer_before(room);
    let result = add(archive, record, title, &mut buffer);
    let number = result.err().unwrap_or(0);
    body.count(record.len());
    body.bytes(record);
    body.count(title.len());
    body.bytes(title);
    body.count(room);
    body.word(number);
    body.count(result.unwrap_or(0));
    body.bytes(&buffer);
    file.push(format!("add {number}"), body);
}

/// Empty, one, some and many records; first, middle, last and absent numbers.
fn add_good(file: &mut File, random: &mut Random) {
    let many: Vec<u32> = (1..40).map(|n| n * n).collect();
    let lists: [&[u32]; 7] = [
        &[],
        &[1],
        &[u32::MAX],
        &[1, 2],
        &[7, 256, 65536, 16777216],
        &[1, u32::MAX],
        &many,
    ];
    for numbers in lists {
        let archive = write(&filed(random, numbers));
        add_read(file, &archive);
        add_finds(file, &archive, numbers);
    }
}

fn add_finds(file: &mut File, archive: &[u8], numbers: &[u32]) {
    let near = numbers
        .iter()
        .flat_map(|&n| [n, n.wrapping_add(1), n - 1])
        .take(12);
    for number in near.chain(numbers.last().copied()).chain([0, u32::MAX]) {
        add_find(file, archive, number);
    }
}

/// Filed titles of every length.
fn add_title_lengths(file: &mut File, random: &mut Random) {
    for length in 0..=TITLE_MOST + 2 {
        let mut records = filed(random, &[4, 6]);
        records[0].1 = good_title(random, length);
        let archive = write(&records);
        add_read(file, &archive);
        add_find(file, &archive, 4);
    }
}

/// Titles with a byte next to the range at their start, middle and end.
fn add_title_bytes(file: &mut File, random: &mut Random) {
    let places = |length: usize| [0, length / 2, length - 1].map(|at| (length, at));
    let places = [1, 17, TITLE_MOST].map(places).concat();
    for (byte, (length, at)) in product(&[0, 31, 32, 126, 127, 255], &places) {
        let mut title = good_title(random, length);
        title[at] = byte;
        add_title(file, random, &title, at % 2);
    }
}

/// A title of filed record 0 or 1, then of a new one.
fn add_title(file: &mut File, random: &mut Random, title: &[u8], of: usize) {
    let mut records = filed(random, &[2, 3]);
    records[of].1 = title.to_vec();
    add_find(file, &write(&records), 2 + of as u32);
    let new = any_record(random, 1);
    add_add(file, &EMPTY, &new, title, 77 + title.len());
}

/// Archives of 511 and 512 records.
fn add_full(file: &mut File, random: &mut Random) {
    let untitled: Vec<Filed> = (1..=COUNT_MOST as u32)
        .map(|n| (any_record(random, 3 * n), Vec::new()))
        .collect();
    let titled: Vec<Filed> = untitled
        .iter()
        .map(|(record, _)| (*record, good_title(random, TITLE_MOST)))
        .collect();
    let full = write(&untitled);
    add_read(file, &write(&titled));
    add_read(file, &full);
    for number in [3, 768, 1536, 1537] {
        add_find(file, &full, number);
    }
    let new = any_record(random, 1537);
    add_add(file, &full, &new, b"", full.len() + 71);
    add_add(file, &full, &new, b"", full.len() + 70);
    add_add(file, &full, &untitled[0].0, b"", 0);
    add_add(file, &full, &new, &[127], 0);
    add_add(file, &full, &new[..67], b"", 0);
    let nearly = write(&untitled[..COUNT_MOST - 1]);
    add_add(
        file,
        &nearly,
        &untitled[COUNT_MOST - 1].0,
        b"last",
        nearly.len() + 75,
    );
    let mut over = untitled;
    over.push((new, Vec::new()));
    add_read(file, &write(&over));
}

/// Refusals 1 and 2, alone and with others.
fn add_bad_ends(file: &mut File, random: &mut Random) {
    add_too_short(file);
    let good = write(&filed(random, &[1, 2, 3]));
    add_changed_ends(file, &good);
    add_read(file, &end(Vec::new(), &[0; 2 * COUNT_MOST], COUNT_MOST));
    add_read(
        file,
        &end(Vec::new(), &[0; 2 * COUNT_MOST + 2], COUNT_MOST + 1),
    );
    add_read(file, &[&[0], &good[..]].concat());
    add_read(file, &[&good[..], &[0]].concat());
    add_read(file, &[&good[..], &MARK].concat());
    add_read(file, &[&good[..], &good[..]].concat());
}

/// Fewer than six bytes, with a right mark where it fits.
fn add_too_short(file: &mut File) {
    for length in 0..6 {
        add_read(file, &[MARK, MARK, MARK].concat()[6 - length..]);
    }
}

/// Another mark, count or place of the trailer, also before a title length over 40.
fn add_changed_ends(file: &mut File, good: &[u8]) {
    let changes: [(usize, &[u8]); 12] = [
        (4, &[69]),
        (4, &[82]),
        (5, &[83]),
        (5, &[68]),
        (4, &[82, 68]),
        (0, &[2]),
        (0, &[4]),
        (0, &[1, 2]),
        (0, &[3, 1]),
        (2, &[0]),
        (3, &[1]),
        (0, &[255, 255, 255, 255]),
    ];
    for (offset, bytes) in changes {
        let at = good.len() - TRAILER_END + offset;
        let mut archive = good.to_vec();
        archive[at..at + bytes.len()].copy_from_slice(bytes);
        add_read(file, &archive);
        add_find(file, &archive, 2);
        archive[RECORD_BYTES] = 41;
        add_read(file, &archive);
    }
}

/// Refusals 3, 4 and 5, alone and two or three at once.
fn add_bad_bodies(file: &mut File, random: &mut Random) {
    let records = filed(random, &[10, 20, 30]).into_iter();
    let records: Vec<Filed> = records.map(|(r, _)| (r, b"ab".to_vec())).collect();
    let threes: [Change; 3] = [|r| r[2].1 = vec![32; 41], |r| r[0].1 = vec![32; 41], |_| ()];
    let fours: [Change; 4] = [
        |r| r[0].1[1] = 31,
        |r| r[2].1[0] = 127,
        |r| r[1].1 = vec![200; 40],
        |_| (),
    ];
    let fives: [Change; 5] = [
        |r| put_u32(&mut r[0].0, NUMBER_AT, 0),
        |r| put_u32(&mut r[1].0, NUMBER_AT, 10),
        |r| put_u32(&mut r[2].0, NUMBER_AT, 19),
        |r| put_u32(&mut r[2].0, NUMBER_AT, 0),
        |_| (),
    ];
    for ((three, four), five) in product(&product(&threes, &fours), &fives) {
        let mut changed = records.clone();
        five(&mut changed);
        four(&mut changed);
        three(&mut changed);
        let archive = write(&changed);
        add_read(file, &archive);
        add_find(file, &archive, 20);
    }
    add_misplaced(file, &write(&records)[..213]);
}

/// Records that do not run as placed; `body` holds three of 71 bytes each.
fn add_misplaced(file: &mut File, body: &[u8]) {
    add_other_places(file, body);
    add_other_lengths(file, body);
    add_read(file, &end(body.to_vec(), &places([0, 71, 142])[..4], 2));
    add_read(file, &end(body.to_vec(), &[], 0));
    add_read(file, &end(vec![0], &[], 0));
    add_read(file, &end(body[..142].to_vec(), &places([0, 71, 142]), 3));
    add_other_title_lengths(file, body);
}

fn places(places: [u16; 3]) -> Vec<u8> {
    places.map(u16::to_le_bytes).concat()
}

fn add_other_places(file: &mut File, body: &[u8]) {
    for at in [
        [0, 71, 141],
        [0, 71, 143],
        [1, 71, 142],
        [0, 142, 71],
        [71, 142, 0],
        [0, 0, 0],
    ] {
        add_read(file, &end(body.to_vec(), &places(at), 3));
    }
}

fn add_other_lengths(file: &mut File, body: &[u8]) {
    for length in [212, 214, 141, 142, 0] {
        let mut resized = body.to_vec();
        resized.resize(length, 0);
        add_read(file, &end(resized, &places([0, 71, 142]), 3));
    }
}

/// Lengths of the last title.
fn add_other_title_lengths(file: &mut File, body: &[u8]) {
    for length in [1, 3, 40, 41, 255] {
        let mut changed = body.to_vec();
        changed[142 + RECORD_BYTES] = length;
        add_read(file, &end(changed, &places([0, 71, 142]), 3));
    }
}

/// Each byte of a small archive damaged; the archive cut at each length, at both ends.
fn add_damaged(file: &mut File, random: &mut Random) {
    let good = write(&filed(random, &[1, 2, 300]));
    for at in 0..good.len() {
        let any = random.between(1, 255) as u8;
        add_damaged_at(file, &good, at, [1, 128, any]);
        add_read(file, &good[..at]);
        add_read(file, &good[at..]);
    }
}

fn add_damaged_at(file: &mut File, good: &[u8], at: usize, changes: [u8; 3]) {
    for change in changes {
        let mut damaged = good.to_vec();
        damaged[at] ^= change;
        add_read(file, &damaged);
        if change == 1 {
            add_find(file, &damaged, 2);
        }
    }
}

fn add_noise(file: &mut File, random: &mut Random) {
    for n in 0..120 {
        let noise = noise(random, n);
        add_read(file, &noise);
        let number = random.below(3);
        add_find(file, &noise, number);
    }
}

/// Random bytes, bare, before a right mark and before a right trailer in turn.
fn noise(random: &mut Random, n: u32) -> Vec<u8> {
    let length = random.below(240) as usize;
    let noise = random.bytes(length);
    match n % 3 {
        0 => noise,
        1 => [&noise[..], &MARK].concat(),
        _ => {
            let count = random.below(4) as usize;
            let places = random.bytes(2 * count);
            end(noise, &places, count)
        }
    }
}

/// Adding one after another, then other numbers and titles.
fn add_additions(file: &mut File, random: &mut Random) {
    let records = add_growing(file, random);
    add_new_numbers(file, random, &write(&records));
    add_new_titles(file, random);
    add_add(file, &EMPTY, &any_record(random, 0), b"", 77);
    add_add(file, &EMPTY, &any_record(random, u32::MAX), b"", 77);
    let last = write(&filed(random, &[u32::MAX]));
    add_add(file, &last, &any_record(random, u32::MAX), b"", 300);
}

/// Eight records, each added to those before it.
fn add_growing(file: &mut File, random: &mut Random) -> Vec<Filed> {
    let mut records = Vec::new();
    for n in 0..8 {
        let record = any_record(random, 5 * n + 1);
        let title = good_title(random, 5 * n as usize);
        add_rooms(file, &write(&records), &record, &title);
        records.push((record, title));
    }
    records
}

/// Buffers short by one, exact, longer and none.
fn add_rooms(file: &mut File, old: &[u8], record: &RecordBytes, title: &[u8]) {
    let length = old.len() + 71 + title.len();
    for room in [length, length - 1, length + 1, length + 60, 0] {
        add_add(file, old, record, title, room);
    }
}

/// Numbers next to the last, which is 36, and far from it.
fn add_new_numbers(file: &mut File, random: &mut Random, old: &[u8]) {
    for number in [0, 1, 35, 36, 37, 1 << 24, u32::MAX] {
        let record = any_record(random, number);
        add_add(file, old, &record, b"number", old.len() + 77);
    }
}

/// New titles of every length.
fn add_new_titles(file: &mut File, random: &mut Random) {
    for length in 0..=TITLE_MOST + 2 {
        let title = good_title(random, length);
        add_add(file, &EMPTY, &any_record(random, 9), &title, 77 + length);
    }
}

/// Refusals of adding alone and two at once, also after a refused archive.
fn add_refused_additions(file: &mut File, random: &mut Random) {
    let good = write(&filed(random, &[5, 6]));
    let mut number = good.clone();
    put_u32(&mut number, NUMBER_AT, 7);
    let mut places = good.clone();
    places[RECORD_BYTES] = 200;
    let archives = [
        &good[..],
        &good[1..],
        &good[..good.len() - 1],
        &number,
        &places,
    ];
    let new = any_record(random, 7);
    let low = any_record(random, 6);
    let long = [&new[..], &[0]].concat();
    let records = [&new[..], &new[..67], &long, &[], &low];
    let titles = [&good_title(random, 3)[..], &[b' '; 41], &[31]];
    let added = product(&product(&archives, &records), &titles);
    for (((archive, record), title), more) in product(&added, &[71, 70]) {
        add_add(
            file,
            archive,
            record,
            title,
            archive.len() + more + title.len(),
        );
    }
}
