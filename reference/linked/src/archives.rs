//! Random archives, read, searched, added to, reported and printed as sheets by both.

use reference::archive::{add, find, read, title, COUNT_MOST, MARK, TITLE_MOST};
use reference::random::Random;
use reference::record::{CYCLE_LEAST, CYCLE_MOST, NUMBER_AT, RECORD_BYTES};
use reference::refusal::{ABSENT, ARCHIVE_TRAILER};
use reference::report::{report_to, INPUT_MOST, TEXT_ROOM};
use reference::samples::{busy, put_u32, random_record};
use reference::sheet::{sheets_to, SHEETS_ROOM};
use reference::vectors::archive::write;
use reference::vectors::buffer_before;

use linked::calls::{self, TitleAnswer, ValueAnswer};

use crate::same::{same, same_list, Same, Tally};

type Bytes = [u8; RECORD_BYTES];
type Filed = (Bytes, Vec<u8>);

/// `sheets` counts the numbers of the call that makes sheets, `tally` those of the others.
pub fn compare_archive(random: &mut Random, n: u32, tally: &mut Tally, sheets: &mut Tally) -> Same {
    let filed = filed(random, n);
    let whole = write(&filed);
    let archive = damaged(random, n, whole);
    let mut numbers = vec![0, 1, u32::MAX, random.draw() as u32];
    numbers.extend(filed.iter().take(6).map(|(bytes, _)| number_of(bytes)));
    numbers.extend(filed.last().map(|(bytes, _)| number_of(bytes)));
    compare_reading(&archive, random, tally)
        .and_then(|()| compare_finding(&archive, &numbers, tally))
        .and_then(|()| compare_adding(&archive, &filed, random, tally))
        .and_then(|()| compare_text(&REPORT, &archive, random, tally))
        .and_then(|()| compare_sheets(&archive, filed.len(), random, sheets))
        .map_err(|difference| format!("archive {n} of {} bytes: {difference}", archive.len()))
}

fn number_of(bytes: &Bytes) -> u32 {
    u32::from_le_bytes([bytes[0], bytes[1], bytes[2], bytes[3]])
}

/// Up to 15 records with rising numbers; now and then 511, 512 or 513.
fn filed(random: &mut Random, n: u32) -> Vec<Filed> {
    let records = match n % 300 {
        100 => COUNT_MOST - 1,
        200 => COUNT_MOST,
        299 => COUNT_MOST + 1,
        _ => random.below(16) as usize,
    };
    let mut number = 0;
    let mut one = || {
        number += random.between(1, 9);
        (record(random, number), good_title(random))
    };
    (0..records).map(|_| one()).collect()
}

fn record(random: &mut Random, number: u32) -> Bytes {
    let cycle = random.with_ends(CYCLE_LEAST, CYCLE_MOST);
    let mut bytes = match random.below(4) {
        0 => busy(cycle),
        _ => random_record(random, cycle),
    };
    if random.one_in(8) {
        let at = random.between(4, RECORD_BYTES as u32 - 1) as usize;
        bytes[at] = random.below(256) as u8;
    }
    put_u32(&mut bytes, NUMBER_AT, number);
    bytes
}

fn good_title(random: &mut Random) -> Vec<u8> {
    let length = random.with_ends(0, TITLE_MOST as u32);
    (0..length)
        .map(|_| random.with_ends(32, 126) as u8)
        .collect()
}

/// Half of the archives stay whole.
fn damaged(random: &mut Random, n: u32, mut archive: Vec<u8>) -> Vec<u8> {
    let at = random.below(archive.len() as u32) as usize;
    match n % 16 {
        0 => archive[at] ^= 1 << random.below(8),
        1 => archive[at] = random.below(256) as u8,
        2 => archive.truncate(at),
        3 => drop(archive.drain(..at)),
        4 => archive.insert(at, random.below(256) as u8),
        5 => archive.extend(MARK),
        6 => archive = noise(random, n),
        7 => bad_body(random, &mut archive),
        _ => (),
    }
    archive
}

/// Random bytes, some with a right mark, some longer than any archive.
fn noise(random: &mut Random, n: u32) -> Vec<u8> {
    let length = match n / 16 % 16 {
        0 => INPUT_MOST + random.below(3) as usize - 1,
        _ => random.below(240) as usize,
    };
    let mut bytes = random.bytes(length);
    if random.one_in(2) {
        bytes.extend(MARK);
    }
    bytes
}

/// The first record's number, title length or title is changed, where there is one.
fn bad_body(random: &mut Random, archive: &mut [u8]) {
    if archive.len() < 2 * RECORD_BYTES {
        return;
    }
    match random.below(3) {
        0 => put_u32(archive, NUMBER_AT, random.pick(&[0, u32::MAX])),
        1 => archive[RECORD_BYTES] = random.pick(&[0, 1, 40, 41, 255]),
        _ => archive[RECORD_BYTES + 1] = random.pick(&[0, 31, 127, 255]),
    }
}

fn told(result: Result<usize, u32>) -> (u32, usize) {
    match result {
        Ok(value) => (0, value),
        Err(number) => (number, 0),
    }
}

fn same_value(what: &str, library: ValueAnswer, result: Result<usize, u32>) -> Same {
    let (number, value) = told(result);
    same(&format!("{what}: number"), library.number, number)?;
    same(what, library.value, value)
}

/// The count, and places of some indices to past the end.
fn compare_reading(archive: &[u8], random: &mut Random, tally: &mut Tally) -> Same {
    let opened = read(archive);
    let count = opened.map(|a| a.count());
    tally.count(told(count).0);
    same_value("count", calls::archive_count(archive), count)?;
    let most = count.unwrap_or(3) as u32;
    let few = (0..20).chain([
        most.saturating_sub(1),
        most,
        most + 1,
        random.between(0, most),
    ]);
    for i in few.map(|i| i as usize).chain([usize::MAX]) {
        let place = match opened {
            Ok(a) if i < a.count() => Ok(a.place(i)),
            Ok(_) => Err(ABSENT),
            Err(number) => Err(number),
        };
        same_value(
            &format!("place {i}"),
            calls::archive_place(archive, i),
            place,
        )?;
    }
    Ok(())
}

fn compare_finding(archive: &[u8], numbers: &[u32], tally: &mut Tally) -> Same {
    for &number in numbers {
        let found = find(archive, number);
        tally.count(told(found).0);
        same_value(
            &format!("find {number}"),
            calls::archive_find(archive, number),
            found,
        )?;
        let library = calls::archive_title(archive, number);
        same_title(&format!("title {number}"), library, archive, number)?;
    }
    Ok(())
}

/// The reference hands back a part of the archive: its place is that of its first byte.
fn same_title(what: &str, library: TitleAnswer, archive: &[u8], number: u32) -> Same {
    let expected = title(archive, number);
    let place = expected.as_ptr() as usize - archive.as_ptr() as usize;
    same(what, library.number, told(find(archive, number)).0)?;
    same(&format!("{what}: place"), library.place, place)?;
    same(&format!("{what}: length"), library.length, expected.len())
}

/// Records, titles and rooms right and wrong; the whole buffer is compared.
fn compare_adding(archive: &[u8], filed: &[Filed], random: &mut Random, tally: &mut Tally) -> Same {
    let last = filed.last().map_or(0, |(bytes, _)| number_of(bytes));
    for _ in 0..4 {
        let bytes = new_record(random, last);
        let title = new_title(random);
        let room = room(random, archive.len() + bytes.len() + title.len() + 3);
        let mut buffer = buffer_before(room);
        let library = calls::archive_add(archive, &bytes, &title, &mut buffer);
        let mut buffer2 = buffer_before(room);
        let added = add(archive, &bytes, &title, &mut buffer2);
        tally.count(told(added).0);
        same_value("add", library, added)?;
        same_list("buffer", &buffer, &buffer2)?;
    }
    Ok(())
}

fn new_record(random: &mut Random, last: u32) -> Vec<u8> {
    let number = match random.below(8) {
        0 => 0,
        1 => last,
        2 => u32::MAX,
        _ => last + random.between(1, 9),
    };
    let mut bytes = record(random, number).to_vec();
    if random.one_in(8) {
        bytes.resize(random.pick(&[0, 3, 67, 69, 136]), 7);
    }
    bytes
}

fn new_title(random: &mut Random) -> Vec<u8> {
    let mut title = good_title(random);
    match random.below(12) {
        0 => title.resize(TITLE_MOST + random.between(1, 300) as usize, b'x'),
        1 => title.push(random.pick(&[0, 31, 126, 127, 255])),
        _ => (),
    }
    title
}

/// Just enough, one more or less, much more, none.
fn room(random: &mut Random, enough: usize) -> usize {
    match random.below(8) {
        0 => enough - 1,
        1 => enough + 1,
        2 => enough + random.below(90) as usize,
        3 => random.with_ends(0, enough as u32) as usize,
        _ => enough,
    }
}

/// A call that writes a text of an archive to a lent buffer: its name, the room that it asks for, the library's and the
/// reference's.
struct Text {
    name: &'static str,
    room: usize,
    library: fn(&[u8], &mut [u8]) -> ValueAnswer,
    reference: fn(&[u8], &mut [u8]) -> Result<usize, u32>,
}

const REPORT: Text = Text {
    name: "report",
    room: TEXT_ROOM,
    library: calls::archive_report,
    reference: report_to,
};

const SHEETS: Text = Text {
    name: "sheets",
    room: SHEETS_ROOM,
    library: calls::archive_sheets,
    reference: sheets_to,
};

/// The sheets are long: of one archive in sixteen, of the full ones and of too long input.
fn compare_sheets(archive: &[u8], records: usize, random: &mut Random, tally: &mut Tally) -> Same {
    let rare = records == COUNT_MOST || archive.len() > INPUT_MOST;
    if !rare && !random.one_in(16) {
        return Ok(());
    }
    compare_text(&SHEETS, archive, random, tally)
}

/// The text in a buffer that holds every text, with bytes beyond; a shorter one is refused and stays, also where the text would fit.
fn compare_text(text: &Text, archive: &[u8], random: &mut Random, tally: &mut Tally) -> Same {
    let roomy = text.room + random.pick(&[0, 1, 70]);
    let short = random.pick(&[text.room - 1, text.room / 4 * 3, 4000, 30, 0]);
    for room in [roomy, short] {
        let mut expected = buffer_before(room);
        let mut told_text = buffer_before(room);
        let length = (text.reference)(archive, &mut expected);
        tally.count(told(length).0);
        let library = (text.library)(archive, &mut told_text);
        same_value(text.name, library, length)?;
        same_list(text.name, &told_text, &expected)?;
        if room >= text.room && archive.len() > INPUT_MOST {
            let line = format!("drawer refused {ARCHIVE_TRAILER}\n");
            same_list(
                "text of long input",
                &told_text[..line.len()],
                line.as_bytes(),
            )?;
        }
    }
    Ok(())
}
