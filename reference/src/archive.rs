//! Archives of segment records (paper: drawers).

use crate::record::{read_u16, read_u32, NUMBER_AT, RECORD_BYTES};
use crate::refusal::{self, Refusal};

pub const MARK: [u8; 2] = [68, 82];
pub const COUNT_MOST: usize = 512;
pub const TITLE_MOST: usize = 40;
/// Count, the trailer's own place and the mark.
pub const TRAILER_END: usize = 6;
/// A record with its title length.
const FILED_BYTES: usize = RECORD_BYTES + 1;

/// The empty archive.
pub const EMPTY: [u8; 6] = [0, 0, 0, 0, MARK[0], MARK[1]];

/// An archive that reads.
#[derive(Clone, Copy, Debug)]
pub struct Archive<'a> {
    bytes: &'a [u8],
    count: usize,
    trailer: usize,
}

/// Reads an archive: refusals 1 to 5.
pub fn read(bytes: &[u8]) -> Result<Archive<'_>, Refusal> {
    let archive = read_end(bytes)?;
    archive.check_places()?;
    if !archive
        .records()
        .all(|place| good_title(archive.title_at(place)))
    {
        return Err(refusal::TITLE);
    }
    archive.check_numbers()?;
    Ok(archive)
}

fn read_end(bytes: &[u8]) -> Result<Archive<'_>, Refusal> {
    let length = bytes.len();
    if length < TRAILER_END || bytes[length - 2..] != MARK {
        return Err(refusal::ARCHIVE_MARK);
    }
    let count = read_u16(bytes, length - 6) as usize;
    let trailer = read_u16(bytes, length - 4) as usize;
    if count > COUNT_MOST || trailer + 2 * count + TRAILER_END != length {
        return Err(refusal::ARCHIVE_TRAILER);
    }
    Ok(Archive {
        bytes,
        count,
        trailer,
    })
}

fn title_at(bytes: &[u8], place: usize) -> &[u8] {
    let start = place + FILED_BYTES;
    &bytes[start..start + usize::from(bytes[start - 1])]
}

fn good_title(title: &[u8]) -> bool {
    title.iter().all(|byte| (32..=126).contains(byte))
}

impl<'a> Archive<'a> {
    pub fn count(&self) -> usize {
        self.count
    }

    /// Place of the `i`th record, counted from 0.
    pub fn place(&self, i: usize) -> usize {
        read_u16(self.bytes, self.trailer + 2 * i) as usize
    }

    /// The places in order.
    pub fn records(self) -> impl Iterator<Item = usize> + 'a {
        (0..self.count).map(move |i| self.place(i))
    }

    pub fn record_at(&self, place: usize) -> &'a [u8] {
        &self.bytes[place..place + RECORD_BYTES]
    }

    pub fn number_at(&self, place: usize) -> u32 {
        read_u32(self.bytes, place + NUMBER_AT)
    }

    pub fn title_at(&self, place: usize) -> &'a [u8] {
        title_at(self.bytes, place)
    }

    /// Refusal 3: the records run from 0 to the trailer as placed, titles to 40.
    fn check_places(&self) -> Result<(), Refusal> {
        let mut at = 0;
        for i in 0..self.count {
            if self.place(i) != at || at + FILED_BYTES > self.trailer {
                return Err(refusal::ARCHIVE_PLACES);
            }
            let title = usize::from(self.bytes[at + RECORD_BYTES]);
            at += FILED_BYTES + title;
            if title > TITLE_MOST || at > self.trailer {
                return Err(refusal::ARCHIVE_PLACES);
            }
        }
        if at != self.trailer {
            return Err(refusal::ARCHIVE_PLACES);
        }
        Ok(())
    }

    /// Refusal 5: numbers from 1, rising.
    fn check_numbers(&self) -> Result<(), Refusal> {
        let mut before = 0;
        for place in self.records() {
            let number = self.number_at(place);
            if number <= before {
                return Err(refusal::NUMBER);
            }
            before = number;
        }
        Ok(())
    }

    /// The last number filed, 0 if none.
    fn last_number(&self) -> u32 {
        self.records()
            .last()
            .map_or(0, |place| self.number_at(place))
    }

    fn find(&self, number: u32) -> Result<usize, Refusal> {
        let mut places = self.records();
        places
            .find(|&place| self.number_at(place) == number)
            .ok_or(refusal::ABSENT)
    }
}

/// Looks a number up: the place of its record.
pub fn find(bytes: &[u8], number: u32) -> Result<usize, Refusal> {
    read(bytes)?.find(number)
}

/// The title of a record, empty where finding refuses.
pub fn title(bytes: &[u8], number: u32) -> &[u8] {
    match find(bytes, number) {
        Ok(place) => title_at(bytes, place),
        Err(_) => &bytes[..0],
    }
}

/// Refusals of adding, after the archive itself is read.
fn check_add(old: &Archive, record: &[u8], title: &[u8], room: usize) -> Result<usize, Refusal> {
    if record.len() != RECORD_BYTES {
        return Err(refusal::RECORD_LENGTH);
    }
    if title.len() > TITLE_MOST || !good_title(title) {
        return Err(refusal::TITLE);
    }
    if read_u32(record, NUMBER_AT) <= old.last_number() {
        return Err(refusal::NUMBER);
    }
    let length = old.bytes.len() + FILED_BYTES + title.len() + 2;
    if room < length {
        return Err(refusal::BUFFER);
    }
    if old.count == COUNT_MOST {
        return Err(refusal::FULL);
    }
    Ok(length)
}

/// Writes the old archive plus one record to `buffer`; gives the new length.
pub fn add(bytes: &[u8], record: &[u8], title: &[u8], buffer: &mut [u8]) -> Result<usize, Refusal> {
    let old = read(bytes)?;
    let length = check_add(&old, record, title, buffer.len())?;
    let count = old.count as u16 + 1;
    let trailer = (old.trailer + FILED_BYTES + title.len()) as u16;
    let places = &bytes[old.trailer..bytes.len() - TRAILER_END];
    let parts: [&[u8]; 9] = [
        &bytes[..old.trailer],
        record,
        &[title.len() as u8],
        title,
        places,
        &(old.trailer as u16).to_le_bytes(),
        &count.to_le_bytes(),
        &trailer.to_le_bytes(),
        &MARK,
    ];
    let mut at = 0;
    for part in parts {
        buffer[at..at + part.len()].copy_from_slice(part);
        at += part.len();
    }
    debug_assert_eq!(at, length);
    Ok(length)
}
