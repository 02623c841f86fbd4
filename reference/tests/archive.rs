//! Archives: adding, reading back, finding, refusals.

use reference::archive::{add, find, read, title, Archive, EMPTY};
use reference::random::Random;
use reference::samples::{put_u32, RecordBytes};
use reference::vectors::archive::write;

type Filed = (RecordBytes, Vec<u8>);

fn random_records(random: &mut Random, count: usize) -> Vec<Filed> {
    let mut number = 0;
    let mut record = |_| {
        let mut record = [0; 68];
        record.copy_from_slice(&random.bytes(68));
        number += random.between(1, 5);
        put_u32(&mut record, 0, number);
        let length = random.with_ends(0, 40);
        let title = (0..length).map(|_| random.with_ends(32, 126) as u8);
        (record, title.collect())
    };
    (0..count).map(&mut record).collect()
}

/// The empty archive with the records added in order.
fn added(records: &[Filed]) -> Vec<u8> {
    let mut archive = EMPTY.to_vec();
    for (record, title) in records {
        let mut buffer = vec![0xaa; archive.len() + 71 + title.len() + 3];
        let length = add(&archive, record, title, &mut buffer).unwrap();
        assert_eq!(buffer[length..], [0xaa; 3]);
        buffer.truncate(length);
        archive = buffer;
    }
    archive
}

/// Each record and title is found where it is filed.
fn reads_back(bytes: &[u8], archive: &Archive, records: &[Filed]) {
    for (i, (record, name)) in records.iter().enumerate() {
        let place = archive.place(i);
        assert_eq!(archive.record_at(place), record);
        assert_eq!(archive.title_at(place), name);
        let number = archive.number_at(place);
        assert_eq!(find(bytes, number), Ok(place));
        assert_eq!(title(bytes, number), name);
    }
}

#[test]
fn adding_reads_back() {
    let mut random = Random::new(31);
    for count in [0, 1, 2, 7, 60] {
        let records = random_records(&mut random, count);
        let archive = added(&records);
        assert_eq!(archive, write(&records));
        let reading = read(&archive).unwrap();
        assert_eq!(reading.count(), count);
        reads_back(&archive, &reading, &records);
        assert_eq!(find(&archive, 0), Err(6));
        assert_eq!(find(&archive, u32::MAX), Err(6));
        assert!(title(&archive, 0).is_empty());
    }
}

/// A damaged archive is refused, or is the empty one with its records added in order.
#[test]
fn what_reads_is_what_adding_writes() {
    let mut random = Random::new(32);
    let good = added(&random_records(&mut random, 4));
    let mut reads = 0;
    for _ in 0..20000 {
        let mut bytes = good.clone();
        let at = random.below(bytes.len() as u32) as usize;
        bytes[at] = random.draw() as u8;
        let Ok(archive) = read(&bytes) else { continue };
        let filed = |place| {
            let mut record = [0; 68];
            record.copy_from_slice(archive.record_at(place));
            (record, archive.title_at(place).to_vec())
        };
        assert_eq!(
            added(&archive.records().map(filed).collect::<Vec<Filed>>()),
            bytes
        );
        reads += 1;
    }
    assert!(reads > 1000);
}

#[test]
fn full_archive() {
    let mut random = Random::new(33);
    let mut records = random_records(&mut random, 513);
    records
        .iter_mut()
        .for_each(|(_, title)| *title = vec![b'~'; 40]);
    let full = write(&records[..512]);
    assert_eq!(full.len(), 56838);
    assert_eq!(read(&full).unwrap().count(), 512);
    assert_eq!(read(&write(&records)).unwrap_err(), 2);
    let (record, title) = &records[512];
    let mut buffer = vec![1; 56838 + 111];
    assert_eq!(add(&full, record, title, &mut buffer), Err(18));
    assert_eq!(add(&full, record, title, &mut buffer[1..]), Err(17));
    assert_eq!(add(&full, &records[511].0, title, &mut []), Err(5));
    assert_eq!(add(&full, record, &[31], &mut []), Err(4));
    assert_eq!(add(&full, &record[..67], &[31], &mut []), Err(6));
    assert_eq!(add(&full[1..], &record[..67], &[31], &mut []), Err(2));
    assert!(buffer.iter().all(|&byte| byte == 1));
}

/// 3 over all records, then 4, then 5.
#[test]
fn precedence_in_the_body() {
    type Change = fn(&mut Vec<Filed>);
    let three: Change = |records| records[2].1 = vec![b' '; 41];
    let four: Change = |records| records[0].1 = vec![127];
    let five: Change = |records| put_u32(&mut records[0].0, 0, 0);
    let good = random_records(&mut Random::new(34), 3);
    let number = |changes: &[Change]| {
        let mut records = good.clone();
        changes.iter().for_each(|change| change(&mut records));
        read(&write(&records)).err()
    };
    assert_eq!(number(&[]), None);
    assert_eq!(number(&[five]), Some(5));
    assert_eq!(number(&[five, four]), Some(4));
    assert_eq!(number(&[five, three]), Some(3));
    assert_eq!(number(&[five, four, three]), Some(3));
}
