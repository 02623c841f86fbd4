//! Reads files of vectors.

pub struct Reader<'a>(&'a [u8]);

impl<'a> Reader<'a> {
    pub fn bytes(&mut self, length: usize) -> &'a [u8] {
        let (part, rest) = self.0.split_at(length);
        self.0 = rest;
        part
    }

    pub fn number(&mut self, width: usize) -> u64 {
        self.bytes(width)
            .iter()
            .rev()
            .fold(0, |number, &byte| number << 8 | u64::from(byte))
    }

    pub fn word(&mut self) -> u32 {
        self.number(4) as u32
    }

    pub fn count(&mut self) -> usize {
        self.word() as usize
    }

    pub fn words(&mut self, count: usize) -> Vec<u32> {
        (0..count).map(|_| self.word()).collect()
    }

    pub fn is_empty(&self) -> bool {
        self.0.is_empty()
    }
}

/// The bodies of a file's cases.
pub fn cases(bytes: &[u8]) -> Vec<Reader<'_>> {
    let mut file = Reader(bytes);
    let cases = (0..file.count())
        .map(|_| {
            let length = file.count();
            Reader(file.bytes(length))
        })
        .collect();
    assert!(file.is_empty());
    cases
}
