//! Both stores in plain Rust, with the same searches: what the library's are compared with.

const HEAD: usize = 114;

fn number(record: &[u8], at: usize) -> u32 {
    u32::from_be_bytes([record[at], record[at + 1], record[at + 2], record[at + 3]])
}

fn queue(record: &[u8]) -> u8 {
    record[8] / 2
}

fn is_record(record: &[u8]) -> bool {
    record.len() >= HEAD && record.len() == HEAD + record[113] as usize && record[113] <= 200 && record[8] % 2 == 1 && record[8] <= 15 && number(record, 9) < number(record, 13)
}

fn meets(a: &[u8], b: &[u8]) -> bool {
    queue(a) == queue(b) && number(a, 9).max(number(b, 9)) < number(a, 13).min(number(b, 13))
}

fn spans(record: &[u8], q: u8, position: u32) -> bool {
    queue(record) == q && number(record, 9) < position && position <= number(record, 13)
}

pub trait Store {
    fn put(&mut self, record: &[u8]) -> bool;
    fn cover(&self, q: u8, position: u32, out: &mut [u8]) -> Option<usize>;
    fn forget(&mut self, q: u8, below: u32);
}

pub struct Log<'a> {
    pub area: &'a mut [u8],
    pub used: usize,
}

impl Log<'_> {
    fn size(&self, at: usize) -> usize {
        256 * self.area[at] as usize + self.area[at + 1] as usize
    }
}

impl Store for Log<'_> {
    fn put(&mut self, record: &[u8]) -> bool {
        if !is_record(record) {
            return false;
        }
        let mut at = 0;
        while at < self.used {
            let end = at + 2 + self.size(at);
            if meets(&self.area[at + 2..end], record) {
                return false;
            }
            at = end;
        }
        if self.used + 2 + record.len() > self.area.len() {
            return false;
        }
        self.area[at..at + 2].copy_from_slice(&(record.len() as u16).to_be_bytes());
        self.area[at + 2..at + 2 + record.len()].copy_from_slice(record);
        self.used += 2 + record.len();
        true
    }

    fn cover(&self, q: u8, position: u32, out: &mut [u8]) -> Option<usize> {
        let mut at = 0;
        while at < self.used {
            let end = at + 2 + self.size(at);
            let record = &self.area[at + 2..end];
            if spans(record, q, position) {
                out[..record.len()].copy_from_slice(record);
                return Some(record.len());
            }
            at = end;
        }
        None
    }

    fn forget(&mut self, q: u8, below: u32) {
        let (mut at, mut kept) = (0, 0);
        while at < self.used {
            let end = at + 2 + self.size(at);
            let record = &self.area[at + 2..end];
            if !(queue(record) == q && number(record, 13) < below) {
                self.area.copy_within(at..end, kept);
                kept += end - at;
            }
            at = end;
        }
        self.area[kept..self.used].fill(0);
        self.used = kept;
    }
}

#[derive(Clone, Copy)]
pub struct Row {
    pub queue: u8,
    pub old: u32,
    pub new: u32,
    pub length: usize,
}

pub const FREE: Row = Row { queue: 0, old: 0, new: 0, length: 0 };
const SLOT: usize = 320;

pub struct Slots<'a> {
    pub area: &'a mut [u8],
    pub rows: [Row; 200],
    pub used: usize,
}

impl Store for Slots<'_> {
    fn put(&mut self, record: &[u8]) -> bool {
        if !is_record(record) {
            return false;
        }
        let row = Row { queue: queue(record), old: number(record, 9), new: number(record, 13), length: record.len() };
        if self.rows[..self.used].iter().any(|r| r.queue == row.queue && r.old.max(row.old) < r.new.min(row.new)) || self.used == 200 {
            return false;
        }
        let at = SLOT * self.used;
        self.area[at..at + record.len()].copy_from_slice(record);
        self.rows[self.used] = row;
        self.used += 1;
        true
    }

    fn cover(&self, q: u8, position: u32, out: &mut [u8]) -> Option<usize> {
        let k = self.rows[..self.used].iter().position(|r| r.queue == q && r.old < position && position <= r.new)?;
        let length = self.rows[k].length;
        out[..length].copy_from_slice(&self.area[SLOT * k..SLOT * k + length]);
        Some(length)
    }

    fn forget(&mut self, q: u8, below: u32) {
        let mut at = 0;
        while at < self.used {
            if self.rows[at].queue == q && self.rows[at].new < below {
                let last = self.used - 1;
                self.area.copy_within(SLOT * last..SLOT * last + SLOT, SLOT * at);
                self.rows[at] = self.rows[last];
                self.area[SLOT * last..SLOT * last + SLOT].fill(0);
                self.rows[last] = FREE;
                self.used = last;
            } else {
                at += 1;
            }
        }
    }
}

pub fn work<S: Store>(store: &mut S, records: &[u8], size: usize) -> u32 {
    let taken = records.chunks_exact(size).filter(|record| store.put(record)).count() as u32;
    let mut out = [0u8; 314];
    let bytes = (0..=taken).map(|position| store.cover(0, position, &mut out).unwrap_or(0) as u32).sum();
    store.forget(0, taken / 2);
    store.forget(0, u32::MAX);
    bytes
}
