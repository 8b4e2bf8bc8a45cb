//! The functions of include/standby.h, and buffers whose surroundings are watched.

extern "C" {
    pub fn standby_start(memory: *mut u8, memory_len: usize, lots: u32) -> u64;
    pub fn standby_open(memory: *mut u8, memory_len: usize, lots: u32, account: u32, fragments: u32, keys: u32) -> u64;
    pub fn standby_deliver(
        memory: *mut u8,
        memory_len: usize,
        lots: u32,
        lot: u32,
        account: u32,
        entry: *const u8,
        entry_len: usize,
    ) -> u64;
    pub fn standby_close(
        memory: *mut u8,
        memory_len: usize,
        lots: u32,
        lot: u32,
        account: u32,
        list: *mut u8,
        list_len: usize,
    ) -> u64;
    pub fn standby_read(
        memory: *const u8,
        memory_len: usize,
        lots: u32,
        lot: u32,
        account: u32,
        fragment: u32,
        key: u32,
    ) -> u64;
    pub fn standby_save(
        memory: *const u8,
        memory_len: usize,
        lots: u32,
        lot: u32,
        account: u32,
        image: *mut u8,
        image_len: usize,
    ) -> u64;
    pub fn standby_load(memory: *mut u8, memory_len: usize, lots: u32, data: *const u8, data_len: usize) -> u64;
    pub fn standby_drop(memory: *mut u8, memory_len: usize, lots: u32, lot: u32, account: u32) -> u64;
    pub fn standby_overview(memory: *const u8, memory_len: usize, lots: u32, rows: *mut u8, rows_len: usize) -> u64;
}

const MARGIN: usize = 96;

/// Bytes with a margin before and after them, at any alignment.
pub struct Lent {
    raw: Vec<u8>,
    start: usize,
    len: usize,
}

fn margin_byte(i: usize) -> u8 {
    (i.wrapping_mul(151) >> 2) as u8 ^ 0xa5
}

impl Lent {
    pub fn of(bytes: &[u8], shift: usize) -> Lent {
        let start = MARGIN + shift % 16;
        let mut raw: Vec<u8> = Vec::with_capacity(start + bytes.len() + MARGIN);
        raw.extend((0..start).map(margin_byte));
        raw.extend_from_slice(bytes);
        raw.extend((start + bytes.len()..start + bytes.len() + MARGIN).map(margin_byte));
        Lent { raw, start, len: bytes.len() }
    }

    pub fn bytes(&self) -> &[u8] {
        &self.raw[self.start..self.start + self.len]
    }

    pub fn bytes_mut(&mut self) -> &mut [u8] {
        &mut self.raw[self.start..self.start + self.len]
    }

    pub fn margins_whole(&self) -> bool {
        let end = self.start + self.len;
        (0..self.start).chain(end..self.raw.len()).all(|i| self.raw[i] == margin_byte(i))
    }
}
