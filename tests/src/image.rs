//! The saved image and the lot's bytes, written and read by sections.

use crate::rules::{Account, Deed, Entry, Held, Said, Stream};
use std::collections::BTreeMap;

pub const LOT: usize = 10_320;
pub const LONGEST: usize = 13_400;
pub const LAST_FOUR: [u8; 4] = [0x45, 0x50, 0x42, 0x31];

fn held_bytes(fragment: usize, h: &Held) -> [u8; 20] {
    let entry = Entry { fragment: fragment as u8, sequence: 0, said: Said::Of(h.transaction, h.deed) };
    let mut b = [0; 20];
    b[..16].copy_from_slice(&entry.bytes());
    b[11] = u8::from(matches!(h.deed, Deed::Prepare { flagged: true, .. }));
    b[16..].copy_from_slice(&h.epoch.to_le_bytes());
    b
}

/// The image of an account, well-formed or not.
pub fn image(a: &Account) -> Vec<u8> {
    let mut out = Vec::new();
    for s in &a.streams {
        out.extend(s.next.to_le_bytes());
        out.extend([0, 0]);
        out.extend(s.epoch.to_le_bytes());
    }
    for (i, s) in a.streams.iter().enumerate() {
        for (key, value) in &s.records {
            out.extend([i as u8, 0]);
            out.extend(key.to_le_bytes());
            out.extend(value.to_le_bytes());
        }
    }
    for (i, s) in a.streams.iter().enumerate() {
        for h in &s.held {
            out.extend(held_bytes(i, h));
        }
    }
    let records: usize = a.streams.iter().map(|s| s.records.len()).sum();
    out.extend(a.number.to_le_bytes());
    out.extend([a.streams.len() as u8, 0]);
    out.extend(a.keys.to_le_bytes());
    out.extend((records as u16).to_le_bytes());
    out.extend((a.held() as u16).to_le_bytes());
    out.extend([0, 0]);
    out.extend(a.closed.to_le_bytes());
    out.extend((out.len() as u32 + 8).to_le_bytes());
    out.extend(LAST_FOUR);
    out
}

/// Takes numbers off the front of bytes.
struct Cursor<'a>(&'a [u8]);

impl<'a> Cursor<'a> {
    fn bytes(&mut self, n: usize) -> Option<&'a [u8]> {
        let (front, rest) = self.0.split_at_checked(n)?;
        self.0 = rest;
        Some(front)
    }
    fn number8(&mut self) -> Option<u8> {
        Some(self.bytes(1)?[0])
    }
    fn number16(&mut self) -> Option<u16> {
        Some(u16::from_le_bytes(self.bytes(2)?.try_into().ok()?))
    }
    fn number32(&mut self) -> Option<u32> {
        Some(u32::from_le_bytes(self.bytes(4)?.try_into().ok()?))
    }
    fn zero8(&mut self) -> Option<()> {
        (self.number8()? == 0).then_some(())
    }
    fn zero16(&mut self) -> Option<()> {
        (self.number16()? == 0).then_some(())
    }
}

fn read_streams(at: &mut Cursor, fragments: usize) -> Option<Vec<Stream>> {
    let mut streams = Vec::new();
    for _ in 0..fragments {
        let next = at.number16()?;
        at.zero16()?;
        let epoch = at.number32()?;
        streams.push(Stream { next, epoch, held: Vec::new(), records: BTreeMap::new() });
    }
    Some(streams)
}

/// Held entries, sorted by stream.
fn read_held(at: &mut Cursor, a: &mut Account, count: usize) -> Option<()> {
    let mut newest = 0;
    for _ in 0..count {
        let mut bytes: [u8; 16] = at.bytes(16)?.try_into().ok()?;
        let epoch = at.number32()?;
        let flag = std::mem::replace(&mut bytes[11], 0);
        if bytes[2..4] != [0, 0] || flag > 1 {
            return None;
        }
        let entry = Entry::read(&bytes).ok()?;
        if !a.has(&entry) || entry.fragment < newest {
            return None;
        }
        newest = entry.fragment;
        let Said::Of(transaction, mut deed) = entry.said else { return None };
        if flag == 1 {
            match &mut deed {
                Deed::Prepare { flagged, .. } => *flagged = true,
                _ => return None,
            }
        }
        a.streams[usize::from(entry.fragment)].held.push(Held { transaction, deed, epoch });
    }
    Some(())
}

/// The account whose image ends the data, where load accepts it.
pub fn accept(data: &[u8]) -> Option<Account> {
    let trailer_at = data.len().checked_sub(24)?;
    let mut t = Cursor(&data[trailer_at..]);
    let (number, fragments) = (t.number16()?, t.number8()?);
    t.zero8()?;
    let (keys, records, held) = (t.number16()?, t.number16()?, t.number16()?);
    t.zero16()?;
    let (closed, length) = (t.number32()?, t.number32()?);
    if t.0 != LAST_FOUR || !Account::fits(number.into(), fragments.into(), keys.into()) {
        return None;
    }
    let start = data.len().checked_sub(length as usize)?;
    if start > trailer_at {
        return None;
    }
    let mut at = Cursor(&data[start..trailer_at]);
    let streams = read_streams(&mut at, fragments.into())?;
    let mut a = Account { number, keys, closed, streams };
    let mut before = None;
    for _ in 0..records {
        let fragment = at.number8()?;
        at.zero8()?;
        let (key, value) = (at.number16()?, at.number32()?);
        if fragment >= fragments || key >= keys || before >= Some((fragment, key)) {
            return None;
        }
        before = Some((fragment, key));
        a.streams[usize::from(fragment)].records.insert(key, value);
    }
    read_held(&mut at, &mut a, held.into())?;
    (at.0.is_empty() && a.well_formed()).then_some(a)
}

/// What the bytes of a lot mean (docs/LOT.md).
#[derive(Clone, PartialEq, Eq, Debug)]
pub enum Lot {
    Free,
    Damaged,
    Holds(Account),
}

pub fn lot(bytes: &[u8]) -> Lot {
    assert_eq!(bytes.len(), LOT);
    match &bytes[..4] {
        b"FREE" => Lot::Free,
        b"OPEN" => lot_account(bytes).map_or(Lot::Damaged, Lot::Holds),
        _ => Lot::Damaged,
    }
}

fn lot_account(bytes: &[u8]) -> Option<Account> {
    let mut head = Cursor(&bytes[4..16]);
    let (number, fragments) = (head.number16()?, head.number8()?);
    head.zero8()?;
    let (keys, held, closed) = (head.number16()?, head.number16()?, head.number32()?);
    if !Account::fits(number.into(), fragments.into(), keys.into()) || held > 256 {
        return None;
    }
    let streams = read_streams(&mut Cursor(&bytes[16..80]), fragments.into())?;
    let mut a = Account { number, keys, closed, streams };
    read_held(&mut Cursor(&bytes[80..5_200]), &mut a, held.into())?;
    for (i, stream) in a.streams.iter_mut().enumerate() {
        for key in 0..keys {
            let mut record = Cursor(&bytes[5_200 + (i * 128 + usize::from(key)) * 5..]);
            if record.number8()? != 0 {
                stream.records.insert(key, record.number32()?);
            }
        }
    }
    a.well_formed().then_some(a)
}
