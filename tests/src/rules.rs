//! docs/RULES.md over one account, written from the page: numbers and lists, no bytes but the entry's.

use std::collections::{BTreeMap, BTreeSet};

pub const MOST_HELD: usize = 256;

/// What an entry does, other than a mark.
#[derive(Clone, Copy, PartialEq, Eq, Debug)]
pub enum Deed {
    Put { key: u16, value: u32 },
    Delete { key: u16 },
    Prepare { coordinator: u16, flagged: bool },
    CoordinatorCommit,
    ParticipantCommit,
    Abort,
}

impl Deed {
    pub fn kind(&self) -> u8 {
        match self {
            Deed::Put { .. } => 1,
            Deed::Delete { .. } => 2,
            Deed::Prepare { .. } => 3,
            Deed::CoordinatorCommit => 4,
            Deed::ParticipantCommit => 5,
            Deed::Abort => 6,
        }
    }

    fn is_write(&self) -> bool {
        matches!(self, Deed::Put { .. } | Deed::Delete { .. })
    }

    fn is_end(&self) -> bool {
        matches!(self, Deed::CoordinatorCommit | Deed::ParticipantCommit | Deed::Abort)
    }
}

#[derive(Clone, PartialEq, Eq, Debug)]
pub struct Held {
    pub transaction: u32,
    pub deed: Deed,
    pub epoch: u32,
}

#[derive(Clone, PartialEq, Eq, Debug)]
pub struct Stream {
    pub next: u16,
    pub epoch: u32,
    pub held: Vec<Held>,
    pub records: BTreeMap<u16, u32>,
}

#[derive(Clone, PartialEq, Eq, Debug)]
pub struct Account {
    pub number: u16,
    pub keys: u16,
    pub closed: u32,
    pub streams: Vec<Stream>,
}

#[derive(Clone, Copy, PartialEq, Eq, Debug)]
pub enum Stage {
    Unheard,
    Writing,
    Prepared,
    Ended,
}

impl Stage {
    pub fn after(deed: &Deed) -> Stage {
        match deed {
            Deed::Put { .. } | Deed::Delete { .. } => Stage::Writing,
            Deed::Prepare { .. } => Stage::Prepared,
            _ => Stage::Ended,
        }
    }

    /// The table of the page.
    pub fn takes(self, deed: &Deed) -> bool {
        use Stage::*;
        match deed {
            Deed::Put { .. } | Deed::Delete { .. } | Deed::Prepare { .. } | Deed::CoordinatorCommit => {
                [Unheard, Writing].contains(&self)
            }
            Deed::ParticipantCommit => self == Prepared,
            Deed::Abort => [Writing, Prepared].contains(&self),
        }
    }
}

/// An entry as it is read: the mark of an epoch, or a deed of a transaction.
#[derive(Clone, Copy, PartialEq, Eq, Debug)]
pub enum Said {
    Mark(u32),
    Of(u32, Deed),
}

#[derive(Clone, Copy, PartialEq, Eq, Debug)]
pub struct Entry {
    pub fragment: u8,
    pub sequence: u16,
    pub said: Said,
}

fn le(bytes: &[u8]) -> u32 {
    bytes.iter().rev().fold(0, |n, b| n * 256 + u32::from(*b))
}

/// The bytes among 8..16 that a kind uses.
fn used(kind: u8) -> &'static [usize] {
    match kind {
        1 => &[8, 9, 12, 13, 14, 15],
        2 | 3 => &[8, 9],
        _ => &[],
    }
}

impl Entry {
    /// Refusals 4 and 5.
    pub fn read(bytes: &[u8]) -> Result<Entry, u32> {
        if bytes.len() != 16 {
            return Err(4);
        }
        let kind = bytes[0];
        if !(1..=7).contains(&kind) || (8..16).any(|i| bytes[i] != 0 && !used(kind).contains(&i)) {
            return Err(5);
        }
        let transaction = le(&bytes[4..8]);
        let argument = le(&bytes[8..10]) as u16;
        if transaction == 0 || kind == 7 && transaction == u32::MAX {
            return Err(5);
        }
        let said = match kind {
            1 => Said::Of(transaction, Deed::Put { key: argument, value: le(&bytes[12..16]) }),
            2 => Said::Of(transaction, Deed::Delete { key: argument }),
            3 => Said::Of(transaction, Deed::Prepare { coordinator: argument, flagged: false }),
            4 => Said::Of(transaction, Deed::CoordinatorCommit),
            5 => Said::Of(transaction, Deed::ParticipantCommit),
            6 => Said::Of(transaction, Deed::Abort),
            _ => Said::Mark(transaction),
        };
        Ok(Entry { fragment: bytes[1], sequence: le(&bytes[2..4]) as u16, said })
    }

    pub fn bytes(&self) -> [u8; 16] {
        let mut b = [0; 16];
        b[1] = self.fragment;
        b[2..4].copy_from_slice(&self.sequence.to_le_bytes());
        match self.said {
            Said::Mark(epoch) => {
                b[0] = 7;
                b[4..8].copy_from_slice(&epoch.to_le_bytes());
            }
            Said::Of(transaction, deed) => {
                b[0] = deed.kind();
                b[4..8].copy_from_slice(&transaction.to_le_bytes());
                match deed {
                    Deed::Put { key, value } => {
                        b[8..10].copy_from_slice(&key.to_le_bytes());
                        b[12..16].copy_from_slice(&value.to_le_bytes());
                    }
                    Deed::Delete { key } => b[8..10].copy_from_slice(&key.to_le_bytes()),
                    Deed::Prepare { coordinator, .. } => b[8..10].copy_from_slice(&coordinator.to_le_bytes()),
                    _ => {}
                }
            }
        }
        b
    }
}

/// What becomes of a transaction in a stream at a close.
#[derive(Clone, Copy, PartialEq, Eq, Debug)]
enum Fate {
    Freed,
    Installed,
    Adopted,
    Stays,
}

impl Account {
    /// Refusal 15.
    pub fn fits(number: u32, fragments: u32, keys: u32) -> bool {
        (1..=65_535).contains(&number) && (1..=8).contains(&fragments) && (1..=128).contains(&keys)
    }

    pub fn fresh(number: u16, fragments: usize, keys: u16) -> Account {
        let stream = Stream { next: 0, epoch: 1, held: Vec::new(), records: BTreeMap::new() };
        Account { number, keys, closed: 0, streams: vec![stream; fragments] }
    }

    pub fn held(&self) -> usize {
        self.streams.iter().map(|s| s.held.len()).sum()
    }

    pub fn stage(&self, stream: usize, transaction: u32) -> Stage {
        let mut of_it = self.streams[stream].held.iter().filter(|h| h.transaction == transaction);
        of_it.next_back().map_or(Stage::Unheard, |h| Stage::after(&h.deed))
    }

    /// Refusal 6.
    pub fn has(&self, entry: &Entry) -> bool {
        usize::from(entry.fragment) < self.streams.len()
            && match entry.said {
                Said::Of(_, Deed::Put { key, .. } | Deed::Delete { key }) => key < self.keys,
                Said::Of(_, Deed::Prepare { coordinator, .. }) => {
                    usize::from(coordinator) < self.streams.len() && coordinator != u16::from(entry.fragment)
                }
                _ => true,
            }
    }

    /// Refusals 4 to 11.
    pub fn take(&mut self, bytes: &[u8]) -> Result<(), u32> {
        let entry = Entry::read(bytes)?;
        if !self.has(&entry) {
            return Err(6);
        }
        let i = usize::from(entry.fragment);
        let distance = i64::from(entry.sequence) - i64::from(self.streams[i].next);
        let distance = (distance + 32_768).rem_euclid(65_536) - 32_768;
        if distance < 0 {
            return Err(7);
        }
        if distance > 0 {
            return Err(8);
        }
        match entry.said {
            Said::Mark(epoch) => {
                if epoch != self.streams[i].epoch {
                    return Err(9);
                }
                self.streams[i].epoch += 1;
            }
            Said::Of(transaction, deed) => {
                if !self.stage(i, transaction).takes(&deed) {
                    return Err(10);
                }
                if self.held() >= MOST_HELD {
                    return Err(11);
                }
                let epoch = self.streams[i].epoch;
                self.streams[i].held.push(Held { transaction, deed, epoch });
            }
        }
        self.streams[i].next = ((u32::from(self.streams[i].next) + 1) % 65_536) as u16;
        Ok(())
    }

    /// The streams without mark n.
    pub fn missing(&self) -> Vec<usize> {
        (0..self.streams.len()).filter(|&i| u64::from(self.streams[i].epoch) <= u64::from(self.closed) + 1).collect()
    }

    /// The pieces, or the streams without the mark.
    pub fn close(&mut self) -> Result<Vec<(u32, u32)>, Vec<usize>> {
        let missing = self.missing();
        if !missing.is_empty() {
            return Err(missing);
        }
        let n = self.closed + 1;
        let looked: Vec<Vec<Held>> =
            self.streams.iter().map(|s| s.held.iter().filter(|h| h.epoch <= n).cloned().collect()).collect();
        let committed: Vec<BTreeSet<u32>> = looked
            .iter()
            .map(|s| s.iter().filter(|h| h.deed == Deed::CoordinatorCommit).map(|h| h.transaction).collect())
            .collect();
        let mut list = Vec::new();
        for (i, stream) in self.streams.iter_mut().enumerate() {
            let mut deeds: BTreeMap<u32, Vec<Deed>> = BTreeMap::new();
            for h in &looked[i] {
                deeds.entry(h.transaction).or_default().push(h.deed);
            }
            let fates: BTreeMap<u32, Fate> =
                deeds.iter().map(|(&t, deeds)| (t, fate(deeds, |c| committed[usize::from(c)].contains(&t)))).collect();
            let commits = looked[i].iter().filter(|h| {
                matches!(h.deed, Deed::CoordinatorCommit | Deed::ParticipantCommit) && fates[&h.transaction] == Fate::Installed
            });
            let adopted = looked[i]
                .iter()
                .filter(|h| matches!(h.deed, Deed::Prepare { .. }) && fates[&h.transaction] == Fate::Adopted);
            for piece in commits.chain(adopted) {
                list.push((i as u32, piece.transaction));
                for deed in &deeds[&piece.transaction] {
                    match *deed {
                        Deed::Put { key, value } => {
                            stream.records.insert(key, value);
                        }
                        Deed::Delete { key } => {
                            stream.records.remove(&key);
                        }
                        _ => {}
                    }
                }
            }
            stream.held.retain_mut(|h| {
                if h.epoch > n {
                    return true;
                }
                match fates[&h.transaction] {
                    Fate::Stays => true,
                    Fate::Freed | Fate::Installed => false,
                    Fate::Adopted => match &mut h.deed {
                        Deed::Prepare { flagged, .. } => {
                            *flagged = true;
                            true
                        }
                        _ => false,
                    },
                }
            });
        }
        self.closed = n;
        Ok(list)
    }

    /// What load asks of an account, beyond what the fields of `Account` can't say.
    pub fn well_formed(&self) -> bool {
        self.held() <= MOST_HELD
            && self.streams.iter().all(|s| s.epoch > self.closed)
            && (0..self.streams.len()).all(|i| self.stream_well_formed(i))
    }

    fn stream_well_formed(&self, i: usize) -> bool {
        let stream = &self.streams[i];
        let mut replayed: BTreeMap<u32, Stage> = BTreeMap::new();
        let mut writes: BTreeSet<u32> = BTreeSet::new();
        let mut newest = 1;
        for h in &stream.held {
            if h.epoch < newest || h.epoch > stream.epoch {
                return false;
            }
            newest = h.epoch;
            let stage = replayed.insert(h.transaction, Stage::after(&h.deed)).unwrap_or(Stage::Unheard);
            if !stage.takes(&h.deed) {
                return false;
            }
            if h.deed.is_write() {
                writes.insert(h.transaction);
            }
            if h.deed.is_end() && h.epoch <= self.closed {
                return false;
            }
            if matches!(h.deed, Deed::Prepare { flagged: true, .. }) && (h.epoch > self.closed || writes.contains(&h.transaction)) {
                return false;
            }
        }
        true
    }
}

fn fate(deeds: &[Deed], committed_at: impl Fn(u16) -> bool) -> Fate {
    let is = |d: Deed| deeds.contains(&d);
    let prepare = deeds.iter().find_map(|d| match *d {
        Deed::Prepare { coordinator, flagged } => Some((coordinator, flagged)),
        _ => None,
    });
    if is(Deed::Abort) {
        return Fate::Freed;
    }
    if is(Deed::CoordinatorCommit) {
        return Fate::Installed;
    }
    match (is(Deed::ParticipantCommit), prepare) {
        (true, Some((_, false))) => Fate::Installed,
        (true, Some((_, true))) => Fate::Freed,
        (false, Some((coordinator, false))) if committed_at(coordinator) => Fate::Adopted,
        _ => Fate::Stays,
    }
}
