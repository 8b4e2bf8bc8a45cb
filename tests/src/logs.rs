//! Where entries come from: logs of a primary that keeps the five rules, and single entries made for an account as it stands.

use crate::random::Random;
use crate::rules::{Account, Deed, Entry, Said, Stage};
use std::collections::{BTreeMap, BTreeSet};

/// The streams that a primary wrote, and the fragments of each transaction that has CC.
pub struct Log {
    pub streams: Vec<Vec<[u8; 16]>>,
    pub fragments: BTreeMap<u32, BTreeSet<u32>>,
}

enum Phase {
    Writing(u64),
    Preparing(usize),
    Deciding,
    Finishing(usize),
}

struct Transaction {
    number: u32,
    coordinator: usize,
    participants: Vec<usize>,
    touched: BTreeSet<usize>,
    phase: Phase,
    /// the newest epoch of its P's, then the epoch of its CC
    epoch: u32,
}

struct Primary<'a> {
    rng: &'a mut Random,
    keys: u64,
    next: Vec<u16>,
    epochs: Vec<u32>,
    locks: Vec<BTreeMap<u16, u32>>,
    log: Log,
}

impl Primary<'_> {
    fn write(&mut self, fragment: usize, said: Said) {
        let entry = Entry { fragment: fragment as u8, sequence: self.next[fragment], said };
        self.next[fragment] = self.next[fragment].wrapping_add(1);
        self.log.streams[fragment].push(entry.bytes());
    }

    fn mark(&mut self, fragment: usize) {
        self.write(fragment, Said::Mark(self.epochs[fragment]));
        self.epochs[fragment] += 1;
    }

    /// Ends the transaction in a stream and gives its keys free.
    fn end(&mut self, fragment: usize, number: u32, deed: Deed) {
        self.write(fragment, Said::Of(number, deed));
        self.locks[fragment].retain(|_, owner| *owner != number);
    }

    /// One step of a transaction; false when it is over.
    fn step(&mut self, t: &mut Transaction) -> bool {
        match t.phase {
            Phase::Writing(0) => {
                if self.rng.one_in(8) {
                    for fragment in std::mem::take(&mut t.touched) {
                        self.end(fragment, t.number, Deed::Abort);
                    }
                    return false;
                }
                t.phase = Phase::Preparing(0);
            }
            Phase::Writing(left) => {
                t.phase = Phase::Writing(left - 1);
                let at = self.rng.below(t.participants.len() as u64 + 1) as usize;
                let fragment = *t.participants.get(at).unwrap_or(&t.coordinator);
                let key = self.rng.below(self.keys) as u16;
                if *self.locks[fragment].entry(key).or_insert(t.number) == t.number {
                    let deed = if self.rng.one_in(5) {
                        Deed::Delete { key }
                    } else {
                        Deed::Put { key, value: (self.rng.next() >> self.rng.below(64)) as u32 }
                    };
                    self.write(fragment, Said::Of(t.number, deed));
                    t.touched.insert(fragment);
                }
            }
            Phase::Preparing(i) if i < t.participants.len() => {
                let fragment = t.participants[i];
                self.write(fragment, Said::Of(t.number, Deed::Prepare { coordinator: t.coordinator as u16, flagged: false }));
                t.touched.insert(fragment);
                t.epoch = t.epoch.max(self.epochs[fragment]);
                t.phase = Phase::Preparing(i + 1);
            }
            Phase::Preparing(_) => {
                if !t.touched.is_empty() && self.rng.one_in(8) {
                    for fragment in std::mem::take(&mut t.touched) {
                        self.end(fragment, t.number, Deed::Abort);
                    }
                    return false;
                }
                t.phase = Phase::Deciding;
            }
            Phase::Deciding => {
                while self.epochs[t.coordinator] < t.epoch {
                    self.mark(t.coordinator);
                }
                t.epoch = self.epochs[t.coordinator];
                self.end(t.coordinator, t.number, Deed::CoordinatorCommit);
                let all = t.participants.iter().chain([&t.coordinator]).map(|&i| i as u32).collect();
                self.log.fragments.insert(t.number, all);
                t.phase = Phase::Finishing(0);
            }
            Phase::Finishing(i) => {
                if i == t.participants.len() {
                    return false;
                }
                let fragment = t.participants[i];
                while self.epochs[fragment] < t.epoch {
                    self.mark(fragment);
                }
                self.end(fragment, t.number, Deed::ParticipantCommit);
                t.phase = Phase::Finishing(i + 1);
            }
        }
        true
    }
}

/// A log that goes on where the account's streams stand, their open epochs not far apart; transactions count from `from`.
pub fn log(rng: &mut Random, a: &Account, transactions: usize, from: u32) -> Log {
    let f = a.streams.len();
    let mut primary = Primary {
        keys: u64::from(a.keys),
        next: a.streams.iter().map(|s| s.next).collect(),
        epochs: a.streams.iter().map(|s| s.epoch).collect(),
        locks: vec![BTreeMap::new(); f],
        log: Log { streams: vec![Vec::new(); f], fragments: BTreeMap::new() },
        rng,
    };
    let mut active: Vec<Transaction> = Vec::new();
    let mut number = from;
    let last = from.saturating_add(transactions as u32);
    let marks = 6 + primary.rng.below(40);
    while number < last || !active.is_empty() {
        if number < last && active.len() < 7 && primary.rng.one_in(4) {
            let coordinator = primary.rng.below(f as u64) as usize;
            let wide = primary.rng.below(3);
            let mut participants: Vec<usize> = (0..f).filter(|&i| i != coordinator && primary.rng.below(3) < wide).collect();
            if participants.len() > 1 && primary.rng.one_in(2) {
                participants.reverse();
            }
            let writes = primary.rng.below(6);
            active.push(Transaction {
                number,
                coordinator,
                participants,
                touched: BTreeSet::new(),
                phase: Phase::Writing(writes),
                epoch: 0,
            });
            number += 1;
        } else if primary.rng.one_in(marks) && primary.epochs.iter().all(|&e| e < u32::MAX - 8) {
            let i = primary.rng.below(f as u64) as usize;
            primary.mark(i);
        } else if !active.is_empty() {
            let i = primary.rng.below(active.len() as u64) as usize;
            let in_doubt = number == last && primary.rng.one_in(20);
            if !primary.step(&mut active[i]) || in_doubt {
                active.swap_remove(i);
            }
        }
    }
    let newest = primary.epochs.iter().copied().max().unwrap();
    for i in 0..f {
        while primary.epochs[i] < newest || primary.epochs[i] == newest && newest < u32::MAX - 8 {
            primary.mark(i);
        }
    }
    primary.log
}

/// How entries are made for an account.
#[derive(Clone, Copy, PartialEq, Eq)]
pub enum Style {
    /// few transactions that meet in every stage
    Dense,
    /// many writes and few ends, so that the lot fills
    Filling,
    /// anything
    Wild,
}

pub fn entry(rng: &mut Random, a: &Account, style: Style) -> [u8; 16] {
    let f = a.streams.len() as u64;
    let fragment = rng.below(f) as usize;
    let stream = &a.streams[fragment];
    let transaction = match style {
        Style::Filling => 1 + rng.below(60) as u32,
        _ if !stream.held.is_empty() && rng.one_in(2) => stream.held[rng.below(stream.held.len() as u64) as usize].transaction,
        _ if rng.one_in(12) => rng.pick(&[u32::MAX, u32::MAX - 1, 1 << 31, 65_536, 256]),
        _ => 1 + rng.below(9) as u32,
    };
    let key = rng.below(a.keys.into()) as u16;
    let value = (rng.next() >> rng.below(64)) as u32;
    // most P's of a transaction name one coordinator, so that its CC is found
    let mut coordinator = if rng.one_in(5) { rng.below(f) } else { u64::from(transaction) % f } as u16;
    if coordinator == fragment as u16 && !rng.one_in(6) {
        coordinator = ((fragment as u64 + 1) % f) as u16;
    }
    let deeds = [
        Deed::Put { key, value },
        Deed::Delete { key },
        Deed::Prepare { coordinator, flagged: false },
        Deed::CoordinatorCommit,
        Deed::ParticipantCommit,
        Deed::Abort,
    ];
    let stage = a.stage(fragment, transaction);
    let fitting: Vec<Deed> = deeds.iter().copied().filter(|d| stage.takes(d)).collect();
    let deed = match style {
        Style::Filling if stage != Stage::Ended && !rng.one_in(40) && stage.takes(&deeds[0]) => deeds[0],
        Style::Dense if !fitting.is_empty() && !rng.one_in(10) => rng.pick(&fitting),
        _ => rng.pick(&deeds),
    };
    let mut said = Said::Of(transaction, deed);
    let behind = a.streams.iter().any(|s| s.epoch < stream.epoch);
    if rng.one_in(if style == Style::Filling { 60 } else if behind { 40 } else { 8 }) {
        said = Said::Mark(if rng.one_in(12) { rng.pick(&[1, 2, stream.epoch.wrapping_add(1), u32::MAX - 1]) } else { stream.epoch });
    }
    let mut entry = Entry { fragment: fragment as u8, sequence: stream.next, said };
    if rng.one_in(12) {
        entry.sequence = match rng.below(4) {
            0 => entry.sequence.wrapping_sub(1),
            1 => entry.sequence.wrapping_add(1),
            2 => entry.sequence.wrapping_add(32_767 + rng.below(3) as u16),
            _ => rng.next() as u16,
        };
    }
    let mut bytes = entry.bytes();
    if style == Style::Wild || rng.one_in(25) {
        for _ in 0..rng.below(3) {
            let at = rng.below(16) as usize;
            bytes[at] = if rng.one_in(2) { rng.byte() } else { rng.below(10) as u8 };
        }
    }
    bytes
}
