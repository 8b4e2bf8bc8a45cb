//! Random sequences of calls.

use crate::image::{self, Lot, LONGEST, LOT};
use crate::logs::{self, Log, Style};
use crate::pair::{differ, Frame, Pair};
use crate::random::Random;
use crate::rules::{Account, Deed};
use std::collections::BTreeMap;

/// A log that is being delivered to an account, and how much of each stream was taken.
struct Feed {
    log: Log,
    at: Vec<usize>,
}

/// Calls of every kind over several accounts, with good and bad parameters.
pub fn mixed(seed: u64, steps: usize) {
    let mut rng = Random::new(seed);
    let lots = rng.pick(&[1, 2, 2, 3, 3, 4, 5, 16]);
    let noise: Vec<u8> = (0..97).map(|_| rng.byte()).collect();
    let mut pair = Pair::new(lots, seed, if rng.one_in(2) { &noise } else { &[0] });
    let mut feeds: BTreeMap<u16, Feed> = BTreeMap::new();
    let mut images: Vec<Vec<u8>> = Vec::new();
    for _ in 0..rng.below(4) {
        any_call(&mut rng, &mut pair, lots, &mut images);
    }
    pair.start(Frame::of(lots));
    for _ in 0..steps {
        if rng.one_in(12) {
            any_call(&mut rng, &mut pair, lots, &mut images);
            continue;
        }
        let lot = rng.below(lots as u64) as usize;
        let frame = pair.frame;
        match &pair.lots[lot] {
            Lot::Free => {
                if rng.one_in(3) && !images.is_empty() {
                    let data = images[rng.below(images.len() as u64) as usize].clone();
                    pair.load(frame, &data);
                } else if rng.one_in(4) {
                    // one that has gone a long way
                    let entries = rng.pick(&[0, 40, 150]);
                    let mut a = rich(rng.next(), entries);
                    a.number = 1 + rng.below(12) as u16;
                    for s in &mut a.streams {
                        s.next = rng.pick(&[0, 32_767, 65_400, 65_530, 65_535]);
                    }
                    pair.load(frame, &image::image(&a));
                } else {
                    let keys = rng.pick(&[1, 2, 4, 128]);
                    pair.open(frame, 1 + rng.below(12) as u32, 1 + rng.below(8) as u32, keys);
                }
            }
            Lot::Damaged => {
                if rng.one_in(3) {
                    pair.drop(frame, lot as u32, rng.below(14) as u32);
                } else {
                    any_call(&mut rng, &mut pair, lots, &mut images);
                }
            }
            Lot::Holds(a) => {
                let a = a.clone();
                account_call(&mut rng, &mut pair, lot, &a, &mut feeds, &mut images);
            }
        }
    }
    for lot in 0..lots {
        pair.scribble(lot, |_| {});
    }
    pair.overview(pair.frame, lots * 16 + 5);
}

fn account_call(
    rng: &mut Random,
    pair: &mut Pair,
    lot: usize,
    a: &Account,
    feeds: &mut BTreeMap<u16, Feed>,
    images: &mut Vec<Vec<u8>>,
) {
    let frame = pair.frame;
    let (at, number) = (lot as u32, u32::from(a.number));
    if a.missing().is_empty() && rng.one_in(3) {
        pair.close(frame, at, number, 2_048);
        return;
    }
    match rng.below(40) {
        0..=27 => {
            // entries: a primary's log, or made for the account (also where an outsider has torn its epochs apart)
            let epochs = || a.streams.iter().map(|s| s.epoch);
            let together = epochs().max().unwrap() - epochs().min().unwrap() < 64;
            if a.number % 3 != 0 || !together {
                let style = match (a.number % 3, rng.below(10)) {
                    (_, 0) => Style::Wild,
                    (1, _) => Style::Dense,
                    _ => Style::Filling,
                };
                let entry = logs::entry(rng, a, style);
                pair.deliver(frame, at, number, &entry);
                return;
            }
            let stale = feeds.get(&a.number).is_none_or(|feed| {
                let out = |i: usize| feed.at[i] >= feed.log.streams[i].len();
                feed.at.len() != a.streams.len() || (0..feed.at.len()).all(out)
            });
            if stale {
                let count = 3 + rng.below(60) as usize;
                let from = rng.next() as u32 >> rng.below(24);
                let log = logs::log(rng, a, count, from.clamp(1, u32::MAX - 100));
                feeds.insert(a.number, Feed { log, at: vec![0; a.streams.len()] });
            }
            let feed = feeds.get_mut(&a.number).unwrap();
            for _ in 0..1 + rng.below(4) {
                let i = rng.below(feed.at.len() as u64) as usize;
                let Some(entry) = feed.log.streams[i].get(feed.at[i]) else { continue };
                match pair.deliver(frame, at, number, entry).number {
                    0 => feed.at[i] += 1,
                    // another lot of this account, or other entries came between
                    3 | 6 | 7 | 8 | 9 | 10 => {
                        if rng.one_in(4) {
                            feeds.remove(&a.number);
                            return;
                        }
                    }
                    _ => {}
                }
            }
        }
        28..=32 => {
            pair.close(frame, at, number, 2_048 + rng.pick(&[0, 0, 0, 1, 3, 4, 100]));
        }
        33 | 34 => {
            let key = rng.below(u64::from(a.keys) + 1) as u32;
            pair.read(frame, at, number, rng.below(a.streams.len() as u64 + 1) as u32, key);
        }
        35 => {
            pair.save(frame, at, number, LONGEST + rng.below(3) as usize);
            images.push(with_front(rng, image::image(a)));
            images.truncate(40);
        }
        36 => {
            let mut data = mutated(rng, a);
            if rng.one_in(3) {
                data = with_front(rng, data);
            }
            if rng.one_in(2) {
                pair.drop(frame, at, number);
            }
            pair.load(frame, &data);
        }
        37 => {
            // away and back
            let data = with_front(rng, image::image(a));
            pair.drop(frame, at, number);
            pair.load(frame, &data);
        }
        38 => {
            pair.overview(frame, frame.lots as usize * 16 + rng.below(40) as usize);
        }
        _ => {
            if rng.one_in(6) {
                pair.drop(frame, at, number);
            } else if rng.one_in(3) {
                scribble(rng, pair, lot);
            } else {
                pair.drop(frame, at, number + 1);
            }
        }
    }
}

/// A call with parameters of any kind.
fn any_call(rng: &mut Random, pair: &mut Pair, lots: usize, images: &mut [Vec<u8>]) {
    let all = Frame::of(lots);
    let frame = match rng.below(6) {
        0 => Frame { lots: rng.pick(&[0, 1, 15, 16, 17, 256, 65_536 + lots as u32, u32::MAX]), ..all },
        1 => Frame { len: rng.pick(&[0, 1, LOT - 1, LOT, LOT + 1, lots * LOT - 1, lots * LOT + 1, (lots + 1) * LOT]), ..all },
        2 => Frame::of(1 + rng.below(lots as u64) as usize),
        _ => all,
    };
    let lot = match rng.below(6) {
        0 => rng.pick(&[lots as u32, lots as u32 + 1, 16, 17, 255, 256, 65_536, u32::MAX, 1 << 31]),
        _ => rng.below(lots as u64) as u32,
    };
    let own = pair.account(lot as usize).map_or(7, |a| u32::from(a.number));
    let account = match rng.below(6) {
        0 => rng.pick(&[0, 65_535, 65_536, u32::MAX]),
        1 => own + 65_536,
        2 => rng.below(14) as u32,
        _ => own,
    };
    match rng.below(12) {
        0 => {
            if rng.one_in(8) {
                pair.start(frame);
            } else {
                pair.start(Frame { len: frame.len + 1, ..frame });
            }
        }
        1 | 2 => {
            let fragments = rng.pick(&[0, 1, 2, 8, 9, 258, 65_537, u32::MAX]);
            let keys = rng.pick(&[0, 1, 4, 128, 129, 260, 65_540]);
            pair.open(frame, account, fragments, keys);
        }
        3 => {
            let length = rng.below(41) as usize;
            let bytes: Vec<u8> = (0..length).map(|_| rng.below(8) as u8).collect();
            pair.deliver(frame, lot, account, &bytes);
        }
        4 => {
            let entry = pair.account(lot as usize).cloned().map(|a| logs::entry(rng, &a, Style::Dense)).unwrap_or([1; 16]);
            pair.deliver(frame, lot, account, &entry);
        }
        5 | 6 => {
            let length = rng.pick(&[0, 1, 2_047, 2_048, 2_049, 2_047, 2_048]);
            pair.close(frame, lot, account, length);
        }
        7 => {
            let key = rng.pick(&[0, 3, 127, 128, 65_536, u32::MAX]);
            pair.read(frame, lot, account, rng.pick(&[0, 1, 7, 8, 256, 65_536, u32::MAX]), key);
        }
        8 => {
            let length = rng.pick(&[0, 32, LONGEST - 1, LONGEST, LONGEST + 1]);
            pair.save(frame, lot, account, length);
        }
        9 => {
            let data = if images.is_empty() || rng.one_in(3) {
                (0..rng.below(60)).map(|_| rng.byte()).collect()
            } else {
                images[rng.below(images.len() as u64) as usize].clone()
            };
            pair.load(frame, &data);
        }
        10 => {
            if rng.one_in(4) || account != own {
                pair.drop(frame, lot, account);
            }
        }
        _ => {
            let rows = frame.lots as usize % 20 * 16 + rng.below(20) as usize;
            pair.overview(frame, rows.saturating_sub(rng.below(18) as usize));
        }
    }
}

fn with_front(rng: &mut Random, image: Vec<u8>) -> Vec<u8> {
    if rng.one_in(2) {
        return image;
    }
    let mut data: Vec<u8> = (0..rng.below(200)).map(|_| rng.byte()).collect();
    data.extend(image);
    data
}

/// Bytes of a lot changed from outside, most often where the test looks.
fn scribble(rng: &mut Random, pair: &mut Pair, lot: usize) {
    let held = pair.account(lot).map_or(0, Account::held);
    let times = 1 + rng.below(2);
    let rng = &mut *rng;
    pair.scribble(lot, |bytes| {
        for _ in 0..times {
            let at = match rng.below(8) {
                0 => rng.below(16),
                1 | 2 => 16 + rng.below(64),
                3..=5 if held > 0 => 80 + rng.below(held as u64 * 20),
                6 => 80 + rng.below(5_120),
                _ => 5_200 + rng.below(5_120),
            } as usize;
            bytes[at] = match rng.below(4) {
                0 => bytes[at] ^ 1 << rng.below(8),
                1 => bytes[at].wrapping_add(1),
                2 => bytes[at].wrapping_sub(1),
                _ => rng.byte(),
            };
        }
    });
}

/// An account's image with something about it changed: a field of the account, or bytes.
pub fn mutated(rng: &mut Random, a: &Account) -> Vec<u8> {
    let mut a = a.clone();
    if rng.one_in(2) {
        a.number = 20 + rng.below(40) as u16;
    }
    for _ in 0..rng.below(3) {
        change(rng, &mut a);
    }
    let mut bytes = image::image(&a);
    match rng.below(6) {
        0 => {
            let at = rng.below(bytes.len() as u64) as usize;
            bytes[at] ^= 1 << rng.below(8);
        }
        1 => {
            let at = bytes.len() - 1 - rng.below(24) as usize;
            bytes[at] = bytes[at].wrapping_add(rng.pick(&[1, 255, 8, 20]));
        }
        2 => {
            let cut = rng.below(bytes.len() as u64 + 1) as usize;
            bytes.drain(..cut);
        }
        3 => {
            // one record in the place of its neighbour, or both changed over
            let records: usize = a.streams.iter().map(|s| s.records.len()).sum();
            if records > 1 {
                let at = a.streams.len() * 8 + rng.below(records as u64 - 1) as usize * 8;
                let (one, other) = bytes[at..at + 16].split_at_mut(8);
                match rng.below(3) {
                    0 => other.copy_from_slice(one),
                    1 => one.copy_from_slice(other),
                    _ => one.swap_with_slice(other),
                }
            }
        }
        _ => {}
    }
    bytes
}

/// The closed epoch goes up, and every open one stays above it, but nothing is settled.
fn close_only(a: &mut Account, closed: u32) {
    a.closed = closed;
    for s in &mut a.streams {
        s.epoch = s.epoch.max(closed.saturating_add(1));
    }
}

fn change(rng: &mut Random, a: &mut Account) {
    let fragments = a.streams.len() as u64;
    let i = rng.below(fragments) as usize;
    let closed = a.closed;
    match rng.below(15) {
        12 | 13 => close_only(a, closed.saturating_add(1)),
        14 => {
            // a flag on a P whose writes are held, or that has been held for long
            let prepared: Vec<usize> = (0..a.streams[i].held.len()).filter(|&x| a.streams[i].held[x].deed.kind() == 3).collect();
            if !prepared.is_empty() {
                let held = &mut a.streams[i].held[rng.pick(&prepared)];
                if let Deed::Prepare { flagged, .. } = &mut held.deed {
                    *flagged = true;
                }
                let epoch = held.epoch;
                close_only(a, closed.max(epoch));
            }
        }
        0 => a.closed = a.closed.wrapping_add(rng.pick(&[1, u32::MAX, 2])),
        1 => a.streams[i].epoch = a.streams[i].epoch.wrapping_add(rng.pick(&[1, u32::MAX, 5])),
        2 => a.streams[i].next = rng.next() as u16,
        3 => {
            let key = rng.below(u64::from(a.keys) + 1) as u16;
            a.streams[i].records.insert(key, rng.next() as u32);
        }
        4 => a.keys = rng.pick(&[0, 1, 2, 3, 4, 127, 128, 129]),
        5 => {
            if let Some(last) = a.streams.last().cloned() {
                a.streams.push(last);
            }
        }
        _ => {
            let stream = &mut a.streams[i];
            let count = stream.held.len() as u64;
            if count == 0 {
                return;
            }
            let (x, y) = (rng.below(count) as usize, rng.below(count) as usize);
            match rng.below(6) {
                0 => stream.held.swap(x, y),
                1 => {
                    let again = stream.held[x].clone();
                    stream.held.insert(y, again);
                }
                2 => {
                    stream.held.remove(x);
                }
                3 => stream.held[x].transaction = stream.held[y].transaction,
                4 => stream.held[x].epoch = stream.held[x].epoch.wrapping_add(rng.pick(&[1, u32::MAX])),
                _ => {
                    if let Deed::Prepare { flagged, .. } = &mut stream.held[x].deed {
                        *flagged = !*flagged;
                        if rng.one_in(2) {
                            // as if its writes had been freed
                            let t = stream.held[x].transaction;
                            stream.held[x].epoch = stream.held[x].epoch.min(closed.max(1));
                            stream.held.retain(|h| h.transaction != t || h.deed.kind() > 2);
                        }
                    }
                }
            }
        }
    }
}

/// One log, delivered in two orders with other accounts and other closes around it: equal images, equal lists.
pub fn interleaved(seed: u64) -> bool {
    let mut rng = Random::new(seed);
    let fragments = 1 + rng.below(8) as usize;
    let keys = rng.pick(&[1, 3, 16, 128]);
    let mut start = Account::fresh(1 + rng.below(65_535) as u16, fragments, keys);
    if rng.one_in(3) {
        for s in &mut start.streams {
            s.next = rng.pick(&[65_500, 65_535, 32_760]);
        }
    }
    let most = rng.pick(&[30, 30, 30, 120]);
    let count = 2 + rng.below(most) as usize;
    let from = rng.pick(&[1, 1, 65_530, 1 << 20, u32::MAX - 200]);
    let log = logs::log(&mut rng, &start, count, from);
    let mut ends = Vec::new();
    for (run, lots) in [(1, 1), (2, 3)] {
        let mut order = Random::new(seed * 4 + run);
        match deliver_all(&mut order, lots, &start, &log) {
            Some(end) => ends.push(end),
            None => return false,
        }
    }
    if ends[0].0 != ends[1].0 {
        differ("two orders of one log end in other images");
    }
    if ends[0].1 != ends[1].1 {
        differ("two orders of one log give other lists");
    }
    // all fragments of a transaction in one close, or none
    for list in &ends[0].1 {
        for &(_, transaction) in list {
            let mut wanted: Vec<(u32, u32)> = log.fragments[&transaction].iter().map(|&i| (i, transaction)).collect();
            let mut got: Vec<(u32, u32)> = list.iter().copied().filter(|p| p.1 == transaction).collect();
            wanted.sort();
            got.sort();
            if wanted != got {
                differ(&format!("transaction {transaction} was installed at {got:?}, its fragments are {wanted:?}"));
            }
        }
    }
    true
}

type Lists = Vec<Vec<(u32, u32)>>;

fn deliver_all(rng: &mut Random, lots: usize, start: &Account, log: &Log) -> Option<(Vec<u8>, Lists)> {
    let mut pair = Pair::started(lots, rng.next());
    let frame = pair.frame;
    let neighbours = lots - 1;
    for n in 0..neighbours {
        pair.open(frame, u32::from(start.number) % 60_000 + 1 + n as u32, 1 + rng.below(8) as u32, 8);
    }
    let number = u32::from(start.number);
    let lot = if start.streams.iter().all(|s| s.next == 0) {
        pair.open(frame, number, start.streams.len() as u32, start.keys.into()).first
    } else {
        pair.load(frame, &image::image(start)).first
    };
    let mut at = vec![0; start.streams.len()];
    let mut lists = Vec::new();
    let patience = rng.pick(&[2, 10, 100]);
    let mut stuck = 0;
    while (0..at.len()).any(|i| at[i] < log.streams[i].len()) {
        let i = rng.below(at.len() as u64) as usize;
        // most orders bring a stream on in runs
        for _ in 0..1 + rng.below(9) {
            let Some(entry) = log.streams[i].get(at[i]) else { break };
            if rng.one_in(15) && at[i] > 0 {
                let back = 1 + rng.below(at[i] as u64) as usize;
                pair.deliver(frame, lot, number, &log.streams[i][at[i] - back]);
            }
            match pair.deliver(frame, lot, number, entry).number {
                0 => {
                    at[i] += 1;
                    stuck = 0;
                }
                11 => {
                    stuck += 1;
                    if stuck > 400 {
                        return None;
                    }
                    break;
                }
                other => differ(&format!("an entry of a log that keeps the rules was refused with {other}")),
            }
        }
        if rng.one_in(patience) || stuck > 0 {
            let (answer, list) = pair.close(frame, lot, number, 2_048);
            if answer.number == 0 {
                lists.push(list);
            }
        }
        if neighbours > 0 && rng.one_in(3) {
            let other = rng.below(neighbours as u64) as usize;
            if let Some(a) = pair.account(other).cloned() {
                let entry = logs::entry(rng, &a, Style::Filling);
                pair.deliver(frame, other as u32, a.number.into(), &entry);
                if rng.one_in(9) {
                    pair.close(frame, other as u32, a.number.into(), 2_048);
                }
            }
        }
    }
    loop {
        let (answer, list) = pair.close(frame, lot, number, 2_048);
        if answer.number != 0 {
            break;
        }
        lists.push(list);
    }
    Some((image::image(pair.account(lot as usize).unwrap()), lists))
}

/// An account with something in every section: entries of all kinds, flagged P's, records.
pub fn rich(seed: u64, entries: usize) -> Account {
    let mut rng = Random::new(seed);
    let keys = rng.pick(&[2, 9, 128]);
    let mut a = Account::fresh(7, 1 + rng.below(8) as usize, keys);
    for s in &mut a.streams {
        s.next = rng.next() as u16;
    }
    let style = if rng.one_in(3) { Style::Filling } else { Style::Dense };
    for _ in 0..entries {
        let entry = logs::entry(&mut rng, &a, style);
        let _ = a.take(&entry);
        if rng.one_in(12) {
            let _ = a.close();
        }
    }
    a
}

/// One image: lengths and bytes changed, `every` apart, longer data before it, and many structured changes. (`edges` tries each of some images.)
pub fn images(seed: u64, every: usize) {
    let mut rng = Random::new(seed);
    let entries = rng.pick(&[0, 20, 60, 400]);
    let a = rich(seed, entries);
    let whole = image::image(&a);
    let mut pair = Pair::started(2, seed);
    let frame = pair.frame;
    let try_one = |pair: &mut Pair, data: &[u8]| {
        let answer = pair.load(frame, data);
        if answer.number == 0 {
            let number = pair.account(answer.first as usize).unwrap().number;
            pair.load(frame, data);
            pair.drop(frame, answer.first, number.into());
        }
    };
    try_one(&mut pair, &whole);
    for cut in (0..whole.len()).step_by(every) {
        try_one(&mut pair, &whole[cut..]);
        try_one(&mut pair, &whole[..cut]);
    }
    for at in (0..whole.len()).step_by(every).chain(whole.len() - 24..whole.len()) {
        let mut data = whole.clone();
        data[at] ^= 1 << rng.below(8);
        try_one(&mut pair, &data);
        data[at] = whole[at].wrapping_add(rng.pick(&[1, 255]));
        try_one(&mut pair, &data);
        data[at] = 0;
        try_one(&mut pair, &data);
    }
    for _ in 0..60 {
        let mut data: Vec<u8> = (0..rng.below(300)).map(|_| rng.byte()).collect();
        data.extend(&whole);
        try_one(&mut pair, &data);
        let data = mutated(&mut rng, &a);
        try_one(&mut pair, &data);
    }
}

/// One lot: bytes changed one at a time where the test looks; what it then means, and what every call then answers.
pub fn damage(seed: u64, every: usize) {
    let mut rng = Random::new(seed);
    let entries = rng.pick(&[0, 30, 80, 300]);
    let a = rich(seed, entries);
    let mut pair = Pair::started(2, seed);
    let frame = pair.frame;
    pair.open(frame, 9, 1, 1);
    let lot = pair.load(frame, &image::image(&a)).first as usize;
    let whole = pair.lot_bytes(lot).to_vec();
    let looked = 80 + a.held() * 20;
    let places = (0..looked).chain((looked..LOT).step_by(701)).filter(|i| *i < 80 || i % every == 0);
    for at in places {
        for turn in 0..2 {
            let with = if turn == 0 { whole[at] ^ 1 << rng.below(8) } else { whole[at].wrapping_add(rng.pick(&[1, 255])) };
            pair.scribble(lot, |bytes| bytes[at] = with);
            pair.overview(frame, 32);
            let number = pair.account(lot).map_or(7, |a| u32::from(a.number));
            match rng.below(9) {
                0 => drop(pair.read(frame, lot as u32, number, rng.below(9) as u32, rng.below(129) as u32)),
                1 => drop(pair.save(frame, lot as u32, number, LONGEST)),
                2 => drop(pair.close(frame, lot as u32, number, 2_048)),
                3 => {
                    if let Some(a) = pair.account(lot).cloned() {
                        let entry = logs::entry(&mut rng, &a, Style::Dense);
                        pair.deliver(frame, lot as u32, number, &entry);
                    } else {
                        pair.deliver(frame, lot as u32, number, &[1; 16]);
                    }
                }
                4 => drop(pair.open(frame, 11, 1, 1)),
                5 => drop(pair.load(frame, &image::image(&a))),
                6 => drop(pair.drop(frame, lot as u32, rng.pick(&[number, 1]))),
                7 => drop(pair.close(frame, 0, 9, 2_048)),
                _ => drop(pair.close(frame, lot as u32, number, 2_047)),
            }
            pair.scribble(lot, |bytes| bytes.copy_from_slice(&whole));
        }
    }
}
