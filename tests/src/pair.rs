//! Two standbys side by side: the rules of this program, and the archive's functions on lent memory. Every call is made on
//! both, and everything that the call owes is compared.

use crate::image::{self, Lot, LONGEST, LOT};
use crate::lent::*;
use crate::random::Random;
use crate::rules::Account;
use std::sync::atomic::{AtomicU64, Ordering};

/// The sequence of calls that is being made: its kind (an index into KINDS), its seed, and how many calls it has made.
pub static KIND: AtomicU64 = AtomicU64::new(0);
pub const KINDS: [&str; 5] = ["edges", "mixed", "interleaved", "images", "damage"];
pub static SEED: AtomicU64 = AtomicU64::new(0);
pub static STEP: AtomicU64 = AtomicU64::new(0);

pub const CALLS: [&str; 9] = ["start", "open", "deliver", "close", "read", "save", "load", "drop", "overview"];
const START: usize = 0;
const OPEN: usize = 1;
const DELIVER: usize = 2;
const CLOSE: usize = 3;
const READ: usize = 4;
const SAVE: usize = 5;
const LOAD: usize = 6;
const DROP: usize = 7;
const OVERVIEW: usize = 8;

/// How often each call gave each number, over all pairs.
pub static GIVEN: [[AtomicU64; 18]; 9] = [const { [const { AtomicU64::new(0) }; 18] }; 9];
/// Pieces listed by closes, and images accepted.
pub static PIECES: AtomicU64 = AtomicU64::new(0);

pub fn differ(what: &str) -> ! {
    let now = |n: &AtomicU64| n.load(Ordering::Relaxed);
    let (kind, seed) = (KINDS[now(&KIND) as usize], now(&SEED));
    eprintln!("difference: {kind} seed {seed} step {}: {what}", now(&STEP));
    eprintln!("again: tests/run seed {kind} {seed}");
    std::process::exit(1);
}

/// The three parts of an answer.
#[derive(Clone, Copy, PartialEq, Eq, Debug)]
pub struct Answer {
    pub number: u32,
    pub first: u32,
    pub second: u32,
}

impl Answer {
    pub const DONE: Answer = Answer { number: 0, first: 0, second: 0 };
    pub fn done(first: u32, second: u32) -> Answer {
        Answer { number: 0, first, second }
    }
    fn refused(number: u32) -> Answer {
        Answer { number, first: 0, second: 0 }
    }
    fn unpack(packed: u64) -> Answer {
        Answer { number: (packed & 0xff) as u32, first: (packed >> 8 & 0xff_ffff) as u32, second: (packed >> 32) as u32 }
    }
}

/// The part of the memory that a call is lent, and the lot count that it is told.
#[derive(Clone, Copy, Debug)]
pub struct Frame {
    pub len: usize,
    pub lots: u32,
}

impl Frame {
    pub fn of(lots: usize) -> Frame {
        Frame { len: lots * LOT, lots: lots as u32 }
    }
    fn fits(&self) -> bool {
        (1..=16).contains(&self.lots) && self.len == self.lots as usize * LOT
    }
}

pub struct Pair {
    pub lots: Vec<Lot>,
    pub frame: Frame,
    memory: Lent,
    before: Vec<u8>,
    rng: Random,
}

impl Pair {
    /// Memory of so many lots, and one lot more that no ordinary call is lent; with the bytes that are given again and again.
    pub fn new(lots: usize, seed: u64, fill: &[u8]) -> Pair {
        let mut rng = Random::new(seed);
        let bytes: Vec<u8> = fill.iter().copied().cycle().take((lots + 1) * LOT).collect();
        let memory = Lent::of(&bytes, rng.below(16) as usize);
        let lots_seen = bytes.chunks(LOT).map(image::lot).collect();
        Pair { lots: lots_seen, frame: Frame::of(lots), memory, before: bytes, rng }
    }

    pub fn started(lots: usize, seed: u64) -> Pair {
        let mut pair = Pair::new(lots, seed, &[0]);
        pair.start(pair.frame);
        pair
    }

    pub fn account(&self, lot: usize) -> Option<&Account> {
        match self.lots.get(lot) {
            Some(Lot::Holds(a)) => Some(a),
            _ => None,
        }
    }

    // ---- comparing

    /// Answers alike, margins whole, and no byte of the memory changed but in this lot (all lots of the frame: Some(usize::MAX)).
    fn compare(&mut self, call: usize, packed: u64, wanted: Answer, changed: Option<usize>, said: &dyn Fn() -> String) -> Answer {
        STEP.fetch_add(1, Ordering::Relaxed);
        let got = Answer::unpack(packed);
        if got != wanted {
            differ(&format!("{} answered {got:?}, the rules say {wanted:?}", said()));
        }
        GIVEN[call][wanted.number as usize].fetch_add(1, Ordering::Relaxed);
        if !self.memory.margins_whole() {
            differ(&format!("{} wrote beside the memory", said()));
        }
        let may = match changed {
            None => 0..0,
            Some(usize::MAX) => 0..self.frame.len,
            Some(lot) => lot * LOT..lot * LOT + LOT,
        };
        let now = self.memory.bytes();
        if now[..may.start] != self.before[..may.start] || now[may.end..] != self.before[may.end..] {
            differ(&format!("{} changed bytes outside its lot, or by a refusal", said()));
        }
        self.before[may.clone()].copy_from_slice(&now[may]);
        wanted
    }

    /// The lot shows the account that the rules say, through its image.
    fn same_account(&mut self, lot: usize, said: &dyn Fn() -> String) {
        match &self.lots[lot] {
            Lot::Holds(a) => {
                let number = u32::from(a.number);
                if self.frame.fits() && lot < self.frame.lots as usize {
                    self.save_with(self.frame, lot as u32, number, LONGEST, said);
                }
            }
            other => {
                if image::lot(&self.before[lot * LOT..lot * LOT + LOT]) != *other {
                    differ(&format!("after {} lot {lot} is not {other:?}", said()));
                }
            }
        }
    }

    fn unchanged(&self, lent: &Lent, wanted: &[u8], said: &dyn Fn() -> String) {
        if !lent.margins_whole() {
            differ(&format!("{} wrote beside a lent buffer", said()));
        }
        if lent.bytes() != wanted {
            let at = lent.bytes().iter().zip(wanted).position(|(a, b)| a != b);
            differ(&format!("{}: a lent buffer has other bytes than the rules say, first at {at:?}", said()));
        }
    }

    fn shift(&mut self) -> usize {
        self.rng.below(16) as usize
    }

    // ---- finding the lot: refusals 1, 2, 3

    fn find(&self, frame: Frame, lot: u32, account: u32) -> Result<usize, u32> {
        if !frame.fits() || lot >= frame.lots {
            return Err(1);
        }
        match &self.lots[lot as usize] {
            Lot::Damaged => Err(2),
            Lot::Holds(a) if u32::from(a.number) == account => Ok(lot as usize),
            _ => Err(3),
        }
    }

    fn find_free(&self, frame: Frame, account: u32) -> Result<usize, u32> {
        let lots = &self.lots[..frame.lots as usize];
        if lots.iter().any(|l| matches!(l, Lot::Holds(a) if u32::from(a.number) == account)) {
            return Err(13);
        }
        lots.iter().position(|l| *l == Lot::Free).ok_or(14)
    }

    fn any_damaged(&self, frame: Frame) -> bool {
        self.lots[..frame.lots as usize].contains(&Lot::Damaged)
    }

    // ---- the nine calls

    pub fn start(&mut self, frame: Frame) -> Answer {
        let said = || format!("start {frame:?}");
        let wanted = if frame.fits() { Answer::DONE } else { Answer::refused(1) };
        let packed = unsafe { standby_start(self.memory.bytes_mut().as_mut_ptr(), frame.len, frame.lots) };
        let whole = self.frame;
        if wanted.number == 0 {
            self.frame = frame;
        }
        let changed = (wanted.number == 0).then_some(usize::MAX);
        self.compare(START, packed, wanted, changed, &said);
        self.frame = whole;
        if wanted.number == 0 {
            for lot in 0..frame.lots as usize {
                self.lots[lot] = Lot::Free;
                self.same_account(lot, &said);
            }
        }
        wanted
    }

    pub fn open(&mut self, frame: Frame, account: u32, fragments: u32, keys: u32) -> Answer {
        let said = || format!("open {frame:?} account {account} f {fragments} k {keys}");
        let found = if !frame.fits() {
            Err(1)
        } else if self.any_damaged(frame) {
            Err(2)
        } else if !Account::fits(account, fragments, keys) {
            Err(15)
        } else {
            self.find_free(frame, account)
        };
        let packed =
            unsafe { standby_open(self.memory.bytes_mut().as_mut_ptr(), frame.len, frame.lots, account, fragments, keys) };
        match found {
            Err(number) => self.compare(OPEN, packed, Answer::refused(number), None, &said),
            Ok(lot) => {
                let answer = self.compare(OPEN, packed, Answer::done(lot as u32, 0), Some(lot), &said);
                self.lots[lot] = Lot::Holds(Account::fresh(account as u16, fragments as usize, keys as u16));
                self.same_account(lot, &said);
                answer
            }
        }
    }

    pub fn deliver(&mut self, frame: Frame, lot: u32, account: u32, entry: &[u8]) -> Answer {
        let said = || format!("deliver {frame:?} lot {lot} account {account} entry {entry:02x?}");
        let lent = Lent::of(entry, self.shift());
        let packed = unsafe {
            let memory = self.memory.bytes_mut().as_mut_ptr();
            standby_deliver(memory, frame.len, frame.lots, lot, account, lent.bytes().as_ptr(), entry.len())
        };
        self.unchanged(&lent, entry, &said);
        let found = self.find(frame, lot, account);
        let taken = found.and_then(|lot| match &mut self.lots[lot] {
            Lot::Holds(a) => a.take(entry).map(|()| lot),
            _ => unreachable!(),
        });
        match taken {
            Err(number) => self.compare(DELIVER, packed, Answer::refused(number), None, &said),
            Ok(lot) => {
                let answer = self.compare(DELIVER, packed, Answer::DONE, Some(lot), &said);
                self.same_account(lot, &said);
                answer
            }
        }
    }

    /// The answer, and the pieces.
    pub fn close(&mut self, frame: Frame, lot: u32, account: u32, list_len: usize) -> (Answer, Vec<(u32, u32)>) {
        let said = || format!("close {frame:?} lot {lot} account {account} list of {list_len}");
        let mut list: Vec<u8> = (0..list_len).map(|_| self.rng.byte()).collect();
        let mut lent = Lent::of(&list, self.shift());
        let packed = unsafe {
            let memory = self.memory.bytes_mut().as_mut_ptr();
            standby_close(memory, frame.len, frame.lots, lot, account, lent.bytes_mut().as_mut_ptr(), list_len)
        };
        let found = match self.find(frame, lot, account) {
            Ok(_) if list_len < 2_048 => Err(Answer::refused(16)),
            Err(number) => Err(Answer::refused(number)),
            Ok(lot) => match &mut self.lots[lot] {
                Lot::Holds(a) => a.close().map(|pieces| (lot, pieces)).map_err(|missing| Answer {
                    number: 12,
                    first: missing.iter().map(|i| 1 << i).sum(),
                    second: missing.len() as u32,
                }),
                _ => unreachable!(),
            },
        };
        match found {
            Err(answer) => {
                self.unchanged(&lent, &list, &said);
                (self.compare(CLOSE, packed, answer, None, &said), Vec::new())
            }
            Ok((lot, pieces)) => {
                for (i, (fragment, transaction)) in pieces.iter().enumerate() {
                    list[i * 8..i * 8 + 4].copy_from_slice(&fragment.to_le_bytes());
                    list[i * 8 + 4..i * 8 + 8].copy_from_slice(&transaction.to_le_bytes());
                }
                let answer = self.compare(CLOSE, packed, Answer::done(pieces.len() as u32, 0), Some(lot), &said);
                self.unchanged(&lent, &list, &said);
                PIECES.fetch_add(pieces.len() as u64, Ordering::Relaxed);
                self.same_account(lot, &said);
                (answer, pieces)
            }
        }
    }

    pub fn read(&mut self, frame: Frame, lot: u32, account: u32, fragment: u32, key: u32) -> Answer {
        let said = || format!("read {frame:?} lot {lot} account {account} fragment {fragment} key {key}");
        let packed = unsafe {
            standby_read(self.memory.bytes().as_ptr(), frame.len, frame.lots, lot, account, fragment, key)
        };
        let wanted = match self.find(frame, lot, account) {
            Err(number) => Answer::refused(number),
            Ok(lot) => {
                let a = self.account(lot).unwrap();
                if fragment as usize >= a.streams.len() || key >= u32::from(a.keys) {
                    Answer::refused(6)
                } else {
                    match a.streams[fragment as usize].records.get(&(key as u16)) {
                        Some(value) => Answer::done(1, *value),
                        None => Answer::done(0, 0),
                    }
                }
            }
        };
        self.compare(READ, packed, wanted, None, &said)
    }

    pub fn save(&mut self, frame: Frame, lot: u32, account: u32, image_len: usize) -> Answer {
        self.save_with(frame, lot, account, image_len, &|| {
            format!("save {frame:?} lot {lot} account {account} buffer of {image_len}")
        })
    }

    fn save_with(&mut self, frame: Frame, lot: u32, account: u32, image_len: usize, said: &dyn Fn() -> String) -> Answer {
        let filling = self.rng.byte();
        let mut buffer = vec![filling; image_len];
        let mut lent = Lent::of(&buffer, self.shift());
        let packed = unsafe {
            let memory = self.memory.bytes().as_ptr();
            standby_save(memory, frame.len, frame.lots, lot, account, lent.bytes_mut().as_mut_ptr(), image_len)
        };
        let wanted = match self.find(frame, lot, account) {
            Err(number) => Answer::refused(number),
            Ok(_) if image_len < LONGEST => Answer::refused(16),
            Ok(lot) => {
                let image = image::image(self.account(lot).unwrap());
                buffer[..image.len()].copy_from_slice(&image);
                Answer::done(image.len() as u32, 0)
            }
        };
        let said = || format!("{} (its image)", said());
        self.compare(SAVE, packed, wanted, None, &said);
        self.unchanged(&lent, &buffer, &said);
        wanted
    }

    pub fn load(&mut self, frame: Frame, data: &[u8]) -> Answer {
        let said = || {
            let tail = &data[data.len().saturating_sub(48)..];
            format!("load {frame:?} data of {} ending {tail:02x?}", data.len())
        };
        let lent = Lent::of(data, self.shift());
        let packed = unsafe {
            let memory = self.memory.bytes_mut().as_mut_ptr();
            standby_load(memory, frame.len, frame.lots, lent.bytes().as_ptr(), data.len())
        };
        self.unchanged(&lent, data, &said);
        let found = if !frame.fits() {
            Err(1)
        } else if self.any_damaged(frame) {
            Err(2)
        } else {
            image::accept(data).ok_or(17).and_then(|a| self.find_free(frame, a.number.into()).map(|lot| (lot, a)))
        };
        match found {
            Err(number) => self.compare(LOAD, packed, Answer::refused(number), None, &said),
            Ok((lot, a)) => {
                let answer = self.compare(LOAD, packed, Answer::done(lot as u32, 0), Some(lot), &said);
                let image = image::image(&a);
                assert_eq!(image, data[data.len() - image.len()..], "an accepted image is not the account's own");
                self.lots[lot] = Lot::Holds(a);
                self.same_account(lot, &said);
                answer
            }
        }
    }

    pub fn drop(&mut self, frame: Frame, lot: u32, account: u32) -> Answer {
        let said = || format!("drop {frame:?} lot {lot} account {account}");
        let packed = unsafe { standby_drop(self.memory.bytes_mut().as_mut_ptr(), frame.len, frame.lots, lot, account) };
        match self.find(frame, lot, account) {
            Err(number) if number != 2 => self.compare(DROP, packed, Answer::refused(number), None, &said),
            _ => {
                let lot = lot as usize;
                let answer = self.compare(DROP, packed, Answer::DONE, Some(lot), &said);
                self.lots[lot] = Lot::Free;
                self.same_account(lot, &said);
                answer
            }
        }
    }

    pub fn overview(&mut self, frame: Frame, rows_len: usize) -> Answer {
        let said = || format!("overview {frame:?} rows of {rows_len}");
        let mut rows: Vec<u8> = (0..rows_len).map(|_| self.rng.byte()).collect();
        let mut lent = Lent::of(&rows, self.shift());
        let packed = unsafe {
            let memory = self.memory.bytes().as_ptr();
            standby_overview(memory, frame.len, frame.lots, lent.bytes_mut().as_mut_ptr(), rows_len)
        };
        let wanted = if !frame.fits() {
            Answer::refused(1)
        } else if rows_len < frame.lots as usize * 16 {
            Answer::refused(16)
        } else {
            for (i, lot) in self.lots[..frame.lots as usize].iter().enumerate() {
                let row: [u32; 4] = match lot {
                    Lot::Free => [0; 4],
                    Lot::Damaged => [0, 0, 0, 1],
                    Lot::Holds(a) => [a.number.into(), a.closed, a.held() as u32, 0],
                };
                for (j, number) in row.iter().enumerate() {
                    rows[i * 16 + j * 4..i * 16 + j * 4 + 4].copy_from_slice(&number.to_le_bytes());
                }
            }
            Answer::DONE
        };
        let answer = self.compare(OVERVIEW, packed, wanted, None, &said);
        self.unchanged(&lent, &rows, &said);
        answer
    }

    // ---- from outside

    /// Changes bytes of a lot as an outsider would, and reads what the lot then means from its bytes.
    pub fn scribble(&mut self, lot: usize, change: impl FnOnce(&mut [u8])) {
        if image::lot(&self.before[lot * LOT..lot * LOT + LOT]) != self.lots[lot] {
            differ(&format!("lot {lot} does not hold its account as docs/LOT.md says"));
        }
        let bytes = &mut self.memory.bytes_mut()[lot * LOT..lot * LOT + LOT];
        change(bytes);
        self.before[lot * LOT..lot * LOT + LOT].copy_from_slice(bytes);
        self.lots[lot] = image::lot(bytes);
    }

    pub fn lot_bytes(&self, lot: usize) -> &[u8] {
        &self.before[lot * LOT..lot * LOT + LOT]
    }
}
