//! Either side of every line that docs/RULES.md draws, one after the other.

use crate::image::{self, LONGEST, LOT};
use crate::pair::{differ, Answer, Frame, Pair};
use crate::rules::{Account, Deed, Entry, Held, Said};

fn put(key: u16, value: u32) -> Deed {
    Deed::Put { key, value }
}
fn prepare(coordinator: u16) -> Deed {
    Deed::Prepare { coordinator, flagged: false }
}
const CC: Deed = Deed::CoordinatorCommit;
const CP: Deed = Deed::ParticipantCommit;
const A: Deed = Deed::Abort;

/// One account, alone in its memory.
struct Alone {
    pair: Pair,
    number: u32,
}

impl Alone {
    fn open(number: u32, fragments: u32, keys: u32) -> Alone {
        let mut pair = Pair::started(1, 1);
        pair.open(pair.frame, number, fragments, keys);
        Alone { pair, number }
    }
    fn load(a: &Account) -> Alone {
        let mut pair = Pair::started(1, 2);
        let answer = pair.load(pair.frame, &image::image(a));
        want(answer, 0);
        Alone { pair, number: a.number.into() }
    }
    fn account(&self) -> &Account {
        self.pair.account(0).unwrap()
    }
    fn bytes(&mut self, bytes: &[u8]) -> u32 {
        self.pair.deliver(self.pair.frame, 0, self.number, bytes).number
    }
    /// Delivers with the number that is due.
    fn say(&mut self, fragment: u8, said: Said) -> u32 {
        let sequence = self.account().streams[usize::from(fragment)].next;
        self.bytes(&Entry { fragment, sequence, said }.bytes())
    }
    fn of(&mut self, fragment: u8, transaction: u32, deed: Deed) -> u32 {
        self.say(fragment, Said::Of(transaction, deed))
    }
    fn mark(&mut self, fragment: u8) -> u32 {
        let epoch = self.account().streams[usize::from(fragment)].epoch;
        self.say(fragment, Said::Mark(epoch))
    }
    fn close(&mut self) -> (Answer, Vec<(u32, u32)>) {
        self.pair.close(self.pair.frame, 0, self.number, 2_048)
    }
    fn read(&mut self, fragment: u32, key: u32) -> Answer {
        self.pair.read(self.pair.frame, 0, self.number, fragment, key)
    }
}

/// The page says this number: here even both being wrong together is found.
fn want(answer: Answer, number: u32) {
    if answer.number != number {
        differ(&format!("the page says {number}, both answered {answer:?}"));
    }
}

fn same<T: PartialEq + std::fmt::Debug>(got: T, wanted: T) {
    if got != wanted {
        differ(&format!("the page says {wanted:?}, both have {got:?}"));
    }
}

pub fn all() {
    worked_case();
    worked_lines();
    frames();
    lengths_and_bytes();
    stages();
    distances();
    full();
    marks();
    whole_numbers();
    opening();
    buffers();
    longest();
    acceptance();
    every_change();
}

fn worked_case() {
    let mut a = Alone::open(7, 2, 4);
    same(a.of(0, 1, put(0, 10)), 0);
    same(a.of(0, 1, CC), 0);
    same(a.mark(0), 0);
    same(a.mark(0), 0);
    let (answer, _) = a.close();
    same(answer, Answer { number: 12, first: 2, second: 1 });
    same(a.of(1, 1, put(2, 30)), 0);
    same(a.of(1, 1, prepare(0)), 0);
    same(a.of(1, 2, put(3, 40)), 0);
    same(a.mark(1), 0);
    same(a.close().1, vec![(0, 1), (1, 1)]);
    same(a.of(1, 1, CP), 0);
    same(a.of(1, 2, CC), 0);
    same(a.mark(1), 0);
    same(a.close().1, vec![(1, 2)]);
    same(a.read(0, 0), Answer::done(1, 10));
    same(a.read(1, 2), Answer::done(1, 30));
    same(a.read(1, 3), Answer::done(1, 40));
    same(a.read(1, 0), Answer::done(0, 0));
    same(a.account().held(), 0);
}

fn worked_lines() {
    let mut a = Alone::open(7, 2, 4);
    same(a.of(1, 1, CP), 10);
    same(a.of(1, 1, prepare(1)), 6);
    // P in epoch 1, CC in epoch 2: close 1 installs neither piece, close 2 both
    same(a.of(1, 1, put(0, 5)), 0);
    same(a.of(1, 1, prepare(0)), 0);
    same(a.mark(0), 0);
    same(a.mark(1), 0);
    same(a.of(0, 1, CC), 0);
    same(a.close().1, vec![]);
    same(a.mark(0), 0);
    same(a.mark(1), 0);
    same(a.close().1, vec![(0, 1), (1, 1)]);
    // CP later frees the flagged P and applies nothing, also over a later write of another
    same(a.of(1, 2, put(0, 6)), 0);
    same(a.of(1, 2, CC), 0);
    same(a.of(1, 1, CP), 0);
    same(a.mark(0), 0);
    same(a.mark(1), 0);
    same(a.close().1, vec![(1, 2)]);
    same(a.read(1, 0), Answer::done(1, 6));
    same(a.account().held(), 0);
    // committed pieces first, by that entry's position; then the flagged ones, by position of P
    for (t, deed) in [(5, prepare(0)), (6, prepare(0)), (7, put(1, 1)), (8, put(1, 2)), (8, CC), (7, CC)] {
        same(a.of(1, t, deed), 0);
    }
    for t in [6, 5] {
        same(a.of(0, t, CC), 0);
    }
    same(a.mark(0), 0);
    same(a.mark(1), 0);
    same(a.close().1, vec![(0, 6), (0, 5), (1, 8), (1, 7), (1, 5), (1, 6)]);
    same(a.read(1, 1), Answer::done(1, 1));
    // an abort after the flag frees the P
    same(a.of(1, 5, A), 0);
    // a transaction number is unheard again once freed
    same(a.of(0, 6, put(0, 0)), 0);
    same(a.of(0, 6, Deed::Delete { key: 0 }), 0);
    same(a.of(0, 6, put(0, 0)), 0);
    same(a.of(0, 6, CC), 0);
    same(a.mark(0), 0);
    same(a.mark(1), 0);
    same(a.close().1, vec![(0, 6)]);
    same(a.read(0, 0), Answer::done(1, 0));
    same(a.account().held(), 1);

    let mut a = Alone::open(65_535, 1, 128);
    same(a.pair.save(a.pair.frame, 0, 65_535, LONGEST), Answer::done(32, 0));
    same(a.of(0, 1, CC), 0);
    same(a.mark(0), 0);
    same(a.close().1, vec![(0, 1)]);
}

/// Memory of other lengths, other lot counts, lots at and past the end: every call.
fn frames() {
    let mut pair = Pair::new(16, 3, &[0x5a, 1, 2]);
    let counts = [0, 1, 2, 15, 16, 17, 18, 255, 256, 65_537, 1 << 31, u32::MAX];
    let lengths = [0, 1, LOT - 1, LOT, LOT + 1, 2 * LOT, 16 * LOT - 1, 16 * LOT, 16 * LOT + 1, 17 * LOT];
    let every_call = |pair: &mut Pair, frame: Frame, lot: u32| {
        pair.open(frame, 7, 2, 4);
        pair.deliver(frame, lot, 7, &[0; 16]);
        pair.deliver(frame, lot, 7, &Entry { fragment: 0, sequence: 0, said: Said::Mark(1) }.bytes());
        pair.close(frame, lot, 7, 2_048);
        pair.read(frame, lot, 7, 0, 0);
        pair.save(frame, lot, 7, LONGEST);
        pair.load(frame, &image::image(&Account::fresh(8, 1, 1)));
        pair.overview(frame, 16 * 18);
        pair.drop(frame, lot, 7);
    };
    for started in [false, true] {
        for lots in counts {
            for len in lengths {
                let frame = Frame { len, lots };
                if started && len > 0 {
                    pair.start(frame);
                }
                every_call(&mut pair, frame, 0);
            }
        }
    }
    for lots in [1, 2, 16] {
        let frame = Frame::of(lots);
        pair.start(frame);
        for n in 0..lots as u32 + 1 {
            pair.open(frame, 7 + n, 1, 1);
        }
        let lots = lots as u32;
        for lot in [lots - 1, lots, lots + 1, 16, 17, 255, 256, 65_536, 1 << 31, u32::MAX] {
            every_call(&mut pair, frame, lot);
            pair.drop(frame, lot, 7 + lots - 1);
        }
    }
}

fn lengths_and_bytes() {
    let mut a = Alone::open(7, 2, 4);
    let put_entry = Entry { fragment: 0, sequence: 0, said: Said::Of(1, put(0, 1)) }.bytes();
    for length in 0..=40 {
        let bytes: Vec<u8> = put_entry.iter().copied().cycle().take(length).collect();
        let frame = a.pair.frame;
        a.pair.deliver(frame, 0, 8, &bytes);
        if length != 16 {
            same(a.bytes(&bytes), 4);
        }
    }
    // every kind, with every byte set in turn
    for kind in 0..=255u8 {
        for at in 0..16 {
            for value in [0, 1, 2, 4, 128, 255] {
                let mut bytes = [0; 16];
                bytes[0] = kind;
                bytes[4] = 1;
                if kind == 3 {
                    bytes[8] = 1;
                }
                if at > 0 {
                    bytes[at] = value;
                }
                // so that what is taken stays small
                if (a.account().held() > 200) || a.account().streams[0].next > 60_000 {
                    a = Alone::open(7, 2, 4);
                }
                let next = a.account().streams[usize::from(bytes[1].min(1))].next;
                if at != 2 && at != 3 {
                    bytes[2..4].copy_from_slice(&next.to_le_bytes());
                }
                let number = a.bytes(&bytes);
                let unused = match kind {
                    1 => at == 10 || at == 11,
                    2 | 3 => at >= 10,
                    _ => at >= 8,
                };
                if unused && value != 0 || kind == 0 || kind > 7 {
                    same(number, 5);
                }
            }
        }
    }
    // transaction 0
    for kind in 1..=7 {
        let mut bytes = [0; 16];
        bytes[0] = kind;
        same(a.bytes(&bytes), 5);
    }
    // 5 comes before 6, 6 before 7
    for (bytes, number) in [
        ([8, 9, 9, 9, 1, 0, 0, 0, 0, 0, 0, 0, 0, 0, 0, 0], 5),
        ([1, 9, 9, 9, 1, 0, 0, 0, 0, 0, 0, 0, 0, 0, 0, 0], 6),
        ([1, 2, 0, 0, 1, 0, 0, 0, 0, 0, 0, 0, 0, 0, 0, 0], 6),
        ([1, 0, 9, 9, 1, 0, 0, 0, 4, 0, 0, 0, 0, 0, 0, 0], 6),
        ([1, 0, 9, 9, 1, 0, 0, 0, 0, 1, 0, 0, 0, 0, 0, 0], 6),
        ([3, 0, 9, 9, 1, 0, 0, 0, 0, 0, 0, 0, 0, 0, 0, 0], 6),
        ([3, 0, 9, 9, 1, 0, 0, 0, 2, 0, 0, 0, 0, 0, 0, 0], 6),
        ([3, 0, 9, 9, 1, 0, 0, 0, 1, 1, 0, 0, 0, 0, 0, 0], 6),
    ] {
        same(a.bytes(&bytes), number);
    }
}

/// Every stage with every kind, in its own stream only.
fn stages() {
    let ways: [&[Deed]; 9] = [
        &[],
        &[put(0, 1)],
        &[Deed::Delete { key: 1 }],
        &[prepare(1)],
        &[put(0, 1), prepare(1)],
        &[CC],
        &[prepare(1), CP],
        &[put(0, 1), A],
        &[prepare(1), A],
    ];
    let taken = |way: usize, kind: u8| match way {
        0 => kind <= 4,
        1 | 2 => kind <= 4 || kind == 6,
        3 | 4 => kind >= 5,
        _ => false,
    };
    for (i, way) in ways.iter().enumerate() {
        for deed in [put(1, 2), Deed::Delete { key: 1 }, prepare(1), CC, CP, A] {
            for closed in [false, true] {
                let mut a = Alone::open(7, 2, 4);
                for d in *way {
                    same(a.of(0, 5, *d), 0);
                }
                if closed {
                    same(a.mark(0), 0);
                    same(a.mark(1), 0);
                    a.close();
                }
                // another stream's entries and other transactions do not count
                same(a.of(1, 5, put(0, 1)), 0);
                same(a.of(0, 6, put(0, 1)), 0);
                let unheard = closed && i >= 5;
                let wanted = if taken(if unheard { 0 } else { i }, deed.kind()) { 0 } else { 10 };
                same(a.of(0, 5, deed), wanted);
                if wanted == 0 {
                    same(a.mark(0), 0);
                    same(a.mark(1), 0);
                    a.close();
                    a.close();
                }
            }
        }
    }
    // the P is flagged: its coordinator's CC has been closed
    for deed in [put(1, 2), Deed::Delete { key: 1 }, prepare(1), CC, CP, A] {
        let mut a = Alone::open(7, 2, 4);
        same(a.of(0, 5, prepare(1)), 0);
        same(a.of(1, 5, CC), 0);
        same(a.mark(0), 0);
        same(a.mark(1), 0);
        a.close();
        same(a.of(0, 5, deed), if deed.kind() >= 5 { 0 } else { 10 });
        same(a.mark(0), 0);
        same(a.mark(1), 0);
        a.close();
    }
}

fn distances() {
    for expected in [0, 1, 32_767, 32_768, 65_535] {
        let mut account = Account::fresh(7, 1, 1);
        account.streams[0].next = expected;
        let mut a = Alone::load(&account);
        let step = if expected == 0 { 1 } else { 17 };
        let near = (0..=65_535u16).step_by(step).chain(expected.wrapping_sub(3)..=expected.saturating_add(3));
        let far = expected.wrapping_add(32_760);
        let far: Vec<u16> = (0..16).map(|i| far.wrapping_add(i)).collect();
        for received in near.chain(far) {
            if received == expected {
                continue;
            }
            let bytes = Entry { fragment: 0, sequence: received, said: Said::Of(1, CC) }.bytes();
            let number = a.bytes(&bytes);
            same(number, if received.wrapping_sub(expected) >= 32_768 { 7 } else { 8 });
        }
        same(a.of(0, 1, CC), 0);
        same(a.account().streams[0].next, expected.wrapping_add(1));
        same(a.of(0, 2, CC), 0);
    }
}

/// 255 and 256 held, one stream or eight; what is ended is freed and gives room.
fn full() {
    for fragments in [1, 2, 8] {
        let mut a = Alone::open(7, fragments, 128);
        for i in 0..256 {
            let fragment = (i * 5 % fragments) as u8;
            let deed = if i % 3 == 0 { put((i % 128) as u16, i) } else { Deed::Delete { key: (i % 128) as u16 } };
            same(a.of(fragment, 1 + i / 4, deed), 0);
        }
        same(a.of(0, 1_000, put(0, 0)), 11);
        same(a.of(0, 1_000, CC), 11);
        same(a.of(0, 1_000, CP), 10);
        same(a.of(0, 1, A), 11);
        for i in 0..fragments {
            same(a.mark(i as u8), 0);
        }
        same(a.close().0, Answer::DONE);
        same(a.of(0, 1_000, put(0, 0)), 11);
        for i in 0..fragments {
            same(a.mark(i as u8), 0);
        }
    }
    // 256 of every size of piece: a full lot of lone commits gives 256 pieces
    let mut a = Alone::open(7, 4, 128);
    for t in 1..=256 {
        same(a.of((t % 4) as u8, t, CC), 0);
    }
    for i in 0..4 {
        same(a.mark(i), 0);
    }
    same(a.close().0, Answer::done(256, 0));
    same(a.account().held(), 0);
    // 128 commits whose 128 P's are flagged: 256 pieces too, and 128 stay
    for t in 1..=128 {
        same(a.of(3, t, CC), 0);
        same(a.of((t % 3) as u8, t, prepare(3)), 0);
    }
    for i in 0..4 {
        same(a.mark(i), 0);
    }
    same(a.close().0, Answer::done(256, 0));
    same(a.account().held(), 128);
}

fn marks() {
    let mut a = Alone::open(7, 2, 4);
    for (epoch, number) in [(0, 5), (u32::MAX, 5), (u32::MAX - 1, 9), (2, 9), (65_537, 9), (1, 0), (1, 9), (2, 0)] {
        same(a.say(0, Said::Mark(epoch)), number);
    }
    // the last epochs that there are
    for epoch in [u32::MAX - 2, u32::MAX - 1, u32::MAX] {
        let mut account = Account::fresh(7, 2, 4);
        account.closed = u32::MAX - 3;
        for s in &mut account.streams {
            s.epoch = epoch;
        }
        let mut a = Alone::load(&account);
        same(a.of(0, 1, put(0, 9)), 0);
        same(a.of(0, 1, CC), 0);
        for _ in 0..3 {
            for i in 0..2 {
                a.mark(i);
            }
            a.close();
        }
        same(a.close().0, Answer { number: 12, first: 3, second: 2 });
        same(a.account().closed, u32::MAX - 1);
        same(a.account().held(), if epoch == u32::MAX { 2 } else { 0 });
        same(a.say(0, Said::Mark(u32::MAX)), 5);
        same(a.of(1, 3, put(1, 9)), 0);
    }
    // which streams are missing, and how many: every set of them
    for set in 0..256u32 {
        let mut account = Account::fresh(7, 8, 1);
        for (i, s) in account.streams.iter_mut().enumerate() {
            s.epoch = if set >> i & 1 == 1 { 1 } else { 2 };
        }
        let mut a = Alone::load(&account);
        let (answer, _) = a.close();
        let wanted = Answer { number: 12, first: set, second: set.count_ones() };
        same(answer, if set == 0 { Answer::DONE } else { wanted });
    }
}

/// Numbers are judged whole.
fn whole_numbers() {
    let mut pair = Pair::started(2, 4);
    let frame = pair.frame;
    for (account, fragments, keys) in [
        (0, 1, 1), (65_536, 1, 1), (65_543, 1, 1), (u32::MAX, 1, 1), (7, 0, 1), (7, 9, 1), (7, 258, 1), (7, 256, 1), (7, 65_537, 1),
        (7, 1, 0), (7, 1, 129), (7, 1, 256), (7, 1, 257), (7, 1, 65_537), (7, u32::MAX, u32::MAX),
    ] {
        want(pair.open(frame, account, fragments, keys), 15);
    }
    want(pair.open(frame, 7, 8, 128), 0);
    for (lot, account, number) in [(0, 65_543, 3), (0, 0, 3), (0, 7 + (1 << 31), 3), (1, 7, 3), (1, 0, 3), (256, 7, 1), (65_536, 7, 1)] {
        want(pair.deliver(frame, lot, account, &[]), number);
        want(pair.close(frame, lot, account, 0).0, number);
        want(pair.read(frame, lot, account, 9, 999), number);
        want(pair.save(frame, lot, account, 0), number);
        want(pair.drop(frame, lot, account), number);
    }
    for (fragment, key, number) in [
        (7, 127, 0), (8, 0, 6), (0, 128, 6), (0, 65_536, 6), (65_536, 0, 6), (256, 0, 6), (0, 256, 6), (u32::MAX, u32::MAX, 6),
    ] {
        want(pair.read(frame, 0, 7, fragment, key), number);
    }
}

fn opening() {
    let mut pair = Pair::started(3, 5);
    let frame = pair.frame;
    for (account, lot) in [(5, 0), (6, 1), (7, 2)] {
        same(pair.open(frame, account, 2, 2), Answer::done(lot, 0));
    }
    want(pair.open(frame, 8, 2, 2), 14);
    want(pair.open(frame, 6, 2, 2), 13);
    want(pair.open(frame, 6, 9, 2), 15);
    let six = image::image(pair.account(1).unwrap());
    let eight = image::image(&Account::fresh(8, 1, 1));
    want(pair.load(frame, &six), 13);
    want(pair.load(frame, &eight), 14);
    // a record of the account before must not shine through
    let mark = |sequence, epoch| Entry { fragment: 0, sequence, said: Said::Mark(epoch) }.bytes();
    let entry = |sequence, deed| Entry { fragment: 0, sequence, said: Said::Of(1, deed) }.bytes();
    want(pair.drop(frame, 1, 6), 0);
    same(pair.open(frame, 9, 1, 2), Answer::done(1, 0));
    for e in [entry(0, put(1, 77)), entry(1, CC), mark(2, 1)] {
        want(pair.deliver(frame, 1, 9, &e), 0);
    }
    want(pair.close(frame, 1, 9, 2_048).0, 0);
    same(pair.read(frame, 1, 9, 0, 1), Answer::done(1, 77));
    want(pair.drop(frame, 1, 9), 0);
    want(pair.drop(frame, 1, 9), 3);
    same(pair.open(frame, 9, 8, 128), Answer::done(1, 0));
    same(pair.read(frame, 1, 9, 0, 1), Answer::done(0, 0));
    want(pair.drop(frame, 1, 9), 0);
    same(pair.load(frame, &six), Answer::done(1, 0));
    same(pair.read(frame, 1, 6, 0, 1), Answer::done(0, 0));
    // the lowest free lot
    want(pair.drop(frame, 2, 7), 0);
    want(pair.drop(frame, 0, 5), 0);
    same(pair.load(frame, &eight), Answer::done(0, 0));
    same(pair.open(frame, 5, 1, 1), Answer::done(2, 0));
    // a damaged lot: open and load answer 2, the others go on, drop mends it
    pair.scribble(2, |lot| lot[0] ^= 1);
    want(pair.open(frame, 20, 0, 0), 2);
    want(pair.load(frame, &[]), 2);
    want(pair.deliver(frame, 0, 8, &mark(0, 1)), 0);
    want(pair.deliver(frame, 2, 5, &mark(0, 1)), 2);
    want(pair.read(frame, 2, 999, 0, 0), 2);
    pair.overview(frame, 48);
    want(pair.drop(frame, 2, 12_345), 0);
    want(pair.open(frame, 5, 1, 1), 0);
    // two lots of one account: 13 means at least one
    pair.scribble(2, |lot| lot[4] = 8);
    pair.overview(frame, 48);
    want(pair.open(frame, 8, 1, 1), 13);
    want(pair.deliver(frame, 2, 8, &mark(0, 1)), 0);
    want(pair.start(Frame::of(2)), 0);
    pair.overview(frame, 48);
    pair.scribble(0, |lot| lot.fill(0xff));
    want(pair.start(frame), 0);
    pair.overview(frame, 48);
}

fn buffers() {
    let mut a = Alone::open(7, 1, 4);
    let frame = a.pair.frame;
    for length in [0, 1, 8, 2_044, 2_047] {
        want(a.pair.close(frame, 0, 7, length).0, 16);
    }
    same(a.of(0, 4_294_967_295, CC), 0);
    for length in [2_048, 2_049, 2_050, 2_051, 4_096] {
        want(a.pair.close(frame, 0, 7, length).0, 12);
        same(a.mark(0), 0);
        want(a.pair.close(frame, 0, 7, length).0, 0);
    }
    for length in [0, 31, 32, LONGEST - 1] {
        want(a.pair.save(frame, 0, 7, length), 16);
    }
    for length in [LONGEST, LONGEST + 1, LONGEST + 77] {
        want(a.pair.save(frame, 0, 7, length), 0);
    }
    let mut pair = Pair::started(16, 6);
    for n in 1..=9 {
        pair.open(pair.frame, n * 7, 1, 1);
    }
    for lots in [1, 2, 16] {
        let frame = Frame::of(lots);
        for (length, number) in
            [(0, 16), (lots * 16 - 1, 16), (lots * 16, 0), (lots * 16 + 1, 0), (lots * 16 + 15, 0), (lots * 16 + 64, 0)]
        {
            want(pair.overview(frame, length), number);
        }
    }
}

/// The longest image: 8 streams, 1,024 records, 256 held.
fn longest() {
    let mut account = Account::fresh(65_535, 8, 128);
    account.closed = 3;
    for (i, s) in account.streams.iter_mut().enumerate() {
        s.epoch = 4 + i as u32;
        s.next = 65_535 - i as u16;
        s.records = (0..128).map(|key| (key, u32::from(key) * 9 + i as u32)).collect();
        let held = |t, deed, epoch| Held { transaction: t, deed, epoch };
        for t in 0..8 {
            let coordinator = (i as u16 + 1) % 8;
            s.held.push(held(100 + t, Deed::Prepare { coordinator, flagged: true }, 3));
            s.held.push(held(200 + t, put(t as u16, t), 3));
        }
        for t in 0..8 {
            s.held.push(held(300 + t, Deed::Delete { key: t as u16 }, 4));
            s.held.push(held(300 + t, CC, 4));
        }
    }
    let image = image::image(&account);
    same(image.len(), LONGEST);
    let mut pair = Pair::started(1, 7);
    want(pair.load(pair.frame, &image), 0);
    same(pair.save(pair.frame, 0, 65_535, LONGEST), Answer::done(LONGEST as u32, 0));
    let mark = |i: u8| Entry { fragment: i, sequence: 65_535 - u16::from(i), said: Said::Mark(4 + u32::from(i)) }.bytes();
    for i in 0..8 {
        want(pair.deliver(pair.frame, 0, 65_535, &mark(i)), 0);
    }
    same(pair.close(pair.frame, 0, 65_535, 2_048).0, Answer::done(64, 0));
    // 257 held: refused, and every other count that is wrong by one
    account.streams[0].held.push(Held { transaction: 9, deed: CC, epoch: 4 });
    let mut pair = Pair::started(1, 8);
    want(pair.load(pair.frame, &image::image(&account)), 17);
    for at in [0, 1, 2, 3, 4, 5, 6, 7, 8, 9, 10, 11, 12, 15, 16, 17, 18, 19, 20, 21, 22, 23] {
        for by in [1, 255, 128] {
            let mut changed = image.clone();
            let at = image.len() - 24 + at;
            changed[at] = changed[at].wrapping_add(by);
            let answer = pair.load(pair.frame, &changed);
            if answer.number == 0 {
                let number = pair.account(0).unwrap().number;
                want(pair.drop(pair.frame, 0, number.into()), 0);
            }
        }
    }
}

/// Each condition of load, met and just missed.
fn acceptance() {
    let flagged = Deed::Prepare { coordinator: 1, flagged: true };
    let cases: [(&[(u32, Deed, u32)], u32, u32, u32); 26] = [
        // held entries of stream 0 (transaction, deed, epoch); the closed epoch; stream 0's open epoch; the number
        (&[], 5, 6, 0),
        (&[], 6, 6, 17),
        (&[], 7, 6, 17),
        (&[(1, put(0, 1), 6)], 5, 6, 0),
        (&[(1, put(0, 1), 7)], 5, 6, 17),
        (&[(1, put(0, 1), 0)], 5, 6, 17),
        (&[(1, put(0, 1), 1)], 5, 6, 0),
        (&[(1, put(0, 1), 3), (2, put(0, 1), 2)], 5, 6, 17),
        (&[(1, put(0, 1), 2), (2, put(0, 1), 3)], 5, 6, 0),
        (&[(1, CC, 5)], 5, 6, 17),
        (&[(1, CC, 6)], 5, 6, 0),
        (&[(1, prepare(1), 5), (1, CP, 5)], 5, 6, 17),
        (&[(1, prepare(1), 5), (1, CP, 6)], 5, 6, 0),
        (&[(1, prepare(1), 5), (1, A, 5)], 5, 6, 17),
        (&[(1, flagged, 5), (1, A, 6)], 5, 6, 0),
        (&[(1, flagged, 5), (1, CP, 6)], 5, 6, 0),
        (&[(1, flagged, 5)], 5, 6, 0),
        (&[(1, flagged, 6)], 5, 6, 17),
        (&[(1, put(0, 1), 5), (1, flagged, 5)], 5, 6, 17),
        (&[(2, put(0, 1), 5), (1, flagged, 5)], 5, 6, 0),
        (&[(1, flagged, 5), (1, put(0, 1), 6)], 5, 6, 17),
        (&[(1, CP, 6)], 5, 6, 17),
        (&[(1, CC, 6), (1, A, 6)], 5, 6, 17),
        (&[(1, put(3, 1), 6)], 5, 6, 0),
        (&[(1, put(4, 1), 6)], 5, 6, 17),
        (&[(1, prepare(0), 6)], 5, 6, 17),
    ];
    let mut pair = Pair::started(1, 9);
    for (held, closed, epoch, number) in cases {
        let mut a = Account::fresh(7, 2, 4);
        a.closed = closed;
        a.streams[0].epoch = epoch;
        a.streams[1].epoch = 9;
        a.streams[0].held = held.iter().map(|&(transaction, deed, epoch)| Held { transaction, deed, epoch }).collect();
        let answer = pair.load(pair.frame, &image::image(&a));
        want(answer, number);
        if number == 0 {
            // and the flag byte on every other kind, 2 as a flag, a mark, the other zeros
            let image = image::image(&a);
            want(pair.drop(pair.frame, 0, 7), 0);
            if !held.is_empty() {
                let first = 16;
                for (at, value) in [(0, 7), (0, 0), (2, 1), (3, 1), (10, 1), (11, 2), (11, 1), (11, 0), (15, 1), (1, 1), (1, 2)] {
                    let mut changed = image.clone();
                    changed[first + at] = value;
                    if pair.load(pair.frame, &changed).number == 0 {
                        want(pair.drop(pair.frame, 0, 7), 0);
                    }
                }
            }
        }
    }
    // records: order, repeats, range, the zero
    let mut a = Account::fresh(7, 2, 4);
    a.streams[0].records = [(0, 5), (3, 6)].into();
    a.streams[1].records = [(1, 7)].into();
    let image = image::image(&a);
    for (at, value) in [(16, 1), (17, 1), (18, 3), (18, 4), (19, 1), (24, 1), (26, 0), (26, 2), (32, 0), (32, 2), (34, 0), (34, 4), (20, 9)] {
        let mut changed = image.clone();
        changed[at] = value;
        if pair.load(pair.frame, &changed).number == 0 {
            want(pair.drop(pair.frame, 0, 7), 0);
        }
    }
    for length in 0..24 {
        want(pair.load(pair.frame, &image[image.len() - length..]), 17);
    }
}

/// Some images: every single-byte change, every truncation at either end, the image behind longer data of every length to 64.
fn every_change() {
    let mut flagged = Account::fresh(7, 2, 4);
    flagged.closed = 1;
    for s in &mut flagged.streams {
        s.epoch = 2;
        s.next = 3;
    }
    flagged.streams[0].records = [(0, 10)].into();
    flagged.streams[1].records = [(2, 30)].into();
    flagged.streams[1].held = vec![Held { transaction: 1, deed: Deed::Prepare { coordinator: 0, flagged: true }, epoch: 1 }];
    let rich = crate::trips::rich(3, 25);
    let mut pair = Pair::started(2, 10);
    let frame = pair.frame;
    let mut try_one = |data: &[u8]| {
        let answer = pair.load(frame, data);
        if answer.number == 0 {
            let number = pair.account(answer.first as usize).unwrap().number;
            want(pair.drop(frame, answer.first, number.into()), 0);
        }
        answer.number
    };
    for a in [Account::fresh(7, 1, 4), flagged, rich] {
        let whole = image::image(&a);
        for at in 0..whole.len() {
            let mut data = whole.clone();
            for value in 0..=255 {
                data[at] = value;
                try_one(&data);
            }
        }
        for cut in 1..=whole.len() {
            same(try_one(&whole[cut..]), 17);
            try_one(&whole[..whole.len() - cut]);
        }
        for more in 0..=64 {
            let mut data = vec![0x45; more];
            data.extend(&whole);
            same(try_one(&data), 0);
        }
    }
    // the account's numbers at 0 and past their limits, the image whole otherwise; counts beyond the data, length and counts agreeing
    let trailer = |number: u16, f: u8, k: u16, records: u16, held: u16| {
        let mut data = Vec::new();
        for _ in 0..f {
            data.extend([0, 0, 0, 0, 1, 0, 0, 0]);
        }
        let length = 8 * u32::from(f) + 8 * u32::from(records) + 20 * u32::from(held) + 24;
        data.extend(number.to_le_bytes());
        data.extend([f, 0]);
        data.extend(k.to_le_bytes());
        data.extend(records.to_le_bytes());
        data.extend(held.to_le_bytes());
        data.extend([0; 6]);
        data.extend(length.to_le_bytes());
        data.extend(image::LAST_FOUR);
        data
    };
    for (number, f, k, records, held, answer) in [
        (1, 1, 1, 0, 0, 0), (65_535, 8, 128, 0, 0, 0), (0, 1, 1, 0, 0, 17), (1, 0, 1, 0, 0, 17), (1, 9, 1, 0, 0, 17),
        (1, 255, 1, 0, 0, 17), (1, 1, 0, 0, 0, 17), (1, 1, 129, 0, 0, 17), (1, 1, 65_535, 0, 0, 17),
        (1, 1, 1, 1, 0, 17), (1, 1, 1, 0, 1, 17), (1, 1, 1, 65_535, 0, 17), (1, 1, 1, 0, 65_535, 17),
        (1, 1, 1, 0, 256, 17), (1, 8, 128, 1_024, 256, 17), (1, 8, 128, 65_535, 65_535, 17),
    ] {
        same(try_one(&trailer(number, f, k, records, held)), answer);
    }
}
