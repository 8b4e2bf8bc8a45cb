//! The program of docs/RULES.md: what it prints for an input, and inputs for it.

use crate::logs::{self, Style};
use crate::random::Random;
use crate::rules::Account;
use std::fmt::Write;

/// What the program prints.
pub fn prints(input: &[u8]) -> String {
    let Some((header, entries)) = input.split_at_checked(4) else { return "open refused 15\n".into() };
    let number = u16::from_le_bytes([header[0], header[1]]);
    if !Account::fits(number.into(), header[2].into(), header[3].into()) {
        return "open refused 15\n".into();
    }
    let mut a = Account::fresh(number, header[2].into(), header[3].into());
    let mut out = String::new();
    for (i, entry) in entries.chunks(16).enumerate() {
        if let Err(refusal) = a.take(entry) {
            writeln!(out, "entry {i} refused {refusal}").unwrap();
            continue;
        }
        while let Ok(pieces) = a.close() {
            writeln!(out, "epoch {} pieces {}", a.closed, pieces.len()).unwrap();
            for (fragment, transaction) in pieces {
                writeln!(out, "piece {fragment} {transaction}").unwrap();
            }
        }
    }
    for (fragment, stream) in a.streams.iter().enumerate() {
        for (key, value) in &stream.records {
            writeln!(out, "record {fragment} {key} {value}").unwrap();
        }
    }
    writeln!(out, "held {}", a.held()).unwrap();
    out
}

/// An input: now and then a header that is unfit or short, otherwise a log in some order with faulty entries in between.
pub fn input(seed: u64) -> Vec<u8> {
    let mut rng = Random::new(seed);
    let fragments = if rng.one_in(12) { rng.byte() } else { 1 + rng.below(8) as u8 };
    let keys = if rng.one_in(12) { rng.byte() } else { rng.pick(&[1, 4, 16, 128]) };
    let number = if rng.one_in(12) { 0 } else { rng.next() as u16 };
    let mut input = number.to_le_bytes().to_vec();
    input.extend([fragments, keys]);
    if rng.one_in(12) {
        input.truncate(rng.below(5) as usize);
    }
    if input.len() < 4 || !Account::fits(number.into(), fragments.into(), keys.into()) {
        return input;
    }
    let mut a = Account::fresh(number, fragments.into(), keys.into());
    let count = 1 + rng.below(150) as usize;
    let from = rng.pick(&[1, 1_000, u32::MAX - 400]);
    let log = logs::log(&mut rng, &a, count, from);
    let mut at = vec![0; a.streams.len()];
    let faulty = rng.pick(&[3, 20, 1_000]);
    let mut offer = |entry: &[u8], a: &mut Account| {
        input.extend(entry);
        let taken = a.take(entry).is_ok();
        while a.close().is_ok() {}
        taken
    };
    let mut tries = 0;
    while (0..at.len()).any(|i| at[i] < log.streams[i].len()) && tries < 700 {
        tries += 1;
        let i = rng.below(at.len() as u64) as usize;
        for _ in 0..rng.below(8) {
            let Some(entry) = log.streams[i].get(at[i]) else { break };
            if rng.one_in(faulty) {
                let mut bad = logs::entry(&mut rng, &a, Style::Wild);
                // not the number that is due, mostly, so that the log may go on
                if !rng.one_in(10) {
                    bad[2] = bad[2].wrapping_add(1 + rng.below(200) as u8);
                }
                offer(&bad, &mut a);
            }
            if !offer(entry, &mut a) {
                break;
            }
            at[i] += 1;
        }
    }
    let rest = rng.below(16) as usize;
    input.extend((0..rest).map(|_| rng.below(8) as u8));
    input
}
