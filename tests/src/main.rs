//! Compares the standby core with an independent implementation of docs/RULES.md, call by call.
//!
//!     compare short          for the gate: seconds
//!     compare long [N]       N rounds (default 300); the short run has 6
//!     compare seed KIND N    one sequence again: KIND is edges, mixed, interleaved, images or damage
//!     compare program FIRST LAST FOLDER
//!                            inputs for the program of docs/RULES.md and what it must print: FOLDER/N.in, FOLDER/N.out
//!
//! It ends with exit status 1 at the first difference, and names its seed and step.

mod edges;
mod image;
mod lent;
mod logs;
mod pair;
mod program;
mod random;
mod rules;
mod trips;

use pair::{CALLS, GIVEN, KIND, KINDS, PIECES, SEED, STEP};
use std::sync::atomic::Ordering::Relaxed;
use std::time::Instant;

extern "C" {
    fn signal(number: i32, handler: usize) -> usize;
    fn _exit(status: i32) -> !;
    fn write(fd: i32, bytes: *const u8, count: usize) -> isize;
}

/// A call that crashes is a difference too.
extern "C" fn crashed(number: i32) {
    let mut text = *b"a call crashed (signal   ), seed                     step                    \n";
    let digits = |text: &mut [u8], mut n: u64| {
        for place in text.iter_mut().rev() {
            *place = b'0' + (n % 10) as u8;
            n /= 10;
        }
    };
    digits(&mut text[23..25], number as u64);
    digits(&mut text[33..52], SEED.load(Relaxed));
    digits(&mut text[58..77], STEP.load(Relaxed));
    let kind = KINDS[KIND.load(Relaxed) as usize];
    unsafe {
        write(2, kind.as_ptr(), kind.len());
        write(2, b": ".as_ptr(), 2);
        write(2, text.as_ptr(), text.len());
        _exit(1)
    }
}

/// One sequence of calls; whether it could be brought to its end.
fn sequence(kind: &str, seed: u64) -> bool {
    let kind = KINDS.iter().position(|k| *k == kind).expect("a kind of sequence");
    KIND.store(kind as u64, Relaxed);
    SEED.store(seed, Relaxed);
    STEP.store(0, Relaxed);
    match kind {
        0 => edges::all(),
        1 => trips::mixed(seed, 1_200),
        2 => return trips::interleaved(seed),
        3 => trips::images(seed, 7),
        _ => trips::damage(seed, 3),
    }
    true
}

/// The random part of a run: so many sequences of each kind.
fn round(first: u64, stuck: &mut u64) {
    for seed in first..first + 60 {
        sequence("mixed", seed);
        *stuck += u64::from(!sequence("interleaved", seed));
    }
    for seed in first..first + 6 {
        sequence("images", seed);
        sequence("damage", seed);
    }
}

fn report(since: Instant, stuck: u64) {
    let total = |call: usize| GIVEN[call].iter().map(|n| n.load(Relaxed)).sum::<u64>();
    let calls: u64 = (0..9).map(total).sum();
    println!("how often each call gave each number:");
    print!("{:>9}", "");
    CALLS.iter().for_each(|name| print!("{name:>10}"));
    println!();
    let mut unreached = Vec::new();
    for number in 0..18 {
        print!("{number:>9}");
        let mut of_all = 0;
        for call in &GIVEN {
            let n = call[number].load(Relaxed);
            of_all += n;
            if n == 0 {
                print!("{:>10}", "-");
            } else {
                print!("{n:>10}");
            }
        }
        println!();
        if of_all == 0 {
            unreached.push(number);
        }
    }
    println!("pieces listed: {}; logs that got stuck on a full lot: {stuck}", PIECES.load(Relaxed));
    if !unreached.is_empty() {
        eprintln!("numbers never given: {unreached:?}");
        std::process::exit(1);
    }
    println!("{calls} calls compared, no difference ({:.1} s)", since.elapsed().as_secs_f64());
}

fn main() {
    for number in [4, 6, 7, 8, 11] {
        unsafe { signal(number, crashed as extern "C" fn(i32) as usize) };
    }
    let args: Vec<String> = std::env::args().skip(1).collect();
    let words: Vec<&str> = args.iter().map(String::as_str).collect();
    let since = Instant::now();
    let mut stuck = 0;
    match words[..] {
        ["short"] => {
            sequence("edges", 0);
            for i in 0..6 {
                round(1 + i * 1_000, &mut stuck);
            }
        }
        ["long"] | ["long", _] => {
            let rounds = words.get(1).map_or(300, |n| n.parse().expect("a number of rounds"));
            sequence("edges", 0);
            for i in 0..rounds {
                round(1 + i * 1_000, &mut stuck);
                if i % 10 == 9 {
                    eprintln!("round {} of {rounds}, {:.0} s", i + 1, since.elapsed().as_secs_f64());
                }
            }
        }
        ["seed", kind, n] => {
            sequence(kind, n.parse().expect("a seed"));
            println!("no difference");
            return;
        }
        ["program", first, last, folder] => {
            let number = |n: &str| n.parse::<u64>().expect("a seed");
            for seed in number(first)..=number(last) {
                let input = program::input(seed);
                std::fs::write(format!("{folder}/{seed}.in"), &input).expect("written");
                std::fs::write(format!("{folder}/{seed}.out"), program::prints(&input)).expect("written");
            }
            return;
        }
        _ => {
            eprintln!("usage: compare short | long [ROUNDS] | seed edges|mixed|interleaved|images|damage N | program FIRST LAST FOLDER");
            std::process::exit(2);
        }
    }
    report(since, stuck);
}
