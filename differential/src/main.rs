//! Both sides on the same generated fields: differential [SEED [FIELDS]]. Of the same fields, differential --vectors SEED COUNT makes a list
//! of the original's answers, and differential --batch SEED BYTES a batch.
mod both;
mod fields;
include!(concat!(env!("OUT_DIR"), "/original.rs"));

use both::{answer, original, ours, LIMIT};
use fields::{boundaries, damaged, likely, short, stretched, Numbers};
use std::io::{stdout, BufWriter, Write};

/// Asks both sides, counts, and prints each difference with its bytes.
struct Tally {
    asked: u64,
    differ: u64,
    accepted: u64,
}

impl Tally {
    fn ask(&mut self, kind: u16, field: &[u8]) {
        self.asked += 1;
        if field.len() > LIMIT {
            if answer(kind, field) != (11, 0, field.len() as u64) {
                self.differ += 1;
                println!("kind {kind}: {} bytes are not refused with 11", field.len());
            }
            return;
        }
        let (theirs, mine) = (original(kind, field), ours(kind, field));
        self.accepted += u64::from(theirs.is_some());
        if theirs != mine {
            self.differ += 1;
            println!("kind {kind}: original {theirs:?}, ours {mine:?}: {field:02X?}");
        }
    }
}

/// Every Unicode scalar in an IBAN: before, within and after it, where a blank is dropped and any other is refused.
fn every_scalar(tally: &mut Tally) {
    for scalar in (0..=0x10_FFFF).filter_map(char::from_u32) {
        tally.ask(1, format!("AA{scalar}96A").as_bytes());
        if (scalar as u32) < 0x3100 {
            tally.ask(1, format!("{scalar}AA96A").as_bytes());
            tally.ask(1, format!("AA96A{scalar}").as_bytes());
        }
    }
}

fn compare(seed: u64, count: u64) -> Tally {
    let mut tally = Tally { asked: 0, differ: 0, accepted: 0 };
    let mut numbers = Numbers(seed);
    for kind in 1..=10 {
        short(kind, if kind == 4 || kind == 5 { 4 } else { 5 }, &mut |field| tally.ask(kind, field));
        for _ in 0..40 {
            boundaries(kind, &mut numbers, &mut |field| tally.ask(kind, field));
        }
        tally.ask(kind, &[b'0'; LIMIT + 1]);
    }
    for kind in [0, 11, 255, 256, u16::MAX] {
        tally.ask(kind, b"AA96A");
    }
    every_scalar(&mut tally);
    while tally.asked < count {
        let kind = 1 + (tally.asked % 10) as u16;
        let mut field = match numbers.below(64) {
            0 => {
                let length = numbers.below(LIMIT + 1);
                stretched(kind, length, &mut numbers)
            }
            _ => likely(kind, &mut numbers),
        };
        if numbers.below(2) == 0 {
            field = damaged(field, &mut numbers);
        }
        tally.ask(kind, &field);
    }
    tally
}

/// A fixed list of the original's answers: kind, answer (255: refused, for whatever reason), place, number, the field in hexadecimal.
fn vectors(seed: u64, count: u64) {
    let mut numbers = Numbers(seed);
    for i in 0..count {
        let kind = 1 + (i % 10) as u16;
        let mut field = likely(kind, &mut numbers);
        if numbers.below(3) == 0 {
            field = damaged(field, &mut numbers);
        }
        let hex: String = field.iter().map(|b| format!("{b:02X}")).collect();
        match original(kind, &field) {
            Some(cents) => println!("{kind} 0 0 {} {hex}", if kind <= 2 { 1 } else { cents }),
            None => println!("{kind} 255 0 0 {hex}"),
        }
    }
}

/// A batch of at least so many bytes, the kinds in turn: nine fields of ten are ones that the original accepts, the tenth is damaged.
fn batch(seed: u64, bytes: u64) {
    let mut numbers = Numbers(seed);
    let mut output = BufWriter::new(stdout().lock());
    let (mut written, mut kind) = (0, 0);
    while written < bytes {
        kind = kind % 10 + 1;
        let mut field = likely(kind, &mut numbers);
        if numbers.below(10) == 0 {
            field = damaged(field, &mut numbers);
        } else {
            while original(kind, &field).is_none() {
                field = likely(kind, &mut numbers);
            }
        }
        output.write_all(&(field.len() as u16).to_le_bytes()).unwrap();
        output.write_all(&kind.to_le_bytes()).unwrap();
        output.write_all(&field).unwrap();
        written += 4 + field.len() as u64;
    }
}

fn main() {
    let words: Vec<String> = std::env::args().skip(1).collect();
    let number = |i: usize, or: u64| words.get(i).map_or(or, |w| w.parse().expect("a number"));
    if words.first().is_some_and(|w| w == "--vectors") {
        return vectors(number(1, 1), number(2, 4000));
    }
    if words.first().is_some_and(|w| w == "--batch") {
        return batch(number(1, 1), number(2, 50_000_000));
    }
    let tally = compare(number(0, 1), number(1, 2_500_000));
    println!("{} accepted by the original", tally.accepted);
    println!("{} fields, {} differ", tally.asked, tally.differ);
    std::process::exit(i32::from(tally.differ > 0));
}
