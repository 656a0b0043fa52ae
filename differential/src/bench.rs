//! Nanoseconds a field for each kind, both sides in one run on the same fields: the best of several rounds, and the ratio. bench [KIND].
#![allow(dead_code)]
mod both;
mod fields;
include!(concat!(env!("OUT_DIR"), "/original.rs"));

use both::{check, original};
use fields::{damaged, likely, Numbers};
use std::hint::black_box;
use std::time::Instant;

const KINDS: [&str; 10] = ["IBAN", "LEI", "BIC", "date", "datetime", "amount", "country", "currency", "strict cents", "lenient cents"];
const FIELDS: usize = 4096;
const ROUNDS: usize = 200;

/// Fields that the original accepts, or, mixed, as they come with every other one damaged.
fn sample(kind: u16, mixed: bool) -> Vec<Vec<u8>> {
    let mut numbers = Numbers(7);
    let mut list = Vec::new();
    while list.len() < FIELDS {
        let mut field = likely(kind, &mut numbers);
        if mixed && list.len() % 2 == 0 {
            field = damaged(field, &mut numbers);
        }
        if field.len() <= both::LIMIT && (mixed || original(kind, &field).is_some()) {
            list.push(field);
        }
    }
    list
}

/// One round over the fields, in nanoseconds a field.
fn round(list: &[Vec<u8>], ask: &dyn Fn(&[u8])) -> f64 {
    let start = Instant::now();
    for field in list {
        ask(black_box(field));
    }
    start.elapsed().as_nanos() as f64 / list.len() as f64
}

/// The best round of each side. The sides take turns, so that a busy moment of the machine meets both.
fn best(list: &[Vec<u8>], theirs: &dyn Fn(&[u8]), mine: &dyn Fn(&[u8])) -> (f64, f64) {
    (0..ROUNDS).fold((f64::INFINITY, f64::INFINITY), |(a, b), _| (a.min(round(list, theirs)), b.min(round(list, mine))))
}

fn main() {
    let only: Option<u16> = std::env::args().nth(1).map(|word| word.parse().expect("a kind"));
    println!("| kind | valid: original | ours | ratio | mixed: original | ours | ratio |");
    println!("|---|---|---|---|---|---|---|");
    for (name, kind) in KINDS.iter().zip(1u16..).filter(|(_, kind)| only.is_none_or(|it| it == *kind)) {
        let mut row = format!("| {name} |");
        for mixed in [false, true] {
            let list = sample(kind, mixed);
            let theirs = |field: &[u8]| {
                black_box(original(kind, field));
            };
            let mine = |field: &[u8]| {
                let mut answer = [0u8; 12];
                check(kind, field, black_box(&mut answer));
            };
            let (theirs, mine) = best(&list, &theirs, &mine);
            row += &format!(" {theirs:.1} | {mine:.1} | {:.2} |", mine / theirs);
        }
        println!("{row}");
    }
}
