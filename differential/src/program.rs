//! The original as a program of the same shape as ours: a batch on standard input through a buffer of 64 KiB, a line a record on
//! standard output through another. It has no places and no reasons to tell, so a refusal is answer 3 at place 0;
//! it is for batches of whole records, and its stop is always 0.
#![allow(dead_code)]
mod both;
include!(concat!(env!("OUT_DIR"), "/original.rs"));

use std::io::{stdin, stdout, BufReader, BufWriter, Read, Result, Write};

const BUFFER: usize = 65_536;

/// Fills the slice; false where the input ends before that.
fn filled(input: &mut impl Read, slice: &mut [u8]) -> bool {
    input.read_exact(slice).is_ok()
}

fn main() -> Result<()> {
    let mut input = BufReader::with_capacity(BUFFER, stdin().lock());
    let mut output = BufWriter::with_capacity(BUFFER, stdout().lock());
    let (mut head, mut value) = ([0u8; 4], vec![0u8; 65_535]);
    let (mut offset, mut judged) = (0u64, 0u64);
    writeln!(output, "offset kind answer place number")?;
    while filled(&mut input, &mut head) {
        let length = usize::from(u16::from_le_bytes([head[0], head[1]]));
        let kind = u16::from_le_bytes([head[2], head[3]]);
        if !filled(&mut input, &mut value[..length]) {
            break;
        }
        match both::original(kind, &value[..length]) {
            Some(number) => writeln!(output, "{offset} {kind} 0 0 {number}")?,
            None => writeln!(output, "{offset} {kind} 3 0 0")?,
        }
        offset += 4 + length as u64;
        judged += 1;
    }
    writeln!(output, "stop 0 judged {judged} read {offset}")?;
    output.flush()
}
