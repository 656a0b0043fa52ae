//! A first program against the archive: one field, a batch taken in turns, and a mistyped IBAN repaired.

/// The functions of include/stitchbarrow.h: a slice is a pointer and a count.
mod raw {
    extern "C" {
        pub fn stitchbarrow_check(kind: u16, value: *const u8, value_len: usize, answer: *mut u8, answer_len: usize) -> u8;
        pub fn stitchbarrow_run(
            batch: *const u8, batch_len: usize, offset: u64, out: *mut u8, out_len: usize, budget: u64, counts: *mut u64, counts_len: usize,
        ) -> u8;
        pub fn stitchbarrow_load(
            kind: u16, value: *const u8, value_len: usize, sheet: *mut u8, sheet_len: usize, answer: *mut u8, answer_len: usize,
        ) -> u8;
        pub fn stitchbarrow_replace(
            sheet: *mut u8, sheet_len: usize, place: usize, byte: u8, answer: *mut u8, answer_len: usize,
        ) -> u8;
        pub fn stitchbarrow_exchange(
            sheet: *mut u8, sheet_len: usize, i: usize, j: usize, answer: *mut u8, answer_len: usize,
        ) -> u8;
        pub fn stitchbarrow_fill(sheet: *mut u8, sheet_len: usize, answer: *mut u8, answer_len: usize) -> u8;
    }
}

fn number(bytes: &[u8]) -> u64 {
    bytes.iter().rev().fold(0, |n, &b| n << 8 | u64::from(b))
}

/// An answer's number, place and value.
fn told(answer: &[u8]) -> String {
    format!("{} {} {}", answer[0], number(&answer[2..4]), number(&answer[4..12]))
}

fn check(kind: u16, field: &str) {
    let mut answer = [0u8; 12];
    unsafe { raw::stitchbarrow_check(kind, field.as_ptr(), field.len(), answer.as_mut_ptr(), answer.len()) };
    println!("check {kind} {field}: {}", told(&answer));
}

/// Room for two verdicts at a time, so that the call stops for room and goes on.
fn run(batch: &[u8]) {
    let (mut out, mut counts, mut offset) = ([0u8; 48], [0u64; 3], 0);
    loop {
        let rest = &batch[offset..];
        let stop = unsafe {
            raw::stitchbarrow_run(
                rest.as_ptr(), rest.len(), offset as u64, out.as_mut_ptr(), out.len(), 100, counts.as_mut_ptr(), counts.len(),
            )
        };
        let [judged, read, written] = counts;
        for verdict in out[..written as usize].chunks(24) {
            println!("record {} kind {}: {}", number(&verdict[4..12]), number(&verdict[2..4]), told(&verdict[12..]));
        }
        offset += read as usize;
        println!("stop {stop} judged {judged} read {read}");
        if stop != 31 && stop != 32 {
            return;
        }
    }
}

/// A sheet of 46 bytes, and the answer of the last call on it.
struct Repair {
    sheet: [u8; 46],
    answer: [u8; 12],
}

impl Repair {
    fn load(&mut self, kind: u16, field: &str) -> u8 {
        let Repair { sheet, answer } = self;
        unsafe {
            raw::stitchbarrow_load(
                kind, field.as_ptr(), field.len(), sheet.as_mut_ptr(), sheet.len(), answer.as_mut_ptr(), answer.len(),
            )
        }
    }

    fn replace(&mut self, place: usize, byte: u8) -> u8 {
        let Repair { sheet, answer } = self;
        unsafe { raw::stitchbarrow_replace(sheet.as_mut_ptr(), sheet.len(), place, byte, answer.as_mut_ptr(), answer.len()) }
    }

    fn exchange(&mut self, i: usize, j: usize) -> u8 {
        let Repair { sheet, answer } = self;
        unsafe { raw::stitchbarrow_exchange(sheet.as_mut_ptr(), sheet.len(), i, j, answer.as_mut_ptr(), answer.len()) }
    }

    /// With as many of the sheet's bytes as are lent.
    fn fill(&mut self, lent: usize) -> u8 {
        let Repair { sheet, answer } = self;
        let sheet = &mut sheet[..lent];
        unsafe { raw::stitchbarrow_fill(sheet.as_mut_ptr(), sheet.len(), answer.as_mut_ptr(), answer.len()) }
    }

    fn print(&self, call: &str, code: u8) {
        let length = number(&self.sheet[2..4]) as usize;
        let text = std::str::from_utf8(&self.sheet[12..12 + length]).unwrap();
        println!("{call} {code}, {text} remainder {}: {}", number(&self.sheet[4..12]), told(&self.answer));
    }
}

fn repair() {
    let (mut it, last) = (Repair { sheet: [0; 46], answer: [0; 12] }, 21);
    let code = it.load(1, "GB82 WEST 1234 5698 7654 33");
    it.print("load", code);
    for _ in 0..2 {
        let code = it.exchange(last - 2, last);
        it.print("exchange", code);
    }
    for (place, byte) in [(last, b'-'), (last, b'2'), (4, b'B')] {
        let code = it.replace(place, byte);
        it.print("replace", code);
    }
    let code = it.fill(46);
    it.print("fill", code);
    it.sheet[4] ^= 1;
    let code = it.fill(46);
    it.print("fill of a forged sheet", code);
    let code = it.fill(45);
    it.print("fill of a short sheet", code);
}

fn main() {
    check(1, "GB82 WEST 1234 5698 7654 32");
    check(3, "DEU1DEFF");
    run(b"\x16\0\x01\0GB82WEST12345698765432\x0a\0\x04\02024-13-01\x02\0\x07\0GB\x07\0\x09\01000.50\x03\0\x08\0EU");
    repair();
}
