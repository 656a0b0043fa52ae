//! The fields that both sides are asked about: short ones in full, boundaries, valid ones, damaged ones, and bytes at random.

/// A small generator of numbers (splitmix64), so that a seed gives the same fields everywhere.
pub struct Numbers(pub u64);

impl Numbers {
    pub fn next(&mut self) -> u64 {
        self.0 = self.0.wrapping_add(0x9E37_79B9_7F4A_7C15);
        let mut z = self.0;
        z = (z ^ (z >> 30)).wrapping_mul(0xBF58_476D_1CE4_E5B9);
        z = (z ^ (z >> 27)).wrapping_mul(0x94D0_49BB_1331_11EB);
        z ^ (z >> 31)
    }

    pub fn below(&mut self, n: usize) -> usize {
        (self.next() % n as u64) as usize
    }

    pub fn one<'a, T>(&mut self, of: &'a [T]) -> &'a T {
        &of[self.below(of.len())]
    }
}

/// Unicode's White_Space, as SCOPE lists it.
pub const BLANKS: [u32; 25] = [
    0x09, 0x0A, 0x0B, 0x0C, 0x0D, 0x20, 0x85, 0xA0, 0x1680, 0x2000, 0x2001, 0x2002, 0x2003, 0x2004, 0x2005, 0x2006, 0x2007, 0x2008,
    0x2009, 0x200A, 0x2028, 0x2029, 0x202F, 0x205F, 0x3000,
];

fn alphabet(kind: u16) -> &'static [u8] {
    match kind {
        1 => b"A9a \xC2\xA0",
        2 | 3 => b"A9a-",
        4 | 5 => b"0123-:.+TZ",
        7 | 8 => b"ABGUSDEXK1b",
        _ => b"+-.0159x",
    }
}

/// Every field over a kind's small alphabet, up to a length.
pub fn short(kind: u16, most: usize, ask: &mut dyn FnMut(&[u8])) {
    fn grow(field: &mut Vec<u8>, left: usize, of: &[u8], ask: &mut dyn FnMut(&[u8])) {
        ask(field);
        if left == 0 {
            return;
        }
        for &b in of {
            field.push(b);
            grow(field, left - 1, of, ask);
            field.pop();
        }
    }
    grow(&mut Vec::new(), most, alphabet(kind), ask);
}

fn mod97(text: &[u8]) -> u64 {
    text.iter().fold(0, |r, &b| match b {
        b'0'..=b'9' => (r * 10 + u64::from(b - 48)) % 97,
        _ => (r * 100 + u64::from(b - 55)) % 97,
    })
}

fn letters(n: &mut Numbers, count: usize, of: &[u8]) -> Vec<u8> {
    (0..count).map(|_| *n.one(of)).collect()
}

const CAPITALS: &[u8] = b"ABCDEFGHIJKLMNOPQRSTUVWXYZ";
const SERIAL: &[u8] = b"ABCDEFGHIJKLMNOPQRSTUVWXYZ0123456789";
const MIXED: &[u8] = b"ABCDEFGHIJKLMNOPQRSTUVWXYZabcdefghijklmnopqrstuvwxyz01234567890123456789";
const DIGITS: &[u8] = b"0123456789";

fn iban(n: &mut Numbers) -> Vec<u8> {
    let of = *n.one(&[DIGITS, SERIAL, MIXED]);
    let count = 1 + n.below(30);
    let mut text = letters(n, 2, CAPITALS);
    text.extend(b"00");
    text.extend(letters(n, count, of));
    let moved: Vec<u8> = text[4..].iter().chain(&text[..4]).copied().collect();
    let digits = 98 - mod97(&moved);
    text[2] = 48 + (digits / 10) as u8;
    text[3] = 48 + (digits % 10) as u8;
    let mut field = Vec::new();
    let style = n.below(4);
    for (i, &b) in text.iter().enumerate() {
        if style == 1 && i > 0 && i % 4 == 0 {
            field.push(b' ');
        }
        if style == 2 && n.below(4) == 0 {
            let blank = char::from_u32(*n.one(&BLANKS)).unwrap();
            field.extend(blank.to_string().bytes());
        }
        field.push(b);
    }
    field
}

fn lei(n: &mut Numbers) -> Vec<u8> {
    let mut text = letters(n, 18, SERIAL);
    text.extend(b"00");
    let digits = 98 - mod97(&text);
    text[18] = 48 + (digits / 10) as u8;
    text[19] = 48 + (digits % 10) as u8;
    text
}

fn date(n: &mut Numbers) -> String {
    format!("{}-{:02}-{:02}", 1899 + n.below(203), n.below(14), n.below(33))
}

fn datetime(n: &mut Numbers) -> String {
    let mut text = format!("{}T{:02}:{:02}:{:02}", date(n), n.below(25), n.below(61), n.below(61));
    if n.below(2) == 0 {
        text.push('.');
        for _ in 0..n.below(12) {
            text.push(char::from(*n.one(DIGITS)));
        }
    }
    match n.below(8) {
        0 => {}
        1..=3 => text.push('Z'),
        _ => text += &format!("{}{:02}:{:02}", n.one(&["+", "-"]), n.below(25), n.below(61)),
    }
    text
}

fn amount(n: &mut Numbers) -> String {
    let of: &[u8] = if n.below(4) == 0 { b"0" } else { DIGITS };
    let (whole, part) = (n.below(21), n.below(8));
    let mut text = n.one(&["", "", "", "+", "-"]).to_string();
    text += &String::from_utf8(letters(n, whole, of)).unwrap();
    if n.below(3) > 0 {
        text.push('.');
        text += &String::from_utf8(letters(n, part, of)).unwrap();
    }
    text
}

fn cents(n: &mut Numbers) -> String {
    let near = 184_467_440_737_095_516u64;
    let whole = match n.below(5) {
        0 => (near - 5 + n.below(11) as u64).to_string(),
        1 => format!("{:0width$}", n.next() % 1000, width = n.below(40)),
        2 => (u64::MAX - n.below(5) as u64).to_string(),
        3 => "18446744073709551616".to_owned(),
        _ => (n.next() >> n.below(64)).to_string(),
    };
    let part = *n.one(&["", ".", ".0", ".5", ".+", ".00", ".15", ".16", ".99", ".+5", ".-5", ".5x", ".123", ". 1"]);
    format!("{}{whole}{part}", n.one(&["", "", "", "+", "-", " "]))
}

/// A field of a kind that is valid or close to it.
pub fn likely(kind: u16, n: &mut Numbers) -> Vec<u8> {
    match kind {
        1 => iban(n),
        2 => lei(n),
        3 => {
            let count = *n.one(&[2, 5]);
            [letters(n, 6, CAPITALS), letters(n, count, SERIAL)].concat()
        }
        4 => date(n).into_bytes(),
        5 => datetime(n).into_bytes(),
        6 => amount(n).into_bytes(),
        7 => letters(n, 2, CAPITALS),
        8 => letters(n, 3, CAPITALS),
        _ => cents(n).into_bytes(),
    }
}

/// A copy with one to three bytes or characters replaced, put in, taken out or exchanged.
pub fn damaged(mut field: Vec<u8>, n: &mut Numbers) -> Vec<u8> {
    for _ in 0..1 + n.below(3) {
        let at = n.below(field.len() + 1);
        let byte = match n.below(4) {
            0 => n.next() as u8,
            1 => *n.one(b" -+.:TZ\t\0/9@[`{"),
            _ => *n.one(MIXED),
        };
        match n.below(5) {
            0 if at < field.len() => field[at] = byte,
            1 => field.insert(at, byte),
            2 if at < field.len() => {
                field.remove(at);
            }
            3 if at < field.len() => {
                let other = n.below(field.len());
                field.swap(at, other);
            }
            _ => {
                let scalar = char::from_u32(n.next() as u32 % 0x11_0000).unwrap_or('\u{85}');
                field.splice(at..at, scalar.to_string().into_bytes());
            }
        }
    }
    field
}

/// Lengths at which something changes.
pub const LENGTHS: [usize; 25] = [0, 1, 2, 3, 4, 5, 7, 8, 9, 10, 11, 12, 18, 19, 20, 21, 23, 24, 33, 34, 35, 1024, 1025, 4095, 4096];

/// A likely field, made as long as this with what its kind lets be stretched: an IBAN's blanks, a fraction's digits, zeros in front.
pub fn stretched(kind: u16, length: usize, n: &mut Numbers) -> Vec<u8> {
    let mut field = likely(kind, n);
    let (at, byte) = match kind {
        1 => (n.below(field.len() + 1), b' '),
        5 => (20.min(field.len()), b'7'),
        _ => (0, b'0'),
    };
    field.splice(at..at, std::iter::repeat(byte).take(length.saturating_sub(field.len())));
    field
}

/// Fields of every boundary length: of one byte repeated, and likely ones stretched.
pub fn boundaries(kind: u16, n: &mut Numbers, ask: &mut dyn FnMut(&[u8])) {
    for length in LENGTHS {
        for byte in [b'0', b'1', b'9', b'A', b'Z', b'a', b' ', b'.', b'+', 0, 0x7F, 0xC2, 0xFF] {
            ask(&vec![byte; length]);
        }
        ask(&stretched(kind, length, n));
    }
}
