//! Seeded JSON payloads, made from the grammar, that are right but for their depth.

use second::sample::Rng;

/// The deepest level that passes.
const DEEPEST: usize = 32;

pub struct Document {
    pub bytes: Vec<u8>,
    /// The first opening byte that lies too deep.
    pub too_deep: Option<usize>,
}

pub fn document(rng: &mut Rng) -> Document {
    let mut maker = Maker {
        document: Document {
            bytes: Vec::new(),
            too_deep: None,
        },
        spaces: rng.pick(&[0, 0, 1, 2, 6]),
        values: rng.pick(&[0, 3, 10, 10, 40, 200]),
        depth: match rng.once_in(8) {
            true => rng.between(30, 36),
            false => rng.between(1, 8),
        },
        rng,
    };
    maker.space();
    maker.object(1);
    maker.space();
    maker.put(b"\0");
    maker.document
}

struct Maker<'a> {
    rng: &'a mut Rng,
    document: Document,
    /// White space comes once in so many times, never if it is 0.
    spaces: usize,
    /// About so many more values.
    values: usize,
    /// One way down goes so deep, others at most.
    depth: usize,
}

impl Maker<'_> {
    fn put(&mut self, bytes: &[u8]) {
        self.document.bytes.extend_from_slice(bytes);
    }

    fn space(&mut self) {
        while self.spaces > 0 && self.rng.once_in(self.spaces + 1) {
            let byte = self.rng.pick(b" \t\n\r");
            self.put(&[byte]);
        }
    }

    fn open(&mut self, byte: u8, level: usize) {
        let at = self.document.bytes.len();
        if level > DEEPEST {
            self.document.too_deep.get_or_insert(at);
        }
        self.put(&[byte]);
        self.space();
    }

    /// The first member or element is the one that may go on downwards.
    fn count(&mut self, level: usize) -> usize {
        let least = (level < self.depth) as usize;
        let count = self.rng.below(5).min(self.values).max(least);
        self.values -= count.min(self.values);
        count
    }

    fn object(&mut self, level: usize) {
        self.open(b'{', level);
        for number in 0..self.count(level) {
            self.comma(number);
            self.string();
            self.space();
            self.put(b":");
            self.space();
            self.value(level, number == 0);
            self.space();
        }
        self.put(b"}");
    }

    fn array(&mut self, level: usize) {
        self.open(b'[', level);
        for number in 0..self.count(level) {
            self.comma(number);
            self.value(level, number == 0);
            self.space();
        }
        self.put(b"]");
    }

    fn comma(&mut self, number: usize) {
        if number > 0 {
            self.put(b",");
            self.space();
        }
    }

    fn value(&mut self, level: usize, down: bool) {
        let deeper = level < self.depth && (down || self.rng.once_in(3));
        match self.rng.below(8) {
            kind if deeper && kind < 4 => self.object(level + 1),
            _ if deeper => self.array(level + 1),
            0..=2 => self.string(),
            3..=5 => self.number(),
            _ => {
                let word = self.rng.pick(&["true", "false", "null"]);
                self.put(word.as_bytes());
            }
        }
    }

    fn number(&mut self) {
        if self.rng.once_in(3) {
            self.put(b"-");
        }
        match self.rng.once_in(4) {
            true => self.put(b"0"),
            false => {
                let first = self.rng.pick(b"123456789");
                self.put(&[first]);
                let more = self.rng.below(6);
                self.digits(more);
            }
        }
        if self.rng.once_in(3) {
            self.put(b".");
            let digits = self.rng.between(1, 6);
            self.digits(digits);
        }
        if self.rng.once_in(3) {
            let sign = self.rng.pick(&["e", "E", "e+", "e-", "E+", "E-"]);
            self.put(sign.as_bytes());
            let digits = self.rng.between(1, 3);
            self.digits(digits);
        }
    }

    fn digits(&mut self, count: usize) {
        for _ in 0..count {
            let digit = self.rng.pick(b"0123456789");
            self.put(&[digit]);
        }
    }

    fn string(&mut self) {
        self.put(b"\"");
        for _ in 0..self.rng.pick(&[0, 1, 1, 2, 3]) {
            self.text();
        }
        self.put(b"\"");
    }

    /// A run of plain bytes, an escape, or a character of more than one byte.
    fn text(&mut self) {
        match self.rng.below(5) {
            0 => {
                let escape = self.rng.pick(b"\"\\/bfnrt");
                self.put(&[b'\\', escape]);
            }
            1 => {
                let number = self.rng.next() as u16;
                let escape = match self.rng.once_in(2) {
                    true => format!("\\u{number:04x}"),
                    false => format!("\\u{number:04X}"),
                };
                self.put(escape.as_bytes());
            }
            2 => {
                let limit = self.rng.pick(&[0x800, 0x1_0000, 0x11_0000]);
                let number = self.rng.between(0x80, limit - 1) as u32;
                let character = char::from_u32(number).unwrap_or('\u{FFFD}');
                self.put(character.encode_utf8(&mut [0; 4]).as_bytes());
            }
            _ => {
                for _ in 0..self.rng.pick(&[1, 3, 8, 20, 40]) {
                    let byte = b' ' + self.rng.below(0x60) as u8;
                    let byte = if b"\"\\".contains(&byte) { b'x' } else { byte };
                    self.put(&[byte]);
                }
            }
        }
    }
}
