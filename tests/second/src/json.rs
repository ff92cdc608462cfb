//! Whether a payload is JSON: white space, one object, white space and a zero byte (RFC 7159, text in
//! UTF-8 as RFC 3629 has it), told with the first byte that cannot go on. Nothing is built.

/// Objects and arrays in one another, the outer object among them.
pub const MAX_DEPTH: usize = 32;

#[derive(Clone, Copy, Debug, PartialEq, Eq)]
pub enum Verdict {
    Json,
    /// Up to this byte the payload begins some JSON, with it none; or it ends too early, here.
    NotJson(usize),
    /// This byte opens an object or an array that lies too deep.
    TooDeep(usize),
}

/// Why a scan stopped. Where is where the scan stands.
enum Stop {
    Unexpected,
    TooDeep,
}

type Scanned = Result<(), Stop>;

pub fn check_json(payload: &[u8]) -> Verdict {
    let mut scan = Scan {
        bytes: payload,
        at: 0,
    };
    match scan.payload() {
        Ok(()) => Verdict::Json,
        Err(Stop::Unexpected) => Verdict::NotJson(scan.at),
        Err(Stop::TooDeep) => Verdict::TooDeep(scan.at),
    }
}

struct Scan<'a> {
    bytes: &'a [u8],
    at: usize,
}

impl Scan<'_> {
    /// The next byte, and behind the end a zero: inside of JSON neither can go on.
    #[inline(always)]
    fn next(&self) -> u8 {
        self.bytes.get(self.at).copied().unwrap_or(0)
    }

    #[inline(always)]
    fn take(&mut self, byte: u8) -> Scanned {
        if self.next() != byte {
            return Err(Stop::Unexpected);
        }
        self.at += 1;
        Ok(())
    }

    fn payload(&mut self) -> Scanned {
        self.space();
        self.take(b'{')?;
        self.members(1)?;
        self.space();
        // Here the zero has to be one of the payload's bytes, and its last.
        if self.bytes.get(self.at) == Some(&0) {
            self.at += 1;
            if self.at == self.bytes.len() {
                return Ok(());
            }
        }
        Err(Stop::Unexpected)
    }

    #[inline(always)]
    fn space(&mut self) {
        while matches!(self.next(), b' ' | b'\n' | b'\r' | b'\t') {
            self.at += 1;
        }
    }

    #[inline]
    fn value(&mut self, depth: usize) -> Scanned {
        match self.next() {
            b'"' => {
                self.at += 1;
                self.text()
            }
            b'-' | b'0'..=b'9' => self.number(),
            opening @ (b'{' | b'[') => {
                if depth == MAX_DEPTH {
                    return Err(Stop::TooDeep);
                }
                self.at += 1;
                match opening {
                    b'{' => self.members(depth + 1),
                    _ => self.elements(depth + 1),
                }
            }
            b't' => self.word(b"true"),
            b'f' => self.word(b"false"),
            b'n' => self.word(b"null"),
            _ => Err(Stop::Unexpected),
        }
    }

    /// An object behind its opening brace.
    fn members(&mut self, depth: usize) -> Scanned {
        self.space();
        if self.next() == b'}' {
            self.at += 1;
            return Ok(());
        }
        loop {
            self.take(b'"')?;
            self.text()?;
            self.space();
            self.take(b':')?;
            self.space();
            self.value(depth)?;
            self.space();
            if self.next() != b',' {
                return self.take(b'}');
            }
            self.at += 1;
            self.space();
        }
    }

    /// An array behind its opening bracket.
    fn elements(&mut self, depth: usize) -> Scanned {
        self.space();
        if self.next() == b']' {
            self.at += 1;
            return Ok(());
        }
        loop {
            self.value(depth)?;
            self.space();
            if self.next() != b',' {
                return self.take(b']');
            }
            self.at += 1;
            self.space();
        }
    }

    fn word(&mut self, word: &[u8]) -> Scanned {
        word.iter().try_for_each(|&byte| self.take(byte))
    }

    /// Whether it ends where it should is for the next byte to tell: 01 stops at the 1.
    fn number(&mut self) -> Scanned {
        if self.next() == b'-' {
            self.at += 1;
        }
        match self.next() {
            b'0' => self.at += 1,
            _ => self.digits()?,
        }
        if self.next() == b'.' {
            self.at += 1;
            self.digits()?;
        }
        if matches!(self.next(), b'e' | b'E') {
            self.at += 1;
            if matches!(self.next(), b'+' | b'-') {
                self.at += 1;
            }
            self.digits()?;
        }
        Ok(())
    }

    /// One digit or more.
    #[inline(always)]
    fn digits(&mut self) -> Scanned {
        if !self.next().is_ascii_digit() {
            return Err(Stop::Unexpected);
        }
        while self.next().is_ascii_digit() {
            self.at += 1;
        }
        Ok(())
    }

    /// A string behind its opening quote.
    fn text(&mut self) -> Scanned {
        loop {
            self.plain_text();
            match self.next() {
                b'"' => {
                    self.at += 1;
                    return Ok(());
                }
                b'\\' => self.escape()?,
                0x80.. => {
                    // Where one is there are mostly more.
                    while self.next() >= 0x80 {
                        self.sequence()?;
                    }
                }
                _ => return Err(Stop::Unexpected),
            }
        }
    }

    /// Goes to the next byte that is not plain, eight at a time while there are as many.
    #[inline(always)]
    fn plain_text(&mut self) {
        while let Some(word) = self.bytes[self.at..].first_chunk() {
            let found = not_plain(u64::from_le_bytes(*word));
            if found != 0 {
                self.at += found.trailing_zeros() as usize / 8;
                return;
            }
            self.at += 8;
        }
        while matches!(self.next(), b' '..=b'!' | b'#'..=b'[' | b']'..=0x7F) {
            self.at += 1;
        }
    }

    fn escape(&mut self) -> Scanned {
        self.at += 1;
        match self.next() {
            b'"' | b'\\' | b'/' | b'b' | b'f' | b'n' | b'r' | b't' => self.at += 1,
            b'u' => {
                self.at += 1;
                for _ in 0..4 {
                    if !self.next().is_ascii_hexdigit() {
                        return Err(Stop::Unexpected);
                    }
                    self.at += 1;
                }
            }
            _ => return Err(Stop::Unexpected),
        }
        Ok(())
    }

    /// A character of two to four bytes. Its first byte says what the second may be, so that nothing
    /// is longer than it has to be, a surrogate or too large.
    fn sequence(&mut self) -> Scanned {
        let (second, more) = match self.next() {
            0xC2..=0xDF => (0x80..=0xBF, 0),
            0xE0 => (0xA0..=0xBF, 1),
            0xED => (0x80..=0x9F, 1),
            0xE1..=0xEF => (0x80..=0xBF, 1),
            0xF0 => (0x90..=0xBF, 2),
            0xF1..=0xF3 => (0x80..=0xBF, 2),
            0xF4 => (0x80..=0x8F, 2),
            _ => return Err(Stop::Unexpected),
        };
        self.at += 1;
        if !second.contains(&self.next()) {
            return Err(Stop::Unexpected);
        }
        self.at += 1;
        for _ in 0..more {
            if !matches!(self.next(), 0x80..=0xBF) {
                return Err(Stop::Unexpected);
            }
            self.at += 1;
        }
        Ok(())
    }
}

/// The high bit of each byte that is a quote, a backslash, below 20 or above 7F. A borrow can set the
/// bits behind such a byte too, so only the lowest one counts.
#[inline(always)]
fn not_plain(word: u64) -> u64 {
    const ONES: u64 = u64::MAX / 0xFF;
    let control = word.wrapping_sub(ONES * 0x20);
    let quote = (word ^ (ONES * b'"' as u64)).wrapping_sub(ONES);
    let backslash = (word ^ (ONES * b'\\' as u64)).wrapping_sub(ONES);
    (control | quote | backslash | word) & (ONES * 0x80)
}
