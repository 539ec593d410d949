//! Sets of bytes: 256 marks, one for each byte value, and the named sets of document 01, "Named sets", as request a) of document 02 moved
//! them; `i` folds a set by request c).

#[derive(Clone, PartialEq, Eq)]
pub struct ByteSet(Box<[bool; 256]>);

impl ByteSet {
    pub fn empty() -> ByteSet {
        ByteSet(Box::new([false; 256]))
    }

    pub fn one(byte: u8) -> ByteSet {
        ByteSet::of(&[(byte, byte)])
    }

    /// The bytes of some ranges, both ends included.
    pub fn of(ranges: &[(u8, u8)]) -> ByteSet {
        let mut set = ByteSet::empty();
        for &(low, high) in ranges {
            set.add_range(low, high);
        }
        set
    }

    pub fn add_range(&mut self, low: u8, high: u8) {
        for byte in low..=high {
            self.0[usize::from(byte)] = true;
        }
    }

    pub fn add_all(&mut self, other: &ByteSet) {
        for byte in 0..256 {
            self.0[byte] |= other.0[byte];
        }
    }

    /// The set with each of its letters in both cases; A to Z and a to z are all letters that there are.
    pub fn folded(mut self) -> ByteSet {
        for letter in b'A'..=b'Z' {
            let (upper, lower) = (usize::from(letter), usize::from(letter.to_ascii_lowercase()));
            let either = self.0[upper] || self.0[lower];
            (self.0[upper], self.0[lower]) = (either, either);
        }
        self
    }

    /// The complement over all 256 bytes, 0A and 80 to FF too.
    pub fn complement(&self) -> ByteSet {
        ByteSet(Box::new(self.0.map(|mark| !mark)))
    }

    pub fn has(&self, byte: u8) -> bool {
        self.0[usize::from(byte)]
    }

    /// Its bytes in rising order; empty for a set such as `[^\d\D]`.
    pub fn bytes(&self) -> Vec<u8> {
        (0..=255).filter(|&byte| self.has(byte)).collect()
    }
}

/// Is the byte one of `\w`? Of the bytes 80 to FF none is.
pub fn is_word(byte: u8) -> bool {
    byte.is_ascii_alphanumeric() || byte == b'_'
}

/// The set of `\d`, `\w`, `\s`, `\h`, `\v`, or the complement that the upper-case letter stands for. 02: "`\h` also has A0 and `\v` also has
/// 85", which `\s` and the named sets of a class have not.
pub fn by_escape(letter: u8) -> Option<ByteSet> {
    let set = match letter.to_ascii_lowercase() {
        b'd' => ByteSet::of(&[(0x30, 0x39)]),
        b'w' => ByteSet::of(&[(0x30, 0x39), (0x41, 0x5A), (0x5F, 0x5F), (0x61, 0x7A)]),
        b's' => ByteSet::of(&[(0x09, 0x0D), (0x20, 0x20)]),
        b'h' => ByteSet::of(&[(0x09, 0x09), (0x20, 0x20), (0xA0, 0xA0)]),
        b'v' => ByteSet::of(&[(0x0A, 0x0D), (0x85, 0x85)]),
        _ => return None,
    };
    Some(if letter.is_ascii_uppercase() { set.complement() } else { set })
}

/// The set that `[:name:]` stands for in a class.
pub fn by_name(name: &[u8]) -> Option<ByteSet> {
    Some(match name {
        b"digit" => ByteSet::of(&[(0x30, 0x39)]),
        b"word" => ByteSet::of(&[(0x30, 0x39), (0x41, 0x5A), (0x5F, 0x5F), (0x61, 0x7A)]),
        b"space" => ByteSet::of(&[(0x09, 0x0D), (0x20, 0x20)]),
        b"alpha" => ByteSet::of(&[(0x41, 0x5A), (0x61, 0x7A)]),
        b"upper" => ByteSet::of(&[(0x41, 0x5A)]),
        b"lower" => ByteSet::of(&[(0x61, 0x7A)]),
        b"alnum" => ByteSet::of(&[(0x30, 0x39), (0x41, 0x5A), (0x61, 0x7A)]),
        b"xdigit" => ByteSet::of(&[(0x30, 0x39), (0x41, 0x46), (0x61, 0x66)]),
        b"blank" => ByteSet::of(&[(0x09, 0x09), (0x20, 0x20)]),
        b"cntrl" => ByteSet::of(&[(0x00, 0x1F), (0x7F, 0x7F)]),
        b"ascii" => ByteSet::of(&[(0x00, 0x7F)]),
        b"print" => ByteSet::of(&[(0x20, 0x7E)]),
        b"graph" => ByteSet::of(&[(0x21, 0x7E)]),
        b"punct" => ByteSet::of(&[(0x21, 0x2F), (0x3A, 0x40), (0x5B, 0x60), (0x7B, 0x7E)]),
        _ => return None,
    })
}
