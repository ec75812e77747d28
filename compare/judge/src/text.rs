//! Words in text.

/// Words end early.
pub const ENDS_EARLY: u64 = 1;
/// A bad word.
pub const BAD_WORD: u64 = 13;

/// The most digits in a word.
const MOST_DIGITS: usize = 20;

/// Reads a text word by word.
pub struct Reader<'a> {
    rest: &'a [u8],
}

/// Spaces and line feeds part words; every other byte belongs to one.
fn parts_words(byte: &u8) -> bool {
    *byte == b' ' || *byte == b'\n'
}

impl<'a> Reader<'a> {
    pub fn new(text: &'a [u8]) -> Self {
        Self { rest: text }
    }

    /// The next word, or the refusal that ends the reading.
    pub fn next_word(&mut self) -> Result<u64, u64> {
        let start = self.rest.iter().position(|b| !parts_words(b)).ok_or(ENDS_EARLY)?;
        let from_start = &self.rest[start..];
        let length = from_start.iter().position(parts_words).unwrap_or(from_start.len());
        let (word, rest) = from_start.split_at(length);
        self.rest = rest;
        number(word).ok_or(BAD_WORD)
    }
}

/// The number that a word writes: 1 to 20 digits, no leading zero except 0 itself, at most MAX.
fn number(word: &[u8]) -> Option<u64> {
    let digits = word.iter().all(u8::is_ascii_digit);
    let leading_zero = word.len() > 1 && word[0] == b'0';
    if !digits || leading_zero || word.len() > MOST_DIGITS {
        return None;
    }
    let wide = word.iter().fold(0u128, |n, digit| n * 10 + u128::from(digit - b'0'));
    u64::try_from(wide).ok()
}

#[cfg(test)]
mod tests {
    use super::*;

    #[test]
    fn words() {
        let mut reader = Reader::new(b" \n0  18446744073709551615\n7");
        assert_eq!(reader.next_word(), Ok(0));
        assert_eq!(reader.next_word(), Ok(u64::MAX));
        assert_eq!(reader.next_word(), Ok(7));
        assert_eq!(reader.next_word(), Err(ENDS_EARLY));
    }

    #[test]
    fn bad_words() {
        let bad: [&[u8]; 9] =
            [b"00", b"01", b"18446744073709551616", b"99999999999999999999", b"111111111111111111111", b"5\r", b"5\t6", b"-1", b"1x"];
        for word in bad {
            assert_eq!(Reader::new(word).next_word(), Err(BAD_WORD), "{word:?}");
        }
    }
}
