//! Lines and words, and the shapes of words.

use std::io::BufRead;

use crate::faults::Wrong;

/// The most bytes of a name or a key, and of a value.
pub const NAME_BYTES: usize = 63;
pub const VALUE_BYTES: usize = 255;
/// The most words of a line that can be right.
const WORDS: usize = 4;

/// The words of a line.
pub struct Line<'a> {
    words: [&'a [u8]; WORDS],
    verb: u64,
    count: usize,
    /// Whether a word has a byte that no word may have.
    pub is_foreign: bool,
}

impl<'a> Line<'a> {
    pub fn new() -> Line<'a> {
        Line {
            words: [b""; WORDS],
            verb: 0,
            count: 0,
            is_foreign: false,
        }
    }

    /// The words; the first ones, if there are too many.
    pub fn words(&self) -> &[&'a [u8]] {
        &self.words[..self.count.min(WORDS)]
    }

    /// The first word as a number, as `packed` makes it.
    pub fn verb(&self) -> u64 {
        self.verb
    }

    /// Whether the line is one to skip.
    pub fn is_skipped(&self) -> bool {
        self.count == 0
    }

    /// The words behind the first, which have to be so many.
    pub fn rest<const N: usize>(&self) -> Result<[&'a [u8]; N], Wrong> {
        if self.count != N + 1 {
            return Err(Wrong::BadLine);
        }
        Ok(std::array::from_fn(|at| self.words[at + 1]))
    }

    /// Refuses words behind the first.
    pub fn be_one_word(&self) -> Result<(), Wrong> {
        self.rest::<0>().map(|_| ())
    }

    /// How many words stand behind the first.
    pub fn rest_count(&self) -> usize {
        self.count - 1
    }

    /// Takes the words of the line that begins at a place of a text, which ends with a line feed.
    /// Answers where the next line begins.
    pub fn split(&mut self, text: &'a [u8], start: usize) -> usize {
        (self.count, self.is_foreign) = (0, false);
        let mut at = start;
        loop {
            let byte = text[at];
            if byte == b' ' || byte == b'\t' {
                at += 1;
                continue;
            }
            match byte {
                b'\n' => return at + 1,
                b'\r' if text[at + 1] == b'\n' => return at + 2,
                b'#' if self.count == 0 => return behind_feed(text, at),
                _ => {}
            }
            let first = at;
            at = self.take_word(text, at);
            if self.count == 1 {
                self.verb = packed_at(&text[first..], at - first);
            }
        }
    }

    /// Takes the word that begins at a place, and answers where it ends.
    #[inline]
    fn take_word(&mut self, text: &'a [u8], start: usize) -> usize {
        let mut at = start;
        loop {
            at = behind_plain(text, at);
            let byte = text[at];
            let is_end = byte == b'\r' && text[at + 1] == b'\n';
            if matches!(byte, b' ' | b'\n' | b'\t') || is_end {
                break;
            }
            self.is_foreign = true;
            at += 1;
        }
        if self.count < WORDS {
            self.words[self.count] = &text[start..at];
        }
        self.count += 1;
        at
    }
}

/// The place behind the bytes, from one on, that a word may have. They are looked at by eights.
#[inline]
fn behind_plain(text: &[u8], start: usize) -> usize {
    const ONES: u64 = u64::from_ne_bytes([1; 8]);
    let mut at = start;
    while let Some(eight) = text[at..].first_chunk::<8>() {
        let bytes = u64::from_le_bytes(*eight);
        let low = bytes & (0x7F * ONES);
        let others = (!(low + 0x5F * ONES) | (low + ONES) | bytes) & (0x80 * ONES);
        if others != 0 {
            return at + others.trailing_zeros() as usize / 8;
        }
        at += 8;
    }
    at + text[at..]
        .iter()
        .take_while(|it| matches!(it, 33..=126))
        .count()
}

/// A word of up to eight bytes as a number, and any longer one as 0.
pub const fn packed(word: &[u8]) -> u64 {
    let (mut sum, mut at) = (0, word.len());
    while at > 0 && word.len() <= 8 {
        at -= 1;
        sum = (sum << 8) | word[at] as u64;
    }
    sum
}

/// The same of the word with which a text begins, by its length.
fn packed_at(text: &[u8], len: usize) -> u64 {
    match text.first_chunk::<8>() {
        Some(bytes) if len <= 8 => u64::from_le_bytes(*bytes) & (u64::MAX >> (64 - 8 * len)),
        _ => packed(&text[..len]),
    }
}

/// The place behind the next line feed.
fn behind_feed(text: &[u8], at: usize) -> usize {
    let mut rest = &text[at..];
    at + rest.skip_until(b'\n').unwrap_or(0)
}

/// A rank as a word spells it: the name of its job and its number there.
#[derive(Clone, Copy)]
pub struct Proc<'a> {
    pub job: &'a [u8],
    pub number: u32,
}

/// An item of a set. The number of `NAME:*` is this one, which no rank has.
pub const EVERY: u32 = u32::MAX;

/// Whether a word is a name, its length aside.
fn is_name(word: &[u8]) -> bool {
    !word.is_empty()
        && !word
            .iter()
            .any(|it| matches!(it, b':' | b',' | b'#' | b'*'))
}

/// A word that has to be a name.
pub fn name(word: &[u8]) -> Result<&[u8], Wrong> {
    if !is_name(word) {
        return Err(Wrong::BadLine);
    }
    fit(word, NAME_BYTES)?;
    Ok(word)
}

/// Refuses a word that is too long.
pub fn fit(word: &[u8], most: usize) -> Result<(), Wrong> {
    if word.len() > most {
        Err(Wrong::TooLong)
    } else {
        Ok(())
    }
}

/// Refuses a word that is no key, its length aside.
pub fn be_key(word: &[u8]) -> Result<(), Wrong> {
    if word == b"*" {
        Err(Wrong::BadLine)
    } else {
        Ok(())
    }
}

/// Whether a key is reserved.
pub fn is_reserved(key: &[u8]) -> bool {
    key.starts_with(b"pmix") || key.starts_with(b"PMIX_")
}

/// A word that has to be a rank, the length of its job's name aside.
pub fn proc(word: &[u8]) -> Result<Proc<'_>, Wrong> {
    let at = word
        .iter()
        .position(|it| *it == b':')
        .ok_or(Wrong::BadLine)?;
    let (job, digits) = (&word[..at], &word[at + 1..]);
    let number = rank_number(digits)
        .filter(|_| is_name(job))
        .ok_or(Wrong::BadLine)?;
    Ok(Proc { job, number })
}

/// A rank's number: 0, or at most nine digits without a 0 before others.
pub fn rank_number(digits: &[u8]) -> Option<u32> {
    let is_one = digits == b"0" || matches!(digits, [b'1'..=b'9', ..]);
    if !is_one || digits.len() > 9 {
        return None;
    }
    digits.iter().try_fold(0, |sum, it| {
        it.is_ascii_digit().then(|| 10 * sum + u32::from(it - b'0'))
    })
}

/// A word that has to be an item of a set, the length of its job's name aside.
pub fn item(word: &[u8]) -> Result<Proc<'_>, Wrong> {
    match word.strip_suffix(b":*") {
        Some(job) if is_name(job) => Ok(Proc { job, number: EVERY }),
        _ => proc(word),
    }
}
