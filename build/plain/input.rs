//! The bytes of a file, in pieces of whole lines.

use std::io::Read;

use crate::faults::{Fault, Wrong};

/// How many bytes the buffer has at first: it grows for longer lines.
const BUFFER: usize = 1 << 18;

/// A file that is read piece by piece, up to its limit.
pub struct Input {
    source: Box<dyn Read>,
    buffer: Vec<u8>,
    /// What was read and isn't handed out yet.
    start: usize,
    end: usize,
    /// How many bytes were read, and how many there may be.
    total: u64,
    most: u64,
}

impl Input {
    pub fn new(source: Box<dyn Read>, most: u64) -> Input {
        let buffer = vec![0; BUFFER];
        Input {
            source,
            buffer,
            start: 0,
            end: 0,
            total: 0,
            most,
        }
    }

    /// The next piece: one or more lines, each with its line feed, which a last line gets if it has
    /// none. None at the end. `lines` is the number of lines of all pieces before it.
    pub fn next_piece(&mut self, lines: u32) -> Result<Option<&[u8]>, Fault> {
        self.buffer.copy_within(self.start..self.end, 0);
        self.end -= self.start;
        self.start = 0;
        loop {
            let before = self.end;
            if self.read_more(lines)? == 0 {
                return Ok(self.last_piece());
            }
            let fresh = &self.buffer[before..self.end];
            if let Some(at) = fresh.iter().rposition(|it| *it == b'\n') {
                self.start = before + at + 1;
                return Ok(Some(&self.buffer[..self.start]));
            }
        }
    }

    /// Reads what the file gives at once, and answers how many bytes that is: none at its end.
    fn read_more(&mut self, lines: u32) -> Result<usize, Fault> {
        if self.end == self.buffer.len() {
            self.buffer.resize(2 * self.end, 0);
        }
        let got = self
            .source
            .read(&mut self.buffer[self.end..])
            .map_err(|_| Fault::read())?;
        self.end += got;
        self.total += got as u64;
        if self.total > self.most {
            let within = self.end - (self.total - self.most) as usize;
            return Err(Wrong::TooLong.at(1 + lines + feeds_in(&self.buffer[..within])));
        }
        Ok(got)
    }

    /// The last line, if the file doesn't end with a line feed.
    fn last_piece(&mut self) -> Option<&[u8]> {
        if self.end == 0 {
            return None;
        }
        if self.end == self.buffer.len() {
            self.buffer.push(0);
        }
        self.buffer[self.end] = b'\n';
        self.start = self.end;
        Some(&self.buffer[..=self.end])
    }
}

/// How many line feeds a text has.
pub fn feeds_in(text: &[u8]) -> u32 {
    text.iter().filter(|it| **it == b'\n').count() as u32
}
