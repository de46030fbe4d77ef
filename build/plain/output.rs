//! Standard output, in chunks of lines.

use std::fs::File;
use std::io::Write;
use std::os::fd::AsFd;

use crate::faults::Fault;

/// How many bytes are written at once.
const CHUNK: usize = 1 << 17;

/// Standard output, to which lines go in chunks.
pub struct Output {
    file: File,
    chunk: Vec<u8>,
    /// How many bytes went out.
    sent: u64,
}

impl Output {
    pub fn new() -> Result<Output, Fault> {
        let file = std::io::stdout()
            .as_fd()
            .try_clone_to_owned()
            .map_err(|_| Fault::write(0))?;
        Ok(Output {
            file: File::from(file),
            chunk: Vec::with_capacity(CHUNK + 1024),
            sent: 0,
        })
    }

    /// How many bytes wait in the chunk.
    pub fn len(&self) -> usize {
        self.chunk.len()
    }

    /// Takes back what waits in the chunk from a place on.
    pub fn take_from(&mut self, start: usize) -> Vec<u8> {
        self.chunk.split_off(start)
    }

    pub fn text(&mut self, text: &[u8]) {
        self.chunk.extend_from_slice(text);
    }

    pub fn number(&mut self, number: u32) {
        let (mut digits, mut at, mut rest) = ([b'0'; 10], 10, number);
        while rest > 0 || at == 10 {
            at -= 1;
            digits[at] = b'0' + (rest % 10) as u8;
            rest /= 10;
        }
        self.text(&digits[at..]);
    }

    /// Ends a line, and writes the chunk if it is full.
    pub fn end_line(&mut self) -> Result<(), Fault> {
        self.chunk.push(b'\n');
        if self.chunk.len() < CHUNK {
            Ok(())
        } else {
            self.send()
        }
    }

    /// Writes what the chunk has. A write that fails isn't tried again.
    pub fn send(&mut self) -> Result<(), Fault> {
        let mut rest = &self.chunk[..];
        while !rest.is_empty() {
            match self.file.write(rest) {
                Ok(count @ 1..) => {
                    self.sent += count as u64;
                    rest = &rest[count..];
                }
                _ => return Err(Fault::write(self.sent)),
            }
        }
        self.chunk.clear();
        Ok(())
    }
}
