//! The lines that were sent to the program, as they are asked for again when it
//! has answered them.

use super::named::Named;
use std::sync::mpsc::Receiver;

/// The trace's bytes that were sent and not yet answered. They come in before
/// the program gets them, so what it has answered is always there.
pub struct Sent {
    from: Receiver<Vec<u8>>,
    bytes: Vec<u8>,
    /// Where the lines that were taken end.
    taken: usize,
    /// How many these are.
    lines: u64,
}

/// The line that a program stopped at, as far as it was sent.
#[derive(Clone, Debug, PartialEq, Eq)]
pub struct Stopped {
    pub line: Vec<u8>,
    /// Byte 10 stood behind it.
    pub is_ended: bool,
    /// The names that are held before it.
    pub held: Vec<String>,
}

impl Sent {
    pub fn new(from: Receiver<Vec<u8>>) -> Sent {
        Sent { from, bytes: Vec::new(), taken: 0, lines: 0 }
    }

    /// The next whole line, without its byte 10.
    pub fn line(&mut self) -> Option<&[u8]> {
        let length = self.length()?;
        let from = self.taken;
        self.taken = from + length + 1;
        self.lines += 1;
        Some(&self.bytes[from..from + length])
    }

    /// The next whole line, if it is a `keep` or `back` and fewer lines than the
    /// limit are taken.
    pub fn named(&mut self, limit: u32) -> Option<Named> {
        if self.lines >= u64::from(limit) {
            return None;
        }
        let length = self.length()?;
        let named = Named::read(&self.bytes[self.taken..][..length])?;
        self.line();
        Some(named)
    }

    /// What was sent of the next line; these names are held.
    pub fn stopped(mut self, held: Vec<String>) -> Stopped {
        match self.length() {
            Some(length) => Stopped { line: self.bytes[self.taken..][..length].to_vec(), is_ended: true, held },
            None => Stopped { line: self.bytes[self.taken..].to_vec(), is_ended: false, held },
        }
    }

    /// Whether all that was sent has been taken.
    pub fn is_all_taken(&mut self) -> bool {
        while self.take_in() {}
        self.taken == self.bytes.len()
    }

    /// The length of the next line, if it is whole.
    fn length(&mut self) -> Option<usize> {
        let mut from = self.taken;
        loop {
            if let Some(length) = self.bytes[from..].iter().position(|&byte| byte == b'\n') {
                return Some(from + length - self.taken);
            }
            from = self.bytes.len() - self.taken;
            if !self.take_in() {
                return None;
            }
        }
    }

    /// Takes in what was sent next, and lets go of what was taken; false where
    /// there is nothing.
    fn take_in(&mut self) -> bool {
        let Ok(bytes) = self.from.try_recv() else {
            return false;
        };
        self.bytes.drain(..self.taken);
        self.taken = 0;
        self.bytes.extend(bytes);
        true
    }
}
