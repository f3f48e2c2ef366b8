//! Schedules as text: the pieces of an input, the words of its lines, and numbers, pages and entries as they are printed.

use super::hist::{Entry, Page, Stamp};
use super::pool::Slot;
use std::io::{self, Read};

/// The maximum length of a line, without its end.
pub const LONGEST: usize = 262_144;
const ROOM: usize = 1 << 20;

/// An input in pieces, each of whole lines with their ends. The last line gets an end where it has none.
pub struct Pieces<R> {
    input: R,
    bytes: Vec<u8>,
    given: usize,
    end: usize,
}

impl<R: Read> Pieces<R> {
    pub fn new(input: R) -> Self {
        Pieces { input, bytes: vec![0; ROOM], given: 0, end: 0 }
    }

    /// The next piece. `None` at the end of the input.
    pub fn next(&mut self) -> io::Result<Option<&[u8]>> {
        self.bytes.copy_within(self.given..self.end, 0);
        self.end -= self.given;
        loop {
            if self.end == ROOM {
                // this line is too long, and stays too long without its last part
                self.end = LONGEST + 1;
            }
            let from = self.end;
            self.end += self.input.read(&mut self.bytes[from..])?;
            if self.end == from && from > 0 {
                self.bytes[from] = b'\n';
                self.end += 1;
            }
            let read = &self.bytes[from..self.end];
            if read.is_empty() {
                self.given = 0;
                return Ok(None);
            }
            if read.contains(&b'\n') {
                let len = read.iter().rposition(|byte| *byte == b'\n').map_or(0, |at| at + 1);
                self.given = from + len;
                return Ok(Some(&self.bytes[..self.given]));
            }
        }
    }
}

/// The words of a line, up to its end.
pub struct Words<'a> {
    rest: &'a [u8],
}

impl<'a> Words<'a> {
    /// The words of the first line of a piece.
    pub fn new(piece: &'a [u8]) -> Self {
        Words { rest: piece }
    }

    #[inline]
    fn skip_spaces(&mut self) {
        while let [b' ', rest @ ..] = self.rest {
            self.rest = rest;
        }
    }

    /// The next word, which is empty at the end of the line.
    #[inline]
    pub fn word(&mut self) -> &'a [u8] {
        self.skip_spaces();
        let len = self.rest.iter().position(|byte| matches!(byte, b' ' | b'\n')).unwrap_or(self.rest.len());
        let (word, rest) = self.rest.split_at(len);
        self.rest = rest;
        word
    }

    // Digits, whatever follows them.
    #[inline]
    fn digits(&mut self, most: u64) -> Option<u64> {
        let (first, mut rest) = self.rest.split_first()?;
        let mut value = u64::from(first.wrapping_sub(b'0'));
        if value > 9 {
            return None;
        }
        while let [byte, more @ ..] = rest {
            let digit = byte.wrapping_sub(b'0');
            if digit > 9 {
                break;
            }
            value = value.checked_mul(10)?.checked_add(u64::from(digit))?;
            rest = more;
        }
        self.rest = rest;
        (value <= most).then_some(value)
    }

    fn is_between(&self) -> bool {
        matches!(self.rest, [b' ' | b'\n', ..])
    }

    /// The next word, where it is a number that is no greater than this.
    #[inline]
    pub fn number(&mut self, most: u64) -> Option<u64> {
        self.skip_spaces();
        let value = self.digits(most)?;
        self.is_between().then_some(value)
    }

    /// The next word, where it is a page.
    #[inline]
    pub fn page(&mut self) -> Option<Page> {
        self.skip_spaces();
        let dev = self.digits(u64::from(u16::MAX))? as u16;
        let [b':', rest @ ..] = self.rest else { return None };
        self.rest = rest;
        let no = self.digits(u64::MAX)?;
        self.is_between().then_some(Page { dev, no })
    }

    /// The next word, where it is a slot.
    #[inline]
    pub fn slot(&mut self) -> Option<Slot> {
        self.skip_spaces();
        let index = self.digits(u64::from(u32::MAX))? as u32;
        let [b'.', rest @ ..] = self.rest else { return None };
        self.rest = rest;
        let generation = self.digits(u64::MAX)?;
        self.is_between().then_some(Slot { index, generation })
    }

    /// The next word, where it is pairs of hexadecimal digits: the bytes that they spell are appended.
    pub fn hex(&mut self, bytes: &mut Vec<u8>) -> Option<()> {
        let (pairs, []) = self.word().as_chunks::<2>() else { return None };
        if pairs.is_empty() {
            return None;
        }
        bytes.reserve(pairs.len());
        for [high, low] in pairs {
            let byte = NIBBLES[usize::from(*high)] << 4 | NIBBLES[usize::from(*low)];
            bytes.push(u8::try_from(byte).ok()?);
        }
        Some(())
    }

    /// Whether no word is left.
    #[inline]
    pub fn is_done(&mut self) -> bool {
        self.skip_spaces();
        matches!(self.rest, [b'\n', ..])
    }

    /// What follows the line.
    pub fn after_line(self) -> &'a [u8] {
        if let [b'\n', rest @ ..] = self.rest {
            return rest;
        }
        let len = self.rest.iter().position(|byte| *byte == b'\n').map_or(self.rest.len(), |at| at + 1);
        &self.rest[len..]
    }
}

const PAIRS: [[u8; 2]; 100] = {
    let mut pairs = [[0; 2]; 100];
    let mut at = 0;
    while at < 100 {
        pairs[at] = [b'0' + (at / 10) as u8, b'0' + (at % 10) as u8];
        at += 1;
    }
    pairs
};

/// The value of each hexadecimal digit. The value of all other bytes makes each pair that contains one exceed a byte.
const NIBBLES: [u16; 256] = {
    let mut nibbles = [0x100; 256];
    let mut at = 0;
    while at < 16 {
        nibbles[b"0123456789abcdef"[at] as usize] = at as u16;
        nibbles[b"0123456789ABCDEF"[at] as usize] = at as u16;
        at += 1;
    }
    nibbles
};

/// Prints a number, two digits at a time.
pub fn put_number(out: &mut Vec<u8>, number: u64) {
    let mut digits = [0; 20];
    let mut at = digits.len();
    let mut rest = number;
    while rest >= 10 {
        at -= 2;
        digits[at..at + 2].copy_from_slice(&PAIRS[(rest % 100) as usize]);
        rest /= 100;
    }
    if rest > 0 || number == 0 {
        at -= 1;
        digits[at] = b'0' + rest as u8;
    }
    out.extend_from_slice(&digits[at..]);
}

pub fn put_page(out: &mut Vec<u8>, page: Page) {
    put_number(out, u64::from(page.dev));
    out.push(b':');
    put_number(out, page.no);
}

pub fn put_slot(out: &mut Vec<u8>, slot: Slot) {
    put_number(out, u64::from(slot.index));
    out.push(b'.');
    put_number(out, slot.generation);
}

pub fn put_hex(out: &mut Vec<u8>, bytes: &[u8]) {
    const DIGITS: &[u8; 16] = b"0123456789abcdef";
    for byte in bytes {
        out.extend_from_slice(&[DIGITS[usize::from(byte >> 4)], DIGITS[usize::from(byte & 15)]]);
    }
}

fn put_stamp(out: &mut Vec<u8>, stamp: Stamp) {
    put_number(out, stamp.time);
    out.push(b'@');
    put_number(out, u64::from(stamp.replica));
}

/// Prints the line of a page.
pub fn put_line(out: &mut Vec<u8>, entry: &Entry) {
    put_page(out, entry.page);
    out.extend_from_slice(b" last ");
    put_stamp(out, entry.hist.last());
    if let Some(prev) = entry.hist.prev() {
        out.extend_from_slice(b" prev ");
        put_stamp(out, prev);
    }
    out.push(b'\n');
}
