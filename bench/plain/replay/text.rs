//! The output of a replay, collected in one block.

use std::fs::File;
use std::io::{self, Write};

const BLOCK: usize = 65_536;

/// The output of one line of a script fits into half a block.
const FULL: usize = BLOCK / 2;

/// All two-digit numbers, one after another.
const PAIRS: [u8; 200] = {
    let mut pairs = [0; 200];
    let mut at = 0;
    while at < 200 {
        pairs[at] = b'0' + (at / 20) as u8;
        pairs[at + 1] = b'0' + (at / 2 % 10) as u8;
        at += 2;
    }
    pairs
};

/// The least number with one digit more than the index.
const LEAST: [u64; 20] = {
    let mut least = [0; 20];
    let mut place = 1;
    while place < 20 {
        least[place] = 10_u64.pow(place as u32);
        place += 1;
    }
    least
};

/// The two hexadecimal digits of all bytes, one after another.
const BYTES: [u8; 512] = {
    let mut bytes = [0; 512];
    let mut at = 0;
    while at < 512 {
        bytes[at] = b"0123456789abcdef"[at / 32];
        bytes[at + 1] = b"0123456789abcdef"[at / 2 % 16];
        at += 2;
    }
    bytes
};

pub struct Text {
    output: File,
    block: Box<[u8; BLOCK]>,
    length: usize,
}

impl Text {
    pub fn new(output: File) -> Text {
        Text {
            output,
            block: Box::new([0; BLOCK]),
            length: 0,
        }
    }

    pub fn flush(&mut self) -> io::Result<()> {
        let length = std::mem::take(&mut self.length);
        self.output.write_all(&self.block[..length])
    }

    /// Returns the collected text and empties the block.
    pub fn take(&mut self) -> &[u8] {
        let length = std::mem::take(&mut self.length);
        &self.block[..length]
    }

    /// Flushes if the next line's output might not fit.
    #[inline(always)]
    pub fn flush_full(&mut self) -> io::Result<()> {
        if self.length < FULL {
            Ok(())
        } else {
            self.flush()
        }
    }

    #[inline(always)]
    pub fn put<const N: usize>(&mut self, text: &[u8; N]) {
        self.block[self.length..][..N].copy_from_slice(text);
        self.length += N;
    }

    pub fn put_all(&mut self, text: &[u8]) {
        self.block[self.length..][..text.len()].copy_from_slice(text);
        self.length += text.len();
    }

    #[inline(always)]
    pub fn put_small(&mut self, number: u8) {
        if number < 10 {
            self.put(&[b'0' + number]);
        } else {
            self.put_decimal(number.into());
        }
    }

    pub fn put_long(&mut self, number: u128) {
        match u64::try_from(number) {
            Ok(number) => self.put_decimal(number),
            Err(_) => self.put_all(number.to_string().as_bytes()),
        }
    }

    /// Two digits at a time, the last first.
    pub fn put_decimal(&mut self, number: u64) {
        let length = count_digits(number);
        let digits = &mut self.block[self.length..][..length];
        self.length += length;
        let (mut left, mut at) = (number, length);
        while at > 1 {
            at -= 2;
            let pair = 2 * (left % 100) as usize;
            digits[at..at + 2].copy_from_slice(&PAIRS[pair..pair + 2]);
            left /= 100;
        }
        if at == 1 {
            digits[0] = b'0' + left as u8;
        }
    }

    /// Two numbers with a space between them.
    #[inline(always)]
    pub fn put_pair(&mut self, former: u8, latter: u8) {
        if former < 10 && latter < 10 {
            self.put(&[b'0' + former, b' ', b'0' + latter]);
        } else {
            self.put_decimal(former.into());
            self.put(b" ");
            self.put_decimal(latter.into());
        }
    }

    /// Sixteen hexadecimal digits, as two words.
    #[inline(always)]
    pub fn put_word(&mut self, word: u64) {
        self.put(&eight_digits((word >> 32) as u32));
        self.put(&eight_digits(word as u32));
    }

    /// Two hexadecimal digits.
    #[inline(always)]
    pub fn put_byte(&mut self, byte: u8) {
        let at = 2 * byte as usize;
        self.put(&[BYTES[at], BYTES[at + 1]]);
    }
}

/// The eight digits of 32 bits as one word. The bytes are spread to half bytes. A value above 9 has bit 4
/// after 6 is added, and its letter is 39 more than a digit would be.
#[inline(always)]
fn eight_digits(number: u32) -> [u8; 8] {
    const ONES: u64 = u64::MAX / 255;
    let pairs = u64::from(number);
    let bytes = (pairs | pairs << 16) & 0x0000_ffff_0000_ffff;
    let halves = (bytes | bytes << 8) & 0x00ff_00ff_00ff_00ff;
    let values = (halves | halves << 4) & ONES * 0x0f;
    let letters = (values + ONES * 6) >> 4 & ONES;
    (values + ONES * 0x30 + letters * 39).to_be_bytes()
}

/// Each bit adds 0.301 digits, so the estimate is exact or one too small.
#[inline(always)]
fn count_digits(number: u64) -> usize {
    let bits = 64 - (number | 1).leading_zeros();
    let digits = ((bits * 1233) >> 12) as usize;
    digits + usize::from(number >= LEAST[digits])
}
