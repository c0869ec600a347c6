//! The lines of a script, from a block that is refilled.

use super::text::Text;
use std::fs::File;
use std::io::{self, Read};

const BLOCK: usize = 65_536;

const MOST: usize = 640;

pub enum Next<'a> {
    Line(&'a [u8]),
    /// The line has more than 640 bytes.
    Long,
    /// The input ends inside the line.
    Cut,
    End,
}

pub struct Lines {
    input: File,
    block: Vec<u8>,
    /// Where the unused part of the block begins.
    start: usize,
    end: usize,
    number: u64,
}

impl Lines {
    pub fn new(input: File) -> Lines {
        Lines {
            input,
            block: vec![0; BLOCK],
            start: 0,
            end: 0,
            number: 0,
        }
    }

    /// The number of the last line, counted from 1.
    pub fn number(&self) -> u64 {
        self.number
    }

    /// Most lines are in the block. Flushes the text before a read that may block.
    #[inline(always)]
    pub fn next(&mut self, text: &mut Text) -> io::Result<Next<'_>> {
        self.number += 1;
        match find_line_feed(&self.block[self.start..self.end]) {
            Some(length) if length <= MOST => Ok(Next::Line(self.take(length))),
            found => self.read_next(text, found),
        }
    }

    /// The line of this length.
    #[inline(always)]
    fn take(&mut self, length: usize) -> &[u8] {
        let start = self.start;
        self.start += length + 1;
        &self.block[start..][..length]
    }

    #[cold]
    #[inline(never)]
    fn read_next(&mut self, text: &mut Text, found: Option<usize>) -> io::Result<Next<'_>> {
        let mut found = found;
        loop {
            let looked = self.end - self.start;
            match found {
                Some(length) if length <= MOST => return Ok(Next::Line(self.take(length))),
                None if looked <= MOST => {}
                _ => return Ok(Next::Long),
            }
            text.flush()?;
            if !self.read_more()? {
                return Ok(if looked == 0 { Next::End } else { Next::Cut });
            }
            let more = &self.block[self.start + looked..self.end];
            found = find_line_feed(more).map(|place| looked + place);
        }
    }

    /// Returns whether there was more. Moves the unused rest, less than a line, to the front.
    fn read_more(&mut self) -> io::Result<bool> {
        self.block.copy_within(self.start..self.end, 0);
        self.end -= self.start;
        self.start = 0;
        loop {
            match self.input.read(&mut self.block[self.end..]) {
                Ok(count) => {
                    self.end += count;
                    return Ok(count != 0);
                }
                Err(error) if error.kind() == io::ErrorKind::Interrupted => {}
                Err(error) => return Err(error),
            }
        }
    }
}

/// Sixteen bytes at a time, and the rest one by one.
#[inline(always)]
fn find_line_feed(bytes: &[u8]) -> Option<usize> {
    let (blocks, tail) = bytes.as_chunks();
    for (number, block) in blocks.iter().enumerate() {
        let feeds = line_feeds(block);
        if feeds != 0 {
            return Some(16 * number + feeds.trailing_zeros() as usize);
        }
    }
    let found = tail.iter().position(|byte| *byte == b'\n')?;
    Some(16 * blocks.len() + found)
}

/// A bit for each byte that is a line feed.
#[inline(always)]
fn line_feeds(block: &[u8; 16]) -> i32 {
    use std::arch::x86_64::{_mm_cmpeq_epi8, _mm_loadu_si128, _mm_movemask_epi8, _mm_set1_epi8};
    // SAFETY: the load is of the 16 bytes of `block`, and each x86-64 processor has SSE2.
    unsafe {
        let bytes = _mm_loadu_si128(block.as_ptr().cast());
        _mm_movemask_epi8(_mm_cmpeq_epi8(bytes, _mm_set1_epi8(b'\n' as i8)))
    }
}
