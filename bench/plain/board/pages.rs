//! The guest pages and the overlays. Caches the owner of each page. All pages are in one array of
//! frames, the overlays' first. Eight bytes are read and written as one word with a mask. A sparse
//! board has only the overlays.

use super::elsewhere::Mapped;
use super::events::{Owner, Refusal};

pub const ENABLE: u64 = 1;
pub const SLOT: usize = 256;

const PAGE: usize = 4096;

/// The overlays of a board that holds its guest's pages, in the order in which they obscure each
/// other: the SIM and the SIEF page of processor 0, those of processor 1, and so on.
const OVERLAYS: usize = 16;

const NOWHERE: u8 = 255;

#[derive(Clone)]
#[repr(align(64))]
pub struct Frame([u8; PAGE]);

impl Frame {
    #[inline(always)]
    pub fn slot(&mut self, sint: u8) -> &mut [u8; SLOT] {
        &mut self.0.as_chunks_mut().0[sint as usize]
    }

    #[inline(always)]
    fn load(&self, at: usize, length: u8) -> u64 {
        let (base, shift) = word_at(at);
        let (word, _) = self.0[base..].split_first_chunk().expect("a whole word");
        u64::from_le_bytes(*word) >> shift & mask(length)
    }

    #[inline(always)]
    fn store(&mut self, at: usize, length: u8, word: u64) {
        let (base, shift) = word_at(at);
        let (old, _) = self.0[base..]
            .split_first_chunk_mut()
            .expect("a whole word");
        let kept = u64::from_le_bytes(*old) & !(mask(length) << shift);
        *old = (kept | word << shift).to_le_bytes();
    }
}

/// The word that contains the bytes from `at` on, and their shift in bits.
fn word_at(at: usize) -> (usize, usize) {
    let base = at.min(PAGE - 8);
    (base, 8 * (at - base))
}

fn mask(length: u8) -> u64 {
    u64::MAX >> (64 - 8 * u32::from(length))
}

/// A frame, and a byte in it.
type Place = (usize, usize);

pub struct Pages {
    frames: Vec<Frame>,
    /// How many of the frames are overlays'.
    overlays: usize,
    /// The number of each page's visible frame: an overlay's, or the guest page's. Empty on a sparse
    /// board.
    visible: Vec<u8>,
    /// The page numbers of the SIM pages, and those of the SIEF pages: eight bytes a row.
    places: [u64; 2],
    /// Where the overlays of a sparse board are.
    mapped: Mapped,
}

impl Pages {
    pub fn new(count: u8) -> Pages {
        Pages {
            frames: vec![Frame([0; PAGE]); OVERLAYS + count as usize],
            overlays: OVERLAYS,
            visible: (OVERLAYS as u8..).take(count.into()).collect(),
            places: [u64::from_le_bytes([NOWHERE; 8]); 2],
            mapped: Mapped::new(0),
        }
    }

    pub fn sparse(processors: u8) -> Pages {
        let overlays = 2 * processors as usize;
        Pages {
            frames: vec![Frame([0; PAGE]); overlays],
            overlays,
            visible: Vec::new(),
            places: [0; 2],
            mapped: Mapped::new(overlays),
        }
    }

    /// How many pages the board holds.
    pub fn count(&self) -> u8 {
        self.visible.len() as u8
    }

    pub fn is_sparse(&self) -> bool {
        self.visible.is_empty()
    }

    pub fn owner(&self, page: u64) -> Owner {
        let frame = if self.is_sparse() {
            self.mapped.first(page)
        } else {
            Some(self.visible[page as usize])
        };
        match frame {
            Some(frame) if (frame as usize) < self.overlays => {
                if frame.is_multiple_of(2) {
                    Owner::Sim(frame / 2)
                } else {
                    Owner::Sief(frame / 2)
                }
            }
            _ => Owner::Guest,
        }
    }

    #[inline(always)]
    pub fn slot(&mut self, vp: u8, sint: u8) -> &mut [u8; SLOT] {
        self.frames[2 * vp as usize].slot(sint)
    }

    #[inline(always)]
    pub fn flags(&mut self, vp: u8, sint: u8) -> &mut [u8; SLOT] {
        self.frames[2 * vp as usize + 1].slot(sint)
    }

    #[inline(always)]
    pub fn move_sim(&mut self, vp: u8, register: u64) {
        self.move_overlay(2 * vp, register);
    }

    #[inline(always)]
    pub fn move_sief(&mut self, vp: u8, register: u64) {
        self.move_overlay(2 * vp + 1, register);
    }

    /// Moves an overlay of a sparse board.
    #[inline(always)]
    pub fn move_elsewhere(&mut self, overlay: u8, register: u64) {
        let is_enabled = register & ENABLE != 0;
        let page = is_enabled.then_some(register / PAGE as u64);
        self.mapped.set(overlay, page);
    }

    /// Disables both pages of a processor and sets them to zero.
    pub fn clear(&mut self, vp: u8) {
        if self.is_sparse() {
            self.move_elsewhere(2 * vp, 0);
            self.move_elsewhere(2 * vp + 1, 0);
        } else {
            self.move_sim(vp, 0);
            self.move_sief(vp, 0);
        }
        for frame in &mut self.frames[2 * vp as usize..][..2] {
            frame.0.fill(0);
        }
    }

    /// Only the page that the overlay left and the page that it reached can have a new owner. Other
    /// overlays are searched only if it was the visible one.
    #[inline(always)]
    fn move_overlay(&mut self, overlay: u8, register: u64) {
        let page = register / PAGE as u64;
        let is_visible = register & ENABLE != 0 && page < self.visible.len() as u64;
        let after = if is_visible { page as u8 } else { NOWHERE };
        let row = &mut self.places[overlay as usize % 2];
        let shift = overlay / 2 * 8;
        let before = (*row >> shift) as u8;
        *row ^= u64::from(before ^ after) << shift;
        if self.visible.get(before as usize) == Some(&overlay) {
            self.visible[before as usize] = self.first_at(before);
        }
        if let Some(visible) = self.visible.get_mut(after as usize) {
            *visible = overlay.min(*visible);
        }
    }

    /// The first overlay at a page, or the guest page's frame.
    #[inline(always)]
    fn first_at(&self, page: u8) -> u8 {
        let [sims, siefs] = self.places;
        let (sim, sief) = (first_equal(sims, page), first_equal(siefs, page));
        let overlay = (2 * sim).min(2 * sief + 1);
        if overlay < OVERLAYS as u8 {
            overlay
        } else {
            OVERLAYS as u8 + page
        }
    }

    /// Whether the board does not hold the page of an address.
    #[inline(always)]
    pub fn is_elsewhere(&self, address: u64) -> bool {
        address / PAGE as u64 >= self.visible.len() as u64
    }

    /// Where the bytes of a page are that the board holds.
    #[inline(always)]
    fn place_of(&self, address: u64, length: u8) -> Result<Place, Refusal> {
        let (page, at) = (address / PAGE as u64, address as usize % PAGE);
        if length == 0 || length > 8 {
            return Err(Refusal::BadLength);
        }
        let frame = self.visible.get(page as usize);
        let frame = *frame.ok_or(Refusal::OutsideSpace)?;
        if at + length as usize > PAGE {
            return Err(Refusal::CrossesPage);
        }
        Ok((frame.into(), at))
    }

    /// Where the bytes of another page are.
    #[inline(always)]
    fn place_elsewhere(&self, address: u64, length: u8) -> Result<Place, Refusal> {
        let (page, at) = (address / PAGE as u64, address as usize % PAGE);
        if length == 0 || length > 8 {
            return Err(Refusal::BadLength);
        }
        if !self.is_sparse() {
            return Err(Refusal::OutsideSpace);
        }
        if at + length as usize > PAGE {
            return Err(Refusal::CrossesPage);
        }
        let frame = self.mapped.first(page).ok_or(Refusal::Elsewhere)?;
        Ok((frame.into(), at))
    }

    #[inline(always)]
    pub fn load(&self, address: u64, length: u8) -> Result<u64, Refusal> {
        let (frame, at) = self.place_of(address, length)?;
        Ok(self.frames[frame].load(at, length))
    }

    #[inline(always)]
    pub fn load_elsewhere(&self, address: u64, length: u8) -> Result<u64, Refusal> {
        let (frame, at) = self.place_elsewhere(address, length)?;
        Ok(self.frames[frame].load(at, length))
    }

    /// Returns the processor and source of the slot if the store writes to any of its first four
    /// bytes.
    #[inline(always)]
    pub fn store(
        &mut self,
        address: u64,
        word: u64,
        length: u8,
    ) -> Result<Option<(u8, u8)>, Refusal> {
        let (frame, at) = self.place_of(address, length)?;
        self.frames[frame].store(at, length, word);
        Ok(touched_slot(frame, at, length).filter(|_| frame < OVERLAYS))
    }

    #[inline(always)]
    pub fn store_elsewhere(
        &mut self,
        address: u64,
        word: u64,
        length: u8,
    ) -> Result<Option<(u8, u8)>, Refusal> {
        let (frame, at) = self.place_elsewhere(address, length)?;
        self.frames[frame].store(at, length, word);
        Ok(touched_slot(frame, at, length))
    }
}

/// The processor and source of the slot of an overlay if a store writes to any of its first four bytes.
#[inline(always)]
fn touched_slot(overlay: usize, at: usize, length: u8) -> Option<(u8, u8)> {
    let sint = (at + length as usize - 1) / SLOT;
    let is_touched = overlay % 2 == 0 && at < sint * SLOT + 4;
    is_touched.then_some((overlay as u8 / 2, sint as u8))
}

/// The index of the first of eight bytes that is equal to `byte`, or 8. An equal byte is 0 after
/// the exclusive or, and the lowest zero byte is the lowest whose top bit survives.
fn first_equal(row: u64, byte: u8) -> u8 {
    const ONES: u64 = u64::MAX / 255;
    let differing = row ^ (ONES * u64::from(byte));
    let zeros = differing.wrapping_sub(ONES) & !differing & ONES << 7;
    zeros.trailing_zeros() as u8 / 8
}
