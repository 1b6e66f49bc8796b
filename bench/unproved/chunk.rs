//! Replaces brick_arena's chunk of raw memory.
use crate::shim::*;
use crate::vox_geom::{Memory, Steps};

pub const CHUNK_SLOTS: usize = 64;
pub const CHUNK_WORDS: usize = 32_768;
pub const ROW_WORDS: usize = 8;

pub struct Chunk {
    words: std::boxed::Box<[u32; CHUNK_WORDS]>,
}

impl Chunk {
    pub fn new(_: Global) -> Result<Chunk, Memory> {
        let words = vec![0; CHUNK_WORDS].into_boxed_slice();
        Ok(Chunk { words: words.try_into().expect("a chunk's words") })
    }

    #[inline(always)]
    pub fn peek(&self, index: usize) -> u32 {
        unsafe { *self.words.get_unchecked(index) }
    }

    #[inline(always)]
    pub fn word<L: Ledger>(&self, index: usize, steps: &mut Steps<L>) -> u32 {
        steps.tick();
        unsafe { *self.words.get_unchecked(index) }
    }

    #[inline(always)]
    pub fn word_behind<L: Ledger>(&self, index: usize, behind: usize, steps: &mut Steps<L>) -> u32 {
        steps.tick();
        unsafe { *self.words.get_unchecked(index + behind) }
    }

    #[inline(always)]
    pub fn set_word(&mut self, index: usize, word: u32) {
        unsafe { *self.words.get_unchecked_mut(index) = word }
    }

    #[inline(always)]
    pub fn set_row(&mut self, index: usize, word: u32) {
        unsafe { (self.words.as_mut_ptr().cast::<u32>().add(index) as *mut [u32; 8]).write_unaligned([word; 8]) }
    }

    pub fn set_zeros(&mut self, start: usize, rows: usize) {
        self.words[start..start + rows * ROW_WORDS].fill(0);
    }
}
