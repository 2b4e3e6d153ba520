//! Bits as words.
use crate::bit_util::{load_tail, low_ones, read_bits};

/// The bits `offset .. offset + len` as 64-bit words from bit `offset`, low bit first,
/// and a zero-filled remainder.
#[derive(Debug)]
pub struct BitChunks<'a> {
    /// from the byte that holds the first bit, to the one that holds the last
    bytes: &'a [u8],
    lead: usize,
    chunk_len: usize,
    remainder_len: usize,
}

impl<'a> BitChunks<'a> {
    pub fn new(buffer: &'a [u8], offset: usize, len: usize) -> Self {
        assert!((offset + len).div_ceil(8) <= buffer.len());
        let bytes = &buffer[offset / 8..(offset + len).div_ceil(8)];
        Self { bytes, lead: offset % 8, chunk_len: len / 64, remainder_len: len % 64 }
    }

    #[inline]
    pub fn chunk_len(&self) -> usize {
        self.chunk_len
    }

    #[inline]
    pub fn chunk(&self, index: usize) -> u64 {
        debug_assert!(index < self.chunk_len);
        // SAFETY: word `index` is one of `chunk_len`, all of whose bits are in `bytes`
        unsafe {
            let p = self.bytes.as_ptr().add(index * 8);
            let low = u64::from_le((p as *const u64).read_unaligned());
            if self.lead == 0 { low } else { (low >> self.lead) | ((*p.add(8) as u64) << (64 - self.lead)) }
        }
    }

    pub fn remainder_bits(&self) -> u64 {
        match self.remainder_len {
            0 => 0,
            n => read_bits(&self.bytes[self.chunk_len * 8..], self.lead, n),
        }
    }

    #[inline]
    pub fn iter(&self) -> impl Iterator<Item = u64> + '_ {
        (0..self.chunk_len).map(|i| self.chunk(i))
    }
}

/// The same bits as words counted from the start of the first byte: the first word has `lead`
/// zero bits below the first bit, so that no word needs a shift.
#[derive(Debug, Clone)]
pub struct WordIterator<'a> {
    bytes: &'a [u8],
    first: u64,
    /// bits left, `lead` included
    left: usize,
}

impl<'a> WordIterator<'a> {
    pub fn new(buffer: &'a [u8], offset: usize, len: usize) -> Self {
        let lead = offset % 8;
        Self {
            bytes: &buffer[offset / 8..(offset + len).div_ceil(8)],
            first: !low_ones(lead),
            left: if len == 0 { 0 } else { lead + len },
        }
    }
}

impl Iterator for WordIterator<'_> {
    type Item = u64;

    #[inline]
    fn next(&mut self) -> Option<u64> {
        if self.left > 64 {
            let (word, rest) = self.bytes.split_first_chunk::<8>().unwrap();
            self.bytes = rest;
            self.left -= 64;
            let word = u64::from_le_bytes(*word) & self.first;
            self.first = u64::MAX;
            return Some(word);
        }
        if self.left == 0 {
            return None;
        }
        let word = load_tail(self.bytes) & low_ones(self.left) & self.first;
        self.left = 0;
        Some(word)
    }
}
