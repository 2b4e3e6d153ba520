//! Bitmaps: values, validity, and a builder.
use crate::bit_chunk_iterator::BitChunks;
use crate::bit_iterator::{BitIndexIterator, BitSliceIterator};
use crate::bit_util::{self, read_bits};
use crate::{Buffer, MutableBuffer};
use std::ops::{BitAnd, Range};

/// `len` bits of a buffer from bit `offset`.
#[derive(Debug, Clone)]
pub struct BooleanBuffer {
    buffer: Buffer,
    offset: usize,
    len: usize,
}

impl BooleanBuffer {
    pub fn new(buffer: Buffer, offset: usize, len: usize) -> Self {
        assert!((offset + len).div_ceil(8) <= buffer.len());
        Self { buffer, offset, len }
    }
    pub fn collect_bool<F: FnMut(usize) -> bool>(len: usize, f: F) -> Self {
        Self::new(MutableBuffer::collect_bool(len, f).into(), 0, len)
    }
    pub fn len(&self) -> usize {
        self.len
    }
    pub fn is_empty(&self) -> bool {
        self.len == 0
    }
    pub fn offset(&self) -> usize {
        self.offset
    }
    pub fn values(&self) -> &[u8] {
        &self.buffer
    }
    pub fn inner(&self) -> &Buffer {
        &self.buffer
    }
    pub fn value(&self, i: usize) -> bool {
        assert!(i < self.len);
        bit_util::get_bit(&self.buffer, self.offset + i)
    }
    /// # Safety
    /// `i` is below the length.
    #[inline]
    pub unsafe fn value_unchecked(&self, i: usize) -> bool {
        unsafe { bit_util::get_bit_raw(self.buffer.as_ptr(), self.offset + i) }
    }
    pub fn slice(&self, offset: usize, len: usize) -> Self {
        assert!(offset + len <= self.len);
        Self { buffer: self.buffer.clone(), offset: self.offset + offset, len }
    }
    pub fn count_set_bits(&self) -> usize {
        self.buffer.count_set_bits_offset(self.offset, self.len)
    }
    pub fn bit_chunks(&self) -> BitChunks<'_> {
        BitChunks::new(&self.buffer, self.offset, self.len)
    }
    pub fn set_indices(&self) -> BitIndexIterator<'_> {
        BitIndexIterator::new(&self.buffer, self.offset, self.len)
    }
    pub fn set_slices(&self) -> BitSliceIterator<'_> {
        BitSliceIterator::new(&self.buffer, self.offset, self.len)
    }
}

impl BitAnd<&BooleanBuffer> for &BooleanBuffer {
    type Output = BooleanBuffer;
    fn bitand(self, rhs: &BooleanBuffer) -> BooleanBuffer {
        assert_eq!(self.len, rhs.len);
        let (a, b) = (self.bit_chunks(), rhs.bit_chunks());
        let mut words: Vec<u64> = a.iter().zip(b.iter()).map(|(a, b)| a & b).collect();
        if !self.len.is_multiple_of(64) {
            words.push(a.remainder_bits() & b.remainder_bits());
        }
        BooleanBuffer::new(words.into(), 0, self.len)
    }
}

/// Validity (1 is valid) and its number of nulls.
#[derive(Debug, Clone)]
pub struct NullBuffer {
    buffer: BooleanBuffer,
    null_count: usize,
}

impl NullBuffer {
    pub fn new(buffer: BooleanBuffer) -> Self {
        let null_count = buffer.len() - buffer.count_set_bits();
        Self { buffer, null_count }
    }
    /// # Safety
    /// `null_count` is the number of unset bits.
    pub unsafe fn new_unchecked(buffer: BooleanBuffer, null_count: usize) -> Self {
        Self { buffer, null_count }
    }
    pub fn len(&self) -> usize {
        self.buffer.len()
    }
    pub fn is_empty(&self) -> bool {
        self.buffer.is_empty()
    }
    pub fn null_count(&self) -> usize {
        self.null_count
    }
    pub fn inner(&self) -> &BooleanBuffer {
        &self.buffer
    }
    pub fn is_valid(&self, i: usize) -> bool {
        self.buffer.value(i)
    }
    pub fn slice(&self, offset: usize, len: usize) -> Self {
        Self::new(self.buffer.slice(offset, len))
    }
}

/// Collects bits.
pub struct BooleanBufferBuilder {
    buffer: MutableBuffer,
    len: usize,
}

impl BooleanBufferBuilder {
    pub fn new(capacity: usize) -> Self {
        // up to 8 bytes are touched past the last
        Self { buffer: MutableBuffer::with_capacity(bit_util::ceil(capacity, 8) + 8), len: 0 }
    }

    /// The bits `range` of `src`, a word at a time.
    #[inline]
    pub fn append_packed_range(&mut self, range: Range<usize>, src: &[u8]) {
        let mut at = range.start;
        let total = range.end - range.start;
        // one spare word, so that a word may straddle the end
        self.buffer.resize_zeroed((self.len + total).div_ceil(8) + 8);
        let dst = self.buffer.as_slice_mut();
        while at < range.end {
            let n = (range.end - at).min(56);
            let bits = read_bits(src, at, n);
            let byte = self.len / 8;
            let word: &mut [u8; 8] = (&mut dst[byte..byte + 8]).try_into().unwrap();
            *word = (u64::from_le_bytes(*word) | bits << (self.len % 8)).to_le_bytes();
            self.len += n;
            at += n;
        }
        self.buffer.truncate(self.len.div_ceil(8));
    }
}

impl From<BooleanBufferBuilder> for Buffer {
    fn from(b: BooleanBufferBuilder) -> Self {
        b.buffer.into()
    }
}
