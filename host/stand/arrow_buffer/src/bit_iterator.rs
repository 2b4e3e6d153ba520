//! The true bits of a bitmap, one by one and run by run.
use crate::bit_chunk_iterator::WordIterator;

/// True positions, rising.
#[derive(Debug)]
pub struct BitIndexIterator<'a> {
    current: u64,
    /// position of the current word's bit 0
    at: i64,
    iter: WordIterator<'a>,
}

impl<'a> BitIndexIterator<'a> {
    pub fn new(buffer: &'a [u8], offset: usize, len: usize) -> Self {
        let mut iter = WordIterator::new(buffer, offset, len);
        let current = iter.next().unwrap_or(0);
        Self { current, at: -((offset % 8) as i64), iter }
    }
}

impl Iterator for BitIndexIterator<'_> {
    type Item = usize;

    #[inline]
    fn next(&mut self) -> Option<usize> {
        loop {
            if self.current != 0 {
                let bit = self.current.trailing_zeros();
                self.current &= self.current - 1;
                return Some((self.at + bit as i64) as usize);
            }
            self.current = self.iter.next()?;
            self.at += 64;
        }
    }
}

/// Maximal true runs `[start, end)`, rising.
#[derive(Debug)]
pub struct BitSliceIterator<'a> {
    current: u64,
    at: i64,
    len: usize,
    iter: WordIterator<'a>,
}

impl<'a> BitSliceIterator<'a> {
    pub fn new(buffer: &'a [u8], offset: usize, len: usize) -> Self {
        let mut iter = WordIterator::new(buffer, offset, len);
        let current = iter.next().unwrap_or(0);
        Self { current, at: -((offset % 8) as i64), len, iter }
    }
}

impl Iterator for BitSliceIterator<'_> {
    type Item = (usize, usize);

    fn next(&mut self) -> Option<(usize, usize)> {
        while self.current == 0 {
            self.current = self.iter.next()?;
            self.at += 64;
        }
        let bit = self.current.trailing_zeros();
        let start = (self.at + bit as i64) as usize;
        // ones below the run, so that its end is the first zero
        self.current |= (1 << bit) - 1;
        loop {
            if self.current != u64::MAX {
                let bit = self.current.trailing_ones();
                self.current &= !((1 << bit) - 1);
                return Some((start, (self.at + bit as i64) as usize));
            }
            match self.iter.next() {
                Some(word) => {
                    self.current = word;
                    self.at += 64;
                }
                None => {
                    self.current = 0;
                    return Some((start, self.len));
                }
            }
        }
    }
}
