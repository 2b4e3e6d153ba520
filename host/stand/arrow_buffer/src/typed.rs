//! Buffers read as values, offsets and run ends.
use crate::{ArrowNativeType, Buffer};
use std::marker::PhantomData;
use std::mem::size_of;
use std::ops::Deref;

/// A buffer read as values of `T`.
#[derive(Debug, Clone)]
pub struct ScalarBuffer<T> {
    buffer: Buffer,
    phantom: PhantomData<T>,
}

impl<T: ArrowNativeType> ScalarBuffer<T> {
    /// `offset` and `len` in values.
    pub fn new(buffer: Buffer, offset: usize, len: usize) -> Self {
        let buffer = buffer.slice_with_length(offset * size_of::<T>(), len * size_of::<T>());
        assert!((buffer.as_ptr() as *const T).is_aligned());
        Self { buffer, phantom: PhantomData }
    }
    pub fn slice(&self, offset: usize, len: usize) -> Self {
        Self::new(self.buffer.clone(), offset, len)
    }
    pub fn inner(&self) -> &Buffer {
        &self.buffer
    }
}

impl<T: ArrowNativeType> Deref for ScalarBuffer<T> {
    type Target = [T];
    #[inline]
    fn deref(&self) -> &[T] {
        // SAFETY: aligned (checked in `new`), in bounds, any bit pattern is valid
        unsafe { std::slice::from_raw_parts(self.buffer.as_ptr() as *const T, self.buffer.len() / size_of::<T>()) }
    }
}

impl<T: ArrowNativeType> From<Vec<T>> for ScalarBuffer<T> {
    fn from(v: Vec<T>) -> Self {
        Self { buffer: v.into(), phantom: PhantomData }
    }
}

/// Offsets: at least one, never falling.
#[derive(Debug, Clone)]
pub struct OffsetBuffer<O>(ScalarBuffer<O>);

impl<O: ArrowNativeType> OffsetBuffer<O> {
    pub fn new(buffer: ScalarBuffer<O>) -> Self {
        assert!(!buffer.is_empty());
        assert!(buffer.windows(2).all(|w| w[0] <= w[1]));
        Self(buffer)
    }
    /// # Safety
    /// At least one, never falling.
    pub unsafe fn new_unchecked(buffer: ScalarBuffer<O>) -> Self {
        Self(buffer)
    }
    pub fn slice(&self, offset: usize, len: usize) -> Self {
        Self(self.0.slice(offset, len + 1))
    }
    pub fn inner(&self) -> &ScalarBuffer<O> {
        &self.0
    }
}

impl<O: ArrowNativeType> Deref for OffsetBuffer<O> {
    type Target = [O];
    fn deref(&self) -> &[O] {
        &self.0
    }
}

/// Run ends, of which the logical rows `offset .. offset + len` are meant.
#[derive(Debug, Clone)]
pub struct RunEndBuffer<E> {
    run_ends: ScalarBuffer<E>,
    offset: usize,
    len: usize,
}

impl<E: ArrowNativeType> RunEndBuffer<E> {
    pub fn new(run_ends: ScalarBuffer<E>, offset: usize, len: usize) -> Self {
        assert!(run_ends.windows(2).all(|w| w[0] < w[1]), "run ends rise strictly");
        let last = run_ends.last().map_or(0, |e| e.as_usize());
        assert!(run_ends.first().is_none_or(|e| *e > E::default()), "run ends are positive");
        assert!(last >= offset + len);
        Self { run_ends, offset, len }
    }
    pub fn inner(&self) -> &ScalarBuffer<E> {
        &self.run_ends
    }
    pub fn offset(&self) -> usize {
        self.offset
    }
    pub fn len(&self) -> usize {
        self.len
    }
    pub fn is_empty(&self) -> bool {
        self.len == 0
    }
    /// The run of logical row `i`.
    pub fn get_physical_index(&self, i: usize) -> usize {
        self.run_ends.partition_point(|e| e.as_usize() <= self.offset + i)
    }
    /// The run of the first row, 0 if there is none.
    pub fn get_start_physical_index(&self) -> usize {
        if self.offset == 0 || self.len == 0 { 0 } else { self.get_physical_index(0) }
    }
    /// The run of the last row, 0 if there is none.
    pub fn get_end_physical_index(&self) -> usize {
        if self.len == 0 { 0 } else { self.get_physical_index(self.len - 1) }
    }
    pub fn slice(&self, offset: usize, len: usize) -> Self {
        assert!(offset + len <= self.len);
        Self { run_ends: self.run_ends.clone(), offset: self.offset + offset, len }
    }
}
