//! Buffers: shared and growing.
use crate::{ArrowNativeType, bit_util};
use std::alloc::{Layout, alloc, dealloc, handle_alloc_error, realloc};
use std::fmt::{self, Debug};
use std::mem::{ManuallyDrop, size_of};
use std::ops::Deref;
use std::ptr::NonNull;
use std::sync::Arc;

const ALIGNMENT: usize = 64;

/// An allocation, freed with the layout it was made with.
struct Bytes {
    ptr: NonNull<u8>,
    layout: Layout,
}

impl Drop for Bytes {
    fn drop(&mut self) {
        if self.layout.size() != 0 {
            // SAFETY: allocated with this layout
            unsafe { dealloc(self.ptr.as_ptr(), self.layout) }
        }
    }
}

// SAFETY: owned memory, only read once shared
unsafe impl Send for Bytes {}
unsafe impl Sync for Bytes {}

/// A shared, immutable part of an allocation.
#[derive(Clone)]
pub struct Buffer {
    data: Arc<Bytes>,
    ptr: *const u8,
    length: usize,
}

// SAFETY: as for `Bytes`
unsafe impl Send for Buffer {}
unsafe impl Sync for Buffer {}

impl Debug for Buffer {
    fn fmt(&self, f: &mut fmt::Formatter<'_>) -> fmt::Result {
        write!(f, "Buffer({} bytes)", self.length)
    }
}

impl Buffer {
    pub fn len(&self) -> usize {
        self.length
    }
    pub fn is_empty(&self) -> bool {
        self.length == 0
    }
    pub fn slice_with_length(&self, offset: usize, length: usize) -> Self {
        assert!(offset + length <= self.length);
        // SAFETY: in bounds
        let ptr = unsafe { self.ptr.add(offset) };
        Self { data: self.data.clone(), ptr, length }
    }
    pub fn count_set_bits_offset(&self, offset: usize, len: usize) -> usize {
        bit_util::count_set_bits(self, offset, len)
    }
}

impl Deref for Buffer {
    type Target = [u8];
    #[inline]
    fn deref(&self) -> &[u8] {
        // SAFETY: the allocation has `length` initialized bytes from `ptr`
        unsafe { std::slice::from_raw_parts(self.ptr, self.length) }
    }
}

impl<T: ArrowNativeType> From<Vec<T>> for Buffer {
    fn from(v: Vec<T>) -> Self {
        MutableBuffer::from(v).into()
    }
}

impl From<MutableBuffer> for Buffer {
    fn from(b: MutableBuffer) -> Self {
        let b = ManuallyDrop::new(b);
        let ptr = b.ptr.as_ptr() as *const u8;
        Self { data: Arc::new(Bytes { ptr: b.ptr, layout: b.layout }), ptr, length: b.len }
    }
}

/// A growable byte buffer, 64-byte aligned unless it took over a `Vec`.
pub struct MutableBuffer {
    ptr: NonNull<u8>,
    len: usize,
    layout: Layout,
}

impl MutableBuffer {
    pub fn with_capacity(capacity: usize) -> Self {
        let capacity = capacity.next_multiple_of(ALIGNMENT);
        let layout = Layout::from_size_align(capacity, ALIGNMENT).unwrap();
        let ptr = match capacity {
            0 => NonNull::new(ALIGNMENT as *mut u8).unwrap(),
            // SAFETY: non-zero size
            _ => NonNull::new(unsafe { alloc(layout) }).unwrap_or_else(|| handle_alloc_error(layout)),
        };
        Self { ptr, len: 0, layout }
    }

    pub fn len(&self) -> usize {
        self.len
    }
    pub fn is_empty(&self) -> bool {
        self.len == 0
    }
    #[inline]
    pub fn as_mut_ptr(&mut self) -> *mut u8 {
        self.ptr.as_ptr()
    }
    /// # Safety
    /// The first `len` bytes are within the capacity and written.
    pub unsafe fn set_len(&mut self, len: usize) {
        assert!(len <= self.layout.size());
        self.len = len;
    }
    pub fn truncate(&mut self, len: usize) {
        self.len = self.len.min(len);
    }

    #[inline]
    pub fn reserve(&mut self, additional: usize) {
        if self.len + additional > self.layout.size() {
            self.grow(self.len + additional);
        }
    }

    #[cold]
    fn grow(&mut self, least: usize) {
        let capacity = least.max(self.layout.size() * 2).next_multiple_of(ALIGNMENT);
        let layout = Layout::from_size_align(capacity, self.layout.align()).unwrap();
        // SAFETY: same alignment, non-zero size
        let p = unsafe {
            match self.layout.size() {
                0 => alloc(layout),
                _ => realloc(self.ptr.as_ptr(), self.layout, capacity),
            }
        };
        self.ptr = NonNull::new(p).unwrap_or_else(|| handle_alloc_error(layout));
        self.layout = layout;
    }

    #[inline]
    pub fn extend_from_slice<T: ArrowNativeType>(&mut self, items: &[T]) {
        let n = std::mem::size_of_val(items);
        self.reserve(n);
        // SAFETY: reserved above
        unsafe {
            std::ptr::copy_nonoverlapping(items.as_ptr() as *const u8, self.ptr.as_ptr().add(self.len), n);
        }
        self.len += n;
    }

    /// Zero bytes up to `len`.
    pub fn resize_zeroed(&mut self, len: usize) {
        if len > self.len {
            self.reserve(len - self.len);
            // SAFETY: reserved above
            unsafe { std::ptr::write_bytes(self.ptr.as_ptr().add(self.len), 0, len - self.len) };
        }
        self.len = len;
    }

    pub fn as_slice_mut(&mut self) -> &mut [u8] {
        // SAFETY: `len` bytes are written
        unsafe { std::slice::from_raw_parts_mut(self.ptr.as_ptr(), self.len) }
    }

    /// # Safety
    /// `iter` reports its length exactly.
    #[inline]
    pub unsafe fn from_trusted_len_iter<T: ArrowNativeType, I: Iterator<Item = T>>(iter: I) -> Self {
        let len = iter.size_hint().1.expect("a trusted length") * size_of::<T>();
        let mut buffer = Self::with_capacity(len);
        let mut dst = buffer.as_mut_ptr() as *mut T;
        let start = dst;
        for item in iter {
            // SAFETY: the length is trusted
            unsafe {
                std::ptr::write(dst, item);
                dst = dst.add(1);
            }
        }
        assert_eq!(unsafe { dst.offset_from(start) } as usize * size_of::<T>(), len);
        unsafe { buffer.set_len(len) };
        buffer
    }

    /// Pack booleans, 64 at a time.
    ///
    /// # Safety
    /// `iter` reports its length exactly.
    #[inline]
    pub unsafe fn from_trusted_len_iter_bool<I: Iterator<Item = bool>>(mut iter: I) -> Self {
        let len = iter.size_hint().1.expect("a trusted length");
        Self::collect_bool(len, |_| iter.next().expect("a trusted length"))
    }

    #[inline]
    pub fn collect_bool<F: FnMut(usize) -> bool>(len: usize, mut f: F) -> Self {
        let mut words: Vec<u64> = Vec::with_capacity(len.div_ceil(64));
        for word in 0..len / 64 {
            let mut packed = 0u64;
            for bit in 0..64 {
                packed |= (f(word * 64 + bit) as u64) << bit;
            }
            words.push(packed);
        }
        if !len.is_multiple_of(64) {
            let mut packed = 0u64;
            for bit in 0..len % 64 {
                packed |= (f(len / 64 * 64 + bit) as u64) << bit;
            }
            words.push(packed);
        }
        let mut out = Self::from(words);
        out.truncate(bit_util::ceil(len, 8));
        out
    }
}

impl<T: ArrowNativeType> From<Vec<T>> for MutableBuffer {
    fn from(v: Vec<T>) -> Self {
        let mut v = ManuallyDrop::new(v);
        Self {
            ptr: NonNull::new(v.as_mut_ptr() as *mut u8).unwrap(),
            len: v.len() * size_of::<T>(),
            layout: Layout::array::<T>(v.capacity()).unwrap(),
        }
    }
}

impl Drop for MutableBuffer {
    fn drop(&mut self) {
        if self.layout.size() != 0 {
            // SAFETY: allocated with this layout
            unsafe { dealloc(self.ptr.as_ptr(), self.layout) }
        }
    }
}
