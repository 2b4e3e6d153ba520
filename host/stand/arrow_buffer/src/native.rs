//! The plain values that buffers hold.
use std::fmt::Debug;

/// A plain fixed-width value that any bit pattern is valid for.
pub trait ArrowNativeType: Debug + Default + Copy + PartialOrd + Send + Sync + 'static {
    fn from_usize(v: usize) -> Option<Self>;
    fn as_usize(self) -> usize;
}

macro_rules! native {
    ($($t:ty),*) => {$(
        impl ArrowNativeType for $t {
            #[inline]
            fn from_usize(v: usize) -> Option<Self> {
                v.try_into().ok()
            }
            #[inline]
            fn as_usize(self) -> usize {
                self as usize
            }
        }
    )*};
}
native!(i8, i16, i32, i64, i128, u8, u16, u32, u64, u128);

/// 32 bytes; compared only for equality here.
#[allow(non_camel_case_types)]
#[derive(Debug, Default, Clone, Copy, PartialEq, PartialOrd)]
#[repr(C)]
pub struct i256 {
    pub high: i128,
    pub low: u128,
}

impl ArrowNativeType for i256 {
    fn from_usize(v: usize) -> Option<Self> {
        Some(Self { high: 0, low: v as u128 })
    }
    fn as_usize(self) -> usize {
        self.low as usize
    }
}
