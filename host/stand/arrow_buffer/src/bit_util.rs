//! Bit helpers; bit 0 of a byte is first.

#[inline]
pub fn ceil(value: usize, divisor: usize) -> usize {
    value.div_ceil(divisor)
}

/// # Safety
/// Bit `i` counted from `data` is in bounds.
#[inline]
pub unsafe fn get_bit_raw(data: *const u8, i: usize) -> bool {
    unsafe { (*data.add(i / 8) >> (i % 8)) & 1 != 0 }
}

#[inline]
pub fn get_bit(data: &[u8], i: usize) -> bool {
    (data[i / 8] >> (i % 8)) & 1 != 0
}

/// The value bits at set mask bits, gathered to the low end, order kept.
#[cfg(all(target_arch = "x86_64", target_feature = "bmi2"))]
#[inline]
pub fn compress(value: u64, mask: u64) -> u64 {
    // SAFETY: bmi2 is a compile-time target feature
    unsafe { std::arch::x86_64::_pext_u64(value, mask) }
}

/// The value bits at set mask bits, gathered to the low end, order kept.
/// Portable: parallel suffix, Hacker's Delight 7-4.
#[cfg(not(all(target_arch = "x86_64", target_feature = "bmi2")))]
#[inline]
pub fn compress(value: u64, mask: u64) -> u64 {
    compress_portable(value, mask)
}

#[inline]
pub fn compress_portable(value: u64, mask: u64) -> u64 {
    let mut m = mask;
    let mut x = value & m;
    let mut mk = !m << 1;
    for i in 0..6 {
        let mut mp = mk ^ (mk << 1);
        mp ^= mp << 2;
        mp ^= mp << 4;
        mp ^= mp << 8;
        mp ^= mp << 16;
        mp ^= mp << 32;
        let mv = mp & m;
        m = (m ^ mv) | (mv >> (1 << i));
        let t = x & mv;
        x = (x ^ t) | (t >> (1 << i));
        mk &= !mp;
    }
    x
}

/// Up to 8 bytes, little-endian, zero-filled.
#[inline]
pub(crate) fn load_tail(bytes: &[u8]) -> u64 {
    let mut b = [0u8; 8];
    let n = bytes.len().min(8);
    b[..n].copy_from_slice(&bytes[..n]);
    u64::from_le_bytes(b)
}

/// `n` low ones, `n` at most 64.
#[inline]
pub(crate) fn low_ones(n: usize) -> u64 {
    if n >= 64 { u64::MAX } else { (1 << n) - 1 }
}

/// The `len` (1 to 64) bits from bit `at`.
#[inline]
pub(crate) fn read_bits(data: &[u8], at: usize, len: usize) -> u64 {
    let byte = at / 8;
    let lead = at % 8;
    let word = match data.get(byte..byte + 9) {
        Some(b) => {
            let low = u64::from_le_bytes(b[..8].try_into().unwrap()) >> lead;
            low | ((b[8] as u64) << 1 << (63 - lead))
        }
        None => {
            let rest = &data[byte..];
            let low = load_tail(rest) >> lead;
            match rest.get(8) {
                Some(b) => low | ((*b as u64) << 1 << (63 - lead)),
                None => low,
            }
        }
    };
    word & low_ones(len)
}

pub fn count_set_bits(data: &[u8], offset: usize, len: usize) -> usize {
    crate::bit_chunk_iterator::WordIterator::new(data, offset, len).map(|w| w.count_ones() as usize).sum()
}
