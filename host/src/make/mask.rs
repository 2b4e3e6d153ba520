//! Masks: which slots are picked, and the many packs that pick them.
use super::{Rng, layout};
use crate::pack::*;

/// How many of `slots` to pick: at and next to each boundary, or any.
fn boundary_count(r: &mut Rng, slots: usize) -> usize {
    let word = slots / 64;
    let count = match r.below(14) {
        0 => 0,
        1 => 1,
        2 => slots,
        3 => slots.saturating_sub(1),
        // 4 of 5, and one more
        4 => slots * 4 / 5,
        5 => slots * 4 / 5 + 1,
        // runs or compress
        6 => slots - word,
        7 => (slots - word).saturating_sub(1),
        // row numbers or compress
        8 => word,
        9 => word + 1,
        10 => slots / 2,
        _ => r.below(slots + 1),
    };
    count.min(slots)
}

/// The ways to spread picks.
pub const SPREADS: usize = 4;

/// `count` slots picked, spread in any way.
pub fn spread(r: &mut Rng, slots: usize, count: usize) -> Vec<bool> {
    let way = r.below(SPREADS);
    spread_by(r, way, slots, count)
}

/// Every count of a short mask, and of a long one those at and next to each boundary.
pub fn counts(slots: usize) -> Vec<usize> {
    if slots <= 65 {
        return (0..=slots).collect();
    }
    let (word, threshold) = (slots / 64, slots * 4 / 5);
    let edges = [0, word, 63, slots / 2, threshold, slots - word, slots];
    let mut counts: Vec<usize> = edges.iter().flat_map(|edge| edge.saturating_sub(2)..=(edge + 2).min(slots)).collect();
    counts.sort();
    counts.dedup();
    counts
}

/// `count` slots picked: the first, the last, one stretch anywhere, or each alike.
pub fn spread_by(r: &mut Rng, way: usize, slots: usize, count: usize) -> Vec<bool> {
    let mut picks = vec![false; slots];
    match way {
        0 => picks[..count].fill(true),
        1 => picks[slots - count..].fill(true),
        2 => {
            // one stretch around the end and the start
            let start = r.below(slots.max(1));
            (0..count).for_each(|i| picks[(start + i) % slots] = true);
        }
        _ => {
            let mut left = count;
            for (i, pick) in picks.iter_mut().enumerate() {
                *pick = r.below(slots - i) < left;
                left -= *pick as usize;
            }
        }
    }
    picks
}

/// Picks for a mask of `slots` slots.
pub fn pick_slots(r: &mut Rng, slots: usize) -> Vec<bool> {
    let count = boundary_count(r, slots);
    spread(r, slots, count)
}

/// A mask that picks these slots: those not picked are false, null or both, with any bits where no slot is.
pub fn mask_pack(r: &mut Rng, picks: &[bool]) -> Vec<u8> {
    let skip = match r.below(3) {
        0 => 0,
        1 => r.below(10),
        _ => r.below(80),
    };
    let nulls = r.percent(40);
    let mut n = Node { skip: skip as u32, ..Node::new(BITS, 0, picks.len(), 0) };
    let (mut values, mut valid) = (picks.to_vec(), picks.to_vec());
    for i in (0..picks.len()).filter(|i| !picks[*i] && nulls) {
        (values[i], valid[i]) = r.pick(&[(false, false), (true, false), (false, true)]);
    }
    let gap = r.below(5);
    let mut body = r.bytes(gap);
    n.first = body.len() as u32;
    body.extend(layout::bits(r, skip, &values));
    if nulls {
        n.validity = body.len() as u32;
        body.extend(layout::bits(r, skip, &valid));
    }
    layout::finish_any(r, body, &[n])
}
