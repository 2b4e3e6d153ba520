//! Packs made for the purpose: columns of every kind and nesting, laid out in many ways; masks of every density; damaged copies.
mod column;
mod damage;
mod layout;
mod mask;
mod shape;

pub use column::{Column, Maker};
pub use damage::damage;
pub use layout::lay;
pub use mask::{SPREADS, counts, mask_pack, spread_by};
pub use shape::{Shape, nestings, single};

use column::Like;
use layout::overlap;
use mask::{pick_slots, spread};
use shape::random_shape;

/// SplitMix64: a seed gives the same numbers everywhere.
#[derive(Debug, Clone)]
pub struct Rng(u64);

impl Rng {
    pub fn new(seed: u64) -> Self {
        Self(seed)
    }
    #[expect(clippy::should_implement_trait)]
    pub fn next(&mut self) -> u64 {
        self.0 = self.0.wrapping_add(0x9E37_79B9_7F4A_7C15);
        let mut z = self.0;
        z = (z ^ (z >> 30)).wrapping_mul(0xBF58_476D_1CE4_E5B9);
        z = (z ^ (z >> 27)).wrapping_mul(0x94D0_49BB_1331_11EB);
        z ^ (z >> 31)
    }
    /// Below `n`, which is not 0.
    pub fn below(&mut self, n: usize) -> usize {
        (self.next() % n as u64) as usize
    }
    pub fn percent(&mut self, p: usize) -> bool {
        self.below(100) < p
    }
    pub fn pick<T: Copy>(&mut self, from: &[T]) -> T {
        from[self.below(from.len())]
    }
    pub fn bytes(&mut self, n: usize) -> Vec<u8> {
        (0..n).map(|_| self.next() as u8).collect()
    }
}

/// Row counts around each boundary, and some in between.
pub fn row_count(r: &mut Rng) -> usize {
    match r.below(10) {
        0 => r.below(3),
        1 | 2 => r.below(14),
        3 => r.pick(&[31, 32, 33, 63, 64, 65, 66]),
        4 => r.pick(&[125, 126, 127, 128, 129, 130, 191, 192, 193]),
        5 => r.pick(&[255, 256, 257, 319, 320, 321, 640, 641]),
        6 if r.percent(30) => r.below(3000),
        _ => r.below(100),
    }
}

/// One column, a nesting that deserves it, or any tree.
fn any_shape(r: &mut Rng) -> Shape {
    match r.below(3) {
        0 => single(r),
        1 => {
            let known = nestings();
            known[r.below(known.len())].clone()
        }
        _ => random_shape(r),
    }
}

/// A mask and a journal, both accepted; now and then the mask is too long for the journal.
pub fn case(r: &mut Rng) -> (Vec<u8>, Vec<u8>) {
    let shape = any_shape(r);
    let rows = row_count(r);
    // many nodes: fewer rows
    let rows = if shape.nodes() > 12 { rows % 200 } else { rows };
    let slots = match r.below(20) {
        0 => rows + 1 + r.below(3),
        1..=4 => r.below(rows + 1),
        _ => rows,
    };
    let column = Maker::new(r).column(&shape, rows, None);
    let mut journal = lay(r, &column);
    if r.percent(20) {
        overlap(r, &mut journal);
    }
    let picks = pick_slots(r, slots);
    (mask_pack(r, &picks), journal)
}

/// Two masks with their journals, the journals alike in the kept part and different elsewhere: rows passed over, dropped rows and
/// how many they are, spare bits, data that no row has, bitmaps with no null, places.
pub struct Pair {
    pub masks: [Vec<u8>; 2],
    pub journals: [Vec<u8>; 2],
    /// the masks pick the same slots; otherwise as many, and only the extracts are alike
    pub same_slots: bool,
}

pub fn pair(r: &mut Rng) -> Pair {
    let shape = any_shape(r);
    let same_slots = r.percent(70);
    let slots = row_count(r) % 400;
    let picks = pick_slots(r, slots);
    let kept: Vec<usize> = (0..slots).filter(|i| picks[*i]).collect();
    let other_picks = match same_slots {
        true => picks.clone(),
        false => {
            let slots = slots + r.below(20);
            spread(r, slots, kept.len())
        }
    };
    let at: Vec<usize> = (0..other_picks.len()).filter(|i| other_picks[*i]).collect();
    // rows past the mask's end are dropped too
    let rows = slots + r.pick(&[0, 0, 1, 20]);
    let other_rows = other_picks.len() + r.pick(&[0, 0, 1, 20]);
    let one = Maker::new(r).column(&shape, rows, None);
    let two = Maker::new(r).column(&shape, other_rows, Some(Like { column: &one, kept: &kept, at: &at }));
    Pair { masks: [mask_pack(r, &picks), mask_pack(r, &other_picks)], journals: [lay(r, &one), lay(r, &two)], same_slots }
}
