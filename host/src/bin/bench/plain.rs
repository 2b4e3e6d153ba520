//! A filter for one column in plain Rust: lists, or lists of lists, of values of 4 bytes, with no nulls. filter.rs leaves lists to
//! arrow-data's `MutableArrayData`, which is stood in for, so this is what the port's time is held to.
use host::pack::*;

/// Offsets of each level, outermost first, and values.
#[derive(PartialEq)]
pub struct Lists {
    levels: Vec<Vec<i32>>,
    values: Vec<i32>,
}

impl Lists {
    /// The column of an accepted pack, if it is of this form and no row is passed over.
    pub fn of(pack: &Pack) -> Option<Self> {
        let (last, above) = pack.nodes.split_last().unwrap();
        let form = !above.is_empty() && above.iter().all(|n| n.kind == LIST) && (last.kind, last.param) == (NATIVE, 4);
        let plain = pack.nodes.iter().all(|n| n.skip == 0 && n.validity == NO_BITMAP);
        let numbers = |n: &Node, more: usize| {
            let entries = pack.body[n.first as usize..][..4 * (n.rows as usize + more)].as_chunks().0;
            entries.iter().map(|entry| i32::from_le_bytes(*entry)).collect()
        };
        let levels = || above.iter().map(|n| numbers(n, 1)).collect();
        (form && plain).then(|| Self { levels: levels(), values: numbers(last, 0) })
    }

    /// The rows that the mask picks.
    pub fn filter(&self, mask: &[u64]) -> Self {
        let count: usize = mask.iter().map(|word| word.count_ones() as usize).sum();
        let lengths = std::iter::once(count).chain(self.levels[1..].iter().map(|level| level.len() - 1));
        let levels = lengths.map(|rows| {
            let mut offsets = Vec::with_capacity(rows + 1);
            offsets.push(0);
            offsets
        });
        // below the first level no more than there is: what is not used is not touched
        let mut kept = Self { levels: levels.collect(), values: Vec::with_capacity(self.values.len()) };
        each_run(mask, |start, end| kept.extend(self, start, end));
        kept
    }

    /// Appends the rows `start..end` of `from`.
    fn extend(&mut self, from: &Self, mut start: usize, mut end: usize) {
        for (kept, level) in self.levels.iter_mut().zip(&from.levels) {
            let offsets = &level[start..=end];
            let (first, last) = (offsets[0], offsets[offsets.len() - 1]);
            let shift = kept[kept.len() - 1] - first;
            kept.extend(offsets[1..].iter().map(|offset| offset + shift));
            (start, end) = (first as usize, last as usize);
        }
        self.values.extend_from_slice(&from.values[start..end]);
    }
}

/// The bits of a mask with no nulls as words, the first in the lowest bit, zeros behind the last.
pub fn words(mask: &Pack) -> Vec<u64> {
    let n = &mask.nodes[0];
    let bytes = &mask.body[n.first as usize..][..(n.rows as usize).div_ceil(8)];
    bytes.chunks(8).map(|eight| number(eight, 0, eight.len())).collect()
}

/// Calls `run` with start and end of each run of set bits.
fn each_run(mask: &[u64], mut run: impl FnMut(usize, usize)) {
    let mut start = None;
    for (i, word) in mask.iter().enumerate() {
        let mut at = 0;
        loop {
            // the bits from `at` on that are not as the last one was
            let turned = (if start.is_some() { !word } else { *word }) >> at;
            if turned == 0 {
                break;
            }
            at += turned.trailing_zeros();
            let place = 64 * i + at as usize;
            match start.take() {
                Some(start) => run(start, place),
                None => start = Some(place),
            }
        }
    }
    if let Some(start) = start {
        run(start, 64 * mask.len());
    }
}
