//! filter.rs's side: packs to arrays, `filter` called on them, results as slots and as extract bytes.
mod build;
mod slots;
mod write;

pub use build::build;
pub use slots::{Slot, slots};
pub use write::write;

use crate::pack::Pack;
use arrow_array::{ArrayRef, BooleanArray};
use arrow_select::filter::{FilterBuilder, filter};

/// The array of an accepted mask.
pub fn mask_array(mask: &Pack) -> BooleanArray {
    build(mask).as_any().downcast_ref::<BooleanArray>().unwrap().clone()
}

/// How filter.rs is called: its list stored or not, its count given or not.
pub const WAYS: [(&str, bool, bool); 3] = [("lazy", false, false), ("stored", true, false), ("stored, count given", true, true)];

/// `filter`, which stores a list or not as it sees fit; then each of `WAYS`. `None` where filter.rs refuses the mask as too long.
pub fn filtered(values: &ArrayRef, mask: &BooleanArray) -> Option<(ArrayRef, Vec<ArrayRef>)> {
    let result = filter(values.as_ref(), mask).ok()?;
    let by_way = |(_, stored, given): (&str, bool, bool)| {
        let mut builder = FilterBuilder::new(mask);
        if given {
            // SAFETY: the true count is the count
            builder = unsafe { builder.with_count(mask.true_count()) };
        }
        if stored {
            builder = builder.optimize();
        }
        builder.build().filter(values.as_ref()).unwrap()
    };
    Some((result, WAYS.map(by_way).to_vec()))
}
