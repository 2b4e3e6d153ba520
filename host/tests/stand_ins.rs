//! The stand-ins have the meanings that the specification gives them.
use arrow_array::cast::AsArray;
use arrow_array::types::Int32Type;
use arrow_array::{Array, ArrayRef, GenericListArray, PrimitiveArray, RunArray, make_array};
use arrow_buffer::bit_util::{compress, compress_portable};
use arrow_buffer::{BooleanBuffer, BooleanBufferBuilder, Buffer, NullBuffer, OffsetBuffer, RunEndBuffer};
use arrow_data::transform::MutableArrayData;
use arrow_schema::Field;
use host::make::{self, Rng};
use host::pack::Pack;
use host::rust::{self, Slot};
use std::sync::Arc;

/// Bitmaps of up to 200 bits from any bit of a buffer on, of any density, and their bits.
fn bitmaps() -> impl Iterator<Item = (BooleanBuffer, Vec<bool>)> {
    (0..5000).map(|seed| {
        let mut r = Rng::new(seed);
        let (offset, length) = (r.below(70), r.below(200));
        let density = r.pick(&[0, 3, 50, 97, 100]);
        let mut all: Vec<bool> = (0..offset + length).map(|_| r.percent(density)).collect();
        let buffer = BooleanBuffer::collect_bool(all.len(), |i| all[i]).slice(offset, length);
        (buffer, all.split_off(offset))
    })
}

#[test]
fn set_indices_lists_true_positions_rising() {
    for (buffer, bits) in bitmaps() {
        let wanted: Vec<usize> = (0..bits.len()).filter(|i| bits[*i]).collect();
        assert_eq!(buffer.set_indices().collect::<Vec<_>>(), wanted);
    }
}

#[test]
fn set_slices_lists_maximal_true_runs_rising() {
    for (buffer, bits) in bitmaps() {
        let at = |i: usize| i < bits.len() && bits[i];
        let starts = (0..bits.len()).filter(|&i| at(i) && (i == 0 || !at(i - 1)));
        let wanted: Vec<(usize, usize)> = starts.map(|s| (s, (s..).find(|&e| !at(e)).unwrap())).collect();
        assert_eq!(buffer.set_slices().collect::<Vec<_>>(), wanted);
    }
}

#[test]
fn bit_chunks_gives_words_low_bit_first_and_a_zero_filled_remainder() {
    for (buffer, bits) in bitmaps() {
        let word = |bits: &[bool]| bits.iter().rev().fold(0u64, |word, bit| word << 1 | *bit as u64);
        let chunks = buffer.bit_chunks();
        let whole = bits.len() / 64 * 64;
        assert_eq!(chunks.iter().collect::<Vec<_>>(), bits[..whole].chunks(64).map(word).collect::<Vec<_>>());
        assert_eq!(chunks.remainder_bits(), word(&bits[whole..]));
    }
}

#[test]
fn compress_gathers_value_bits_at_set_mask_bits() {
    // P7
    assert_eq!(compress(0xB6, 0x5A), 5);
    let mut r = Rng::new(1);
    for _ in 0..20_000 {
        let (value, mut mask) = (r.next(), r.next());
        mask = r.pick(&[mask, mask & r.clone().next(), mask | !r.clone().next(), 0, u64::MAX]);
        let kept = (0..64).filter(|bit| mask >> bit & 1 == 1);
        let wanted = kept.enumerate().fold(0, |word, (to, from)| word | (value >> from & 1) << to);
        assert_eq!(compress(value, mask), wanted);
        assert_eq!(compress_portable(value, mask), wanted);
    }
}

#[test]
fn append_packed_range_appends_those_bits() {
    for (i, (buffer, bits)) in bitmaps().enumerate() {
        let mut r = Rng::new(i as u64);
        let mut builder = BooleanBufferBuilder::new(bits.len());
        let mut wanted = vec![];
        let mut at = 0;
        while at < bits.len() {
            let end = at + 1 + r.below(bits.len() - at);
            builder.append_packed_range(buffer.offset() + at..buffer.offset() + end, buffer.values());
            wanted.extend(&bits[at..end]);
            at = end + r.below(9);
        }
        let built = BooleanBuffer::new(Buffer::from(builder), 0, wanted.len());
        assert_eq!((0..wanted.len()).map(|i| built.value(i)).collect::<Vec<_>>(), wanted);
    }
}

/// Arrays of every kind and nesting.
fn arrays() -> impl Iterator<Item = (Rng, ArrayRef)> {
    (0..3000).map(|seed| {
        let mut r = Rng::new(seed);
        let (_, journal) = make::case(&mut r);
        let array = rust::build(&Pack::read(&journal).unwrap());
        (r, array)
    })
}

/// These ranges of an array's rows, one after the other.
fn copied(array: &dyn Array, ranges: &[(usize, usize)]) -> ArrayRef {
    let data = array.to_data();
    let mut copy = MutableArrayData::new(vec![&data], false, 0);
    ranges.iter().for_each(|(start, end)| copy.try_extend(0, *start, *end).unwrap());
    make_array(copy.freeze())
}

#[test]
fn make_array_puts_together_what_to_data_takes_apart() {
    for (mut r, array) in arrays() {
        let start = r.below(array.len() + 1);
        let part = array.slice(start, r.below(array.len() - start + 1));
        let again = make_array(part.to_data());
        assert_eq!(again.data_type(), part.data_type());
        assert_eq!(rust::slots(again.as_ref()), rust::slots(part.as_ref()));
    }
}

#[test]
fn extend_appends_those_rows() {
    for (mut r, array) in arrays() {
        // of a part of the array, so that nothing starts where its buffers do
        let start = r.below(array.len() / 2 + 1);
        let part = array.slice(start, array.len() - start);
        let mut any = || {
            let start = r.below(part.len() + 1);
            (start, start + r.below((part.len() - start).min(20) + 1))
        };
        // in any order and over each other, as no filter copies them
        let mut ranges: Vec<(usize, usize)> = (0..8).map(|_| any()).collect();
        if r.percent(50) {
            ranges.sort();
        }
        let (slots, copy) = (rust::slots(part.as_ref()), copied(part.as_ref(), &ranges));
        let wanted: Vec<Slot> = ranges.iter().flat_map(|(start, end)| slots[*start..*end].to_vec()).collect();
        assert_eq!(copy.data_type(), part.data_type());
        assert_eq!(rust::slots(copy.as_ref()), wanted);
    }
}

fn native(values: &[i32]) -> ArrayRef {
    Arc::new(PrimitiveArray::<Int32Type>::new(values.to_vec().into(), None))
}

#[test]
fn lists_are_copied_with_the_child_rows_of_null_rows() {
    let values = native(&[1, 2, 3, 4, 5, 6]);
    let nulls = NullBuffer::new(BooleanBuffer::collect_bool(4, |i| i != 2));
    let offsets = OffsetBuffer::new(vec![0i32, 1, 3, 5, 6].into());
    let field = Field::new("", values.data_type().clone()).into();
    let list: ArrayRef = Arc::new(GenericListArray::new(field, offsets, values, Some(nulls)));
    let copy = copied(list.as_ref(), &[(0, 1), (2, 4)]);
    let copy = copy.as_list::<i32>();
    assert_eq!(copy.value_offsets(), [0, 1, 3, 4]);
    assert_eq!(copy.null_count(), 1);
    assert_eq!(rust::slots(copy.values().as_ref()), rust::slots(native(&[1, 4, 5, 6]).as_ref()));
    // with no null left there are no null marks
    assert!(copied(list.as_ref(), &[(0, 2), (3, 4)]).nulls().is_none());
}

#[test]
fn a_run_goes_on_in_the_next_range() {
    let ends = RunEndBuffer::new(vec![3i32, 7, 9].into(), 1, 8);
    let runs: ArrayRef = Arc::new(RunArray::<Int32Type>::from_parts(ends, native(&[5, 6, 6])));
    // rows 0 and 1 are of the first run, 2 to 5 of the second, 6 and 7 of the third
    let copy = copied(runs.as_ref(), &[(1, 3), (4, 5), (7, 8)]);
    let copy = copy.as_any().downcast_ref::<RunArray<Int32Type>>().unwrap();
    assert_eq!(copy.run_ends().inner()[..], [1, 3, 4]);
    assert_eq!(rust::slots(copy.values().as_ref()), rust::slots(native(&[5, 6, 6]).as_ref()));
}
