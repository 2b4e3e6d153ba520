//! A result of filter.rs as extract bytes. What filter.rs leaves open, and no slot shows, is evened out here: after route all a
//! result is a part of its source (offsets and run ends not rebuilt, perhaps a bitmap with no null), after route none it has no
//! data buffers, a carried child of 0 rows keeps its own children's rows, and a list has the child rows of null rows too.
use crate::pack::*;
use arrow_array::cast::AsArray;
use arrow_array::types::*;
use arrow_array::*;
use arrow_buffer::*;
use arrow_select::filter::filter;
use std::sync::Arc;

/// The extract that holds `result`, whose columns are those of `journal`.
pub fn write(journal: &Pack, result: &ArrayRef) -> Vec<u8> {
    let mut writer = Writer { journal, body: vec![], nodes: vec![] };
    writer.node(0, Some(result.clone()));
    writer.put(&[]);
    finish_as(writer.body, &writer.nodes, MARK)
}

struct Writer<'a> {
    journal: &'a Pack<'a>,
    body: Vec<u8>,
    nodes: Vec<Node>,
}

/// What a node's buffers hold, and its children.
#[derive(Default)]
struct Parts {
    first: Vec<u8>,
    second: Vec<u8>,
    kids: Vec<ArrayRef>,
}

impl Writer<'_> {
    /// Appends a buffer at a multiple of 8 and gives its start.
    fn put(&mut self, buffer: &[u8]) -> u32 {
        self.body.resize(self.body.len().next_multiple_of(8), 0);
        self.body.extend(buffer);
        (self.body.len() - buffer.len()) as u32
    }

    /// A node and its subtree; with no array, or one with no row, all of it has 0 rows.
    fn node(&mut self, i: usize, array: Option<ArrayRef>) {
        let array = array.filter(|a| !a.is_empty());
        let source = self.journal.nodes[i];
        let rows = array.as_ref().map_or(0, |a| a.len());
        let mut n = Node::new(source.kind, source.param, rows, source.kids as usize);
        if let Some(nulls) = array.as_ref().and_then(|a| a.nulls()).filter(|nulls| nulls.null_count() != 0) {
            n.validity = self.put(&packed(nulls.inner()));
            n.nulls = nulls.null_count() as u32;
        }
        let parts = match &array {
            Some(array) => parts(&source, array.as_ref()),
            // offsets of no rows are one 0
            None if matches!(n.kind, BYTES | LARGE_BYTES | LIST | LARGE_LIST) => {
                Parts { first: vec![0; n.width()], ..Default::default() }
            }
            None => Parts::default(),
        };
        if n.kind != STRUCT {
            n.first = self.put(&parts.first);
        }
        if matches!(n.kind, BYTES | LARGE_BYTES | LIST_VIEW | LARGE_LIST_VIEW) {
            n.second = self.put(&parts.second);
        }
        if matches!(n.kind, BYTES | LARGE_BYTES) {
            n.second_length = parts.second.len() as u32;
        }
        self.nodes.push(n);
        for (k, kid) in self.journal.children(i).into_iter().enumerate() {
            self.node(kid, parts.kids.get(k).cloned());
        }
    }
}

/// The parts of an array with at least one row.
fn parts(n: &Node, array: &dyn Array) -> Parts {
    let only = |first: Vec<u8>| Parts { first, ..Default::default() };
    match (n.kind, n.param) {
        (BITS, _) => only(packed(array.as_any().downcast_ref::<BooleanArray>().unwrap().values())),
        (NATIVE, 1) => only(values::<UInt8Type>(array)),
        (NATIVE, 2) => only(values::<UInt16Type>(array)),
        (NATIVE, 4) => only(values::<Int32Type>(array)),
        (NATIVE, 8) => only(values::<Int64Type>(array)),
        (NATIVE, 16) => only(values::<Decimal128Type>(array)),
        (NATIVE, _) => only(values::<Decimal256Type>(array)),
        (FIXED, _) => only(array.as_fixed_size_binary().values().to_vec()),
        (BYTES, _) => bytes::<i32>(array),
        (LARGE_BYTES, _) => bytes::<i64>(array),
        (VIEWS, _) => views(array),
        (LIST_VIEW, _) => list_view::<i32>(array),
        (LARGE_LIST_VIEW, _) => list_view::<i64>(array),
        (LIST, _) => list::<i32>(array),
        (LARGE_LIST, _) => list::<i64>(array),
        (RUNS, 2) => runs::<Int16Type>(array),
        (RUNS, 4) => runs::<Int32Type>(array),
        (RUNS, _) => runs::<Int64Type>(array),
        (STRUCT, _) => Parts { kids: array.as_struct().columns().to_vec(), ..Default::default() },
        (UNION, _) => {
            let union = array.as_union();
            Parts { first: raw(union.type_ids()), kids: union.children().to_vec(), ..Default::default() }
        }
        (DICTIONARY, 1) => dictionary::<UInt8Type>(array),
        (DICTIONARY, 2) => dictionary::<UInt16Type>(array),
        (DICTIONARY, 4) => dictionary::<UInt32Type>(array),
        (DICTIONARY, _) => dictionary::<UInt64Type>(array),
        (kind, _) => unreachable!("kind {kind}"),
    }
}

fn raw<T: ArrowNativeType>(values: &[T]) -> Vec<u8> {
    // SAFETY: values are plain bytes
    unsafe { std::slice::from_raw_parts(values.as_ptr().cast(), size_of_val(values)) }.to_vec()
}

fn packed(bits: &BooleanBuffer) -> Vec<u8> {
    let mut out = vec![0; bits.len().div_ceil(8)];
    (0..bits.len()).filter(|&i| bits.value(i)).for_each(|i| out[i / 8] |= 1 << (i % 8));
    out
}

fn values<T: ArrowPrimitiveType>(array: &dyn Array) -> Vec<u8> {
    raw(array.as_any().downcast_ref::<PrimitiveArray<T>>().unwrap().values())
}

fn bytes<O: OffsetSizeTrait>(array: &dyn Array) -> Parts {
    let array = array.as_binary::<O>();
    let offsets: Vec<usize> = array.value_offsets().iter().map(|o| o.as_usize()).collect();
    let (base, end) = (offsets[0], offsets[offsets.len() - 1]);
    let rebuilt: Vec<O> = offsets.iter().map(|o| O::from_usize(o - base).unwrap()).collect();
    Parts { first: raw(&rebuilt), second: array.value_data()[base..end].to_vec(), kids: vec![] }
}

fn views(array: &dyn Array) -> Parts {
    let array = array.as_binary_view();
    let kid =
        |b: &Buffer| -> ArrayRef { Arc::new(PrimitiveArray::<UInt8Type>::new(ScalarBuffer::new(b.clone(), 0, b.len()), None)) };
    Parts { first: raw(array.views()), second: vec![], kids: array.data_buffers().iter().map(kid).collect() }
}

fn list_view<O: OffsetSizeTrait>(array: &dyn Array) -> Parts {
    let array = array.as_list_view::<O>();
    Parts { first: raw(array.offsets()), second: raw(array.sizes()), kids: vec![array.values().clone()] }
}

/// Null rows are empty, and the child has the rows of the others only, which filter.rs picks.
fn list<O: OffsetSizeTrait>(array: &dyn Array) -> Parts {
    let list = array.as_list::<O>();
    let mut offsets = vec![O::default()];
    let mut shown = vec![false; list.values().len()];
    for (row, own) in list.value_offsets().windows(2).enumerate() {
        let own = own[0].as_usize()..if list.is_valid(row) { own[1] } else { own[0] }.as_usize();
        offsets.push(O::from_usize(offsets[row].as_usize() + own.len()).unwrap());
        shown[own].fill(true);
    }
    let shown = BooleanArray::from(BooleanBuffer::collect_bool(shown.len(), |i| shown[i]));
    Parts { first: raw(&offsets), second: vec![], kids: vec![filter(list.values().as_ref(), &shown).unwrap()] }
}

fn runs<R: RunEndIndexType>(array: &dyn Array) -> Parts {
    let array = array.as_any().downcast_ref::<RunArray<R>>().unwrap();
    let ends = array.run_ends();
    let (start, last) = (ends.get_start_physical_index(), ends.get_end_physical_index());
    let clip = |end: &R::Native| R::Native::from_usize((end.as_usize() - ends.offset()).min(ends.len())).unwrap();
    let rebuilt: Vec<R::Native> = ends.inner()[start..=last].iter().map(clip).collect();
    Parts { first: raw(&rebuilt), second: vec![], kids: vec![array.values_slice()] }
}

fn dictionary<K: ArrowDictionaryKeyType>(array: &dyn Array) -> Parts {
    let array = array.as_any().downcast_ref::<DictionaryArray<K>>().unwrap();
    Parts { first: raw(array.keys().values()), second: vec![], kids: vec![array.values().clone()] }
}
