//! An accepted pack as an array. Buffers are copied, so that they are aligned.
use crate::pack::*;
use arrow_array::types::*;
use arrow_array::*;
use arrow_buffer::*;
use arrow_schema::*;
use std::sync::Arc;

/// The array of an accepted pack. Native 1, 2, 4, 8, 16, 32 are UInt8, UInt16, Int32, Int64, Decimal128, Decimal256; bytes and
/// views are binary.
pub fn build(pack: &Pack) -> ArrayRef {
    build_node(pack, 0)
}

fn build_node(pack: &Pack, i: usize) -> ArrayRef {
    let n = pack.nodes[i];
    let at = Place { body: pack.body, n, skip: n.skip as usize, rows: n.rows as usize };
    let kids: Vec<ArrayRef> = pack.children(i).into_iter().map(|k| build_node(pack, k)).collect();
    match (n.kind, n.param) {
        (BITS, _) => Arc::new(BooleanArray::new(at.bits(n.first), at.nulls())),
        (NATIVE, 1) => Arc::new(at.primitive::<UInt8Type>()),
        (NATIVE, 2) => Arc::new(at.primitive::<UInt16Type>()),
        (NATIVE, 4) => Arc::new(at.primitive::<Int32Type>()),
        (NATIVE, 8) => Arc::new(at.primitive::<Int64Type>()),
        (NATIVE, 16) => Arc::new(at.primitive::<Decimal128Type>()),
        (NATIVE, _) => Arc::new(at.primitive::<Decimal256Type>()),
        (FIXED, width) => at.fixed(width as usize),
        (BYTES, _) => at.bytes::<i32>(),
        (LARGE_BYTES, _) => at.bytes::<i64>(),
        (VIEWS, _) => at.views(&kids),
        (LIST_VIEW, _) => at.list_view::<i32>(&kids[0]),
        (LARGE_LIST_VIEW, _) => at.list_view::<i64>(&kids[0]),
        (LIST, _) => at.list::<i32>(&kids[0]),
        (LARGE_LIST, _) => at.list::<i64>(&kids[0]),
        (RUNS, 2) => at.runs::<Int16Type>(&kids[0]),
        (RUNS, 4) => at.runs::<Int32Type>(&kids[0]),
        (RUNS, _) => at.runs::<Int64Type>(&kids[0]),
        (STRUCT, _) => at.structure(kids),
        (UNION, _) => at.union(kids),
        (DICTIONARY, 1) => at.dictionary::<UInt8Type>(&kids[0]),
        (DICTIONARY, 2) => at.dictionary::<UInt16Type>(&kids[0]),
        (DICTIONARY, 4) => at.dictionary::<UInt32Type>(&kids[0]),
        (DICTIONARY, _) => at.dictionary::<UInt64Type>(&kids[0]),
        (kind, _) => unreachable!("kind {kind}"),
    }
}

/// A node and the body that its buffers lie in.
struct Place<'a> {
    body: &'a [u8],
    n: Node,
    skip: usize,
    rows: usize,
}

fn field(values: &ArrayRef) -> FieldRef {
    Arc::new(Field::new("", values.data_type().clone()))
}

impl Place<'_> {
    /// `count` values from byte `start` on.
    fn values<T: ArrowNativeType>(&self, start: u32, count: usize) -> Buffer {
        let source = &self.body[start as usize..][..count * size_of::<T>()];
        let mut values = vec![T::default(); count];
        // SAFETY: as many bytes as `values` has, and any bytes are a value
        unsafe { std::ptr::copy_nonoverlapping(source.as_ptr(), values.as_mut_ptr().cast(), source.len()) };
        values.into()
    }

    /// The entries of the node's rows, one and more for offsets.
    fn entries<T: ArrowNativeType>(&self, start: u32, more: usize) -> ScalarBuffer<T> {
        ScalarBuffer::new(self.values::<T>(start, self.n.span() + more), self.skip, self.rows + more)
    }

    fn bits(&self, start: u32) -> BooleanBuffer {
        BooleanBuffer::new(self.values::<u8>(start, self.n.span().div_ceil(8)), self.skip, self.rows)
    }

    fn nulls(&self) -> Option<NullBuffer> {
        (self.n.validity != NO_BITMAP).then(|| NullBuffer::new(self.bits(self.n.validity)))
    }

    fn primitive<T: ArrowPrimitiveType>(&self) -> PrimitiveArray<T> {
        PrimitiveArray::new(self.entries(self.n.first, 0), self.nulls())
    }

    fn fixed(&self, width: usize) -> ArrayRef {
        let data = self.values::<u8>(self.n.first, self.n.span() * width);
        let data = data.slice_with_length(self.skip * width, self.rows * width);
        Arc::new(FixedSizeBinaryArray::try_new_with_len(width as i32, data, self.nulls(), self.rows).unwrap())
    }

    fn bytes<O: OffsetSizeTrait>(&self) -> ArrayRef {
        let offsets = OffsetBuffer::new(self.entries::<O>(self.n.first, 1));
        let data = self.values::<u8>(self.n.second, self.n.second_length as usize);
        // SAFETY: accepted, so offsets lie within the data
        Arc::new(unsafe { GenericByteArray::<GenericBinaryType<O>>::new_unchecked(offsets, data, self.nulls()) })
    }

    fn views(&self, kids: &[ArrayRef]) -> ArrayRef {
        let data = |k: &ArrayRef| k.as_any().downcast_ref::<PrimitiveArray<UInt8Type>>().unwrap().values().inner().clone();
        let buffers = kids.iter().map(data).collect();
        // SAFETY: accepted, so long views point into the buffers
        Arc::new(unsafe { BinaryViewArray::new_unchecked(self.entries(self.n.first, 0), buffers, self.nulls()) })
    }

    fn list_view<O: OffsetSizeTrait>(&self, kid: &ArrayRef) -> ArrayRef {
        let (offsets, sizes) = (self.entries::<O>(self.n.first, 0), self.entries::<O>(self.n.second, 0));
        // SAFETY: accepted, so every range lies in the child
        Arc::new(unsafe { GenericListViewArray::new_unchecked(field(kid), offsets, sizes, kid.clone(), self.nulls()) })
    }

    fn list<O: OffsetSizeTrait>(&self, kid: &ArrayRef) -> ArrayRef {
        let offsets = OffsetBuffer::new(self.entries::<O>(self.n.first, 1));
        Arc::new(GenericListArray::new(field(kid), offsets, kid.clone(), self.nulls()))
    }

    fn runs<R: RunEndIndexType>(&self, kid: &ArrayRef) -> ArrayRef {
        let ends = ScalarBuffer::new(self.values::<R::Native>(self.n.first, kid.len()), 0, kid.len());
        Arc::new(RunArray::<R>::from_parts(RunEndBuffer::new(ends, self.skip, self.rows), kid.clone()))
    }

    fn structure(&self, kids: Vec<ArrayRef>) -> ArrayRef {
        let fields: Vec<FieldRef> = kids.iter().map(field).collect();
        // SAFETY: accepted, so each child has the struct's rows
        Arc::new(unsafe { StructArray::new_unchecked_with_length(fields.into(), kids, self.nulls(), self.rows) })
    }

    fn union(&self, kids: Vec<ArrayRef>) -> ArrayRef {
        let fields = kids.iter().enumerate().map(|(id, kid)| (id as i8, field(kid))).collect();
        // SAFETY: accepted, so ids are those of children, which have the union's rows
        Arc::new(unsafe { UnionArray::new_unchecked(UnionFields::new(fields), self.entries(self.n.first, 0), None, kids) })
    }

    fn dictionary<K: ArrowDictionaryKeyType>(&self, kid: &ArrayRef) -> ArrayRef {
        // SAFETY: accepted, so keys of valid rows are below the child's rows
        Arc::new(unsafe { DictionaryArray::new_unchecked(self.primitive::<K>(), kid.clone()) })
    }
}
