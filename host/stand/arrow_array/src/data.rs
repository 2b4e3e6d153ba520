//! Arrays put together again, for the fallback.
use crate::ArrayRef;
use crate::arrays::*;
use crate::nested::*;
use crate::types::*;
use arrow_buffer::{ArrowNativeType, BooleanBuffer, OffsetBuffer, RunEndBuffer, ScalarBuffer};
use arrow_data::ArrayData;
use arrow_schema::{DataType, FieldRef};
use std::sync::Arc;

/// The array whose parts these are.
pub fn make_array(data: ArrayData) -> ArrayRef {
    let kid = |k: usize| make_array(data.child_data[k].clone());
    let kids = || data.child_data.iter().cloned().map(make_array).collect();
    let nulls = data.nulls.clone();
    let data = &data;
    crate::downcast_primitive! {
        &data.data_type => (whole, data),
        DataType::Boolean => {
            Arc::new(BooleanArray::new(BooleanBuffer::new(data.buffers[0].clone(), data.offset, data.len), nulls))
        },
        DataType::Binary => bytes::<GenericBinaryType<i32>>(data),
        DataType::LargeBinary => bytes::<GenericBinaryType<i64>>(data),
        DataType::Utf8 => bytes::<GenericStringType<i32>>(data),
        DataType::LargeUtf8 => bytes::<GenericStringType<i64>>(data),
        DataType::BinaryView => views::<BinaryViewType>(data),
        DataType::Utf8View => views::<StringViewType>(data),
        DataType::FixedSizeBinary(w) => {
            let values = data.buffers[0].slice_with_length(0, *w as usize * data.len);
            Arc::new(FixedSizeBinaryArray::try_new_with_len(*w, values, nulls, data.len).unwrap())
        },
        DataType::List(f) => list::<i32>(data, f, kid(0)),
        DataType::LargeList(f) => list::<i64>(data, f, kid(0)),
        DataType::ListView(f) => list_view::<i32>(data, f, kid(0)),
        DataType::LargeListView(f) => list_view::<i64>(data, f, kid(0)),
        DataType::RunEndEncoded(ends, _) => match ends.data_type() {
            DataType::Int16 => runs::<Int16Type>(data, kid(1)),
            DataType::Int32 => runs::<Int32Type>(data, kid(1)),
            DataType::Int64 => runs::<Int64Type>(data, kid(1)),
            t => unreachable!("run ends of {t:?}"),
        },
        DataType::Dictionary(key, _) => match key.as_ref() {
            DataType::UInt8 => dictionary::<UInt8Type>(data, kid(0)),
            DataType::UInt16 => dictionary::<UInt16Type>(data, kid(0)),
            DataType::UInt32 => dictionary::<UInt32Type>(data, kid(0)),
            DataType::UInt64 => dictionary::<UInt64Type>(data, kid(0)),
            t => unreachable!("keys of {t:?}"),
        },
        // SAFETY, here and below: the parts are those of an array, or ranges of them
        DataType::Struct(fields) => {
            Arc::new(unsafe { StructArray::new_unchecked_with_length(fields.clone(), kids(), nulls, data.len) })
        },
        DataType::Union(fields, _) => {
            Arc::new(unsafe { UnionArray::new_unchecked(fields.clone(), entries(data, 0, 0), None, kids()) })
        },
    }
}

macro_rules! whole {
    ($t:ty, $data:ident) => {
        Arc::new(primitive::<$t>($data).with_data_type($data.data_type.clone())) as ArrayRef
    };
}
use whole;

/// The entries of all rows, and `more`, of a buffer.
fn entries<T: ArrowNativeType>(data: &ArrayData, buffer: usize, more: usize) -> ScalarBuffer<T> {
    ScalarBuffer::new(data.buffers[buffer].clone(), 0, data.len + more)
}

fn primitive<T: ArrowPrimitiveType>(data: &ArrayData) -> PrimitiveArray<T> {
    PrimitiveArray::new(entries(data, 0, 0), data.nulls.clone())
}

fn offsets<O: ArrowNativeType>(data: &ArrayData) -> OffsetBuffer<O> {
    unsafe { OffsetBuffer::new_unchecked(entries(data, 0, 1)) }
}

fn bytes<T: ByteArrayType>(data: &ArrayData) -> ArrayRef {
    let offsets = offsets(data);
    Arc::new(unsafe { GenericByteArray::<T>::new_unchecked(offsets, data.buffers[1].clone(), data.nulls.clone()) })
}

fn views<T: ByteViewType>(data: &ArrayData) -> ArrayRef {
    let buffers = data.buffers[1..].into();
    Arc::new(unsafe { GenericByteViewArray::<T>::new_unchecked(entries(data, 0, 0), buffers, data.nulls.clone()) })
}

fn list<O: OffsetSizeTrait>(data: &ArrayData, field: &FieldRef, values: ArrayRef) -> ArrayRef {
    Arc::new(GenericListArray::<O>::new(field.clone(), offsets(data), values, data.nulls.clone()))
}

fn list_view<O: OffsetSizeTrait>(data: &ArrayData, field: &FieldRef, values: ArrayRef) -> ArrayRef {
    let (offsets, sizes) = (entries(data, 0, 0), entries(data, 1, 0));
    let nulls = data.nulls.clone();
    Arc::new(unsafe { GenericListViewArray::<O>::new_unchecked(field.clone(), offsets, sizes, values, nulls) })
}

fn runs<R: RunEndIndexType>(data: &ArrayData, values: ArrayRef) -> ArrayRef {
    let ends = entries(&data.child_data[0], 0, 0);
    Arc::new(RunArray::<R>::from_parts(RunEndBuffer::new(ends, data.offset, data.len), values))
}

fn dictionary<K: ArrowDictionaryKeyType>(data: &ArrayData, values: ArrayRef) -> ArrayRef {
    Arc::new(unsafe { DictionaryArray::<K>::new_unchecked(primitive(data), values) })
}
