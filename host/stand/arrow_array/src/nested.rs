//! Arrays with children, and empty arrays.
use crate::arrays::*;
use crate::types::*;
use crate::{Array, ArrayRef, check_nulls};
use arrow_buffer::{ArrowNativeType, BooleanBuffer, NullBuffer, OffsetBuffer, RunEndBuffer, ScalarBuffer};
use arrow_data::ArrayData;
use arrow_schema::{ArrowError, DataType, Field, FieldRef, Fields, UnionFields, UnionMode};
use std::any::Any;
use std::sync::Arc;

#[derive(Debug, Clone)]
pub struct GenericListArray<O: OffsetSizeTrait> {
    data_type: DataType,
    offsets: OffsetBuffer<O>,
    values: ArrayRef,
    nulls: Option<NullBuffer>,
}

impl<O: OffsetSizeTrait> GenericListArray<O> {
    pub fn new(field: FieldRef, offsets: OffsetBuffer<O>, values: ArrayRef, nulls: Option<NullBuffer>) -> Self {
        assert!(offsets.last().is_some_and(|end| end.as_usize() <= values.len()), "offsets lie within the values");
        check_nulls(&nulls, offsets.len() - 1).unwrap();
        let data_type = if O::IS_LARGE { DataType::LargeList(field) } else { DataType::List(field) };
        Self { data_type, offsets, values, nulls }
    }
    pub fn value_offsets(&self) -> &[O] {
        &self.offsets
    }
    pub fn values(&self) -> &ArrayRef {
        &self.values
    }
}

impl<O: OffsetSizeTrait> Array for GenericListArray<O> {
    fn as_any(&self) -> &dyn Any {
        self
    }
    fn data_type(&self) -> &DataType {
        &self.data_type
    }
    fn len(&self) -> usize {
        self.offsets.len() - 1
    }
    fn nulls(&self) -> Option<&NullBuffer> {
        self.nulls.as_ref()
    }
    fn slice(&self, offset: usize, length: usize) -> ArrayRef {
        Arc::new(Self {
            data_type: self.data_type.clone(),
            offsets: self.offsets.slice(offset, length),
            values: self.values.clone(),
            nulls: self.nulls.as_ref().map(|n| n.slice(offset, length)),
        })
    }
    fn to_data(&self) -> ArrayData {
        let offsets = self.offsets.inner().inner().clone();
        ArrayData::new(&self.data_type, self.len(), self.nulls(), vec![offsets], vec![self.values.to_data()])
    }
}

#[derive(Debug, Clone)]
pub struct GenericListViewArray<O: OffsetSizeTrait> {
    data_type: DataType,
    offsets: ScalarBuffer<O>,
    sizes: ScalarBuffer<O>,
    values: ArrayRef,
    nulls: Option<NullBuffer>,
}

impl<O: OffsetSizeTrait> GenericListViewArray<O> {
    /// # Safety
    /// Every range lies in `values`.
    pub unsafe fn new_unchecked(
        field: FieldRef,
        offsets: ScalarBuffer<O>,
        sizes: ScalarBuffer<O>,
        values: ArrayRef,
        nulls: Option<NullBuffer>,
    ) -> Self {
        assert_eq!(offsets.len(), sizes.len());
        check_nulls(&nulls, sizes.len()).unwrap();
        let data_type = if O::IS_LARGE { DataType::LargeListView(field) } else { DataType::ListView(field) };
        Self { data_type, offsets, sizes, values, nulls }
    }
    pub fn offsets(&self) -> &ScalarBuffer<O> {
        &self.offsets
    }
    pub fn sizes(&self) -> &ScalarBuffer<O> {
        &self.sizes
    }
    pub fn values(&self) -> &ArrayRef {
        &self.values
    }
}

impl<O: OffsetSizeTrait> Array for GenericListViewArray<O> {
    fn as_any(&self) -> &dyn Any {
        self
    }
    fn data_type(&self) -> &DataType {
        &self.data_type
    }
    fn len(&self) -> usize {
        self.sizes.len()
    }
    fn nulls(&self) -> Option<&NullBuffer> {
        self.nulls.as_ref()
    }
    fn slice(&self, offset: usize, length: usize) -> ArrayRef {
        Arc::new(Self {
            data_type: self.data_type.clone(),
            offsets: self.offsets.slice(offset, length),
            sizes: self.sizes.slice(offset, length),
            values: self.values.clone(),
            nulls: self.nulls.as_ref().map(|n| n.slice(offset, length)),
        })
    }
    fn to_data(&self) -> ArrayData {
        let buffers = vec![self.offsets.inner().clone(), self.sizes.inner().clone()];
        ArrayData::new(&self.data_type, self.len(), self.nulls(), buffers, vec![self.values.to_data()])
    }
}

#[derive(Debug, Clone)]
pub struct RunArray<R: RunEndIndexType> {
    data_type: DataType,
    run_ends: RunEndBuffer<R::Native>,
    values: ArrayRef,
}

impl<R: RunEndIndexType> RunArray<R> {
    /// Rows are the last run end.
    pub fn try_new(run_ends: &PrimitiveArray<R>, values: &dyn Array) -> Result<Self, ArrowError> {
        let ends = run_ends.values().clone();
        let rows = ends.last().map_or(0, |e| e.as_usize());
        Ok(Self::from_parts(RunEndBuffer::new(ends, 0, rows), values.slice(0, values.len())))
    }
    /// The host's way in: rows may start inside a run.
    pub fn from_parts(run_ends: RunEndBuffer<R::Native>, values: ArrayRef) -> Self {
        assert_eq!(run_ends.inner().len(), values.len());
        let ends = Field::new("run_ends", R::DATA_TYPE);
        let vals = Field::new("values", values.data_type().clone());
        let data_type = DataType::RunEndEncoded(ends.into(), vals.into());
        Self { data_type, run_ends, values }
    }
    pub fn run_ends(&self) -> &RunEndBuffer<R::Native> {
        &self.run_ends
    }
    pub fn values(&self) -> &ArrayRef {
        &self.values
    }
    /// The values of the runs that have a row here.
    pub fn values_slice(&self) -> ArrayRef {
        if self.run_ends.is_empty() {
            return self.values.slice(0, 0);
        }
        let start = self.run_ends.get_start_physical_index();
        let end = self.run_ends.get_end_physical_index();
        self.values.slice(start, end - start + 1)
    }
}

impl<R: RunEndIndexType> Array for RunArray<R> {
    fn as_any(&self) -> &dyn Any {
        self
    }
    fn data_type(&self) -> &DataType {
        &self.data_type
    }
    fn len(&self) -> usize {
        self.run_ends.len()
    }
    fn nulls(&self) -> Option<&NullBuffer> {
        None
    }
    fn slice(&self, offset: usize, length: usize) -> ArrayRef {
        Arc::new(Self {
            data_type: self.data_type.clone(),
            run_ends: self.run_ends.slice(offset, length),
            values: self.values.clone(),
        })
    }
    fn to_data(&self) -> ArrayData {
        let ends = self.run_ends.inner();
        let ends = ArrayData::new(&R::DATA_TYPE, ends.len(), None, vec![ends.inner().clone()], vec![]);
        let offset = self.run_ends.offset();
        ArrayData { offset, ..ArrayData::new(&self.data_type, self.len(), None, vec![], vec![ends, self.values.to_data()]) }
    }
}

#[derive(Debug, Clone)]
pub struct DictionaryArray<K: ArrowDictionaryKeyType> {
    data_type: DataType,
    keys: PrimitiveArray<K>,
    values: ArrayRef,
}

impl<K: ArrowDictionaryKeyType> DictionaryArray<K> {
    /// # Safety
    /// Keys of valid rows are below the values' rows.
    pub unsafe fn new_unchecked(keys: PrimitiveArray<K>, values: ArrayRef) -> Self {
        let data_type = DataType::Dictionary(K::DATA_TYPE.into(), values.data_type().clone().into());
        Self { data_type, keys, values }
    }
    pub fn keys(&self) -> &PrimitiveArray<K> {
        &self.keys
    }
    pub fn values(&self) -> &ArrayRef {
        &self.values
    }
}

impl<K: ArrowDictionaryKeyType> Array for DictionaryArray<K> {
    fn as_any(&self) -> &dyn Any {
        self
    }
    fn data_type(&self) -> &DataType {
        &self.data_type
    }
    fn len(&self) -> usize {
        self.keys.len()
    }
    fn nulls(&self) -> Option<&NullBuffer> {
        self.keys.nulls()
    }
    fn slice(&self, offset: usize, length: usize) -> ArrayRef {
        Arc::new(Self { data_type: self.data_type.clone(), keys: self.keys.sliced(offset, length), values: self.values.clone() })
    }
    fn to_data(&self) -> ArrayData {
        let keys = self.keys.values().inner().clone();
        ArrayData::new(&self.data_type, self.len(), self.nulls(), vec![keys], vec![self.values.to_data()])
    }
}

#[derive(Debug, Clone)]
pub struct StructArray {
    data_type: DataType,
    columns: Vec<ArrayRef>,
    nulls: Option<NullBuffer>,
    len: usize,
}

impl StructArray {
    /// # Safety
    /// Columns fit the fields and have `len` rows.
    pub unsafe fn new_unchecked_with_length(
        fields: Fields,
        columns: Vec<ArrayRef>,
        nulls: Option<NullBuffer>,
        len: usize,
    ) -> Self {
        assert!(columns.iter().all(|c| c.len() == len));
        check_nulls(&nulls, len).unwrap();
        Self { data_type: DataType::Struct(fields), columns, nulls, len }
    }
    pub fn columns(&self) -> &[ArrayRef] {
        &self.columns
    }
    pub fn fields(&self) -> &Fields {
        match &self.data_type {
            DataType::Struct(f) => f,
            _ => unreachable!(),
        }
    }
}

impl Array for StructArray {
    fn as_any(&self) -> &dyn Any {
        self
    }
    fn data_type(&self) -> &DataType {
        &self.data_type
    }
    fn len(&self) -> usize {
        self.len
    }
    fn nulls(&self) -> Option<&NullBuffer> {
        self.nulls.as_ref()
    }
    fn slice(&self, offset: usize, length: usize) -> ArrayRef {
        assert!(offset + length <= self.len);
        Arc::new(Self {
            data_type: self.data_type.clone(),
            columns: self.columns.iter().map(|c| c.slice(offset, length)).collect(),
            nulls: self.nulls.as_ref().map(|n| n.slice(offset, length)),
            len: length,
        })
    }
    fn to_data(&self) -> ArrayData {
        let columns = self.columns.iter().map(|c| c.to_data()).collect();
        ArrayData::new(&self.data_type, self.len, self.nulls(), vec![], columns)
    }
}

/// Sparse only.
#[derive(Debug, Clone)]
pub struct UnionArray {
    data_type: DataType,
    type_ids: ScalarBuffer<i8>,
    children: Vec<ArrayRef>,
}

impl UnionArray {
    /// # Safety
    /// Ids are those of the fields; children have as many rows as there are ids.
    pub unsafe fn new_unchecked(
        fields: UnionFields,
        type_ids: ScalarBuffer<i8>,
        offsets: Option<ScalarBuffer<i32>>,
        children: Vec<ArrayRef>,
    ) -> Self {
        assert!(offsets.is_none(), "dense unions are not stood in for");
        assert!(children.iter().all(|c| c.len() == type_ids.len()));
        Self { data_type: DataType::Union(fields, UnionMode::Sparse), type_ids, children }
    }
    pub fn type_ids(&self) -> &ScalarBuffer<i8> {
        &self.type_ids
    }
    pub fn child(&self, type_id: i8) -> &ArrayRef {
        match &self.data_type {
            DataType::Union(f, _) => &self.children[f.iter().position(|(i, _)| i == type_id).unwrap()],
            _ => unreachable!(),
        }
    }
    pub fn children(&self) -> &[ArrayRef] {
        &self.children
    }
}

impl Array for UnionArray {
    fn as_any(&self) -> &dyn Any {
        self
    }
    fn data_type(&self) -> &DataType {
        &self.data_type
    }
    fn len(&self) -> usize {
        self.type_ids.len()
    }
    fn nulls(&self) -> Option<&NullBuffer> {
        None
    }
    fn slice(&self, offset: usize, length: usize) -> ArrayRef {
        Arc::new(Self {
            data_type: self.data_type.clone(),
            type_ids: self.type_ids.slice(offset, length),
            children: self.children.iter().map(|c| c.slice(offset, length)).collect(),
        })
    }
    fn to_data(&self) -> ArrayData {
        let children = self.children.iter().map(|c| c.to_data()).collect();
        ArrayData::new(&self.data_type, self.len(), None, vec![self.type_ids.inner().clone()], children)
    }
}

fn no<T: ArrowNativeType>() -> ScalarBuffer<T> {
    Vec::new().into()
}

fn empty_primitive<T: ArrowPrimitiveType>(data_type: &DataType) -> PrimitiveArray<T> {
    PrimitiveArray::<T>::new(no(), None).with_data_type(data_type.clone())
}

fn empty_bytes<T: ByteArrayType>() -> ArrayRef {
    let zero = OffsetBuffer::new(vec![T::Offset::default()].into());
    Arc::new(unsafe { GenericByteArray::<T>::new_unchecked(zero, Vec::<u8>::new().into(), None) })
}

fn empty_views<T: ByteViewType>() -> ArrayRef {
    Arc::new(unsafe { GenericByteViewArray::<T>::new_unchecked(no(), Arc::new([]), None) })
}

fn empty_list_view<O: OffsetSizeTrait>(field: &FieldRef) -> ArrayRef {
    let values = new_empty_array(field.data_type());
    Arc::new(unsafe { GenericListViewArray::<O>::new_unchecked(field.clone(), no(), no(), values, None) })
}

fn empty_list<O: OffsetSizeTrait>(field: &FieldRef) -> ArrayRef {
    let zero = OffsetBuffer::new(vec![O::default()].into());
    Arc::new(GenericListArray::<O>::new(field.clone(), zero, new_empty_array(field.data_type()), None))
}

/// An array of no rows.
pub fn new_empty_array(data_type: &DataType) -> ArrayRef {
    crate::downcast_primitive! {
        data_type => (empty, data_type),
        DataType::Boolean => Arc::new(BooleanArray::from(BooleanBuffer::collect_bool(0, |_| false))),
        DataType::Binary => empty_bytes::<GenericBinaryType<i32>>(),
        DataType::LargeBinary => empty_bytes::<GenericBinaryType<i64>>(),
        DataType::Utf8 => empty_bytes::<GenericStringType<i32>>(),
        DataType::LargeUtf8 => empty_bytes::<GenericStringType<i64>>(),
        DataType::BinaryView => empty_views::<BinaryViewType>(),
        DataType::Utf8View => empty_views::<StringViewType>(),
        DataType::FixedSizeBinary(w) => {
            Arc::new(FixedSizeBinaryArray::try_new_with_len(*w, Vec::<u8>::new().into(), None, 0).unwrap())
        },
        DataType::ListView(f) => empty_list_view::<i32>(f),
        DataType::LargeListView(f) => empty_list_view::<i64>(f),
        DataType::List(f) => empty_list::<i32>(f),
        DataType::LargeList(f) => empty_list::<i64>(f),
        DataType::RunEndEncoded(ends, values) => {
            let values = new_empty_array(values.data_type());
            match ends.data_type() {
                DataType::Int16 => Arc::new(RunArray::<Int16Type>::from_parts(RunEndBuffer::new(no(), 0, 0), values)),
                DataType::Int32 => Arc::new(RunArray::<Int32Type>::from_parts(RunEndBuffer::new(no(), 0, 0), values)),
                DataType::Int64 => Arc::new(RunArray::<Int64Type>::from_parts(RunEndBuffer::new(no(), 0, 0), values)),
                t => unreachable!("run ends of {t:?}"),
            }
        },
        DataType::Dictionary(key, value) => {
            let values = new_empty_array(value);
            // SAFETY: no keys
            unsafe {
                match key.as_ref() {
                    DataType::UInt8 => Arc::new(DictionaryArray::new_unchecked(empty_primitive::<UInt8Type>(key), values)),
                    DataType::UInt16 => Arc::new(DictionaryArray::new_unchecked(empty_primitive::<UInt16Type>(key), values)),
                    DataType::UInt32 => Arc::new(DictionaryArray::new_unchecked(empty_primitive::<UInt32Type>(key), values)),
                    DataType::UInt64 => Arc::new(DictionaryArray::new_unchecked(empty_primitive::<UInt64Type>(key), values)),
                    t => unreachable!("keys of {t:?}"),
                }
            }
        },
        DataType::Struct(fields) => {
            let columns = fields.iter().map(|f| new_empty_array(f.data_type())).collect();
            Arc::new(unsafe { StructArray::new_unchecked_with_length(fields.clone(), columns, None, 0) })
        },
        DataType::Union(fields, _) => {
            let children = fields.iter().map(|(_, f)| new_empty_array(f.data_type())).collect();
            Arc::new(unsafe { UnionArray::new_unchecked(fields.clone(), no(), None, children) })
        },
    }
}

macro_rules! empty {
    ($t:ty, $data_type:ident) => {
        Arc::new(empty_primitive::<$t>($data_type)) as ArrayRef
    };
}
use empty;
