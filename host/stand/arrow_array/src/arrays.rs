//! Arrays without children.
use crate::types::*;
use crate::{Array, ArrayRef, check_nulls};
use arrow_buffer::{BooleanBuffer, Buffer, NullBuffer, OffsetBuffer, ScalarBuffer};
use arrow_data::ArrayData;
use arrow_schema::{ArrowError, DataType};
use std::any::Any;
use std::marker::PhantomData;
use std::sync::Arc;

pub type Int8Array = PrimitiveArray<Int8Type>;
pub type BinaryArray = GenericByteArray<GenericBinaryType<i32>>;
pub type LargeBinaryArray = GenericByteArray<GenericBinaryType<i64>>;
pub type StringArray = GenericByteArray<GenericStringType<i32>>;
pub type BinaryViewArray = GenericByteViewArray<BinaryViewType>;

#[derive(Debug, Clone)]
pub struct BooleanArray {
    values: BooleanBuffer,
    nulls: Option<NullBuffer>,
}

impl BooleanArray {
    pub fn new(values: BooleanBuffer, nulls: Option<NullBuffer>) -> Self {
        check_nulls(&nulls, values.len()).unwrap();
        Self { values, nulls }
    }
    pub fn values(&self) -> &BooleanBuffer {
        &self.values
    }
    /// Slots that are true and not null.
    pub fn true_count(&self) -> usize {
        match &self.nulls {
            Some(n) if n.null_count() != 0 => (&self.values & n.inner()).count_set_bits(),
            _ => self.values.count_set_bits(),
        }
    }
}

impl From<BooleanBuffer> for BooleanArray {
    fn from(values: BooleanBuffer) -> Self {
        Self::new(values, None)
    }
}

impl Array for BooleanArray {
    fn as_any(&self) -> &dyn Any {
        self
    }
    fn data_type(&self) -> &DataType {
        &DataType::Boolean
    }
    fn len(&self) -> usize {
        self.values.len()
    }
    fn nulls(&self) -> Option<&NullBuffer> {
        self.nulls.as_ref()
    }
    fn slice(&self, offset: usize, length: usize) -> ArrayRef {
        Arc::new(Self { values: self.values.slice(offset, length), nulls: self.nulls.as_ref().map(|n| n.slice(offset, length)) })
    }
    fn to_data(&self) -> ArrayData {
        let bits = self.values.inner().clone();
        let offset = self.values.offset();
        ArrayData { offset, ..ArrayData::new(&DataType::Boolean, self.len(), self.nulls(), vec![bits], vec![]) }
    }
}

#[derive(Debug, Clone)]
pub struct PrimitiveArray<T: ArrowPrimitiveType> {
    data_type: DataType,
    values: ScalarBuffer<T::Native>,
    nulls: Option<NullBuffer>,
}

impl<T: ArrowPrimitiveType> PrimitiveArray<T> {
    pub fn new(values: ScalarBuffer<T::Native>, nulls: Option<NullBuffer>) -> Self {
        Self::try_new(values, nulls).unwrap()
    }
    pub fn try_new(values: ScalarBuffer<T::Native>, nulls: Option<NullBuffer>) -> Result<Self, ArrowError> {
        check_nulls(&nulls, values.len())?;
        Ok(Self { data_type: T::DATA_TYPE, values, nulls })
    }
    pub fn with_data_type(self, data_type: DataType) -> Self {
        Self { data_type, ..self }
    }
    #[inline]
    pub fn values(&self) -> &ScalarBuffer<T::Native> {
        &self.values
    }
    pub fn into_parts(self) -> (DataType, ScalarBuffer<T::Native>, Option<NullBuffer>) {
        (self.data_type, self.values, self.nulls)
    }
    pub(crate) fn sliced(&self, offset: usize, length: usize) -> Self {
        Self {
            data_type: self.data_type.clone(),
            values: self.values.slice(offset, length),
            nulls: self.nulls.as_ref().map(|n| n.slice(offset, length)),
        }
    }
}

impl<T: ArrowPrimitiveType> Array for PrimitiveArray<T> {
    fn as_any(&self) -> &dyn Any {
        self
    }
    fn data_type(&self) -> &DataType {
        &self.data_type
    }
    fn len(&self) -> usize {
        self.values.len()
    }
    fn nulls(&self) -> Option<&NullBuffer> {
        self.nulls.as_ref()
    }
    fn slice(&self, offset: usize, length: usize) -> ArrayRef {
        Arc::new(self.sliced(offset, length))
    }
    fn to_data(&self) -> ArrayData {
        ArrayData::new(&self.data_type, self.len(), self.nulls(), vec![self.values.inner().clone()], vec![])
    }
}

#[derive(Debug, Clone)]
pub struct GenericByteArray<T: ByteArrayType> {
    data_type: DataType,
    offsets: OffsetBuffer<T::Offset>,
    data: Buffer,
    nulls: Option<NullBuffer>,
}

impl<T: ByteArrayType> GenericByteArray<T> {
    /// # Safety
    /// Offsets lie within the data; strings are UTF-8.
    pub unsafe fn new_unchecked(offsets: OffsetBuffer<T::Offset>, data: Buffer, nulls: Option<NullBuffer>) -> Self {
        check_nulls(&nulls, offsets.len() - 1).unwrap();
        Self { data_type: T::DATA_TYPE, offsets, data, nulls }
    }
    #[inline]
    pub fn value_offsets(&self) -> &[T::Offset] {
        &self.offsets
    }
    #[inline]
    pub fn value_data(&self) -> &[u8] {
        &self.data
    }
}

impl<T: ByteArrayType> Array for GenericByteArray<T> {
    fn as_any(&self) -> &dyn Any {
        self
    }
    fn data_type(&self) -> &DataType {
        &self.data_type
    }
    fn len(&self) -> usize {
        self.offsets.len() - 1
    }
    fn nulls(&self) -> Option<&NullBuffer> {
        self.nulls.as_ref()
    }
    fn slice(&self, offset: usize, length: usize) -> ArrayRef {
        Arc::new(Self {
            data_type: T::DATA_TYPE,
            offsets: self.offsets.slice(offset, length),
            data: self.data.clone(),
            nulls: self.nulls.as_ref().map(|n| n.slice(offset, length)),
        })
    }
    fn to_data(&self) -> ArrayData {
        let buffers = vec![self.offsets.inner().inner().clone(), self.data.clone()];
        ArrayData::new(&self.data_type, self.len(), self.nulls(), buffers, vec![])
    }
}

#[derive(Debug, Clone)]
pub struct GenericByteViewArray<T: ByteViewType> {
    data_type: DataType,
    views: ScalarBuffer<u128>,
    buffers: Arc<[Buffer]>,
    nulls: Option<NullBuffer>,
    phantom: PhantomData<T>,
}

impl<T: ByteViewType> GenericByteViewArray<T> {
    /// # Safety
    /// Long views point into the buffers.
    pub unsafe fn new_unchecked(views: ScalarBuffer<u128>, buffers: Arc<[Buffer]>, nulls: Option<NullBuffer>) -> Self {
        check_nulls(&nulls, views.len()).unwrap();
        Self { data_type: T::DATA_TYPE, views, buffers, nulls, phantom: PhantomData }
    }
    pub fn views(&self) -> &ScalarBuffer<u128> {
        &self.views
    }
    pub fn data_buffers(&self) -> &Arc<[Buffer]> {
        &self.buffers
    }
}

impl<T: ByteViewType> Array for GenericByteViewArray<T> {
    fn as_any(&self) -> &dyn Any {
        self
    }
    fn data_type(&self) -> &DataType {
        &self.data_type
    }
    fn len(&self) -> usize {
        self.views.len()
    }
    fn nulls(&self) -> Option<&NullBuffer> {
        self.nulls.as_ref()
    }
    fn slice(&self, offset: usize, length: usize) -> ArrayRef {
        Arc::new(Self {
            data_type: T::DATA_TYPE,
            views: self.views.slice(offset, length),
            buffers: self.buffers.clone(),
            nulls: self.nulls.as_ref().map(|n| n.slice(offset, length)),
            phantom: PhantomData,
        })
    }
    fn to_data(&self) -> ArrayData {
        let buffers = std::iter::once(self.views.inner()).chain(self.buffers.iter()).cloned().collect();
        ArrayData::new(&self.data_type, self.len(), self.nulls(), buffers, vec![])
    }
}

#[derive(Debug, Clone)]
pub struct FixedSizeBinaryArray {
    data_type: DataType,
    value_length: i32,
    data: Buffer,
    nulls: Option<NullBuffer>,
    len: usize,
}

impl FixedSizeBinaryArray {
    pub fn try_new_with_len(value_length: i32, data: Buffer, nulls: Option<NullBuffer>, len: usize) -> Result<Self, ArrowError> {
        check_nulls(&nulls, len)?;
        if data.len() != value_length as usize * len {
            return Err(ArrowError::InvalidArgumentError("fixed size data length".into()));
        }
        Ok(Self { data_type: DataType::FixedSizeBinary(value_length), value_length, data, nulls, len })
    }
    pub fn values(&self) -> &Buffer {
        &self.data
    }
    pub fn value_length(&self) -> i32 {
        self.value_length
    }
}

impl Array for FixedSizeBinaryArray {
    fn as_any(&self) -> &dyn Any {
        self
    }
    fn data_type(&self) -> &DataType {
        &self.data_type
    }
    fn len(&self) -> usize {
        self.len
    }
    fn nulls(&self) -> Option<&NullBuffer> {
        self.nulls.as_ref()
    }
    fn slice(&self, offset: usize, length: usize) -> ArrayRef {
        assert!(offset + length <= self.len);
        let w = self.value_length as usize;
        Arc::new(Self {
            data: self.data.slice_with_length(offset * w, length * w),
            nulls: self.nulls.as_ref().map(|n| n.slice(offset, length)),
            len: length,
            ..self.clone()
        })
    }
    fn to_data(&self) -> ArrayData {
        ArrayData::new(&self.data_type, self.len, self.nulls(), vec![self.data.clone()], vec![])
    }
}
