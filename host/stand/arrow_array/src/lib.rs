//! Stand-in for arrow-array: array containers with the methods that filter.rs calls.
mod arrays;
mod data;
mod macros;
mod nested;
pub mod types;

pub mod builder {
    pub use arrow_buffer::BooleanBufferBuilder;
}
pub mod cast;

pub use arrays::*;
pub use data::make_array;
pub use nested::*;
pub use types::*;

use arrow_buffer::NullBuffer;
use arrow_data::ArrayData;
use arrow_schema::{ArrowError, DataType, SchemaRef};
use std::any::Any;
use std::fmt::Debug;
use std::sync::Arc;

pub trait Array: Debug + Send + Sync {
    fn as_any(&self) -> &dyn Any;
    fn data_type(&self) -> &DataType;
    fn len(&self) -> usize;
    fn nulls(&self) -> Option<&NullBuffer>;
    fn slice(&self, offset: usize, length: usize) -> ArrayRef;
    fn is_empty(&self) -> bool {
        self.len() == 0
    }
    fn null_count(&self) -> usize {
        self.nulls().map_or(0, |n| n.null_count())
    }
    fn is_valid(&self, i: usize) -> bool {
        self.nulls().is_none_or(|n| n.is_valid(i))
    }
    /// The array taken apart, for the fallback.
    fn to_data(&self) -> ArrayData;
}

pub type ArrayRef = Arc<dyn Array>;

impl Array for ArrayRef {
    fn as_any(&self) -> &dyn Any {
        self.as_ref().as_any()
    }
    fn data_type(&self) -> &DataType {
        self.as_ref().data_type()
    }
    fn len(&self) -> usize {
        self.as_ref().len()
    }
    fn nulls(&self) -> Option<&NullBuffer> {
        self.as_ref().nulls()
    }
    fn slice(&self, offset: usize, length: usize) -> ArrayRef {
        self.as_ref().slice(offset, length)
    }
    fn to_data(&self) -> ArrayData {
        self.as_ref().to_data()
    }
}

/// Columns of one length.
#[derive(Debug, Clone)]
pub struct RecordBatch {
    schema: SchemaRef,
    columns: Vec<ArrayRef>,
    row_count: usize,
}

impl RecordBatch {
    /// # Safety
    /// Columns fit the schema and have `row_count` rows.
    pub unsafe fn new_unchecked(schema: SchemaRef, columns: Vec<ArrayRef>, row_count: usize) -> Self {
        Self { schema, columns, row_count }
    }
    pub fn schema(&self) -> SchemaRef {
        self.schema.clone()
    }
    pub fn schema_ref(&self) -> &SchemaRef {
        &self.schema
    }
    pub fn num_columns(&self) -> usize {
        self.columns.len()
    }
    pub fn num_rows(&self) -> usize {
        self.row_count
    }
    pub fn columns(&self) -> &[ArrayRef] {
        &self.columns
    }
}

pub(crate) fn check_nulls(nulls: &Option<NullBuffer>, len: usize) -> Result<(), ArrowError> {
    match nulls {
        Some(n) if n.len() != len => Err(ArrowError::InvalidArgumentError(format!("{} null marks for {len} rows", n.len()))),
        _ => Ok(()),
    }
}
