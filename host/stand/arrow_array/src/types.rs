//! The types of arrays, as type parameters.
use arrow_buffer::{ArrowNativeType, i256};
use arrow_schema::DataType;
use std::fmt::Debug;
use std::ops::AddAssign;

pub trait ArrowPrimitiveType: Debug + Send + Sync + 'static {
    type Native: ArrowNativeType;
    const DATA_TYPE: DataType;
    fn default_value() -> Self::Native {
        Default::default()
    }
}

macro_rules! primitives {
    ($($name:ident $native:ty, $data_type:expr;)*) => {$(
        #[derive(Debug)]
        pub struct $name;
        impl ArrowPrimitiveType for $name {
            type Native = $native;
            const DATA_TYPE: DataType = $data_type;
        }
    )*};
}
primitives! {
    Int8Type i8, DataType::Int8;
    Int16Type i16, DataType::Int16;
    Int32Type i32, DataType::Int32;
    Int64Type i64, DataType::Int64;
    UInt8Type u8, DataType::UInt8;
    UInt16Type u16, DataType::UInt16;
    UInt32Type u32, DataType::UInt32;
    UInt64Type u64, DataType::UInt64;
    Decimal128Type i128, DataType::Decimal128(38, 10);
    Decimal256Type i256, DataType::Decimal256(76, 10);
}

pub trait ArrowDictionaryKeyType: ArrowPrimitiveType {}
impl ArrowDictionaryKeyType for UInt8Type {}
impl ArrowDictionaryKeyType for UInt16Type {}
impl ArrowDictionaryKeyType for UInt32Type {}
impl ArrowDictionaryKeyType for UInt64Type {}

pub trait RunEndIndexType: ArrowPrimitiveType {}
impl RunEndIndexType for Int16Type {}
impl RunEndIndexType for Int32Type {}
impl RunEndIndexType for Int64Type {}

pub trait OffsetSizeTrait: ArrowNativeType + AddAssign {
    const IS_LARGE: bool;
}
impl OffsetSizeTrait for i32 {
    const IS_LARGE: bool = false;
}
impl OffsetSizeTrait for i64 {
    const IS_LARGE: bool = true;
}

pub trait ByteArrayType: Debug + Send + Sync + 'static {
    type Offset: OffsetSizeTrait;
    const DATA_TYPE: DataType;
}

macro_rules! byte_arrays {
    ($($name:ident $small:expr, $large:expr;)*) => {$(
        #[derive(Debug)]
        pub struct $name<O>(std::marker::PhantomData<O>);
        impl<O: OffsetSizeTrait> ByteArrayType for $name<O> {
            type Offset = O;
            const DATA_TYPE: DataType = if O::IS_LARGE { $large } else { $small };
        }
    )*};
}
byte_arrays! {
    GenericBinaryType DataType::Binary, DataType::LargeBinary;
    GenericStringType DataType::Utf8, DataType::LargeUtf8;
}

pub trait ByteViewType: Debug + Send + Sync + 'static {
    const DATA_TYPE: DataType;
}
#[derive(Debug)]
pub struct BinaryViewType;
impl ByteViewType for BinaryViewType {
    const DATA_TYPE: DataType = DataType::BinaryView;
}
#[derive(Debug)]
pub struct StringViewType;
impl ByteViewType for StringViewType {
    const DATA_TYPE: DataType = DataType::Utf8View;
}
