//! `as_*` views of a dynamic array; each panics on another type.
use crate::types::*;
use crate::{
    Array, ArrayRef, FixedSizeBinaryArray, GenericByteArray, GenericByteViewArray, GenericListArray, GenericListViewArray,
    StructArray, UnionArray,
};

pub trait AsArray {
    fn array_any(&self) -> &dyn std::any::Any;

    fn as_string<O: OffsetSizeTrait>(&self) -> &GenericByteArray<GenericStringType<O>> {
        self.array_any().downcast_ref().expect("string array")
    }
    fn as_binary<O: OffsetSizeTrait>(&self) -> &GenericByteArray<GenericBinaryType<O>> {
        self.array_any().downcast_ref().expect("binary array")
    }
    fn as_string_view(&self) -> &GenericByteViewArray<StringViewType> {
        self.array_any().downcast_ref().expect("string view array")
    }
    fn as_binary_view(&self) -> &GenericByteViewArray<BinaryViewType> {
        self.array_any().downcast_ref().expect("binary view array")
    }
    fn as_fixed_size_binary(&self) -> &FixedSizeBinaryArray {
        self.array_any().downcast_ref().expect("fixed size binary array")
    }
    fn as_list<O: OffsetSizeTrait>(&self) -> &GenericListArray<O> {
        self.array_any().downcast_ref().expect("list array")
    }
    fn as_list_view<O: OffsetSizeTrait>(&self) -> &GenericListViewArray<O> {
        self.array_any().downcast_ref().expect("list view array")
    }
    fn as_struct(&self) -> &StructArray {
        self.array_any().downcast_ref().expect("struct array")
    }
    fn as_union(&self) -> &UnionArray {
        self.array_any().downcast_ref().expect("union array")
    }
}

impl AsArray for dyn Array + '_ {
    fn array_any(&self) -> &dyn std::any::Any {
        self.as_any()
    }
}

impl AsArray for ArrayRef {
    fn array_any(&self) -> &dyn std::any::Any {
        self.as_any()
    }
}
