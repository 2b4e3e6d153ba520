//! What the slots of an array hold, as plain values.
use arrow_array::cast::AsArray;
use arrow_array::*;
use arrow_buffer::ArrowNativeType;
use arrow_schema::DataType;
use std::rc::Rc;

/// A slot; `None` is null.
pub type Slot = Option<Rc<Value>>;

#[derive(Debug, PartialEq)]
pub enum Value {
    Bit(bool),
    /// native (little-endian), fixed, bytes, views
    Bytes(Vec<u8>),
    List(Vec<Slot>),
    Struct(Vec<Slot>),
    Union(usize, Slot),
}

fn bytes<T: ArrowNativeType>(v: &T) -> Rc<Value> {
    let p = v as *const T as *const u8;
    // SAFETY: plain bytes
    Rc::new(Value::Bytes(unsafe { std::slice::from_raw_parts(p, size_of::<T>()) }.to_vec()))
}

/// What each row means: runs and dictionaries are looked through.
pub fn slots(a: &dyn Array) -> Vec<Slot> {
    let rows = |f: &dyn Fn(usize) -> Rc<Value>| -> Vec<Slot> { (0..a.len()).map(|i| a.is_valid(i).then(|| f(i))).collect() };
    macro_rules! primitive {
        ($t:ty, $a:ident) => {{
            let v = $a.as_any().downcast_ref::<PrimitiveArray<$t>>().unwrap().values();
            rows(&|i| bytes(&v[i]))
        }};
    }
    macro_rules! binary {
        ($o:ty) => {{
            let b = a.as_binary::<$o>();
            let o = b.value_offsets();
            rows(&|i| Rc::new(Value::Bytes(b.value_data()[o[i] as usize..o[i + 1] as usize].to_vec())))
        }};
    }
    macro_rules! list {
        ($o:ty) => {{
            let l = a.as_list::<$o>();
            let (o, v) = (l.value_offsets(), slots(l.values().as_ref()));
            rows(&|i| Rc::new(Value::List(v[o[i] as usize..o[i + 1] as usize].to_vec())))
        }};
    }
    macro_rules! list_view {
        ($o:ty) => {{
            let l = a.as_list_view::<$o>();
            let v = slots(l.values().as_ref());
            rows(&|i| {
                let (o, s) = (l.offsets()[i] as usize, l.sizes()[i] as usize);
                Rc::new(Value::List(v[o..o + s].to_vec()))
            })
        }};
    }
    arrow_array::downcast_primitive! {
        a.data_type() => (primitive, a),
        DataType::Boolean => {
            let b = a.as_any().downcast_ref::<BooleanArray>().unwrap().values();
            rows(&|i| Rc::new(Value::Bit(b.value(i))))
        },
        DataType::FixedSizeBinary(w) => {
            let (f, w) = (a.as_fixed_size_binary(), *w as usize);
            rows(&|i| Rc::new(Value::Bytes(f.values()[i * w..(i + 1) * w].to_vec())))
        },
        DataType::Binary => binary!(i32),
        DataType::LargeBinary => binary!(i64),
        DataType::BinaryView => {
            let v = a.as_binary_view();
            rows(&|i| {
                let b = v.views()[i].to_le_bytes();
                let word = |at: usize| u32::from_le_bytes(b[at..at + 4].try_into().unwrap()) as usize;
                let len = word(0);
                Rc::new(Value::Bytes(match len {
                    0..=12 => b[4..4 + len].to_vec(),
                    _ => v.data_buffers()[word(8)][word(12)..word(12) + len].to_vec(),
                }))
            })
        },
        DataType::List(_) => list!(i32),
        DataType::LargeList(_) => list!(i64),
        DataType::ListView(_) => list_view!(i32),
        DataType::LargeListView(_) => list_view!(i64),
        DataType::RunEndEncoded(_, _) => arrow_array::downcast_run_array! {
            a => {
                let v = slots(a.values().as_ref());
                (0..a.len()).map(|i| v[a.run_ends().get_physical_index(i)].clone()).collect()
            },
            t => unreachable!("{t:?}")
        },
        DataType::Dictionary(_, _) => arrow_array::downcast_dictionary_array! {
            a => {
                let v = slots(a.values().as_ref());
                (0..a.len())
                    .map(|i| a.is_valid(i).then(|| v[a.keys().values()[i].as_usize()].clone()).flatten())
                    .collect()
            },
            t => unreachable!("{t:?}")
        },
        DataType::Struct(_) => {
            let c: Vec<_> = a.as_struct().columns().iter().map(|c| slots(c.as_ref())).collect();
            rows(&|i| Rc::new(Value::Struct(c.iter().map(|c| c[i].clone()).collect())))
        },
        DataType::Union(_, _) => {
            let u = a.as_union();
            let c: Vec<_> = u.children().iter().map(|c| slots(c.as_ref())).collect();
            rows(&|i| {
                let id = u.type_ids()[i] as usize;
                Rc::new(Value::Union(id, c[id][i].clone()))
            })
        },
        t => unreachable!("{t:?}"),
    }
}
