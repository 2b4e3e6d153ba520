//! `MutableArrayData`: ranges of an array's rows, copied one after the other.
//!
//! Arrow documents it by rows: `extend(index, start, end)` appends the rows `start..end` of array `index`. What that leaves open is
//! here: child rows of null lists are copied too; offsets start at 0; the children of views, list views and dictionaries are shared
//! with the source; neighbours that came from one run make one run.
use crate::ArrayData;
use arrow_buffer::{ArrowNativeType, BooleanBuffer, BooleanBufferBuilder, Buffer, MutableBuffer, NullBuffer, ScalarBuffer};
use arrow_schema::{ArrowError, DataType};
use std::ops::{Add, Range, Sub};

/// The copy of one source, which is how filter.rs uses it.
pub struct MutableArrayData<'a> {
    source: &'a ArrayData,
    rows: usize,
    /// null marks, if the source has a null
    nulls: Option<BooleanBufferBuilder>,
    copied: Copied<'a>,
}

/// What grows with each range.
enum Copied<'a> {
    Bits(BooleanBufferBuilder),
    /// buffers with an entry for each row, each with its width, and children with a row for each row; other buffers and other
    /// children are shared with the source
    Entries(Vec<(usize, MutableBuffer)>, Vec<MutableArrayData<'a>>),
    Bytes(Offsets, MutableBuffer),
    List(Offsets, Box<MutableArrayData<'a>>),
    Runs(Runs<'a>),
}

impl<'a> MutableArrayData<'a> {
    /// `use_nulls` asks for null marks where no source has a null, which filter.rs does not; `capacity` rows are expected.
    pub fn new(arrays: Vec<&'a ArrayData>, use_nulls: bool, capacity: usize) -> Self {
        assert!(arrays.len() == 1 && !use_nulls, "only one source, and nulls as it has them, are stood in for");
        let source = arrays[0];
        let below = |child: &'a ArrayData, capacity: usize| Self::new(vec![child], false, capacity);
        let copied = match &source.data_type {
            DataType::Boolean => Copied::Bits(BooleanBufferBuilder::new(capacity)),
            DataType::Binary | DataType::LargeBinary | DataType::Utf8 | DataType::LargeUtf8 => {
                Copied::Bytes(Offsets::new(source, capacity), MutableBuffer::with_capacity(0))
            }
            DataType::List(_) | DataType::LargeList(_) => {
                Copied::List(Offsets::new(source, capacity), below(&source.child_data[0], 0).into())
            }
            DataType::RunEndEncoded(_, _) => Copied::Runs(Runs::new(source, below(&source.child_data[1], 0))),
            data_type => {
                let buffer = |width: usize| (width, MutableBuffer::with_capacity(width * capacity));
                let by_row = matches!(data_type, DataType::Struct(_) | DataType::Union(_, _));
                let kids = source.child_data.iter().filter(|_| by_row).map(|child| below(child, capacity));
                Copied::Entries(widths(data_type).into_iter().map(buffer).collect(), kids.collect())
            }
        };
        let nulls = source.nulls.as_ref().filter(|nulls| nulls.null_count() != 0);
        Self { source, rows: 0, nulls: nulls.map(|_| BooleanBufferBuilder::new(capacity)), copied }
    }

    /// Appends the rows `start..end` of the source, whose index is 0.
    pub fn try_extend(&mut self, index: usize, start: usize, end: usize) -> Result<(), ArrowError> {
        let source = self.source;
        assert!(index == 0 && start <= end && end <= source.len);
        if let (Some(marks), Some(nulls)) = (&mut self.nulls, &source.nulls) {
            let bits = nulls.inner();
            marks.append_packed_range(bits.offset() + start..bits.offset() + end, bits.values());
        }
        match &mut self.copied {
            Copied::Bits(bits) => bits.append_packed_range(source.offset + start..source.offset + end, &source.buffers[0]),
            Copied::Entries(buffers, kids) => {
                for ((width, copy), buffer) in buffers.iter_mut().zip(&source.buffers) {
                    copy.extend_from_slice(&buffer[start * *width..end * *width]);
                }
                kids.iter_mut().try_for_each(|kid| kid.try_extend(0, start, end))?;
            }
            Copied::Bytes(offsets, data) => data.extend_from_slice(&source.buffers[1][offsets.extend(start, end)?]),
            Copied::List(offsets, child) => {
                let own = offsets.extend(start, end)?;
                child.try_extend(0, own.start, own.end)?;
            }
            Copied::Runs(runs) => runs.extend(source.offset + start, source.offset + end)?,
        }
        self.rows += end - start;
        Ok(())
    }

    /// The copy.
    pub fn freeze(self) -> ArrayData {
        let (source, rows) = (self.source, self.rows);
        let nulls = self.nulls.map(|marks| NullBuffer::new(BooleanBuffer::new(marks.into(), 0, rows)));
        let (buffers, child_data) = match self.copied {
            Copied::Bits(bits) => (vec![bits.into()], vec![]),
            Copied::Entries(copies, kids) => {
                let shared = source.buffers[copies.len()..].iter().cloned();
                let buffers = copies.into_iter().map(|(_, copy)| copy.into()).chain(shared).collect();
                let kids: Vec<ArrayData> = kids.into_iter().map(Self::freeze).collect();
                (buffers, if kids.is_empty() { source.child_data.clone() } else { kids })
            }
            Copied::Bytes(offsets, data) => (vec![offsets.into(), data.into()], vec![]),
            Copied::List(offsets, child) => (vec![offsets.into()], vec![child.freeze()]),
            Copied::Runs(runs) => (vec![], runs.freeze(&source.child_data[0].data_type)),
        };
        ArrayData::new(&source.data_type, rows, nulls.filter(|nulls| nulls.null_count() != 0).as_ref(), buffers, child_data)
    }
}

/// Bytes of an entry, in each buffer that has an entry for each row.
fn widths(data_type: &DataType) -> Vec<usize> {
    match data_type {
        DataType::Int8 | DataType::UInt8 => vec![1],
        DataType::Int16 | DataType::UInt16 => vec![2],
        DataType::Int32 | DataType::UInt32 => vec![4],
        DataType::Int64 | DataType::UInt64 => vec![8],
        DataType::Decimal128(_, _) => vec![16],
        DataType::Decimal256(_, _) => vec![32],
        DataType::FixedSizeBinary(width) => vec![*width as usize],
        DataType::BinaryView | DataType::Utf8View => vec![16],
        // offsets and sizes
        DataType::ListView(_) => vec![4, 4],
        DataType::LargeListView(_) => vec![8, 8],
        DataType::Dictionary(key, _) => widths(key),
        DataType::Union(_, _) => vec![1],
        DataType::Struct(_) => vec![],
        other => unreachable!("{other:?} has no entries"),
    }
}

/// Offsets rebuilt from 0 on.
enum Offsets {
    Small(Rebuilt<i32>),
    Large(Rebuilt<i64>),
}

impl Offsets {
    fn new(source: &ArrayData, capacity: usize) -> Self {
        match source.data_type {
            DataType::LargeBinary | DataType::LargeUtf8 | DataType::LargeList(_) => Self::Large(Rebuilt::new(source, capacity)),
            _ => Self::Small(Rebuilt::new(source, capacity)),
        }
    }
    /// Appends the rows, and gives where their bytes or child rows stand in the source.
    fn extend(&mut self, start: usize, end: usize) -> Result<Range<usize>, ArrowError> {
        match self {
            Self::Small(offsets) => offsets.extend(start, end),
            Self::Large(offsets) => offsets.extend(start, end),
        }
    }
}

impl From<Offsets> for Buffer {
    fn from(offsets: Offsets) -> Self {
        match offsets {
            Offsets::Small(offsets) => offsets.built.into(),
            Offsets::Large(offsets) => offsets.built.into(),
        }
    }
}

struct Rebuilt<O> {
    source: ScalarBuffer<O>,
    built: Vec<O>,
}

impl<O: ArrowNativeType + Add<Output = O> + Sub<Output = O>> Rebuilt<O> {
    fn new(source: &ArrayData, capacity: usize) -> Self {
        let mut built = Vec::with_capacity(capacity + 1);
        built.push(O::default());
        Self { source: ScalarBuffer::new(source.buffers[0].clone(), 0, source.len + 1), built }
    }

    fn extend(&mut self, start: usize, end: usize) -> Result<Range<usize>, ArrowError> {
        let offsets = &self.source[start..=end];
        let (first, last, base) = (offsets[0], offsets[end - start], self.built[self.built.len() - 1]);
        let own = first.as_usize()..last.as_usize();
        if O::from_usize(base.as_usize() + own.len()).is_none() {
            return Err(ArrowError::InvalidArgumentError("an offset is too large for its width".into()));
        }
        self.built.extend(offsets[1..].iter().map(|offset| *offset - first + base));
        Ok(own)
    }
}

/// Run ends rebuilt, and the values of the runs that have a row.
struct Runs<'a> {
    source: Vec<usize>,
    ends: Vec<usize>,
    /// the source's run that the last row came from
    last: Option<usize>,
    values: Box<MutableArrayData<'a>>,
}

impl<'a> Runs<'a> {
    fn new(source: &ArrayData, values: MutableArrayData<'a>) -> Self {
        let ends = &source.child_data[0];
        let source = match ends.data_type {
            DataType::Int16 => numbers::<i16>(ends),
            DataType::Int32 => numbers::<i32>(ends),
            _ => numbers::<i64>(ends),
        };
        Self { source, ends: vec![], last: None, values: values.into() }
    }

    /// Appends rows, those passed over counted.
    fn extend(&mut self, start: usize, end: usize) -> Result<(), ArrowError> {
        let mut at = start;
        let mut run = self.source.partition_point(|run_end| *run_end <= start);
        while at < end {
            let stop = self.source[run].min(end);
            let before = self.ends.last().copied().unwrap_or(0);
            if self.last == Some(run) {
                self.ends.pop();
            } else {
                self.values.try_extend(0, run, run + 1)?;
            }
            self.ends.push(before + stop - at);
            self.last = Some(run);
            (at, run) = (stop, run + 1);
        }
        Ok(())
    }

    /// Run ends of this type, and values.
    fn freeze(self, data_type: &DataType) -> Vec<ArrayData> {
        let buffer = match data_type {
            DataType::Int16 => typed::<i16>(&self.ends),
            DataType::Int32 => typed::<i32>(&self.ends),
            _ => typed::<i64>(&self.ends),
        };
        vec![ArrayData::new(data_type, self.ends.len(), None, vec![buffer], vec![]), self.values.freeze()]
    }
}

fn numbers<T: ArrowNativeType>(data: &ArrayData) -> Vec<usize> {
    ScalarBuffer::<T>::new(data.buffers[0].clone(), 0, data.len).iter().map(|number| number.as_usize()).collect()
}

/// No end is greater than the source's last, which has this type.
fn typed<T: ArrowNativeType>(ends: &[usize]) -> Buffer {
    ends.iter().map(|end| T::from_usize(*end).unwrap()).collect::<Vec<T>>().into()
}
