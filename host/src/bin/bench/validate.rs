//! What a Rust program does before it may build arrays from bytes that came from elsewhere: the content rules of arrow-data's
//! `validate_full`, as plain loops over the buffers. Offsets, views, list views, run ends, ids, keys; nulls are counted. Bytes are not
//! UTF-8 here: the format has no such rule.
use host::pack::*;

/// How the tests of a loop are joined.
pub trait Way {
    fn all(tests: impl Iterator<Item = bool>) -> bool;
}

/// The first fault ends the loop: arrow-data's way.
pub struct Early;

/// Every test is made, and one flag kept: such a loop may go by vectors.
pub struct Folded;

impl Way for Early {
    fn all(mut tests: impl Iterator<Item = bool>) -> bool {
        tests.all(|test| test)
    }
}

impl Way for Folded {
    fn all(tests: impl Iterator<Item = bool>) -> bool {
        tests.fold(true, |all, test| all & test)
    }
}

/// How a view is held to its data buffers: its range, its prefix, and zeros where a short one has no bytes.
pub trait Form {
    fn fits(view: &[u8; 16], buffers: &[&[u8]]) -> bool;
}

/// Field by field, byte by byte.
pub struct Fields;

/// As one number of 128 bits: arrow-data's form.
pub struct Wide;

impl Form for Fields {
    fn fits(view: &[u8; 16], buffers: &[&[u8]]) -> bool {
        let field = |k: usize| i32::from_le_bytes([view[4 * k], view[4 * k + 1], view[4 * k + 2], view[4 * k + 3]]);
        let (length, buffer, offset) = (field(0), field(2) as usize, field(3) as usize);
        match length {
            ..0 => false,
            0..=12 => view[4 + length as usize..].iter().all(|byte| *byte == 0),
            _ => {
                let data = buffers.get(buffer).and_then(|data| data.get(offset..)?.get(..length as usize));
                data.is_some_and(|data| data[..4] == view[4..8])
            }
        }
    }
}

impl Form for Wide {
    fn fits(view: &[u8; 16], buffers: &[&[u8]]) -> bool {
        let view = u128::from_le_bytes(*view);
        // read unsigned, a negative length is past the end of any buffer
        let length = view as u32;
        if length <= 12 {
            return length == 12 || view >> (32 + 8 * length) == 0;
        }
        let (prefix, buffer, offset) = ((view >> 32) as u32, (view >> 64) as u32 as usize, (view >> 96) as u32 as usize);
        let data = buffers.get(buffer).and_then(|data| data.get(offset..offset + length as usize));
        data.is_some_and(|data| data.starts_with(&prefix.to_le_bytes()))
    }
}

/// All ways and forms: the fastest is what the port is held to.
pub const VALIDATIONS: [fn(&Pack) -> bool; 4] =
    [validate::<Early, Fields>, validate::<Early, Wide>, validate::<Folded, Fields>, validate::<Folded, Wide>];

/// All nodes of an accepted pack whose entries have the widths that the benchmark uses.
fn validate<W: Way, F: Form>(pack: &Pack) -> bool {
    (0..pack.nodes.len()).all(|i| nulls_counted(pack, i) && node::<W, F>(pack, i))
}

fn node<W: Way, F: Form>(pack: &Pack, i: usize) -> bool {
    let n = &pack.nodes[i];
    let rows = n.rows as usize;
    match (n.kind, n.param) {
        (BITS | NATIVE | FIXED | STRUCT, _) => true,
        (BYTES | LIST, _) => {
            let end = if n.kind == LIST { pack.nodes[i + 1].rows } else { n.second_length };
            let offsets = fours(pack, n.first, rows + 1);
            let rising = W::all(offsets[..rows].iter().zip(&offsets[1..]).map(|(a, b)| signed(a) <= signed(b)));
            rising & (signed(&offsets[0]) >= 0) & (signed(&offsets[rows]) <= end as i32)
        }
        (VIEWS, _) => {
            let data = |kid: &usize| &pack.body[pack.nodes[*kid].first as usize..][..pack.nodes[*kid].rows as usize];
            let buffers: Vec<&[u8]> = pack.children(i).iter().map(data).collect();
            W::all(pack.body[n.first as usize..][..16 * rows].as_chunks().0.iter().map(|view| F::fits(view, &buffers)))
        }
        (LIST_VIEW, _) => {
            let child = pack.nodes[i + 1].rows as i64;
            let (offsets, sizes) = (fours(pack, n.first, rows), fours(pack, n.second, rows));
            W::all(offsets.iter().zip(sizes).map(|(offset, size)| {
                let (offset, size) = (signed(offset), signed(size));
                (offset >= 0) & (size >= 0) & (offset as i64 + size as i64 <= child)
            }))
        }
        (RUNS, 4) => {
            let ends = fours(pack, n.first, pack.nodes[i + 1].rows as usize);
            let rising = W::all(ends.iter().zip(&ends[1..]).map(|(a, b)| signed(a) < signed(b)));
            rising & (signed(&ends[0]) > 0) & (signed(&ends[ends.len() - 1]) >= rows as i32)
        }
        (UNION, _) => {
            let kids = n.kids as u8;
            W::all(pack.body[n.first as usize..][..rows].iter().map(|id| *id < kids))
        }
        (DICTIONARY, 4) => {
            let values = pack.nodes[i + 1].rows;
            W::all(fours(pack, n.first, rows).iter().map(|key| u32::from_le_bytes(*key) < values))
        }
        other => unreachable!("kind and param {other:?}"),
    }
}

/// The nulls, held to the count that came with them, as arrow-data does.
fn nulls_counted(pack: &Pack, i: usize) -> bool {
    let n = &pack.nodes[i];
    if n.validity == NO_BITMAP {
        return n.nulls == 0;
    }
    let (words, rest) = pack.body[n.validity as usize..][..n.span().div_ceil(8)].as_chunks::<8>();
    let ones = |sum: u32, bits: u64| sum + bits.count_ones();
    let count = words.iter().map(|word| u64::from_le_bytes(*word)).chain(rest.iter().map(|byte| *byte as u64)).fold(0, ones);
    // no bit is spare here
    n.rows - count == n.nulls
}

/// `count` entries of four bytes.
fn fours<'a>(pack: &Pack<'a>, at: u32, count: usize) -> &'a [[u8; 4]] {
    pack.body[at as usize..][..4 * count].as_chunks().0
}

fn signed(bytes: &[u8; 4]) -> i32 {
    i32::from_le_bytes(*bytes)
}
