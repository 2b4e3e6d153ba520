//! From a column to a pack: where buffers stand, what lies between them, and what the rows passed over hold.
use super::{Column, Rng};
use crate::pack::*;

/// The field of a node that says where a buffer stands.
#[derive(Clone, Copy)]
enum Field {
    Validity,
    First,
    Second,
}

/// A pack that holds the column, laid out in any way: gaps, order, shared bytes, garbage wherever no row is.
pub fn lay(r: &mut Rng, column: &Column) -> Vec<u8> {
    let mut nodes = vec![];
    let mut buffers = vec![];
    add(r, column, &mut nodes, &mut buffers);
    if r.percent(30) {
        for i in (1..buffers.len()).rev() {
            buffers.swap(i, r.below(i + 1));
        }
    }
    let gaps = r.percent(50);
    let shared = r.percent(30);
    let mut body = vec![];
    for (node, field, bytes) in buffers {
        let at = match shared.then(|| find(&body, &bytes)).flatten() {
            Some(at) => at,
            None => {
                let gap = if gaps { r.below(9) } else { 0 };
                body.extend(r.bytes(gap));
                body.extend(&bytes);
                body.len() - bytes.len()
            }
        } as u32;
        let n: &mut Node = &mut nodes[node];
        match field {
            Field::Validity => n.validity = at,
            Field::First => n.first = at,
            Field::Second => n.second = at,
        }
    }
    if gaps {
        let tail = r.below(12);
        body.extend(r.bytes(tail));
    }
    finish_any(r, body, &nodes)
}

/// A pack with its null counts, or now and then with the old mark and none.
pub fn finish_any(r: &mut Rng, body: Vec<u8>, nodes: &[Node]) -> Vec<u8> {
    if r.percent(25) { finish_as(body, nodes, OLD_MARK) } else { finish(body, nodes) }
}

/// A place where the bytes stand already; only looked for in small bodies.
fn find(body: &[u8], bytes: &[u8]) -> Option<usize> {
    if bytes.is_empty() {
        return Some(0);
    }
    (body.len() < 2000).then(|| body.windows(bytes.len()).position(|w| w == bytes)).flatten()
}

/// Adds a column's nodes, parent first, and its buffers.
fn add(r: &mut Rng, c: &Column, nodes: &mut Vec<Node>, buffers: &mut Vec<(usize, Field, Vec<u8>)>) {
    let at = nodes.len();
    let mut n = Node { skip: c.skip as u32, ..Node::new(c.kind, c.param, c.rows, c.kids.len()) };
    let width = n.width();
    if c.bitmap {
        buffers.push((at, Field::Validity, bits(r, c.skip, &c.valid)));
    }
    // garbage for the rows passed over, then the rows
    let mut entries = |part: std::ops::Range<usize>| -> Vec<u8> {
        let mut bytes = r.bytes(c.skip * part.len());
        c.entries.iter().for_each(|e| bytes.extend(&e[part.clone()]));
        bytes
    };
    match c.kind {
        BITS => {
            let values: Vec<bool> = c.entries.iter().map(|e| e[0] == 1).collect();
            buffers.push((at, Field::First, bits(r, c.skip, &values)));
        }
        BYTES | LARGE_BYTES => {
            let (offsets, data) = offsets_and_data(r, c, width);
            n.second_length = data.len() as u32;
            buffers.extend([(at, Field::First, offsets), (at, Field::Second, data)]);
        }
        LIST | LARGE_LIST => {
            let mut offsets = r.bytes(c.skip * width);
            c.offsets.iter().for_each(|offset| offsets.extend(&offset.to_le_bytes()[..width]));
            buffers.push((at, Field::First, offsets));
        }
        LIST_VIEW | LARGE_LIST_VIEW => {
            let (offsets, sizes) = (entries(0..width), entries(width..2 * width));
            buffers.extend([(at, Field::First, offsets), (at, Field::Second, sizes)]);
        }
        RUNS => {
            let ends = c.ends.iter().flat_map(|e| e.to_le_bytes()[..width].to_vec()).collect();
            buffers.push((at, Field::First, ends));
        }
        STRUCT => {}
        _ => buffers.push((at, Field::First, entries(0..width))),
    }
    nodes.push(n);
    c.kids.iter().for_each(|kid| add(r, kid, nodes, buffers));
}

/// Bits from bit `skip` on, all others garbage.
pub(super) fn bits(r: &mut Rng, skip: usize, values: &[bool]) -> Vec<u8> {
    let mut bytes = r.bytes((skip + values.len()).div_ceil(8));
    for (i, value) in values.iter().enumerate() {
        let (byte, bit) = ((skip + i) / 8, 1 << ((skip + i) % 8));
        bytes[byte] = if *value { bytes[byte] | bit } else { bytes[byte] & !bit };
    }
    bytes
}

/// Offsets from any start on, and data with bytes that no row has at both ends.
fn offsets_and_data(r: &mut Rng, c: &Column, width: usize) -> (Vec<u8>, Vec<u8>) {
    let spare = |r: &mut Rng| if r.percent(50) { 0 } else { r.below(20) };
    let before = spare(r);
    let mut data = r.bytes(before);
    let mut offsets = r.bytes(c.skip * width);
    offsets.extend(&data.len().to_le_bytes()[..width]);
    for own in &c.entries {
        data.extend(own);
        offsets.extend(&data.len().to_le_bytes()[..width]);
    }
    let after = spare(r);
    data.extend(r.bytes(after));
    (offsets, data)
}

/// Moves buffers that may hold anything to any place in the body, over others. Data buffers stay: their views hold prefixes of them.
pub fn overlap(r: &mut Rng, pack: &mut Vec<u8>) {
    let read = Pack::read(pack).unwrap();
    let body = read.body.to_vec();
    let mut nodes = read.nodes.clone();
    let under_views = |i: usize| read.parents[i].is_some_and(|p| read.nodes[p].kind == VIEWS);
    for (i, n) in nodes.iter_mut().enumerate() {
        let bitmap = n.span().div_ceil(8);
        let first = if n.kind == BITS { bitmap } else { n.span() * n.param as usize };
        if matches!(n.kind, BITS | NATIVE | FIXED) && !under_views(i) && first <= body.len() && r.percent(50) {
            n.first = r.below(body.len() - first + 1) as u32;
        }
        // which keys are tested hangs on the bitmap
        if n.kind != DICTIONARY && n.validity != NO_BITMAP && r.percent(50) {
            n.validity = r.below(body.len() - bitmap + 1) as u32;
        }
    }
    // the null counts follow the bitmaps
    *pack = if read.counted { finish(body, &nodes) } else { finish_as(body, &nodes, OLD_MARK) };
}
