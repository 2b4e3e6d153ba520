//! Damaged copies: bytes, fields, entries and lengths changed.
use super::Rng;
use crate::pack::*;

/// A copy of an accepted pack with one to three changes; it may still be accepted.
pub fn damage(r: &mut Rng, pack: &[u8]) -> Vec<u8> {
    let mut pack = pack.to_vec();
    for _ in 0..r.pick(&[1, 1, 1, 2, 3]) {
        match r.below(18) {
            0 => return resize(r, pack),
            1 => {
                let at = r.below(pack.len());
                pack[at] = r.next() as u8;
            }
            2 => trailer(r, &mut pack),
            3..=5 => field(r, &mut pack),
            6..=8 => tree(r, &mut pack),
            9 | 10 => view(r, &mut pack),
            11 | 12 => count(r, &mut pack),
            _ => entry(r, &mut pack),
        }
    }
    pack
}

/// Cut off at either end, or longer at the end; the trailer sometimes follows.
fn resize(r: &mut Rng, mut pack: Vec<u8>) -> Vec<u8> {
    match r.below(4) {
        0 => pack.truncate(r.below(pack.len() + 1)),
        1 => drop(pack.drain(..r.below(pack.len() + 1))),
        2 => {
            // the body alone is shorter, and the table's start is right
            let Some((start, _)) = table(&pack) else { return pack };
            let cut = r.below(start + 1).min(r.pick(&[1, 4, start]));
            pack.drain(start - cut..start);
            let at = pack.len() - 16;
            pack[at..at + 4].copy_from_slice(&((start - cut) as u32).to_le_bytes());
        }
        _ => {
            let more = 1 + r.below(20);
            pack.extend(r.bytes(more));
        }
    }
    pack
}

/// A number next to the old one, or one that means something somewhere.
fn other(r: &mut Rng, old: u64) -> u64 {
    match r.below(8) {
        0 | 1 => old.wrapping_add(1),
        2 | 3 => old.wrapping_sub(1),
        // a kind, or one past the last
        4 => r.below(KINDS + 2) as u64,
        5 => r.pick(&[
            0,
            1,
            8,
            12,
            13,
            16,
            32,
            63,
            64,
            65,
            1024,
            1025,
            1_048_575,
            1_048_576,
            1_048_577,
            0x7FFF,
            0x8000,
            0x7FFF_FFFF,
            0x8000_0000,
            0xFFFF_FFFE,
            0xFFFF_FFFF,
            0x7FFF_FFFF_FFFF_FFFF,
            0x8000_0000_0000_0000,
            u64::MAX,
        ]),
        6 => r.next(),
        _ => old.wrapping_add(r.below(64) as u64),
    }
}

fn set(r: &mut Rng, pack: &mut [u8], at: usize, width: usize) {
    if at + width <= pack.len() {
        let new = other(r, number(pack, at, width));
        pack[at..at + width].copy_from_slice(&new.to_le_bytes()[..width]);
    }
}

fn trailer(r: &mut Rng, pack: &mut [u8]) {
    if pack.len() >= TRAILER_BYTES {
        let at = pack.len() - TRAILER_BYTES + 4 * r.below(4);
        set(r, pack, at, 4);
    }
}

/// Where the table stands and how many nodes it has, if that is readable.
fn table(pack: &[u8]) -> Option<(usize, usize)> {
    let read = Pack::read(pack)?;
    Some((read.body.len(), read.nodes.len()))
}

/// A field of a node; rows of the root may change in the trailer too.
fn field(r: &mut Rng, pack: &mut [u8]) {
    let Some((start, count)) = table(pack) else { return };
    let (node, field) = (r.below(count), r.below(10));
    set(r, pack, start + NODE_BYTES * node + 4 * field, 4);
    if field == 2 && r.percent(50) {
        let at = pack.len() - 8;
        pack.copy_within(start + 8..start + 12, at);
    }
}

/// The tree: a node more or less, children of views, or another root above the old one.
fn tree(r: &mut Rng, pack: &mut Vec<u8>) {
    let Some((_, count)) = table(pack) else { return };
    let read = Pack::read(pack).unwrap();
    let (body, mut nodes) = (read.body.to_vec(), read.nodes.clone());
    let at = r.below(count);
    match r.below(7) {
        0 => nodes.insert(at, nodes[at]),
        1 if count > 1 => drop(nodes.remove(at)),
        2 => {
            // still a tree, if it is not too deep
            let kind = r.pick(&[STRUCT, UNION]);
            nodes.insert(0, Node::new(kind, 0, nodes[0].rows as usize, 1));
        }
        6 => {
            // a list of no rows, whose one offset is tested all the same; among small numbers it may be right
            let first = r.below(body.len() + 1) as u32;
            nodes.insert(0, Node { first, ..Node::new(r.pick(&[LIST, LARGE_LIST]), 0, 0, 1) });
        }
        3 => {
            let open = matches!(nodes[at].kind, VIEWS | STRUCT | UNION);
            nodes[at].kids = if open { nodes[at].kids.wrapping_add(r.pick(&[1, u32::MAX, 62])) } else { nodes[at].kids ^ 1 };
        }
        4 => nodes[at].validity = r.pick(&[NO_BITMAP, 0, body.len() as u32]),
        _ => nodes[at].param = r.pick(&[0, 1, 2, 4, 8, 16, 32]),
    }
    if nodes.len() <= NODE_LIMIT + 1 {
        let mark = if read.counted { MARK } else { OLD_MARK };
        *pack = finish_as(body, &nodes, mark);
    }
}

/// A null count: next to the true one, that of other rows, that of the valid ones; or the other mark.
fn count(r: &mut Rng, pack: &mut [u8]) {
    let Some((start, nodes)) = table(pack) else { return };
    let i = r.below(nodes);
    let n = Pack::read(pack).unwrap().nodes[i];
    let last = pack.len() - 1;
    if r.percent(30) {
        pack[last] ^= MARK[3] ^ OLD_MARK[3];
        return;
    }
    // the rows passed over counted too, or the first ones in place of the last
    let bits = |rows: std::ops::Range<usize>| rows.filter(|row| !bit(pack, n.validity as usize, *row)).count() as u32;
    let marked = n.validity != NO_BITMAP && n.validity as usize + n.span().div_ceil(8) <= start;
    let new = match r.below(6) {
        0 => n.nulls.wrapping_add(1),
        1 => n.nulls.wrapping_sub(1),
        2 => n.rows.wrapping_sub(n.nulls),
        3 if marked => bits(0..n.span()),
        4 if marked => bits(0..n.rows as usize),
        _ => 0,
    };
    pack[start + NODE_BYTES * i + 36..][..4].copy_from_slice(&new.to_le_bytes());
}

/// A number in a node's first or second buffer: an offset, a size, a part of a view, a run end, an id or a key. It becomes one
/// near a bound that it must keep, or any other.
fn entry(r: &mut Rng, pack: &mut [u8]) {
    let Some((start, count)) = table(pack) else { return };
    let nodes = Pack::read(pack).unwrap().nodes;
    let i = r.below(count);
    let n = nodes[i];
    let child_rows = nodes.get(i + 1).map_or(0, |n| n.rows);
    let (width, rows) = match n.kind {
        VIEWS => (4, 4 * n.span()),
        RUNS => (n.width(), child_rows as usize),
        BYTES | LARGE_BYTES | LIST | LARGE_LIST => (n.width(), n.span() + 1),
        LIST_VIEW | LARGE_LIST_VIEW | UNION | DICTIONARY => (n.width(), n.span()),
        _ => return,
    };
    if rows == 0 || !(1..=8).contains(&width) {
        return;
    }
    let at = if r.percent(50) && matches!(n.kind, LIST_VIEW | LARGE_LIST_VIEW) { n.second } else { n.first } as usize;
    // the first row after skip and the last one are the likely faults
    let place = match r.below(4) {
        0 => n.skip as usize * if n.kind == VIEWS { 4 } else { 1 },
        1 => rows - 1,
        _ => r.below(rows),
    };
    let at = at + place * width;
    if at + width > start {
        return;
    }
    let bound = r.pick(&[n.span() as u32, child_rows, n.second_length, n.kids]);
    match r.below(2) {
        0 => set(r, pack, at, width),
        _ => {
            let new = (bound as u64).wrapping_add(r.pick(&[0, 1, u64::MAX]));
            pack[at..at + width].copy_from_slice(&new.to_le_bytes()[..width]);
        }
    }
}

/// A bit of a view, or of the data bytes about a long one's start.
fn view(r: &mut Rng, pack: &mut [u8]) {
    let Some(read) = Pack::read(pack) else { return };
    let views: Vec<usize> = (0..read.nodes.len()).filter(|i| read.nodes[*i].kind == VIEWS && read.nodes[*i].span() > 0).collect();
    if views.is_empty() {
        return;
    }
    let i = r.pick(&views);
    let body = read.body.len();
    let mut at = read.nodes[i].first as usize + 16 * r.below(read.nodes[i].span());
    if at + 16 > body {
        return;
    }
    let field = |k: usize| number(read.body, at + 4 * k, 4) as usize;
    let data = read.nodes.get(i + 1 + field(2));
    at = match data {
        Some(data) if field(0) > 12 && r.percent(50) => data.first as usize + data.skip as usize + field(3) + r.below(5),
        _ => at + r.below(16),
    };
    if at < body {
        pack[at] ^= 1 << r.below(8);
    }
}
