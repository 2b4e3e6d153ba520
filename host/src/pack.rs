//! The bytes of a pack: trailer, nodes, and the tree that the nodes form. Nothing here judges content.

/// A pack has at most so many bytes.
pub const PACK_LIMIT: usize = 16_777_216;
/// Skip + rows of a node is at most this.
pub const ROW_LIMIT: u64 = 1_048_576;
/// A pack has at most so many nodes.
pub const NODE_LIMIT: usize = 64;
/// The root's depth is 1.
pub const DEPTH_LIMIT: usize = 8;
pub const NODE_BYTES: usize = 40;
pub const TRAILER_BYTES: usize = 16;
/// The last four bytes of a pack whose nodes carry their null counts, and of every pack that is written.
pub const MARK: [u8; 4] = [0x43, 0x4F, 0x4C, 0x51];
/// Those of a pack whose nodes do not.
pub const OLD_MARK: [u8; 4] = [0x43, 0x4F, 0x4C, 0x50];
/// The validity field of a node with no bitmap.
pub const NO_BITMAP: u32 = 0xFFFF_FFFF;

pub const BITS: u32 = 1;
pub const NATIVE: u32 = 2;
pub const FIXED: u32 = 3;
pub const BYTES: u32 = 4;
pub const LARGE_BYTES: u32 = 5;
pub const VIEWS: u32 = 6;
pub const LIST_VIEW: u32 = 7;
pub const LARGE_LIST_VIEW: u32 = 8;
pub const RUNS: u32 = 9;
pub const STRUCT: u32 = 10;
pub const UNION: u32 = 11;
pub const DICTIONARY: u32 = 12;
pub const LIST: u32 = 13;
pub const LARGE_LIST: u32 = 14;
/// Kinds are numbered from 1 to this.
pub const KINDS: usize = 14;

/// The ten fields of a node.
#[derive(Debug, Clone, Copy, PartialEq)]
pub struct Node {
    pub kind: u32,
    pub param: u32,
    pub rows: u32,
    pub skip: u32,
    pub kids: u32,
    pub validity: u32,
    pub first: u32,
    pub second: u32,
    pub second_length: u32,
    /// the null count, where the pack carries it
    pub nulls: u32,
}

impl Node {
    /// A node with no bitmap, no skip, no null count, and no buffer placed.
    pub fn new(kind: u32, param: u32, rows: usize, kids: usize) -> Self {
        let (rows, kids) = (rows as u32, kids as u32);
        Self { kind, param, rows, skip: 0, kids, validity: NO_BITMAP, first: 0, second: 0, second_length: 0, nulls: 0 }
    }
    pub fn from_fields(f: [u32; 10]) -> Self {
        let [kind, param, rows, skip, kids, validity, first, second, second_length, nulls] = f;
        Self { kind, param, rows, skip, kids, validity, first, second, second_length, nulls }
    }
    pub fn fields(&self) -> [u32; 10] {
        [
            self.kind, self.param, self.rows, self.skip, self.kids, self.validity, self.first, self.second, self.second_length,
            self.nulls,
        ]
    }
    /// Rows in the node's own buffers, those passed over included.
    pub fn span(&self) -> usize {
        self.skip as usize + self.rows as usize
    }
    /// Bytes of an entry: value, offset, size, view, run end, id or key.
    pub fn width(&self) -> usize {
        match self.kind {
            BYTES | LIST_VIEW | LIST => 4,
            LARGE_BYTES | LARGE_LIST_VIEW | LARGE_LIST => 8,
            VIEWS => 16,
            UNION => 1,
            _ => self.param as usize,
        }
    }
    /// The row, counted after skip, is valid by the node's bitmap in this body.
    fn valid(&self, body: &[u8], row: usize) -> bool {
        self.validity == NO_BITMAP || bit(body, self.validity as usize, self.skip as usize + row)
    }
    /// How many rows are null.
    fn null_count(&self, body: &[u8]) -> usize {
        (0..self.rows as usize).filter(|row| !self.valid(body, *row)).count()
    }
    /// The child goes along with all its rows.
    pub fn carries(&self) -> bool {
        matches!(self.kind, VIEWS | LIST_VIEW | LARGE_LIST_VIEW | DICTIONARY)
    }
    /// Rows are ranges of the child's rows, one after the other.
    pub fn is_list(&self) -> bool {
        matches!(self.kind, LIST | LARGE_LIST)
    }
}

/// A pack taken apart.
#[derive(Debug, Clone)]
pub struct Pack<'a> {
    pub body: &'a [u8],
    pub nodes: Vec<Node>,
    /// by its mark the nodes carry their null counts
    pub counted: bool,
    /// rows as the trailer says
    pub root_rows: u32,
    /// each node's parent; empty if the nodes form no tree
    pub parents: Vec<Option<usize>>,
}

impl<'a> Pack<'a> {
    /// Takes apart a pack of at least 16 bytes; `None` if the node count or the table's place is wrong.
    pub fn read(bytes: &'a [u8]) -> Option<Self> {
        let trailer = bytes.len() - TRAILER_BYTES;
        let start = number(bytes, trailer, 4);
        let count = number(bytes, trailer + 4, 4);
        if count < 1 || count > NODE_LIMIT as u64 || start + NODE_BYTES as u64 * count != trailer as u64 {
            return None;
        }
        let start = start as usize;
        let nodes: Vec<Node> = (0..count as usize)
            .map(|i| Node::from_fields(std::array::from_fn(|f| number(bytes, start + NODE_BYTES * i + 4 * f, 4) as u32)))
            .collect();
        let parents = parents(&nodes).unwrap_or_default();
        let root_rows = number(bytes, trailer + 8, 4) as u32;
        Some(Self { body: &bytes[..start], nodes, counted: bytes.ends_with(&MARK), root_rows, parents })
    }

    /// The node's children, in order.
    pub fn children(&self, node: usize) -> Vec<usize> {
        (node + 1..self.nodes.len()).filter(|&i| self.parents[i] == Some(node)).collect()
    }

    /// Entry `place` of the node's first buffer, unsigned; `place` counts rows passed over.
    pub fn first(&self, node: usize, place: usize) -> u64 {
        let n = &self.nodes[node];
        number(self.body, n.first as usize + place * n.width(), n.width())
    }

    /// The row, counted after skip, is valid.
    pub fn valid(&self, node: usize, row: usize) -> bool {
        self.nodes[node].valid(self.body, row)
    }
}

/// Each node's parent, by a stack of open nodes; `None` if the tree is not closed at the last node or is too deep.
fn parents(nodes: &[Node]) -> Option<Vec<Option<usize>>> {
    let mut found = vec![];
    // a node and how many of its children are still to come
    let mut open: Vec<(usize, u32)> = vec![];
    for (i, n) in nodes.iter().enumerate() {
        while open.pop_if(|(_, left)| *left == 0).is_some() {}
        match open.last_mut() {
            Some((parent, left)) => {
                *left -= 1;
                found.push(Some(*parent));
            }
            None if i == 0 => found.push(None),
            None => return None,
        }
        open.push((i, n.kids));
        if open.len() > DEPTH_LIMIT {
            return None;
        }
    }
    open.iter().all(|(_, left)| *left == 0).then_some(found)
}

/// The little-endian number of `width` bytes, at most 8, at `at`.
pub fn number(bytes: &[u8], at: usize, width: usize) -> u64 {
    bytes[at..at + width].iter().rev().fold(0, |n, b| n << 8 | *b as u64)
}

/// Bit `i` counted from byte `at`; bit 0 of a byte is first.
pub fn bit(bytes: &[u8], at: usize, i: usize) -> bool {
    bytes[at + i / 8] >> (i % 8) & 1 == 1
}

/// A pack from its body and its nodes, with their true null counts; the bitmaps lie in the body.
pub fn finish(body: Vec<u8>, nodes: &[Node]) -> Vec<u8> {
    let nodes: Vec<Node> = nodes.iter().map(|n| Node { nulls: n.null_count(&body) as u32, ..*n }).collect();
    finish_as(body, &nodes, MARK)
}

/// A pack from its body, its nodes as they are, and its mark.
pub fn finish_as(mut body: Vec<u8>, nodes: &[Node], mark: [u8; 4]) -> Vec<u8> {
    let start = body.len() as u32;
    for field in nodes.iter().flat_map(|n| n.fields()).chain([start, nodes.len() as u32, nodes[0].rows]) {
        body.extend(field.to_le_bytes());
    }
    body.extend(mark);
    body
}
