//! Columns: what each row holds, apart from where its bytes stand.
use super::{Rng, Shape};
use crate::pack::*;
use std::ops::Range;

#[derive(Debug, Clone)]
pub struct Column {
    pub kind: u32,
    pub param: u32,
    /// rows passed over in the buffers
    pub skip: usize,
    pub rows: usize,
    pub bitmap: bool,
    /// for each row
    pub valid: Vec<bool>,
    /// for each row: a bit, a value, the row's own bytes, a view, offset and size, an id or a key; none for runs, struct and lists
    pub entries: Vec<Vec<u8>>,
    /// the child row at which each row starts, and the one at which the last row ends; for lists only
    pub offsets: Vec<usize>,
    /// run ends, rows passed over counted; for runs only
    pub ends: Vec<u64>,
    pub kids: Vec<Column>,
}

impl Column {
    /// The run that a row is in.
    fn run_of(&self, row: usize) -> usize {
        self.ends.partition_point(|end| *end <= (self.skip + row) as u64)
    }

    /// The child rows that a list has, null or not.
    fn own_rows(&self, row: usize) -> Range<usize> {
        self.offsets[row]..self.offsets[row + 1]
    }

    /// The child rows of the valid ones of these rows of lists.
    fn shown(&self, rows: &[usize]) -> Vec<usize> {
        rows.iter().filter(|row| self.valid[**row]).flat_map(|row| self.own_rows(*row)).collect()
    }
}

/// Rows to take over from another column: row `at[k]` becomes what row `kept[k]` is there. Both rise.
#[derive(Clone, Copy)]
pub struct Like<'a> {
    pub column: &'a Column,
    pub kept: &'a [usize],
    pub at: &'a [usize],
}

/// Makes columns.
pub struct Maker<'a> {
    pub r: &'a mut Rng,
    /// skip of each node, if it is not to be drawn
    pub skip: Option<usize>,
    /// a bitmap where one may be, if that is not to be drawn
    pub bitmap: Option<bool>,
}

/// Lists hold about so many rows in all, so that reading them back stays quick.
const LIST_ROWS: usize = 2000;

impl<'a> Maker<'a> {
    pub fn new(r: &'a mut Rng) -> Self {
        Self { r, skip: None, bitmap: None }
    }

    /// A column of `rows` rows; where `like` is given, alike in the rows that it names, and any in the others.
    pub fn column(&mut self, shape: &Shape, rows: usize, like: Option<Like>) -> Column {
        self.node(shape, rows, like, 1)
    }

    /// `weight`: how often a row of this node is shown, about.
    fn node(&mut self, shape: &Shape, rows: usize, like: Option<Like>, weight: usize) -> Column {
        let skip = self.skip.unwrap_or(match self.r.below(4) {
            0 | 1 => 0,
            2 => self.r.below(10),
            _ => self.r.below(80),
        });
        let mut c = Column {
            kind: shape.kind,
            param: shape.param,
            skip,
            rows,
            bitmap: false,
            valid: vec![],
            entries: vec![],
            offsets: vec![],
            ends: vec![],
            kids: vec![],
        };
        let mut most = 0;
        match shape.kind {
            RUNS => self.runs(&mut c, shape, like, weight),
            // null lists may have any child rows, so the nulls come first
            LIST | LARGE_LIST => {
                self.validity(&mut c, shape, like);
                self.lists(&mut c, shape, like, weight);
                return c;
            }
            STRUCT | UNION => {
                for (k, kid) in shape.kids.iter().enumerate() {
                    let like = like.map(|l| Like { column: &l.column.kids[k], ..l });
                    c.kids.push(self.node(kid, rows, like, weight));
                }
            }
            _ => most = self.carried(&mut c, shape, like, weight),
        }
        self.validity(&mut c, shape, like);
        if !matches!(shape.kind, RUNS | STRUCT) {
            c.entries = (0..rows).map(|row| self.entry(&c, row, most)).collect();
            if let Some(l) = like {
                l.kept.iter().zip(l.at).for_each(|(k, a)| c.entries[*a] = l.column.entries[*k].clone());
            }
        }
        c
    }

    /// Children that go along with all their rows; gives the most rows that a list may have.
    fn carried(&mut self, c: &mut Column, shape: &Shape, like: Option<Like>, weight: usize) -> usize {
        let kept_above = like.is_some_and(|l| !l.kept.is_empty());
        let mut most = 0;
        for (k, kid) in shape.kids.iter().enumerate() {
            let rows = match like {
                Some(l) if kept_above => l.column.kids[k].rows,
                _ if self.r.percent(10) => 0,
                _ => 1 + self.r.below(40),
            };
            most = rows.min(LIST_ROWS / (weight * (c.rows + 1)) + 1);
            let shown = if c.kind == DICTIONARY { c.rows } else { c.rows * most / 2 };
            let weight = weight * (shown / rows.max(1)).max(1);
            let all: Vec<usize> = (0..rows).collect();
            let like = like.filter(|_| kept_above).map(|l| Like { column: &l.column.kids[k], kept: &all, at: &all });
            c.kids.push(self.node(kid, rows, like, weight));
        }
        most
    }

    /// Offsets and the child. Rows of `like` have as many child rows as there, and these alike, unless they are null; child rows that no
    /// row has come before and after.
    fn lists(&mut self, c: &mut Column, shape: &Shape, like: Option<Like>, weight: usize) {
        // two at least, so that a long column has lists of several rows, and on average no more rows below it than its own
        let most = self.r.pick(&[0, 1, 2, 4, 9]).min(LIST_ROWS / (weight * (c.rows + 1)) + 2);
        let mut lengths: Vec<usize> = (0..c.rows).map(|_| self.r.below(most + 1)).collect();
        if let Some(l) = like {
            for (k, a) in l.kept.iter().zip(l.at).filter(|(k, _)| l.column.valid[**k]) {
                lengths[*a] = l.column.own_rows(*k).len();
            }
        }
        let spare = |r: &mut Rng| if r.percent(50) { 0 } else { r.below(10) };
        c.offsets = vec![spare(self.r)];
        lengths.iter().for_each(|length| c.offsets.push(c.offsets.last().unwrap() + length));
        let rows = c.offsets[c.rows] + spare(self.r);
        let (kept, at) = like.map_or((vec![], vec![]), |l| (l.column.shown(l.kept), c.shown(l.at)));
        let like = like.map(|l| Like { column: &l.column.kids[0], kept: &kept, at: &at });
        let kid = self.node(&shape.kids[0], rows, like, weight);
        c.kids.push(kid);
    }

    /// Run ends and the child. Rows of `like` that share a run share one here, and others do not.
    fn runs(&mut self, c: &mut Column, shape: &Shape, like: Option<Like>, weight: usize) {
        let total = c.skip + c.rows;
        let density = self.r.pick(&[0, 5, 20, 60, 100]);
        // a run ends before this row
        let mut cut: Vec<bool> = (0..=total).map(|_| self.r.percent(density)).collect();
        let old: Vec<usize> = like.map_or(vec![], |l| l.kept.iter().map(|k| l.column.run_of(*k)).collect());
        for k in 1..old.len() {
            let at = like.unwrap().at;
            let (from, to) = (c.skip + at[k - 1] + 1, c.skip + at[k]);
            if old[k - 1] == old[k] {
                cut[from..=to].fill(false);
            } else if !cut[from..=to].contains(&true) {
                cut[from + self.r.below(to - from + 1)] = true;
            }
        }
        c.ends = (1..total).filter(|p| cut[*p]).map(|p| p as u64).collect();
        self.last_runs(c, total as u64);
        let mut kept = old.clone();
        kept.dedup();
        let mut at: Vec<usize> = like.map_or(vec![], |l| l.at.iter().map(|a| c.run_of(*a)).collect());
        at.dedup();
        let like = like.map(|l| Like { column: &l.column.kids[0], kept: &kept, at: &at });
        let kid = self.node(&shape.kids[0], c.ends.len(), like, weight * 4);
        c.kids.push(kid);
    }

    /// The run that reaches the last row, and some runs past it.
    fn last_runs(&mut self, c: &mut Column, total: u64) {
        let greatest = (1u64 << (8 * c.param - 1)) - 1;
        let mut end = total;
        if total > 0 {
            end += if self.r.percent(50) { 0 } else { self.r.below(40) as u64 };
            c.ends.push(end);
        }
        for _ in 0..self.r.pick(&[0, 0, 1, 2]) {
            end = if self.r.percent(10) { greatest } else { end + 1 + self.r.below(40) as u64 };
            if end <= greatest && c.ends.last().is_none_or(|last| *last < end) {
                c.ends.push(end);
            }
        }
    }

    fn validity(&mut self, c: &mut Column, shape: &Shape, like: Option<Like>) {
        let all_null = c.kind == DICTIONARY && c.kids[0].rows == 0;
        c.bitmap = shape.nullable && (self.bitmap.unwrap_or(self.r.percent(50)) || all_null);
        let density = self.r.pick(&[0, 50, 95, 100]);
        c.valid = (0..c.rows).map(|_| !c.bitmap || (self.r.percent(density) && !all_null)).collect();
        if let Some(l) = like {
            l.kept.iter().zip(l.at).for_each(|(k, a)| c.valid[*a] = l.column.valid[*k]);
        }
        c.bitmap |= c.valid.contains(&false);
    }

    /// A random entry that the row may have.
    fn entry(&mut self, c: &Column, row: usize, most: usize) -> Vec<u8> {
        let r = &mut *self.r;
        match c.kind {
            BITS => vec![r.below(2) as u8],
            BYTES | LARGE_BYTES => {
                let length = r.pick(&[0, 1, 3, 8, 20]);
                let length = r.below(length + 1);
                r.bytes(length)
            }
            VIEWS => view(r, c),
            LIST_VIEW | LARGE_LIST_VIEW => {
                let size = r.below(most + 1);
                let offset = r.below(c.kids[0].rows - size + 1);
                let width = if c.kind == LIST_VIEW { 4 } else { 8 };
                [offset, size].iter().flat_map(|n| n.to_le_bytes()[..width].to_vec()).collect()
            }
            UNION => vec![r.below(c.kids.len()) as u8],
            DICTIONARY if c.valid[row] => r.below(c.kids[0].rows.min(256)).to_le_bytes()[..c.param as usize].to_vec(),
            _ => r.bytes(c.param as usize),
        }
    }
}

/// A short view, zeros behind its bytes, or a long one into a child, with its first four bytes there.
fn view(r: &mut Rng, c: &Column) -> Vec<u8> {
    let long: Vec<usize> = (0..c.kids.len()).filter(|k| c.kids[*k].rows > 12).collect();
    let number = |n: usize| (n as u32).to_le_bytes();
    if long.is_empty() || r.percent(50) {
        let length = r.below(13);
        let mut view = [&number(length), r.bytes(length).as_slice()].concat();
        view.resize(16, 0);
        return view;
    }
    let k = r.pick(&long);
    let length = 13 + r.below(c.kids[k].rows - 12);
    let offset = r.below(c.kids[k].rows - length + 1);
    let prefix = c.kids[k].entries[offset..offset + 4].concat();
    [&number(length), prefix.as_slice(), &number(k), &number(offset)].concat()
}
