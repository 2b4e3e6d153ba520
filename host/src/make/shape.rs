//! Shapes: kind, param and children, apart from any row.
use super::Rng;
use crate::pack::*;

#[derive(Debug, Clone, PartialEq)]
pub struct Shape {
    pub kind: u32,
    pub param: u32,
    /// a bitmap is allowed
    pub nullable: bool,
    pub kids: Vec<Shape>,
}

impl Shape {
    pub fn new(kind: u32, param: u32, kids: Vec<Shape>) -> Self {
        Self { kind, param, nullable: !matches!(kind, RUNS | UNION), kids }
    }
    pub fn nodes(&self) -> usize {
        1 + self.kids.iter().map(Shape::nodes).sum::<usize>()
    }
}

/// A data buffer of views.
fn data_buffer() -> Shape {
    Shape { nullable: false, ..Shape::new(NATIVE, 1, vec![]) }
}

fn views(buffers: usize) -> Shape {
    Shape::new(VIEWS, 0, vec![data_buffer(); buffers])
}

fn random_param(r: &mut Rng, kind: u32) -> u32 {
    match kind {
        NATIVE => r.pick(&[1, 2, 4, 8, 16, 32]),
        FIXED => r.pick(&[0, 1, 3, 5, 8, 12, 16, 20, 33]),
        RUNS => r.pick(&[2, 4, 8]),
        DICTIONARY => r.pick(&[1, 2, 4, 8]),
        _ => 0,
    }
}

/// One column of any kind, its children plain.
pub fn single(r: &mut Rng) -> Shape {
    let kind = 1 + r.below(KINDS) as u32;
    let plain = |r: &mut Rng| {
        let kind = r.pick(&[BITS, NATIVE, FIXED, BYTES, LARGE_BYTES]);
        Shape::new(kind, random_param(r, kind), vec![])
    };
    let kids = match kind {
        VIEWS => return views(r.below(4)),
        LIST_VIEW | LARGE_LIST_VIEW | RUNS | DICTIONARY | LIST | LARGE_LIST => vec![plain(r)],
        STRUCT => (0..r.below(4)).map(|_| plain(r)).collect(),
        UNION => (0..1 + r.below(3)).map(|_| plain(r)).collect(),
        _ => vec![],
    };
    Shape::new(kind, random_param(r, kind), kids)
}

/// Any tree of at most 64 nodes and depth 8.
pub fn random_shape(r: &mut Rng) -> Shape {
    let mut left = r.pick(&[2, 3, 4, 8, 16, 40, 64]) - 1;
    grow(r, 1, &mut left)
}

/// A subtree whose root is paid for; `left` nodes may follow.
fn grow(r: &mut Rng, depth: usize, left: &mut usize) -> Shape {
    let leaf = depth == DEPTH_LIMIT || *left == 0;
    let kind = if leaf { 1 + r.below(6) as u32 } else { 1 + r.below(KINDS) as u32 };
    let kids = match kind {
        _ if leaf => 0,
        VIEWS => r.below(4),
        LIST_VIEW | LARGE_LIST_VIEW | RUNS | DICTIONARY | LIST | LARGE_LIST => 1,
        STRUCT => r.below(6),
        UNION => 1 + r.below(4),
        _ => 0,
    }
    .min(*left);
    *left -= kids;
    if kind == VIEWS {
        return views(kids);
    }
    let param = random_param(r, kind);
    Shape::new(kind, param, (0..kids).map(|_| grow(r, depth + 1, left)).collect())
}

/// Nestings that deserve to come up often; the small ones first.
pub fn nestings() -> Vec<Shape> {
    let leaf = |kind, param| Shape::new(kind, param, vec![]);
    let native = || leaf(NATIVE, 4);
    let runs = |kid| Shape::new(RUNS, 4, vec![kid]);
    let dictionary = |kid| Shape::new(DICTIONARY, 1, vec![kid]);
    let list_view = |kid| Shape::new(LIST_VIEW, 0, vec![kid]);
    let large_list_view = |kid| Shape::new(LARGE_LIST_VIEW, 0, vec![kid]);
    let list = |kid| Shape::new(LIST, 0, vec![kid]);
    let large_list = |kid| Shape::new(LARGE_LIST, 0, vec![kid]);
    let structure = |kids| Shape::new(STRUCT, 0, kids);
    let union = |kids| Shape::new(UNION, 0, kids);
    let every = || {
        vec![
            leaf(BITS, 0),
            leaf(NATIVE, 8),
            leaf(FIXED, 5),
            leaf(BYTES, 0),
            leaf(LARGE_BYTES, 0),
            views(2),
            list_view(native()),
            large_list_view(leaf(BYTES, 0)),
            runs(leaf(NATIVE, 2)),
            structure(vec![leaf(BITS, 0)]),
            union(vec![native(), leaf(BITS, 0)]),
            dictionary(leaf(BYTES, 0)),
            list(native()),
            large_list(leaf(BYTES, 0)),
        ]
    };
    vec![
        runs(runs(native())),
        runs(Shape::new(RUNS, 2, vec![Shape::new(RUNS, 8, vec![leaf(BITS, 0)])])),
        // runs under carried children
        dictionary(runs(leaf(BYTES, 0))),
        list_view(runs(leaf(FIXED, 3))),
        large_list_view(structure(vec![runs(native()), leaf(BITS, 0)])),
        // carried children under runs
        runs(dictionary(runs(native()))),
        // lists under lists, with runs and structs between and around
        list(large_list(native())),
        list(runs(leaf(BYTES, 0))),
        runs(large_list(native())),
        list(structure(vec![list(native()), leaf(BITS, 0)])),
        // lists under carried children, and carried children under lists
        list_view(list(dictionary(native()))),
        dictionary(large_list(views(1))),
        runs(list_view(runs(views(1)))),
        runs(views(2)),
        runs(structure(vec![runs(native()), list_view(native())])),
        runs(structure(vec![])),
        union(vec![runs(native()), dictionary(native()), views(1)]),
        list_view(list_view(list_view(native()))),
        dictionary(dictionary(leaf(FIXED, 0))),
        list(list(list(leaf(BITS, 0)))),
        list(runs(list(runs(leaf(NATIVE, 2))))),
        large_list(list_view(native())),
        list(dictionary(list(leaf(BYTES, 0)))),
        list(union(vec![runs(native()), large_list(leaf(FIXED, 3)), views(2)])),
        large_list(structure(vec![])),
        structure(vec![list(native()), large_list(leaf(LARGE_BYTES, 0)), list(leaf(FIXED, 0))]),
        structure(every()),
        union(every()),
        runs(structure(every())),
        list(structure(every())),
        // the greatest depth
        structure(vec![runs(dictionary(list_view(runs(union(vec![structure(vec![leaf(BITS, 0)])])))))]),
        runs(runs(runs(runs(runs(runs(runs(leaf(BYTES, 0)))))))),
        list_view(dictionary(list_view(dictionary(list_view(dictionary(list_view(native()))))))),
        list(large_list(list(large_list(list(large_list(list(native()))))))),
        list(runs(large_list(dictionary(list(structure(vec![runs(native())])))))),
    ]
}
