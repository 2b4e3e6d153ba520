//! The bench cases and refusal examples of the specification (docs/FORMAT.md), and packs at its limits, each with the answer that it gives.
use crate::pack::*;

/// A call and what must come of it.
pub struct Case {
    pub name: &'static str,
    pub mask: Vec<u8>,
    pub journal: Vec<u8>,
    pub stated: Option<u64>,
    /// entries of the list, if it is asked for
    pub list: Option<usize>,
    pub scratch: usize,
    pub output: usize,
    /// the line that program `extract` would print
    pub line: &'static str,
    /// bytes that stand in the extract: at a place, these
    pub bytes: Vec<(usize, Vec<u8>)>,
}

impl Case {
    fn new(name: &'static str, mask: Vec<u8>, journal: Vec<u8>, line: &'static str) -> Self {
        Self { name, mask, journal, stated: None, list: None, scratch: 64, output: 4096, line, bytes: vec![] }
    }
    fn with(mut self, at: usize, bytes: &[u8]) -> Self {
        self.bytes.push((at, bytes.to_vec()));
        self
    }
}

fn node(kind: u32, param: u32, rows: usize, kids: usize, first: usize) -> Node {
    Node { first: first as u32, ..Node::new(kind, param, rows, kids) }
}

fn packed(bits: impl Iterator<Item = bool>) -> Vec<u8> {
    let mut out = vec![];
    for (i, bit) in bits.enumerate() {
        out.resize(i / 8 + 1, 0);
        out[i / 8] |= (bit as u8) << (i % 8);
    }
    out
}

/// T, F and n (null) for each slot.
fn mask(slots: &str) -> Vec<u8> {
    let mut body = packed(slots.chars().map(|c| c == 'T'));
    let mut n = node(BITS, 0, slots.len(), 0, 0);
    if slots.contains('n') {
        n.validity = body.len() as u32;
        body.extend(packed(slots.chars().map(|c| c != 'n')));
    }
    finish(body, &[n])
}

/// A mask of `slots` slots whose first `picks` are picked.
fn first_of(picks: usize, slots: usize) -> Vec<u8> {
    finish(packed((0..slots).map(|i| i < picks)), &[node(BITS, 0, slots, 0, 0)])
}

fn numbers(values: &[u32]) -> Vec<u8> {
    values.iter().flat_map(|v| v.to_le_bytes()).collect()
}

fn native(values: &[u32]) -> Vec<u8> {
    finish(numbers(values), &[node(NATIVE, 4, values.len(), 0, 0)])
}

/// `rows` rows of one byte each.
fn column(rows: usize) -> Vec<u8> {
    finish((0..rows).map(|i| i as u8).collect(), &[node(NATIVE, 1, rows, 0, 0)])
}

fn runs(ends: &[u32], skip: u32, rows: usize) -> Vec<u8> {
    let mut body = numbers(ends);
    let first = body.len();
    body.extend((0..ends.len()).map(|i| (b'a' as usize + i) as u8));
    finish(body, &[Node { skip, ..node(RUNS, 4, rows, 1, 0) }, node(NATIVE, 1, ends.len(), 0, first)])
}

fn strings(values: &[&str]) -> Vec<u8> {
    let mut offsets = vec![0];
    values.iter().for_each(|v| offsets.push(offsets.last().unwrap() + v.len() as u32));
    let mut body = numbers(&offsets);
    let second = body.len() as u32;
    body.extend(values.concat().bytes());
    let second_length = body.len() as u32 - second;
    finish(body, &[Node { second, second_length, ..node(BYTES, 0, values.len(), 0, 0) }])
}

/// P1 to P11 as far as a call can show them, and the cases of length 128.
pub fn bench() -> Vec<Case> {
    let five = native(&[5, 6, 7, 8, 9]);
    let p1 = [numbers(&[5, 8, 2, 4, 2, 0, 0, NO_BITMAP, 0, 0, 0, 0, 8, 1, 2]), MARK.to_vec()].concat();
    let mut nulls = numbers(&[1, 2, 3]);
    nulls.push(0b101);
    let nulls = finish(nulls, &[Node { validity: 12, ..node(NATIVE, 4, 3, 0, 0) }]);
    let mut cases = vec![
        Case::new("P1", mask("TFFTF"), five, "rows 2 of 5 route indices bytes 64").with(0, &p1),
        Case::new("P2", mask("TnTF"), native(&[1, 2, 3, 4]), "rows 2 of 4 route indices bytes 64").with(0, &numbers(&[1, 3])),
        Case::new("P3", mask("TTFTT"), column(5), "rows 4 of 5 route indices bytes 64").with(0, &[0, 1, 3, 4]),
        Case::new("P4", mask("TTFTTT"), column(6), "rows 5 of 6 route slices bytes 64").with(0, &[0, 1, 3, 4, 5]),
        Case::new("P5", mask(""), column(0), "rows 0 of 0 route none bytes 56"),
        Case::new("P6", mask("TTT"), column(3), "rows 3 of 3 route all bytes 64").with(0, &[0, 1, 2]),
        Case::new("P8", mask("TFT"), strings(&["ab", "", "cde"]), "rows 2 of 3 route indices bytes 80")
            .with(0, &numbers(&[0, 2, 5]))
            .with(16, b"abcde"),
        Case::new("P9", mask("TFFFFT"), runs(&[2, 5, 6], 0, 6), "rows 2 of 6 route indices bytes 112")
            .with(0, &numbers(&[1, 2]))
            .with(8, b"ac"),
        Case::new("P10", mask("FTT"), runs(&[2, 5, 6], 1, 4), "rows 2 of 3 route indices bytes 112")
            .with(0, &numbers(&[2]))
            .with(8, b"b"),
        Case::new("P11", mask("TFT"), nulls, "rows 2 of 3 route indices bytes 64").with(28, &numbers(&[NO_BITMAP])),
    ];
    for (picks, line) in [
        (126, "rows 126 of 128 route slices bytes 72"),
        (125, "rows 125 of 128 route slices bytes 72"),
        (2, "rows 2 of 128 route indices bytes 64"),
        (3, "rows 3 of 128 route indices bytes 64"),
    ] {
        let journal = finish(packed((0..128).map(|i| i % 3 == 0)), &[node(BITS, 0, 128, 0, 0)]);
        let kept = packed((0..picks).map(|i| i % 3 == 0));
        let list = Some(128);
        cases.push(Case { list, ..Case::new("length 128", first_of(picks, 128), journal, line) }.with(0, &kept));
    }
    cases
}

/// The example of each refusal.
pub fn refusals() -> Vec<Case> {
    let plain = || mask("TFFTF");
    let good = || column(5);
    let journal = |name, journal, line| Case::new(name, plain(), journal, line);
    let one = |n: Node, body: &[u8]| finish(body.to_vec(), &[n]);
    let mut unmarked = good();
    *unmarked.last_mut().unwrap() = 0;
    let mut no_nodes = vec![0; 12];
    no_nodes.extend(MARK);
    let falling = [numbers(&[0, 3, 2]), vec![0; 8]].concat();
    let falling = one(Node { second: 12, second_length: 3, ..node(BYTES, 0, 2, 0, 0) }, &falling);
    let nine: Vec<u32> = (1..=9).collect();
    vec![
        journal("1: 15 bytes", good()[..15].to_vec(), "refused 1 journal"),
        journal("2: ends in 00", unmarked, "refused 2 journal"),
        journal("3: 0 nodes", no_nodes, "refused 3 journal"),
        journal("4: kind 99", one(node(99, 0, 0, 0, 0), &[]), "refused 4 journal"),
        journal("5: 1 node with 1 kid", one(node(STRUCT, 0, 0, 1, 0), &[]), "refused 5 journal"),
        journal("6: 1,048,577 rows", one(node(BITS, 0, 1_048_577, 0, 0), &vec![0; 131_073]), "refused 6 journal"),
        journal("7: 12 bytes in a body of 8", one(node(NATIVE, 4, 3, 0, 0), &[0; 8]), "refused 7 journal"),
        journal("8: offsets 0, 3, 2", falling, "refused 8 journal"),
        Case::new("9: native root", good(), good(), "refused 9 mask"),
        Case::new("10: 6 against 5", mask("TFFTFF"), good(), "refused 10 journal"),
        Case { stated: Some(3), ..Case::new("11: 3 for T, null, T, F", mask("TnTF"), good(), "refused 11 mask") },
        Case { list: Some(2), ..Case::new("12: 3 picks, 2 places", mask("TTTFF"), good(), "refused 12 journal") },
        Case { scratch: 1, ..Case::new("13: 9 runs, 1 byte", mask("T"), runs(&nine, 0, 9), "refused 13 journal") },
        Case { output: 63, ..Case::new("14: 64 into 63", plain(), native(&[5, 6, 7, 8, 9]), "refused 14 journal") },
    ]
}

/// Lists with these offsets over native rows of 4 bytes, with a bitmap of one byte if one is given.
fn list(offsets: &[u32], bitmap: Option<u8>, values: &[u32]) -> Vec<u8> {
    let (body, nodes) = list_parts(offsets, bitmap, values);
    finish(body, &nodes)
}

fn list_parts(offsets: &[u32], bitmap: Option<u8>, values: &[u32]) -> (Vec<u8>, [Node; 2]) {
    let mut body = numbers(&[offsets, values].concat());
    let mut list = node(LIST, 0, offsets.len() - 1, 1, 0);
    if let Some(marks) = bitmap {
        list.validity = body.len() as u32;
        body.push(marks);
    }
    (body, [list, node(NATIVE, 4, values.len(), 0, 4 * offsets.len())])
}

/// The same in 64 bits.
fn large_list(offsets: &[u64], values: &[u32]) -> Vec<u8> {
    let mut body: Vec<u8> = offsets.iter().flat_map(|offset| offset.to_le_bytes()).collect();
    body.extend(numbers(values));
    finish(body, &[node(LARGE_LIST, 0, offsets.len() - 1, 1, 0), node(NATIVE, 4, values.len(), 0, 8 * offsets.len())])
}

/// Kinds 13 and 14, worked out by hand from the rules.
pub fn lists() -> Vec<Case> {
    let case = |name, slots, journal, line| Case::new(name, mask(slots), journal, line);
    // a good list with one field changed
    let with = |change: fn(&mut Node)| {
        let (body, mut nodes) = list_parts(&[0, 2, 3], None, &[1, 2, 3]);
        change(&mut nodes[0]);
        finish(body, &nodes)
    };
    let two_kids = {
        let (body, nodes) = list_parts(&[0, 2, 3], None, &[1, 2, 3]);
        finish(body, &[Node { kids: 2, ..nodes[0] }, nodes[1], nodes[1]])
    };
    // the one list has no row, so nothing below has one
    let of_list_views = {
        let body = numbers(&[0, 0, 0, 1, 7]);
        let views = Node { second: 12, ..node(LIST_VIEW, 0, 1, 1, 8) };
        finish(body, &[node(LIST, 0, 1, 1, 0), views, node(NATIVE, 4, 1, 0, 16)])
    };
    // [[1], [2, 3]], null over [[4]], [[5]]
    let nested = {
        let body = [numbers(&[0, 2, 3, 4, 0, 1, 3, 4, 5, 1, 2, 3, 4, 5]), vec![0b101]].concat();
        let outer = Node { validity: 56, ..node(LIST, 0, 3, 1, 0) };
        finish(body, &[outer, node(LIST, 0, 4, 1, 16), node(NATIVE, 4, 5, 0, 36)])
    };
    let nine: Vec<u32> = (1..=9).collect();
    let short = |scratch, line| Case { scratch, ..case("lists: a child of 9 rows", "F", list(&[0, 0], None, &nine), line) };
    let most = ROW_LIMIT as usize;
    // one list has all the rows that a node may have
    let whole = {
        let body = [numbers(&[0, ROW_LIMIT as u32]), vec![7; most]].concat();
        finish(body, &[node(LIST, 0, 1, 1, 0), node(NATIVE, 1, most, 0, 8)])
    };
    let longest = |name, scratch, line| Case { scratch, output: 1 << 21, ..case(name, "T", whole.clone(), line) };
    vec![
        case("lists: a row dropped", "TFT", list(&[0, 2, 4, 5], None, &[1, 2, 8, 9, 3]), "rows 2 of 3 route indices bytes 128")
            .with(0, &numbers(&[0, 2, 3, 0, 1, 2, 3])),
        case("lists: the first row dropped", "FT", list(&[0, 2, 4], None, &[8, 9, 1, 2]), "rows 1 of 2 route indices bytes 112")
            .with(0, &numbers(&[0, 2, 1, 2])),
        case("lists: a null row", "TTT", list(&[0, 2, 3, 4], Some(0b101), &[1, 2, 9, 3]), "rows 3 of 3 route all bytes 136")
            .with(0, &numbers(&[0b101, 0, 0, 2, 2, 3, 1, 2, 3])),
        case("lists: child rows of no row", "TT", list(&[1, 2, 4], None, &[9, 1, 2, 3, 9]), "rows 2 of 2 route all bytes 128")
            .with(0, &numbers(&[0, 1, 3, 0, 1, 2, 3])),
        case("lists: 64 bits", "FT", large_list(&[0, 2, 4], &[8, 9, 1, 2]), "rows 1 of 2 route indices bytes 120")
            .with(0, &numbers(&[0, 0, 2, 0, 1, 2])),
        case("lists: in lists", "TTT", nested, "rows 3 of 3 route all bytes 192")
            .with(0, &numbers(&[0b101, 0, 0, 2, 2, 3, 0, 1, 3, 4, 1, 2, 3, 5])),
        case("lists: empty above a carried child", "T", of_list_views, "rows 1 of 1 route all bytes 144"),
        case("lists: no row", "", list(&[2], None, &[1, 2]), "rows 0 of 0 route none bytes 104"),
        case("lists: no row, an offset past the child", "", list(&[3], None, &[1, 2]), "refused 8 journal"),
        case("lists: an offset below 0", "T", list(&[u32::MAX, 1], None, &[1, 2]), "refused 8 journal"),
        case("lists: an offset falls", "T", list(&[0, 2, 1], None, &[1, 2]), "refused 8 journal"),
        case("lists: an offset falls at a null row", "T", list(&[0, 2, 1], Some(0b01), &[1, 2]), "refused 8 journal"),
        case("lists: the last offset past the child", "T", list(&[0, 1, 3], None, &[1, 2]), "refused 8 journal"),
        case("lists: an offset that agrees in 32 bits", "T", large_list(&[0, 1 << 32 | 1], &[1, 2]), "refused 8 journal"),
        case("lists: a param", "T", with(|n| n.param = 4), "refused 4 journal"),
        case("lists: no child", "T", with(|n| n.kids = 0), "refused 4 journal"),
        case("lists: two children", "T", two_kids, "refused 4 journal"),
        case("lists: a second buffer", "T", with(|n| n.second = 4), "refused 4 journal"),
        case("lists: a second length", "T", with(|n| n.second_length = 1), "refused 4 journal"),
        case("lists: kind 15", "T", with(|n| n.kind = 15), "refused 4 journal"),
        case("lists: the last offset leaves the body", "T", with(|n| n.first = 16), "refused 7 journal"),
        short(1, "refused 13 journal"),
        short(2, "rows 0 of 1 route none bytes 104"),
        longest("lists: 1,048,576 child rows", 131_072, "rows 1 of 1 route all bytes 1048680")
            .with(0, &numbers(&[0, ROW_LIMIT as u32])),
        longest("lists: scratch one short", 131_071, "refused 13 journal"),
    ]
}

/// Views of one data buffer, the first `skip` passed over; where `null`, all are.
fn views(skip: usize, null: bool, rows: &[[u32; 4]], data: &[u8]) -> Vec<u8> {
    let mut body = numbers(&rows.concat());
    let at = body.len();
    body.extend(data);
    let validity = if null { body.len() as u32 } else { NO_BITMAP };
    body.push(0);
    let parent = Node { skip: skip as u32, validity, ..node(VIEWS, 0, rows.len() - skip, 1, 0) };
    finish(body, &[parent, node(NATIVE, 1, data.len(), 0, at)])
}

/// Kind 6: prefixes and unused bytes, worked out by hand from the rules.
pub fn true_views() -> Vec<Case> {
    let case = |name, slots, journal, line| Case::new(name, mask(slots), journal, line);
    // bytes 3 to 18: from the second on, four are 4 to 7
    let data: Vec<u8> = (3..19).collect();
    let (long, prefix) = (14, 0x0706_0504);
    let right = [long, prefix, 0, 1];
    // the bytes 1, 2 and 3
    let short = [3, 0x0003_0201, 0, 0];
    let one = |name, row: [u32; 4], line| case(name, "T", views(0, false, &[row], &data), line);
    vec![
        case(
            "views: long and short",
            "TFT",
            views(0, false, &[right, right, short], &data),
            "rows 2 of 3 route indices bytes 144",
        )
        .with(0, &numbers(&[right, short].concat())),
        one("views: 12 bytes and none unused", [12, u32::MAX, u32::MAX, u32::MAX], "rows 1 of 1 route all bytes 128"),
        one("views: 11 bytes and one zero", [11, u32::MAX, u32::MAX, 0x00FF_FFFF], "rows 1 of 1 route all bytes 128"),
        case(
            "views: passed over, and no views",
            "T",
            views(1, false, &[[u32::MAX; 4], right], &data),
            "rows 1 of 1 route all bytes 128",
        )
        .with(0, &numbers(&right)),
        one("views: the prefix's first byte", [long, prefix - 1, 0, 1], "refused 8 journal"),
        one("views: the prefix's last byte", [long, prefix + (1 << 24), 0, 1], "refused 8 journal"),
        one("views: the prefix of the buffer's start", [long, 0x0605_0403, 0, 1], "refused 8 journal"),
        one("views: an unused byte in the prefix's place", [3, 0x0103_0201, 0, 0], "refused 8 journal"),
        one("views: the last unused byte of 11", [11, u32::MAX, u32::MAX, u32::MAX], "refused 8 journal"),
        case("views: a null row's prefix", "T", views(0, true, &[[long, 0, 0, 1]], &data), "refused 8 journal"),
        case("views: a null row's unused byte", "T", views(0, true, &[[0, 0, 0, 1 << 24]], &data), "refused 8 journal"),
        case("views: a dropped row's prefix", "FT", views(0, false, &[[long, 0, 0, 1], short], &data), "refused 8 journal"),
    ]
}

/// Null counts, worked out by hand from the rules.
pub fn null_counts() -> Vec<Case> {
    let case = |name, slots, journal, line| Case::new(name, mask(slots), journal, line);
    // 1, null and 3, behind a null row that is passed over
    let column = |mark, nulls| {
        let body = [numbers(&[9, 1, 2, 3]), vec![0b1010]].concat();
        finish_as(body, &[Node { skip: 1, validity: 16, nulls, ..node(NATIVE, 4, 3, 0, 0) }], mark)
    };
    // a good pack whose node `i` says that one row is null
    let saying_one = |pack: Vec<u8>, i: usize| {
        let read = Pack::read(&pack).unwrap();
        let mut nodes = read.nodes.clone();
        nodes[i].nulls = 1;
        finish_as(read.body.to_vec(), &nodes, MARK)
    };
    let mask_saying = |nulls| finish_as(vec![0b101, 0b1101], &[Node { validity: 1, nulls, ..node(BITS, 0, 4, 0, 0) }], MARK);
    let falling = finish_as(numbers(&[0, 3, 2, 0]), &[Node { second: 12, nulls: 1, ..node(BYTES, 0, 2, 0, 0) }], MARK);
    let union = finish(vec![0, 7], &[node(UNION, 0, 1, 1, 0), node(NATIVE, 1, 1, 0, 1)]);
    let one_null = [numbers(&[1, 0, 1, 2, 2, 4, 2, 0, 0, 0, 8, 0, 0, 1, 16, 1, 2]), MARK.to_vec()].concat();
    let no_null = [numbers(&[1, 3, 2, 4, 2, 0, 0, NO_BITMAP, 0, 0, 0, 0, 8, 1, 2]), MARK.to_vec()].concat();
    let no_bitmap = "null counts: one without a bitmap";
    vec![
        case("null counts: one kept", "TTF", column(MARK, 1), "rows 2 of 3 route indices bytes 72").with(0, &one_null),
        case("null counts: one kept, old mark", "TTF", column(OLD_MARK, 0), "rows 2 of 3 route indices bytes 72")
            .with(0, &one_null),
        case("null counts: none kept", "TFT", column(MARK, 1), "rows 2 of 3 route indices bytes 64").with(0, &no_null),
        case("null counts: the row passed over too", "TTF", column(MARK, 2), "refused 20 journal"),
        case("null counts: one too few", "TTF", column(MARK, 0), "refused 20 journal"),
        case("null counts: far too many", "TTF", column(MARK, u32::MAX), "refused 20 journal"),
        case("null counts: the old mark has none", "TTF", column(OLD_MARK, 1), "refused 4 journal"),
        case(no_bitmap, "T", saying_one(native(&[1]), 0), "refused 20 journal"),
        case(no_bitmap, "T", saying_one(runs(&[1], 0, 1), 0), "refused 20 journal"),
        case(no_bitmap, "T", saying_one(union.clone(), 0), "refused 20 journal"),
        case("null counts: of a child", "T", saying_one(union, 1), "refused 20 journal"),
        case("null counts: 8 before 20", "T", falling, "refused 8 journal"),
        case("null counts: 20 before 10", "TTTT", column(MARK, 2), "refused 20 journal"),
        Case::new("null counts: of a mask", mask_saying(1), native(&[1, 2, 3, 4]), "rows 2 of 4 route indices bytes 64"),
        Case::new("null counts: of a mask, wrong", mask_saying(3), native(&[1, 2, 3, 4]), "refused 20 mask"),
        Case::new("null counts: 20 before 9", column(MARK, 2), native(&[1, 2, 3]), "refused 20 mask"),
        Case { stated: Some(9), ..Case::new("null counts: 20 before 11", mask_saying(0), native(&[1]), "refused 20 mask") },
        Case { stated: Some(9), ..case("null counts: 11 before a journal's 20", "T", column(MARK, 2), "refused 11 mask") },
    ]
}

/// A struct whose extract by one more `data` byte passes a multiple of 8: 31 fixed children over one buffer, and bytes.
fn large(data: usize) -> Vec<u8> {
    let (rows, width) = (512, 1024);
    let mut body: Vec<u8> = (0..rows * width).map(|i| (i / 7) as u8).collect();
    let first = body.len();
    // all data is the last row's
    body.extend(numbers(&vec![0; rows]));
    body.extend((data as u32).to_le_bytes());
    let second = body.len() as u32;
    body.extend((0..data).map(|i| (i / 5) as u8));
    let mut nodes = vec![node(STRUCT, 0, rows, 32, 0)];
    nodes.extend(vec![node(FIXED, width as u32, rows, 0, 0); 31]);
    nodes.push(Node { second, second_length: data as u32, ..node(BYTES, 0, rows, 0, first) });
    finish(body, &nodes)
}

/// A chain of structs over bits, `depth` deep.
fn chain(depth: usize) -> Vec<u8> {
    let mut nodes = vec![node(STRUCT, 0, 1, 1, 0); depth - 1];
    nodes.push(node(BITS, 0, 1, 0, 0));
    finish(vec![1], &nodes)
}

/// A struct of `kids` children.
fn wide(kids: usize) -> Vec<u8> {
    let mut nodes = vec![node(STRUCT, 0, 1, kids, 0)];
    nodes.extend(vec![node(BITS, 0, 1, 0, 0); kids]);
    finish(vec![1], &nodes)
}

/// A native column of 1 row in a pack of so many bytes.
fn padded(bytes: usize) -> Vec<u8> {
    finish(vec![7; bytes - NODE_BYTES - TRAILER_BYTES], &[node(NATIVE, 1, 1, 0, 0)])
}

/// Packs at their limits, and one past.
pub fn limits() -> Vec<Case> {
    let one = |name, journal, line| Case::new(name, mask("T"), journal, line);
    let bits = |skip: u32, rows: usize| {
        finish(vec![0xA5; (skip as usize + rows).div_ceil(8)], &[Node { skip, ..node(BITS, 0, rows, 0, 0) }])
    };
    let fixed = |width: u32| finish(vec![9; 1025], &[node(FIXED, width, 1, 0, 0)]);
    let all = || mask(&"T".repeat(512));
    let most = PACK_LIMIT;
    // 31 * 524,288 + offsets 2,056 + data 520,896 + table 1,320 + trailer 16 = 16,777,216
    let exact = |output| Case { output, ..Case::new("extract of 16,777,216 bytes", all(), large(520_896), "") };
    let ends: Vec<u32> = (1..=1_048_576).collect();
    let many_runs = runs(&ends, 0, 1_048_576);
    let table = |start: u32| {
        let mut pack = column(5);
        let at = pack.len() - TRAILER_BYTES;
        pack[at..at + 4].copy_from_slice(&start.to_le_bytes());
        pack
    };
    vec![
        one("pack of 16,777,216 bytes", padded(most), "rows 1 of 1 route all bytes 64").with(0, &[7]),
        one("one byte more", padded(most + 1), "refused 1 journal"),
        Case::new("mask of 17 MiB", padded(most + 1), column(5), "refused 1 mask"),
        one("64 nodes", wide(63), "rows 1 of 1 route all bytes 3080"),
        one("65 nodes", wide(64), "refused 3 journal"),
        one("depth 8", chain(8), "rows 1 of 1 route all bytes 344"),
        one("depth 9", chain(9), "refused 5 journal"),
        one("fixed of 1,024", fixed(1024), "rows 1 of 1 route all bytes 1080"),
        one("fixed of 1,025", fixed(1025), "refused 4 journal"),
        one("skip and 1,048,576 rows in all", bits(1_048_575, 1), "rows 1 of 1 route all bytes 64"),
        one("skip and 1,048,577 rows in all", bits(1_048_576, 1), "refused 6 journal"),
        one("table one byte late", table(6), "refused 3 journal"),
        one("table far away", table(0xFFFF_FFD8), "refused 3 journal"),
        Case {
            output: 65_592,
            ..Case::new(
                "longest mask",
                bits(0, 1_048_576),
                bits(0, 1_048_576),
                "rows 524288 of 1048576 route indices bytes 65592",
            )
        },
        Case {
            output: 1 << 21,
            ..Case::new(
                "4 of 5 at the longest",
                first_of(838_860, 1_048_575),
                column(1_048_576),
                "rows 838860 of 1048575 route indices bytes 838920",
            )
        },
        Case {
            output: 1 << 21,
            ..Case::new(
                "one more",
                first_of(838_861, 1_048_575),
                column(1_048_576),
                "rows 838861 of 1048575 route slices bytes 838920",
            )
        },
        Case {
            scratch: 131_072,
            ..Case::new("1,048,576 runs", first_of(3, 1_048_576), many_runs.clone(), "rows 3 of 1048576 route indices bytes 120")
        },
        Case { scratch: 131_071, ..Case::new("scratch one short", first_of(3, 1_048_576), many_runs, "refused 13 journal") },
        Case { line: "rows 512 of 512 route all bytes 16777216", ..exact(most) },
        Case { line: "refused 14 journal", ..exact(most - 1) },
        Case { output: most + 64, ..Case::new("extract over 16,777,216 bytes", all(), large(520_897), "refused 14 journal") },
        Case::new(
            "struct with no child and no buffer",
            mask("TFT"),
            finish(vec![], &[node(STRUCT, 0, 4, 0, 0)]),
            "rows 2 of 3 route indices bytes 56",
        ),
        Case::new(
            "union with no child and no row",
            mask(""),
            finish(vec![], &[node(UNION, 0, 0, 0, 0)]),
            "rows 0 of 0 route none bytes 56",
        ),
        Case::new("runs with no run and no row", mask(""), runs(&[], 0, 0), "rows 0 of 0 route none bytes 96"),
        Case::new("no run, one row passed over", mask(""), runs(&[], 1, 0), "refused 8 journal"),
        Case::new("runs past the last row only", mask(""), runs(&[3, 4], 0, 0), "rows 0 of 0 route none bytes 96"),
        one("an empty buffer past the body", finish(vec![], &[node(FIXED, 0, 1, 0, 1)]), "refused 7 journal"),
        one("an empty buffer at its end", finish(vec![], &[node(FIXED, 0, 1, 0, 0)]), "rows 1 of 1 route all bytes 56"),
        Case { stated: Some(u64::MAX), ..Case::new("a huge count", mask("TF"), column(5), "refused 11 mask") },
        Case {
            stated: Some(1 << 32 | 1),
            ..Case::new("a count that agrees in 32 bits", mask("TF"), column(5), "refused 11 mask")
        },
    ]
}
