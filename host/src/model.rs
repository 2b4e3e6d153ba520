//! The specification (docs/FORMAT.md) read a second time, in Rust, apart from the definitions that the port is proved against: what each call must
//! return. Plain loops over rows, no routes and no words, so that it shares no method with the port or with filter.rs.
use crate::pack::*;

/// The pack that a refusal names.
#[derive(Debug, Clone, Copy, PartialEq)]
pub enum Named {
    Mask,
    Journal,
}

#[derive(Debug, Clone, Copy, PartialEq)]
pub enum Route {
    None,
    All,
    Slices,
    Indices,
}

#[derive(Debug, Clone, Copy, PartialEq)]
pub enum Answer {
    /// kept rows, mask length, route, extract length (0 from `prepare`)
    Done { kept: u64, slots: u64, route: Route, bytes: u64 },
    /// the condition's number, and the pack that the refusal names
    Refused { number: u64, pack: Named },
}

/// The greatest number of a refusal.
pub const LAST_REFUSAL: usize = 20;

/// What `filter` is given; what is lent is as it stands before the call.
#[derive(Debug, Clone, Copy)]
pub struct Call<'a> {
    pub mask: &'a [u8],
    pub journal: &'a [u8],
    pub stated: Option<u64>,
    pub asked: bool,
    pub list: &'a [u32],
    pub scratch: &'a [u8],
    pub output: &'a [u8],
}

/// The answer, and what is lent as it stands at return.
#[derive(Debug, Clone, PartialEq)]
pub struct Return {
    pub answer: Answer,
    pub output: Vec<u8>,
    pub list: Vec<u32>,
    pub scratch: Vec<u8>,
}

/// The verdict on a journal: the number of the first condition of 1 to 8, 20 that holds, 0 if none does.
pub fn check(bytes: &[u8]) -> u64 {
    if bytes.len() < TRAILER_BYTES || bytes.len() > PACK_LIMIT {
        return 1;
    }
    if !bytes.ends_with(&MARK) && !bytes.ends_with(&OLD_MARK) {
        return 2;
    }
    let Some(pack) = Pack::read(bytes) else { return 3 };
    let all = |holds: &dyn Fn(usize) -> bool| (0..pack.nodes.len()).all(holds);
    if !all(&|i| fields_fit(&pack.nodes[i], pack.counted)) {
        return 4;
    }
    if pack.parents.is_empty() || !all(&|i| child_fits(&pack, i)) {
        return 5;
    }
    if pack.root_rows != pack.nodes[0].rows || !all(&|i| rows_fit(&pack, i)) {
        return 6;
    }
    if !all(&|i| buffers_fit(&pack, i)) {
        return 7;
    }
    if !all(&|i| content_fits(&pack, i)) {
        return 8;
    }
    if pack.counted && !all(&|i| count_fits(&pack, i)) {
        return 20;
    }
    0
}

/// The verdict on a mask: 1 to 8, 20, 9, 0 if none holds.
pub fn check_mask(bytes: &[u8]) -> u64 {
    match check(bytes) {
        0 if Pack::read(bytes).unwrap().nodes[0].kind != BITS => 9,
        verdict => verdict,
    }
}

/// 4: kind, param, kids number, bitmap where none may be, unused field; the last one is used where null counts are carried.
fn fields_fit(n: &Node, counted: bool) -> bool {
    let param = match n.kind {
        NATIVE => [1, 2, 4, 8, 16, 32].contains(&n.param),
        FIXED => n.param <= 1024,
        RUNS => [2, 4, 8].contains(&n.param),
        DICTIONARY => [1, 2, 4, 8].contains(&n.param),
        BITS..=LARGE_LIST => n.param == 0,
        _ => false,
    };
    let kids = match n.kind {
        VIEWS | STRUCT | UNION => true,
        LIST_VIEW | LARGE_LIST_VIEW | RUNS | DICTIONARY | LIST | LARGE_LIST => n.kids == 1,
        _ => n.kids == 0,
    };
    let bitmap = n.validity == NO_BITMAP || !matches!(n.kind, RUNS | UNION);
    let first = n.kind != STRUCT || n.first == 0;
    let second = matches!(n.kind, BYTES | LARGE_BYTES | LIST_VIEW | LARGE_LIST_VIEW) || n.second == 0;
    let second_length = matches!(n.kind, BYTES | LARGE_BYTES) || n.second_length == 0;
    param && kids && bitmap && first && second && second_length && (counted || n.nulls == 0)
}

/// 5, of a closed tree: a child of views is native of width 1 with no bitmap.
fn child_fits(pack: &Pack, i: usize) -> bool {
    let n = &pack.nodes[i];
    let under_views = pack.parents[i].is_some_and(|p| pack.nodes[p].kind == VIEWS);
    !under_views || (n.kind == NATIVE && n.param == 1 && n.validity == NO_BITMAP)
}

/// 6, but for the trailer: row limit; a child of struct or union has its parent's rows.
fn rows_fit(pack: &Pack, i: usize) -> bool {
    let n = &pack.nodes[i];
    let parent = pack.parents[i].map(|p| pack.nodes[p]).filter(|p| matches!(p.kind, STRUCT | UNION));
    n.span() as u64 <= ROW_LIMIT && parent.is_none_or(|p| p.rows == n.rows)
}

/// 7: each buffer lies in the body.
fn buffers_fit(pack: &Pack, i: usize) -> bool {
    let n = &pack.nodes[i];
    let (span, width) = (n.span() as u64, n.width() as u64);
    let bitmap = span.div_ceil(8);
    let first = match n.kind {
        BITS => bitmap,
        BYTES | LARGE_BYTES | LIST | LARGE_LIST => (span + 1) * width,
        RUNS => pack.nodes[i + 1].rows as u64 * width,
        STRUCT => 0,
        _ => span * width,
    };
    let second = match n.kind {
        BYTES | LARGE_BYTES => n.second_length as u64,
        LIST_VIEW | LARGE_LIST_VIEW => span * width,
        _ => 0,
    };
    let lies = |at: u32, length: u64| at as u64 + length <= pack.body.len() as u64;
    (n.validity == NO_BITMAP || lies(n.validity, bitmap)) && lies(n.first, first) && lies(n.second, second)
}

/// 8, of a pack whose buffers lie in the body.
fn content_fits(pack: &Pack, i: usize) -> bool {
    let n = &pack.nodes[i];
    let (skip, rows) = (n.skip as usize, n.rows as usize);
    let mut places = skip..skip + rows;
    let children = pack.children(i);
    let child_rows = |k: usize| pack.nodes[children[k]].rows as i128;
    let first = |place: usize| signed(pack.body, n.first, n.width(), place);
    // one more than there are rows: from 0 or more, never falling, the last within what they point into
    let offsets_fit =
        |end: i128| first(skip) >= 0 && places.clone().all(|p| first(p) <= first(p + 1)) && first(skip + rows) <= end;
    match n.kind {
        BYTES | LARGE_BYTES => offsets_fit(n.second_length as i128),
        LIST | LARGE_LIST => offsets_fit(child_rows(0)),
        VIEWS => places.all(|p| {
            let view = |field: usize| signed(pack.body, n.first + 4 * field as u32, 4, 4 * p);
            let (length, buffer, offset) = (view(0), view(2), view(3));
            let bytes = &pack.body[n.first as usize + 16 * p..][..16];
            let known = (0..children.len() as i128).contains(&buffer);
            match length {
                ..0 => false,
                // what the bytes leave unused is zero
                0..=12 => bytes[4 + length as usize..].iter().all(|byte| *byte == 0),
                _ if !known || offset < 0 || offset + length > child_rows(buffer as usize) => false,
                // the prefix is true
                _ => {
                    let data = &pack.nodes[children[buffer as usize]];
                    let start = data.first as usize + data.skip as usize + offset as usize;
                    bytes[4..8] == pack.body[start..start + 4]
                }
            }
        }),
        LIST_VIEW | LARGE_LIST_VIEW => places.all(|p| {
            let (offset, size) = (first(p), signed(pack.body, n.second, n.width(), p));
            offset >= 0 && size >= 0 && offset + size <= child_rows(0)
        }),
        RUNS => {
            let runs = child_rows(0) as usize;
            // an end of 0 stands before the first run
            let end = |run: usize| if run == 0 { 0 } else { first(run - 1) };
            (0..runs).all(|run| end(run) < end(run + 1)) && end(runs) >= (skip + rows) as i128
        }
        UNION => places.all(|p| pack.first(i, p) < n.kids as u64),
        DICTIONARY => (0..rows).all(|row| !pack.valid(i, row) || (pack.first(i, skip + row) as i128) < child_rows(0)),
        _ => true,
    }
}

/// 20: as many rows from skip on are null as the node says.
fn count_fits(pack: &Pack, i: usize) -> bool {
    let n = &pack.nodes[i];
    let mut nulls = 0;
    for row in 0..n.rows as usize {
        if !pack.valid(i, row) {
            nulls += 1;
        }
    }
    n.nulls == nulls
}

/// Entry `place` of `width` bytes of the buffer at `at`, two's complement.
fn signed(body: &[u8], at: u32, width: usize, place: usize) -> i128 {
    let n = number(body, at as usize + place * width, width) as i128;
    if n >> (8 * width - 1) == 1 { n - (1 << (8 * width)) } else { n }
}

/// What an accepted mask says: its length, and the slots that are true and not null.
pub struct Picks {
    pub slots: usize,
    pub picked: Vec<usize>,
}

impl Picks {
    pub fn of(mask: &[u8]) -> Self {
        let pack = Pack::read(mask).unwrap();
        let n = &pack.nodes[0];
        let slots = n.rows as usize;
        let value = |slot: usize| bit(pack.body, n.first as usize, n.skip as usize + slot);
        Self { slots, picked: (0..slots).filter(|&slot| value(slot) && pack.valid(0, slot)).collect() }
    }

    pub fn route(&self) -> Route {
        let (count, length) = (self.picked.len() as u64, self.slots as u64);
        match () {
            _ if count == 0 => Route::None,
            _ if count == length => Route::All,
            _ if 5 * count > 4 * length => Route::Slices,
            _ => Route::Indices,
        }
    }

    /// The stored list: row numbers, or start and end of each run.
    pub fn entries(&self) -> Vec<u32> {
        match self.route() {
            Route::None | Route::All => vec![],
            Route::Indices => self.picked.iter().map(|&slot| slot as u32).collect(),
            Route::Slices => {
                let mut entries: Vec<u32> = vec![];
                for &slot in &self.picked {
                    match entries.last_mut() {
                        Some(end) if *end == slot as u32 => *end += 1,
                        _ => entries.extend([slot as u32, slot as u32 + 1]),
                    }
                }
                entries
            }
        }
    }
}

/// The rows that each node keeps, rising, counted after the node's skip.
pub fn kept_rows(journal: &Pack, picked: &[usize]) -> Vec<Vec<usize>> {
    let mut kept: Vec<Vec<usize>> = vec![];
    for i in 0..journal.nodes.len() {
        kept.push(match journal.parents[i] {
            None => picked.to_vec(),
            Some(p) => kept_below(journal, i, p, &kept[p]),
        });
    }
    kept
}

/// The rows that node `i` keeps if its parent `p` keeps the rows `above`.
pub fn kept_below(journal: &Pack, i: usize, p: usize, above: &[usize]) -> Vec<usize> {
    match &journal.nodes[p] {
        _ if above.is_empty() => vec![],
        parent if parent.carries() => (0..journal.nodes[i].rows as usize).collect(),
        parent if parent.kind == RUNS => {
            let mut runs = runs_of(journal, p, above);
            runs.dedup();
            runs
        }
        parent if parent.is_list() => above.iter().flat_map(|&row| own_rows(journal, p, row)).collect(),
        _ => above.to_vec(),
    }
}

/// The run of each row of a runs node; the rows rise.
fn runs_of(journal: &Pack, i: usize, rows: &[usize]) -> Vec<usize> {
    let skip = journal.nodes[i].skip as usize;
    let mut run = 0;
    rows.iter()
        .map(|&row| {
            while journal.first(i, run) <= (skip + row) as u64 {
                run += 1;
            }
            run
        })
        .collect()
}

/// The child rows that a row of a list node keeps: its own, and none if it is null.
fn own_rows(journal: &Pack, i: usize, row: usize) -> std::ops::Range<usize> {
    let offset = |row: usize| journal.first(i, journal.nodes[i].skip as usize + row) as usize;
    if journal.valid(i, row) { offset(row)..offset(row + 1) } else { 0..0 }
}

/// Bytes of scratch needed: a bit for each row of the child of each runs node and of each list node.
pub fn scratch_needed(journal: &Pack) -> usize {
    let counted = |n: &Node| n.kind == RUNS || n.is_list();
    let child = |i: usize| journal.nodes[i + 1].rows as usize;
    (0..journal.nodes.len()).filter(|&i| counted(&journal.nodes[i])).map(|i| child(i).div_ceil(8)).sum()
}

/// The extract's bytes; `None` if they are more than a pack may have.
pub fn extract(journal: &Pack, picked: &[usize]) -> Option<Vec<u8>> {
    write(journal, &kept_rows(journal, picked))
}

/// The pack that has these rows of each node; `None` if it has more bytes than a pack may have.
pub fn write(journal: &Pack, kept: &[Vec<usize>]) -> Option<Vec<u8>> {
    let mut body = vec![];
    let mut nodes = vec![];
    for (i, kept) in kept.iter().enumerate() {
        nodes.push(write_node(journal, i, kept, &mut body));
        if body.len() > PACK_LIMIT {
            return None;
        }
    }
    raise(&mut body);
    let extract = finish_as(body, &nodes, MARK);
    (extract.len() <= PACK_LIMIT).then_some(extract)
}

/// Zeros up to the next multiple of 8.
fn raise(body: &mut Vec<u8>) {
    body.resize(body.len().next_multiple_of(8), 0);
}

/// Appends a buffer and gives its start.
fn put(body: &mut Vec<u8>, buffer: &[u8]) -> u32 {
    raise(body);
    let at = body.len() as u32;
    body.extend(buffer);
    at
}

/// Appends what node `i` keeps, and gives the node that is written.
fn write_node(journal: &Pack, i: usize, kept: &[usize], body: &mut Vec<u8>) -> Node {
    let n = &journal.nodes[i];
    let (skip, width) = (n.skip as usize, n.width());
    let mut new = Node::new(n.kind, n.param, kept.len(), n.kids as usize);
    let entries = |at: u32, kept: &[usize]| -> Vec<u8> {
        let entry = |row: usize| at as usize + (skip + row) * width;
        kept.iter().flat_map(|&row| &journal.body[entry(row)..entry(row) + width]).copied().collect()
    };
    new.nulls = kept.iter().filter(|&&row| !journal.valid(i, row)).count() as u32;
    if new.nulls != 0 {
        new.validity = put(body, &pack_bits(kept.iter().map(|&row| journal.valid(i, row))));
    }
    match n.kind {
        BITS => {
            let value = |&row: &usize| bit(journal.body, n.first as usize, skip + row);
            new.first = put(body, &pack_bits(kept.iter().map(value)));
        }
        BYTES | LARGE_BYTES => {
            let mut offsets = 0u64.to_le_bytes()[..width].to_vec();
            let mut data = vec![];
            for &row in kept {
                let (start, end) = (journal.first(i, skip + row) as usize, journal.first(i, skip + row + 1) as usize);
                data.extend(&journal.body[n.second as usize..][start..end]);
                offsets.extend(&(data.len() as u64).to_le_bytes()[..width]);
            }
            new.first = put(body, &offsets);
            new.second = put(body, &data);
            new.second_length = data.len() as u32;
        }
        LIST | LARGE_LIST => {
            let mut offsets = 0u64.to_le_bytes()[..width].to_vec();
            let mut end = 0;
            for &row in kept {
                end += own_rows(journal, i, row).len() as u64;
                offsets.extend(&end.to_le_bytes()[..width]);
            }
            new.first = put(body, &offsets);
        }
        LIST_VIEW | LARGE_LIST_VIEW => {
            new.first = put(body, &entries(n.first, kept));
            new.second = put(body, &entries(n.second, kept));
        }
        RUNS => {
            let runs = runs_of(journal, i, kept);
            let ends = (1..=runs.len()).filter(|&end| end == runs.len() || runs[end - 1] != runs[end]);
            let ends: Vec<u8> = ends.flat_map(|end| (end as u64).to_le_bytes()[..width].to_vec()).collect();
            new.first = put(body, &ends);
        }
        STRUCT => {}
        _ => new.first = put(body, &entries(n.first, kept)),
    }
    new
}

/// Bits to bytes, spare bits 0.
fn pack_bits(bits: impl Iterator<Item = bool>) -> Vec<u8> {
    let mut out = vec![];
    for (i, bit) in bits.enumerate() {
        if i % 8 == 0 {
            out.push(0);
        }
        out[i / 8] |= (bit as u8) << (i % 8);
    }
    out
}

/// What `filter` returns.
pub fn filter(call: &Call) -> Return {
    let mut end = Return {
        answer: Answer::Refused { number: 0, pack: Named::Mask },
        output: call.output.to_vec(),
        list: call.list.to_vec(),
        scratch: call.scratch.to_vec(),
    };
    match accept(call) {
        Err((number, pack)) => end.answer = Answer::Refused { number, pack },
        Ok(done) => {
            let slots = done.picks.slots as u64;
            let kept = done.picks.picked.len() as u64;
            let bytes = done.extract.len() as u64;
            end.answer = Answer::Done { kept, slots, route: done.picks.route(), bytes };
            end.output[..done.extract.len()].copy_from_slice(&done.extract);
            if call.asked {
                let entries = done.picks.entries();
                end.list[..entries.len()].copy_from_slice(&entries);
            }
            end.scratch[..done.scratch].fill(0);
        }
    }
    end
}

/// What a call that is not refused comes to.
struct Done {
    picks: Picks,
    extract: Vec<u8>,
    scratch: usize,
}

/// The conditions in their order: mask 1 to 8, 20, 9, 11; journal 1 to 8, 20, 10, 12, 13, 14.
fn accept(call: &Call) -> Result<Done, (u64, Named)> {
    let refuse = |holds: bool, number: u64, pack: Named| if holds { Err((number, pack)) } else { Ok(()) };
    let picks = accept_mask(call.mask, call.stated)?;
    let verdict = check(call.journal);
    refuse(verdict != 0, verdict, Named::Journal)?;
    let journal = Pack::read(call.journal).unwrap();
    refuse(picks.slots > journal.nodes[0].rows as usize, 10, Named::Journal)?;
    refuse(call.asked && call.list.len() < picks.entries().len(), 12, Named::Journal)?;
    let scratch = scratch_needed(&journal);
    refuse(call.scratch.len() < scratch, 13, Named::Journal)?;
    match extract(&journal, &picks.picked) {
        Some(extract) if extract.len() <= call.output.len() => Ok(Done { picks, extract, scratch }),
        _ => Err((14, Named::Journal)),
    }
}

/// 1 to 8, 20, 9, and 11: the stated count is wrong.
fn accept_mask(mask: &[u8], stated: Option<u64>) -> Result<Picks, (u64, Named)> {
    let verdict = check_mask(mask);
    if verdict != 0 {
        return Err((verdict, Named::Mask));
    }
    let picks = Picks::of(mask);
    if stated.is_some_and(|count| count != picks.picked.len() as u64) {
        return Err((11, Named::Mask));
    }
    Ok(picks)
}

/// What `prepare` returns: the answer, and the list.
pub fn prepare(mask: &[u8], stated: Option<u64>, asked: bool, list: &[u32]) -> (Answer, Vec<u32>) {
    let mut after = list.to_vec();
    let answer = match accept_mask(mask, stated) {
        Err((number, pack)) => Answer::Refused { number, pack },
        Ok(picks) => {
            let entries = if asked { picks.entries() } else { vec![] };
            if list.len() < entries.len() {
                // the specification lets 12 name the journal, here too
                Answer::Refused { number: 12, pack: Named::Journal }
            } else {
                after[..entries.len()].copy_from_slice(&entries);
                Answer::Done { kept: picks.picked.len() as u64, slots: picks.slots as u64, route: picks.route(), bytes: 0 }
            }
        }
    };
    (answer, after)
}
