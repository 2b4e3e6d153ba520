//! The packs that are timed: a column of each kind, as long as a pack may be, and masks of each density.
use host::make::Rng;
use host::pack::*;

/// As many rows as a node may have.
const ROWS: usize = ROW_LIMIT as usize;
/// Bytes of the data buffer that long views point into.
const DATA: usize = 1 << 20;

/// Name, rows and how to make it.
pub type Column = (&'static str, usize, fn(&mut Making, &mut Rng, usize));

/// All rows that a node may have, or as many as make a pack of just under 16 MiB.
pub const COLUMNS: [Column; 19] = [
    ("native 1", ROWS, Making::native::<1>),
    ("native 4", ROWS, Making::native::<4>),
    ("native 8", ROWS, Making::native::<8>),
    ("native 16", 1_048_560, Making::native::<16>),
    ("fixed 12", ROWS, Making::fixed),
    ("bits", ROWS, Making::bits),
    ("native 8 with nulls", ROWS, Making::nullable),
    ("short strings", 1_046_000, Making::strings),
    ("views", 983_000, Making::views::<0, 24>),
    // how long the check of a view takes hangs on whether the next is of the same sort
    ("short views", 983_000, Making::views::<0, 12>),
    ("long views", 983_000, Making::views::<13, 24>),
    ("list views", ROWS, Making::list_views),
    ("runs of 8", ROWS, Making::runs),
    ("dictionary", ROWS, Making::dictionary),
    ("struct of 8 columns", 273_000, Making::structure),
    ("union", ROWS, Making::union),
    // the rows that lists of 3.5 rows on average can have below them, and a little less
    ("lists", 298_000, Making::lists),
    ("lists of lists", 85_000, Making::lists_of_lists),
    ("runs of runs", ROWS, Making::runs_of_runs),
];

/// A pack being put together.
#[derive(Default)]
pub struct Making {
    body: Vec<u8>,
    nodes: Vec<Node>,
}

impl Making {
    pub fn finish(self) -> Vec<u8> {
        let pack = finish(self.body, &self.nodes);
        assert!(pack.len() <= PACK_LIMIT);
        pack
    }

    fn put(&mut self, bytes: impl IntoIterator<Item = u8>) -> u32 {
        let at = self.body.len() as u32;
        self.body.extend(bytes);
        at
    }

    /// Adds a node with a first buffer and gives its number.
    fn node(&mut self, kind: u32, param: u32, rows: usize, kids: usize, first: impl IntoIterator<Item = u8>) -> usize {
        let first = self.put(first);
        self.nodes.push(Node { first, ..Node::new(kind, param, rows, kids) });
        self.nodes.len() - 1
    }

    fn bits(&mut self, r: &mut Rng, rows: usize) {
        self.node(BITS, 0, rows, 0, r.bytes(rows.div_ceil(8)));
    }

    fn native<const WIDTH: usize>(&mut self, r: &mut Rng, rows: usize) {
        self.node(NATIVE, WIDTH as u32, rows, 0, r.bytes(rows * WIDTH));
    }

    /// One row of ten is null.
    fn nullable(&mut self, r: &mut Rng, rows: usize) {
        let node = self.node(NATIVE, 8, rows, 0, r.bytes(rows * 8));
        let mut byte = || (0..8).map(|bit| ((r.below(10) > 0) as u8) << bit).sum::<u8>();
        self.nodes[node].validity = self.put((0..rows.div_ceil(8)).map(|_| byte()));
    }

    fn fixed(&mut self, r: &mut Rng, rows: usize) {
        self.node(FIXED, 12, rows, 0, r.bytes(12 * rows));
    }

    /// Strings of 0 to 24 bytes.
    fn strings(&mut self, r: &mut Rng, rows: usize) {
        let mut ends = vec![0u32];
        (0..rows).for_each(|i| ends.push(ends[i] + r.below(25) as u32));
        let node = self.node(BYTES, 0, rows, 0, ends.iter().flat_map(|e| e.to_le_bytes()));
        self.nodes[node].second_length = ends[rows];
        self.nodes[node].second = self.put(r.bytes(ends[rows] as usize));
    }

    /// Views of LEAST to MOST bytes, the long ones into one data buffer.
    fn views<const LEAST: usize, const MOST: usize>(&mut self, r: &mut Rng, rows: usize) {
        let data = r.bytes(DATA);
        let mut views = vec![];
        for _ in 0..rows {
            let (length, offset) = (LEAST + r.below(MOST - LEAST + 1), r.below(DATA - MOST));
            views.extend((length as u32).to_le_bytes());
            match length {
                0..=12 => views.extend(r.bytes(length)),
                _ => views.extend([&data[offset..offset + 4], &[0; 4], &(offset as u32).to_le_bytes()].concat()),
            }
            views.resize(views.len().next_multiple_of(16), 0);
        }
        self.node(VIEWS, 0, rows, 1, views);
        self.node(NATIVE, 1, DATA, 0, data);
    }

    /// 1,000 values.
    fn dictionary(&mut self, r: &mut Rng, rows: usize) {
        self.node(DICTIONARY, 4, rows, 1, (0..rows).flat_map(|_| (r.below(1000) as u32).to_le_bytes()).collect::<Vec<u8>>());
        self.native::<8>(r, 1000);
    }

    /// Lists of 0 to 7 rows anywhere in a child of as many rows.
    fn list_views(&mut self, r: &mut Rng, rows: usize) {
        let mut random = |below: usize| (0..rows).flat_map(|_| (r.below(below) as u32).to_le_bytes()).collect::<Vec<u8>>();
        let (offsets, sizes) = (random(rows - 8), random(8));
        let node = self.node(LIST_VIEW, 0, rows, 1, offsets);
        self.nodes[node].second = self.put(sizes);
        self.native::<4>(r, rows);
    }

    /// Lists of 0 to 7 rows, one after the other; gives the child's rows.
    fn list_node(&mut self, r: &mut Rng, rows: usize) -> usize {
        let mut ends = vec![0u32];
        (0..rows).for_each(|i| ends.push(ends[i] + r.below(8) as u32));
        self.node(LIST, 0, rows, 1, ends.iter().flat_map(|e| e.to_le_bytes()));
        ends[rows] as usize
    }

    fn lists(&mut self, r: &mut Rng, rows: usize) {
        let rows = self.list_node(r, rows);
        self.native::<4>(r, rows);
    }

    fn lists_of_lists(&mut self, r: &mut Rng, rows: usize) {
        let rows = self.list_node(r, rows);
        self.lists(r, rows);
    }

    /// Runs of 8 rows on average; gives how many.
    fn run_node(&mut self, r: &mut Rng, rows: usize) -> usize {
        let mut ends = vec![];
        let mut end = 0;
        while end < rows {
            end = (end + 1 + r.below(15)).min(rows);
            ends.push(end as u32);
        }
        self.node(RUNS, 4, rows, 1, ends.iter().flat_map(|e| e.to_le_bytes()));
        ends.len()
    }

    fn runs(&mut self, r: &mut Rng, rows: usize) {
        let runs = self.run_node(r, rows);
        self.native::<4>(r, runs);
    }

    fn runs_of_runs(&mut self, r: &mut Rng, rows: usize) {
        let runs = self.run_node(r, rows);
        self.runs(r, runs);
    }

    /// Two children.
    fn union(&mut self, r: &mut Rng, rows: usize) {
        self.node(UNION, 0, rows, 2, (0..rows).map(|_| r.below(2) as u8).collect::<Vec<u8>>());
        self.native::<4>(r, rows);
        self.native::<8>(r, rows);
    }

    /// Native 1, 4, 8, 8 with nulls, bits, short strings, views, dictionary.
    fn structure(&mut self, r: &mut Rng, rows: usize) {
        let node = self.node(STRUCT, 0, rows, 8, []);
        self.nodes[node].first = 0;
        self.native::<1>(r, rows);
        self.native::<4>(r, rows);
        self.native::<8>(r, rows);
        self.nullable(r, rows);
        self.bits(r, rows);
        self.strings(r, rows);
        self.views::<0, 24>(r, rows);
        self.dictionary(r, rows);
    }
}

/// A mask that picks these slots.
pub fn mask(picks: &[bool]) -> Vec<u8> {
    let mut bits = vec![0u8; picks.len().div_ceil(8)];
    picks.iter().enumerate().for_each(|(i, pick)| bits[i / 8] |= (*pick as u8) << (i % 8));
    let mut making = Making::default();
    making.node(BITS, 0, picks.len(), 0, bits);
    making.finish()
}

/// `count` of `slots` picked, each alike.
pub fn random(r: &mut Rng, slots: usize, count: usize) -> Vec<bool> {
    let mut left = count;
    let mut pick = |i: usize| {
        let hit = r.below(slots - i) < left;
        left -= hit as usize;
        hit
    };
    (0..slots).map(&mut pick).collect()
}

/// `count` of `slots` picked, the rarer of picked and not picked in runs of 64 on average.
pub fn clustered(r: &mut Rng, slots: usize, count: usize) -> Vec<bool> {
    let share = count as f64 / slots as f64;
    let longer = 64.0 * share.max(1.0 - share) / share.min(1.0 - share).max(1e-9);
    let means = if share <= 0.5 { [longer, 64.0] } else { [64.0, longer] };
    // lengths fall off as chance has it
    let mut length = |mean: f64| 1 + (-(1.0 - (r.next() >> 11) as f64 / (1u64 << 53) as f64).ln() * (mean - 1.0)) as usize;
    let mut picks = vec![];
    while picks.len() < slots && count < slots {
        for (pick, mean) in [false, true].into_iter().zip(means) {
            picks.resize(picks.len() + length(mean), pick);
        }
    }
    picks.resize(slots, true);
    // run ends are moved until the count is right
    let mut have = picks.iter().filter(|pick| **pick).count();
    while have != count {
        // a short mask may have no run end left to move, and the slots in front alone not picked
        if have < count && !picks.windows(2).any(|pair| pair[0] && !pair[1]) {
            picks[slots - count..].fill(true);
            break;
        }
        for i in 1..slots {
            if have > count && picks[i] && !picks[i - 1] {
                picks[i] = false;
                have -= 1;
            } else if have < count && !picks[i] && picks[i - 1] {
                picks[i] = true;
                have += 1;
            }
        }
    }
    picks
}
