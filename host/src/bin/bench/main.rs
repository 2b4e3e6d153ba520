//! The port beside filter.rs, on the same packs, in one process: processor time of one thread in ns for each journal row, the least of
//! many calls, and of N rounds through all columns, for a shared machine is slow for seconds at a time. Needs the feature `port`.
//!
//!     bench [--markdown] [--rounds N] [--native PROGRAM] [COLUMN ...]
//!     bench --filter-only [COLUMN ...]
//!
//! filter      filter.rs's `filter` on arrays built beforehand
//! native      with --native: the same by PROGRAM, this program built for this processor (pext, popcnt, AVX), run for each column in turn
//! plain       for lists, which filter.rs leaves to arrow-data: a filter for that one column in plain Rust, on arrays built beforehand
//! validation  the content rules that must hold before such arrays may be built, in Rust: the fastest of two ways to join the tests and
//!             two forms of the test of a view
//! whole       the whole call of the port on the packs' bytes: check, measure, write; no list stored
//! check, prepare, rest  its parts: the journal's verdict alone; the mask checked and counted alone; what is left of the whole
//! memcpy      as many bytes as the extract has, copied
//! both        validation + filter; for lists validation and plain in one call, one after the other
//! ratio       whole / both
mod columns;
mod plain;
mod validate;

use arrow_select::filter::filter;
use columns::{COLUMNS, Column, Making};
use host::make::Rng;
use host::pack::*;
use host::port::entry::{self, Lent};
use host::rust;
use plain::Lists;
use std::hint::black_box;
use std::process::{Command, exit};
use validate::VALIDATIONS;

/// Kept rows in thousandths: at the ends, in the middle, and on both sides of the route's threshold.
const DENSITIES: [usize; 9] = [1, 10, 100, 500, 800, 810, 990, 999, 1000];
const MASKS: [&str; 2] = ["random", "clustered"];
const SEED: u64 = 5;

/// This thread's processor time in ns: other work on a shared machine does not count.
fn now() -> u64 {
    #[repr(C)]
    struct Time {
        seconds: i64,
        nanoseconds: i64,
    }
    unsafe extern "C" {
        fn clock_gettime(clock: i32, time: *mut Time) -> i32;
    }
    /// CLOCK_THREAD_CPUTIME_ID of Linux
    const THREAD: i32 = 3;
    let mut time = Time { seconds: 0, nanoseconds: 0 };
    // SAFETY: `time` is what the call fills
    assert_eq!(unsafe { clock_gettime(THREAD, &mut time) }, 0);
    (time.seconds * 1_000_000_000 + time.nanoseconds) as u64
}

/// Freed memory is kept and given out again, so that filter.rs's results stand on pages that were used before, as the port's do.
fn reuse_memory() {
    unsafe extern "C" {
        fn mallopt(name: i32, value: i32) -> i32;
    }
    const TRIM_THRESHOLD: i32 = -1;
    const MMAP_THRESHOLD: i32 = -3;
    // SAFETY: both settings of glibc take any number of bytes up to these
    assert_eq!(unsafe { mallopt(MMAP_THRESHOLD, 32 << 20) & mallopt(TRIM_THRESHOLD, i32::MAX) }, 1);
}

/// The least time of up to 100 calls, or of as many as a fifth of a second of processor time has.
fn least(mut call: impl FnMut()) -> f64 {
    let start = now();
    let mut best = u64::MAX;
    for i in 0..100 {
        let before = now();
        call();
        best = best.min(now() - before);
        if i >= 5 && now() - start > 200_000_000 {
            break;
        }
    }
    best as f64
}

/// What is lent to every call of the port, and reused.
struct Room {
    scratch: Vec<u8>,
    output: Vec<u8>,
}

/// Times of plain Rust: alone, and behind the validation in one call, which takes more than the two timed apart.
struct Plain {
    alone: f64,
    behind_validation: f64,
}

/// Times of one column under one mask, in ns for each row.
struct Cell {
    filter: f64,
    native: Option<f64>,
    /// for lists
    plain: Option<Plain>,
    whole: f64,
    prepare: f64,
    memcpy: f64,
}

/// A column's times.
struct Timed {
    name: &'static str,
    rows: usize,
    bytes: usize,
    validation: f64,
    check: f64,
    /// by masks, then by density
    cells: Vec<Vec<Cell>>,
}

/// The lesser of two times of one thing.
fn lesser(a: &mut f64, b: f64) {
    *a = a.min(b);
}

impl Cell {
    fn lesser(&mut self, other: Cell) {
        lesser(&mut self.filter, other.filter);
        lesser(&mut self.whole, other.whole);
        lesser(&mut self.prepare, other.prepare);
        lesser(&mut self.memcpy, other.memcpy);
        if let (Some(a), Some(b)) = (&mut self.native, other.native) {
            lesser(a, b);
        }
        if let (Some(a), Some(b)) = (&mut self.plain, other.plain) {
            lesser(&mut a.alone, b.alone);
            lesser(&mut a.behind_validation, b.behind_validation);
        }
    }
}

impl Timed {
    fn lesser(&mut self, other: Timed) {
        lesser(&mut self.validation, other.validation);
        lesser(&mut self.check, other.check);
        self.cells.iter_mut().flatten().zip(other.cells.into_iter().flatten()).for_each(|(a, b)| a.lesser(b));
    }
    /// What the port's time is held to.
    fn both(&self, cell: &Cell) -> f64 {
        cell.plain.as_ref().map_or(self.validation + cell.filter, |plain| plain.behind_validation)
    }
    fn ratio(&self, cell: &Cell) -> f64 {
        cell.whole / self.both(cell)
    }
}

fn time_filter(mask: &[u8], journal: &[u8], rows: usize) -> f64 {
    let array = rust::build(&Pack::read(journal).unwrap());
    let mask_array = rust::mask_array(&Pack::read(mask).unwrap());
    least(|| drop(black_box(filter(black_box(array.as_ref()), black_box(&mask_array)).unwrap()))) / rows as f64
}

fn time_cell(room: &mut Room, mask: &[u8], journal: &[u8], rows: usize) -> Cell {
    let filter = time_filter(mask, journal, rows);
    let mut answer = [0; 4];
    let whole = least(|| {
        let lent = Lent { list: &mut [], scratch: &mut room.scratch, output: &mut room.output };
        assert_eq!(entry::filter(black_box(mask), black_box(journal), None, false, lent, &mut answer), 0);
    });
    let row = |ns: f64| ns / rows as f64;
    let pack = Pack::read(journal).unwrap();
    let plain = Lists::of(&pack).map(|lists| {
        let words = plain::words(&Pack::read(mask).unwrap());
        let extract = Lists::of(&Pack::read(&room.output[..answer[3] as usize]).unwrap());
        assert!(extract == Some(lists.filter(&words)), "plain Rust and the port differ");
        let filter = || drop(black_box(black_box(&lists).filter(black_box(&words))));
        let behind = |valid: fn(&Pack) -> bool| {
            least(|| {
                assert!(valid(black_box(&pack)));
                filter()
            })
        };
        let behind_validation = VALIDATIONS.map(behind).into_iter().reduce(f64::min).unwrap();
        Plain { alone: row(least(filter)), behind_validation: row(behind_validation) }
    });
    let bytes = (answer[3] as usize).min(journal.len());
    let prepare = least(|| assert_eq!(entry::prepare(black_box(mask), None, false, &mut [], &mut answer), 0));
    let memcpy = least(|| black_box(&mut room.output[..bytes]).copy_from_slice(black_box(&journal[..bytes])));
    Cell { filter, native: None, plain, whole: row(whole), prepare: row(prepare), memcpy: row(memcpy) }
}

/// A column's journal, and what its masks are drawn from.
fn make_column((name, rows, make): Column) -> (Vec<u8>, Rng) {
    let mut r = Rng::new(SEED);
    let mut making = Making::default();
    make(&mut making, &mut r, rows);
    let journal = making.finish();
    assert_eq!(host::model::check(&journal), 0, "{name}");
    (journal, r)
}

/// What `cell` answers under each mask, by masks, then by density.
fn by_masks<T>(r: &mut Rng, rows: usize, mut cell: impl FnMut(&[u8]) -> T) -> Vec<Vec<T>> {
    let spreads: [fn(&mut Rng, usize, usize) -> Vec<bool>; 2] = [columns::random, columns::clustered];
    spreads.map(|spread| DENSITIES.map(|density| cell(&columns::mask(&spread(r, rows, rows * density / 1000)))).into()).into()
}

/// filter.rs's times in another build of this program, in the order of `by_masks`.
fn native_times(program: &str, column: &str) -> Vec<f64> {
    let failed = |why: String| -> ! {
        eprintln!("{program}: {why}");
        exit(1)
    };
    let run = Command::new(program).args(["--filter-only", column]).output().unwrap_or_else(|e| failed(e.to_string()));
    let text = String::from_utf8_lossy(&run.stdout);
    let times: Vec<f64> = text.split_whitespace().map_while(|word| word.parse().ok()).collect();
    if times.len() != MASKS.len() * DENSITIES.len() {
        failed(format!("no times of {column}"));
    }
    times
}

fn time_column(room: &mut Room, native: Option<&String>, column: Column) -> Timed {
    let (name, rows, _) = column;
    let (journal, mut r) = make_column(column);
    let pack = Pack::read(&journal).unwrap();
    let validation = VALIDATIONS.map(|valid| least(|| assert!(valid(black_box(&pack))))).into_iter().reduce(f64::min).unwrap();
    let check = least(|| assert_eq!(entry::check(black_box(&journal)), 0));
    let mut cells = by_masks(&mut r, rows, |mask| time_cell(room, mask, &journal, rows));
    if let Some(program) = native {
        let times = native_times(program, name);
        cells.iter_mut().flatten().zip(times).for_each(|(cell, ns)| cell.native = Some(ns));
    }
    let row = |ns: f64| ns / rows as f64;
    Timed { name, rows, bytes: journal.len(), validation: row(validation), check: row(check), cells }
}

/// Prints rows of cells, the first row being the head: as Markdown, or in columns.
fn print_table(markdown: bool, table: &[Vec<String>]) {
    for (i, row) in table.iter().enumerate() {
        if markdown {
            println!("| {} |", row.join(" | "));
        } else {
            println!("{:20}{}", row[0], row[1..].iter().map(|cell| format!("{cell:>12}")).collect::<String>());
        }
        if markdown && i == 0 {
            println!("|---|{}", "--:|".repeat(row.len() - 1));
        }
    }
    println!();
}

fn percent(density: usize) -> String {
    format!("{} %", density as f64 / 10.0)
}

fn print_all(markdown: bool, columns: &[Timed]) {
    let title = |text: String| if markdown { println!("### {text}\n") } else { println!("{text}") };
    for (i, masks) in MASKS.iter().enumerate() {
        title(format!("whole / (validation + filter), for lists whole / (validation and plain in one call), {masks} masks"));
        let head = std::iter::once("column".into()).chain(DENSITIES.map(percent)).collect();
        let row =
            |c: &Timed| std::iter::once(c.name.into()).chain(c.cells[i].iter().map(|x| format!("{:.2}", c.ratio(x)))).collect();
        print_table(markdown, &std::iter::once(head).chain(columns.iter().map(row)).collect::<Vec<_>>());
    }
    for c in columns {
        title(format!("{}: {} rows, {} bytes", c.name, c.rows, c.bytes));
        let mut head =
            vec!["masks, kept", "filter", "validation", "both", "check", "prepare", "rest", "whole", "memcpy", "ratio"];
        if c.cells[0][0].plain.is_some() {
            head.insert(2, "plain");
        }
        if c.cells[0][0].native.is_some() {
            head.insert(2, "native");
        }
        let mut table = vec![head.into_iter().map(String::from).collect()];
        for (masks, cells) in MASKS.iter().zip(&c.cells) {
            for (density, x) in DENSITIES.iter().zip(cells) {
                let rest = x.whole - c.check - x.prepare;
                let mut times = vec![x.filter];
                times.extend(x.native);
                times.extend(x.plain.as_ref().map(|plain| plain.alone));
                times.extend([c.validation, c.both(x), c.check, x.prepare, rest, x.whole, x.memcpy]);
                let mut row = vec![format!("{masks} {}", percent(*density))];
                row.extend(times.iter().map(|ns| format!("{ns:.3}")));
                row.push(format!("{:.2}", c.ratio(x)));
                table.push(row);
            }
        }
        print_table(markdown, &table);
    }
}

/// Takes a word and the one behind it out of the arguments: an option's value.
fn option(words: &mut Vec<String>, name: &str) -> Option<String> {
    let at = words.iter().position(|word| word == name)?;
    words.remove(at);
    if at == words.len() {
        eprintln!("{name} needs a value");
        exit(2);
    }
    Some(words.remove(at))
}

fn flag(words: &mut Vec<String>, name: &str) -> bool {
    let at = words.iter().position(|word| word == name);
    at.map(|at| words.remove(at)).is_some()
}

fn main() {
    let mut words: Vec<String> = std::env::args().skip(1).collect();
    let markdown = flag(&mut words, "--markdown");
    let filter_only = flag(&mut words, "--filter-only");
    let native = option(&mut words, "--native");
    let rounds: usize = option(&mut words, "--rounds").map_or(1, |word| word.parse().unwrap_or(0));
    if rounds == 0 {
        eprintln!("--rounds needs a number from 1 on");
        exit(2);
    }
    if let Some(word) = words.iter().find(|word| COLUMNS.iter().all(|column| column.0 != **word)) {
        eprintln!("no column {word}");
        exit(2);
    }
    reuse_memory();
    let named: Vec<Column> =
        COLUMNS.iter().filter(|column| words.is_empty() || words.iter().any(|name| *name == column.0)).copied().collect();
    if filter_only {
        for column in named {
            let (journal, mut r) = make_column(column);
            let times = by_masks(&mut r, column.1, |mask| time_filter(mask, &journal, column.1));
            times.iter().flatten().for_each(|ns| println!("{ns}"));
        }
        return;
    }
    // two nodes, one below the other, each with a child of as many rows as a node may have
    let mut room = Room { scratch: vec![0; 2 * ROW_LIMIT as usize / 8], output: vec![0; PACK_LIMIT] };
    let mut timed: Vec<Timed> = vec![];
    for round in 0..rounds {
        for (i, column) in named.iter().enumerate() {
            eprintln!("{}", column.0);
            let new = time_column(&mut room, native.as_ref(), *column);
            if round == 0 {
                timed.push(new);
            } else {
                timed[i].lesser(new);
            }
        }
    }
    print_all(markdown, &timed);
}
