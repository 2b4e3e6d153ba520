//! Differential runs: the model of the specification against arrow-select's filter.rs, and, with the feature `port`, against the port.
//!
//!     differ                      all of the below, small
//!     differ random SEED COUNT    random packs, good and damaged
//!     differ alike SEED COUNT     pairs of journals alike in the kept part, different elsewhere (demand 3)
//!     differ exhaustive SLOTS     every mask of up to SLOTS slots, on columns of every kind, each skip from 0 to 9
//!     differ boundaries SEED ROUNDS  masks around each boundary of length and count, on columns of every kind
//!     differ long SEED ROUNDS     masks of 65,535 slots and more, few to nearly all picked, on columns of every kind
//!     differ list SEED COUNT FOLDER  writes random calls and what they give, for the program `replay`, as FOLDER/stdin and stdout
//!     differ paper                the specification's bench cases and refusal examples, and packs at its limits
//!
//! The last line is 'N passed, M failed'. The smallest failing input of each run is printed in hex.
use host::compare::{self, Journal};
use host::make::*;
use host::model::{self, LAST_REFUSAL, Picks};
use host::pack::*;
use host::paper;
use host::port::{Model, Port};
use host::replay::{self, Replay};
use std::panic::{AssertUnwindSafe, catch_unwind};
use std::process::ExitCode;
use std::sync::atomic::{AtomicBool, Ordering::Relaxed};

#[cfg(feature = "port")]
fn port() -> Option<Box<dyn Port>> {
    Some(Box::new(host::port::Linked))
}

#[cfg(not(feature = "port"))]
fn port() -> Option<Box<dyn Port>> {
    None
}

/// Inside a case, where a panic is a failure like any other and shown with its input.
static QUIET: AtomicBool = AtomicBool::new(false);

fn panic_message(payload: &(dyn std::any::Any + Send)) -> String {
    let text = payload.downcast_ref::<String>().map(String::as_str).or(payload.downcast_ref::<&str>().copied());
    format!("panicked: {}", text.unwrap_or("no message"))
}

/// What has been run, and the smallest input that failed.
#[derive(Default)]
struct Tally {
    passed: u64,
    failed: u64,
    worst: Option<(usize, String)>,
}

impl Tally {
    /// One case on the packs named, passed if `run` is content and does not panic.
    fn case<T>(&mut self, name: &str, packs: &[&[u8]], run: impl FnOnce() -> Result<T, String>) -> Option<T> {
        QUIET.store(true, Relaxed);
        let result = catch_unwind(AssertUnwindSafe(run));
        QUIET.store(false, Relaxed);
        match result.unwrap_or_else(|p| Err(panic_message(p.as_ref()))) {
            Ok(value) => {
                self.passed += 1;
                Some(value)
            }
            Err(why) => {
                self.failed += 1;
                let size = packs.iter().map(|p| p.len()).sum();
                if self.worst.as_ref().is_none_or(|w| size < w.0) {
                    let hex = |p: &&[u8]| p.iter().map(|b| format!("{b:02x}")).collect::<String>();
                    let shown: Vec<String> = packs.iter().map(hex).collect();
                    self.worst = Some((size, format!("{name}: {why}\n  {}", shown.join("\n  "))));
                }
                None
            }
        }
    }

    fn report(&mut self, name: &str) {
        println!("{name}: {} passed, {} failed", self.passed, self.failed);
        if let Some((_, why)) = self.worst.take() {
            println!("smallest failure: {why}");
        }
    }
}

/// Each case has its own numbers, so that it can be made again alone.
fn rng(seed: u64, case: u64) -> Rng {
    Rng::new((seed << 40).wrapping_add(case))
}

/// Journals with lists: any; lists below lists; a kept row that is null and has child rows; child rows that no row has.
#[derive(Default)]
struct Lists([u64; 4]);

impl Lists {
    /// Two accepted packs.
    fn add(&mut self, mask: &[u8], journal: &[u8]) {
        let (picks, journal) = (Picks::of(mask), Pack::read(journal).unwrap());
        if picks.slots > journal.nodes[0].rows as usize {
            return;
        }
        let kept = model::kept_rows(&journal, &picks.picked);
        let lists: Vec<usize> = (0..journal.nodes.len()).filter(|i| journal.nodes[*i].is_list()).collect();
        let offset = |i: usize, row: usize| journal.first(i, journal.nodes[i].skip as usize + row);
        let below = |i: &usize| {
            let mut above = std::iter::successors(journal.parents[*i], |p| journal.parents[*p]);
            above.any(|p| journal.nodes[p].is_list())
        };
        let junk = |i: usize, row: usize| !journal.valid(i, row) && offset(i, row) < offset(i, row + 1);
        let spare = |i: &usize| {
            let end = offset(*i, journal.nodes[*i].rows as usize);
            offset(*i, 0) > 0 || end < journal.nodes[i + 1].rows as u64
        };
        let met = [
            !lists.is_empty(),
            lists.iter().any(below),
            lists.iter().any(|i| kept[*i].iter().any(|row| junk(*i, *row))),
            lists.iter().any(spare),
        ];
        self.0.iter_mut().zip(met).for_each(|(count, met)| *count += met as u64);
    }

    fn report(&self) {
        let [any, below, junk, spare] = self.0;
        println!(
            "with lists: {any}; lists below lists: {below}; kept null lists with child rows: {junk}; child rows of no list: {spare}"
        );
    }
}

/// What random cases have covered.
#[derive(Default)]
struct Cover {
    compared: u64,
    lists: Lists,
    routes: [u64; 4],
    kinds: [u64; KINDS + 1],
    verdicts: [u64; LAST_REFUSAL + 1],
    answers: [u64; LAST_REFUSAL + 1],
}

/// A mask and a journal, a third of the time with damage to one; and whether both are as made.
fn perhaps_damaged(r: &mut Rng) -> (Vec<u8>, Vec<u8>, bool) {
    let (mask, journal) = case(r);
    match r.below(15) {
        0 => (damage(r, &mask), journal, false),
        1..=4 => (mask, damage(r, &journal), false),
        // any pack as a mask
        5 if r.percent(20) => (journal.clone(), journal, false),
        _ => (mask, journal, true),
    }
}

/// Random packs.
fn random(seed: u64, count: u64) -> Tally {
    let mut tally = Tally::default();
    let mut cover = Cover::default();
    let port = port();
    for i in 0..count {
        let mut r = rng(seed, i);
        let name = format!("random {seed} case {i}");
        let (mask, journal, whole) = perhaps_damaged(&mut r);
        cover.verdicts[model::check_mask(&mask) as usize] += 1;
        cover.verdicts[model::check(&journal) as usize] += 1;
        let agrees = || match compare::with_rust(&mask, &journal)? {
            false if whole => Err("a good pack is refused".into()),
            accepted => Ok(accepted),
        };
        if tally.case(&name, &[&mask, &journal], agrees) == Some(true) {
            cover.compared += 1;
            cover.lists.add(&mask, &journal);
            cover.routes[Picks::of(&mask).route() as usize] += 1;
            Pack::read(&journal).unwrap().nodes.iter().for_each(|n| cover.kinds[n.kind as usize] += 1);
        }
        let Some(port) = &port else { continue };
        let ends = tally.case(&name, &[&mask, &journal], || compare::with_port(port.as_ref(), &mut r, &mask, &journal));
        ends.iter().flatten().for_each(|a| cover.answers[compare::number_of(a)] += 1);
        if whole {
            let damaged = damage(&mut r, &journal);
            tally.case(&name, &[&damaged], || compare::verdicts(port.as_ref(), &damaged));
        }
    }
    println!("compared with filter.rs: {}; by route none, all, slices, indices: {:?}", cover.compared, cover.routes);
    println!("nodes compared, by kind: {:?}", &cover.kinds[1..]);
    cover.lists.report();
    println!("verdicts on both packs, by number: {}", compare::by_number(&cover.verdicts));
    println!("the port's answers, by number: {}", compare::by_number(&cover.answers));
    tally.report(&format!("random, seed {seed}"));
    tally
}

/// Pairs alike in the kept part.
fn alike(seed: u64, count: u64) -> Tally {
    let mut tally = Tally::default();
    let port = port();
    let mut different = 0;
    let mut lists = Lists::default();
    for i in 0..count {
        let mut r = rng(seed, i);
        let name = format!("alike {seed} pair {i}");
        let pair = pair(&mut r);
        different += (pair.journals[0] != pair.journals[1]) as u64;
        pair.masks.iter().zip(&pair.journals).for_each(|(mask, journal)| lists.add(mask, journal));
        let packs: [&[u8]; 4] = [&pair.masks[0], &pair.journals[0], &pair.masks[1], &pair.journals[1]];
        tally.case(&name, &packs, || compare::alike_with_rust(&pair));
        if let Some(port) = port.as_ref().filter(|_| pair.same_slots) {
            tally.case(&name, &packs, || compare::alike_by_port(port.as_ref(), &mut r, &pair));
        }
    }
    println!("pairs whose journals differ in their bytes: {different} of {count}");
    lists.report();
    tally.report(&format!("alike, seed {seed}"));
    tally
}

/// Two shapes of each kind, and small nestings: six of runs and carried children, six with lists.
fn few_shapes(r: &mut Rng) -> Vec<Shape> {
    let mut shapes = vec![];
    for kind in BITS..=LARGE_LIST {
        shapes.extend(std::iter::repeat_with(|| single(r)).filter(|s| s.kind == kind).take(2));
    }
    shapes.extend(nestings().into_iter().filter(|s| s.nodes() <= 5).take(12));
    shapes
}

/// Every mask of up to `most` slots on columns of each kind, with each skip from 0 to 9, with bitmaps and without.
fn exhaustive(most: usize) -> Tally {
    let mut tally = Tally::default();
    let mut r = rng(most as u64, 0);
    let mut columns = 0;
    for shape in few_shapes(&mut r) {
        for (skip, bitmap) in (0..10).flat_map(|skip| [(skip, false), (skip, true)]) {
            let column = Maker { r: &mut r, skip: Some(skip), bitmap: Some(bitmap) }.column(&shape, most, None);
            let journal = lay(&mut r, &column);
            every_mask(&mut tally, &mut r, &journal, most);
            columns += 1;
        }
    }
    println!("columns: {columns}; masks on each: {}", (2u64 << most) - 1);
    tally.report(&format!("exhaustive, {most} slots"));
    tally
}

/// Every mask of up to `most` slots on one journal.
fn every_mask(tally: &mut Tally, r: &mut Rng, bytes: &[u8], most: usize) {
    let port = port();
    let journal = Journal::new(bytes);
    for slots in 0..=most {
        for word in 0..1u32 << slots {
            let picks: Vec<bool> = (0..slots).map(|i| word >> i & 1 == 1).collect();
            one_mask(tally, &port, r, "exhaustive", &picks, bytes, &journal);
        }
    }
}

/// These picks on one journal: the model against filter.rs, and against the port with its list stored and not.
fn one_mask(
    tally: &mut Tally,
    port: &Option<Box<dyn Port>>,
    r: &mut Rng,
    name: &str,
    picks: &[bool],
    bytes: &[u8],
    journal: &Journal,
) {
    let mask = mask_pack(r, picks);
    tally.case(name, &[&mask, bytes], || compare::mask_with_rust(&mask, journal));
    if let Some(port) = port {
        tally.case(name, &[&mask, bytes], || compare::exact(port.as_ref(), r, &mask, bytes));
    }
}

/// Lengths at and next to a boundary of words, halves of words and fifths.
const LENGTHS: [usize; 20] = [1, 4, 5, 6, 10, 31, 32, 33, 62, 63, 64, 65, 127, 128, 129, 191, 192, 193, 320, 321];

/// Masks around each boundary: on columns of each kind, of each length above, every count up to 65 slots and those next to a
/// boundary beyond, spread in each way; the journal as long as the mask or longer.
fn boundaries(seed: u64, rounds: u64) -> Tally {
    let mut tally = Tally::default();
    let port = port();
    let mut routes = [0u64; 4];
    for round in 0..rounds {
        let mut r = rng(seed, round);
        let name = format!("boundaries {seed} round {round}");
        for (shape, length) in few_shapes(&mut r).iter().flat_map(|shape| LENGTHS.map(|length| (shape, length))) {
            let rows = length + r.pick(&[0, 0, 0, 1, 20]);
            let column = Maker::new(&mut r).column(shape, rows, None);
            let bytes = lay(&mut r, &column);
            let journal = Journal::new(&bytes);
            for (count, way) in counts(length).into_iter().flat_map(|count| (0..SPREADS).map(move |way| (count, way))) {
                let picks = spread_by(&mut r, way, length, count);
                routes[Picks { slots: length, picked: (0..count).collect() }.route() as usize] += 1;
                one_mask(&mut tally, &port, &mut r, &name, &picks, &bytes, &journal);
            }
        }
    }
    println!("masks by route none, all, slices, indices: {routes:?}");
    tally.report(&format!("boundaries, seed {seed}, rounds {rounds}"));
    tally
}

/// Where the port stores few row numbers by itself: from 65,536 slots on, with at most one in 64 picked.
const LONG: [usize; 4] = [65_535, 65_536, 65_537, 66_000];

/// The shape with run ends of 4 bytes where it has them of 2, which cannot count so many rows.
fn widened(mut shape: Shape) -> Shape {
    if shape.kind == RUNS {
        shape.param = shape.param.max(4);
    }
    shape.kids = shape.kids.into_iter().map(widened).collect();
    shape
}

/// Long masks: on columns of each kind, few rows picked, at and next to one in 64, and up to nearly all.
fn long(seed: u64, rounds: u64) -> Tally {
    let mut tally = Tally::default();
    let port = port();
    for round in 0..rounds {
        let mut r = rng(seed, round);
        for (i, shape) in few_shapes(&mut r).into_iter().map(widened).enumerate() {
            let length = r.pick(&LONG);
            let rows = length + r.pick(&[0, 0, 1, 20]);
            let column = Maker::new(&mut r).column(&shape, rows, None);
            let bytes = lay(&mut r, &column);
            let journal = Journal::new(&bytes);
            for count in [1, length / 64, length / 64 + 1, length / 10, length / 2, length * 95 / 100, length * 99 / 100] {
                let way = r.pick(&[SPREADS - 1, SPREADS - 1, 2]);
                let picks = spread_by(&mut r, way, length, count);
                let mask = mask_pack(&mut r, &picks);
                let name = format!("long {seed} round {round} shape {i}: {count} of {length}");
                // the packs are not for reading
                tally.case(&name, &[], || compare::mask_with_rust(&mask, &journal));
                if let Some(port) = &port {
                    tally.case(&name, &[], || compare::exact(port.as_ref(), &mut r, &mask, &bytes));
                }
            }
        }
    }
    tally.report(&format!("long, seed {seed}, rounds {rounds}"));
    tally
}

/// Calls for the program `replay`, each first compared with filter.rs and, where it is linked, with the port.
fn list(seed: u64, count: u64, folder: &str) -> Tally {
    let mut tally = Tally::default();
    let mut list = Replay::default();
    let port = port();
    for i in 0..count {
        let case = replay::case(&mut rng(seed, i), i);
        let packs: [&[u8]; 2] = [&case.mask, &case.journal];
        tally.case(&case.name, &packs, || compare::with_rust(&case.mask, &case.journal));
        if let Some(port) = &port {
            tally.case(&case.name, &packs, || case.lent(|call| compare::call(port.as_ref(), call)));
        }
        list.add(&case);
    }
    let title = format!("# random calls: differ list {seed} {count} FOLDER\n");
    let written = list.write(&title, std::path::Path::new(folder));
    tally.case("written", &[], || written.map_err(|e| format!("{folder}: {e}")));
    println!(
        "answers, by number: {}; by route none, all, slices, indices: lazy {:?}, stored {:?}",
        compare::by_number(&list.answers),
        list.lazy,
        list.stored
    );
    println!("nodes of accepted journals, by kind: {:?}", &list.kinds[1..]);
    tally.report(&format!("list, seed {seed}"));
    tally
}

/// The specification's own cases and its limits, with the answers that it gives.
fn paper() -> Tally {
    let mut tally = Tally::default();
    let port = port();
    for case in paper::bench()
        .into_iter()
        .chain(paper::refusals())
        .chain(paper::lists())
        .chain(paper::true_views())
        .chain(paper::null_counts())
        .chain(paper::limits())
    {
        // the big ones are not for reading
        let shown: &[&[u8]] = if case.journal.len() < 5000 { &[&case.mask, &case.journal] } else { &[] };
        tally.case(case.name, shown, || compare::paper_case(&Model, &case));
        tally.case(case.name, shown, || compare::with_rust(&case.mask, &case.journal));
        if let Some(port) = &port {
            tally.case(case.name, shown, || compare::paper_case(port.as_ref(), &case));
            tally.case(case.name, shown, || compare::with_port(port.as_ref(), &mut Rng::new(1), &case.mask, &case.journal));
        }
    }
    tally.case("route of every length near four fifths", &[], compare::every_route);
    tally.report("paper");
    tally
}

fn main() -> ExitCode {
    let usual = std::panic::take_hook();
    std::panic::set_hook(Box::new(move |panic| {
        if !QUIET.load(Relaxed) {
            usual(panic);
        }
    }));
    let words: Vec<String> = std::env::args().skip(1).collect();
    let numbers: Option<Vec<u64>> = words.iter().skip(1).take(2).map(|word| word.parse().ok()).collect();
    let folder = words.get(3).map(String::as_str);
    let tallies = match (words.first().map(String::as_str), numbers.as_deref()) {
        (Some("list"), Some(&[seed, count])) if folder.is_some() => vec![list(seed, count, folder.unwrap())],
        (None, _) => vec![paper(), random(1, 3000), alike(1, 1000), exhaustive(5), boundaries(1, 1), long(1, 1)],
        (Some("paper"), Some([])) => vec![paper()],
        (Some("random"), Some(&[seed, count])) => vec![random(seed, count)],
        (Some("alike"), Some(&[seed, count])) => vec![alike(seed, count)],
        (Some("exhaustive"), Some(&[slots @ 0..=16])) => vec![exhaustive(slots as usize)],
        (Some("boundaries"), Some(&[seed, rounds])) => vec![boundaries(seed, rounds)],
        (Some("long"), Some(&[seed, rounds])) => vec![long(seed, rounds)],
        _ => {
            eprintln!("differ [paper | random SEED COUNT | alike SEED COUNT | exhaustive SLOTS (at most 16)");
            eprintln!("        | boundaries SEED ROUNDS | long SEED ROUNDS | list SEED COUNT FOLDER]");
            return ExitCode::from(2);
        }
    };
    let (passed, failed) = tallies.iter().fold((0, 0), |(p, f), t| (p + t.passed, f + t.failed));
    println!("{passed} passed, {failed} failed");
    if failed == 0 && passed > 0 { ExitCode::SUCCESS } else { ExitCode::FAILURE }
}
