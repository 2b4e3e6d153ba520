//! The three held to each other: the model against filter.rs, and the model against the port.
use crate::make::{Pair, Rng};
use crate::model::{self, Answer, Call, Named, Picks, Route};
use crate::pack::{PACK_LIMIT, Pack, ROW_LIMIT};
use crate::paper::Case;
use crate::port::Port;
use crate::rust::{self, Slot, WAYS};
use arrow_array::{Array, ArrayRef, BooleanArray};
use arrow_select::filter::FilterBuilder;

fn ensure(holds: bool, otherwise: impl FnOnce() -> String) -> Result<(), String> {
    if holds { Ok(()) } else { Err(otherwise()) }
}

/// An accepted journal with its array and slots, for many masks.
pub struct Journal<'a> {
    pub pack: Pack<'a>,
    array: ArrayRef,
    slots: Vec<Slot>,
}

impl<'a> Journal<'a> {
    pub fn new(bytes: &'a [u8]) -> Self {
        let pack = Pack::read(bytes).unwrap();
        let array = rust::build(&pack);
        let slots = rust::slots(array.as_ref());
        Self { pack, array, slots }
    }
}

/// The model against filter.rs on two packs; `false` if one is not accepted, so that there is nothing to compare.
pub fn with_rust(mask: &[u8], journal: &[u8]) -> Result<bool, String> {
    if model::check_mask(mask) != 0 || model::check(journal) != 0 {
        return Ok(false);
    }
    mask_with_rust(mask, &Journal::new(journal)).map(|_| true)
}

/// The model against filter.rs: count, route and list; the result slot by slot, by every way of calling; the extract read back.
pub fn mask_with_rust(mask: &[u8], journal: &Journal) -> Result<(), String> {
    let picks = Picks::of(mask);
    let mask = rust::mask_array(&Pack::read(mask).unwrap());
    same_predicate(&picks, &mask)?;
    let long = picks.slots > journal.array.len();
    let Some((result, by_way)) = rust::filtered(&journal.array, &mask) else {
        return ensure(long, || "filter.rs refuses a mask that is not too long".into());
    };
    ensure(!long, || "filter.rs accepts a mask that is too long".into())?;

    let shown = rust::slots(result.as_ref());
    let wanted: Vec<Slot> = picks.picked.iter().map(|&slot| journal.slots[slot].clone()).collect();
    same_slots("filter.rs", &shown, &wanted)?;

    let Some(extract) = model::extract(&journal.pack, &picks.picked) else {
        let length = rust::write(&journal.pack, &result).len();
        return ensure(length > PACK_LIMIT, || format!("the model's extract is over the limit, filter.rs's has {length} bytes"));
    };
    let verdict = model::check(&extract);
    ensure(verdict == 0, || format!("the extract is refused: {verdict}"))?;
    let read_back = rust::build(&Pack::read(&extract).unwrap());
    same_slots("the extract", &rust::slots(read_back.as_ref()), &wanted)?;
    for (result, way) in std::iter::once(&result).chain(&by_way).zip(std::iter::once("filter").chain(WAYS.map(|w| w.0))) {
        same_bytes(way, &rust::write(&journal.pack, result), &extract)?;
    }
    Ok(())
}

/// Count, route and stored list as filter.rs has them. Route and list are private there, and shown for debugging.
fn same_predicate(picks: &Picks, mask: &BooleanArray) -> Result<(), String> {
    for stored in [false, true] {
        let builder = FilterBuilder::new(mask);
        let predicate = if stored { builder.optimize() } else { builder }.build();
        let (count, wanted) = (predicate.count(), picks.picked.len());
        ensure(count == wanted, || format!("filter.rs counts {count}, the model {wanted}"))?;
        let shown = format!("{predicate:?}");
        let shown = shown.rsplit_once("strategy: ").unwrap().1.trim_end_matches(" }");
        let entries = picks.entries();
        let pairs: Vec<(u32, u32)> = entries.chunks_exact(2).map(|p| (p[0], p[1])).collect();
        let wanted = match (picks.route(), stored) {
            (Route::None, _) => "None".into(),
            (Route::All, _) => "All".into(),
            (Route::Slices, false) => "SlicesIterator".into(),
            (Route::Indices, false) => "IndexIterator".into(),
            (Route::Slices, true) => format!("Slices({pairs:?})"),
            (Route::Indices, true) => format!("Indices({entries:?})"),
        };
        ensure(shown == wanted, || format!("filter.rs goes by {shown}, the model by {wanted}"))?;
    }
    Ok(())
}

fn same_slots(who: &str, shown: &[Slot], wanted: &[Slot]) -> Result<(), String> {
    ensure(shown.len() == wanted.len(), || format!("{who}: {} rows, not {}", shown.len(), wanted.len()))?;
    match (0..shown.len()).find(|&i| shown[i] != wanted[i]) {
        Some(i) => Err(format!("{who}: slot {i} is {:?}, not {:?}", shown[i], wanted[i])),
        None => Ok(()),
    }
}

/// The first difference, if there is one.
fn same_bytes<T: PartialEq + std::fmt::Debug>(what: &str, shown: &[T], wanted: &[T]) -> Result<(), String> {
    ensure(shown.len() == wanted.len(), || format!("{what}: length {}, not {}", shown.len(), wanted.len()))?;
    match (0..shown.len()).find(|&i| shown[i] != wanted[i]) {
        Some(i) => Err(format!("{what}: at {i} stands {:?}, not {:?}", shown[i], wanted[i])),
        None => Ok(()),
    }
}

/// The port's verdicts on any bytes, as a mask and as a journal, against the model's.
pub fn verdicts(port: &dyn Port, pack: &[u8]) -> Result<(), String> {
    let pairs = [("check", port.check(pack), model::check(pack)), ("check_mask", port.check_mask(pack), model::check_mask(pack))];
    pairs.iter().try_for_each(|(name, shown, wanted)| ensure(shown == wanted, || format!("{name} gives {shown}, not {wanted}")))
}

/// One call of the port's `filter` against the model: the answer, and every byte of output, list and scratch.
pub fn call(port: &dyn Port, call: &Call) -> Result<Answer, String> {
    let shown = port.filter(call)?;
    let wanted = model::filter(call);
    ensure(shown.answer == wanted.answer, || format!("filter answers {:?}, not {:?}", shown.answer, wanted.answer))?;
    same_bytes("output", &shown.output, &wanted.output)?;
    same_bytes("list", &shown.list, &wanted.list)?;
    same_bytes("scratch", &shown.scratch, &wanted.scratch)?;
    Ok(wanted.answer)
}

fn prepare(port: &dyn Port, mask: &[u8], stated: Option<u64>, asked: bool, list: &[u32]) -> Result<(), String> {
    let shown = port.prepare(mask, stated, asked, list)?;
    let wanted = model::prepare(mask, stated, asked, list);
    ensure(shown.0 == wanted.0, || format!("prepare answers {:?}, not {:?}", shown.0, wanted.0))?;
    same_bytes("prepare's list", &shown.1, &wanted.1)
}

/// What a call on these packs needs: list entries, scratch, output; nothing where they are not accepted.
pub fn needed(mask: &[u8], journal: &[u8]) -> (usize, usize, usize) {
    if model::check_mask(mask) != 0 || model::check(journal) != 0 {
        return (0, 0, 0);
    }
    let (picks, journal) = (Picks::of(mask), Pack::read(journal).unwrap());
    if picks.slots > journal.nodes[0].rows as usize {
        return (0, 0, 0);
    }
    let output = model::extract(&journal, &picks.picked).map_or(64, |e| e.len());
    (picks.entries().len(), model::scratch_needed(&journal), output)
}

/// What a call lends and states, apart from its packs.
#[derive(Debug, Clone, Copy)]
pub struct Terms {
    pub list: usize,
    pub scratch: usize,
    pub output: usize,
    pub stated: Option<u64>,
    pub asked: bool,
}

/// Calls on two packs: one that suffices exactly, two that have room to spare, and one that is short somewhere or states a wrong
/// count.
pub fn terms(r: &mut Rng, mask: &[u8], journal: &[u8]) -> [Terms; 4] {
    let count = if model::check_mask(mask) == 0 { Picks::of(mask).picked.len() as u64 } else { r.next() };
    let wrong = match r.below(6) {
        0 => count.wrapping_add(1),
        1 => count.wrapping_sub(1),
        2 => count.wrapping_add(1 << 32),
        3 => count.wrapping_add(1 << 63),
        4 => u64::MAX,
        _ => r.next(),
    };
    let need = needed(mask, journal);
    let short = |r: &mut Rng, n: usize| n - (1 + r.below(n.max(1)).min(r.pick(&[0, 0, n]))).min(n);
    let spare = |r: &mut Rng, n: usize| n + r.pick(&[0, 1, 7, 8, 40]);
    let exact = (need.0, need.1, need.2, Some(count), true);
    let roomy = (spare(r, need.0), spare(r, need.1), spare(r, need.2), None, false);
    let stored = (spare(r, need.0), spare(r, need.1), spare(r, need.2), None, true);
    let faulty = match r.below(5) {
        0 => (short(r, need.0), need.1, need.2, None, true),
        // too short, but not asked for
        1 => (short(r, need.0), need.1, need.2, None, false),
        2 => (need.0, short(r, need.1), need.2, Some(count), true),
        3 => (need.0, need.1, short(r, need.2), None, r.percent(50)),
        _ => (spare(r, need.0), spare(r, need.1), spare(r, need.2), Some(wrong), true),
    };
    [exact, roomy, stored, faulty].map(|(list, scratch, output, stated, asked)| Terms { list, scratch, output, stated, asked })
}

/// The port on two packs, in each of the calls above. Gives the answers.
pub fn with_port(port: &dyn Port, r: &mut Rng, mask: &[u8], journal: &[u8]) -> Result<Vec<Answer>, String> {
    verdicts(port, mask)?;
    verdicts(port, journal)?;
    let mut answers = vec![];
    for Terms { list, scratch, output, stated, asked } in terms(r, mask, journal) {
        let list: Vec<u32> = (0..list).map(|_| r.next() as u32).collect();
        let (scratch, output) = (r.bytes(scratch), r.bytes(output));
        let call_of = Call { mask, journal, stated, asked, list: &list, scratch: &scratch, output: &output };
        answers.push(call(port, &call_of)?);
        prepare(port, mask, stated, asked, &list)?;
    }
    Ok(answers)
}

/// Two calls of the port with every buffer exactly long enough: the list not stored, and stored.
pub fn exact(port: &dyn Port, r: &mut Rng, mask: &[u8], journal: &[u8]) -> Result<Answer, String> {
    let need = needed(mask, journal);
    let list: Vec<u32> = (0..need.0).map(|_| r.next() as u32).collect();
    let (scratch, output) = (r.bytes(need.1), r.bytes(need.2));
    let lazy = Call { mask, journal, stated: None, asked: false, list: &list, scratch: &scratch, output: &output };
    call(port, &lazy)?;
    call(port, &Call { asked: true, ..lazy })
}

/// The model on a pair: accepted, and one extract. filter.rs on both.
pub fn alike_with_rust(pair: &Pair) -> Result<(), String> {
    let extract = |i: usize| model::extract(&Pack::read(&pair.journals[i]).unwrap(), &Picks::of(&pair.masks[i]).picked);
    ensure(pair.journals.iter().all(|j| model::check(j) == 0), || "not accepted".into())?;
    ensure(extract(0) == extract(1), || "the model's extracts differ".into())?;
    (0..2).try_for_each(|i| with_rust(&pair.masks[i], &pair.journals[i]).map(|_| ()))
}

/// The port on a pair that picks the same slots: the same answer, every byte of the output, and the same list, and those that the
/// model gives. List and scratch suffice for both.
pub fn alike_by_port(port: &dyn Port, r: &mut Rng, pair: &Pair) -> Result<(), String> {
    let (a, b) = (needed(&pair.masks[0], &pair.journals[0]), needed(&pair.masks[1], &pair.journals[1]));
    let list: Vec<u32> = (0..a.0.max(b.0)).map(|_| r.next() as u32).collect();
    let scratch = r.bytes(a.1.max(b.1));
    // now and then too short for both, or with room to spare
    let length = match r.below(6) {
        0 => a.2.saturating_sub(1),
        1 => a.2 + r.below(50),
        _ => a.2,
    };
    let output = r.bytes(length);
    let call_of = |i: usize| {
        let (mask, journal) = (&pair.masks[i], &pair.journals[i]);
        Call { mask, journal, stated: None, asked: true, list: &list, scratch: &scratch, output: &output }
    };
    call(port, &call_of(0))?;
    let (one, two) = (port.filter(&call_of(0))?, port.filter(&call_of(1))?);
    ensure(one.answer == two.answer, || format!("answers {:?} and {:?}", one.answer, two.answer))?;
    same_bytes("outputs", &one.output, &two.output)?;
    same_bytes("lists", &one.list, &two.list)
}

/// A case of the specification: the line, and the bytes that it gives.
pub fn paper_case(port: &dyn Port, case: &Case) -> Result<(), String> {
    let list = vec![0xFFFF_FFFF; case.list.unwrap_or(0)];
    let (scratch, output) = (vec![0xFF; case.scratch], vec![0xFF; case.output]);
    let asked = case.list.is_some();
    let call = Call {
        mask: &case.mask,
        journal: &case.journal,
        stated: case.stated,
        asked,
        list: &list,
        scratch: &scratch,
        output: &output,
    };
    let end = port.filter(&call)?;
    let shown = line(&end.answer);
    ensure(shown == case.line, || format!("{shown}, not {}", case.line))?;
    case.bytes.iter().try_for_each(|(at, bytes)| same_bytes("extract", &end.output[*at..*at + bytes.len()], bytes))
}

/// The quotient of two 64-bit floats against the whole-number comparison, for each length, where they could part.
pub fn every_route() -> Result<(), String> {
    for length in 1..=ROW_LIMIT {
        let middle = length * 4 / 5;
        for count in middle.saturating_sub(2)..=(middle + 2).min(length) {
            let by_floats = count as f64 / length as f64 > 0.8;
            ensure(by_floats == (5 * count > 4 * length), || format!("{count} of {length}"))?;
        }
    }
    Ok(())
}

/// The number of an answer's refusal, 0 if there is none.
pub fn number_of(answer: &Answer) -> usize {
    match answer {
        Answer::Done { .. } => 0,
        Answer::Refused { number, .. } => *number as usize,
    }
}

/// How often each number came, those that did not left out.
pub fn by_number(counts: &[u64]) -> String {
    let came: Vec<String> = (0..counts.len()).filter(|&n| counts[n] != 0).map(|n| format!("{n}: {}", counts[n])).collect();
    came.join(", ")
}

/// As program `extract` prints it.
pub fn line(answer: &Answer) -> String {
    match answer {
        Answer::Done { kept, slots, route, bytes } => {
            format!("rows {kept} of {slots} route {} bytes {bytes}", format!("{route:?}").to_lowercase())
        }
        Answer::Refused { number, pack } => format!("refused {number} {}", if *pack == Named::Mask { "mask" } else { "journal" }),
    }
}
