//! The comparison must notice a wrong port: each one here is the model with one fault, among them the specification's misreadings and
//! worthless readers.
use host::compare;
use host::make::*;
use host::model::{self, Answer, Call, Named, Picks, Return, Route};
use host::pack::*;
use host::port::{Model, Port};

/// The model, with its `filter` replaced.
struct Faulty<F: Fn(&Call) -> Return>(F);

impl<F: Fn(&Call) -> Return> Port for Faulty<F> {
    fn filter(&self, call: &Call) -> Result<Return, String> {
        Ok(self.0(call))
    }
    fn prepare(&self, mask: &[u8], stated: Option<u64>, asked: bool, list: &[u32]) -> Result<(Answer, Vec<u32>), String> {
        Model.prepare(mask, stated, asked, list)
    }
    fn check(&self, pack: &[u8]) -> u64 {
        model::check(pack)
    }
    fn check_mask(&self, mask: &[u8]) -> u64 {
        model::check_mask(mask)
    }
}

/// Differences found in a run of 4000 cases.
fn differences(port: &dyn Port) -> usize {
    let found = |i: &u64| {
        let mut r = Rng::new(*i);
        let (mask, mut journal) = case(&mut r);
        if r.percent(20) {
            journal = damage(&mut r, &journal);
        }
        compare::with_port(port, &mut r, &mask, &journal).is_err()
    };
    (0..4000).filter(found).count()
}

/// The port with this `filter` is told from the model.
#[track_caller]
fn is_noticed(filter: impl Fn(&Call) -> Return) {
    assert_ne!(differences(&Faulty(filter)), 0);
}

fn refused(call: &Call, number: u64, pack: Named) -> Return {
    let answer = Answer::Refused { number, pack };
    Return { answer, output: call.output.to_vec(), list: call.list.to_vec(), scratch: call.scratch.to_vec() }
}

/// The call on changed packs.
fn changed(call: &Call, mask: impl Fn(&mut Node), journal: impl Fn(&mut Node)) -> Return {
    let change = |bytes: &[u8], f: &dyn Fn(&mut Node)| -> Vec<u8> {
        match model::check(bytes) {
            0 => {
                let mut pack = Pack::read(bytes).unwrap();
                pack.nodes.iter_mut().for_each(f);
                finish(pack.body.to_vec(), &pack.nodes)
            }
            _ => bytes.to_vec(),
        }
    };
    let (mask, journal) = (change(call.mask, &mask), change(call.journal, &journal));
    model::filter(&Call { mask: &mask, journal: &journal, ..*call })
}

#[test]
fn the_model_itself_passes() {
    assert_eq!(differences(&Model), 0);
}

#[test]
fn refuses_each_journal() {
    is_noticed(|call| refused(call, 8, Named::Journal));
}

#[test]
fn touches_no_output() {
    is_noticed(|call| Return { output: call.output.to_vec(), ..model::filter(call) });
}

#[test]
fn touches_output_past_the_extract() {
    is_noticed(|call| {
        let mut end = model::filter(call);
        if let Answer::Done { bytes, .. } = end.answer {
            end.output[bytes as usize..].fill(0);
        }
        end
    });
}

#[test]
fn zeroes_the_last_column() {
    is_noticed(|call| {
        let mut end = model::filter(call);
        if let Answer::Done { bytes, .. } = end.answer {
            let pack = Pack::read(&end.output[..bytes as usize]).unwrap();
            let (last, start) = (*pack.nodes.last().unwrap(), pack.body.len());
            if pack.nodes.len() > 1 && last.kind != STRUCT {
                end.output[last.first as usize..start].fill(0);
            }
        }
        end
    });
}

#[test]
fn invents_the_count() {
    is_noticed(|call| {
        let mut end = model::filter(call);
        if let Answer::Done { kept, .. } = &mut end.answer {
            *kept = (*kept).max(1);
        }
        end
    });
}

#[test]
fn takes_four_of_five_as_slices() {
    is_noticed(|call| {
        let mut end = model::filter(call);
        if let Answer::Done { kept, slots, route, .. } = &mut end.answer
            && 5 * *kept == 4 * *slots
            && *kept != 0
        {
            *route = Route::Slices;
        }
        end
    });
}

#[test]
fn says_14_before_measuring() {
    is_noticed(|call| match model::filter(call) {
        end if call.output.len() < call.journal.len() && matches!(end.answer, Answer::Done { .. }) => {
            refused(call, 14, Named::Journal)
        }
        end => end,
    });
}

#[test]
fn counts_null_as_true() {
    is_noticed(|call| changed(call, |n| n.validity = NO_BITMAP, |_| ()));
}

#[test]
fn ignores_skip_in_run_ends() {
    is_noticed(|call| changed(call, |_| (), |n| n.skip *= (n.kind != RUNS) as u32));
}

#[test]
fn ignores_the_bitmap() {
    is_noticed(|call| changed(call, |_| (), |n| n.validity = if n.kind == DICTIONARY { n.validity } else { NO_BITMAP }));
}

#[test]
fn tests_keys_of_null_rows() {
    is_noticed(|call| match changed(call, |_| (), |n| n.validity = if n.kind == DICTIONARY { NO_BITMAP } else { n.validity }) {
        Return { answer: Answer::Refused { number: 8, .. }, .. } => refused(call, 8, Named::Journal),
        _ => model::filter(call),
    });
}

#[test]
fn refuses_a_short_mask() {
    is_noticed(|call| match model::filter(call) {
        end @ Return { answer: Answer::Done { slots, .. }, .. } => {
            match slots < Pack::read(call.journal).unwrap().nodes[0].rows as u64 {
                true => refused(call, 10, Named::Journal),
                false => end,
            }
        }
        end => end,
    });
}

#[test]
fn names_the_journal_for_a_wrong_count() {
    is_noticed(|call| match model::filter(call) {
        Return { answer: Answer::Refused { number: 11, .. }, .. } => refused(call, 11, Named::Journal),
        end => end,
    });
}

#[test]
fn leaves_scratch_dirty() {
    is_noticed(|call| Return { scratch: call.scratch.to_vec(), ..model::filter(call) });
}

#[test]
fn zeroes_all_scratch() {
    is_noticed(|call| {
        let mut end = model::filter(call);
        if matches!(end.answer, Answer::Done { .. }) {
            end.scratch.fill(0);
        }
        end
    });
}

#[test]
fn stores_a_list_not_asked_for() {
    is_noticed(|call| model::filter(&Call { asked: true, ..*call }));
}

#[test]
fn stores_the_list_before_a_refusal() {
    is_noticed(|call| {
        let mut end = model::filter(call);
        if call.asked && matches!(compare::number_of(&end.answer), 13 | 14) {
            let entries = Picks::of(call.mask).entries();
            end.list[..entries.len()].copy_from_slice(&entries);
        }
        end
    });
}

#[test]
fn leaves_a_spare_bit() {
    is_noticed(|call| {
        let mut end = model::filter(call);
        if let Answer::Done { bytes, .. } = end.answer {
            let pack = Pack::read(&end.output[..bytes as usize]).unwrap();
            let n = pack.nodes[0];
            if n.kind == BITS && !n.rows.is_multiple_of(8) {
                end.output[n.first as usize + n.rows as usize / 8] |= 0x80;
            }
        }
        end
    });
}

#[test]
fn refuses_an_exact_output() {
    is_noticed(|call| match model::filter(call) {
        Return { answer: Answer::Done { bytes, .. }, .. } if bytes == call.output.len() as u64 => {
            refused(call, 14, Named::Journal)
        }
        end => end,
    });
}

/// The call by a port whose lists keep other child rows: `below` gives them for a list node of a journal and the rows that it keeps.
fn with_child_rows(call: &Call, below: impl Fn(&Pack, usize, &[usize]) -> Vec<usize>) -> Return {
    let end = model::filter(call);
    let Answer::Done { kept, slots, route, .. } = end.answer else { return end };
    let journal = Pack::read(call.journal).unwrap();
    let mut rows: Vec<Vec<usize>> = vec![];
    for i in 0..journal.nodes.len() {
        rows.push(match journal.parents[i] {
            None => Picks::of(call.mask).picked,
            Some(p) if journal.nodes[p].is_list() && !rows[p].is_empty() => below(&journal, p, &rows[p]),
            Some(p) => model::kept_below(&journal, i, p, &rows[p]),
        });
    }
    match model::write(&journal, &rows) {
        Some(extract) if extract.len() <= call.output.len() => {
            let mut output = call.output.to_vec();
            output[..extract.len()].copy_from_slice(&extract);
            Return { answer: Answer::Done { kept, slots, route, bytes: extract.len() as u64 }, output, ..end }
        }
        _ => refused(call, 14, Named::Journal),
    }
}

/// The offset before, or behind, a row of a list node.
fn offset(journal: &Pack, i: usize, row: usize) -> usize {
    journal.first(i, journal.nodes[i].skip as usize + row) as usize
}

#[test]
fn keeps_child_rows_of_null_lists() {
    is_noticed(|call| {
        with_child_rows(call, |journal, i, rows| {
            rows.iter().flat_map(|row| offset(journal, i, *row)..offset(journal, i, row + 1)).collect()
        })
    });
}

#[test]
fn keeps_child_rows_of_dropped_lists() {
    is_noticed(|call| with_child_rows(call, |journal, i, _| (0..journal.nodes[i + 1].rows as usize).collect()));
}

#[test]
fn loses_the_last_child_row_of_lists() {
    is_noticed(|call| {
        with_child_rows(call, |journal, i, rows| {
            let mut below = model::kept_below(journal, i + 1, i, rows);
            below.pop();
            below
        })
    });
}

/// The call by a port that writes other offsets of lists: `change` is given the journal, the list node and the rows that it keeps.
fn with_offsets(call: &Call, change: impl Fn(&Pack, usize, &[usize], &mut [u64])) -> Return {
    let mut end = model::filter(call);
    let Answer::Done { bytes, .. } = end.answer else { return end };
    let journal = Pack::read(call.journal).unwrap();
    let kept = model::kept_rows(&journal, &Picks::of(call.mask).picked);
    let nodes = Pack::read(&end.output[..bytes as usize]).unwrap().nodes;
    for (i, n) in nodes.iter().enumerate().filter(|(_, n)| n.is_list()) {
        let place = |k: usize| n.first as usize + k * n.width();
        let mut offsets: Vec<u64> = (0..=kept[i].len()).map(|k| number(&end.output, place(k), n.width())).collect();
        change(&journal, i, &kept[i], &mut offsets);
        for (k, offset) in offsets.iter().enumerate() {
            end.output[place(k)..place(k + 1)].copy_from_slice(&offset.to_le_bytes()[..n.width()]);
        }
    }
    end
}

#[test]
fn starts_offsets_of_lists_at_the_source() {
    is_noticed(|call| {
        with_offsets(call, |journal, i, kept, offsets| {
            let base = kept.first().map_or(0, |row| offset(journal, i, *row) as u64);
            offsets.iter_mut().for_each(|offset| *offset += base);
        })
    });
}

#[test]
fn counts_child_rows_of_null_lists() {
    is_noticed(|call| {
        with_offsets(call, |journal, i, kept, offsets| {
            for (k, row) in kept.iter().enumerate() {
                offsets[k + 1] = offsets[k] + (offset(journal, i, row + 1) - offset(journal, i, *row)) as u64;
            }
        })
    });
}

#[test]
fn counts_no_scratch_for_lists() {
    is_noticed(|call| {
        if model::check(call.journal) != 0 {
            return model::filter(call);
        }
        let journal = Pack::read(call.journal).unwrap();
        let runs = (0..journal.nodes.len()).filter(|i| journal.nodes[*i].kind == RUNS);
        let counted: usize = runs.map(|i| (journal.nodes[i + 1].rows as usize).div_ceil(8)).sum();
        if call.scratch.len() < counted {
            return model::filter(call);
        }
        // all that is needed, of which what is not counted stays as it was
        let mut scratch = call.scratch.to_vec();
        scratch.resize(scratch.len().max(model::scratch_needed(&journal)), 0);
        let mut end = model::filter(&Call { scratch: &scratch, ..*call });
        end.scratch.truncate(call.scratch.len());
        end.scratch[counted..].copy_from_slice(&call.scratch[counted..]);
        end
    });
}

/// The call on a journal whose content is refused, with its views changed.
fn with_views(call: &Call, change: impl Fn(&Pack, usize, &mut [u8])) -> Return {
    let mut journal = call.journal.to_vec();
    if model::check(call.journal) == 8 {
        let pack = Pack::read(call.journal).unwrap();
        for i in (0..pack.nodes.len()).filter(|i| pack.nodes[*i].kind == VIEWS) {
            let n = &pack.nodes[i];
            journal[n.first as usize..][..16 * n.span()].chunks_mut(16).for_each(|view| change(&pack, i, view));
        }
    }
    model::filter(&Call { journal: &journal, ..*call })
}

/// A view's length, and the bytes that a long one has.
fn long_view<'a>(pack: &Pack<'a>, i: usize, view: &[u8]) -> (usize, Option<&'a [u8]>) {
    let field = |k: usize| number(view, 4 * k, 4) as usize;
    let data = pack.children(i).get(field(2)).map(|kid| &pack.nodes[*kid]);
    let bytes = data.map(|n| &pack.body[(n.first + n.skip) as usize..][..n.rows as usize]);
    (field(0), bytes.and_then(|bytes| bytes.get(field(3)..)?.get(..field(0))))
}

#[test]
fn trusts_the_prefix_of_a_view() {
    is_noticed(|call| {
        with_views(call, |pack, i, view| {
            if let (13.., Some(data)) = long_view(pack, i, view) {
                view[4..8].copy_from_slice(&data[..4]);
            }
        })
    });
}

#[test]
fn looks_at_no_unused_byte_of_a_view() {
    is_noticed(|call| {
        with_views(call, |pack, i, view| {
            if let (length @ ..13, _) = long_view(pack, i, view) {
                view[4 + length..].fill(0);
            }
        })
    });
}

/// The pack, where 20 holds of it, with its true null counts; any other as it is.
fn counted_anew(bytes: &[u8]) -> Vec<u8> {
    match model::check(bytes) {
        20 => {
            let pack = Pack::read(bytes).unwrap();
            finish(pack.body.to_vec(), &pack.nodes)
        }
        _ => bytes.to_vec(),
    }
}

#[test]
fn trusts_null_counts() {
    is_noticed(|call| model::filter(&Call { journal: &counted_anew(call.journal), ..*call }));
}

/// The call by a port that writes something else into its extracts' null counts and marks.
fn with_extract(call: &Call, change: impl Fn(&Pack) -> Vec<u8>) -> Return {
    let mut end = model::filter(call);
    if let Answer::Done { bytes, .. } = end.answer {
        let new = change(&Pack::read(&end.output[..bytes as usize]).unwrap());
        end.output[..bytes as usize].copy_from_slice(&new);
    }
    end
}

/// The extract with other null counts.
fn with_counts(pack: &Pack, count: impl Fn(&Node) -> u32) -> Vec<u8> {
    let nodes: Vec<Node> = pack.nodes.iter().map(|n| Node { nulls: count(n), ..*n }).collect();
    finish_as(pack.body.to_vec(), &nodes, MARK)
}

#[test]
fn writes_the_old_mark() {
    is_noticed(|call| with_extract(call, |pack| finish_as(pack.body.to_vec(), &pack.nodes, OLD_MARK)));
}

#[test]
fn writes_no_null_count() {
    is_noticed(|call| with_extract(call, |pack| with_counts(pack, |_| 0)));
}

#[test]
fn writes_the_count_of_valid_rows() {
    is_noticed(|call| with_extract(call, |pack| with_counts(pack, |n| if n.nulls == 0 { 0 } else { n.rows - n.nulls })));
}

#[test]
fn writes_the_journal_s_null_counts() {
    is_noticed(|call| {
        with_extract(call, |pack| {
            let journal = Pack::read(call.journal).unwrap();
            let nodes: Vec<Node> =
                pack.nodes.iter().zip(&journal.nodes).map(|(n, old)| Node { nulls: old.nulls, ..*n }).collect();
            finish_as(pack.body.to_vec(), &nodes, MARK)
        })
    });
}

/// The model, with its verdicts on journals and on masks replaced.
struct Lax<F: Fn(&[u8]) -> u64, G: Fn(&[u8]) -> u64>(F, G);

impl<F: Fn(&[u8]) -> u64, G: Fn(&[u8]) -> u64> Port for Lax<F, G> {
    fn filter(&self, call: &Call) -> Result<Return, String> {
        Model.filter(call)
    }
    fn prepare(&self, mask: &[u8], stated: Option<u64>, asked: bool, list: &[u32]) -> Result<(Answer, Vec<u32>), String> {
        Model.prepare(mask, stated, asked, list)
    }
    fn check(&self, pack: &[u8]) -> u64 {
        self.0(pack)
    }
    fn check_mask(&self, mask: &[u8]) -> u64 {
        self.1(mask)
    }
}

/// Another verdict on journals is told from the model's.
#[track_caller]
fn verdict_is_noticed(check: impl Fn(&[u8]) -> u64) {
    assert_ne!(differences(&Lax(check, model::check_mask)), 0);
}

#[test]
fn refuses_the_old_mark() {
    verdict_is_noticed(|bytes| if bytes.ends_with(&OLD_MARK) { 2 } else { model::check(bytes) });
}

#[test]
fn counts_nulls_of_old_packs() {
    verdict_is_noticed(|bytes| match model::check(bytes) {
        0 => {
            let pack = Pack::read(bytes).unwrap();
            let null = (0..pack.nodes.len()).any(|i| (0..pack.nodes[i].rows as usize).any(|row| !pack.valid(i, row)));
            if null && !pack.counted { 20 } else { 0 }
        }
        verdict => verdict,
    });
}

#[test]
fn counts_nulls_of_rows_passed_over() {
    verdict_is_noticed(|bytes| match model::check(bytes) {
        verdict @ (0 | 20) => {
            let pack = Pack::read(bytes).unwrap();
            let null = |n: &Node, place: usize| n.validity != NO_BITMAP && !bit(pack.body, n.validity as usize, place);
            let wrong = |n: &Node| (0..n.span()).filter(|place| null(n, *place)).count() != n.nulls as usize;
            if pack.counted { if pack.nodes.iter().any(wrong) { 20 } else { 0 } } else { verdict }
        }
        verdict => verdict,
    });
}

#[test]
fn says_20_before_8() {
    verdict_is_noticed(|bytes| match model::check(bytes) {
        8 => {
            let pack = Pack::read(bytes).unwrap();
            let nulls = |i: usize| (0..pack.nodes[i].rows as usize).filter(|row| !pack.valid(i, *row)).count();
            if pack.counted && (0..pack.nodes.len()).any(|i| nulls(i) != pack.nodes[i].nulls as usize) { 20 } else { 8 }
        }
        verdict => verdict,
    });
}

#[test]
fn says_9_before_20() {
    let check_mask = |bytes: &[u8]| match model::check_mask(bytes) {
        20 if Pack::read(bytes).unwrap().nodes[0].kind != BITS => 9,
        verdict => verdict,
    };
    assert_ne!(differences(&Lax(model::check, check_mask)), 0);
}

/// Refusal 8 is not given to packs whose root is such a list.
#[track_caller]
fn leniency_is_noticed(list: impl Fn(&Pack) -> bool) {
    let lax = |bytes: &[u8]| match model::check(bytes) {
        8 if Pack::read(bytes).is_some_and(|pack| pack.nodes[0].is_list() && list(&pack)) => 0,
        verdict => verdict,
    };
    verdict_is_noticed(lax);
}

#[test]
fn takes_a_list_past_its_child() {
    leniency_is_noticed(|pack| {
        let rows = pack.nodes[0].rows as usize;
        let rising = (0..rows).all(|row| offset(pack, 0, row) <= offset(pack, 0, row + 1));
        rising && offset(pack, 0, rows) > pack.nodes[1].rows as usize
    });
}

#[test]
fn takes_falling_offsets_of_lists() {
    leniency_is_noticed(|pack| {
        let rows = pack.nodes[0].rows as usize;
        let falling = (0..rows).any(|row| offset(pack, 0, row) > offset(pack, 0, row + 1));
        falling && offset(pack, 0, rows) <= pack.nodes[1].rows as usize
    });
}

#[test]
fn tests_no_offset_of_a_list_with_no_row() {
    leniency_is_noticed(|pack| pack.nodes[0].rows == 0);
}
