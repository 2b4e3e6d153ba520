//! The port's checker and its prepared masks against the model: random packs, good and damaged, through the C entry points.
//!
//!     verdicts [SEED COUNT]       needs the feature `port`
//!
//! Each case is a journal, half of them damaged, and a mask, a fifth of them damaged, each checked both ways, and the mask prepared with and without a list and a stated count.
//! The last line is 'N passed, M failed'.
use host::make::{Rng, case, damage};
use host::model;
use host::port::{Linked, Port};
use std::process::ExitCode;

/// What stands in the list before a call.
const UNTOUCHED: u32 = 0xA5A5_A5A5;

/// The mask prepared by both, and the list compared beyond its entries too.
fn prepared(r: &mut Rng, mask: &[u8]) -> Result<(), String> {
    let stated = if r.percent(30) { Some(r.below(40) as u64) } else { None };
    let asked = r.percent(60);
    let room = if r.percent(30) { r.below(20) } else { 4096 };
    let old = vec![UNTOUCHED; room];
    let expected = model::prepare(mask, stated, asked, &old);
    let found = Linked.prepare(mask, stated, asked, &old)?;
    if expected != found {
        return Err(format!("prepare: {:?} expected, {:?} found", expected.0, found.0));
    }
    Ok(())
}

fn one(r: &mut Rng) -> Result<(), String> {
    let (mut mask, mut journal) = case(r);
    if r.percent(20) {
        mask = damage(r, &mask);
    }
    if r.percent(50) {
        journal = damage(r, &journal);
    }
    for pack in [&mask, &journal] {
        let (a, b) = (model::check(pack), Linked.check(pack));
        if a != b {
            return Err(format!("check: {a} expected, {b} found"));
        }
        let (a, b) = (model::check_mask(pack), Linked.check_mask(pack));
        if a != b {
            return Err(format!("check_mask: {a} expected, {b} found"));
        }
        prepared(r, pack)?;
    }
    Ok(())
}

fn main() -> ExitCode {
    let mut words = std::env::args().skip(1).filter_map(|w| w.parse::<u64>().ok());
    let seed = words.next().unwrap_or(7);
    let count = words.next().unwrap_or(20_000);
    let (mut passed, mut failed) = (0u64, 0u64);
    for i in 0..count {
        let mut r = Rng::new((seed << 40).wrapping_add(i));
        match one(&mut r) {
            Ok(()) => passed += 1,
            Err(why) => {
                failed += 1;
                if failed < 5 {
                    println!("case {i} of seed {seed}: {why}");
                }
            }
        }
    }
    println!("verdicts, seed {seed}: {passed} passed, {failed} failed");
    println!("{passed} passed, {failed} failed");
    if failed == 0 && passed > 0 { ExitCode::SUCCESS } else { ExitCode::FAILURE }
}
