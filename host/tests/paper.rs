//! The model gives the specification's own answers, and a short run of each comparison with filter.rs agrees.
use host::port::Model;
use host::{compare, make, paper};

#[test]
fn bench_cases_refusals_lists_and_views() {
    for case in paper::bench().iter().chain(&paper::refusals()).chain(&paper::lists()).chain(&paper::true_views()) {
        compare::paper_case(&Model, case).unwrap_or_else(|why| panic!("{}: {why}", case.name));
    }
}

#[test]
fn filter_rs_agrees() {
    for seed in 0..2000 {
        let (mask, journal) = make::case(&mut make::Rng::new(seed));
        compare::with_rust(&mask, &journal).unwrap_or_else(|why| panic!("seed {seed}: {why}"));
    }
}
