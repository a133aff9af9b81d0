//! A few hundred random cases, so that a plain `cargo test` sees a broken library. tools/compare runs thousands.

use differential::run::Runner;
use differential::{Fault, make};

#[test]
fn random_cases() {
    let mut runner = Runner::new(Fault::None);
    for n in 0..600 {
        let case = make::case(7, n);
        if let Some(difference) = runner.run(&case) {
            panic!("tools/compare --seed 7 --first {n} shows it: {difference:?}");
        }
    }
    // the cases are worth something: every call is asked, and every number but 8 (see edges.rs) is met
    let count = &runner.count;
    for number in 0..=10 {
        assert!(count.with(number) > 0 || number == 8, "nothing was refused with {number}");
    }
    assert!(count.picked > 4000, "{} rows picked from lists", count.picked);
    assert_eq!(count.calls().len(), 18, "{:?}", count.calls());
    // builds and merges are mostly accepted, and each is refused with 10 often enough (tests/sampler.rs counts the kinds)
    for (call, answered, outside) in [("leaf", 600, 50), ("index", 200, 15), ("merge", 200, 50)] {
        let times = |number| count.answers.get(&(call, number)).copied().unwrap_or(0);
        assert!(times(0) > answered, "{call}: {} answered", times(0));
        assert!(times(10) > outside, "{call}: {} refused with 10", times(10));
    }
}
