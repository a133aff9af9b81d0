//! The tester tested: wrong answers put in on purpose are found, made small, and the printed script shows them again.

use std::time::Duration;

use differential::case::{Case, List, Op};
use differential::run::{Difference, Runner};
use differential::shrink::shrink;
use differential::stops::forked;
use differential::{Fault, edges, make, script};

/// The first difference that a fault makes, made small; with its script.
fn found(fault: Fault) -> (Case, Difference, String) {
    let mut runner = Runner::new(fault);
    let case = (0..3000).map(|n| make::case(1, n)).find(|case| runner.run(case).is_some());
    let case = case.unwrap_or_else(|| panic!("{fault:?} is not found"));
    let small = shrink(case, Duration::from_secs(60), |case| runner.run(case).is_some());
    let (difference, script) = runner.tell(&small);
    (small, difference.expect("it still differs"), script)
}

/// How many rows or children stand in the case's lists.
fn entries(case: &Case) -> usize {
    let count = |op: &Op| match op {
        Op::Leaf { list: List::Rows(rows), .. } => rows.len(),
        Op::Index { list: List::Children(children), .. } => children.len(),
        _ => 0,
    };
    case.ops.iter().map(count).sum()
}

fn small(fault: Fault, call: &str, most_ops: usize, most_entries: usize) {
    let (case, difference, script) = found(fault);
    println!("{fault:?}: {difference:?}\n{script}");
    assert!(call.contains(difference.call), "{fault:?} is found in {}", difference.call);
    assert!(case.ops.len() <= most_ops, "{} operations:\n{script}", case.ops.len());
    assert!(entries(&case) <= most_entries, "{} entries:\n{script}", entries(&case));
    // the script alone shows the difference, and without the fault there is none
    let replayed = script::read(&script).expect("a script");
    assert!(
        replayed.iter().any(|case| Runner::new(fault).run(case).is_some()),
        "not shown again:\n{script}"
    );
    assert!(replayed.iter().all(|case| Runner::new(Fault::None).run(case).is_none()));
}

#[test]
fn a_slot_off_by_one() {
    small(Fault::Slot, "search", 2, 4);
}

#[test]
fn a_read_too_few() {
    small(Fault::Reads, "search", 2, 8);
}

#[test]
fn a_byte_of_a_page() {
    small(Fault::Byte, "leaf", 1, 12);
}

#[test]
fn a_refusal_that_writes() {
    small(Fault::Refused, "merge", 1, 0);
}

#[test]
fn a_record_lost() {
    small(Fault::Lost, "walk walk back range", 2, 4);
}

#[test]
fn a_number_that_is_not_the_lowest() {
    small(Fault::Number, "leaf", 1, 2);
}

#[test]
fn older_for_no_newer() {
    small(Fault::Older, "as of", 2, 1);
}

#[test]
fn the_head_never_considered() {
    small(Fault::Headless, "as of", 2, 2);
}

#[test]
fn a_history_one_row_short() {
    small(Fault::Short, "as of", 2, 2);
}

#[test]
fn ten_judged_last() {
    small(Fault::Last, "leaf", 1, 1);
    // 8, which random cases do not meet, is judged behind 10 too
    let case = edges::outside();
    assert_eq!(Runner::new(Fault::None).run(&case), None);
    assert!(Runner::new(Fault::Last).run(&case).is_some());
}

#[test]
fn hi_counted_as_inside() {
    small(Fault::HiInside, "leaf", 1, 1);
}

#[test]
fn lo_counted_as_outside() {
    small(Fault::LoOutside, "leaf", 1, 1);
}

#[test]
fn a_check_without_boundaries() {
    small(Fault::Unbounded, "check", 3, 1);
}

#[test]
fn a_merge_that_looks_at_first_keys() {
    small(Fault::FirstKeys, "merge", 3, 2);
}

#[test]
fn a_byte_read_outside() {
    let stops = |case: &Case| forked(|| Runner::new(Fault::Outside).run(case).is_some());
    let case = (0..300)
        .map(|n| make::case(1, n))
        .find(|case| !case.at_start && stops(case))
        .expect("it is found");
    let small = shrink(case, Duration::from_secs(60), stops);
    assert!(small.ops.len() == 2 && entries(&small) == 3, "{small:?}");
}
