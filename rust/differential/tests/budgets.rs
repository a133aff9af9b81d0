//! The budgets that the comparison passes by name are the library's: its default, and the Rust's, which is mace's own constant.

use cresttrestle::Build;
use oracle::{judge, upstream};

#[test]
fn named_alike() {
    assert_eq!(Build::HIST_PAGE_BUDGET, judge::HIST_PAGE_BUDGET);
    assert_eq!(Build::RUST_HIST_PAGE_BUDGET, upstream::RUST_HIST_PAGE_BUDGET as u64);
}
