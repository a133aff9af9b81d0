//! Upstream's two assertion macros (its own definitions are not at hand), here real assertions.

/// Upstream's assertion on hot paths.
macro_rules! hot_true {
    (eq $a:expr, $b:expr) => {
        assert_eq!($a, $b)
    };
    (ne $a:expr, $b:expr) => {
        assert_ne!($a, $b)
    };
    ($e:expr) => {
        assert!($e)
    };
}

/// Upstream's unwrap of what must be there.
macro_rules! must_exist {
    ($e:expr) => {
        $e.expect("must exist")
    };
    ($e:expr, $why:expr) => {
        $e.expect($why)
    };
}

pub(crate) use {hot_true, must_exist};
