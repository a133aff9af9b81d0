//! The laptop in the tent: pages of versioned rows made, read and looked at from the command line.
//!
//! - `show` writes a page as text and says what is damaged, over `decode`, document 01's layouts with reasons;
//! - `file` keeps an arena in a file, `rows` reads and prints rows as CSV, `args` takes the command line apart;
//! - `commands` is what each word of the command line does, all of it through the crate `cresttrestle`; `stop` is how it can end.

pub mod args;
pub mod commands;
pub mod decode;
pub mod file;
pub mod rows;
pub mod show;
pub mod stop;
