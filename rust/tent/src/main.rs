//! The program `tent`: its command line, answers to standard output, what went wrong in words to standard error.

use std::io::{BufWriter, Write, stdout};
use std::process::ExitCode;
use tent::stop::Stop;

fn main() -> ExitCode {
    let line: Vec<String> = std::env::args().skip(1).collect();
    let mut out = BufWriter::new(stdout());
    let done =
        tent::commands::run(&line, &mut out).and_then(|()| out.flush().map_err(Stop::output));
    match done {
        Ok(()) | Err(Stop::Closed) => ExitCode::SUCCESS,
        Err(stop) => {
            // what was found before the refusal is still an answer
            let _ = out.flush();
            eprintln!("tent: {stop}");
            ExitCode::from(stop.status())
        }
    }
}
