//! The command line: `run` a file of commands, write the golden `vectors`, `verify` them.

use std::io::Read;
use std::process::ExitCode;

use oracle::{script, vectors};

const USAGE: &str = "oracle run FILE|-    execute a file of commands, print them with their answers
oracle vectors DIR   write the golden vectors
oracle verify DIR    replay them and compare, byte for byte";

fn main() -> ExitCode {
    let args: Vec<String> = std::env::args().skip(1).collect();
    let args: Vec<&str> = args.iter().map(String::as_str).collect();
    let done = match args[..] {
        ["run", file] => run(file),
        ["vectors", dir] => write_vectors(dir),
        ["verify", dir] => verify(dir),
        _ => Err(USAGE.into()),
    };
    match done {
        Ok(()) => ExitCode::SUCCESS,
        Err(why) => {
            eprintln!("{why}");
            ExitCode::FAILURE
        }
    }
}

fn read(file: &str) -> Result<String, String> {
    let mut text = String::new();
    let done = match file {
        "-" => std::io::stdin().read_to_string(&mut text),
        file => std::fs::File::open(file).and_then(|mut f| f.read_to_string(&mut text)),
    };
    done.map(|_| text).map_err(|e| format!("{file}: {e}"))
}

fn run(file: &str) -> Result<(), String> {
    let (out, asked) = script::run(&read(file)?).map_err(|e| format!("{file}: {e}"))?;
    print!("{out}");
    eprintln!(
        "{} answers by the Rust and the model, {} by the model alone",
        asked.both, asked.model_alone
    );
    Ok(())
}

fn write_vectors(dir: &str) -> Result<(), String> {
    for v in vectors::all() {
        let path = format!("{dir}/{}", v.name);
        std::fs::write(&path, &v.text).map_err(|e| format!("{path}: {e}"))?;
        println!("{}", v.summary());
    }
    Ok(())
}

fn verify(dir: &str) -> Result<(), String> {
    for name in vectors::NAMES {
        let path = format!("{dir}/{name}");
        let text = read(&path)?;
        let (again, asked) = script::run(&text).map_err(|e| format!("{path}: {e}"))?;
        if let Some(n) = text.lines().zip(again.lines()).position(|(a, b)| a != b) {
            return Err(format!("{path}: line {} differs", n + 1));
        }
        if text != again {
            return Err(format!("{path}: one is longer"));
        }
        println!(
            "{path}: {} answers by the Rust and the model, {} by the model alone",
            asked.both, asked.model_alone
        );
    }
    Ok(())
}
