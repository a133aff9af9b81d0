//! The command line: words, `--name value` or `--name=value`, and switches; `--` ends the options, so that a key may begin with a dash.

use crate::stop::Stop;
use std::str::FromStr;

pub struct Args {
    words: Vec<String>,
    values: Vec<(String, String)>,
    switches: Vec<String>,
}

fn wrong<T>(words: impl Into<String>) -> Result<T, Stop> {
    Err(Stop::Usage(words.into()))
}

impl Args {
    /// Takes the line apart; `values` and `switches` are the options that this command knows.
    pub fn parse(line: &[String], values: &[&str], switches: &[&str]) -> Result<Self, Stop> {
        let mut args = Args { words: Vec::new(), values: Vec::new(), switches: Vec::new() };
        let mut line = line.iter();
        while let Some(word) = line.next() {
            if word == "--" {
                args.words.extend(line.cloned());
                break;
            }
            let Some(option) = word.strip_prefix("--") else {
                args.words.push(word.clone());
                continue;
            };
            let (name, given) =
                option.split_once('=').map_or((option, None), |(n, v)| (n, Some(v.to_string())));
            if values.contains(&name) {
                if args.values.iter().any(|(n, _)| n == name) {
                    return wrong(format!("--{name} is given twice"));
                }
                match given.or_else(|| line.next().cloned()) {
                    Some(value) => args.values.push((name.to_string(), value)),
                    None => return wrong(format!("--{name} wants a value")),
                }
            } else if switches.contains(&name) && given.is_none() {
                args.switches.push(name.to_string());
            } else {
                return wrong(format!("this command does not know {word}"));
            }
        }
        Ok(args)
    }

    /// Exactly these words, each with a name for the message.
    pub fn words<const N: usize>(&self, names: [&str; N]) -> Result<[&str; N], Stop> {
        let words: Vec<&str> = self.words.iter().map(String::as_str).collect();
        match words.try_into() {
            Ok(words) => Ok(words),
            Err(given) => wrong(format!(
                "{} words given, this command wants {N}: {}",
                given.len(),
                names.join(" ")
            )),
        }
    }

    /// All words but the first.
    pub fn rest(&self) -> &[String] {
        self.words.get(1..).unwrap_or_default()
    }

    /// The first word.
    pub fn first(&self, name: &str) -> Result<&str, Stop> {
        match self.words.first() {
            Some(word) => Ok(word),
            None => wrong(format!("this command wants {name}")),
        }
    }

    pub fn value(&self, name: &str) -> Option<&str> {
        self.values.iter().find(|(n, _)| n == name).map(|(_, v)| v.as_str())
    }

    pub fn number<T: FromStr>(&self, name: &str) -> Result<Option<T>, Stop> {
        self.value(name).map(|v| number(&format!("--{name}"), v)).transpose()
    }

    pub fn has(&self, switch: &str) -> bool {
        self.switches.iter().any(|s| s == switch)
    }
}

/// A decimal number that fits its type.
pub fn number<T: FromStr>(what: &str, word: &str) -> Result<T, Stop> {
    word.parse().or_else(|_| wrong(format!("{what}: no such number: {word}")))
}
