//! Rows as text, a row a line: `key,version,value`, or `key,page id` for index pages. What is printed can be read again.
//!
//! A field is text, or bytes as `0x..`; in double quotes (doubled inside) it is text whatever it looks like. A version is the transaction,
//! with `.command` where that is not 0. Lines that begin with `#` and empty lines are left out.
//! In the barometer form a key is `serial:tenths` of a degree (four bytes, then tenths plus 32,768 in two, big-endian) and a value
//! is centimetres (a signed number of four bytes, big-endian).

use crate::args::number;
use crate::stop::Stop;
use cresttrestle::{PageId, Ver};

#[derive(Clone, Copy, PartialEq, Eq)]
pub enum Form {
    Plain,
    Barometer,
}

pub struct Row {
    pub key: Vec<u8>,
    pub ver: Ver,
    pub value: Vec<u8>,
}

pub struct Child {
    pub key: Vec<u8>,
    pub page: Option<PageId>,
}

/// A field of a line, and whether it stood in quotes.
struct Field {
    text: String,
    quoted: bool,
}

impl Form {
    pub fn key(self, word: &str) -> Result<Vec<u8>, String> {
        self.key_of(&argument(word)?)
    }

    pub fn value(self, word: &str) -> Result<Vec<u8>, String> {
        self.value_of(&argument(word)?)
    }

    fn key_of(self, field: &Field) -> Result<Vec<u8>, String> {
        if self == Form::Plain || hex(field) {
            return plain(field);
        }
        let parts = field
            .text
            .split_once(':')
            .and_then(|(s, t)| Some((s.parse::<u32>().ok()?, t.parse::<i16>().ok()?)));
        let (serial, tenths) =
            parts.ok_or_else(|| format!("{:?} is no serial:tenths", field.text))?;
        let mut key = serial.to_be_bytes().to_vec();
        key.extend(((i32::from(tenths) + 32_768) as u16).to_be_bytes());
        Ok(key)
    }

    fn value_of(self, field: &Field) -> Result<Vec<u8>, String> {
        if self == Form::Plain || hex(field) {
            return plain(field);
        }
        let centimetres: i32 = field
            .text
            .parse()
            .map_err(|_| format!("{:?} is no number of centimetres", field.text))?;
        Ok(centimetres.to_be_bytes().to_vec())
    }

    /// A key as text; bytes that are none of this form's are printed as plain ones, always as `0x..` in the barometer form.
    pub fn key_text(self, key: &[u8]) -> String {
        match (self, key) {
            (Form::Barometer, &[a, b, c, d, e, f]) => {
                format!(
                    "{}:{}",
                    u32::from_be_bytes([a, b, c, d]),
                    i32::from(u16::from_be_bytes([e, f])) - 32_768
                )
            }
            _ => self.text(key),
        }
    }

    pub fn value_text(self, value: &[u8]) -> String {
        match (self, <[u8; 4]>::try_from(value)) {
            (Form::Barometer, Ok(four)) => i32::from_be_bytes(four).to_string(),
            _ => self.text(value),
        }
    }

    fn text(self, bytes: &[u8]) -> String {
        match std::str::from_utf8(bytes) {
            Ok(text) if self == Form::Plain && !text.chars().any(char::is_control) => {
                let plain = text.trim() == text
                    && !text.contains([',', '"'])
                    && !text.starts_with("0x")
                    && !text.starts_with('#');
                if plain { text.into() } else { format!("\"{}\"", text.replace('"', "\"\"")) }
            }
            _ => bytes.iter().fold("0x".to_string(), |s, b| s + &format!("{b:02x}")),
        }
    }

    pub fn row_text(self, key: &[u8], ver: Ver, value: &[u8]) -> String {
        format!("{},{},{}", self.key_text(key), version_text(ver), self.value_text(value))
    }

    /// The rows of a file.
    pub fn rows(self, text: &str) -> Result<Vec<Row>, Stop> {
        lines(text, 3, |fields| {
            Ok(Row {
                key: self.key_of(&fields[0])?,
                ver: version(&fields[1].text)?,
                value: self.value_of(&fields[2])?,
            })
        })
    }

    /// The children of a file of an index page.
    pub fn children(self, text: &str) -> Result<Vec<Child>, Stop> {
        lines(text, 2, |fields| {
            let id = fields[1]
                .text
                .parse()
                .map_err(|_| format!("{:?} is no page id", fields[1].text))?;
            Ok(Child { key: self.key_of(&fields[0])?, page: PageId::new(id) })
        })
    }
}

/// `txid` or `txid.cmd`.
pub fn version(word: &str) -> Result<Ver, String> {
    let (txid, cmd) = word.split_once('.').unwrap_or((word, "0"));
    match (txid.parse(), cmd.parse()) {
        (Ok(txid), Ok(cmd)) => Ok(Ver::new(txid, cmd)),
        _ => Err(format!("{word:?} is no version (transaction, or transaction.command)")),
    }
}

/// A version that is looked back to: `txid` when all of it was written, or `txid.cmd`.
pub fn as_of(word: &str) -> Result<Ver, String> {
    let exact = version(word)?;
    Ok(if word.contains('.') { exact } else { Ver::of_txid(exact.txid) })
}

/// The same as text.
pub fn as_of_text(ver: Ver) -> String {
    if ver == Ver::of_txid(ver.txid) {
        ver.txid.to_string()
    } else {
        format!("{}.{}", ver.txid, ver.cmd)
    }
}

fn version_text(ver: Ver) -> String {
    if ver.cmd == 0 { ver.txid.to_string() } else { format!("{}.{}", ver.txid, ver.cmd) }
}

/// An address on the command line.
pub fn address(word: &str) -> Result<u64, Stop> {
    number("address", word)
}

fn hex(field: &Field) -> bool {
    !field.quoted && field.text.starts_with("0x")
}

fn plain(field: &Field) -> Result<Vec<u8>, String> {
    let Some(digits) = field.text.strip_prefix("0x").filter(|_| hex(field)) else {
        return Ok(field.text.clone().into_bytes());
    };
    if !digits.len().is_multiple_of(2) || !digits.bytes().all(|b| b.is_ascii_hexdigit()) {
        return Err(format!("{:?} is not bytes in hex", field.text));
    }
    Ok(digits
        .as_bytes()
        .chunks(2)
        .map(|pair| u8::from_str_radix(std::str::from_utf8(pair).expect("ASCII"), 16).expect("hex"))
        .collect())
}

/// A field on the command line: the shell has taken it apart, so commas and blanks are its own.
fn argument(word: &str) -> Result<Field, String> {
    if word.starts_with('"') {
        let mut found = fields(word)?;
        return match (found.pop(), found.is_empty()) {
            (Some(field), true) => Ok(field),
            _ => Err(format!("{word:?} is more than one field")),
        };
    }
    Ok(Field { text: word.to_string(), quoted: false })
}

/// Every line that is a row, with its number in what is wrong.
fn lines<T>(
    text: &str,
    count: usize,
    row: impl Fn(&[Field]) -> Result<T, String>,
) -> Result<Vec<T>, Stop> {
    let mut out = Vec::new();
    for (n, line) in text.lines().enumerate() {
        if line.trim().is_empty() || line.starts_with('#') {
            continue;
        }
        let read = fields(line).and_then(|fields| match fields.len() == count {
            true => row(&fields),
            false => Err(format!("{} fields, {count} are wanted", fields.len())),
        });
        out.push(read.map_err(|words| Stop::Rows(format!("line {}: {words}", n + 1)))?);
    }
    Ok(out)
}

/// A line's fields. Blanks around a field do not count.
fn fields(line: &str) -> Result<Vec<Field>, String> {
    let (mut out, mut rest) = (Vec::new(), line);
    loop {
        rest = rest.trim_start();
        if let Some(inner) = rest.strip_prefix('"') {
            let (mut text, mut tail) = (String::new(), inner);
            loop {
                let (part, after) = tail.split_once('"').ok_or("a quote is not closed")?;
                text += part;
                match after.strip_prefix('"') {
                    Some(more) => {
                        text.push('"');
                        tail = more;
                    }
                    None => break tail = after,
                }
            }
            out.push(Field { text, quoted: true });
            rest = tail.trim_start();
            if !rest.is_empty() && !rest.starts_with(',') {
                return Err("something stands behind a closing quote".into());
            }
        } else {
            let end = rest.find(',').unwrap_or(rest.len());
            out.push(Field { text: rest[..end].trim_end().to_string(), quoted: false });
            rest = &rest[end..];
        }
        match rest.strip_prefix(',') {
            Some(more) => rest = more,
            None => return Ok(out),
        }
    }
}
