//! The house-form lists of document 01: "version byte 1; u32 big-endian byte count of what
//! follows; entries of key length u16, key, txid u64, cmd u32, value length u32, value, all
//! big-endian. Index list: key length u16, key, page id u64." (same header: DECIDED 6)

use crate::judge::{BAD_LIST, MAX_KEY, MAX_VALUE, Number};

#[derive(Clone, Copy, Debug, PartialEq, Eq)]
pub struct Entry<'a> {
    pub key: &'a [u8],
    pub txid: u64,
    pub cmd: u32,
    pub value: &'a [u8],
}

#[derive(Clone, Copy, Debug, PartialEq, Eq)]
pub struct Child<'a> {
    pub key: &'a [u8],
    pub pid: u64,
}

/// What is still to be read. Every take that runs over the end is number 3.
struct Rest<'a>(&'a [u8]);

impl<'a> Rest<'a> {
    fn bytes(&mut self, n: usize) -> Result<&'a [u8], Number> {
        let (head, tail) = self.0.split_at_checked(n).ok_or(BAD_LIST)?;
        self.0 = tail;
        Ok(head)
    }

    fn number(&mut self, width: usize) -> Result<u64, Number> {
        Ok(self.bytes(width)?.iter().fold(0, |n, &b| n << 8 | u64::from(b)))
    }

    fn part(&mut self, width: usize, most: usize) -> Result<&'a [u8], Number> {
        let len = self.number(width)? as usize;
        if len > most {
            return Err(BAD_LIST);
        }
        self.bytes(len)
    }
}

/// "version not 1, count not what remains, header or entry cut short, key over 4,096, value
/// over 65,536"
fn header(list: &[u8]) -> Result<Rest<'_>, Number> {
    let mut rest = Rest(list);
    let version = rest.number(1)?;
    let count = rest.number(4)? as usize;
    if version != 1 || count != rest.0.len() {
        return Err(BAD_LIST);
    }
    Ok(rest)
}

pub fn entries(list: &[u8]) -> Result<Vec<Entry<'_>>, Number> {
    let mut rest = header(list)?;
    let mut out = Vec::new();
    while !rest.0.is_empty() {
        out.push(Entry {
            key: rest.part(2, MAX_KEY)?,
            txid: rest.number(8)?,
            cmd: rest.number(4)? as u32,
            value: rest.part(4, MAX_VALUE)?,
        });
    }
    Ok(out)
}

pub fn children(list: &[u8]) -> Result<Vec<Child<'_>>, Number> {
    let mut rest = header(list)?;
    let mut out = Vec::new();
    while !rest.0.is_empty() {
        out.push(Child { key: rest.part(2, MAX_KEY)?, pid: rest.number(8)? });
    }
    Ok(out)
}

fn with_header(body: Vec<u8>) -> Vec<u8> {
    let mut list = vec![1];
    list.extend((body.len() as u32).to_be_bytes());
    list.extend(body);
    list
}

pub fn write_entries(entries: &[Entry]) -> Vec<u8> {
    let mut body = Vec::new();
    for e in entries {
        body.extend((e.key.len() as u16).to_be_bytes());
        body.extend(e.key);
        body.extend(e.txid.to_be_bytes());
        body.extend(e.cmd.to_be_bytes());
        body.extend((e.value.len() as u32).to_be_bytes());
        body.extend(e.value);
    }
    with_header(body)
}

pub fn write_children(children: &[Child]) -> Vec<u8> {
    let mut body = Vec::new();
    for c in children {
        body.extend((c.key.len() as u16).to_be_bytes());
        body.extend(c.key);
        body.extend(c.pid.to_be_bytes());
    }
    with_header(body)
}
