//! Byte strings as text: lowercase hex, `-` for none, `hh*N.` for a run of N equal bytes.

/// Runs shorter than this are written out.
const SHORTEST_RUN: usize = 4;

pub fn write(bytes: &[u8]) -> String {
    if bytes.is_empty() {
        return "-".into();
    }
    let mut out = String::new();
    let mut at = 0;
    while at < bytes.len() {
        let byte = bytes[at];
        let run = bytes[at..].iter().take_while(|&&b| b == byte).count();
        if run >= SHORTEST_RUN {
            out += &format!("{byte:02x}*{run}.");
            at += run;
        } else {
            out += &format!("{byte:02x}");
            at += 1;
        }
    }
    out
}

/// The bytes, or what is wrong with the text.
pub fn read(text: &str) -> Result<Vec<u8>, String> {
    let mut out = Vec::new();
    let mut rest = if text == "-" { "" } else { text };
    while !rest.is_empty() {
        let pair = rest.get(..2).ok_or("half a byte")?;
        let byte = u8::from_str_radix(pair, 16).map_err(|_| format!("no byte: {pair}"))?;
        rest = &rest[2..];
        let mut run = 1;
        if let Some(number) = rest.strip_prefix('*') {
            let (n, after) = number.split_once('.').ok_or("a run without its point")?;
            run = n.parse().map_err(|_| format!("no run: {n}"))?;
            rest = after;
        }
        out.resize(out.len() + run, byte);
    }
    Ok(out)
}
