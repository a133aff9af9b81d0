//! One side's answer to a question, in a form that can be compared and shown.

use oracle::text;

/// What one side said. Bytes always, to be compared; text only where it is going to be shown.
#[derive(Default)]
pub struct Said {
    bytes: Vec<u8>,
    text: Option<String>,
}

impl Said {
    pub fn new(shown: bool) -> Self {
        Said { bytes: Vec::new(), text: shown.then(String::new) }
    }

    pub fn begin(&mut self) {
        self.bytes.clear();
        if let Some(text) = &mut self.text {
            text.clear();
        }
    }

    fn push(&mut self, tag: u8, bytes: &[u8], show: impl FnOnce() -> String) {
        self.bytes.push(tag);
        self.bytes.extend((bytes.len() as u32).to_le_bytes());
        self.bytes.extend(bytes);
        if let Some(text) = &mut self.text {
            if !text.is_empty() && !text.ends_with('\n') {
                text.push(' ');
            }
            text.push_str(&show());
        }
    }

    /// A word of the answer.
    pub fn word(&mut self, word: u64) {
        self.push(0, &word.to_le_bytes(), || word.to_string());
    }

    /// A part of an arena, its bytes.
    pub fn part(&mut self, part: &[u8]) {
        self.push(1, part, || text::write(part));
    }

    /// A name between words: what kind of answer it is.
    pub fn name(&mut self, name: &'static str) {
        self.push(2, name.as_bytes(), || name.into());
    }

    pub fn refused(&mut self, number: u8) {
        self.push(3, &[number], || format!("! {number}"));
    }

    /// A record of a walk ends.
    pub fn line(&mut self) {
        if let Some(text) = &mut self.text {
            text.push('\n');
        }
    }

    pub fn text(&self) -> &str {
        self.text.as_deref().unwrap_or_default()
    }

    /// The number of the refusal, where the answer begins with one.
    pub fn number(&self) -> u8 {
        if self.bytes.first() == Some(&3) { self.bytes[5] } else { 0 }
    }
}

impl PartialEq for Said {
    fn eq(&self, other: &Said) -> bool {
        self.bytes == other.bytes
    }
}
