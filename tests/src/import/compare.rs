//! One text put to an implementation, its answer and every lent byte held against the Point.
use super::reader::{Plain, Reader};
use crate::calls::ImportCall;
use crate::compare::{bytes, lend, same, Verdict};
use std::fmt;

/// A text, and how many bytes are lent for its table.
#[derive(Clone)]
pub struct Import {
    pub text: Vec<u8>,
    pub room: usize,
}

/// Puts the text to the candidate; the answer and all memory must be the Point's.
pub fn compare(candidate: &dyn ImportCall, Import { text, room }: &Import) -> Verdict {
    let memory = || bytes(*room, text.len());
    let expected = lend(memory(), |table| Plain.import(text, table).packed());
    same(expected, lend(memory(), |table| candidate.factbox_import(text, table)))
}

impl fmt::Display for Import {
    fn fmt(&self, f: &mut fmt::Formatter) -> fmt::Result {
        let lines: Vec<_> = self.text.split_inclusive(|&b| b == b'\n').take(40).collect();
        let shown = |line: &&[u8]| format!("  {}", line[..line.len().min(400)].escape_ascii());
        let shown: Vec<_> = lines.iter().map(shown).collect();
        write!(f, "import of {} bytes into {}\n{}", self.text.len(), self.room, shown.join("\n"))
    }
}
