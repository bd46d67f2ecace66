//! What was found in a text, as a message may show it.

/// A message shows no more characters of it than these.
const SHOWN: usize = 40;

/// In quotes, with escapes for all but plain characters: a terminal must never be sent what stands
/// in a file. What is long is cut, and then its length is told.
pub fn quoted(found: &[u8]) -> String {
    let mut shown = String::new();
    for byte in found {
        let escaped = byte.escape_ascii();
        if shown.len() + escaped.len() > SHOWN {
            return format!("\"{shown}…\" ({} bytes)", found.len());
        }
        shown.extend(escaped.map(char::from));
    }
    format!("\"{shown}\"")
}
