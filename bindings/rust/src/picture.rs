//! A text with marks under some of its bytes, as the programs show it: each byte in one column, and a dot for one that cannot be shown.

use std::ops::Range;

/// A terminal breaks longer lines, and the marks would no longer stand under their bytes.
const WIDTH: usize = 64;

/// The rows of a text, and below each that has one the marks, by their places. A mark may stand behind a line's last byte.
pub(crate) fn marked(text: &[u8], mark: impl Fn(usize) -> Option<char>) -> String {
    let mut rows = Vec::new();
    for row in windows(text) {
        rows.push(format!("  {}", shown(&text[row.clone()])));
        let is_lines_end = matches!(text.get(row.end), None | Some(b'\n'));
        let under: String = (row.start..row.end + usize::from(is_lines_end)).map(|at| mark(at).unwrap_or(' ')).collect();
        if !under.trim_end().is_empty() {
            rows.push(format!("  {}", under.trim_end()));
        }
    }
    rows.join("\n")
}

/// From where to where each row goes: one ends at a line's end, which a rule under `x` has, or at its width.
fn windows(text: &[u8]) -> Vec<Range<usize>> {
    let mut rows = Vec::new();
    let mut at = 0;
    for line in text.split(|&byte| byte == b'\n') {
        let end = at + line.len();
        rows.extend((at..end.max(at + 1)).step_by(WIDTH).map(|start| start..end.min(start + WIDTH)));
        at = end + 1;
    }
    rows
}

/// The bytes of a text, those outside 20 to 7E (hex) as dots.
fn shown(text: &[u8]) -> String {
    text.iter().map(|&byte| if (0x20..=0x7E).contains(&byte) { char::from(byte) } else { '.' }).collect()
}
