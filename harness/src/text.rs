//! Bytes as text: for messages, for data files and for the pipe to Perl.

/// The bytes with all that is not printable escaped, so that a message is one line.
pub fn escaped(bytes: &[u8]) -> String {
    bytes.iter().map(|&byte| if byte == b'\\' { "\\".to_string() } else { byte.escape_ascii().to_string() }).collect()
}

pub fn hex(bytes: &[u8]) -> String {
    bytes.iter().map(|byte| format!("{byte:02x}")).collect()
}

/// The bytes that a text of hex digits stands for.
pub fn from_hex(text: &str) -> Option<Vec<u8>> {
    text.as_bytes().chunks(2).map(|pair| u8::from_str_radix(std::str::from_utf8(pair).ok()?, 16).ok()).collect()
}

/// The bytes that a text with `\n`, `\r`, `\t`, `\\` and `\xHH` stands for.
pub fn unescaped(text: &str) -> Option<Vec<u8>> {
    let mut bytes = Vec::new();
    let mut rest = text.bytes();
    while let Some(byte) = rest.next() {
        bytes.push(match byte {
            b'\\' => match rest.next()? {
                b'n' => b'\n',
                b'r' => b'\r',
                b't' => b'\t',
                b'\\' => b'\\',
                b'x' => {
                    let (high, low) = (char::from(rest.next()?).to_digit(16)?, char::from(rest.next()?).to_digit(16)?);
                    (16 * high + low) as u8
                }
                _ => return None,
            },
            other => other,
        });
    }
    Some(bytes)
}
