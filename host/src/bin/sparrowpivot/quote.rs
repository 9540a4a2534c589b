//! Paths as git prints them.
use std::io::{self, Write};

/// Writes a path as git does by default: as it is, or, if it has a byte that could spoil a line or a terminal, in
/// double quotes with C's escapes.
pub fn quoted(out: &mut impl Write, path: &[u8]) -> io::Result<()> {
    if !path.iter().any(|byte| is_odd(*byte)) {
        return out.write_all(path);
    }
    out.write_all(b"\"")?;
    for byte in path {
        match letter(*byte) {
            Some(letter) => out.write_all(&[b'\\', letter])?,
            None if is_odd(*byte) => write!(out, "\\{byte:03o}")?,
            None => out.write_all(&[*byte])?,
        }
    }
    out.write_all(b"\"")
}

fn is_odd(byte: u8) -> bool {
    matches!(byte, 0..=0x1f | 0x7f..=0xff | b'"' | b'\\')
}

/// The letter after the backslash, where there is one.
fn letter(byte: u8) -> Option<u8> {
    Some(match byte {
        0x07 => b'a',
        0x08 => b'b',
        b'\t' => b't',
        b'\n' => b'n',
        0x0b => b'v',
        0x0c => b'f',
        b'\r' => b'r',
        b'"' | b'\\' => byte,
        _ => return None,
    })
}
