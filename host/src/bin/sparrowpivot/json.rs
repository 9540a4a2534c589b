//! The few forms of JSON that are needed.
use std::io::{self, Write};

/// Writes a string.
pub fn string(out: &mut impl Write, text: &str) -> io::Result<()> {
    out.write_all(b"\"")?;
    let mut rest = text;
    while let Some(at) = rest.find(|c: char| c < ' ' || c == '"' || c == '\\') {
        let (plain, behind) = rest.split_at(at);
        let mut behind = behind.chars();
        let odd = behind.next().map_or(0, u32::from);
        write!(out, "{plain}\\u{odd:04x}")?;
        rest = behind.as_str();
    }
    write!(out, "{rest}\"")
}

/// Writes a member of an object whose value is bytes: `"NAME":"text"` if they are UTF-8, else `"NAME_hex":"digits"`.
pub fn bytes(out: &mut impl Write, name: &str, bytes: &[u8]) -> io::Result<()> {
    match std::str::from_utf8(bytes) {
        Ok(text) => {
            write!(out, "\"{name}\":")?;
            string(out, text)
        }
        Err(_) => {
            write!(out, "\"{name}_hex\":\"")?;
            bytes.iter().try_for_each(|byte| write!(out, "{byte:02x}"))?;
            out.write_all(b"\"")
        }
    }
}

/// Writes an array, one item a line.
pub fn array<W: Write, T>(
    out: &mut W,
    items: impl Iterator<Item = T>,
    mut item: impl FnMut(&mut W, T) -> io::Result<()>,
) -> io::Result<()> {
    let mut before = "[\n";
    for one in items {
        out.write_all(before.as_bytes())?;
        item(out, one)?;
        before = ",\n";
    }
    out.write_all(if before == "[\n" { b"[]\n" } else { b"\n]\n" })
}
