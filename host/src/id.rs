//! Ids of objects.
use std::fmt;

/// The id of an object: the 20 bytes of its SHA-1. It is printed in 40 hexadecimal digits.
///
/// ```
/// let id = sparrowpivot::Id([0xa7; 20]);
/// assert_eq!(id.to_string(), "a7".repeat(20));
/// ```
#[derive(Clone, Copy, PartialEq, Eq, PartialOrd, Ord, Hash)]
pub struct Id(
    /// The bytes.
    pub [u8; 20],
);

impl Id {
    /// The 40 digits, as bytes.
    pub fn hex(&self) -> [u8; 40] {
        let mut digits = [b'0'; 40];
        for (two, byte) in digits.chunks_exact_mut(2).zip(self.0) {
            if let [high, low] = two {
                *high = digit(byte >> 4);
                *low = digit(byte & 15);
            }
        }
        digits
    }
}

fn digit(value: u8) -> u8 {
    match value {
        0..=9 => b'0'.wrapping_add(value),
        _ => b'a'.wrapping_add(value).wrapping_sub(10),
    }
}

impl fmt::Display for Id {
    fn fmt(&self, f: &mut fmt::Formatter<'_>) -> fmt::Result {
        f.write_str(std::str::from_utf8(&self.hex()).map_err(|_| fmt::Error)?)
    }
}

impl fmt::Debug for Id {
    fn fmt(&self, f: &mut fmt::Formatter<'_>) -> fmt::Result {
        fmt::Display::fmt(self, f)
    }
}
