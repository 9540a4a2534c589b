//! What can go wrong, in words.
use std::fmt;
use std::io;

/// A refusal of the proved library: why it said no, with the value that the refusal carries.
///
/// Printed, it says its number, and the value in words:
///
/// ```
/// let refusal = sparrowpivot::Refusal::NotSpelled { entry: 3 };
/// assert_eq!(refusal.to_string(), "refused 5: entry 3 (counted from 0) is not spelled as the format asks");
/// assert_eq!((refusal.number(), refusal.value()), (5, Some(3)));
/// ```
#[derive(Clone, Copy, Debug, PartialEq, Eq)]
#[non_exhaustive]
pub enum Refusal {
    /// 1: the file has under 32 bytes.
    ShortFile,
    /// 2: the file does not begin with "DIRC".
    NoSignature,
    /// 3: the version is not 2, 3 or 4.
    OtherVersion {
        /// The version that the file names.
        version: u64,
    },
    /// 4: the last 20 bytes are neither zeros nor the SHA-1 of the rest.
    BadTrailer,
    /// 5: an entry is not spelled as the format asks.
    NotSpelled {
        /// The first such entry, counted from 0.
        entry: u64,
    },
    /// 6: room is missing for an entry's record or path. An [`Index`](crate::Index) makes more, so it never gives this.
    NoEntryRoom {
        /// The first such entry, counted from 0.
        entry: u64,
    },
    /// 7: the extensions do not fill the space between entries and trailer.
    NotFilled {
        /// The place in the file at which the fault begins.
        place: u64,
    },
    /// 8: an extension must be understood, and is not; or `sdir` is not empty. One may be passed over only if its first
    /// byte is a letter from A to Z.
    Mandatory {
        /// Its four bytes, of any value.
        signature: [u8; 4],
    },
    /// 9: the tree is deeper than 512 levels.
    TooDeep,
    /// 10: room is missing for a node of the tree. An [`Index`](crate::Index) makes more, so it never gives this.
    NoNodeRoom,
    /// 11: a stage above 3 was looked for.
    NoStage,
    /// 12: a record's path does not lie in the path store. A record that was read never gives this.
    PathOutside {
        /// The record, counted from 0.
        record: u64,
    },
    /// 13: an entry is not strictly after the one before, by path and then stage.
    NotAfter {
        /// The first such entry, counted from 0.
        entry: u64,
    },
    /// 14: the output is too short.
    ShortOutput {
        /// How many bytes are needed.
        size: u64,
    },
    /// 15: there are over 2^32 - 1 records, or bytes before the place of EOIE.
    TooLarge,
    /// 16: the nodes are no proper tree.
    NotProper,
    /// A number that this crate does not know: the library is newer.
    Other {
        /// The number.
        number: u32,
        /// The value it carries, 0 if none.
        value: u64,
    },
}

impl Refusal {
    /// The refusal of this number, which carries this value.
    pub(crate) fn new(number: u32, value: u64) -> Refusal {
        match number {
            1 => Refusal::ShortFile,
            2 => Refusal::NoSignature,
            3 => Refusal::OtherVersion { version: value },
            4 => Refusal::BadTrailer,
            5 => Refusal::NotSpelled { entry: value },
            6 => Refusal::NoEntryRoom { entry: value },
            7 => Refusal::NotFilled { place: value },
            // a signature is four bytes, told as one big-endian number
            8 => Refusal::Mandatory { signature: (value as u32).to_be_bytes() },
            9 => Refusal::TooDeep,
            10 => Refusal::NoNodeRoom,
            11 => Refusal::NoStage,
            12 => Refusal::PathOutside { record: value },
            13 => Refusal::NotAfter { entry: value },
            14 => Refusal::ShortOutput { size: value },
            15 => Refusal::TooLarge,
            16 => Refusal::NotProper,
            _ => Refusal::Other { number, value },
        }
    }

    /// The number by which every part of the project knows this refusal.
    pub fn number(&self) -> u32 {
        match self {
            Refusal::ShortFile => 1,
            Refusal::NoSignature => 2,
            Refusal::OtherVersion { .. } => 3,
            Refusal::BadTrailer => 4,
            Refusal::NotSpelled { .. } => 5,
            Refusal::NoEntryRoom { .. } => 6,
            Refusal::NotFilled { .. } => 7,
            Refusal::Mandatory { .. } => 8,
            Refusal::TooDeep => 9,
            Refusal::NoNodeRoom => 10,
            Refusal::NoStage => 11,
            Refusal::PathOutside { .. } => 12,
            Refusal::NotAfter { .. } => 13,
            Refusal::ShortOutput { .. } => 14,
            Refusal::TooLarge => 15,
            Refusal::NotProper => 16,
            Refusal::Other { number, .. } => *number,
        }
    }

    /// The value it carries, if it carries one: a version, an entry, a place, a signature as one big-endian number, a
    /// size.
    pub fn value(&self) -> Option<u64> {
        match self {
            Refusal::OtherVersion { version } => Some(*version),
            Refusal::NotSpelled { entry } | Refusal::NoEntryRoom { entry } | Refusal::NotAfter { entry } => {
                Some(*entry)
            }
            Refusal::NotFilled { place } => Some(*place),
            Refusal::Mandatory { signature } => Some(u32::from_be_bytes(*signature).into()),
            Refusal::PathOutside { record } => Some(*record),
            Refusal::ShortOutput { size } => Some(*size),
            Refusal::Other { value, .. } => Some(*value),
            _ => None,
        }
    }
}

impl fmt::Display for Refusal {
    fn fmt(&self, f: &mut fmt::Formatter<'_>) -> fmt::Result {
        write!(f, "refused {}: ", self.number())?;
        match self {
            Refusal::ShortFile => f.write_str("the file has under 32 bytes"),
            Refusal::NoSignature => f.write_str("the file does not begin with \"DIRC\""),
            Refusal::OtherVersion { version } => write!(f, "the version is {version}, not 2, 3 or 4"),
            Refusal::BadTrailer => f.write_str("the last 20 bytes are neither zeros nor the SHA-1 of the rest"),
            Refusal::NotSpelled { entry } => {
                write!(f, "entry {entry} (counted from 0) is not spelled as the format asks")
            }
            Refusal::NoEntryRoom { entry } => write!(f, "there is no room for entry {entry} (counted from 0)"),
            Refusal::NotFilled { place } => write!(f, "the extensions do not fill their space, from byte {place} on"),
            Refusal::Mandatory { signature } => mandatory(f, *signature),
            Refusal::TooDeep => f.write_str("the tree is deeper than 512 levels"),
            Refusal::NoNodeRoom => f.write_str("there is no room for the next node of the tree"),
            Refusal::NoStage => f.write_str("there is no stage above 3"),
            Refusal::PathOutside { record } => {
                write!(f, "the path of record {record} (counted from 0) is not in its store")
            }
            Refusal::NotAfter { entry } => write!(f, "entry {entry} (counted from 0) is not after the one before"),
            Refusal::ShortOutput { size } => write!(f, "the output is too short: {size} bytes are needed"),
            Refusal::TooLarge => f.write_str("there are over 4294967295 records, or bytes before the place of EOIE"),
            Refusal::NotProper => f.write_str("the nodes are no proper tree"),
            Refusal::Other { value, .. } => write!(f, "for a reason that is not known here, with value {value}"),
        }
    }
}

/// The words of refusal 8. `sdir` is understood, so it must have been one that is not empty.
fn mandatory(f: &mut fmt::Formatter<'_>, signature: [u8; 4]) -> fmt::Result {
    let (name, value) = (signature.escape_ascii(), u32::from_be_bytes(signature));
    match &signature {
        b"sdir" => write!(f, "the extension \"{name}\" ({value}) is not empty"),
        _ => write!(f, "the extension \"{name}\" ({value}) must be understood, and is not"),
    }
}

impl std::error::Error for Refusal {}

/// What can go wrong with an [`Index`](crate::Index).
#[derive(Debug)]
#[non_exhaustive]
pub enum Error {
    /// The library refused.
    Refused(Refusal),
    /// The file could not be read.
    Io(io::Error),
    /// There is no memory for what the file spells, or more is needed than was allowed.
    OutOfMemory {
        /// How many bytes were asked for.
        bytes: usize,
    },
}

impl fmt::Display for Error {
    fn fmt(&self, f: &mut fmt::Formatter<'_>) -> fmt::Result {
        match self {
            Error::Refused(refusal) => refusal.fmt(f),
            Error::Io(why) => why.fmt(f),
            Error::OutOfMemory { bytes } => write!(f, "there is no memory for {bytes} bytes more"),
        }
    }
}

impl std::error::Error for Error {}

impl From<Refusal> for Error {
    fn from(refusal: Refusal) -> Error {
        Error::Refused(refusal)
    }
}

impl From<io::Error> for Error {
    fn from(why: io::Error) -> Error {
        Error::Io(why)
    }
}
