//! The list of a file's extensions.
use crate::stores::be32;

/// An extension: a signature and some bytes, between the entries and the trailer.
#[derive(Clone, Copy, Debug, PartialEq, Eq)]
pub struct Extension<'a> {
    /// Its four bytes, such as `TREE`.
    pub signature: [u8; 4],
    /// What it holds.
    pub body: &'a [u8],
}

/// The extensions of an index, in the order of the file. See [`Index::extensions`](crate::Index::extensions).
#[derive(Clone, Debug)]
pub struct Extensions<'a> {
    left: &'a [u8],
}

impl<'a> Extensions<'a> {
    /// The extensions that fill these bytes.
    pub(crate) fn of(left: &'a [u8]) -> Extensions<'a> {
        Extensions { left }
    }
}

impl<'a> Iterator for Extensions<'a> {
    type Item = Extension<'a>;

    fn next(&mut self) -> Option<Extension<'a>> {
        let signature = *self.left.first_chunk::<4>()?;
        let behind_head = self.left.get(8..)?;
        let body = behind_head.get(..be32(self.left, 4) as usize)?;
        self.left = behind_head.get(body.len()..)?;
        Some(Extension { signature, body })
    }
}

impl std::iter::FusedIterator for Extensions<'_> {}
