//! The tree: what git last knew of each folder, the extension TREE.
use std::cmp::Ordering;
use std::fmt;
use std::iter::Enumerate;
use std::ops::Range;

use crate::declarations::NODE_SIZE;
use crate::entry::Entries;
use crate::ffi;
use crate::id::Id;

/// The tree of an index, its nodes in the order of the file: the root first, a folder before those in it.
///
/// ```
/// # fn main() -> Result<(), sparrowpivot::Error> {
/// let index = sparrowpivot::Index::open("tests/data/settled.index")?;
/// let tree = index.tree().expect("git left one");
/// for (i, node) in tree.nodes().enumerate() {
///     println!("{}: {:?} entries", String::from_utf8_lossy(&tree.path(i)), node.entries);
/// }
/// assert_eq!(tree.path(1), b"exhibit");
/// # Ok(())
/// # }
/// ```
#[derive(Clone, Copy, Debug)]
pub struct Tree<'a> {
    nodes: &'a [u8],
    file: &'a [u8],
}

/// One folder.
#[derive(Clone, Copy, Debug, PartialEq, Eq)]
pub struct Node<'a> {
    /// Its name within the folder above; the root's is empty.
    pub name: &'a [u8],
    /// How many entries lie below it; `None` if git has marked it out of date.
    pub entries: Option<u32>,
    /// How many folders stand in it.
    pub subtrees: u64,
    /// The tree object that git wrote for it; `None` if it is out of date.
    pub id: Option<Id>,
    /// The node of the folder above; the root has none.
    pub parent: Option<usize>,
}

impl<'a> Tree<'a> {
    pub(crate) fn of(nodes: &'a [u8], file: &'a [u8]) -> Tree<'a> {
        Tree { nodes, file }
    }

    /// How many nodes there are.
    pub fn len(&self) -> usize {
        self.nodes.len() / NODE_SIZE
    }

    /// Whether there is none. A tree that was read has its root.
    pub fn is_empty(&self) -> bool {
        self.len() == 0
    }

    /// The nodes, in the order of the file.
    pub fn nodes(&self) -> Nodes<'a> {
        Nodes { tree: *self, left: 0..self.len() }
    }

    /// Node i, counted from 0.
    pub fn node(&self, i: usize) -> Option<Node<'a>> {
        let [start, end, count, subtrees, parent, ..] = ffi::node(self.nodes, i)?;
        // a count out of date is -1, which no count of 32 bits is
        let entries = u32::try_from(count).ok();
        Some(Node {
            name: self.file.get(start as usize..end as usize).unwrap_or_default(),
            entries,
            subtrees,
            id: entries.map(|_| Id(ffi::node_id(self.nodes, i))),
            parent: usize::try_from(parent).ok().filter(|above| *above < i),
        })
    }

    /// The path of node i from the top of the work tree; the root's is empty, and so is that of a node that is not
    /// there. It is put together of the names of all folders above; for the paths of all nodes take
    /// [`folders`](Tree::folders).
    pub fn path(&self, i: usize) -> Vec<u8> {
        let mut names = Vec::new();
        let mut at = self.node(i);
        while let Some(Node { name, parent: Some(above), .. }) = at {
            names.push(name);
            at = self.node(above);
        }
        names.reverse();
        names.join(&b'/')
    }

    /// The paths of all nodes, in the order of the file.
    pub fn folders(&self) -> Folders<'a> {
        Folders { nodes: self.nodes().enumerate(), path: Vec::new(), above: Above(Vec::new()) }
    }

    /// Whether as many entries lie below each folder as it says, in a table that is in order. They are looked for among
    /// those below the folder above, whose path they all have in common, so that no path is passed over again.
    pub(crate) fn check(&self, entries: &Entries<'_>) -> Result<(), TreeFault> {
        let mut above = Above(Vec::new());
        for (i, node) in self.nodes().enumerate() {
            let (below, common) = match above.of(node.parent) {
                None => (entries.clone(), 0),
                Some((below, common)) => in_folder(below, *common, node.name),
            };
            let there = below.len();
            if let Some(says) = node.entries.filter(|says| *says as usize != there) {
                let mut folder = self.path(i);
                folder.extend(node.parent.map(|_| b'/'));
                return Err(TreeFault::Count { folder, says, there });
            }
            above.0.push((i, (below, common)));
        }
        Ok(())
    }
}

/// Those of some entries, whose paths have so many bytes in common, that lie in a folder there, and how many bytes the
/// paths of these have in common.
fn in_folder<'a>(entries: &Entries<'a>, common: usize, name: &[u8]) -> (Entries<'a>, usize) {
    let stands = |path: &[u8]| to_folder(path.get(common..).unwrap_or_default(), name);
    let first = entries.split(|path| stands(path) == Ordering::Less);
    let behind = entries.split(|path| stands(path) != Ordering::Greater);
    (entries.part(first..behind), common.saturating_add(name.len()).saturating_add(1))
}

/// How a path stands to those that lie in a folder: before them, among them or behind them.
fn to_folder(path: &[u8], name: &[u8]) -> Ordering {
    match path.split_at_checked(name.len()) {
        None => path.cmp(name),
        // the name alone is before what lies in it
        Some((head, rest)) => head.cmp(name).then(rest.first().map_or(Ordering::Less, |byte| byte.cmp(&b'/'))),
    }
}

/// What is known of the folders above a node, in a tree whose nodes come as they stand in the file: each with its node.
#[derive(Clone, Debug)]
struct Above<T>(Vec<(usize, T)>);

impl<T> Above<T> {
    /// What is known of the folder above; `None` for the root. Folders that are not above are left for good.
    fn of(&mut self, parent: Option<usize>) -> Option<&T> {
        while self.0.last().is_some_and(|(node, _)| Some(*node) != parent) {
            self.0.pop();
        }
        self.0.last().map(|(_, known)| known)
    }
}

/// The paths of the nodes of a tree, in the order of the file, each made of the one before it: together they may be far
/// longer than the file, as one long name can stand above many others. See [`Tree::folders`].
///
/// ```
/// # fn main() -> Result<(), sparrowpivot::Error> {
/// # let index = sparrowpivot::Index::open("tests/data/settled.index")?;
/// let mut folders = index.tree().expect("git left one").folders();
/// assert_eq!(folders.step(), Some(b"".as_slice()));
/// assert_eq!(folders.step(), Some(b"exhibit/".as_slice()));
/// assert_eq!(folders.step(), None);
/// # Ok(())
/// # }
/// ```
#[derive(Clone, Debug)]
pub struct Folders<'a> {
    nodes: Enumerate<Nodes<'a>>,
    path: Vec<u8>,
    above: Above<usize>,
}

impl Folders<'_> {
    /// The path of the next node with a slash after it; empty for the root.
    pub fn step(&mut self) -> Option<&[u8]> {
        let (i, node) = self.nodes.next()?;
        match self.above.of(node.parent) {
            None => self.path.clear(),
            Some(end) => {
                self.path.truncate(*end);
                self.path.extend(node.name);
                self.path.push(b'/');
            }
        }
        self.above.0.push((i, self.path.len()));
        Some(&self.path)
    }
}

/// What is wrong with a tree. See [`Index::check_tree`](crate::Index::check_tree).
#[derive(Clone, Debug, PartialEq, Eq)]
#[non_exhaustive]
pub enum TreeFault {
    /// The TREE is not spelled as the format asks.
    Malformed,
    /// Not as many entries lie below a folder as its node says.
    Count {
        /// The folder's path with a slash after it; empty for the root.
        folder: Vec<u8>,
        /// The entries that its node counts.
        says: u32,
        /// The entries that there are.
        there: usize,
    },
}

impl fmt::Display for TreeFault {
    fn fmt(&self, f: &mut fmt::Formatter<'_>) -> fmt::Result {
        match self {
            TreeFault::Malformed => f.write_str("malformed, and read as none"),
            TreeFault::Count { folder, says, there } => {
                let folder = folder.escape_ascii();
                write!(f, "the count of entries below \"{folder}\" is {says} in the tree, and {there} in the index")
            }
        }
    }
}

impl std::error::Error for TreeFault {}

/// The nodes of a tree, in the order of the file.
#[derive(Clone, Debug)]
pub struct Nodes<'a> {
    tree: Tree<'a>,
    left: Range<usize>,
}

impl<'a> Iterator for Nodes<'a> {
    type Item = Node<'a>;

    fn next(&mut self) -> Option<Node<'a>> {
        self.tree.node(self.left.next()?)
    }

    fn size_hint(&self) -> (usize, Option<usize>) {
        self.left.size_hint()
    }
}

impl DoubleEndedIterator for Nodes<'_> {
    fn next_back(&mut self) -> Option<Self::Item> {
        self.tree.node(self.left.next_back()?)
    }
}

impl ExactSizeIterator for Nodes<'_> {}

impl std::iter::FusedIterator for Nodes<'_> {}
