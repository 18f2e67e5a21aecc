//! Version 2 B-trees as they are read: III.A.2, of any node size, with records of the two types that attributes need.
//! The index by name is written in `name_index`.
use crate::Unreadable;
use crate::cursor::{Bytes, Cursor, PartsMet};
use std::cmp::Ordering;
use std::marker::PhantomData;

const HEADER: &str = "header of the index";
const NODE: &str = "node of the index";
/// Signature, version, type and checksum of a node.
pub const NODE_OVERHEAD: u64 = 10;

/// What an index has of each of its objects.
pub trait Record: Copy {
    /// The type of the B-tree.
    const TYPE: u8;

    /// Bytes of a record in this file.
    fn size(bytes: &Bytes) -> u64;

    fn read(at: &mut Cursor) -> Result<Self, Unreadable>;
}

/// 'Type 8 Record Layout - Attribute Name for Indexed Attributes'.
#[derive(Debug, Clone, Copy, PartialEq, Eq)]
pub struct ByName {
    pub id: [u8; 8],
    /// The message's flags; where it is shared the ID is another heap's.
    pub flags: u8,
    pub order: u32,
    pub hash: u32,
}

impl Record for ByName {
    const TYPE: u8 = 8;

    fn size(_: &Bytes) -> u64 {
        17
    }

    fn read(at: &mut Cursor) -> Result<Self, Unreadable> {
        let mut id = [0; 8];
        id.copy_from_slice(at.take(8)?);
        Ok(ByName {
            id,
            flags: at.byte()?,
            order: at.number(4)? as u32,
            hash: at.number(4)? as u32,
        })
    }
}

/// 'Type 1 Record Layout - Indirectly Accessed, Non-filtered, Huge Fractal Heap Objects'.
#[derive(Debug, Clone, Copy, PartialEq, Eq)]
pub struct ByKey {
    pub address: u64,
    pub length: u64,
    pub key: u64,
}

impl Record for ByKey {
    const TYPE: u8 = 1;

    fn size(bytes: &Bytes) -> u64 {
        u64::from(bytes.offset_size) + 2 * u64::from(bytes.length_size)
    }

    fn read(at: &mut Cursor) -> Result<Self, Unreadable> {
        Ok(ByKey {
            address: at.defined()?,
            length: at.length()?,
            key: at.length()?,
        })
    }
}

/// Bytes that a count up to a limit takes.
pub fn width(limit: u64) -> u64 {
    u64::from(limit.max(1).ilog2() / 8 + 1)
}

/// A B-tree whose header is sound.
pub struct Tree<'f, R> {
    bytes: Bytes<'f>,
    record_size: u64,
    node_size: u64,
    /// Bytes of a node's own count, and for each level those of the count of all records below a node of it.
    own_width: u64,
    below_widths: Vec<u64>,
    root: Option<Child>,
    records: PhantomData<R>,
}

/// What leads to a node.
#[derive(Clone, Copy)]
struct Child {
    address: u64,
    own: u64,
    /// Records in it and below it.
    all: u64,
    /// Levels below it.
    depth: usize,
}

/// A node that is sound.
struct Node<R> {
    records: Vec<R>,
    /// None of a leaf.
    children: Vec<Child>,
}

fn contradicts<T>(what: &'static str, why: &'static str) -> Result<T, Unreadable> {
    Err(Unreadable::Contradicts { what, why })
}

impl<'f, R: Record> Tree<'f, R> {
    /// 'Version 2 B-tree Header'.
    pub fn open(bytes: Bytes<'f>, at: u64) -> Result<Self, Unreadable> {
        let start = bytes.at(HEADER, at)?;
        let mut at = start.clone();
        at.signature(b"BTHD")?;
        at.version("version of an index", &[0])?;
        at.version("type of an index", &[R::TYPE])?;
        let (node_size, record_size) = (at.number(4)?, at.number(2)?);
        let depth = at.number(2)? as usize;
        at.take(2)?; // percentages of split and merge
        let (address, own, all) = (at.address()?, at.number(2)?, at.length()?);
        at.checksum(&start)?;
        if record_size != R::size(&bytes) {
            return contradicts(
                HEADER,
                "its records have another size than those of its type",
            );
        }
        let mut tree = Tree {
            bytes,
            record_size,
            node_size,
            own_width: 0,
            below_widths: vec![0],
            root: None,
            records: PhantomData,
        };
        tree.measure(depth, all)?;
        tree.root = match (address, all) {
            (_, 0) => None,
            (None, _) => return contradicts(HEADER, "it has records and no root"),
            (Some(address), _) => Some(Child {
                address,
                own,
                all,
                depth,
            }),
        };
        Ok(tree)
    }

    /// Whether it has no records.
    pub fn is_empty(&self) -> bool {
        self.root.is_none()
    }

    /// The widths of the counts in nodes above the leaves, for as many levels as there are. Each level has twice the
    /// records of the one below, or more, since a node above a leaf has two children at least.
    fn measure(&mut self, depth: usize, all: u64) -> Result<(), Unreadable> {
        let room = self.node_size.checked_sub(NODE_OVERHEAD);
        let Some(room) = room.filter(|room| *room >= self.record_size) else {
            return contradicts(HEADER, "no record fits into a node");
        };
        if depth > 0 && all.checked_shr(depth as u32).unwrap_or(0) == 0 {
            return contradicts(HEADER, "it has more levels than its records can fill");
        }
        let mut below = room / self.record_size;
        self.own_width = width(below);
        for _ in 0..depth {
            let last = self.below_widths.last().copied().unwrap_or(0);
            let pointer = u64::from(self.bytes.offset_size) + self.own_width + last;
            let own = room.saturating_sub(pointer) / (self.record_size + pointer);
            below = own
                .saturating_mul(below.saturating_add(1))
                .saturating_add(below);
            self.below_widths.push(width(below));
        }
        Ok(())
    }

    /// 'Version 2 B-tree Internal Node' and 'Leaf Node', with the checksum, which stands right behind what it covers.
    fn node(&self, child: Child) -> Result<Node<R>, Unreadable> {
        let mut start = self.bytes.at(NODE, child.address)?;
        start.rest = start.take(self.node_size)?;
        let mut at = start.clone();
        let signature = if child.depth == 0 { b"BTLF" } else { b"BTIN" };
        at.signature(signature)?;
        at.version("version of a node of the index", &[0])?;
        at.version("type of a node of the index", &[R::TYPE])?;
        let mut records_at = at.clone();
        at.take(child.own.saturating_mul(self.record_size))?;
        let mut children = Vec::new();
        let mut rest = child.all.checked_sub(child.own);
        for _ in 0..if child.depth == 0 { 0 } else { child.own + 1 } {
            let next = self.child(&mut at, child.depth - 1)?;
            rest = rest.and_then(|rest| rest.checked_sub(next.all));
            children.push(next);
        }
        at.checksum(&start)?;
        if rest != Some(0) {
            return contradicts(
                NODE,
                "another number of records is told of it than is in it and below it",
            );
        }
        let records = (0..child.own).map(|_| R::read(&mut records_at));
        Ok(Node {
            records: records.collect::<Result<_, _>>()?,
            children,
        })
    }

    /// The pointer to a child. Above a leaf its own count is that of all below.
    fn child(&self, at: &mut Cursor, depth: usize) -> Result<Child, Unreadable> {
        let (address, own) = (at.defined()?, at.number(self.own_width)?);
        let all = match self.below_widths[depth] {
            0 => own,
            width => at.number(width)?,
        };
        Ok(Child {
            address,
            own,
            all,
            depth,
        })
    }

    /// The record that is sought: `compare` says how that stands to another one. On the way down each node is read once,
    /// and no more records are compared than a search by halves needs.
    pub fn find(
        &self,
        mut compare: impl FnMut(&R) -> Result<Ordering, Unreadable>,
    ) -> Result<Option<R>, Unreadable> {
        let mut next = self.root;
        while let Some(child) = next {
            let node = self.node(child)?;
            let (mut low, mut high) = (0, node.records.len());
            while low < high {
                let middle = low + (high - low) / 2;
                match compare(&node.records[middle])? {
                    Ordering::Equal => return Ok(Some(node.records[middle])),
                    Ordering::Less => high = middle,
                    Ordering::Greater => low = middle + 1,
                }
            }
            next = node.children.get(low).copied();
        }
        Ok(None)
    }

    /// All records. No node lies over another one, so that no more is read than the file has.
    pub fn records(&self) -> Result<Vec<R>, Unreadable> {
        let (mut met, mut found) = (PartsMet::default(), Vec::new());
        let mut nodes: Vec<Child> = self.root.into_iter().collect();
        while let Some(child) = nodes.pop() {
            met.add(NODE, child.address, self.node_size)?;
            let node = self.node(child)?;
            found.extend(node.records);
            nodes.extend(node.children);
        }
        Ok(found)
    }
}
