//! The attributes of a file's root group, as they are read.
use crate::cursor::Bytes;
use crate::heap::{Messages, is_huge};
use crate::links;
use crate::message::{Attribute, attribute};
use crate::name_index::UNTRACKED;
use crate::object_header::{Message, messages};
use crate::root_group;
use crate::superblock::{self, Superblock};
use crate::tree::{ByName, Tree};
use crate::{Dense, Disagreement, LENGTH_SIZE, OFFSET_SIZE, Uncovered, Unreadable};
use fractal_heap::Header;
use std::cmp::Ordering;

/// Types of messages, those that are written, too.
const NIL: u64 = 0x00;
const LINK_INFO: u64 = root_group::LINK_INFO as u64;
const LINK: u64 = 0x06;
const GROUP_INFO: u64 = root_group::GROUP_INFO as u64;
const ATTRIBUTE: u64 = 0x0C;
const SYMBOL_TABLE: u64 = 0x11;
const MODIFICATION_TIME: u64 = 0x12;
const ATTRIBUTE_INFO: u64 = root_group::ATTRIBUTE_INFO as u64;
/// A record's flag: its message is shared, and so in another heap.
const SHARED: u8 = 1 << 1;

/// An attribute that was found.
#[derive(Debug, Clone, PartialEq, Eq)]
pub struct Found<'f> {
    /// Its message's heap ID; none where it lies in the object header, or in another heap, shared.
    pub id: Option<[u8; 8]>,
    /// Where its message is in the heap; none of one in the object header, of a shared one and of a huge object.
    pub heap_offset: Option<u64>,
    /// Its number where order is tracked.
    pub order: Option<u16>,
    /// The attribute, or why it is not read: one that is not does not hide the others.
    pub attribute: Result<Attribute<'f>, Unreadable>,
}

/// The attributes of the root group: few may lie in its object header, the others are in dense storage.
pub struct Attributes<'f> {
    bytes: Bytes<'f>,
    compact: Vec<Message<'f>>,
    dense: Option<Storage<'f>>,
    newest: Option<u16>,
    other_content: Option<&'static str>,
    bytes_behind: u64,
}

/// Dense storage.
struct Storage<'f> {
    places: Dense,
    messages: Messages<'f>,
    names: Tree<'f, ByName>,
}

/// 'Attribute Info Message'.
#[derive(Default)]
struct Info {
    newest: Option<u16>,
    dense: Option<Dense>,
}

impl<'f> Attributes<'f> {
    /// Those of a whole file.
    pub fn open(file: &'f [u8]) -> Result<Self, Unreadable> {
        Self::under(superblock::open(file)?)
    }

    /// Those of a whole file whose superblock stands behind a user block of so many bytes, whatever its base address
    /// says: a block that was put before a file as it was, as h5jam does it, is not told in the file.
    pub fn open_behind(file: &'f [u8], user_block: u64) -> Result<Self, Unreadable> {
        Self::under(superblock::open_behind(file, user_block)?)
    }

    fn under(superblock: Superblock<'f>) -> Result<Self, Unreadable> {
        let bytes = superblock.bytes;
        let (mut info, mut compact) = (None, Vec::new());
        let mut other_content = around_root_group(&superblock);
        for message in messages(&bytes, superblock.root)? {
            match message.kind {
                ATTRIBUTE => compact.push(message),
                ATTRIBUTE_INFO if info.is_some() => {
                    let what = "root group";
                    let why = "it has two messages on its attributes";
                    return Err(Unreadable::Contradicts { what, why });
                }
                ATTRIBUTE_INFO => info = Some(attribute_info(message)?),
                _ => other_content = other_content.or(beside_attributes(message)),
            }
        }
        let Info { newest, dense } = info.unwrap_or_default();
        let storage = |places: Dense| {
            Ok::<_, Unreadable>(Storage {
                places,
                names: Tree::open(bytes, places.names)?,
                messages: Messages::new(bytes, places.heap),
            })
        };
        Ok(Attributes {
            bytes,
            compact,
            dense: dense.map(storage).transpose()?,
            newest,
            other_content,
            bytes_behind: (bytes.all.len() as u64).saturating_sub(superblock.end),
        })
    }

    /// What the header of the heap says, where there is one.
    pub fn heap(&self) -> Result<Option<Header>, Unreadable> {
        let header = |dense: &Storage| dense.messages.header();
        self.dense.as_ref().map(header).transpose()
    }

    /// Where dense storage is, if there is any.
    pub fn dense(&self) -> Option<Dense> {
        self.dense.as_ref().map(|dense| dense.places)
    }

    /// The Maximum Creation Index, where order is tracked.
    pub fn newest(&self) -> Option<u16> {
        self.newest
    }

    /// What the file has beside its attributes that a file of attributes, as [`RootGroup`](crate::RootGroup) begins one,
    /// would not have, if anything: it is lost where such a file takes this one's place.
    pub fn other_content(&self) -> Option<&'static str> {
        self.other_content
    }

    /// Bytes of the file behind the end that its superblock tells: none of what is read lies there.
    pub fn bytes_behind(&self) -> u64 {
        self.bytes_behind
    }

    /// How the index and the heap's header disagree about the heap's objects, if they do; `all` are all attributes, as
    /// they are read. A message that is shared lies in another heap, and does not count.
    pub fn disagreement(&self, all: &[Found]) -> Result<Option<Disagreement>, Unreadable> {
        let ids: Vec<[u8; 8]> = all.iter().filter_map(|found| found.id).collect();
        let header = self.heap()?;
        Ok(header.and_then(|header| Disagreement::between(&ids, &header)))
    }

    /// The attribute of a name, if there is one.
    pub fn find(&self, name: &[u8]) -> Result<Option<Found<'f>>, Unreadable> {
        let mut unread = None;
        for message in &self.compact {
            let found = self.found_compact(message);
            match &found.attribute {
                Ok(attribute) if attribute.name == name => return Ok(Some(found)),
                Ok(_) => {}
                Err(why) => unread = Some(*why),
            }
        }
        let found = match &self.dense {
            None => None,
            Some(dense) => self.find_dense(dense, name)?,
        };
        // Where one is not read it may be that one.
        match (found, unread) {
            (None, Some(why)) => Err(why),
            (found, _) => Ok(found),
        }
    }

    fn find_dense(
        &self,
        dense: &Storage<'f>,
        name: &[u8],
    ) -> Result<Option<Found<'f>>, Unreadable> {
        let hash = fractal_heap::checksum(name);
        let mut found = None;
        dense.names.find(|record| match hash.cmp(&record.hash) {
            // Only a record of the same hash needs its name: from its message, which is the one that is sought.
            Ordering::Equal => {
                let attribute = dense.attribute(&self.bytes, record)?;
                let order = name.cmp(attribute.name);
                if order == Ordering::Equal {
                    found = Some(self.found_dense(dense, record, Ok(attribute)));
                }
                Ok(order)
            }
            order => Ok(order),
        })?;
        Ok(found)
    }

    /// The attribute whose message has this heap ID, if there is one: what an attribute left that was removed is none.
    pub fn find_id(&self, id: &[u8; 8]) -> Result<Option<Found<'f>>, Unreadable> {
        let Some(dense) = &self.dense else {
            return Ok(None);
        };
        let (message, _) = dense.messages.read(id)?;
        let name = attribute(&self.bytes, message)?.name;
        let found = self.find(name)?;
        Ok(found.filter(|found| found.id.as_ref() == Some(id)))
    }

    /// All attributes, in the order of their numbers where that is tracked, else those of the object header, then by their
    /// places in the heap, then huge objects.
    pub fn all(&self) -> Result<Vec<Found<'f>>, Unreadable> {
        let mut found: Vec<Found> = self.compact.iter().map(|m| self.found_compact(m)).collect();
        if let Some(dense) = &self.dense {
            let mut records = dense.names.records()?;
            records.sort_by_cached_key(|record| dense.place(&record.id));
            found.extend(records.iter().map(|record| {
                let attribute = dense.attribute(&self.bytes, record);
                self.found_dense(dense, record, attribute)
            }));
        }
        found.sort_by_key(|found| found.order);
        Ok(found)
    }

    fn found_compact(&self, message: &Message<'f>) -> Found<'f> {
        let order = message.order.filter(|_| self.newest.is_some());
        let attribute = match message.is_shared {
            true => Err(Unreadable::NotHere {
                why: "its message is shared with other objects",
            }),
            false => {
                let uncovered = (!message.is_covered).then_some(Uncovered::OldObjectHeader);
                let attribute = attribute(&self.bytes, message.data.rest);
                attribute.map(|attribute| attribute.with_uncovered(uncovered))
            }
        };
        Found {
            id: None,
            heap_offset: None,
            order: order.map(|order| order as u16),
            attribute,
        }
    }

    fn found_dense(
        &self,
        dense: &Storage<'f>,
        record: &ByName,
        attribute: Result<Attribute<'f>, Unreadable>,
    ) -> Found<'f> {
        let is_tracked = self.newest.is_some() && record.order < UNTRACKED;
        let is_here = record.flags & SHARED == 0;
        Found {
            id: is_here.then_some(record.id),
            heap_offset: dense.messages.offset(&record.id).filter(|_| is_here),
            order: is_tracked.then_some(record.order as u16),
            attribute,
        }
    }
}

impl<'f> Storage<'f> {
    /// Where an object comes among the others: managed ones by their heap offsets, huge ones behind them.
    fn place(&self, id: &[u8; 8]) -> (bool, Option<u64>, [u8; 8]) {
        (is_huge(id), self.messages.offset(id), *id)
    }

    /// The attribute that a record leads to, whose name must be that of the record's hash.
    fn attribute(&self, bytes: &Bytes<'f>, record: &ByName) -> Result<Attribute<'f>, Unreadable> {
        if record.flags & SHARED != 0 {
            let why = "its message is shared with other objects";
            return Err(Unreadable::NotHere { why });
        }
        let (message, uncovered) = self.messages.read(&record.id)?;
        let attribute = attribute(bytes, message)?;
        match fractal_heap::checksum(attribute.name) == record.hash {
            true => Ok(attribute.with_uncovered(uncovered)),
            false => {
                let (what, why) = ("index", "a record leads to an attribute of another name");
                Err(Unreadable::Contradicts { what, why })
            }
        }
    }
}

/// Whether order is tracked, and where dense attributes are. IV.A.2.v, 'Attribute Info Message'.
fn attribute_info(message: Message) -> Result<Info, Unreadable> {
    let (mut at, what) = (message.data, "root group");
    if message.is_shared {
        let why = "its message on attributes is somewhere else";
        return Err(Unreadable::Contradicts { what, why });
    }
    at.version("version of a message on attributes", &[0])?;
    let flags = at.byte()?;
    let newest = match flags & 1 {
        0 => None,
        _ => Some(at.number(2)? as u16),
    };
    let dense = match (at.address()?, at.address()?) {
        (None, _) => None,
        (Some(heap), Some(names)) => Some(Dense { heap, names }),
        (Some(_), None) => {
            let why = "its attributes have a heap and no index";
            return Err(Unreadable::Contradicts { what, why });
        }
    };
    Ok(Info { newest, dense })
}

/// What there is around the root group that a file of attributes has not.
fn around_root_group(superblock: &Superblock) -> Option<&'static str> {
    let bytes = &superblock.bytes;
    match (superblock.at, (bytes.offset_size, bytes.length_size)) {
        (0, (OFFSET_SIZE, LENGTH_SIZE)) if superblock.end < bytes.all.len() as u64 => {
            Some("bytes behind its end, which its superblock tells")
        }
        (0, (OFFSET_SIZE, LENGTH_SIZE)) => superblock.extension,
        (0, _) => Some("addresses or lengths of other than 8 bytes"),
        _ => Some("a user block"),
    }
}

/// What a message of the root group says that there is, and a file of attributes has not.
fn beside_attributes(message: Message) -> Option<&'static str> {
    let has_links = match message.kind {
        NIL | GROUP_INFO | MODIFICATION_TIME => return None,
        LINK_INFO if !message.is_shared => links::has_dense_links(message.data),
        SYMBOL_TABLE if !message.is_shared => links::has_symbols(message.data),
        LINK => Ok(true),
        _ => return Some("more in its root group than attributes"),
    };
    match has_links {
        Ok(false) => None,
        Ok(true) => Some("other objects, which its root group has links to"),
        Err(_) => Some("a root group whose links cannot be read"),
    }
}
