//! Reading field by field, where every byte that is asked for may be missing.
use crate::Unreadable;
use fractal_heap::little_endian;
use std::collections::BTreeMap;

/// The bytes of a file from its superblock on, and the two sizes that it gives.
#[derive(Clone, Copy)]
pub struct Bytes<'f> {
    pub all: &'f [u8],
    pub offset_size: u8,
    pub length_size: u8,
}

impl<'f> Bytes<'f> {
    /// A structure that begins at an address.
    pub fn at(&self, what: &'static str, at: u64) -> Result<Cursor<'f>, Unreadable> {
        let start = usize::try_from(at)
            .unwrap_or(usize::MAX)
            .min(self.all.len());
        let whole = Cursor {
            bytes: *self,
            what,
            place: at,
            rest: &self.all[start..],
        };
        match start as u64 == at {
            true => Ok(whole),
            false => Err(whole.ends_early(1)),
        }
    }

    /// A structure in bytes that were found already, which began at a place.
    pub fn over(&self, what: &'static str, place: u64, rest: &'f [u8]) -> Cursor<'f> {
        Cursor {
            bytes: *self,
            what,
            place,
            rest,
        }
    }
}

/// What is left of a structure.
#[derive(Clone)]
pub struct Cursor<'f> {
    pub bytes: Bytes<'f>,
    /// What it is, in words, and where it began.
    pub what: &'static str,
    pub place: u64,
    pub rest: &'f [u8],
}

impl<'f> Cursor<'f> {
    fn ends_early(&self, needed: u64) -> Unreadable {
        Unreadable::EndsEarly {
            what: self.what,
            at: self.place,
            needed,
            there: self.rest.len() as u64,
        }
    }

    /// The next bytes.
    pub fn take(&mut self, length: u64) -> Result<&'f [u8], Unreadable> {
        let split = usize::try_from(length)
            .ok()
            .and_then(|n| self.rest.split_at_checked(n));
        let (taken, rest) = split.ok_or_else(|| self.ends_early(length))?;
        self.rest = rest;
        Ok(taken)
    }

    /// A little-endian number of at most eight bytes.
    pub fn number(&mut self, width: u64) -> Result<u64, Unreadable> {
        self.take(width).map(little_endian)
    }

    pub fn byte(&mut self) -> Result<u8, Unreadable> {
        Ok(self.take(1)?[0])
    }

    /// An address; None where it is undefined.
    pub fn address(&mut self) -> Result<Option<u64>, Unreadable> {
        let width = u32::from(self.bytes.offset_size);
        let address = self.number(width.into())?;
        Ok((address != u64::MAX >> (64 - 8 * width)).then_some(address))
    }

    pub fn length(&mut self) -> Result<u64, Unreadable> {
        self.number(self.bytes.length_size.into())
    }

    /// An address that has to be there.
    pub fn defined(&mut self) -> Result<u64, Unreadable> {
        let (what, why) = (self.what, "an address is undefined");
        self.address()?.ok_or(Unreadable::Contradicts { what, why })
    }

    pub fn signature(&mut self, signature: &[u8]) -> Result<(), Unreadable> {
        let (what, at) = (self.what, self.place);
        match self.take(signature.len() as u64)? == signature {
            true => Ok(()),
            false => Err(Unreadable::Signature { what, at }),
        }
    }

    /// A version, which must be one of these.
    pub fn version(&mut self, what: &'static str, known: &[u8]) -> Result<u8, Unreadable> {
        let version = self.byte()?;
        match known.contains(&version) {
            true => Ok(version),
            false => Err(Unreadable::Unknown {
                what,
                number: version.into(),
            }),
        }
    }

    /// The checksum that stands here, of all that was taken since `start` was there.
    pub fn checksum(&mut self, start: &Cursor) -> Result<(), Unreadable> {
        let covered = &start.rest[..start.rest.len() - self.rest.len()];
        let computed = fractal_heap::checksum(covered);
        let stored = self.number(4)? as u32;
        match stored == computed {
            true => Ok(()),
            false => Err(Unreadable::Checksum {
                what: self.what,
                at: self.place,
                stored,
                computed,
            }),
        }
    }
}

/// The parts of a structure that were met: they do not overlap, so that however they lead to each other no more is
/// looked at than there is.
#[derive(Default)]
pub struct PartsMet(BTreeMap<u64, u64>);

impl PartsMet {
    /// Another part, from a place on.
    pub fn add(&mut self, what: &'static str, at: u64, length: u64) -> Result<(), Unreadable> {
        let end = at.saturating_add(length.max(1));
        let before = self.0.range(..end).next_back();
        if before.is_some_and(|(_, &before)| before > at) {
            return Err(Unreadable::Overlaps { what, at });
        }
        self.0.insert(at, end);
        Ok(())
    }
}

#[cfg(test)]
mod tests {
    use super::*;

    const BYTES: Bytes = Bytes {
        all: &[1, 2, 3, 0xFF, 0xFF],
        offset_size: 2,
        length_size: 4,
    };

    #[test]
    fn no_byte_behind_the_end_is_taken() {
        let mut at = BYTES.at("thing", 1).unwrap();
        assert_eq!(at.number(2), Ok(0x0302));
        assert_eq!(at.address(), Ok(None));
        let due = Unreadable::EndsEarly {
            what: "thing",
            at: 1,
            needed: 1,
            there: 0,
        };
        assert_eq!(at.byte(), Err(due));
        assert_eq!(at.take(0), Ok(&[][..]));
        assert!(at.take(u64::MAX).is_err());
        assert!(BYTES.at("thing", 5).is_ok());
        assert!(BYTES.at("thing", 6).is_err());
        assert!(BYTES.at("thing", u64::MAX).is_err());
    }

    #[test]
    fn what_overlaps_is_refused() {
        let mut met = PartsMet::default();
        for (at, length, due) in [
            (100, 10, true),
            (110, 5, true),
            (90, 10, true),
            (100, 10, false),
            (109, 1, false),
            (99, 1, false),
            (80, 100, false),
            (u64::MAX, 100, true),
            (u64::MAX - 1, 1, true),
        ] {
            assert_eq!(met.add("thing", at, length).is_ok(), due, "{at}");
        }
    }
}
