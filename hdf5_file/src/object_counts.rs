//! How many objects of its heap an index leads to, and how many the heap's header counts.
use fractal_heap::{Header, count, grouped};
use std::collections::HashSet;
use std::fmt;

/// Objects of a heap by their kinds: bits 4 and 5 of an ID's first byte, III.G, 'Fractal Heap ID'.
#[derive(Debug, Clone, Copy, PartialEq, Eq, Default)]
#[allow(missing_docs)] // the fields' names say what they are
pub struct ObjectCounts {
    pub managed: u64,
    pub huge: u64,
    pub tiny: u64,
}

impl ObjectCounts {
    /// Of IDs; one of no known kind counts for none.
    pub(crate) fn of_ids<'i>(ids: impl IntoIterator<Item = &'i [u8; 8]>) -> Self {
        let mut counts = ObjectCounts::default();
        for id in ids {
            match id[0] >> 4 & 3 {
                0 => counts.managed += 1,
                1 => counts.huge += 1,
                2 => counts.tiny += 1,
                _ => {}
            }
        }
        counts
    }

    /// Those that the header of a heap tells.
    pub(crate) fn of_header(header: &Header) -> Self {
        ObjectCounts {
            managed: header.managed_objects_count,
            huge: header.huge_objects_count,
            tiny: header.tiny_objects_count,
        }
    }
}

/// What the index and the heap's header say, where they say different things: one of them may be older than the other.
#[derive(Debug, Clone, Copy, PartialEq, Eq)]
pub struct Disagreement {
    /// Objects that the index leads to, each counted once.
    pub index: ObjectCounts,
    /// Objects that the heap's header counts.
    pub heap: ObjectCounts,
    /// Records of the index that lead to an object to which another one leads.
    pub repeated: u64,
}

impl Disagreement {
    /// Of the IDs of an index's records and of a heap, if they disagree.
    pub(crate) fn between(ids: &[[u8; 8]], header: &Header) -> Option<Self> {
        let different: HashSet<&[u8; 8]> = ids.iter().collect();
        let repeated = (ids.len() - different.len()) as u64;
        let index = ObjectCounts::of_ids(different);
        let heap = ObjectCounts::of_header(header);
        (index != heap || repeated > 0).then_some(Disagreement {
            index,
            heap,
            repeated,
        })
    }
}

impl fmt::Display for Disagreement {
    fn fmt(&self, f: &mut fmt::Formatter<'_>) -> fmt::Result {
        let (index, heap) = (&self.index, &self.heap);
        let kinds = [
            ("managed object", index.managed, heap.managed),
            ("huge object", index.huge, heap.huge),
            ("tiny object", index.tiny, heap.tiny),
        ];
        let differ = kinds.iter().filter(|(_, index, heap)| index != heap);
        let mut told: Vec<String> = differ
            .map(|&(kind, index, heap)| {
                let (index, heap) = (count(index, kind), grouped(heap));
                format!("leads to {index}, and the heap's header counts {heap}")
            })
            .collect();
        if self.repeated > 0 {
            let more = count(self.repeated, "record");
            told.push(format!("has {more} more than objects that it leads to"));
        }
        write!(f, "the index {}", told.join("; it "))
    }
}

#[cfg(test)]
mod tests {
    use super::*;
    use fractal_heap::OpenPlan;

    fn header(managed: u64, huge: u64, tiny: u64) -> Header {
        let mut header = OpenPlan::open(8).unwrap().header(0);
        header.managed_objects_count = managed;
        header.huge_objects_count = huge;
        header.tiny_objects_count = tiny;
        header
    }

    fn told(ids: &[[u8; 8]], header: &Header) -> Option<String> {
        Disagreement::between(ids, header).map(|it| it.to_string())
    }

    // By the format, bits 4 and 5 of the first byte are 0 of a managed object, 1 of a huge and 2 of a tiny one.
    const IDS: [[u8; 8]; 4] = [
        [0x00, 1, 0, 0, 0, 0, 0, 0],
        [0x0F, 2, 0, 0, 0, 0, 0, 0],
        [0x10, 1, 0, 0, 0, 0, 0, 0],
        [0x26, 1, 0, 0, 0, 0, 0, 0],
    ];

    #[test]
    fn each_kind_is_compared() {
        assert_eq!(told(&IDS, &header(2, 1, 1)), None);
        assert_eq!(told(&[], &header(0, 0, 0)), None);
        let words = |managed, huge, tiny| told(&IDS, &header(managed, huge, tiny)).unwrap();
        let due = "the index leads to 2 managed objects, and the heap's header counts 1,400";
        assert_eq!(words(1400, 1, 1), due);
        let due = "the index leads to 1 huge object, and the heap's header counts 0";
        assert_eq!(words(2, 0, 1), due);
        let due = "the index leads to 2 managed objects, and the heap's header counts 3; it leads to 1 tiny object, and \
                   the heap's header counts 0";
        assert_eq!(words(3, 1, 0), due);
    }

    #[test]
    fn an_object_is_counted_once() {
        let twice = [IDS[0], IDS[1], IDS[0]];
        let due = "has 1 record more than objects that it leads to";
        assert_eq!(
            told(&twice, &header(2, 0, 0)),
            Some(format!("the index {due}"))
        );
        let counted = "the index leads to 2 managed objects, and the heap's header counts 3";
        let both = format!("{counted}; it {due}");
        assert_eq!(told(&twice, &header(3, 0, 0)), Some(both));
    }

    #[test]
    fn an_id_of_no_kind_is_none() {
        assert!(told(&[[0x30; 8]], &header(1, 0, 0)).is_some());
        assert!(told(&[[0x30; 8]], &header(0, 0, 1)).is_some());
    }
}
