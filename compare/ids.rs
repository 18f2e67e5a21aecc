//! Managed IDs by the format where an offset has whole bytes, elsewhere by the rules: a decoder of its own, and ours
//! held to it and to the original. The original takes all that stands behind an ID's offset for its length; so it is
//! asked with IDs that hold nothing there but the length.
use crate::format;
use crate::heap::hex;
use crate::made::{self, Head, Heap};
use crate::ours;
use crate::panics::{self, caught};
use crate::random::Random;
use crate::summary::{Row, row};
use original::{Answer, Header};

/// How many bytes of an ID count, behind its first one.
const COUNTED: usize = 8;

/// The numbers of a header that the fields of an ID follow from.
#[derive(Clone, Copy, Debug)]
pub struct Sizes {
    /// Maximum Heap Size, in bits.
    pub heap_bits: usize,
    /// Maximum Direct Block Size.
    pub largest_block: u64,
    /// Maximum Size of Managed Objects.
    pub largest_managed: u64,
}

impl Sizes {
    pub fn of(header: &Header) -> Self {
        let fields = header.fields();
        Sizes {
            heap_bits: fields[7] as usize,
            largest_block: fields[6],
            largest_managed: fields[2],
        }
    }

    /// How many bytes the length has: those that are left over one by one of the smaller size.
    fn length_bytes(self) -> usize {
        let smaller = if self.largest_block < self.largest_managed {
            self.largest_block
        } else {
            self.largest_managed
        };
        std::iter::successors(Some(smaller), |left| Some(left / 256))
            .take_while(|&left| left > 0)
            .count()
    }

    /// The first bit behind the length, counted from the second byte of an ID on.
    fn end(self) -> usize {
        self.heap_bits + 8 * self.length_bytes()
    }
}

/// A little-endian number of bits.
fn number(bits: &[bool]) -> u64 {
    let highest_first = bits.iter().rev();
    highest_first.fold(0, |number, &bit| number << 1 | u64::from(bit))
}

/// The bits of an ID that count, the lowest of each byte first.
fn bits(id: &[u8]) -> Vec<bool> {
    let counted = id.iter().skip(1).take(COUNTED);
    let bits = counted.flat_map(|byte| (0..8).map(move |bit| byte >> bit & 1 == 1));
    bits.collect()
}

/// Offset and length bit by bit: the offset has as many as the heap, the length begins at the next one.
fn by_bits(sizes: Sizes, id: &[u8]) -> (u64, u64) {
    let bits = bits(id);
    let (offset, behind) = bits.split_at(bits.len().min(sizes.heap_bits));
    let (length, _) = behind.split_at(behind.len().min(8 * sizes.length_bytes()));
    (number(offset), number(length))
}

/// Offset and length byte by byte, as the format lays them out where an offset has whole bytes.
fn by_bytes(sizes: Sizes, id: &[u8]) -> (u64, u64) {
    let mut counted = id.iter().skip(1).take(COUNTED);
    let mut number = |count: usize| {
        let field: Vec<u8> = counted.by_ref().take(count).copied().collect();
        format::number(&field)
    };
    let offset = number(sizes.heap_bits / 8);
    (offset, number(sizes.length_bytes()))
}

/// Offset and length of a managed ID: by the format where the offset has whole bytes, elsewhere by the rules, which go
/// on at the next bit.
pub fn by_format(sizes: Sizes, id: &[u8]) -> (u64, u64) {
    let due = by_bits(sizes, id);
    if sizes.heap_bits % 8 == 0 {
        assert_eq!(due, by_bytes(sizes, id), "{sizes:?}, ID {}", hex(id));
    }
    due
}

/// The ID with 0 for every bit that counts and stands behind its length: what the original may be asked.
pub fn unpadded(header: &Header, id: &[u8]) -> Vec<u8> {
    let mut id = id.to_vec();
    for bit in Sizes::of(header).end()..8 * COUNTED {
        if let Some(byte) = id.get_mut(1 + bit / 8) {
            *byte &= !(1 << (bit % 8));
        }
    }
    id
}

/// How many IDs were decoded: with nothing behind their length, by both; with padding there, by `by_format`; and how
/// often the original panicked.
#[derive(Default)]
struct Counts {
    alike: u64,
    padded: u64,
    panicked: u64,
}

impl Counts {
    /// Compares one ID of type 0: ours with what is due, with its padding and without, and the original without it.
    fn id(&mut self, heap: &Heap, header: &Header, id: &[u8]) {
        let sizes = Sizes::of(header);
        let (offset, length) = by_format(sizes, id);
        let due: Answer = match id {
            [] => (1, 1, 0),
            _ => (0, offset, length),
        };
        let got = ours::decode(heap, id);
        assert_eq!(got, due, "{sizes:?}, ID {}", hex(id));
        let bare = unpadded(header, id);
        if bare != id {
            self.padded += 1;
            assert_eq!(
                ours::decode(heap, &bare),
                due,
                "{sizes:?}, ID {}",
                hex(&bare)
            );
        }
        match caught(|| header.decode(&bare)) {
            Ok(answer) => {
                self.alike += 1;
                assert_eq!(answer, due, "{sizes:?}, ID {}", hex(&bare));
            }
            Err(_) => {
                self.panicked += 1;
                assert!(sizes.heap_bits >= 64 && id.len() > 9, "{sizes:?}");
            }
        }
    }
}

/// A header alone with these sizes.
fn headed(random: &mut Random, sizes: Sizes) -> Heap {
    let head = Head {
        bits: sizes.heap_bits as u16,
        largest: sizes.largest_block,
        largest_managed: Some(sizes.largest_managed as u32),
        ..made::fixed(0, 0)
    };
    made::behind(random, Vec::new(), &head, [8, 8])
}

/// Around every number of bytes that a size may need, and none.
const LARGEST_BLOCKS: [u64; 14] = [
    0,
    1,
    255,
    256,
    65_535,
    65_536,
    65_537,
    0xFF_FFFF,
    0x100_0000,
    0xFFFF_FFFF,
    0x1_0000_0000,
    0x1_0000_0000_0000,
    0x100_0000_0000_0000,
    u64::MAX,
];
const LARGEST_MANAGED: [u64; 11] = [
    0,
    1,
    255,
    256,
    65_514,
    65_535,
    65_536,
    0xFF_FFFF,
    0x100_0000,
    0xFFFF_FFFE,
    0xFFFF_FFFF,
];

/// At every number of heap bits that a header can say: one full ID of any bytes, with lengths of no, one, two and three
/// bytes.
fn every_heap_bits(random: &mut Random, counts: &mut Counts) {
    for heap_bits in 0..=usize::from(u16::MAX) {
        for largest_managed in [0, 255, 65_520, 65_536] {
            let sizes = Sizes {
                heap_bits,
                largest_block: 65_536,
                largest_managed,
            };
            let heap = headed(random, sizes);
            let header = original::parse(&heap.file, 0, 8, 8).expect("a right header");
            let mut id: Vec<u8> = (0..=COUNTED).map(|_| random.byte()).collect();
            id[0] &= 0xCF;
            counts.id(&heap, &header, &id);
        }
    }
}

/// IDs of 0 to 40 bytes at every number of heap bits to 64 and at others to 65,535, at all shapes of the two sizes: any
/// bytes, and behind the length zeros, bytes FF, and others.
pub fn compare() -> Vec<Row> {
    panics::quiet();
    let mut random = Random::new(44);
    let mut counts = Counts::default();
    let some = [
        65, 66, 71, 72, 73, 80, 127, 128, 255, 256, 4_096, 32_768, 65_528, 65_535,
    ];
    for heap_bits in (0..=64).chain(some) {
        for largest_block in LARGEST_BLOCKS {
            for largest_managed in LARGEST_MANAGED {
                let sizes = Sizes {
                    heap_bits,
                    largest_block,
                    largest_managed,
                };
                let heap = headed(&mut random, sizes);
                let header = original::parse(&heap.file, 0, 8, 8).expect("a right header");
                for len in 0..=40 {
                    let mut id: Vec<u8> = (0..len).map(|_| random.byte()).collect();
                    if let [first, ..] = &mut id[..] {
                        *first &= 0xCF;
                    }
                    counts.id(&heap, &header, &id);
                    let mut padded = unpadded(&header, &id);
                    counts.id(&heap, &header, &padded);
                    for bit in sizes.end()..8 * COUNTED {
                        if let Some(byte) = padded.get_mut(1 + bit / 8) {
                            *byte |= 1 << (bit % 8);
                        }
                    }
                    counts.id(&heap, &header, &padded);
                }
            }
        }
    }
    every_heap_bits(&mut random, &mut counts);
    println!(
        "compare: IDs {} without padding by the original, {} with padding: equal, by the format where the offset has whole bytes, elsewhere by the rules",
        counts.alike, counts.padded
    );
    assert!(counts.alike.min(counts.padded) >= 100_000);
    vec![
        row(
            "IDs of 0 to 40 bytes, by the format or the rules too",
            counts.alike,
        )
        .with_panics(counts.panicked),
        row(
            "IDs with padding, by the format or the rules alone",
            counts.padded,
        ),
    ]
}
