//! The fields, ours against the original: every answer with its pair.
use crate::ours;
use crate::random::Random;
use crate::summary::{Row, row};

/// A store, by the facts of docs/DECISIONS.md: the low 2, 4 or 8 bytes; 2 for another width, 13 past the end.
pub fn stored(bytes: &mut [u8], pos: u64, value: u64, size: u8) -> original::Answer {
    if !matches!(size, 2 | 4 | 8) {
        return (2, size.into(), 0);
    }
    let end = pos.saturating_add(size.into());
    if end > bytes.len() as u64 {
        return (13, end, bytes.len() as u64);
    }
    bytes[pos as usize..end as usize].copy_from_slice(&value.to_le_bytes()[..size.into()]);
    (0, 0, 0)
}

fn same_reads(bytes: &[u8], pos: u64, size: u8) {
    let at = || format!("{} bytes, position {pos}, width {size}", bytes.len());
    assert_eq!(
        ours::read_offset(bytes, pos, size),
        original::read_offset(bytes, pos as usize, size),
        "{}",
        at()
    );
    assert_eq!(
        ours::read_length(bytes, pos, size),
        original::read_length(bytes, pos as usize, size),
        "{}",
        at()
    );
}

fn same_stores(bytes: &[u8], pos: u64, value: u64, size: u8) {
    let at = || {
        format!(
            "{} bytes, position {pos}, value {value}, width {size}",
            bytes.len()
        )
    };
    for (undef, value) in [(false, value), (true, u64::MAX)] {
        let (mut a, mut b) = (bytes.to_vec(), bytes.to_vec());
        let expected = stored(&mut b, pos, value, size);
        let got = if undef {
            ours::write_undef_offset(&mut a, pos, size)
        } else {
            ours::write_offset(&mut a, pos, value, size)
        };
        assert_eq!(got, expected, "{}", at());
        assert_eq!(a, b, "{}", at());
        if got.0 == 0 {
            let ones = u64::MAX >> (64 - 8 * u32::from(size));
            assert_eq!(
                original::read_offset(&a, pos as usize, size),
                (0, value & ones, 0),
                "{}",
                at()
            );
        }
    }
}

fn same_undefined(addr: u64, size: u8) {
    assert_eq!(
        ours::is_undefined_addr(addr, size),
        original::is_undefined_addr(addr, size).into(),
        "address {addr}, width {size}"
    );
}

/// Every width at every place around the ends of short slices: how many.
fn every_place(random: &mut Random, bytes: &mut [u8]) -> u64 {
    let mut places = 0;
    for len in 0..18usize {
        random.fill(bytes);
        for pos in (0..20).chain(u64::MAX - 9..=u64::MAX) {
            for size in 0..=255u8 {
                same_reads(&bytes[..len], pos, size);
                same_stores(&bytes[..len], pos, random.next(), size);
                places += 1;
            }
        }
    }
    places
}

/// Every width with addresses around every power of two: how many.
fn every_address() -> u64 {
    let mut addrs = 0;
    for size in 0..=255u8 {
        for bits in 0..=64u32 {
            for addr in [-1i64, 0, 1].map(|d| (1u128 << bits).wrapping_add_signed(d.into()) as u64)
            {
                same_undefined(addr, size);
                assert_eq!(ours::to_usize(addr), original::to_usize(addr) as u64);
                addrs += 1;
            }
        }
    }
    addrs
}

/// Every width and place around the ends; then `n` random cases of each kind.
pub fn compare(n: u64) -> Vec<Row> {
    let mut random = Random::new(1);
    let mut bytes = [0u8; 48];
    let places = n + every_place(&mut random, &mut bytes);
    let addrs = n + 2 * every_address();
    for _ in 0..n {
        let len = random.below(49) as usize;
        random.fill(&mut bytes);
        let (pos, needed, size) = (
            random.place(len as u64),
            random.place(len as u64),
            random.width(),
        );
        same_reads(&bytes[..len], pos, size);
        same_stores(&bytes[..len], pos, random.next() >> random.below(64), size);
        same_undefined(random.next() | 1 << random.below(64), size);
        assert_eq!(
            ours::ensure_len(&bytes[..len], pos, needed),
            original::ensure_len(&bytes[..len], pos as usize, needed as usize),
            "{len} bytes, {needed} from {pos} on"
        );
    }
    for len in 0..16 {
        ours::short_slot(len, &mut bytes);
    }
    vec![
        row("ensure_len", n),
        row("read_offset, read_length", 2 * places),
        row("is_undefined_addr, to_usize", addrs),
        row(
            "write_offset, write_undef_offset, by DECISIONS.md",
            2 * places,
        ),
    ]
}
