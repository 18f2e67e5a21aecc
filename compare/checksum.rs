//! The checksum, ours against the original: the tests' function and the loader's; the inverses of its mixes behind and
//! before the original's mixes.
use crate::ours;
use crate::random::Random;
use crate::summary::{Row, row};

/// Every length to 600 at each of 16 alignments, some long ones, then `n` random lengths below 300.
pub fn compare(n: u64) -> Vec<Row> {
    let mut random = Random::new(2);
    let mut bytes = vec![0u8; 3 << 20];
    random.fill(&mut bytes);
    let mut count = 0u64;
    let mut same = |part: &[u8]| {
        let due = original::jenkins_lookup3(part);
        let got = [ours::jenkins_lookup3(part), ours::loader_checksum(part)];
        assert_eq!(got, [due; 2], "{} bytes", part.len());
        count += 1;
    };
    for at in 0..16 {
        for len in 0..=600 {
            same(&bytes[at..at + len]);
        }
    }
    for len in [
        4095,
        4096,
        4097,
        65_535,
        65_536,
        1 << 20,
        (1 << 20) + 1,
        3 << 20,
    ] {
        same(&bytes[..len]);
    }
    for _ in 0..n {
        let len = random.below(300) as usize;
        let at = random.below((bytes.len() - len) as u64) as usize;
        same(&bytes[at..at + len]);
    }
    vec![row("jenkins_lookup3, fractal_heap_checksum", count)]
}

/// The inverse behind the original's mix and before it, and that of the final mix likewise, on `n` random states.
pub fn undo(n: u64) -> Vec<Row> {
    let mut random = Random::new(17);
    for _ in 0..n {
        let (x, y) = (random.next(), random.next());
        let words = [x as u32, (x >> 32) as u32, y as u32];
        let undone = [
            ours::unmix(original::mix(words)),
            original::mix(ours::unmix(words)),
            ours::unfinal_mix(original::final_mix(words)),
            original::final_mix(ours::unfinal_mix(words)),
        ];
        assert_eq!(undone, [words; 4]);
    }
    let what = "unmix, unfinal_mix, behind and before the original's";
    vec![row(what, n)]
}
