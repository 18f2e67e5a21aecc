//! What is told of values of which no checksum covers every byte: other bytes there would be given as they are.
use crate::quoting::shown;
use fractal_heap::{count, grouped};
use hdf5_file::Uncovered;
use std::collections::HashSet;
use std::ffi::OsStr;

/// Of values that lie alike so many names are told, else only how many there are.
const MOST_NAMES: usize = 3;

/// These values, as the end of a sentence, each with where it lies; none where there are none.
pub fn named(values: &[(&OsStr, Uncovered)]) -> Option<String> {
    let told = Uncovered::ALL.into_iter().filter_map(|place| {
        let there = values.iter().filter(|(_, lies)| *lies == place);
        let mut names: Vec<String> = there.map(|(name, _)| shown(name)).collect();
        // One that is asked for twice is one attribute.
        let mut told = HashSet::new();
        names.retain(|name| told.insert(name.clone()));
        let words = match names.len() {
            0 => return None,
            1..=MOST_NAMES => names.join(", "),
            number => count(number as u64, "attribute"),
        };
        Some(format!("{words} ({place})"))
    });
    let told = told.collect::<Vec<_>>().join(", ");
    (!told.is_empty()).then(|| format!("no checksum covers every byte of {told}"))
}

/// How many lie where, as the end of a sentence; none where there are none.
pub fn counted(values: impl Iterator<Item = Uncovered>) -> Option<String> {
    let all: Vec<Uncovered> = values.collect();
    let told = Uncovered::ALL.into_iter().filter_map(|place| {
        let number = all.iter().filter(|lies| **lies == place).count() as u64;
        (number > 0).then(|| format!("{} {place}", grouped(number)))
    });
    let told = told.collect::<Vec<_>>().join("; ");
    (!told.is_empty()).then(|| format!("no checksum covers every byte of the value: {told}"))
}

#[cfg(test)]
mod tests {
    use super::*;

    fn values<'n>(names: &[&'n str], lies: Uncovered) -> Vec<(&'n OsStr, Uncovered)> {
        names.iter().map(|name| (OsStr::new(*name), lies)).collect()
    }

    #[test]
    fn few_are_named_and_many_are_counted() {
        assert_eq!(named(&[]), None);
        let mut all = values(&["big"], Uncovered::HugeObject);
        assert_eq!(
            named(&all).unwrap(),
            "no checksum covers every byte of big (outside of the heap's blocks, as a huge object)"
        );
        all.extend(values(&["a", "b\n", "c"], Uncovered::OldObjectHeader));
        assert_eq!(
            named(&all).unwrap(),
            "no checksum covers every byte of a, b\\n, c (in an object header of version 1), big (outside of the heap's \
             blocks, as a huge object)"
        );
        let twice = values(&["a", "a", "a", "b"], Uncovered::HugeObject);
        assert_eq!(
            named(&twice).unwrap(),
            "no checksum covers every byte of a, b (outside of the heap's blocks, as a huge object)"
        );
        let four = values(&["a", "b", "c", "d"], Uncovered::GlobalHeap);
        assert_eq!(
            named(&four).unwrap(),
            "no checksum covers every byte of 4 attributes (in the global heap, as a text of variable length)"
        );
    }

    #[test]
    fn they_are_counted_by_where_they_lie() {
        assert_eq!(counted([].into_iter()), None);
        let all = [
            Uncovered::GlobalHeap,
            Uncovered::BlocksWithoutChecksums,
            Uncovered::GlobalHeap,
        ];
        assert_eq!(
            counted(all.into_iter()).unwrap(),
            "no checksum covers every byte of the value: 1 in a heap whose blocks have no checksums; 2 in the global heap, \
             as a text of variable length"
        );
    }
}
