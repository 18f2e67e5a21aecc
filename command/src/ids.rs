//! `poilures ids`: sizes from standard input, one a line, and for each line one with its heap offset and its ID at once.
use crate::arguments::{Ids, number};
use crate::failure::Failure;
use crate::id::HeapId;
use crate::inputs;
use crate::library::Id;
use crate::memory;
use crate::streams;
use crate::talk::{Talk, Volume, tell};
use fractal_heap::{Added, OpenPlan, Refusal, count, grouped};
use std::ffi::OsStr;
use std::io::{self, BufRead, Read};
use std::str;

/// Standard input's name.
const STANDARD: &str = "-";
/// Stands in the column of an offset or an ID that there is not.
const MISSING: &str = "-";
/// No size needs more bytes. A line may have no end, so of a longer one no more is kept than shows that.
const LONGEST_LINE: usize = 1000;

/// The lines of one run.
#[derive(Default)]
struct Tally {
    lines: u64,
    /// Those that have a refusal in place of an ID.
    refused: u64,
    no_numbers: u64,
}

impl Tally {
    /// Whether every line got its ID. What is no number goes before what is refused.
    fn end(&self) -> Result<(), Failure> {
        let refused = match self.refused {
            1 => "1 was refused".into(),
            n => format!("{} were refused", grouped(n)),
        };
        let no_numbers = match self.no_numbers {
            1 => "1 is no number".into(),
            n => format!("{} are no numbers", grouped(n)),
        };
        let lines = count(self.lines, "line");
        match (self.no_numbers, self.refused) {
            (0, 0) => Ok(()),
            (0, _) => Err(Failure::Not(format!("of {lines} {refused}"))),
            (_, 0) => Err(Failure::Use(format!("of {lines} {no_numbers}"))),
            _ => Err(Failure::Use(format!(
                "of {lines} {no_numbers}, and {refused}"
            ))),
        }
    }

    /// What a run that ends early has done: the plan has so many objects.
    fn so_far(&self, objects: u64) -> String {
        let mut words = format!(
            "so far: {}, {} planned",
            count(self.lines, "line"),
            count(objects, "object")
        );
        for (number, what) in [(self.refused, "refused"), (self.no_numbers, "no number")] {
            if number > 0 {
                words += &format!(", {} {what}", grouped(number));
            }
        }
        words
    }
}

/// What a line of the input comes to.
#[derive(Debug, PartialEq, Eq)]
enum Answer {
    Placed {
        offset: u64,
        id: Id,
    },
    /// An object at the end of the heap space, which no ID holds.
    WithoutId {
        offset: u64,
        why: Refusal,
    },
    Refused(Refusal),
    NoNumber(String),
}

impl Answer {
    /// Its line on standard output: heap offset and ID, and where one is missing why, in a third column.
    fn line(&self) -> String {
        match self {
            Answer::Placed { offset, id } => format!("{offset} {}", HeapId::new(id)),
            Answer::WithoutId { offset, why } => {
                format!("{offset} {MISSING} refused by {}", why.number())
            }
            Answer::Refused(why) => format!("{MISSING} {MISSING} refused by {}", why.number()),
            Answer::NoNumber(_) => format!("{MISSING} {MISSING} no number"),
        }
    }

    /// Its sentence on standard error, if something is missing.
    fn sentence(&self) -> Option<String> {
        match self {
            Answer::Placed { .. } => None,
            Answer::WithoutId { why, .. } | Answer::Refused(why) => Some(why.to_string()),
            Answer::NoNumber(why) => Some(why.clone()),
        }
    }
}

/// Reads the next line with its end, if there is one; of one that is too long only its front is kept.
fn next_line(input: &mut impl BufRead, line: &mut Vec<u8>) -> io::Result<bool> {
    line.clear();
    let most = LONGEST_LINE as u64 + 1;
    input.by_ref().take(most).read_until(b'\n', line)?;
    if line.len() > LONGEST_LINE && !line.ends_with(b"\n") {
        input.skip_until(b'\n')?;
    }
    Ok(!line.is_empty())
}

/// The size that a line has, or why it has none. Its end may be missing, or be that of another system.
fn size(line: &[u8]) -> Result<u64, String> {
    let line = line.strip_suffix(b"\n").unwrap_or(line);
    if line.len() > LONGEST_LINE {
        let most = grouped(LONGEST_LINE as u64);
        return Err(format!("it has more than {most} bytes, and is no number"));
    }
    // What is no text is no number, either.
    number(str::from_utf8(line.trim_ascii()).unwrap_or(""))
}

/// An object by its offset and its ID.
fn placed(added: Added) -> Answer {
    let offset = added.offset;
    match added.id() {
        Ok(id) => Answer::Placed { offset, id },
        Err(why) => Answer::WithoutId { offset, why },
    }
}

/// Adds the size that a line has to the plan.
fn answer(plan: &mut OpenPlan, line: &[u8]) -> Answer {
    match size(line) {
        Ok(size) => plan.add(size).map_or_else(Answer::Refused, placed),
        Err(why) => Answer::NoNumber(why),
    }
}

/// Each line is answered before the next one is read; the work ends when nobody hears that.
fn answer_all(plan: &mut OpenPlan, talk: &mut Talk, tally: &mut Tally) -> Result<(), Failure> {
    let unread = |error: io::Error| Failure::file(STANDARD, "read", error);
    streams::check_input().map_err(unread)?;
    let mut line = memory::with_room(LONGEST_LINE + 1)?;
    let mut input = io::stdin().lock();
    while next_line(&mut input, &mut line).map_err(unread)? {
        tally.lines += 1;
        let answer = answer(plan, &line);
        match answer {
            Answer::Placed { .. } => {}
            Answer::WithoutId { .. } | Answer::Refused(_) => tally.refused += 1,
            Answer::NoNumber(_) => tally.no_numbers += 1,
        }
        if let Some(sentence) = answer.sentence() {
            tell(&format!(
                "poilures: line {}: {sentence}",
                grouped(tally.lines)
            ));
        }
        talk.give(&answer.line());
        talk.heard()?;
    }
    talk.end()
}

pub fn ids(arguments: &Ids) -> Result<(), Failure> {
    inputs::refuse_written([OsStr::new(STANDARD)].into_iter())?;
    let mut plan = OpenPlan::open(arguments.offset_size)?;
    let mut talk = Talk::new(false, Volume::Results);
    let mut tally = Tally::default();
    match answer_all(&mut plan, &mut talk, &mut tally) {
        Ok(()) => tally.end(),
        // A line that is no number counts for the exit status also where nobody hears the others.
        Err(Failure::Closed) if tally.no_numbers > 0 => tally.end(),
        Err(failure) => {
            if tally.lines > 0 && !matches!(failure, Failure::Closed) {
                tell(&format!("poilures: {}", tally.so_far(plan.objects())));
            }
            Err(failure)
        }
    }
}

#[cfg(test)]
mod tests {
    use super::*;

    /// The lines of a text, as far as they are kept.
    fn lines(mut text: &[u8]) -> Vec<Vec<u8>> {
        let (mut lines, mut line) = (Vec::new(), Vec::new());
        while next_line(&mut text, &mut line).unwrap() {
            lines.push(line.clone());
        }
        lines
    }

    #[test]
    fn a_line_ends_with_its_end_or_with_the_text() {
        assert!(lines(b"").is_empty());
        assert_eq!(lines(b"\n\n7"), [&b"\n"[..], b"\n", b"7"]);
        assert_eq!(lines(b"7\r\n65,514\n"), [&b"7\r\n"[..], b"65,514\n"]);
    }

    #[test]
    fn of_a_long_line_only_the_front_is_kept() {
        let longest = [b'0'; LONGEST_LINE];
        let longer = [&longest[..], b" x"].concat();
        let lines = lines(&[&longest[..], b"\n", &longer, b"\n7\n", &longer].concat());
        let sizes: Vec<Option<u64>> = lines.iter().map(|line| size(line).ok()).collect();
        assert_eq!(sizes, [Some(0), None, Some(7), None]);
        assert!(lines.iter().all(|line| line.len() <= LONGEST_LINE + 1));
    }

    #[test]
    fn a_number_before_the_cut_does_not_count() {
        let mut line = b"7".to_vec();
        line.resize(LONGEST_LINE + 1, b' ');
        assert!(size(&line).is_err());
    }

    #[test]
    fn a_line_has_one_number() {
        assert_eq!(size(b"0\n"), Ok(0));
        assert_eq!(size(b" 65,514\r\n"), Ok(65_514));
        assert_eq!(size(b"0xffea"), Ok(65_514));
        assert_eq!(size(b"18446744073709551615\n"), Ok(u64::MAX));
        for line in [
            "",
            "\n",
            "-1\n",
            "1 2\n",
            "7x\n",
            "1e3\n",
            "18446744073709551616\n",
        ] {
            assert!(size(line.as_bytes()).is_err(), "{line:?}");
        }
        assert!(size(b"\xff\n").is_err());
    }

    // By docs/RULES.md an ID holds offsets below 2^40, and the heap space ends there.
    #[test]
    fn an_object_at_the_end_of_the_heap_space_has_an_offset_and_no_id() {
        let last = Added {
            offset: (1 << 40) - 1,
            size: 0,
        };
        let last = placed(last);
        assert_eq!(last.line(), "1099511627775 00:FF:FF:FF:FF:FF:00:00");
        assert_eq!(last.sentence(), None);
        let behind = placed(Added {
            offset: 1 << 40,
            size: 0,
        });
        assert_eq!(behind.line(), "1099511627776 - refused by 16");
        let due = "refused by 16: no ID holds offset 1,099,511,627,776 and length 0: they must be below 2^40 and \
                   below 2^16";
        assert_eq!(behind.sentence(), Some(due.into()));
    }

    // Of docs/RULES.md: an object of 1,003 bytes is the first at 8,214, one of 12 behind it at 9,217, and 65,515 are too
    // many.
    #[test]
    fn every_line_has_one_line() {
        let mut plan = OpenPlan::open(8).unwrap();
        for (line, due, has_sentence) in [
            ("1003\n", "8214 00:16:20:00:00:00:EB:03", false),
            ("65515\n", "- - refused by 11", true),
            ("x\n", "- - no number", true),
            ("\n", "- - no number", true),
            ("12", "9217 00:01:24:00:00:00:0C:00", false),
        ] {
            let answer = answer(&mut plan, line.as_bytes());
            assert_eq!(answer.line(), due);
            assert_eq!(answer.sentence().is_some(), has_sentence, "{line}");
        }
        assert_eq!(plan.objects(), 2);
    }

    #[test]
    fn a_run_that_ends_early_says_what_it_has_done() {
        let so_far = |lines, refused, no_numbers, objects| {
            let tally = Tally {
                lines,
                refused,
                no_numbers,
            };
            tally.so_far(objects)
        };
        assert_eq!(so_far(1, 0, 0, 1), "so far: 1 line, 1 object planned");
        let due = "so far: 5,000 lines, 4,997 objects planned, 2 refused, 1 no number";
        assert_eq!(so_far(5000, 2, 1, 4997), due);
    }

    #[test]
    fn no_number_goes_before_refused() {
        let ended = |lines, refused, no_numbers| {
            let tally = Tally {
                lines,
                refused,
                no_numbers,
            };
            match tally.end() {
                Ok(()) => (0, String::new()),
                Err(Failure::Not(words)) => (1, words),
                Err(Failure::Use(words)) => (2, words),
                Err(failure) => panic!("{failure:?}"),
            }
        };
        assert_eq!(ended(0, 0, 0), (0, "".into()));
        assert_eq!(ended(5, 0, 0), (0, "".into()));
        assert_eq!(ended(1, 1, 0), (1, "of 1 line 1 was refused".into()));
        assert_eq!(ended(5, 2, 0), (1, "of 5 lines 2 were refused".into()));
        assert_eq!(ended(5, 0, 1), (2, "of 5 lines 1 is no number".into()));
        let due = "of 5,000 lines 2 are no numbers, and 1 was refused";
        assert_eq!(ended(5000, 1, 2), (2, due.into()));
    }
}
