//! What a heap's filters are, which its header has as a Filter Pipeline message: HDF5 File Format Specification,
//! IV.A.2.l.
use crate::quoting::shown;
use fractal_heap::count;
use std::ffi::OsStr;
use std::os::unix::ffi::OsStrExt;

/// A message has so many filters at most.
const MOST_FILTERS: u8 = 32;
/// In a message of version 2 a filter below this number, which the format knows, has no name.
const NAMELESS_BELOW: u16 = 256;
/// In a message of version 1 the length of a name is a multiple of this: zero bytes fill it up. HDF5 refuses others.
const NAME_UNIT: u16 = 8;
/// The flag of a filter that may fail, and is skipped then.
const OPTIONAL: u16 = 1;

/// A filter, and the client data that controls it.
#[derive(Debug, PartialEq)]
struct Filter<'m> {
    number: u16,
    flags: u16,
    /// As it is stored, without the zero bytes that end it; none where none is.
    name: &'m [u8],
    values: Vec<u32>,
}

/// The filters in the order in which they are put on.
#[derive(Debug, PartialEq)]
pub struct Pipeline<'m> {
    version: u8,
    filters: Vec<Filter<'m>>,
    /// What is behind the message.
    pub rest: &'m [u8],
}

/// The name of a filter that the format knows.
fn known(number: u16) -> Option<&'static str> {
    Some(match number {
        1 => "deflate",
        2 => "shuffle",
        3 => "fletcher32",
        4 => "szip",
        5 => "nbit",
        6 => "scaleoffset",
        _ => return None,
    })
}

/// What is said of a filter whose bytes are not all there.
const CUT: &str = "is cut";

/// So many bytes from the front.
fn take<'m>(rest: &mut &'m [u8], length: usize) -> Result<&'m [u8], String> {
    let (front, behind) = rest.split_at_checked(length).ok_or(CUT)?;
    *rest = behind;
    Ok(front)
}

/// As many as an array has.
fn take_array<const N: usize>(rest: &mut &[u8]) -> Result<[u8; N], String> {
    let (front, behind) = rest.split_first_chunk().ok_or(CUT)?;
    *rest = behind;
    Ok(*front)
}

impl<'m> Filter<'m> {
    /// The next one, or what is wrong with it.
    fn next(rest: &mut &'m [u8], version: u8) -> Result<Self, String> {
        let number = u16::from_le_bytes(take_array(rest)?);
        let name_length = match version {
            2 if number < NAMELESS_BELOW => 0,
            _ => u16::from_le_bytes(take_array(rest)?),
        };
        if version == 1 && name_length % NAME_UNIT != 0 {
            let length = count(name_length.into(), "byte");
            return Err(format!("has a name of {length}, no multiple of eight"));
        }
        let flags = u16::from_le_bytes(take_array(rest)?);
        let n = u16::from_le_bytes(take_array(rest)?);
        let name = take(rest, name_length.into())?;
        let name = name.split(|&byte| byte == 0).next().unwrap_or_default();
        let value = |_| take_array(rest).map(u32::from_le_bytes);
        let values = (0..n).map(value).collect::<Result<_, _>>()?;
        if version == 1 && n % 2 == 1 {
            take(rest, 4)?; // padding
        }
        Ok(Filter {
            number,
            flags,
            name,
            values,
        })
    }

    /// Its name: the format's, or the one that is stored.
    fn name(&self) -> String {
        let stored = match self.name {
            [] => None,
            name => Some(shown(OsStr::from_bytes(name))),
        };
        match (known(self.number), stored) {
            (Some(known), Some(stored)) if stored != known => format!("{known}, named {stored}"),
            (Some(known), _) => known.into(),
            (None, Some(stored)) => stored,
            (None, None) => "a filter without a name".into(),
        }
    }

    fn words(&self) -> String {
        let optional = match self.flags & OPTIONAL {
            0 => "",
            _ => ", optional",
        };
        let unknown = match self.flags & !OPTIONAL {
            0 => String::new(),
            others => format!(", flags {others} that are not known"),
        };
        let values: Vec<String> = self.values.iter().map(u32::to_string).collect();
        let values = match &values[..] {
            [] => "no values".into(),
            [one] => format!("value {one}"),
            more => format!("values {}", more.join(", ")),
        };
        format!(
            "{} (filter {}){optional}{unknown}, {values}",
            self.name(),
            self.number
        )
    }
}

impl<'m> Pipeline<'m> {
    /// The message that begins these bytes, or why they begin none.
    pub fn decode(message: &'m [u8]) -> Result<Self, String> {
        let &[version, number, ref rest @ ..] = message else {
            return Err("they end too early".into());
        };
        if !matches!(version, 1 | 2) {
            return Err(format!("they begin with version {version}, not 1 or 2"));
        }
        if number > MOST_FILTERS {
            return Err(format!(
                "they have {number} filters, and a message has at most {MOST_FILTERS}"
            ));
        }
        let mut rest = rest;
        if version == 1 {
            take(&mut rest, 6).map_err(|_| "they end before the first filter")?; // reserved
        }
        let filter = |place| {
            let all = count(number.into(), "filter");
            Filter::next(&mut rest, version)
                .map_err(|why| format!("they have {all}, and the one at place {place} {why}"))
        };
        let filters = (0..number).map(filter).collect::<Result<_, _>>()?;
        Ok(Pipeline {
            version,
            filters,
            rest,
        })
    }

    /// A line for each filter, behind what they are.
    pub fn lines(&self) -> Vec<String> {
        let heading = match &self.filters[..] {
            [] => format!("filters: none, in a message of version {}", self.version),
            filters => format!(
                "filters: {} in a message of version {}, put on in this order:",
                filters.len(),
                self.version
            ),
        };
        let filters = self.filters.iter().enumerate();
        let line = |(i, filter): (usize, &Filter)| format!("  {i}: {}", filter.words());
        [heading].into_iter().chain(filters.map(line)).collect()
    }

    /// The names alone.
    fn names(&self) -> String {
        let names: Vec<String> = self.filters.iter().map(Filter::name).collect();
        names.join(", ")
    }

    /// The name of the filter at a place, counted from 0, if there is one.
    pub fn name_at(&self, place: u32) -> Option<String> {
        self.filters.get(place as usize).map(Filter::name)
    }
}

/// What is said of a heap's blocks by its filter information: which filters left them as they are, and who tells more.
pub fn of_blocks(information: &[u8]) -> String {
    let left = "its blocks are in the file as its filters left them";
    match Pipeline::decode(information) {
        Ok(pipeline) if pipeline.filters.is_empty() => {
            "its filter information is a message without filters; poilures header says more of it"
                .into()
        }
        Ok(pipeline) => format!(
            "{left}: {}; poilures header says more of these, and HDF5's own tools, as h5dump, read through them, where \
             they have these filters",
            pipeline.names()
        ),
        Err(_) => format!(
            "{left}; which these are, the header does not say in a way that is known: poilures header prints these \
             bytes"
        ),
    }
}

#[cfg(test)]
mod tests {
    use super::*;

    /// A description of a filter by the format; of version 1 the name is filled up to eight bytes, and so are the
    /// values.
    fn description(version: u8, number: u16, flags: u16, name: &[u8], values: &[u32]) -> Vec<u8> {
        let mut bytes = number.to_le_bytes().to_vec();
        let mut name = name.to_vec();
        if version == 1 && !name.is_empty() {
            name.resize((name.len() + 1).next_multiple_of(8), 0);
        }
        if version == 1 || number >= 256 {
            bytes.extend((name.len() as u16).to_le_bytes());
        }
        bytes.extend(flags.to_le_bytes());
        bytes.extend((values.len() as u16).to_le_bytes());
        bytes.extend(&name);
        values
            .iter()
            .for_each(|value| bytes.extend(value.to_le_bytes()));
        if version == 1 && values.len() % 2 == 1 {
            bytes.extend([0; 4]);
        }
        bytes
    }

    fn message(version: u8, filters: &[Vec<u8>]) -> Vec<u8> {
        let mut bytes = vec![version, filters.len() as u8];
        if version == 1 {
            bytes.extend([0; 6]);
        }
        bytes.extend(filters.concat());
        bytes
    }

    fn told(message: &[u8]) -> Vec<String> {
        let pipeline = Pipeline::decode(message).unwrap();
        assert_eq!(pipeline.rest, b"");
        pipeline.lines()[1..].to_vec()
    }

    #[test]
    fn the_six_filters_of_the_format() {
        let values: [&[u32]; 6] = [&[6], &[4], &[], &[141, 8], &[1, 2, 3], &[u32::MAX, 0]];
        for version in [1, 2] {
            let filters: Vec<Vec<u8>> = (1..)
                .zip(values)
                .map(|(number, values)| description(version, number, 1, b"", values))
                .collect();
            assert_eq!(
                told(&message(version, &filters)),
                [
                    "  0: deflate (filter 1), optional, value 6",
                    "  1: shuffle (filter 2), optional, value 4",
                    "  2: fletcher32 (filter 3), optional, no values",
                    "  3: szip (filter 4), optional, values 141, 8",
                    "  4: nbit (filter 5), optional, values 1, 2, 3",
                    "  5: scaleoffset (filter 6), optional, values 4294967295, 0",
                ]
            );
        }
    }

    #[test]
    fn names_and_flags() {
        for (version, number, flags, name, due) in [
            (
                1,
                1,
                0,
                &b"deflate"[..],
                "  0: deflate (filter 1), no values",
            ),
            (
                1,
                1,
                0,
                b"other",
                "  0: deflate, named other (filter 1), no values",
            ),
            (1, 7, 0, b"seventh", "  0: seventh (filter 7), no values"),
            (
                1,
                40_000,
                0,
                b"",
                "  0: a filter without a name (filter 40000), no values",
            ),
            (
                2,
                7,
                0,
                b"",
                "  0: a filter without a name (filter 7), no values",
            ),
            (2, 256, 0, b"packer", "  0: packer (filter 256), no values"),
            // HDF5 stores the zero byte as well.
            (
                2,
                300,
                1,
                b"packer\0",
                "  0: packer (filter 300), optional, no values",
            ),
            (
                2,
                300,
                6,
                b"\x1b\n",
                "  0: \\u{1b}\\n (filter 300), flags 6 that are not known, no values",
            ),
            (
                2,
                65_535,
                65_535,
                b"",
                "  0: a filter without a name (filter 65535), optional, flags 65534 that are not known, no values",
            ),
        ] {
            let message = message(version, &[description(version, number, flags, name, &[])]);
            assert_eq!(told(&message), [due]);
        }
    }

    #[test]
    fn a_message_says_its_version_and_how_many_filters_it_has() {
        let one = description(2, 3, 0, b"", &[]);
        let lines = |message: &[u8]| Pipeline::decode(message).unwrap().lines();
        assert_eq!(
            lines(&message(2, &[one.clone(), one.clone()]))[0],
            "filters: 2 in a message of version 2, put on in this order:"
        );
        let old = description(1, 3, 0, b"fletcher32", &[]);
        assert_eq!(
            lines(&message(1, &[old]))[0],
            "filters: 1 in a message of version 1, put on in this order:"
        );
        assert_eq!(
            lines(&message(2, &[])),
            ["filters: none, in a message of version 2"]
        );
        let all = message(2, &vec![one.clone(); 32]);
        assert_eq!(lines(&all).len(), 33);
        assert_eq!(
            Pipeline::decode(&message(2, &vec![one; 33])).unwrap_err(),
            "they have 33 filters, and a message has at most 32"
        );
    }

    #[test]
    fn bytes_behind_a_message_are_kept() {
        let mut bytes = message(2, &[description(2, 1, 1, b"", &[6])]);
        bytes.extend(b"rest");
        let pipeline = Pipeline::decode(&bytes).unwrap();
        assert_eq!((pipeline.filters.len(), pipeline.rest), (1, &b"rest"[..]));
    }

    #[test]
    fn a_message_that_is_cut_is_none() {
        for version in [1, 2] {
            let filters = [
                description(version, 1, 1, b"", &[6]),
                description(version, 300, 0, b"packer", &[1, 2, 3]),
            ];
            let whole = message(version, &filters);
            let second = whole.len() - filters[1].len();
            for length in 0..whole.len() {
                let first = if version == 1 { 8 } else { 2 };
                let due = match length {
                    0 | 1 => "they end too early".into(),
                    _ if length < first => "they end before the first filter".into(),
                    _ => format!(
                        "they have 2 filters, and the one at place {} is cut",
                        u8::from(length >= second)
                    ),
                };
                assert_eq!(Pipeline::decode(&whole[..length]), Err(due));
            }
        }
        for version in [0, 3, 255] {
            assert_eq!(
                Pipeline::decode(&[version, 0]),
                Err(format!("they begin with version {version}, not 1 or 2"))
            );
        }
    }

    // By the format: of version 1 the length of a name is a multiple of eight, of version 2 any.
    #[test]
    fn the_length_of_a_name() {
        for length in 0..=17 {
            let mut bytes = vec![1, 1, 0, 0, 0, 0, 0, 0, 1, 0, length, 0, 0, 0, 0, 0];
            bytes.resize(16 + usize::from(length), b'n');
            let due = (length % 8 != 0).then(|| {
                let name = count(length.into(), "byte");
                format!(
                    "they have 1 filter, and the one at place 0 has a name of {name}, no multiple of eight"
                )
            });
            assert_eq!(Pipeline::decode(&bytes).err(), due);
            bytes = message(
                2,
                &[description(2, 256, 0, &vec![b'n'; length.into()], &[])],
            );
            assert_eq!(Pipeline::decode(&bytes).err(), None);
        }
    }

    #[test]
    fn a_filter_at_its_place() {
        let filters = [
            description(2, 3, 0, b"", &[]),
            description(2, 300, 0, b"packer", &[]),
        ];
        let bytes = message(2, &filters);
        let pipeline = Pipeline::decode(&bytes).unwrap();
        let names = [0, 1, 2, u32::MAX].map(|place| pipeline.name_at(place));
        assert_eq!(
            names,
            [Some("fletcher32".into()), Some("packer".into()), None, None]
        );
    }

    #[test]
    fn blocks_by_their_filters() {
        let filters = [
            description(2, 3, 0, b"", &[]),
            description(2, 300, 0, b"packer", &[]),
        ];
        assert_eq!(
            of_blocks(&message(2, &filters)),
            "its blocks are in the file as its filters left them: fletcher32, packer; poilures header says more of \
             these, and HDF5's own tools, as h5dump, read through them, where they have these filters"
        );
        assert_eq!(
            of_blocks(&message(2, &[])),
            "its filter information is a message without filters; poilures header says more of it"
        );
        assert_eq!(
            of_blocks(b"filters"),
            "its blocks are in the file as its filters left them; which these are, the header does not say in a way \
             that is known: poilures header prints these bytes"
        );
    }
}
