//! `poilures deposit --add`: the attributes that an HDF5 file has already, which come before the new ones in the file that
//! takes its place.
use crate::attributes::{self, unread};
use crate::destination::Destination;
use crate::failure::Failure;
use crate::heap::Gathering;
use crate::id::HeapId;
use crate::inputs::{self, Bytes, Identity};
use crate::library::Id;
use crate::locks::{self, Lock, Locking, Patience};
use crate::output;
use crate::quoting::shown;
use crate::talk::{Talk, is_or_are, tell};
use fractal_heap::{Header, OpenPlan, Refusal, Superblock, count, grouped};
use hdf5_file::{Dense, LENGTH_SIZE, OFFSET_SIZE, Places, RootGroup};
use std::borrow::Cow;
use std::collections::HashSet;
use std::ffi::OsStr;
use std::fs::{self, File, Metadata, OpenOptions};
use std::io;
use std::os::unix::ffi::OsStrExt;
use std::os::unix::fs::MetadataExt;
use std::path::{Path, PathBuf};

/// Why IDs may be others than those that the file's attributes had.
const NO_DEPOSIT: &str = "it was changed since deposit, or is no deposit";

/// The file that is added to, open and locked.
pub struct Old {
    /// As it was named, and where it is.
    name: PathBuf,
    path: PathBuf,
    state: State,
    /// Of its bytes, as they were then.
    checksum: u32,
    bytes: Bytes,
    /// What its own rights say to a program that would write to it, where they forbid it.
    protected: Option<io::Error>,
    _locks: Locks,
}

/// A file as it was when it was locked.
#[derive(PartialEq)]
struct State {
    identity: Identity,
    size: u64,
    /// When its bytes were changed last: seconds and nanoseconds.
    modified: [i64; 2],
}

impl State {
    fn of(known: &Metadata) -> Self {
        State {
            identity: inputs::identity(known),
            size: known.len(),
            modified: [known.mtime(), known.mtime_nsec()],
        }
    }
}

/// The locks of a file that is added to.
struct Locks {
    file: File,
    /// HDF5's, so that no program opens it for writing.
    _shared: Lock,
    /// That of additions, where the file may be written.
    _addition: Lock,
}

impl Locks {
    /// Opens a file and takes both locks. Not a byte is written: the lock of additions needs a file that is open for
    /// writing, and where that is not allowed two of them are told apart when their files get their name. Whoever waits
    /// for another addition does not keep others from HDF5's lock.
    fn take(name: &Path, path: &Path, patience: Option<Patience>) -> Result<Self, Failure> {
        let written = OpenOptions::new().read(true).write(true).open(path);
        let opened = written.or_else(|_| File::open(path));
        let file = opened.map_err(|error| Failure::file(name, "read", error))?;
        let _addition = locks::addition(&file, name, patience)?;
        let _shared = locks::shared(&file, name, patience)?;
        Ok(Locks {
            file,
            _shared,
            _addition,
        })
    }
}

/// So often another file may have the name when one is locked, before that is taken for a name that never stays.
const ROUNDS: usize = 100;

/// The file that has its name when it is locked: another addition that was waited for has put another file there.
fn locked(
    name: &Path,
    path: &Path,
    patience: Option<Patience>,
) -> Result<(Locks, Metadata, Bytes), Failure> {
    let not_read = |error: io::Error| Failure::file(name, "read", error);
    for _ in 0..ROUNDS {
        let locks = Locks::take(name, path, patience)?;
        let bytes = inputs::whole(path.as_os_str())?;
        // An empty one is not mapped.
        let mapped = bytes.file().unwrap_or(&locks.file);
        if locks::stands_at(&locks.file, path) && locks::stands_at(mapped, path) {
            let known = locks.file.metadata().map_err(not_read)?;
            return Ok((locks, known, bytes));
        }
    }
    Err(changed_meanwhile(name))
}

/// Another file, or another state of it, has the name than the one that was read.
fn changed_meanwhile(name: &Path) -> Failure {
    Failure::file(name, "written", "it was changed meanwhile, and was left")
}

/// Opens the file, locks it, and begins the one that is to take its place. Of a link that is where the link leads.
pub fn begin(
    name: &Path,
    force: bool,
    locking: &Locking,
    is_input: impl Fn(Identity) -> bool,
) -> Result<(Destination, Option<Old>), Failure> {
    if inputs::is_standard(name.as_os_str()) {
        let words = "--add changes a file, and standard output, -, is none";
        return Err(Failure::Use(words.into()));
    }
    let not_read = |error: io::Error| Failure::file(name, "read", error);
    let path = fs::canonicalize(name).map_err(not_read)?;
    output::may_go(&path, true, &is_input)?;
    let patience = locking.patience();
    let (locks, known, bytes) = locked(name, &path, patience)?;
    // It is locked already, and what its superblock's mark means is asked when it is read.
    let destination = Destination::named(&path, true, None, is_input)?;
    let protected = output::may_be_written(&path).err();
    if let Some(error) = protected
        .as_ref()
        .filter(|error| !force && !gives_way(error, &path))
    {
        return Err(Failure::file(name, "written", error));
    }
    let old = Old {
        name: name.into(),
        path,
        state: State::of(&known),
        checksum: fractal_heap::checksum(&bytes),
        bytes,
        protected,
        _locks: locks,
    };
    Ok((destination, Some(old)))
}

/// Whether a file that may not be written may be replaced all the same: its mode forbids the one, and the other is a
/// matter of its folder.
fn gives_way(error: &io::Error, path: &Path) -> bool {
    error.raw_os_error() == Some(libc::EACCES) && output::may_be_replaced(path)
}

impl Old {
    /// Refuses to replace what is not the file that was read. A change of its mode, or of its names, changes no byte of
    /// it; and a program that changed its bytes may have put their time back, or done so within one tick of the clock.
    pub fn check(&self) -> Result<(), Failure> {
        self.bytes.check_whole(self.name.as_os_str())?;
        let now = fs::metadata(&self.path).map(|known| State::of(&known));
        let is_same = now.is_ok_and(|now| now == self.state && self.bytes.len() as u64 == now.size);
        match is_same && fractal_heap::checksum(&self.bytes) == self.checksum {
            true => Ok(()),
            false => Err(changed_meanwhile(&self.name)),
        }
    }
}

/// An attribute that is there: its message is kept as it is, as an object of the new file.
pub struct Kept<'f> {
    pub name: &'f OsStr,
    /// Its number where order is tracked.
    pub order: Option<u16>,
    id: Option<Id>,
    heap_offset: Option<u64>,
    message: Cow<'f, [u8]>,
    /// It was a text of variable length, and is one of fixed length now.
    is_fixed: bool,
}

/// What makes the new file another one than whoever has the old one expects, and so needs `--force`.
struct Change {
    /// As it is said where it is not asked for.
    would_be: String,
    /// As it is told where it is.
    told: Option<String>,
    /// The attributes that it meets.
    lines: Vec<String>,
}

impl Change {
    fn with_lines(words: &str, hint: &str, lines: &[String]) -> String {
        let lines: String = lines.iter().map(|line| format!("\n{line}")).collect();
        let colon = if lines.is_empty() { "" } else { ":" };
        format!("{words}{hint}{colon}{lines}")
    }

    fn refused(&self) -> String {
        Change::with_lines(&self.would_be, "; --force adds all the same", &self.lines)
    }

    fn told(&self) -> Option<String> {
        let words = self.told.as_ref()?;
        Some(Change::with_lines(words, "", &self.lines))
    }
}

/// The attributes that are there, in the order of their heap offsets, those without one last.
pub struct Earlier<'f> {
    old: Option<&'f Old>,
    pub attributes: Vec<Kept<'f>>,
    /// As many numbers were given, where order is tracked.
    pub newest: Option<u16>,
    /// What the heap's header says and where heap and index are, if there are any.
    heap: Option<(Header, Dense)>,
    /// It is a file as `deposit` makes it of no files.
    is_fresh: bool,
    /// Its superblock is marked as one of a file that is open for writing.
    is_marked: bool,
}

/// An attribute whose ID is another one in the new file.
struct Moved<'f> {
    name: &'f OsStr,
    before: Option<Id>,
    after: Id,
}

impl Moved<'_> {
    fn line(&self) -> String {
        let before = match self.before {
            Some(id) => HeapId::new(&id).to_string(),
            None => "without an ID, as it lies in the object header".into(),
        };
        let after = HeapId::new(&self.after);
        format!("  {}: {before}, then {after}", shown(self.name))
    }
}

impl<'f> Earlier<'f> {
    /// Of a new file.
    pub fn none(track_order: bool) -> Self {
        Earlier {
            old: None,
            attributes: Vec::new(),
            newest: track_order.then_some(0),
            heap: None,
            is_fresh: true,
            is_marked: false,
        }
    }

    /// All attributes of a file that has nothing else. Refused is what is refused with `--force`, too.
    pub fn read(old: &'f Old) -> Result<Self, Failure> {
        let file = old.name.as_os_str();
        let read = attributes::open(&old.bytes, file)?;
        if let Some(content) = read.other_content() {
            return Err(Failure::Not(format!(
                "{} has {content}: a deposit has not, and nothing is added",
                shown(file)
            )));
        }
        let found = read.all().map_err(|why| unread(file, why))?;
        let (mut attributes, mut names) = (Vec::new(), HashSet::new());
        for found in found {
            let attribute = found.attribute.map_err(|why| unread(file, why))?;
            let name = OsStr::from_bytes(attribute.name);
            let not_kept = |why: &dyn std::fmt::Display| {
                let (file, name) = (shown(file), shown(name));
                Failure::Not(format!("{file}, {name}: {why}; nothing is added"))
            };
            let fixed = attribute.variable_text.and_then(|text| text.fixed());
            let is_fixed = fixed.is_some();
            // A value that is not given may lie whole in its message; one that is given may not.
            let message = attribute.message.map(Cow::from).or(fixed.map(Cow::from));
            let message = message.ok_or_else(|| match &attribute.value {
                Err(why) => not_kept(why),
                Ok(_) => not_kept(&"its value, of variable length, would be lost"),
            })?;
            if !names.insert(name) {
                return Err(not_kept(&"two attributes have this name"));
            }
            attributes.push(Kept {
                name,
                order: found.order,
                id: found.id,
                heap_offset: found.heap_offset,
                message,
                is_fixed,
            });
        }
        attributes.sort_by_key(|kept| (kept.heap_offset.is_none(), kept.heap_offset));
        let newest = read.newest();
        let empty = RootGroup {
            newest: newest.map(|_| 0),
            dense: None,
        };
        let header = read.heap().map_err(|why| unread(file, why))?;
        let superblock = Superblock::find(&old.bytes);
        Ok(Earlier {
            old: Some(old),
            attributes,
            newest,
            heap: header.zip(read.dense()),
            is_fresh: old.bytes[..] == empty.front(Places::new(newest.is_some()).heap),
            is_marked: superblock.is_some_and(|superblock| superblock.open_for_writing),
        })
    }

    /// Bytes of their messages.
    pub fn bytes(&self) -> u64 {
        let messages = self.attributes.iter().map(|kept| kept.message.len() as u64);
        messages.sum()
    }

    /// Whether the file is as `deposit` makes one of these attributes, which this is the plan of. Else there may have been
    /// others behind them, whose IDs new ones would get. HDF5 that removes an object keeps account of its place, and the
    /// header says where; or it gives back a whole block, and then the index is not right behind the planned region.
    fn is_as_deposited(&self, plan: &OpenPlan) -> bool {
        let Some((header, at)) = &self.heap else {
            return !self.attributes.is_empty() || self.is_fresh;
        };
        let region_at = at.heap + Header::length(OFFSET_SIZE, LENGTH_SIZE) as u64;
        *header == plan.header(region_at) && at.names == region_at + plan.totals().region_size
    }

    /// Refuses names that are there already.
    pub fn refuse(&self, names: &[&str], files: &[&OsStr]) -> Result<(), Failure> {
        let there: HashSet<_> = self.attributes.iter().map(|kept| kept.name).collect();
        let is_there = |(name, _): &(&&str, &&OsStr)| there.contains(OsStr::new(name));
        match names.iter().zip(files).find(is_there) {
            None => Ok(()),
            Some((name, file)) => Err(Failure::Use(format!(
                "there is an attribute of the name {} already, and {} would have it, too",
                shown(name),
                shown(file)
            ))),
        }
    }

    /// Takes all of them as objects. What becomes another than it was is told, and needs `force`; all that is refused
    /// in spite of that is refused before.
    pub fn gather(
        &self,
        gathering: &mut Gathering,
        force: bool,
        talk: &mut Talk,
    ) -> Result<(), Failure> {
        let moved = self.take(gathering)?;
        let changes = self.changes(&moved, gathering.plan());
        match (force, changes.is_empty()) {
            (true, _) => changes
                .iter()
                .filter_map(Change::told)
                .for_each(|words| tell(&words)),
            (false, true) => {}
            (false, false) => return Err(self.refused(&changes)),
        }
        let all = self.attributes.len() as u64;
        if all > 0 && moved.is_empty() {
            talk.say(&format!(
                "{} {} there already, with the same {} as before",
                count(all, "attribute"),
                is_or_are(all),
                if all == 1 { "ID" } else { "IDs" }
            ));
        }
        Ok(())
    }

    /// Takes all of them; those that get other IDs than they had come back.
    fn take(&self, gathering: &mut Gathering) -> Result<Vec<Moved<'f>>, Failure> {
        let mut moved = Vec::new();
        for kept in &self.attributes {
            let size = kept.message.len() as u64;
            let not_taken = |refusal: &Refusal| {
                Failure::Not(format!(
                    "{refusal}\nthe attribute is {}, whose message has {}; nothing is added",
                    shown(kept.name),
                    count(size, "byte")
                ))
            };
            let (_, after) = gathering.add([&kept.message, &[]], size, not_taken, kept.name)?;
            if kept.id != Some(after) {
                moved.push(Moved {
                    name: kept.name,
                    before: kept.id,
                    after,
                });
            }
        }
        Ok(moved)
    }

    /// All that needs `--force`.
    fn changes(&self, moved: &[Moved], plan: &OpenPlan) -> Vec<Change> {
        let all = count(self.attributes.len() as u64, "attribute");
        let mut changes: Vec<Change> = self.old.iter().flat_map(|old| self.standing(old)).collect();
        let fixed = self.attributes.iter().filter(|kept| kept.is_fixed);
        let fixed: Vec<String> = fixed
            .map(|kept| format!("  {}", shown(kept.name)))
            .collect();
        if !fixed.is_empty() {
            let (some, these, one) = match fixed.len() as u64 {
                1 => ("1 is a string".into(), "this one is a string".into(), "one"),
                number => {
                    let some = format!("{} are strings", grouped(number));
                    let these = format!("these {some}");
                    (some, these, "ones")
                }
            };
            changes.push(Change {
                would_be: format!(
                    "of the file's {all} {some} of variable length, and would become {one} of fixed \
                     length"
                ),
                told: Some(format!(
                    "of the file's {all} {these} of fixed length now, and had a variable length"
                )),
                lines: fixed,
            });
        }
        match moved.len() as u64 {
            0 if self.is_as_deposited(plan) => {}
            0 => {
                let words = format!(
                    "the file is not the one that deposit makes of {}: {NO_DEPOSIT}; new ones may get the IDs of removed ones",
                    match self.attributes.len() {
                        0 => "no attributes".into(),
                        _ => format!("its {all}"),
                    }
                );
                changes.push(Change {
                    would_be: words.clone(),
                    told: Some(words),
                    lines: Vec::new(),
                });
            }
            number => {
                let some = grouped(number);
                let these = match number {
                    1 => "this one has".into(),
                    _ => format!("these {some} have"),
                };
                changes.push(Change {
                    would_be: format!(
                        "of the file's {all} {some} would have another ID, since {NO_DEPOSIT}"
                    ),
                    told: Some(format!(
                        "of the file's {all} {these} another ID now, since {NO_DEPOSIT}"
                    )),
                    lines: moved.iter().map(Moved::line).collect(),
                });
            }
        }
        changes
    }

    /// What the file's rights and its superblock say against an addition.
    fn standing(&self, old: &Old) -> Vec<Change> {
        let file = shown(old.name.as_os_str());
        let protected = old.protected.as_ref();
        let protected = protected.map(|error| format!("{file} cannot be written: {error}"));
        let marked = self.is_marked.then(|| {
            format!("{file} is marked as open for writing, by a program that has it open or did not close it")
        });
        let change = |would_be| Change {
            would_be,
            told: None,
            lines: Vec::new(),
        };
        protected.into_iter().chain(marked).map(change).collect()
    }

    /// Says all that needs `--force`. A file that cannot be written is wrong use.
    fn refused(&self, changes: &[Change]) -> Failure {
        let words: Vec<String> = changes.iter().map(Change::refused).collect();
        let words = words.join("\n");
        match self.old.is_some_and(|old| old.protected.is_some()) {
            true => Failure::Use(words),
            false => Failure::Not(words),
        }
    }
}
