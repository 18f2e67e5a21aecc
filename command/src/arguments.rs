//! The words of the command line: what there is to say, and how numbers and IDs are written.
use crate::id::HeapId;
use crate::locks::Locking;
use crate::quoting;
use clap::{ArgGroup, Args, Command, CommandFactory, FromArgMatches, Parser, Subcommand};
use std::ffi::OsString;
use std::path::PathBuf;

const VERSION: &str = concat!(
    env!("CARGO_PKG_VERSION"),
    ", proved with ",
    env!("POILURES_KIT")
);

/// Stands in the examples for the program's name, as it was called.
const PROGRAM: &str = "PROGRAM";

// An example is at most 63 columns wide without the name, so that a terminal of 80 does not break it.
const EXAMPLES: &str = "\
Examples, one after another:
  printf 'gauge 7 was replaced at noon' >note
  PROGRAM deposit a.h5 note
  PROGRAM list a.h5
  PROGRAM get a.h5 note
  PROGRAM write --map --out heap.image note
  PROGRAM read heap.image 0 00:16:00:00:00:00:1C:00
  PROGRAM explain 1 5120 4096

Of an HDF5 file, after the command that makes one in the help of read:
  PROGRAM read --hex gauges.h5 606 00:16:00:00:00:00:38:00

Numbers are decimal, 5,120 or 5120, or hexadecimal, 0x1400.
Exit status: 0 all well; 1 refused, or not as it should be, or nobody takes what is
printed (a closed pipe); 2 wrong use, or a file that cannot be read or written.";

const DEPOSIT_MORE: &str = "\
RUN.h5 is an HDF5 file, which h5py, h5dump, HDFView and all programs on HDF5's library
open. Each file becomes an attribute of its root group, by its base name: a list of
unsigned bytes, of none where the file is empty, for which h5py gives an array. With
--text a file that is UTF-8, not empty and without a zero byte becomes one string of
fixed length, for which h5py gives bytes, and all others stay lists.
A heap for a file of your own comes from write.

Each object's ID is printed when its file has been read, before the next one is; it
stays the object's ID whatever follows. The object is HDF5's message of the attribute,
with name, type and space first, and then the file's bytes: read prints it whole. It has
at most 65,514 bytes, so that a file has at most 65,480 less those of its name, or as a
text 65,492 less those.

Names are UTF-8, and no two are alike. Their order is that of the heap offsets; with
--track-order HDF5 knows it, too, so that h5py lists them in the order of deposit.

With --add the attributes of RUN.h5 are read and tested, and a new file with them and the
new ones behind them takes its place. Their IDs stay, and those that are printed are of the
new ones. Where HDF5 has changed RUN.h5 since, IDs may change, or those of attributes that
it removed be given to new ones: then nothing is written, but with --force, and it is told.
So is a text of variable length, as h5py writes a str, that becomes a string of fixed length
with the same bytes. A file that has more than attributes is refused.

A program that has RUN.h5 open for reading, as HDF5 locks it, keeps the old file. One that
has it open for writing may not have written all of it, or would write into a file without
a name: --add and --force are refused. --wait waits until it is closed, and --no-lock does
not ask: what that program writes then is lost. While it is added to, HDF5 does not open it
for writing; of two --add one is refused, or waits and adds to what the other put there.

A file that is replaced gives its mode to the new one, and its owner where root replaces it;
its access lists and extended attributes are lost, and other hard links keep the old file.
Of a link the file is replaced where it leads, by --force as by --add, and the link stays.
With --force one that is write-protected is replaced, too, since its folder alone has to be
writable for that; --add leaves such a file without --force.

RUN.h5 appears whole or not at all, and all objects are read back before, as with write,
whose help says what stays behind of a program that is killed. get gives a file back by
its name, and list tells what there is.

Examples, one after another:
  printf 'gauge 7 was replaced at noon' >note
  PROGRAM deposit run.h5 note
  PROGRAM deposit --force --text --map run.h5 note
  date | PROGRAM deposit --name 'the date' date.h5 -
  printf 'note\\0' | PROGRAM deposit --json --files0-from - list.h5
  date | PROGRAM deposit --add --name 'the date' run.h5 -

Then, with HDF5's tools and h5py:
  h5dump run.h5
  python3 -c \"import h5py; print(h5py.File('run.h5').attrs['note'].tobytes())\"";

const GET_MORE: &str = "\
An attribute's bytes are those of its value as the file has them: of what deposit put in
the file that it came from; of HDF5's numbers, lists and strings of fixed length their raw
bytes; of one string of variable length, as h5py writes a str, its text. Of any other type
there are none, which is said in words. The file may have been changed by HDF5, or be its
own, with a superblock of version 0 to 3.

Every checksum on the way to what is given is tested, and what is given is what was tested:
from then on it lies in memory, whatever becomes of the file. No checksum covers a value in
an object header of version 1, as h5repack writes it, and h5py where it is not told
otherwise; in a heap whose blocks have no checksums (header says so); a huge object; a text
of variable length. A change of their bytes is not seen: get says in one line on standard
error which values that are, or from four on how many (list marks them), and with
--require-checksums it refuses them, and prints nothing.

The file is locked as HDF5 locks one that it reads, until all is found; then the lock is
given back, and only then is anything printed. While a program has the file open for
writing it is not read, with status 2: --wait waits until it is closed, and --no-lock asks
for no lock. A value that is just being written then is refused by its checksum, where it
has one. Standard input has no lock, nor has a file whose file system has none.

All that are named are found before the first is printed. With --out-dir a file has the
attribute's name, and one that no file can have, with a slash, say, is not written: get
prints it. With --all the others are written, and what is not is told, also what
--require-checksums refuses. Each file appears whole or not at all; no file is replaced
without --force, and none that a program has open for writing. Of a link --out replaces
the file where it leads, and --out-dir the link.

With --all it is told, too, where the index leads to other numbers of objects than the
heap's header counts, as one that is older than the heap does, and where the file has bytes
behind the end that its superblock tells, as one that lies over a larger one has: what was
found is written, and the exit status is 1.

A user block that HDF5 made is passed over. One that was put before a file as it was, as
h5jam does it, is not told in the file, which looks like one inside a damaged file, and is
refused: --user-block says where it is (512, 1024, 2048 ..), or h5unjam takes it off.

The ID is the one that deposit printed. Where the attribute was removed since, it is not
found, even where its bytes are still there: read has those.

Examples, one after another:
  printf 'gauge 7 was replaced at noon' >note
  PROGRAM deposit shift.h5 note
  PROGRAM get shift.h5 note
  PROGRAM get --hex --id 00:16:00:00:00:00:42:00 shift.h5
  PROGRAM get --all --out-dir shift shift.h5";

const LIST_MORE: &str = "\
The attributes are in the order of deposit, which is that of their heap offsets; where the
file tracks order, in that of their numbers. Those without an ID lie in the object header,
where HDF5 puts them when few are left; those without a heap offset are there, or huge
objects, with a place of their own in the file. A length is that of the bytes that get
gives; where it gives none, it is said why, and where that is damage, the exit status is 1.

A * behind the number marks a value of which no checksum covers every byte: in an object
header of version 1, in a heap whose blocks have no checksums, a huge object, a text of
variable length. With --require-checksums the exit status is 1 where there is one.

The status is also 1, and it is said why, where the index leads to other numbers of managed,
huge or tiny objects than the heap's header counts, and where the file has bytes behind the
end that its superblock tells. --user-block is as in get.

The file is locked while it is read, and no longer; the help of get says more.

--json has of each its name, length, id, offset and order (its number where order is
tracked), null where there is none; checked, whether checksums cover every byte of its value
(null where none is read); and why where the bytes are not read; of a name that is no UTF-8
the bytes as name_hex, too.

Examples, one after another:
  printf 'gauge 7 was replaced at noon' >note
  PROGRAM deposit day.h5 note
  PROGRAM list day.h5
  PROGRAM list --json day.h5";

const WRITE_MORE: &str = "\
Each object's ID is printed when its file has been read, before the next one is; it
stays the object's ID whatever follows. At the end every object is read back by its ID
and compared. A file has at most 65,514 bytes (at offset size 8).

IMAGE appears whole or not at all: until all of it is on the disk it has no name, or
where the file system has no such files another one, .poilures-*. With --force it has
such a name for a moment, before it takes the place of the file that is there, of a link
where that leads. Delete one that is left where the computer stopped or the program was
killed in between. What another program has open for writing, as HDF5 locks it, is not
replaced.

Objects of more than 256 MB are joined in a file without a name in the same folder, so
that the disk has to have room for them and for IMAGE. With --out - that folder is the
one for temporary files (TMPDIR, else /tmp), and there the image is, too, where objects
and image together have more than 256 MB.

An image holds the heap alone, to be put into a file of your own: it is no HDF5 file,
and HDF5's tools do not open it. deposit writes a whole HDF5 file.

INDEX appears in the same way, after IMAGE. It has a line of JSON for each object, with
its id, its length and the name of its file; of a name that is no UTF-8 it has the bytes
as name_hex, too. read --ids-from takes it.

Examples, one after another:
  printf 'gauge 7 was replaced at noon' >note
  PROGRAM write note
  PROGRAM write --out one.image --index one.index note
  PROGRAM write --json note
  printf 'note\\0' | PROGRAM write --quiet --files0-from -
  date | PROGRAM write -";

const IDS_MORE: &str = "\
Each line has the size of an object in bytes; the objects are in the order in which
they will be written. Each line of the input, the last one without an end too, has one
line on standard output, which is printed before the next one is read: the heap offset, a
space, and the ID. Both stay the object's whatever follows. The sizes are not kept.

Where there is none, - stands in its column, and why in a third one; why in words, and
which line it is, is told on standard error:
  22 00:16:00:00:00:00:1C:00     an object
  - - refused by 11              a size that is refused; it makes no object, and
                                 what follows is placed as without it
  1099511627776 - refused by 16  an empty object at the end of the heap space,
                                 at heap offset 2^40, which no ID holds
  - - no number                  a line that is no number, an empty one too

Exit status: 0 every line has its ID; 1 a line is refused, or the pipe is closed; 2 a line is
no number, which goes before 1, or wrong use, or standard input cannot be read: then what was
planned so far is told.

Examples:
  printf '28\\n' | PROGRAM ids
  printf '28\\n' | PROGRAM ids --offset-size 4";

const HEADER_MORE: &str = "\
Without PLACE every header in the file is told whose signature and checksum hold, each
with its position; the blocks behind it are not looked at. With PLACE a header that is
damaged is refused, and nothing is printed. The file is locked while it is read, and no
longer; the help of get says more.

Sizes are in bytes. Addresses are told as they are stored, none where they are undefined;
where the base is not 0, the position in the file is told beside them.

Of a filtered heap, whose blocks are put through filters, it is told what these are, in the
order in which they are put on, by names and numbers and with the values that control them,
or the bytes that do not say it; where in the file these bytes begin; how many bytes a
direct root block has as the filters left it, and which of them it skipped.

--json prints one line for each header, with the fields by their names, as heap_id_length,
undefined addresses as null, and position (in the file), offset_size and length_size. Its
numbers go up to 2^64 - 1: a reader that has doubles for numbers cuts those above 2^53.
Three of them are 0 where there are no filters: io_filter_information_position (in the
file), filtered_root_direct_block_size and io_filter_mask.

Examples, one after another:
  printf 'gauge 7 was replaced at noon' >note
  PROGRAM write --out heap.image note
  PROGRAM header heap.image
  PROGRAM header --json heap.image 0";

const LOCATE_MORE: &str = "\
Told are the indirect blocks on the way from the root to the direct block, each by the row
and the column of its slot and the heap offset at which it begins; the direct block's heap
offset and size; where its header ends, and whether the offset lies in the header. The
block is found by two engines, and it is said whether they agree: one goes down through
the indirect blocks, one counts every block before, which takes up to a second.

Offsets are below 2^40, or refused by 20. --json prints one line: offset, way (a list with
row, column and start of each block), block_start, block_size, header_end, in_header,
engines_agree and offset_size.

Examples:
  PROGRAM locate 2,359,318
  PROGRAM locate --json --offset-size 4 0x3fffff";

const SLOTS_MORE: &str = "\
A heap's root has 1 to 29 rows; other numbers are refused by 20. Slots in indirect blocks
count, these themselves do not: all bytes together are the heap space of so many rows.
29 rows take up to a second. --json prints one line: rows, counts (a list with size, slots
and bytes), slots and bytes.

Examples:
  PROGRAM slots 3
  PROGRAM slots --json 29";

const EXPLAIN_MORE: &str = "\
Examples:
  PROGRAM explain 1 5120 4096
  PROGRAM explain 7";

const READ_MORE: &str = "\
Every block on the way to an object is tested before anything is printed: its signature,
its version, the address of its heap's header, its heap offset, its checksum. One that is
damaged, or another heap's, is named with what was found and what was wanted. Of a heap
whose direct blocks have no checksums (header says so) a change behind a block's header
is not seen. Where blocks and header were carried elsewhere since they were written,
--header-address says what address the blocks still have of it. --unchecked reads without
these tests: a damaged block gives its damaged bytes.

Managed objects of a filtered heap are not read: its blocks are as its filters left them.

In a file with a superblock PLACE is still a position in the file. Addresses that
HDF5's tools print count from the superblock, which is behind the user block where
there is one: give those with --address. An image has no superblock; where an object's
bytes look like one, --base 0 says so. The file is not changed.

All objects are found before the first is printed, and what is printed is what was tested.
The file is locked while it is read, and no longer; the help of get says more. A file that
is written appears whole or not at all; of a folder's files those stay that were written
before one failed. Of a link --out replaces the file where it leads, --out-dir the link.

A list of IDs has one a line, as write --quiet prints them, or a line of JSON that has
an id, as write --index keeps it. There an empty object that no block holds is empty,
where its ID alone is refused by 1. --json has of each object its id, type and length; of
a managed one its heap_offset and its position in the file (null of such an empty one),
of a tiny one its position_in_id.

Examples, one after another:
  printf 'gauge 7 was replaced at noon' >note
  PROGRAM write --out gauges.image --index gauges.index note
  PROGRAM read gauges.image 0 00:16:00:00:00:00:1C:00
  PROGRAM read --hex gauges.image 0 '00 16 00 00 00 00 07 00'
  PROGRAM read --out gauge gauges.image 0 00:16:00:00:00:00:07:00
  PROGRAM read --out-dir parts gauges.image 0 0016000000000700
  PROGRAM read --json --ids-from gauges.index gauges.image 0

Of an HDF5 file comes HDF5's message, as it lies in the heap. That of an attribute has
9 bytes first (its version, its flags, the sizes of the next three, its character set),
then its name with a zero byte, its type (8 bytes of a text), its space (4 bytes of one
value), and only then the value: 28 bytes before a note below. Of a value of variable
length, as h5py writes a str, it has no byte, but the place where the file has it.

h5debug tells the address of the heap, and the IDs in the leaves of its index. It prints
the ID of a link as it is, and that of an attribute backwards, byte by byte: where it
says {0038000000001600, ..}, the ID is 00:16:00:00:00:00:38:00.

With such a file, which h5py makes:
  python3 -c \"import h5py, numpy; f = h5py.File(
    'gauges.h5', 'w', libver='latest'); [f.attrs.create(f'note {i}',
    numpy.bytes_(f'gauge {i} was replaced at noon')) for i in range(9)]\"
  PROGRAM read --hex gauges.h5 606 00:16:00:00:00:00:38:00";

/// A proved fractal heap: files into an HDF5 file and back by their names, files as objects of a heap and back by IDs.
#[derive(Parser)]
#[command(name = "poilures", version = VERSION, after_help = EXAMPLES)]
#[command(subcommand_required = true, arg_required_else_help = true)]
pub struct Arguments {
    #[command(subcommand)]
    pub subcommand: Subcommands,
}

#[derive(Subcommand)]
pub enum Subcommands {
    Deposit(Deposit),
    Get(Get),
    List(List),
    Write(Write),
    Read(Read),
    Header(Header),
    Ids(Ids),
    Locate(Locate),
    Slots(Slots),
    Explain(Explain),
    /// Prints what a shell needs to complete this program's words.
    Completions {
        shell: clap_complete::Shell,
    },
}

/// Puts files as attributes into a new HDF5 file, and prints the ID of each.
#[derive(Args)]
#[command(after_help = DEPOSIT_MORE)]
pub struct Deposit {
    /// The HDF5 file; - is standard output.
    #[arg(value_name = "RUN.h5")]
    pub out: PathBuf,
    /// The files; - is standard input. With none, a file without attributes.
    #[arg(value_name = "FILE")]
    pub files: Vec<OsString>,
    /// Take the files' names from FILE, each ended by a zero byte; - is standard input.
    #[arg(long, value_name = "FILE", conflicts_with = "files")]
    pub files0_from: Option<OsString>,
    /// The name of the attribute from standard input, or from the only FILE.
    #[arg(long, value_name = "NAME")]
    pub name: Option<String>,
    /// Store files that can be a string of HDF5 as one.
    #[arg(long)]
    pub text: bool,
    /// Have HDF5 know the order of the attributes, of which there are 65,534 at most then.
    #[arg(long)]
    pub track_order: bool,
    /// Put them behind the attributes that RUN.h5 has already.
    #[arg(long, conflicts_with = "track_order")]
    pub add: bool,
    /// Replace RUN.h5 where it is there already; with --add, also where HDF5 has changed it, or it is write-protected.
    #[arg(long)]
    pub force: bool,
    #[command(flatten)]
    pub locking: Locking,
    /// Draw the heap: its rows, slots and blocks.
    #[arg(long, conflicts_with_all = ["json", "quiet"])]
    pub map: bool,
    /// Draw with plain characters.
    #[arg(long, requires = "map")]
    pub ascii: bool,
    /// Print a line of JSON for each object.
    #[arg(long, conflicts_with = "quiet")]
    pub json: bool,
    /// Print the IDs alone.
    #[arg(short, long)]
    pub quiet: bool,
}

/// Gives attributes of an HDF5 file's root group back, by their names.
#[derive(Args)]
#[command(after_help = GET_MORE)]
#[command(group(ArgGroup::new("put").args(["out", "out_dir"])))]
pub struct Get {
    /// The HDF5 file; - is standard input.
    #[arg(value_name = "RUN.h5")]
    pub file: OsString,
    /// The attributes' names.
    #[arg(value_name = "NAME", required_unless_present_any = ["id", "all"])]
    pub names: Vec<OsString>,
    /// The attribute whose message has this heap ID.
    #[arg(long, value_name = "ID", conflicts_with = "names")]
    pub id: Option<HeapId>,
    /// All attributes, each into a file.
    #[arg(long, requires = "out_dir", conflicts_with_all = ["names", "id", "out"])]
    pub all: bool,
    /// Print a dump.
    #[arg(long)]
    pub hex: bool,
    /// Put the bytes of all that are named into FILE; - is standard output.
    #[arg(short, long, value_name = "FILE")]
    pub out: Option<PathBuf>,
    /// Put each into a file of its own in FOLDER, of the attribute's name.
    #[arg(long, value_name = "FOLDER")]
    pub out_dir: Option<PathBuf>,
    /// Replace files that are there already.
    #[arg(long, requires = "put")]
    pub force: bool,
    /// Refuse values of which no checksum covers every byte.
    #[arg(long)]
    pub require_checksums: bool,
    /// Take the file that stands behind a user block of BYTES, whatever its base address says.
    #[arg(long, value_name = "BYTES", value_parser = number)]
    pub user_block: Option<u64>,
    #[command(flatten)]
    pub locking: Locking,
}

/// Lists the attributes of an HDF5 file's root group, and what its heap has.
#[derive(Args)]
#[command(after_help = LIST_MORE)]
pub struct List {
    /// The HDF5 file; - is standard input.
    #[arg(value_name = "RUN.h5")]
    pub file: OsString,
    /// Print a line of JSON for each attribute, and nothing else.
    #[arg(long)]
    pub json: bool,
    /// End with status 1 where no checksum covers every byte of a value.
    #[arg(long)]
    pub require_checksums: bool,
    /// Take the file that stands behind a user block of BYTES, whatever its base address says.
    #[arg(long, value_name = "BYTES", value_parser = number)]
    pub user_block: Option<u64>,
    #[command(flatten)]
    pub locking: Locking,
}

/// Writes files as objects of a heap, in their order, and prints the ID of each.
#[derive(Args)]
#[command(after_help = WRITE_MORE)]
pub struct Write {
    /// The files; - is standard input. With none, the empty heap.
    #[arg(value_name = "FILE")]
    pub files: Vec<OsString>,
    /// Take the names from FILE, each ended by a zero byte; - is standard input.
    #[arg(long, value_name = "FILE", conflicts_with = "files")]
    pub files0_from: Option<OsString>,
    /// Put the file image with header and heap into IMAGE; - is standard output.
    #[arg(short, long, value_name = "IMAGE")]
    pub out: Option<PathBuf>,
    /// Keep a line of JSON for each object in INDEX: its ID, its length, its file's name.
    #[arg(long, value_name = "INDEX", requires = "out")]
    pub index: Option<PathBuf>,
    /// Replace IMAGE and INDEX where they are there already, write-protected ones, too.
    #[arg(long, requires = "out")]
    pub force: bool,
    /// Draw the heap: its rows, slots and blocks.
    #[arg(long, conflicts_with_all = ["json", "quiet"])]
    pub map: bool,
    /// Draw with plain characters.
    #[arg(long, requires = "map")]
    pub ascii: bool,
    /// Print one line of JSON for each object, and nothing else.
    #[arg(long, conflicts_with = "quiet")]
    pub json: bool,
    /// Print the IDs, one a line, and nothing else.
    #[arg(short, long)]
    pub quiet: bool,
    /// Where the region lies in the image [default: just after the header].
    #[arg(long, value_name = "POSITION", value_parser = number)]
    pub at: Option<u64>,
    /// Where the header lies in the image.
    #[arg(long, value_name = "POSITION", value_parser = number, default_value = "0")]
    pub header_at: u64,
    /// Bytes of an address: 2, 4 or 8.
    #[arg(long, value_name = "BYTES", value_parser = size, default_value = "8")]
    pub offset_size: u8,
    /// Bytes of a length: 4 or 8.
    #[arg(long, value_name = "BYTES", value_parser = size, default_value = "8")]
    pub length_size: u8,
}

/// Prints managed or tiny objects of a heap by their IDs.
#[derive(Args)]
#[command(after_help = READ_MORE)]
#[command(group(ArgGroup::new("kept").args(["out", "out_dir"])))]
pub struct Read {
    /// An HDF5 file, or an image of a heap; - is standard input.
    pub file: OsString,
    /// The position of the heap's header in the file.
    #[arg(value_parser = number)]
    pub place: u64,
    /// Hexadecimal digits in one word, with colons between the bytes or without.
    #[arg(value_name = "ID", required_unless_present = "ids_from")]
    pub ids: Vec<HeapId>,
    /// Take the IDs from FILE, one a line; - is standard input.
    #[arg(long, value_name = "FILE", conflicts_with = "ids")]
    pub ids_from: Option<OsString>,
    #[command(flatten)]
    pub addressing: Addressing,
    /// Read without testing the blocks: what is damaged comes as it is.
    #[arg(long)]
    pub unchecked: bool,
    /// What each block says of its header's address [default: where the header is, from the base].
    #[arg(long, value_name = "ADDRESS", value_parser = number, conflicts_with = "unchecked")]
    pub header_address: Option<u64>,
    /// Take IDs of another length than the heap's.
    #[arg(long)]
    pub any_length: bool,
    /// Print a dump.
    #[arg(long)]
    pub hex: bool,
    /// Print a line of JSON for each object, what it is and where, in place of its bytes.
    #[arg(long, conflicts_with = "hex")]
    pub json: bool,
    /// Put the bytes of all objects into FILE; - is standard output.
    #[arg(short, long, value_name = "FILE")]
    pub out: Option<PathBuf>,
    /// Put each object into a file of its own in FOLDER, named by its ID's digits.
    #[arg(long, value_name = "FOLDER")]
    pub out_dir: Option<PathBuf>,
    /// Replace files that are there already.
    #[arg(long, requires = "kept")]
    pub force: bool,
    /// Say nothing on standard error but why something fails, what is wrong with the file, and that an ID seems to be
    /// turned round.
    #[arg(short, long)]
    pub quiet: bool,
    #[command(flatten)]
    pub locking: Locking,
}

/// Prints what the header of a heap says, or of each heap in a file.
#[derive(Args)]
#[command(after_help = HEADER_MORE)]
pub struct Header {
    /// An HDF5 file, or an image of a heap; - is standard input.
    pub file: OsString,
    /// The position of a heap's header in the file [default: every one is sought].
    #[arg(value_parser = number)]
    pub place: Option<u64>,
    #[command(flatten)]
    pub addressing: Addressing,
    /// Print a line of JSON for each header.
    #[arg(long)]
    pub json: bool,
    /// Say nothing on standard error but why something fails, and what is wrong with the file.
    #[arg(short, long)]
    pub quiet: bool,
    #[command(flatten)]
    pub locking: Locking,
}

/// How a place in a file is given, where addresses count from, and the two sizes.
#[derive(Args)]
pub struct Addressing {
    /// PLACE is an HDF5 address, as HDF5's tools print it, counted from the base.
    #[arg(long, requires = "place")]
    pub address: bool,
    /// Where HDF5's addresses count from [default: where the superblock is, else 0].
    #[arg(long, value_name = "POSITION", value_parser = number)]
    pub base: Option<u64>,
    /// Bytes of an address, 2, 4 or 8 [default: the superblock's, else 8].
    #[arg(long, value_name = "BYTES", value_parser = size)]
    pub offset_size: Option<u8>,
    /// Bytes of a length, 2, 4 or 8 [default: the superblock's, else 8].
    #[arg(long, value_name = "BYTES", value_parser = size)]
    pub length_size: Option<u8>,
}

/// Reads sizes from standard input, one a line, and prints heap offset and ID of each at once.
#[derive(Args)]
#[command(after_help = IDS_MORE)]
pub struct Ids {
    /// Bytes of an address: 2, 4 or 8.
    #[arg(long, value_name = "BYTES", value_parser = size, default_value = "8")]
    pub offset_size: u8,
}

/// Prints which direct block has a heap offset, and the way there, by two engines.
#[derive(Args)]
#[command(after_help = LOCATE_MORE)]
pub struct Locate {
    /// The heap offset.
    #[arg(value_parser = number)]
    pub offset: u64,
    /// Bytes of an address: 2, 4 or 8.
    #[arg(long, value_name = "BYTES", value_parser = size, default_value = "8")]
    pub offset_size: u8,
    /// Print a line of JSON.
    #[arg(long)]
    pub json: bool,
}

/// Prints how many direct slots of each size a heap of so many rows has.
#[derive(Args)]
#[command(after_help = SLOTS_MORE)]
pub struct Slots {
    /// The root's rows.
    #[arg(value_parser = number)]
    pub rows: u64,
    /// Print a line of JSON.
    #[arg(long)]
    pub json: bool,
}

/// Says in words what a refusal by this number with its two values means.
#[derive(Args)]
#[command(after_help = EXPLAIN_MORE)]
pub struct Explain {
    /// The refusal's number, which a C function returns.
    #[arg(value_parser = number)]
    pub number: u64,
    /// The first of its two values, which the slot has; without it only the cause is told.
    #[arg(value_parser = number)]
    pub first: Option<u64>,
    /// The second.
    #[arg(value_parser = number, default_value = "0")]
    pub second: u64,
}

impl Arguments {
    /// What the words say. The help's examples name the program as the first word calls it, so that they can be pasted.
    pub fn of(words: impl IntoIterator<Item = OsString>) -> Result<Self, clap::Error> {
        let words: Vec<OsString> = words.into_iter().collect();
        let program = quoting::program(words.first().map(OsString::as_os_str));
        let mut command = named(Arguments::command(), &program).bin_name(program);
        let mut matches = command.try_get_matches_from_mut(words)?;
        let arguments = Arguments::from_arg_matches_mut(&mut matches);
        arguments.map_err(|error| error.format(&mut command))
    }
}

/// The command and all below it, with the program's name in their help.
fn named(mut command: Command, program: &str) -> Command {
    let help = command.get_after_help().map(|help| help.to_string());
    if let Some(help) = help {
        command = command.after_help(help.replace(PROGRAM, program));
    }
    let below = command.get_subcommands().map(|c| c.get_name().to_owned());
    for name in below.collect::<Vec<_>>() {
        command = command.mut_subcommand(name, |below| named(below, program));
    }
    command
}

/// A decimal number, commas only between groups of three digits; or 0x..
pub fn number(word: &str) -> Result<u64, String> {
    let digits = |text: &str, radix| match text.starts_with('+') {
        true => None,
        false => u64::from_str_radix(text, radix).ok(),
    };
    let hex = word.strip_prefix("0x").or(word.strip_prefix("0X"));
    let number = match (hex, word.split_once(',')) {
        (Some(text), _) => digits(text, 16),
        (None, None) => digits(word, 10),
        (None, Some((first, rest))) => {
            let thousands = rest.split(',').all(|group| group.len() == 3);
            match thousands && (1..=3).contains(&first.len()) {
                true => digits(&word.replace(',', ""), 10),
                false => None,
            }
        }
    };
    number.ok_or_else(|| {
        "it is not a number from 0 to 2^64 - 1, decimal (commas between groups of three) or 0x..".into()
    })
}

/// A size in bytes of an address or a length; whether it is one that there is, the library says.
fn size(word: &str) -> Result<u8, String> {
    u8::try_from(number(word)?).map_err(|_| "it is not 2, 4 or 8".into())
}

#[cfg(test)]
mod tests {
    use super::*;

    fn parsed(words: &[&str]) -> Result<Arguments, clap::Error> {
        Arguments::of(["poilures"].iter().chain(words).map(OsString::from))
    }

    #[test]
    fn the_definitions_are_sound() {
        Arguments::command().debug_assert();
    }

    #[test]
    fn numbers() {
        for (word, due) in [
            ("0", 0),
            ("5120", 5120),
            ("5,120", 5120),
            ("1,048,576", 1 << 20),
            ("0x2f8", 0x2f8),
            ("0XFF", 255),
            ("18,446,744,073,709,551,615", u64::MAX),
            ("0xffffffffffffffff", u64::MAX),
        ] {
            assert_eq!(number(word), Ok(due), "{word}");
        }
    }

    #[test]
    fn what_is_no_number() {
        for word in [
            "",
            "1,5",
            ",500",
            "500,",
            "1,,000",
            "1234,567",
            "1,0000",
            "12,34,567",
            "+5",
            "-5",
            "0x",
            "0x+5",
            "0x1,000",
            "1_000",
            "x",
            "5 ",
            "1,+23",
            "18446744073709551616",
            "0x10000000000000000",
            "٣",
        ] {
            assert!(number(word).is_err(), "{word}");
        }
    }

    #[test]
    fn sizes_are_bytes() {
        assert_eq!(size("8"), Ok(8));
        assert_eq!(size("255"), Ok(255));
        assert!(size("256").is_err());
    }

    #[test]
    fn options_that_need_others_are_refused_without() {
        assert!(parsed(&["write", "--ascii"]).is_err());
        assert!(parsed(&["write", "--force"]).is_err());
        assert!(parsed(&["write", "--map", "--json"]).is_err());
        assert!(parsed(&["write", "--files0-from", "x", "y"]).is_err());
        assert!(parsed(&["write", "--index", "x"]).is_err());
        assert!(parsed(&["write", "--index", "x", "--out", "y"]).is_ok());
        assert!(parsed(&["deposit", "f", "--add", "--track-order"]).is_err());
        assert!(parsed(&["get", "f"]).is_err());
        assert!(parsed(&["get", "f", "n"]).is_ok());
        assert!(parsed(&["get", "f", "n", "--id", "00"]).is_err());
        assert!(parsed(&["get", "f", "--id", "00"]).is_ok());
        assert!(parsed(&["get", "f", "--all"]).is_err());
        assert!(parsed(&["get", "f", "--all", "--out", "x"]).is_err());
        assert!(parsed(&["get", "f", "--all", "--out-dir", "x"]).is_ok());
        assert!(parsed(&["get", "f", "n", "--all", "--out-dir", "x"]).is_err());
        assert!(parsed(&["get", "f", "n", "--force"]).is_err());
        assert!(parsed(&["get", "f", "n", "-o", "x", "--out-dir", "y"]).is_err());
        assert!(parsed(&["read", "f", "0"]).is_err());
        assert!(parsed(&["read", "f", "0", "--ids-from", "x"]).is_ok());
        assert!(parsed(&["read", "f", "0", "00", "--ids-from", "x"]).is_err());
        assert!(parsed(&["read", "f", "0", "00", "--json", "--hex"]).is_err());
        assert!(parsed(&["read", "f", "0", "00", "--unchecked"]).is_ok());
        let both = [
            "read",
            "f",
            "0",
            "00",
            "--unchecked",
            "--header-address",
            "5",
        ];
        assert!(parsed(&both).is_err());
        assert!(parsed(&["read", "f", "0", "00", "-o", "x", "--out-dir", "y"]).is_err());
        assert!(parsed(&["read", "f", "0", "00", "--force"]).is_err());
        assert!(parsed(&["header", "f"]).is_ok());
        assert!(parsed(&["header", "f", "--address"]).is_err());
        assert!(parsed(&["header", "f", "0", "--address"]).is_ok());
        assert!(parsed(&["header", "f", "0", "1"]).is_err());
        assert!(parsed(&["header"]).is_err());
        assert!(parsed(&["read", "f", "0", "00", "--force", "-o", "x"]).is_ok());
        assert!(parsed(&["read", "f", "0", "00", "--force", "--out-dir", "x"]).is_ok());
        assert!(parsed(&[]).is_err());
    }

    #[test]
    fn examples_name_the_program_as_it_is_called() {
        for (program, due) in [
            ("./poilures", "\n  ./poilures read"),
            ("a b", "\n  'a b' read"),
        ] {
            let words = [program, "read", "--help"].map(OsString::from);
            let help = Arguments::of(words).err().unwrap().to_string();
            assert!(help.contains(due) && !help.contains(PROGRAM), "{help}");
        }
    }

    #[test]
    fn no_example_is_wide() {
        let helps = [
            EXAMPLES,
            DEPOSIT_MORE,
            GET_MORE,
            LIST_MORE,
            WRITE_MORE,
            READ_MORE,
            HEADER_MORE,
            IDS_MORE,
            LOCATE_MORE,
            SLOTS_MORE,
            EXPLAIN_MORE,
        ];
        let lines = || helps.iter().flat_map(|help| help.lines());
        for line in lines().filter(|line| line.starts_with("  ")) {
            let columns = line.chars().count();
            let most = if line.contains(PROGRAM) { 63 + 7 } else { 80 };
            assert!(columns <= most, "{columns}: {line}");
        }
    }

    #[test]
    fn every_word_is_one_id() {
        let Ok(Arguments {
            subcommand: Subcommands::Read(read),
        }) = parsed(&["read", "f", "0", "00:16", "0020"])
        else {
            panic!("not taken");
        };
        let ids: Vec<&[u8]> = read.ids.iter().map(HeapId::bytes).collect();
        assert_eq!(ids, [&[0, 0x16][..], &[0, 0x20]]);
    }

    #[test]
    fn a_name_may_be_no_text() {
        use std::os::unix::ffi::OsStringExt;
        let words = ["poilures", "write"].map(OsString::from);
        let out = OsString::from_vec(b"--out=\xff\xfe".to_vec());
        let file = OsString::from_vec(b"\xfd".to_vec());
        let words = words.into_iter().chain([out, file]);
        let Ok(Arguments {
            subcommand: Subcommands::Write(write),
        }) = Arguments::of(words)
        else {
            panic!("not taken");
        };
        assert_eq!(write.out, Some(OsString::from_vec(vec![0xff, 0xfe]).into()));
        assert_eq!(write.files, [OsString::from_vec(vec![0xfd])]);
    }
}
