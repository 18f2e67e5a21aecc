"""Lets HDF5's own library and tools judge the files that `poilures deposit` writes.
    deposited_files.py POILURES FOLDER SECONDS
Each file is read whole by h5py and h5dump, every field of it is held to the format by hdf5_format.py, behind
which nothing of ours stands, and h5debug's numbers to those that the program told. Then h5py adds, replaces and
removes attributes, down to none, adds others, and the file must still be sound. What `poilures list` and `get` find is
held to what h5py put in, there and in files that HDF5 alone wrote, and so is which values no checksum covers; a bit of
such a value, an index that is older than its heap, a file laid over a larger one, and a user block of h5jam's are told
as what they are; a folder comes back from `get --all` as h5py left it; and `deposit --add` makes the file that `deposit`
makes of all at once, and takes no file that h5py has open for writing.
Files whose bytes were changed at random, with their checksums made right again, are read for so many seconds, where
the program that does it is built."""

import collections
import ctypes
import json
import os
import random
import re
import shutil
import subprocess
import sys

import h5py
import numpy
from h5py import h5, h5a, h5f, h5o, h5p, h5s, h5t

import h5debug
import hdf5_format as form
from hdf5_format import expect
from hdf5_messages import little
from made_files import WIDTHS, created, is_known
from written_files import Dense, check_spaces, whole_file

U = (1 << 64) - 1
LARGEST = 65514  # bytes of an object
MOST_IN_ORDER = 65534
TOTALS = {  # of the program's words
    "blocks": "block_count",
    "region size": "region_size",
    "root rows": "rows",
    "root's place": "root_place",
    "managed space": "managed_space",
    "allocated space": "allocated_space",
    "free space": "free_space",
    "iterator": "iterator",
}
KINDS = ["none", "direct", "indirect", "nested"]  # of heaps
MOST_NAMES = 1000  # of one run of the program
FUZZ = "target/cargo/release/examples/fuzz_attributes"  # of the Rust crate, where it is built


# Making files


class Deposit:
    """A file that the program wrote: its attributes by name, in their order, and what the program told of them."""

    def __init__(self, program, folder, base, values, text=False, order=False):
        self.name = os.path.join(folder, base + ".h5")
        self.values, self.text, self.order = values, text, order
        inputs = os.path.join(folder, base)
        os.mkdir(inputs)
        names = [os.path.join(inputs, name).encode() for name in values]
        for name, data in zip(names, values.values()):
            with open(name, "wb") as opened:
                opened.write(data)
        words = [program, "deposit", "--files0-from", "-", self.name]
        words += ["--text"] * text + ["--track-order"] * order
        told = self._run(words + ["--json"], names)
        first = whole_file(self.name)
        self.lines = [json.loads(line) for line in told.splitlines()]
        self.totals = self._totals(self._run(words + ["--force"], names))
        self.data = whole_file(self.name)
        expect(self.data == first, "the same files give the same file")
        shutil.rmtree(inputs)

    def _run(self, words, names):
        ended = subprocess.run(words, input=b"".join(name + b"\0" for name in names), capture_output=True)
        expect(ended.returncode == 0 and not ended.stderr, f"{words}: {ended.stderr.decode()}")
        return ended.stdout.decode()

    def _totals(self, told):
        found = re.findall(r"^  ([a-z' ]+?) +([0-9,]+)(?:$|  )", told, re.MULTILINE)
        found = {name: int(number.replace(",", "")) for name, number in found}
        return {field: found[name] for name, field in TOTALS.items() if self.values}

    def is_text(self, data):
        """Whether a value is to be a string."""
        try:
            return self.text and data != b"" and b"\0" not in data and data.decode() is not None
        except UnicodeDecodeError:
            return False

    def message(self, name, data):
        """The attribute message that a value must have, by the format."""
        if self.is_text(data):
            kind = b"\x13\x11\0\0" + little(len(data), 4)
            space = b"\2\0\0\0"
        else:
            kind = b"\x10\0\0\0" + little(1, 4) + little(0, 2) + little(8, 2)
            space = b"\2\1\0\1" + little(len(data), 8)
        head = bytes([3, 0]) + b"".join(little(size, 2) for size in (len(name) + 1, len(kind), len(space)))
        return head + b"\1" + name + b"\0" + kind + space + data


def some_names(draw, count):
    """Names that differ, some of them long, some not ASCII."""
    kinds = ["note {}", "größe {}", "{}", "a {}" + " long" * 40, "日 {}"]
    return [draw.choice(kinds).format(i) for i in range(count)]


def some_values(draw, count, sizes):
    return {name: draw.randbytes(draw.choice(sizes)) for name in some_names(draw, count)}


# Holding a file to the format


def check_superblock(data):
    """II.A, version 2."""
    body = b"\x89HDF\r\n\x1a\n" + bytes([2, 8, 8, 0]) + b"".join(little(n, 8) for n in (0, U, len(data), 48))
    expect(data[:48] == body + little(form.lookup3(body), 4), "superblock")


def check_root_group(deposit, heap, index):
    """IV.A.1.b with IV.A.2.c, k and v; returns where it ends."""
    count = len(deposit.values)
    order, number = (b"\0\0", little(count, 2)) if deposit.order else (b"", b"")
    body = b""
    for kind, data in [
        (0x02, b"\0\0" + little(U, 8) * 2),
        (0x0A, b"\0\0"),
        (0x15, bytes([0, deposit.order]) + number + little(heap, 8) + little(index, 8)),
    ]:
        body += bytes([kind]) + little(len(data), 2) + b"\0" + order + data
    header = b"OHDR\2" + bytes([6 if deposit.order else 2]) + little(len(body), 4) + body
    end = 48 + len(header) + 4
    expect(deposit.data[48:end] == header + little(form.lookup3(header), 4), "object header of the root group")
    return end


def check_heap(deposit, dense):
    """III.G: every field of the header, every byte of the blocks that is no object's."""
    heap, data, totals = dense.heap, deposit.data, deposit.totals
    due = dict(id_length=8, filter_length=0, flags=2, largest_object=LARGEST, next_huge=0, huge_tree=U)
    due.update(space_manager=U, managed_count=len(deposit.values), huge_size=0, huge_count=0)
    due.update(tiny_size=0, tiny_count=0, width=4, start=1024, largest_direct=65536, bits=40, start_rows=1)
    region = heap.address + form.header_length(heap.image)
    due.update({name: totals[name] for name in totals if name in heap.fields})
    due["root"] = region + totals["root_place"]
    for name, number in due.items():
        expect(getattr(heap, name) == number, f"{name}: {getattr(heap, name)}, not {number}")
    check_spaces(dense)
    expect(len(heap.blocks) == totals["block_count"], "number of blocks")
    filled = collections.defaultdict(int)
    for heap_id in dense.places:
        offset, length = heap.decode(heap_id)
        filled[heap.block(offset)[2]] += length
    for _, size, at, _ in heap.blocks:
        stands = data[at + 18 : at + 22]
        zeroed = data[at : at + 18] + bytes(4) + data[at + 22 : at + size]
        expect(stands == little(form.lookup3(zeroed), 4), f"checksum of the block at {at}")
        expect(not any(zeroed[22 + filled[at] :]), f"room behind the objects of the block at {at}")
    for at, _, rows, _ in heap.indirects:
        end = at + heap.indirect_size(rows)
        expect(data[end - 4 : end] == little(form.lookup3(data[at : end - 4]), 4), f"checksum of the block at {at}")
    return region


def check_index(deposit, dense):
    """III.A.2: header, nodes, and the records in their order."""
    tree, data = dense.trees[0], deposit.data
    found = tree.kind, tree.node_size, tree.record_size, tree.split, tree.merge
    expect(found == (8, 512, 17, 100, 40), f"index: {found}")
    depth = next(i for i, most in enumerate([29, 569, 10259, 184679]) if len(deposit.values) <= most)
    expect(tree.depth == depth, f"a depth of {tree.depth}")
    starts = [tree.header_span] + tree.nodes
    for start, end in starts:
        expect(data[end : end + 4] == little(form.lookup3(data[start:end]), 4), f"checksum of the node at {start}")
    for start, end in tree.nodes:
        expect(not any(data[end + 4 : start + 512]), f"room behind the node at {start}")
    numbers = {line["id"].replace(":", ""): line["object"] for line in deposit.lines}
    keys = []
    for record in tree.records:
        name = dense.name_of(record[:8])
        number = numbers[record[:8].hex().upper()] if deposit.order else 65535
        keys.append((form.lookup3(name), name))
        due = record[:8] + b"\0" + little(number, 4) + little(keys[-1][0], 4)
        expect(record == due, f"record of {name}")
    expect(keys == sorted(keys), "order of the records")


def check_spans(deposit, dense, root_end, region):
    """Every byte of the file is in one part of it."""
    heap, tree = dense.heap, dense.trees[0]
    spans = [(48, root_end), (root_end, region)]
    spans += [(at, at + size) for _, size, at, _ in heap.blocks]
    spans += [(at, at + heap.indirect_size(rows)) for at, _, rows, _ in heap.indirects]
    spans += [(tree.header_span[0], tree.header_span[1] + 4)] + [(at, at + 512) for at, _ in tree.nodes]
    end = 48
    for start, stop in sorted(spans):
        expect(start == end, f"a part at {start}, not at {end}")
        end = stop
    expect(end == len(deposit.data), "end of the file")


def check_format(deposit):
    """Every field of a file; returns its heap and its index, if it has attributes."""
    check_superblock(deposit.data)
    image = form.Image(deposit.data)
    expect(image.root == 48, "address of the root group")
    parts = form.dense_storage(image, image.root, form.ATTRIBUTE_INFO)
    if parts is None:
        expect(not deposit.values, "no dense storage")
        expect(check_root_group(deposit, U, U) == len(deposit.data), "end of a file without attributes")
        return None
    heap, (index,) = parts
    root_end = check_root_group(deposit, heap, index)
    expect(heap == root_end, "address of the heap")
    dense = Dense(image, "/", image.root)
    region = check_heap(deposit, dense)
    check_index(deposit, dense)
    check_spans(deposit, dense, root_end, region)
    by_name = {dense.name_of(heap_id): (heap_id, data) for heap_id, data in dense.objects.items()}
    expect(len(by_name) == len(deposit.values) == len(deposit.lines), "number of attributes")
    for line, (name, data) in zip(deposit.lines, deposit.values.items()):
        heap_id, message = by_name[name.encode()]
        expect(message == deposit.message(name.encode(), data), f"message of {name}")
        told = line["name"], line["length"], line["size"], bytes.fromhex(line["id"].replace(":", ""))
        expect(told == (name, len(data), len(message), heap_id), f"what is told of {name}: {line}")
        expect(dense.heap.decode(heap_id)[0] == line["offset"], f"heap offset of {name}")
    return dense


# What HDF5 reads


def bytes_of(attribute):
    """The bytes of an attribute, as they lie in the file; of a str of variable length those of its text."""
    kind, space = attribute.get_type(), attribute.get_space()
    if isinstance(kind, h5t.TypeStringID) and kind.is_variable_str():
        read = numpy.empty((), attribute.dtype)
        attribute.read(read)
        return read[()] if isinstance(read[()], bytes) else read[()].encode()
    expect(kind.get_class() in (h5t.INTEGER, h5t.STRING), "another type")
    if space.get_simple_extent_type() == h5s.NULL:
        return b""
    if kind.get_class() == h5t.STRING:
        read = numpy.empty((), f"S{kind.get_size()}")
        attribute.read(read, mtype=kind)
        return read.tobytes()
    read = numpy.empty(attribute.shape, attribute.dtype)
    attribute.read(read, mtype=kind)
    return read.tobytes()


def h5py_reads(file, index_type=h5.INDEX_NAME):
    """All attributes of a file, by its index, and each once more by its name."""
    root = file["/"].id
    numbers = range(h5a.get_num_attrs(root))
    found = (h5a.open(root, index=i, index_type=index_type, order=h5.ITER_INC) for i in numbers)
    return {attribute.name: bytes_of(attribute) for attribute in found}


def check_h5py(name, due, order=False):
    """h5py reads every byte of every attribute, by its name, and all that there are."""
    with h5py.File(name, "r") as file:
        root = file["/"].id
        for key, data in due.items():
            expect(bytes_of(h5a.open(root, key.encode())) == data, f"attribute {key}")
        names = []
        h5a.iterate(root, names.append, index_type=h5.INDEX_CRT_ORDER if order else h5.INDEX_NAME)
        names = [key.decode() for key in names]
        expect(names == list(due) if order else sorted(names) == sorted(due), "names of the attributes")


NUMBERS = re.compile(rb"\d+")
STRING = re.compile(rb'"((?:[^"\\]|\\.)*)"')
# A byte above 127 is printed as if it were negative, in eleven digits.
ESCAPED = re.compile(rb"\\(37777777[67][0-7]{2}|[0-7]{3}|.)")
ESCAPES = dict(zip(b'ntrbf"\\', b'\n\t\r\b\f"\\'))


def unescaped(printed):
    """The bytes of a string that h5dump printed."""

    def byte(found):
        word = found[1]
        return bytes([int(word, 8) & 255 if word.isdigit() else ESCAPES[word[0]]])

    return ESCAPED.sub(byte, printed)


def check_h5dump(deposit):
    """h5dump prints every byte of every attribute."""
    words = ["h5dump", "-e", "-y", "-w", "0", os.path.basename(deposit.name)]
    run = subprocess.run(words, cwd=os.path.dirname(deposit.name), capture_output=True)
    expect(run.returncode == 0, f"h5dump: {run.stderr}")
    parts = run.stdout.split(b'\n   ATTRIBUTE "')[1:]
    expect(len(parts) == len(deposit.values), f"h5dump prints {len(parts)} attributes")
    for part in parts:
        name, _, rest = part.partition(b'" {')
        data = deposit.values[name.decode()]
        if deposit.is_text(data):
            expect(b"STRSIZE %d;" % len(data) in rest and b"H5T_STR_NULLPAD" in rest, f"string {name}")
            expect(b"CSET H5T_CSET_UTF8" in rest and b"DATASPACE  SCALAR" in rest, f"string {name}")
            printed = STRING.search(rest.partition(b"DATA {")[2])
            expect(printed and unescaped(printed[1]) == data, f"h5dump of {name}")
            continue
        space = b"DATASPACE  SIMPLE { ( %d ) / ( %d ) }" % (len(data), len(data))
        expect(b"DATATYPE  H5T_STD_U8LE" in rest and space in rest, f"type of {name}")
        values = rest.partition(b"DATA {")[2].partition(b"}")[0]
        expect(bytes(map(int, NUMBERS.findall(values))) == data, f"h5dump of {name}")


def check_debug(deposit, dense, draw):
    """h5debug tells the numbers of the heap and of the index as we wrote them; returns how many places it told of."""
    heap, tree = dense.heap, dense.trees[0]
    name = deposit.name
    h5debug.check_header(name, heap)
    text = h5debug.told(name, heap.address)
    fields = {
        "Managed space data block size": deposit.totals["managed_space"],
        "Total managed space allocated": deposit.totals["allocated_space"],
        "Free space in managed blocks": deposit.totals["free_space"],
        "Offset of managed space iterator": deposit.totals["iterator"],
        "Number of managed objects in heap": len(deposit.values),
        "Current # of rows in root indirect block": deposit.totals["rows"],
    }
    h5debug.hold(text, fields)
    directs = {heap.blocks[0], heap.blocks[-1], draw.choice(heap.blocks)}
    for at, offset, rows, _ in heap.indirects:
        h5debug.check_indirect(name, heap, at, offset, rows)
    for offset, size, at, _ in directs:
        h5debug.check_direct(name, heap, at, offset, size)
    at = tree.header_span[0]
    text = h5debug.told(name, at)
    fields = {
        "Size of node": 512,
        "Size of raw (disk) record": 17,
        "Number of records in tree": len(deposit.values),
        "Depth": tree.depth,
    }
    h5debug.hold(text, fields)
    expect(re.search(r"Split/Merge percent: +100%/40%", text) or "100" in text, "percentages")
    return 2 + len(heap.indirects) + len(directs)


# What our reader reads


class Other(bytes):
    """A value of another type than numbers and strings, or of a type that is shared, so that no bytes are to be given."""


def run(words, status=0):
    """Runs the program; what it prints, and what it says on standard error."""
    ended = subprocess.run(words, capture_output=True)
    told = ended.stderr.decode(errors="replace")
    expect(ended.returncode == status, f"{words[:6]} ends with {ended.returncode}: {told[:400]}")
    expect("panicked" not in told, told)
    return ended.stdout, told


def listed(program, name):
    lines, _ = run([program, "list", "--json", name])
    return [json.loads(line) for line in lines.splitlines()]


def check_all(program, name, due):
    """All into a folder: the bytes of each, and of those that are not read why not."""
    folder = name + ".all"
    others = {key for key, data in due.items() if isinstance(data, Other)}
    _, told = run([program, "get", "--all", "--out-dir", folder, name], 1 if others else 0)
    expect(all(f"{key}: its bytes are not read: " in told for key in others), f"what is said of {others}: {told}")
    given = {file: whole_file(os.path.join(folder, file)) for file in os.listdir(folder)}
    expect(given == {key: data for key, data in due.items() if key not in others}, f"all of {name}")
    shutil.rmtree(folder)


NO_CHECKSUM = "no checksum covers every byte of"


def covered_by_format(name, lines):
    """Of each attribute whether checksums cover every byte of its value, by the format: none covers an object header of
    version 1, a huge object, as which bit 4 of an ID's first byte marks it, nor the global heap, in which each text of
    variable length lies that has bytes."""
    data, covered = whole_file(name), {}
    with h5py.File(name, "r") as file:
        root = file["/"].id
        at = file.userblock_size + h5o.get_info(root).addr
        expect(data[at : at + 4] == b"OHDR" or data[at : at + 1] == b"\1", f"an object header at {at}")
        for line in lines:
            if line["length"] is None:
                covered[line["name"]] = None
                continue
            kind = h5a.open(root, line["name"].encode()).get_type()
            is_elsewhere = isinstance(kind, h5t.TypeStringID) and kind.is_variable_str() and line["length"] > 0
            is_huge = line["id"] is not None and int(line["id"][:2], 16) >> 4 & 3 == 1
            covered[line["name"]] = data[at : at + 4] == b"OHDR" and not is_huge and not is_elsewhere
    return covered


def check_covered(program, name, lines, draw, counts):
    """`list --json` tells which values no checksum covers, `get` in one line, and both refuse them where that is asked."""
    covered = covered_by_format(name, lines)
    expect({line["name"]: line["checked"] for line in lines} == covered, f"which values of {name} are covered: {covered}")
    printed, _ = run([program, "list", name])
    marked = [row for row in printed.decode().splitlines() if re.match(r" *[0-9,]+\*", row)]
    bare = [key for key in covered if covered[key] is False]
    expect(len(marked) == len(bare) and printed.count(b"\n* no checksum covers") == (bare != []), printed)
    run([program, "list", "--require-checksums", name], 1 if bare else 0)
    for key in draw.sample(bare, min(len(bare), 2)):
        _, told = run([program, "get", name, "--", key])
        expect(told.startswith(f"{name}: {NO_CHECKSUM} {key} (") and told.count("\n") == 1, told)
        given, told = run([program, "get", "--require-checksums", name, "--", key], 1)
        expect(given == b"" and f"{NO_CHECKSUM} {key} (" in told, told)
    sound = [key for key in covered if covered[key]]
    for key in draw.sample(sound, min(len(sound), 2)):
        _, told = run([program, "get", "--require-checksums", name, "--", key])
        expect(told == "", told)
    counts["covered"] += len(sound)
    counts["not covered"] += len(bare)


def check_reader(program, name, due, draw, counts, order=False):
    """Our reader gives every byte of every attribute, or says why not."""
    lines = listed(program, name)
    names = [line["name"] for line in lines]
    expect(len(set(names)) == len(names) == len(due), f"{len(names)} of {len(due)} attributes of {name}")
    expect(not order or names == list(due), f"order of the attributes of {name}")
    for line in lines:
        data = due[line["name"]]
        if isinstance(data, Other):
            expect(line["length"] is None and "its bytes are not read" in line["why"], f"{line}")
        else:
            expect(line["length"] == len(data) and "why" not in line, f"{line}: {len(data)}")
    read = [key for key in names if not isinstance(due[key], Other)]
    draw.shuffle(read)
    for i in range(0, len(read), MOST_NAMES):
        part = read[i : i + MOST_NAMES]
        given, _ = run([program, "get", name, "--", *part])
        expect(given == b"".join(due[key] for key in part), f"attributes of {name} by name")
    for line in draw.sample(lines, min(len(lines), 2)):
        if line["id"] and "why" not in line:
            given, _ = run([program, "get", "--id", line["id"], name])
            expect(given == due[line["name"]], f"attribute of {name} by its ID")
    for key in [key for key in names if isinstance(due[key], Other)][:3]:
        given, told = run([program, "get", name, "--", key], 1)
        expect(given == b"" and "its bytes are not read" in told, f"{key}: {told}")
    _, told = run([program, "get", name, "no such name"], 1)
    expect("the root group has no attribute of the name no such name" in told, told)
    if len(due) <= 60:
        check_all(program, name, due)
        check_covered(program, name, lines, draw, counts)
    counts["read"] += len(read)
    counts["not read"] += len(names) - len(read)
    counts["huge"] += sum(1 for line in lines if line["id"] and line["id"].startswith("10"))


def own_value(draw, file, most):
    """A value for a file that HDF5 alone writes, and its bytes."""
    kind = draw.choice(["<u1", "<i4", ">i4", "<f8", ">f4", "S", "str", "square", "scalar", "other"])
    if kind == "other":
        kind = draw.choice(["compound", "shared", "strs", "bool"])
    size = draw.randrange(1, most)
    data = draw.randbytes(size // 8 * 8 + 8)
    if kind == "S":
        return numpy.bytes_(data.hex().encode()), data.hex().encode()
    if kind == "str":
        text = draw.choice(["größe " * 9, "", "a"])
        return text, text.encode()
    if kind == "compound":
        return numpy.zeros(3, [("a", "<i4"), ("b", "<f8")]), Other()
    if kind == "strs":
        return ["a", "größe"], Other()
    if kind == "bool":
        return True, Other()
    if kind == "shared":
        return h5py.Empty(file["a type"].dtype), Other(b"shared")
    if kind == "square":
        value = numpy.frombuffer(data, "<u2").reshape(2, -1)
    elif kind == "scalar":
        value = numpy.int16(draw.randrange(30000))
    else:
        value = numpy.frombuffer(data, kind)
    return value, value.tobytes()


def own_files(name):
    """Ways in which HDF5 makes a file: as the call that opens it, and the most attributes that it takes."""
    for libver in ("earliest", "v108", "latest"):  # superblocks 0, 2 and 3; object headers 1 and 2
        for order in (False, True):
            for block in (0, 512):
                words = dict(libver=(libver, "latest"), track_order=order, userblock_size=block)
                yield order, 300, lambda words=words: h5py.File(name, "w", **words)
    sizes = h5p.create(h5p.FILE_CREATE)
    set_k = ctypes.CDLL(h5p.__file__).H5Pset_istore_k  # h5py has none
    expect(set_k(ctypes.c_int64(sizes.id), 64) >= 0, "a K of 64")  # superblock 1
    yield False, 300, lambda: h5py.File(h5f.create(name.encode(), h5f.ACC_TRUNC, sizes))
    for widths in WIDTHS:
        yield False, 9 if widths[0] == 2 else 300, lambda widths=widths: created(name, *widths)


def check_own(program, folder, draw, counts):
    """Files that HDF5 alone wrote: all superblocks, object headers 1 and 2 with continuations, user blocks, widths,
    attributes in the object header and in dense storage, order tracked and indexed."""
    name, versions = os.path.join(folder, "own.h5"), set()
    for order, most, opened in own_files(name):
        for count in [count for count in (0, 1, 7, 8, 9, 40, 300) if count <= most]:
            due = {}
            with opened() as file:
                file["a type"] = numpy.dtype("<i4")
                for i in range(count):
                    key = draw.choice(["note {}", "größe {}"]).format(i)
                    value, data = own_value(draw, file, 3000 if most == 300 else 60)
                    if data == b"shared":
                        file.attrs.create(key, 7, dtype=file["a type"])
                    else:
                        file.attrs.create(key, value)
                    due[key] = data
                for key in draw.sample(list(due), count // 4):
                    del file.attrs[key], due[key]
            data = whole_file(name)
            versions.add(data[data.index(b"\x89HDF\r\n") + 8])
            check_reader(program, name, due, draw, counts, order)
            counts["own files"] += 1
    expect(versions == {0, 1, 2, 3}, f"superblocks: {versions}")
    os.remove(name)


# HDF5 goes on with a file


def some_value(draw, large):
    """A value of h5py's, and the bytes that it gives back."""
    kind = draw.choice(["bytes", "bytes", "string", "str", "none"] + ["large"] * large)
    if kind == "str":
        text = "größe " * draw.randrange(50)
        return text, text.encode()
    if kind == "none":
        return numpy.empty(0, "u1"), b""
    size = draw.choice([4097, 10000, 65514, 70000]) if kind == "large" else draw.randrange(1, 3000)
    data = draw.randbytes(size)
    if kind == "string":
        data = data.hex().encode()
        return numpy.bytes_(data), data
    return numpy.frombuffer(data, "u1"), data


def check_going_on(program, deposit, draw, counts):
    """h5py removes, replaces and adds, then removes all, adds a group and attributes again; how often it was read."""
    name, now = deposit.name, dict(deposit.values)
    keys = list(now)

    def put(file, key):
        value, now[key] = some_value(draw, True)
        file.attrs.create(key, value)

    with h5py.File(name, "r+", libver="latest") as file:
        for key in draw.sample(keys, min(len(keys) // 3, 400)):
            del file.attrs[key], now[key]
        for key in draw.sample(list(now), min(len(now) // 3, 400)):
            put(file, key)
        for i in range(40):
            put(file, f"new {i}")
    check_h5py(name, now)
    check_reader(program, name, now, draw, counts)
    with h5py.File(name, "r+") as file:
        few = set(draw.sample(list(now), min(len(now), 7)))
        for key in [key for key in now if key not in few]:
            del file.attrs[key], now[key]
    check_h5py(name, now)  # few enough to lie in the object header, where they are short
    check_reader(program, name, now, draw, counts)
    with h5py.File(name, "r+") as file:
        for key in list(now):
            del file.attrs[key], now[key]
        file.create_group("a group").attrs["of it"] = 7
        file["a set"] = numpy.arange(5)
    check_h5py(name, now)
    check_reader(program, name, now, draw, counts)
    with h5py.File(name, "r+", libver="latest") as file:
        for i in range(60):
            put(file, f"again {i}")
    check_h5py(name, now)
    check_reader(program, name, now, draw, counts)
    with h5py.File(name, "r") as file:
        expect(list(file["a set"]) == [0, 1, 2, 3, 4] and file["a group"].attrs["of it"] == 7, "other objects")
    return 4


# What no checksum covers, and parts of several files


def written(name, data):
    with open(name, "wb") as opened:
        opened.write(data)


def sealed_anew(data, start, end):
    """The bytes with the checksum made right that stands behind some of them."""
    return data[:end] + little(form.lookup3(data[start:end]), 4) + data[end + 4 :]


def check_bit(program, name, key, value, words):
    """One bit of a value is changed: h5py reads other bytes, and so does `get`, which says that no checksum covers them,
    and refuses them where one has to."""
    data = whole_file(name)
    place = data.index(value)
    changed = bytes([value[0] ^ 1]) + value[1:]
    written(name, data[:place] + changed + data[place + len(value) :])
    with h5py.File(name, "r") as file:
        expect(bytes_of(h5a.open(file["/"].id, key.encode())) == changed, f"{key} by h5py")
    given, told = run([program, "get", name, key])
    expect(given == changed and told == f"{name}: {NO_CHECKSUM} {key} ({words})\n", f"{key}: {told}")
    line = next(line for line in listed(program, name) if line["name"] == key)
    expect(line["checked"] is False, f"{line}")
    run([program, "list", "--require-checksums", name], 1)
    given, told = run([program, "get", "--require-checksums", name, key], 1)
    expect(given == b"" and f"{NO_CHECKSUM} {key} ({words})" in told, told)
    folder = name + ".all"
    _, told = run([program, "get", "--all", "--require-checksums", "--out-dir", folder, name], 1)
    expect(f"  {key}: {NO_CHECKSUM} it ({words})" in told and key not in os.listdir(folder), told)
    shutil.rmtree(folder)
    written(name, data)


def check_bare(program, folder, tools):
    """A value without a checksum: in a file as h5py writes it, and as h5repack does, in an object header of version 1; of
    variable length; a huge object; in a heap whose flags say that its blocks have no checksums."""
    name, other = os.path.join(folder, "bare.h5"), os.path.join(folder, "other.h5")
    value, old = b"gauge 7 was replaced at noon", "in an object header of version 1"
    with h5py.File(name, "w") as file:
        file.attrs["a note"] = numpy.bytes_(value)
    check_bit(program, name, "a note", value, old)
    if tools:
        files = put(os.path.join(folder, "bare"), {"a note": value})
        run([program, "deposit", other, *files])
        run(["h5repack", other, name])
        check_bit(program, name, "a note", value, old)
        shutil.rmtree(os.path.join(folder, "bare"))
    large = bytes(i % 251 for i in range(5000))
    with h5py.File(name, "w", libver="latest") as file:
        for i in range(9):
            file.attrs[f"note {i}"] = i
        file.attrs["a text"] = value.decode()
        file.attrs.create("large", numpy.frombuffer(large, "u1"))
    lines = {line["name"]: line["checked"] for line in listed(program, name)}
    bare = {"a text", "large"}
    expect(lines == {key: key not in bare for key in lines} and bare < set(lines), f"{lines}")
    check_bit(program, name, "a text", value, "in the global heap, as a text of variable length")
    check_bit(program, name, "large", large, "outside of the heap's blocks, as a huge object")
    with h5py.File(name, "w", libver="latest") as file:
        for i in range(9):
            file.attrs[f"note {i}"] = numpy.bytes_(value + b" %d" % i)
    data = whole_file(name)
    heap = Dense(form.Image(data), "/", form.Image(data).root).heap
    place, width = heap.fields["flags"]
    expect(heap.has_sums() and width == 1, "a heap with checksums")
    data = data[:place] + b"\0" + data[place + 1 :]
    written(name, sealed_anew(data, heap.address, heap.address + heap.length - 4))
    check_bit(program, name, "note 3", value + b" 3", "in a heap whose blocks have no checksums")
    os.remove(name)
    if tools:
        os.remove(other)


def check_told(program, name, names, words):
    """`list` and `get --all` find what h5py finds, say this, and end with 1; `get` of one does as always."""
    with h5py.File(name, "r") as file:
        expect(sorted(file.attrs) == sorted(names), f"what h5py finds in {name}")
    lines, told = run([program, "list", "--json", name], 1)
    found = [json.loads(line)["name"] for line in lines.splitlines()]
    expect(sorted(found) == sorted(names) and told == f"poilures: {name}: {words}\n", f"{found}: {told}")
    _, told = run([program, "list", name], 1)
    expect(told == f"poilures: {name}: {words}\n", told)
    folder = name + ".all"
    _, told = run([program, "get", "--all", "--out-dir", folder, name], 1)
    expect(sorted(os.listdir(folder)) == sorted(names) and told == f"poilures: {name}: {words}\n", told)
    shutil.rmtree(folder)
    for key in names[:1]:
        _, told = run([program, "get", name, "--", key])
        expect(told == "", told)


def notes(count):
    return {f"note {i}": numpy.bytes_(b"note %d" % i) for i in range(count)}


def parts_of(data):
    """The bytes of a file's index as (start, end), its header and its nodes; and where its header's checksum begins."""
    dense = Dense(form.Image(data), "/", form.Image(data).root)
    tree = dense.trees[0]
    start, end = tree.header_span
    return [(start, end + 4)] + [(at, at + tree.node_size) for at, _ in tree.nodes], end


def check_parts(program, folder):
    """Parts of several files in one, with every checksum right, as a copy that ended early or a disk that lost a write
    leaves them: an index that is older than its heap, one without records, a smaller file over the start of a larger one."""
    name = os.path.join(folder, "parts.h5")
    makers = []
    for order in (False, True):
        with h5py.File(name, "w", libver="latest", track_order=order) as file:
            file.attrs.update(notes(12))
        twelve = whole_file(name)
        with h5py.File(name, "r+", libver="latest") as file:
            file.attrs.update(dict(list(notes(14).items())[12:]))
        makers.append((twelve, whole_file(name)))
    files = put(os.path.join(folder, "parts"), {key: bytes(value) for key, value in notes(14).items()})
    deposits = []
    for count in (12, 14):
        run([program, "deposit", "--force", name, *files[:count]])
        deposits.append(whole_file(name))
    makers.append(tuple(deposits))
    shutil.rmtree(os.path.join(folder, "parts"))
    for twelve, fourteen in makers:
        spans, header_end = parts_of(fourteen)
        expect(spans == parts_of(twelve)[0], "an index at the same place")
        older = bytearray(fourteen)
        for start, end in spans:
            older[start:end] = twelve[start:end]
        written(name, older)
        check_told(
            program, name, list(notes(12)), "the index leads to 12 managed objects, and the heap's header counts 14"
        )
        start = spans[0][0]
        none = fourteen[: start + 16] + little(U, 8) + little(0, 2) + little(0, 8) + fourteen[header_end:]
        written(name, sealed_anew(none, start, header_end))
        check_told(program, name, [], "the index leads to 0 managed objects, and the heap's header counts 14")
        small, large = twelve, fourteen + bytes(70000)
        written(name, small + large[len(small) :])
        more = f"behind the end that its superblock tells are {len(large) - len(small):,} more bytes, which are not read"
        check_told(program, name, list(notes(12)), more)
    os.remove(name)


def check_user_blocks(program, folder):
    """A user block that h5jam put before a file as it was: h5py reads the file, h5unjam gives it back, and `get` and `list`
    read it where the block is named."""
    names = [os.path.join(folder, name) for name in ("plain.h5", "block", "jammed.h5", "unjammed.h5")]
    plain, block, jammed, unjammed = names
    values = {key: bytes(value) for key, value in notes(20).items()}
    files = put(os.path.join(folder, "jam"), values)
    for size in (7, 512, 513, 5000):
        run([program, "deposit", "--force", plain, *files])
        written(block, b"U" * size)
        run(["h5jam", "-u", block, "-i", plain, "-o", jammed])
        with h5py.File(jammed, "r") as file:
            place = file.userblock_size
            found = {key: bytes_of(h5a.open(file["/"].id, key.encode())) for key in file.attrs}
        expect(place >= size and found == values, f"what h5py reads behind a block of {size}")
        run(["h5unjam", "-i", jammed, "-o", unjammed])
        expect(listed(program, unjammed) == listed(program, plain), "what h5unjam leaves")
        for words in (["list"], ["get", "--all", "--out-dir", jammed + ".all"]):
            _, told = run([program, *words, jammed], 1)
            expect("its base address is not its place" in told and "h5unjam takes it off" in told, told)
            expect(told.endswith(f" with --user-block {place}\n"), told)
        lines, _ = run([program, "list", "--json", "--user-block", f"{place}", jammed])
        due = listed(program, plain)
        expect([json.loads(line) for line in lines.splitlines()] == due, f"a list behind {place}")
        key = list(values)[3]
        expect(run([program, "get", "--user-block", f"{place}", jammed, key])[0] == values[key], f"behind {place}")
        for wrong in (0, place // 2, 2 * place, place + 1):
            given, told = run([program, "get", "--user-block", f"{wrong}", jammed, key], 1)
            expect(given == b"" and f": one is found at {place:,}\n" in told, told)
        os.remove(unjammed)
    with h5py.File(plain, "w", userblock_size=1024, libver="latest") as file:
        file.attrs.update(notes(20))
    for words in ([], ["--user-block", "1024"]):
        lines, told = run([program, "list", "--json", *words, plain])
        expect(len(lines.splitlines()) == 20 and told == "", f"a user block that HDF5 made: {told}")
    shutil.rmtree(os.path.join(folder, "jam"))
    for name in (plain, block, jammed):
        os.remove(name)


# Folders, and files that are added


def put(folder, values):
    os.mkdir(folder)
    for name, data in values.items():
        with open(os.path.join(folder, name), "wb") as opened:
            opened.write(data)
    return [os.path.join(folder, name) for name in values]


def check_folder(program, folder, draw):
    """A folder that is deposited comes back byte for byte, also when h5py has rewritten half of it."""
    values = some_values(draw, 200, [0, 1, 60, 900, 3900, 20000])
    name = os.path.join(folder, "folder.h5")
    files = put(os.path.join(folder, "folder"), values)
    run([program, "deposit", name, *files])
    check_all(program, name, values)
    with h5py.File(name, "r+", libver="latest") as file:
        for key in draw.sample(list(values), 100):
            value, values[key] = some_value(draw, True)
            file.attrs.create(key, value)
    check_all(program, name, values)
    shutil.rmtree(os.path.join(folder, "folder"))
    os.remove(name)


def check_added(program, folder, draw, order, text):
    """Files that are added one run after the other make the file that all of them make, and every ID stays."""
    values = some_values(draw, 120, [0, 1, 20, 977, 978, 4000, 65000])
    options = ["--track-order"] * order + ["--text"] * text
    files = put(os.path.join(folder, "added"), values)
    all_of, name = os.path.join(folder, "all.h5"), os.path.join(folder, "parts.h5")
    run([program, "deposit", *options, all_of, *files])
    run([program, "deposit", *options, name])
    ids, at = [], 0
    while at < len(files):
        count = draw.choice([0, 1, 2, 7, 40])
        printed, _ = run([program, "deposit", "-q", "--add", *["--text"] * text, name, *files[at : at + count]])
        ids += printed.decode().split()
        at += count
    expect(whole_file(name) == whole_file(all_of), "files that are added one after the other")
    expect([line["id"] for line in listed(program, name)] == ids, "IDs of files that were added")
    check_changed(program, name, values, files, draw)
    shutil.rmtree(os.path.join(folder, "added"))
    os.remove(name)
    os.remove(all_of)


def check_changed(program, name, values, files, draw):
    """Where HDF5 has changed the file, IDs that change are told, and need --force; h5py reads what comes of it."""
    late = os.path.join(os.path.dirname(files[0]), "late")
    shutil.copy(files[0], late)
    before = {line["name"]: line["id"] for line in listed(program, name)}
    with h5py.File(name, "r+", libver="latest") as file:
        for key in draw.sample(list(values), 30):
            data = draw.randbytes(draw.randrange(3000))
            file.attrs.create(key, numpy.frombuffer(data, "u1"))
            values[key] = data
        for key in draw.sample(list(values), 10):
            del file.attrs[key], values[key]
    now = {line["name"]: line["id"] for line in listed(program, name)}
    changed = whole_file(name)
    _, told = run([program, "deposit", "--add", name, late], 1)
    expect(whole_file(name) == changed, "a refused addition changes nothing")
    _, forced = run([program, "deposit", "--add", "--force", name, late])
    after = {line["name"]: line["id"] for line in listed(program, name)}
    values["late"] = whole_file(late)
    moved = {key for key in now if now[key] != after[key]}
    expect(moved and any(now[key] != before[key] for key in now), "some IDs change")
    for words in (told, forced):
        lines = {line for line in words.splitlines() if ", then " in line}
        due = {f"  {key}: {now[key] or 'x'}, then {after[key]}" for key in moved}
        expect(lines == due, f"IDs that change: {lines ^ due}")
    check_h5py(name, values)
    check_all(program, name, values)


ADDED_ANYHOW = "new ones may get the IDs of removed ones"


def check_removed(program, folder):
    """Where HDF5 has removed the last attributes, those that are there keep their IDs, and none of the removed ones' is
    given to another without --force."""
    name = os.path.join(folder, "removed.h5")
    values = {f"note {i:02}": b"a note " * i for i in range(20)} | {"long": bytes(60000)}
    files = put(os.path.join(folder, "removed"), values)
    late = os.path.join(folder, "late")
    shutil.copy(files[1], late)
    for last, count in ((20, 1), (20, 2), (20, 11), (21, 1), (21, 2), (21, 21)):
        run([program, "deposit", "--force", name, *files[:last]])
        with h5py.File(name, "r+") as file:
            for key in list(values)[last - count : last]:
                del file.attrs[key]
        changed, before = whole_file(name), listed(program, name)
        _, told = run([program, "deposit", "--add", name, late], 1)
        expect(ADDED_ANYHOW in told and "--force adds" in told and whole_file(name) == changed, told)
        _, told = run([program, "deposit", "--add", "--force", name, late])
        expect(ADDED_ANYHOW in told, told)
        expect(listed(program, name)[:-1] == before, "those that are there stay as they are")
        due = {key: values[key] for key in list(values)[: last - count]} | {"late": whole_file(late)}
        check_h5py(name, due)
        run([program, "deposit", "--add", "--name", "later", name, late])  # it is ours again
    shutil.rmtree(os.path.join(folder, "removed"))
    os.remove(name)
    os.remove(late)


def is_locked(name):
    """Whether h5py cannot change a file."""
    try:
        with h5py.File(name, "r+"):
            return False
    except OSError as error:
        expect("unable to lock file" in str(error), f"h5py: {error}")
        return True


def check_held(program, folder):
    """While h5py has the file open for writing nothing is added, and while we add h5py cannot change it, but read it.
    Where it has the file open for reading, it keeps the old one. A file that is marked as open for writing needs --force."""
    name, late = os.path.join(folder, "held.h5"), os.path.join(folder, "late")
    files = put(os.path.join(folder, "held"), {"a note": b"a note"})
    adding = [program, "deposit", "--add", "--name", "late", name, *files]
    run([program, "deposit", name, *files])
    with h5py.File(name, "r+") as file:
        file.attrs.create("new", numpy.frombuffer(b"new", "u1"))
        for words in ([], ["--force"], ["--wait=1"]):
            _, told = run(adding + words, 2)
            expect("a program has it open for writing, HDF5 perhaps" in told and "--wait" in told, told)
        words = adding + ["--wait=60", "--force", "--quiet"]
        waiting = subprocess.Popen(words, stdout=subprocess.DEVNULL, stderr=subprocess.DEVNULL)
    expect(waiting.wait() == 0, "an addition that waits until h5py has closed the file")
    due = {"a note": b"a note", "new": b"new", "late": b"a note"}
    check_h5py(name, due)
    run([program, "deposit", "--force", name, *files])
    with h5py.File(name, "r") as file:
        run(adding)
        expect(h5py_reads(file) == {b"a note": b"a note"}, "h5py has the old file")
        check_h5py(name, {"a note": b"a note", "late": b"a note"})
    os.mkfifo(late)
    run([program, "deposit", "--force", name, *files])
    adding = subprocess.Popen([program, "deposit", "--add", "-q", name, late], stdout=subprocess.DEVNULL)
    with open(late, "wb") as opened:  # when the program comes to it
        expect(is_locked(name), "h5py is refused while we add")
        check_h5py(name, {"a note": b"a note"})
        opened.write(b"late")
    expect(adding.wait() == 0 and not is_locked(name), "an addition")
    check_h5py(name, {"a note": b"a note", "late": b"late"})
    data = bytearray(whole_file(name))
    data[11] = 1
    data[44:48] = little(form.lookup3(bytes(data[:44])), 4)
    with open(name, "wb") as opened:
        opened.write(data)
    _, told = run([program, "deposit", "--add", "--name", "later", name, *files], 1)
    expect("is marked as open for writing" in told and "--force adds" in told and whole_file(name) == data, told)
    run([program, "deposit", "--add", "--force", "--name", "later", name, *files])
    check_h5py(name, {"a note": b"a note", "late": b"late", "later": b"a note"})
    # What --force does not help against is told without it.
    with open(name, "wb") as opened:
        opened.write(data + b"what another program keeps there")
    _, told = run([program, "deposit", "--add", "--name", "later", name, *files], 1)
    expect("bytes behind its end" in told and "--force" not in told, told)
    shutil.rmtree(os.path.join(folder, "held"))
    os.remove(name)
    os.remove(late)


def check_replaced(program, folder):
    """What h5py has open for writing is not replaced, and its edits are kept; what it reads it keeps."""
    name = os.path.join(folder, "replaced.h5")
    files = put(os.path.join(folder, "replaced"), {"a note": b"a note", "another": b"another note"})
    run([program, "deposit", name, files[0]])
    with h5py.File(name, "r+") as file:
        file.attrs.create("new", numpy.frombuffer(b"new", "u1"))
        _, told = run([program, "deposit", "--force", name, files[1]], 2)
        expect("and what that writes would be lost" in told, told)
    check_h5py(name, {"a note": b"a note", "new": b"new"})
    with h5py.File(name, "r") as file:
        run([program, "deposit", "--force", name, files[1]])
        expect(h5py_reads(file) == {b"a note": b"a note", b"new": b"new"}, "h5py has the old file")
    check_h5py(name, {"another": b"another note"})
    shutil.rmtree(os.path.join(folder, "replaced"))
    os.remove(name)


def shapes(name):
    """Of each attribute of a file its type, as HDF5 encodes it, and its shape."""
    with h5py.File(name, "r") as file:
        opened = {key: file.attrs.get_id(key) for key in file.attrs}
        return {key: (attribute.get_type().encode(), attribute.shape) for key, attribute in opened.items()}


def check_texts(program, folder):
    """A text of variable length, as h5py writes a str, becomes a string of fixed length with the same bytes, where that
    is asked for; all else keeps its type and its space."""
    name, late = os.path.join(folder, "texts.h5"), os.path.join(folder, "late")
    with open(late, "wb") as opened:
        opened.write(b"late")
    ascii_text, fixed = h5py.string_dtype("ascii"), h5py.string_dtype("utf-8", 9)
    texts = {"operator": "AB", "größe": "größe ß", "empty": "", "spaces": " a  ", "long": "long " * 9000}
    texts["one of a list"] = ["a"]
    others = {"number": 7, "square": numpy.arange(6.0).reshape(2, 3), "bytes": numpy.bytes_(b"AB"), "yes": True}
    for libver in ("earliest", "latest"):
        for few in (False, True):
            with h5py.File(name, "w", libver=libver) as file:
                for key in ["operator"] if few else texts:
                    file.attrs[key] = texts[key]
                if not few:
                    file.attrs.create("in ASCII", "AB", dtype=ascii_text)
                    file.attrs.create("fixed", "größe".encode(), dtype=fixed)
                    file.attrs.update(others)
                due = h5py_reads_texts(file)
            before, data = shapes(name), whole_file(name)
            changed = {key for key in before if key in texts or key == "in ASCII"}
            _, told = run([program, "deposit", "--add", name, late], 1)
            expect("of variable length, and would become" in told and whole_file(name) == data, told)
            _, forced = run([program, "deposit", "--add", "--force", name, late])
            for words in (told, forced):
                lines = re.findall(r"^  (.*)$", words.partition("another ID")[0], re.MULTILINE)
                expect(set(lines) == changed and len(lines) == len(changed), f"texts that are told: {words}")
            with h5py.File(name, "r") as file:
                read = h5py_reads_texts(file)
            expect(read == {**due, "late": b"late", **({} if few else {"empty": b"\0"})}, f"texts: {read}")
            check_shapes(before, shapes(name), changed, read)
            given, _ = run([program, "get", name, "operator"])
            expect(given == b"AB", "a text that we give back")
            if shutil.which("h5dump"):
                dumped = subprocess.run(["h5dump", "-a", "operator", name], capture_output=True).stdout
                expect(b'(0): "AB"\n' in dumped and b"STRSIZE 2;" in dumped, f"h5dump: {dumped}")
            run([program, "deposit", "--add", "--name", "later", name, late])  # it is ours now
    os.remove(name)
    os.remove(late)


def h5py_reads_texts(file):
    """The bytes of each attribute: of a str those of its text, also of the only one of a list."""

    def bytes_of_any(key):
        attribute = file.attrs.get_id(key)
        kind = attribute.get_type()
        if isinstance(kind, h5t.TypeStringID) and kind.is_variable_str():
            value = file.attrs[key]
            return (value if isinstance(value, str) else value[0]).encode()
        read = numpy.empty(attribute.shape, f"V{kind.get_size()}")
        attribute.read(read, mtype=kind)
        return read.tobytes()

    return {key: bytes_of_any(key) for key in file.attrs}


def check_shapes(before, after, changed, read):
    """Types and spaces are as they were, but the type of a text that has a fixed length now: its character set stays."""
    for key, (encoded, shape) in before.items():
        kind = h5t.decode(after[key][0])
        expect(after[key][1] == shape, f"space of {key}: {after[key][1]}")
        if key not in changed:
            expect(after[key][0] == encoded, f"type of {key}: {kind}")
            continue
        found = kind.is_variable_str(), kind.get_size(), kind.get_strpad(), kind.get_cset()
        due = False, max(len(read[key]), 1), h5t.STR_NULLPAD, h5t.decode(encoded).get_cset()
        expect(found == due, f"type of {key}: {found}")


def check_no_links(program, folder):
    """A root group has no links where its symbol table, or its dense storage of links, is empty, as h5py makes a file
    by default and as it leaves one whose groups were removed."""
    name, late = os.path.join(folder, "links.h5"), os.path.join(folder, "late")
    with open(late, "wb") as opened:
        opened.write(b"late")

    def removed(file, count):
        for i in range(count):
            file.create_group(f"group {i}")
        for i in range(count):
            del file[f"group {i}"]

    for libver in ("earliest", "latest"):
        for count in (0, 1, 8, 400):
            for attributes in (0, 1, 12):
                due = {f"note {i}": b"a note" for i in range(attributes)}
                with h5py.File(name, "w", libver=libver) as file:
                    for key, data in due.items():
                        file.attrs.create(key, numpy.frombuffer(data, "u1"))
                    removed(file, count)
                _, told = run([program, "deposit", "--add", name, late], 1)
                expect("--force adds all the same" in told, told)
                run([program, "deposit", "--add", "--force", name, late])
                check_h5py(name, {**due, "late": b"late"})
    os.remove(name)
    os.remove(late)


def check_other_types(program, folder):
    """A message that lies whole in the heap is kept, whatever its type is, and h5py reads the value."""
    name, late = os.path.join(folder, "types.h5"), os.path.join(folder, "late")
    with open(late, "wb") as opened:
        opened.write(b"late")
    colours = h5py.enum_dtype({"red": 1, "green": 2}, basetype="<u2")
    values = {"yes": True, "colour": numpy.array([2, 1], "<u2"), "opaque": numpy.void(b"opaque \xff")}
    with h5py.File(name, "w", libver="latest") as file:
        for i in range(9):
            file.attrs[f"note {i}"] = i
        for key, value in values.items():
            file.attrs.create(key, value, dtype=colours if key == "colour" else None)
    run([program, "deposit", "--add", "--force", name, late])
    with h5py.File(name, "r") as file:
        expect(len(file.attrs) == 13 and file.attrs["late"].tobytes() == b"late", "attributes of other types")
        for key, value in values.items():
            read = file.attrs[key]
            expect(numpy.array(read).tobytes() == numpy.array(value).tobytes(), f"{key}: {read}")
        expect(h5py.check_enum_dtype(file.attrs.get_id("colour").dtype) == {"red": 1, "green": 2}, "an enumeration")
    os.remove(name)
    os.remove(late)


def check_shared(program, folder):
    """Attributes whose messages HDF5 keeps in a heap for several objects: they are listed as not read, with status 0, and
    without an ID or a place, which would be those of that heap."""
    name, library = os.path.join(folder, "shared.h5"), ctypes.CDLL(h5p.__file__)
    create, access = h5p.create(h5p.FILE_CREATE), h5p.create(h5p.FILE_ACCESS)
    access.set_libver_bounds(h5f.LIBVER_LATEST, h5f.LIBVER_LATEST)
    attributes = ctypes.c_uint(1 << 12)  # the flag of a message's type
    ident = ctypes.c_int64(create.id)
    expect(library.H5Pset_shared_mesg_nindexes(ident, 1) >= 0, "one index of shared messages")
    expect(library.H5Pset_shared_mesg_index(ident, 0, attributes, 1) >= 0, "of attributes")
    with h5py.File(h5f.create(name.encode(), h5f.ACC_TRUNC, create, access)) as file:
        for i in range(12):
            file.attrs[f"note {i}"] = numpy.arange(50)
            file.require_group("a group").attrs[f"note {i}"] = numpy.arange(50)
    lines = listed(program, name)
    expect(len(lines) == 12, f"{len(lines)} shared attributes")
    for line in lines:
        nothing = [line[key] for key in ("name", "length", "offset", "id")]
        expect(nothing == [None] * 4 and "its message is shared" in line["why"], f"a shared attribute: {line}")
    printed, _ = run([program, "list", name])
    expect(b"12 attributes of 0 bytes" in printed, printed)
    _, told = run([program, "get", name, "note 1"], 1)
    expect("its message is shared with other objects" in told, told)
    os.remove(name)


def check_not_added(program, folder):
    """To a file that has more than attributes that can be kept nothing is added."""
    name, late = os.path.join(folder, "more.h5"), os.path.join(folder, "late")
    with open(late, "wb") as opened:
        opened.write(b"late")

    def refused(words, change, behind=b"", **options):
        run([program, "deposit", "--force", name, late])
        with h5py.File(name, **dict(dict(mode="r+"), **options)) as file:
            change(file)
        with open(name, "ab") as file:
            file.write(behind)
        data = whole_file(name)
        _, told = run([program, "deposit", "--add", "--name", "later", "--force", name, late], 1)
        expect(words in told and whole_file(name) == data, f"{words}: {told}")

    refused("other objects, which its root group has links to", lambda file: file.create_group("a group"))
    refused("other objects", lambda file: [file.create_group(f"group {i}") for i in range(40)], libver="latest")
    refused("it is a list of strings of variable length", lambda file: file.attrs.create("a", ["a", "text"]))
    refused("refused by 11", lambda file: file.attrs.create("a", "text" * 20000))
    refused("it is a compound of several values", lambda file: file.attrs.create("a", numpy.zeros(1, "i4, f8")))
    refused("refused by 11", lambda file: [file.attrs.create(f"{i}", numpy.zeros(65500, "u1")) for i in range(9)])
    refused("other objects", lambda file: file.create_group("a group"), mode="w")  # a symbol table
    refused("other objects", lambda file: file.update({"a link": h5py.SoftLink("/nothing")}), mode="w")
    refused("a user block", lambda file: None, mode="w", userblock_size=512, libver="latest")
    refused("more in its root group", lambda file: h5o.set_comment(file["/"].id, b"a comment"))
    refused("bytes behind its end", lambda file: None, b"what another program keeps there")
    kept = dict(mode="w", libver="latest", fs_strategy="fsm", fs_persist=True, fs_threshold=1)
    refused("a superblock extension", lambda file: file.attrs.create("a", 7), **kept)
    os.remove(name)
    os.remove(late)


def check_unknown(program, folder):
    """A version of a datatype that the format did not have is told as not read, and is no damage; the one that it has for
    its later references is read. HDF5 seals no object header of version 1, so that a byte can be changed."""
    name = os.path.join(folder, "unknown.h5")
    with h5py.File(name, "w", libver="earliest") as file:
        file.attrs.create("a number", 7, dtype="<i4")
        file.attrs.create("another", 8, dtype="<i4")
    data = whole_file(name)
    at = data.index(b"\x10\x08\0\0\x04\0\0\0", data.index(b"a number"))  # class and version, its bits, its size
    for version, length, why in ((4, 4, None), (5, None, "the version of a datatype is 5, which is not known here")):
        with open(name, "r+b") as file:
            file.seek(at)
            file.write(bytes([version << 4]))
        lines = {line["name"]: line for line in listed(program, name)}
        found = lines["a number"]
        expect((found["length"], found.get("why")) == (length, why), f"version {version}: {found}")
        expect(lines["another"]["length"] == 4, f"version {version}: {lines}")
    given, told = run([program, "get", name, "a number"], 1)
    expect(given == b"" and why in told, told)
    given, _ = run([program, "get", name, "another"])
    expect(given == little(8, 4), "an attribute beside one that is not known")
    os.remove(name)


def check_readme(program, folder):
    """README's command with h5py prints what it says, of the file that README's first command makes."""
    os.mkdir(os.path.join(folder, "out"))
    files = put(os.path.join(folder, "readme"), {"postscript": b"a postscript"})
    run([program, "deposit", os.path.join(folder, "out", "run.h5"), *files])
    with open("README.md") as readme:
        (line,) = [line.strip() for line in readme if "h5py.File('out/run.h5')" in line]
    words = line.replace("python3", sys.executable, 1)
    ended = subprocess.run(words, shell=True, cwd=folder, capture_output=True)
    expect(ended.stdout == b"a postscript\n", f"README's {line}: {ended.stdout} {ended.stderr}")


# Changed at random


def small_files(program, folder, draw):
    """Files of every structure that is read: deposited, changed by h5py since, and HDF5's own."""
    names = [os.path.join(folder, f"small {i}.h5") for i in range(8)]
    files = put(os.path.join(folder, "inputs"), some_values(draw, 40, [0, 1, 20, 60]))
    run([program, "deposit", names[0], *files[:3]])
    run([program, "deposit", "--track-order", names[1], *files])
    for name, count in ((names[2], 20), (names[3], 4)):
        run([program, "deposit", name, *files])
        with h5py.File(name, "r+", libver="latest") as file:
            for key in list(file.attrs)[count:]:
                del file.attrs[key]
            file.attrs["a str"] = "größe"
            file.attrs["another"] = "text"
            if count == 4:  # dense storage is made anew, with huge objects
                for i in range(9):
                    file.attrs.create(f"large {i}", numpy.zeros(5000 if i < 2 else 9, "u1"))
    for name, words in zip(names[4:7], (dict(libver="earliest"), dict(userblock_size=512), dict(libver="latest"))):
        with h5py.File(name, "w", **words) as file:
            for i in range(12 if words.get("libver") == "latest" else 20):
                file.attrs[f"note {i}"] = ["größe", numpy.float32(7), numpy.bytes_(b"text")][i % 3]
    with created(names[7], 2, 4) as file:
        for i in range(12):
            file.attrs[f"note {i}"] = "größe" if i % 3 else 7
    return names


def check_changed_bytes(program, folder, seconds):
    if not os.path.exists(FUZZ):
        print("deposited files: changed bytes: skipped, the program that reads them is not built")
        return
    printed, _ = run([FUZZ, seconds, *small_files(program, folder, random.Random("small"))])
    print(f"deposited files: changed bytes: {printed.decode().strip()}")


# All of it


def deposits(program, folder):
    """The files, one after the other."""
    small, some = [0, 1, 7, 60, 900, 3900], [0, 1, 20, 200, 977, 978, 4000, 20000, 65000]
    todo = [(count, some) for count in (0, 1, 8, 9, 29, 30, 40)]
    todo += [(300, some), (569, small), (570, small), (5000, [0, 1, 50, 400] * 8 + [65000])]
    todo += [(10259, [0, 60]), (10260, [3]), (70000, range(201))]
    for number, (count, sizes) in enumerate(todo):
        for order in (False, True) if count < 5000 else (count == 10260,):
            draw = random.Random(f"{count} {order}")
            text = order and count not in (0, 10260)
            values = some_values(draw, count, sizes)
            if text:  # some that can be strings, and some that cannot
                for key in draw.sample(list(values), count // 2):
                    long = values[key].hex().encode()[:65000]
                    values[key] = draw.choice([b"", b"a\0", b"\xff", 'größe "\\\t\n'.encode() * 30, long])
            yield Deposit(program, folder, f"{number} {count} {order}", values, text, order), draw
    draw = random.Random("edges")
    values = {}  # as large as their names let them be, and one byte of each direct block's edge
    for i in range(9):
        name = f"edge {i}"
        values[name] = draw.randbytes(LARGEST - 34 - len(name) - i // 3)
    values["n" * 250] = draw.randbytes(LARGEST - 34 - 250)
    yield Deposit(program, folder, "edges", values), draw
    # Two names of one hash, in both orders.
    pair = ["note 85167", "note 96241"]
    expect(len({form.lookup3(name.encode()) for name in pair}) == 1, "two names of one hash")
    for names in (pair, pair[::-1]):
        others = [f"other {i}" for i in range(40)]
        values = {name: name.encode() for name in others[:20] + names + others[20:]}
        yield Deposit(program, folder, f"hash {names[0]}", values), draw


def kind_of(dense):
    return KINDS[0 if dense is None else 1 + min(dense.heap.depth, 2)]


def main():
    program, folder, seconds = os.path.abspath(sys.argv[1]), *sys.argv[2:]
    tools = bool(shutil.which("h5dump") and shutil.which("h5debug"))
    counts, met = collections.Counter(), set()
    for deposit, draw in deposits(program, folder):
        dense = check_format(deposit)
        check_h5py(deposit.name, deposit.values, deposit.order)
        if tools:
            check_h5dump(deposit)
            counts["places"] += check_debug(deposit, dense, draw) if dense else 0
        check_reader(program, deposit.name, deposit.values, draw, counts, True)
        counts["went on"] += check_going_on(program, deposit, draw, counts)
        counts["files"] += 1
        counts["attributes"] += len(deposit.values)
        met.add(kind_of(dense))
        if dense:
            met.add(dense.trees[0].depth)
        os.remove(deposit.name)
    expect(counts["huge"] > 0, "no huge object was read")
    for due in KINDS + [0, 1, 2, 3]:
        expect(due in met, f"no file with {due}")
    check_own(program, folder, random.Random("own"), counts)
    check_folder(program, folder, random.Random("folder"))
    for order in (False, True):
        check_added(program, folder, random.Random(f"added {order}"), order, order)
    check_not_added(program, folder)
    check_removed(program, folder)
    check_held(program, folder)
    check_replaced(program, folder)
    check_texts(program, folder)
    check_no_links(program, folder)
    check_other_types(program, folder)
    check_shared(program, folder)
    check_unknown(program, folder)
    check_bare(program, folder, tools)
    check_parts(program, folder)
    if tools:
        check_user_blocks(program, folder)
    check_readme(program, folder)
    check_changed_bytes(program, folder, seconds)
    if not tools:
        print("deposited files: h5dump and h5debug: skipped, they are not at hand")
    if not is_known():
        print("deposited files: tried with HDF5 1.10, and here is another one")
    print(
        f"deposited files: get and list read {counts['read']} attributes there and in {counts['own files']} files that HDF5 "
        f"alone wrote, {counts['huge']} of them huge; of {counts['not read']} of other types they say so; a folder came back "
        "as h5py left it; what was added was as if deposited at once"
    )
    print(
        f"deposited files: of {counts['covered'] + counts['not covered']} values held to the format {counts['not covered']} "
        "were told as covered by no checksum; bits of these, older and smaller parts, and user blocks were told as such"
    )
    readers = "h5py and h5dump" if tools else "h5py"
    print(
        f"deposited files: {counts['files']} files of {counts['attributes']} attributes read by {readers}, held to the "
        f"format field by field; h5debug told {counts['places']} places; h5py went on with all files, and read them "
        f"{counts['went on']} times more"
    )


if __name__ == "__main__":
    main()
