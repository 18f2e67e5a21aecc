"""Lets HDF5's own library and tools judge the headers, blocks and IDs that our writers write.
    written_files.py WRITE_REGION FOLDER
h5py writes files with densely stored attributes into the folder. In a copy of each file our writer writes
the objects of every attribute heap anew, in another order and at another place; our writer of headers writes
the heap's header, the indexes get the IDs that our writer of IDs writes, all else that leads there is set as
the format has it, and the old blocks and headers are overwritten. Then h5py must read what was put in, by
our IDs, h5dump must print what it prints of the file as it was, h5debug must tell our numbers, HDF5 must go
on with the file where our blocks leave off, a block with one bit changed must be refused, and with two IDs
exchanged neither attribute must be found.
WRITE_REGION is the program of write_region.c; that of write_header.c is beside it."""

import collections
import os
import random
import shutil
import subprocess
import sys

import h5py
import numpy
from h5py import h5, h5a, h5o, h5s

import h5debug
import hdf5_format as form
from hdf5_format import expect
from hdf5_messages import little
from made_files import WIDTHS, created, is_known, some_size, some_value
from written_headers import written_header

GEOMETRY = 4, 1024, 65536, 40  # width, starting block, largest direct block, bits of a heap offset
JUNK = b"\xee"
KINDS = ["direct", "indirect", "nested"]  # of heaps; a nested one may go deeper than one block more
TOTALS = ["block_count", "region_size", "rows", "root_place"]
TOTALS += ["managed_space", "allocated_space", "free_space", "iterator"]

Written = collections.namedtuple("Written", "at totals offsets blocks region ids")


# Making files


def content_of(value):
    """Type, shape and bytes of a value that is put in."""
    if isinstance(value, h5py.Empty):
        return value.dtype, None, b""
    return value.dtype, value.shape, value.tobytes()


class Made:
    """A file, and what was put into it: the contents by the names of the object and the attribute."""

    def __init__(self, name, widths, order):
        self.name, self.widths, self.order = name, widths, order
        self.draw, self.contents = random.Random(os.path.basename(name)), {}
        # the bytes of direct blocks after the header, from the smallest block to the largest
        self.bodies = [(1024 << i) - 14 - widths[0] for i in range(7)]

    def group(self, name):
        return self.file.create_group(name, track_order=self.order)

    def put(self, target, name, value):
        target.attrs.create(name, value)
        self.contents.setdefault(target.name, {})[name] = content_of(value)

    def remove(self, target, name):
        del target.attrs[name]
        del self.contents[target.name][name]

    def put_some(self, target, count, size=None):
        """Attributes of about `size` bytes, or of various sizes; some names are long or not ASCII."""
        for i in range(count):
            name = self.draw.choice(["attribute {}", "größe {}", "a{}", "{}" + " long" * 40]).format(i)
            self.put(target, name, some_value(self.draw, size or some_size(self.draw)))

    def put_sizes(self, target, sizes):
        """Attributes whose objects have exactly these sizes; they are opaque, which h5dump prints fast."""
        for i, size in enumerate(sizes):
            name = f"{i} of {size}"
            head = 9 + len(name) + 1 + 8 + 4  # of a message: fixed part, name, datatype, dataspace
            self.put(target, name, numpy.void(self.draw.randbytes(size - head)))


def write_small(made):
    """Direct roots, one of them full, and indirect roots of few rows."""
    made.put_some(made.group("few"), 9, size=8)
    made.put_sizes(made.group("full"), [100] * 9 + [made.bodies[0] - 900])
    made.put_sizes(made.group("over"), [100] * 9 + [made.bodies[0] - 899])
    made.put_some(made.group("some"), 24, size=90)


def write_large(made):
    """Nested blocks, gaps, sizes around those of the bodies, and huge objects. The last two heaps keep
    their huge objects, and the last one has no other."""
    made.put_some(made.group("many"), 700)
    gaps = made.group("gaps")
    made.put_some(gaps, 300)
    for name in made.draw.sample(list(made.contents["/gaps"]), 75):
        made.remove(gaps, name)
    *smaller, largest = made.bodies
    made.put_sizes(made.group("edges"), smaller + [body + 1 for body in smaller] + [largest] * 4)
    made.put_sizes(made.group("large"), [made.draw.randrange(33000, largest) for _ in range(60)])
    huge = made.group("huge")
    made.put_some(huge, 20)
    made.put_sizes(huge, [largest + 1, 70000, 5000])
    alone = made.file.create_dataset("alone", data=numpy.arange(5), track_order=made.order)
    made.put_sizes(alone, [70000] + [5000] * 9)


def write_deep(made):
    """Three indirect blocks below the root. The largest objects are written first and take 156 of the
    largest blocks; what comes then is in row 8 of a block in row 11 of a block in row 14 of the root."""
    made.put_sizes(made.group("deep"), [33000] * 156 + [10000] * 8 + [200] * 40)


def made_files(folder):
    """Writes the files one after the other. One with 2-byte offsets cannot be large."""
    todo = [(write_small, widths, order) for widths in WIDTHS for order in (False, True)]
    todo += [(write_large, widths, order) for widths, order in zip(WIDTHS, (False, True, True, False))]
    todo += [(write_deep, (8, 8), True), (write_deep, (4, 4), False)]
    for write, widths, order in todo:
        base = f"{write.__name__}_{widths[0]}_{widths[1]}_{order}.h5"
        made = Made(os.path.join(folder, base), widths, order)
        with created(made.name, *widths) as made.file:
            write(made)
        yield made


# Objects of a heap


def huge_places(heap):
    """Where the huge objects of a heap lie, by their number: (address, length)."""
    if heap.huge_count == 0:
        return {}
    tree = form.BTree(heap.image, heap.huge_tree)
    expect(tree.kind == form.HUGE_OBJECTS, "huge objects under another kind of ID")
    found = {}
    for record in tree.records:
        at = heap.image.over(record)
        place = at.address(), at.length()
        found[at.length()] = place
    return found


def object_places(heap, ids):
    """Where the objects lie that our writer takes, by their ID: the managed ones, and the huge ones if a
    direct block has room for each (HDF5 makes an attribute huge at 4,096 bytes, which is far below)."""
    huge = huge_places(heap)
    most = heap.largest_direct - heap.direct_header()
    taken = all(length <= most for _, length in huge.values())
    places = {}
    for heap_id in ids:
        kind = heap_id[0] >> 4 & 3
        expect(kind in (0, 1), "a tiny object")
        if kind == 0:
            offset, length = heap.decode(heap_id)
            places[heap_id] = heap.position(offset, length), length
        elif taken:
            width = min(heap.image.length_size, heap.id_length - 1)
            places[heap_id] = huge[int.from_bytes(heap_id[1 : 1 + width], "little")]
    return places


class Dense:
    """An object's densely stored attributes: heap, indexes, and places and bytes of the heap's objects."""

    def __init__(self, image, path, address):
        dense = form.dense_storage(image, address, form.ATTRIBUTE_INFO)
        expect(dense is not None, f"attributes of {path} are not densely stored")
        self.path, self.heap = path, form.Heap(image, dense[0])
        self.trees = [form.BTree(image, tree) for tree in dense[1]]
        ids = [[form.key_and_id(tree.kind, record)[1] for record in tree.records] for tree in self.trees]
        expect(all(sorted(other) == sorted(ids[0]) for other in ids), "IDs of two indexes")
        self.places = object_places(self.heap, ids[0])
        self.objects = {key: image.data[at : at + length] for key, (at, length) in self.places.items()}

    def name_of(self, heap_id):
        """The name in an attribute message, version 3."""
        message = self.objects[heap_id]
        return message[9 : 9 + int.from_bytes(message[2:4], "little") - 1]

    def block_of(self, heap_id):
        """The direct block of a managed object."""
        return self.heap.block(self.heap.decode(heap_id)[0])

    def check_sizes(self):
        """The objects that were to have certain sizes (put_sizes) have them."""
        for heap_id, data in self.objects.items():
            _, told, size = self.name_of(heap_id).partition(b" of ")
            expect(not told or len(data) == int(size), f"{len(data)} bytes, not {size}")


def whole_file(name):
    with open(name, "rb") as opened:
        return opened.read()


def dense_objects(name):
    """The bytes of a file, and the attributes of every object in its root group."""
    image = form.Image(whole_file(name))
    with h5py.File(name, "r") as file:
        addresses = {file[key].name: h5o.get_info(file[key].id).addr for key in file}
    return image, [Dense(image, path, address) for path, address in addresses.items()]


# Writing the blocks anew


def write_region(program, folder, objects, width, region_at, header_at):
    """What our writers make of these objects."""
    names = [os.path.join(folder, name) for name in ("sizes", "objects", "region", "ids")]
    numpy.array([len(data) for data in objects], "<u8").tofile(names[0])
    with open(names[1], "wb") as opened:
        opened.write(b"".join(objects))
    words = [program, *names, str(width), str(region_at), str(header_at)]
    run = subprocess.run(words, text=True, stdout=subprocess.PIPE, check=True)
    lines = [[int(number) for number in line.split()] for line in run.stdout.splitlines()]
    region, ids = whole_file(names[2]), whole_file(names[3])
    ids = [ids[at : at + 8] for at in range(0, len(ids), 8)]
    totals, offsets, blocks = lines
    due = [b"\0" + little(offset, 5) + little(len(data), 2) for offset, data in zip(offsets, objects)]
    expect(ids == due, "IDs by the format: version and type 0, offset, length")
    return Written(region_at, dict(zip(TOTALS, totals)), offsets, blocks, region, ids)


class Copy:
    """A copy of a file's bytes, in which fields are set and checksums made good."""

    def __init__(self, image):
        self.image, self.data = image, bytearray(image.data)

    def set(self, place, number, width):
        self.data[place : place + width] = little(number, width)

    def seal(self, start, end):
        self.set(end, form.lookup3(bytes(self.data[start:end])), 4)

    def spoil(self, start, length):
        self.data[start : start + length] = JUNK * length

    def finished(self):
        """The bytes, once the superblock gives their end."""
        width = self.image.offset_size
        self.set(self.image.end_place, len(self.data), width)
        self.seal(0, 12 + 4 * width)
        return self.data


def spoil_old(copy, dense):
    """Overwrites the old header and blocks, and the huge objects that are taken."""
    spans = [(address, size) for _, size, address, _ in dense.heap.blocks]
    spans += [(address, dense.heap.indirect_size(rows)) for address, _, rows, _ in dense.heap.indirects]
    spans += [(dense.heap.address, form.header_length(dense.heap.image))]
    for start, length in spans + list(dense.places.values()):
        copy.spoil(start, length)


def header_values(dense, written):
    """The fields of the header that are others than they were: those that lead to the new blocks."""
    heap = dense.heap
    values = {name: number for name, number in written.totals.items() if name in heap.fields}
    values["root"] = written.at + written.totals["root_place"]
    values["managed_count"] = len(dense.places)
    values["space_manager"] = heap.image.undefined
    if len(dense.places) > heap.managed_count:  # huge objects were taken
        values["largest_object"] = heap.largest_direct - heap.direct_header()
        values.update(next_huge=0, huge_tree=heap.image.undefined, huge_size=0, huge_count=0)
    return values


def set_ids(copy, tree, new_ids):
    """Sets the heap IDs in the records of an index; a record begins with its ID."""
    for place, record in zip(tree.places, tree.records):
        old = form.key_and_id(tree.kind, record)[1]
        copy.data[place : place + 8] = new_ids.get(old, old)
    for start, end in tree.nodes:
        copy.seal(start, end)


def arranged(dense, draw):
    """The IDs in the order in which our writer gets the objects: shuffled, by heap offset, or by size."""
    orders = {
        "shuffled": lambda heap_id: 0,
        "by offset": dense.heap.decode,
        "smallest first": lambda heap_id: len(dense.objects[heap_id]),
        "largest first": lambda heap_id: -len(dense.objects[heap_id]),
    }
    how = "largest first" if dense.path == "/deep" else draw.choice(list(orders))
    return sorted(draw.sample(list(dense.places), len(dense.places)), key=orders[how])


def write_anew(program, folder, copy, dense, draw):
    """Has a heap's objects written behind the end of the copy, and sets all that leads there."""
    heap = dense.heap
    geometry = heap.width, heap.start, heap.largest_direct, heap.bits
    expect(geometry == GEOMETRY and heap.id_length == 8, f"geometry {geometry}")
    ids = arranged(dense, draw)
    objects = [dense.objects[heap_id] for heap_id in ids]
    spoil_old(copy, dense)
    copy.data += JUNK * draw.randrange(8)
    written = write_region(program, folder, objects, heap.image.offset_size, len(copy.data), heap.address)
    copy.data += written.region
    values = header_values(dense, written)
    fields = [values.get(name, getattr(heap, name)) for name, _ in form.HEADER_FIELDS]
    header = written_header(program, heap.image, fields)
    copy.data[heap.address : heap.address + len(header)] = header
    new_ids = dict(zip(ids, written.ids))
    for tree in dense.trees:
        set_ids(copy, tree, new_ids)
    return written


def check_spaces(dense):
    """Managed, allocated and free space and the iterator in a header, HDF5's or ours, are those of its
    rows, its blocks and its objects."""
    heap = dense.heap
    used = sum(heap.decode(heap_id)[1] for heap_id in dense.places if heap_id[0] >> 4 & 3 == 0)
    span = (heap.width * heap.start) << (heap.rows - 1) if heap.rows else heap.start
    last = heap.blocks[-1] if heap.rows else (0, 0)
    due = span, sum(block[1] for block in heap.blocks), heap.capacity(heap.rows) - used, last[0] + last[1]
    found = heap.managed_space, heap.allocated_space, heap.free_space, heap.iterator
    expect(found == (due if heap.blocks else (0, 0, 0, 0)), f"{dense.path}: {found}, not {due}")


def check_layout(old, new, written):
    """By the format, the new heap has the old objects, in the blocks that our writer tells of, and these
    fill the region."""
    heap = new.heap
    expect(sorted(new.places) == sorted(written.ids), "IDs in the indexes")
    expect(sorted(new.objects.values()) == sorted(old.objects.values()), "objects of a heap")
    expect([block[0] for block in heap.blocks] == written.blocks, "heap offsets of the blocks")
    expect(len(written.blocks) == written.totals["block_count"], "number of blocks")
    spans = [(address, size) for _, size, address, _ in heap.blocks]
    spans += [(address, heap.indirect_size(rows)) for address, _, rows, _ in heap.indirects]
    end = written.at
    for address, size in sorted(spans):
        expect(address == end, f"a block at {address}, not at {end}")
        end += size
    size = written.totals["region_size"]
    expect(end - written.at == len(written.region) == size, "size of the region")
    if is_known():
        check_spaces(old)
    check_spaces(new)


def rewritten(program, folder, made):
    """A copy of a file with all its attribute heaps written anew: its name, and its attributes."""
    image, olds = dense_objects(made.name)
    copy = Copy(image)
    answers = [write_anew(program, folder, copy, old, made.draw) for old in olds]
    name = os.path.join(folder, "copies", os.path.basename(made.name))
    with open(name, "wb") as opened:
        opened.write(copy.finished())
    _, news = dense_objects(name)
    for old, new, written in zip(olds, news, answers):
        old.check_sizes()
        check_layout(old, new, written)
    return name, news


# What HDF5 reads


def content_read(attribute):
    """Type, shape and bytes of a value as h5py reads it."""
    if attribute.get_space().get_simple_extent_type() == h5s.NULL:
        return attribute.dtype, None, b""
    read = numpy.empty(attribute.shape, attribute.dtype)
    attribute.read(read, mtype=attribute.get_type())
    return read.dtype, read.shape, read.tobytes()


def contents_by_index(owner, index):
    """Every attribute of an object, met by one of its indexes in the index's own order."""
    numbers = range(h5a.get_num_attrs(owner))
    found = (h5a.open(owner, index=i, index_type=index, order=h5.ITER_NATIVE) for i in numbers)
    return {attribute.name.decode(): content_read(attribute) for attribute in found}


def check_contents(name, made):
    """h5py finds what was put in, by name and by each index; returns the number of attributes."""
    with h5py.File(name, "r") as file:
        for path, due in made.contents.items():
            owner = file[path].id
            read = {key: content_read(h5a.open(owner, key.encode())) for key in due}
            expect(read == due, f"attributes of {path} by name")
            expect(contents_by_index(owner, h5.INDEX_NAME) == due, f"attributes of {path} by index")
            if made.order:
                read = contents_by_index(owner, h5.INDEX_CRT_ORDER)
                expect(list(read.items()) == list(due.items()), f"attributes of {path} by creation order")
    return sum(map(len, made.contents.values()))


def dumped(name, *words):
    """What h5dump prints of a file, with its base name; None where it fails."""
    folder, base = os.path.split(name)
    run = subprocess.run(["h5dump", *words, base], cwd=folder, capture_output=True)
    return run.stdout if run.returncode == 0 else None


def check_dump(name, made):
    """h5dump prints of the copy what it prints of the file as it was."""
    due = dumped(made.name)
    expect(due and due.count(b"ATTRIBUTE") >= sum(map(len, made.contents.values())), "h5dump of a file")
    expect(dumped(name) == due, f"h5dump of {name}")


def check_debug(name, dense, draw):
    """h5debug tells the header, the indirect blocks and some direct ones as we wrote them; returns the
    number of blocks."""
    heap = dense.heap
    directs = {heap.blocks[0], heap.blocks[-1], draw.choice(heap.blocks)}
    h5debug.check_header(name, heap)
    for address, offset, rows, _ in heap.indirects:
        h5debug.check_indirect(name, heap, address, offset, rows)
    for offset, size, address, _ in directs:
        h5debug.check_direct(name, heap, address, offset, size)
    return len(heap.indirects) + len(directs)


# IDs


def followed(dense, made):
    """The number of our IDs in the indexes of an object; each leads to an attribute that h5py has read."""
    names = {dense.name_of(heap_id).decode() for heap_id in dense.places}
    expect(len(names) == len(dense.places), f"names of {dense.path}")
    expect(names <= set(made.contents[dense.path]), f"names of {dense.path}")
    return len(names)


def check_exchanged(name, dense):
    """HDF5 goes by the IDs: with those of two attributes exchanged in the index of names it finds neither;
    returns whether there are two."""
    if len(dense.places) < 2:
        return False
    one, other = random.Random(name).sample(sorted(dense.places), 2)
    copy = Copy(dense.heap.image)
    set_ids(copy, dense.trees[0], {one: other, other: one})
    exchanged = name + ".exchanged"
    with open(exchanged, "wb") as opened:
        opened.write(copy.finished())
    with h5py.File(exchanged, "r") as file:
        for heap_id in (one, other):
            key = dense.name_of(heap_id)
            expect(not h5a.exists(file[dense.path].id, key), f"{key} of {dense.path} by another ID")
    os.remove(exchanged)
    return True


# Damaged blocks


def flip(name, at, bit):
    """Changes one bit of a file."""
    with open(name, "r+b") as opened:
        opened.seek(at)
        byte = opened.read(1)[0]
        opened.seek(at)
        opened.write(bytes([byte ^ 1 << bit]))


def refused(file, path, key):
    """Whether h5py refuses an attribute, which must be for a checksum."""
    try:
        content_read(h5a.open(file[path].id, key))
        return False
    except KeyError as error:
        expect("incorrect metadata checksum" in str(error), f"refused for another cause: {error}")
        return True


def refused_apart(name, path, key):
    """The same in a process of its own that ends with the file open: closing it, HDF5 1.10 may crash after
    it has met a damaged nested block."""
    child = os.fork()
    if child == 0:
        status = 2
        try:
            file = h5py.File(name, "r")
            status = int(refused(file, path, key))
        finally:
            os._exit(status)
    status = os.waitstatus_to_exitcode(os.waitpid(child, 0)[1])
    expect(status in (0, 1), f"reading {path} ends with {status}")
    return status == 1


def h5py_reads(name, dense, key):
    """Whether h5py reads an attribute of a file that may be damaged."""
    if dense.heap.depth > 1:
        return not refused_apart(name, dense.path, key)
    with h5py.File(name, "r") as file:
        return not refused(file, dense.path, key)


def h5dump_reads(name, dense, key):
    return dumped(name, "-a", dense.path.encode() + b"/" + key) is not None


def h5debug_reads(name, dense, key):
    """Whether h5debug reads the block that has an attribute, and all above it."""
    heap = dense.heap
    heap_id = next(heap_id for heap_id in dense.places if dense.name_of(heap_id) == key)
    _, size, address, above = dense.block_of(heap_id)
    blocks = [(address, size)] + [(at, rows) for at, _, rows, _ in heap.indirects if at in above]
    return all(h5debug.tells(name, at, heap.address, number) for at, number in blocks)


def some_places(dense):
    """Places in the blocks above one of the deepest objects: in each field of the indirect blocks; in each
    field, the object and the last byte of the direct one. Each with the object's ID."""
    heap_id = max(dense.places, key=lambda heap_id: (len(dense.block_of(heap_id)[3]), heap_id))
    heap, (object_at, length) = dense.heap, dense.places[heap_id]
    _, size, address, above = dense.block_of(heap_id)
    body = heap.direct_header()
    fields = [0, 4, 5, body - 9, body - 4]  # signature, version, header, heap offset, entries or checksum
    places = [address + at for at in fields + [body - 1, body, size - 1]]
    places += [object_at, object_at + length - 1]
    for indirect, _, rows, _ in heap.indirects:
        end = heap.indirect_size(rows)
        places += [indirect + at for at in fields + [end - 5, end - 1] if indirect in above]
    return [(at, heap_id) for at in places]


def all_places(dense):
    """Every byte of the blocks that have objects or lie above them, each with the ID of such an object."""
    heap, found = dense.heap, {}
    rows = {address: rows for address, _, rows, _ in heap.indirects}
    for heap_id in dense.places:
        _, size, address, above = dense.block_of(heap_id)
        spans = [(address, size)] + [(at, heap.indirect_size(rows[at])) for at in above]
        for start, length in spans:
            found.update((at, heap_id) for at in range(start, start + length))
    return list(found.items())


def check_damage(name, dense, places, draw, reads):
    """With a bit changed at a place the attribute there is not read, and it is when the bit is set back;
    returns the number of places."""
    for at, heap_id in places:
        key, bit = dense.name_of(heap_id), draw.randrange(8)
        flip(name, at, bit)
        expect(not reads(name, dense, key), f"{reads.__name__} {key} of {dense.path}, damaged at {at}")
        flip(name, at, bit)
    expect(reads(name, dense, key), f"not {reads.__name__} {key} of {dense.path} after the damage")
    return len(places)


def check_damages(name, dense, made, tools, counts):
    """Damage at some places of a heap, for h5dump and h5debug at fewer, and in one heap at each byte."""
    if not dense.places:
        return
    each = dense.path == "/over" and made.widths == (8, 8) and made.order
    places = all_places(dense) if each else some_places(dense)
    counts["damaged"] += check_damage(name, dense, places, made.draw, h5py_reads)
    if tools:
        fewer = made.draw.sample(places, 4)
        counts["damaged for h5dump"] += check_damage(name, dense, fewer, made.draw, h5dump_reads)
        counts["damaged for h5debug"] += check_damage(name, dense, fewer, made.draw, h5debug_reads)


# Going on with a file


def check_going_on(name, made):
    """HDF5 removes attributes and adds others, and then removes all; returns how many it read between."""
    draw = made.draw
    with h5py.File(name, "r+", libver="latest") as made.file:
        for path, contents in made.contents.items():
            for key in draw.sample(list(contents), len(contents) // 3):
                made.remove(made.file[path], key)
            for i in range(12):
                size = 60 if made.widths[0] == 2 else some_size(draw)
                made.put(made.file[path], f"new {i}", some_value(draw, size))
            if made.widths[0] != 2:  # into a direct block where our header allows for it, or huge
                made.put(made.file[path], "new large", numpy.void(draw.randbytes(60000)))
    count = check_contents(name, made)
    for dense in dense_objects(name)[1] if is_known() else []:
        check_spaces(dense)
    with h5py.File(name, "r+", libver="latest") as made.file:
        for path, contents in made.contents.items():
            for key in list(contents):
                made.remove(made.file[path], key)
    expect(check_contents(name, made) == 0, "attributes that were removed")
    return count


# All of it


def check_file(program, folder, made, tools, counts):
    """A file and its copy; returns the copy's heaps."""
    name, found = rewritten(program, folder, made)
    counts["attributes"] += check_contents(name, made)
    if tools:
        check_dump(name, made)
    for dense in found:
        counts["ids"] += followed(dense, made)
        counts["exchanged"] += check_exchanged(name, dense)
        if tools:
            counts["blocks"] += check_debug(name, dense, made.draw)
        check_damages(name, dense, made, tools, counts)
        counts[KINDS[min(dense.heap.depth, 2)]] += 1
        counts["headers"] += 1
    counts["went on"] += check_going_on(name, made)
    counts["files"] += 1
    os.remove(made.name)
    os.remove(name)
    return [dense.heap for dense in found]


def report(counts, tools):
    """Prints what was met; the last line is the sum."""
    heaps = ", ".join(f"{counts[kind]} {kind}" for kind in KINDS)
    print(f"written files: heaps: {heaps}; HDF5 went on with all files: {counts['went on']} attributes")
    print(f"written files: headers that our writer wrote: {counts['headers']}, of these heaps")
    print(
        f"written files: HDF5 went by {counts['ids']} IDs that our writer wrote; with two of them exchanged, "
        f"in {counts['exchanged']} heaps, it finds neither attribute"
    )
    if tools:
        refusals = f"h5dump refuses {counts['damaged for h5dump']} of the damaged copies, too, "
        refusals += f"and h5debug {counts['damaged for h5debug']}"
        print(f"written files: h5debug tells {counts['blocks']} blocks as we wrote them; {refusals}")
    else:
        print("written files: h5dump and h5debug: skipped, they are not at hand")
    if not is_known():
        print("written files: space and iterator in HDF5's own headers: skipped, they are known of HDF5 1.10 alone")
    print(
        f"written files: {counts['files']} files, {sum(counts[kind] for kind in KINDS)} heaps, "
        f"{counts['attributes']} attributes read back by h5py{', h5dump and h5debug' if tools else ''}; "
        f"{counts['damaged']} damaged copies refused"
    )


def main():
    program, folder = sys.argv[1:]
    os.mkdir(os.path.join(folder, "copies"))
    tools = bool(shutil.which("h5dump") and shutil.which("h5debug"))
    counts, depths = collections.Counter(), set()
    for made in made_files(folder):
        for heap in check_file(program, folder, made, tools, counts):
            depths.add((heap.image.offset_size, heap.depth))
    for due in [(2, 0), (2, 1)] + [(width, depth) for width in (4, 8) for depth in range(5)]:
        expect(due in depths, f"no heap of offset size and depth {due}")
    report(counts, tools)


if __name__ == "__main__":
    main()
