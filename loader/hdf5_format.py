"""Reads what real_files.py and written_files.py need of an HDF5 file, by the HDF5 File Format
Specification: superblock, object headers, version 2 B-trees, the blocks of a fractal heap and its filters.
Nothing here calls our library."""

import bisect
import collections
import zlib

LINK_INFO, FILTER_PIPELINE, CONTINUATION, ATTRIBUTE_INFO = 0x02, 0x0B, 0x10, 0x15
HUGE_OBJECTS, LINK_NAMES, LINK_ORDER, ATTRIBUTE_NAMES, ATTRIBUTE_ORDER = 1, 5, 6, 8, 9
HEADER_FIELDS = [  # of every fractal heap, after signature and version: name, and width or kind of number
    ("id_length", 2),
    ("filter_length", 2),
    ("flags", 1),
    ("largest_object", 4),
    ("next_huge", "length"),
    ("huge_tree", "address"),
    ("free_space", "length"),
    ("space_manager", "address"),
    ("managed_space", "length"),
    ("allocated_space", "length"),
    ("iterator", "length"),
    ("managed_count", "length"),
    ("huge_size", "length"),
    ("huge_count", "length"),
    ("tiny_size", "length"),
    ("tiny_count", "length"),
    ("width", 2),
    ("start", "length"),
    ("largest_direct", "length"),
    ("bits", 2),
    ("start_rows", 2),
    ("root", "address"),
    ("rows", 2),
]
FILTER_FIELDS = ["filters_at", "filtered_root", "filter_mask"]  # what only a filtered heap has, else 0
FIELD_NAMES = [  # what our library and the command call all these fields, in the same order
    "heap_id_length",
    "io_filter_encoded_length",
    "flags",
    "max_managed_object_size",
    "next_huge_object_id",
    "btree_huge_objects_address",
    "free_space_managed_blocks",
    "managed_block_free_space_manager_address",
    "managed_space_in_heap",
    "allocated_managed_space_in_heap",
    "direct_block_allocation_iterator_offset",
    "managed_objects_count",
    "huge_objects_size",
    "huge_objects_count",
    "tiny_objects_size",
    "tiny_objects_count",
    "table_width",
    "starting_block_size",
    "max_direct_block_size",
    "max_heap_size",
    "start_root_rows",
    "root_block_address",
    "current_rows_in_root_indirect_block",
    "io_filter_information_position",
    "filtered_root_direct_block_size",
    "io_filter_mask",
]


def expect(holds, what):
    """Like assert, and also there under python -O."""
    if not holds:
        raise AssertionError(what)


def told_fields(fields, position, offset_size, length_size):
    """What the command has to tell of a header with these numbers, in header order, as an object of JSON."""
    undefined = (1 << 8 * offset_size) - 1
    told = {"position": position, "offset_size": offset_size, "length_size": length_size}
    kinds = [kind for _, kind in HEADER_FIELDS] + [None] * len(FILTER_FIELDS)
    expect(len(fields) == len(kinds), "numbers of a header")
    for name, kind, number in zip(FIELD_NAMES, kinds, fields):
        told[name] = None if kind == "address" and number == undefined else number
    return told


def field_widths(offset_size, length_size):
    """How many bytes each of HEADER_FIELDS has."""
    kinds = {"address": offset_size, "length": length_size}
    return [kinds.get(width, width) for _, width in HEADER_FIELDS]


def spelled_header(fields, widths, filtered=b""):
    """The bytes of a header with these fields; what one with filters has for them stands before its checksum."""
    data = b"FRHP\0" + b"".join(number.to_bytes(width, "little") for number, width in zip(fields, widths)) + filtered
    return data + lookup3(data).to_bytes(4, "little")


class Cursor:
    """Reads little-endian fields one after the other."""

    def __init__(self, data, at, offset_size, length_size):
        self.data, self.at = data, at
        self.offset_size, self.length_size = offset_size, length_size

    def take(self, count):
        part = self.data[self.at : self.at + count]
        expect(len(part) == count, "bytes end too early")
        self.at += count
        return part

    def number(self, width):
        return int.from_bytes(self.take(width), "little")

    def address(self):
        return self.number(self.offset_size)

    def length(self):
        return self.number(self.length_size)

    def signature(self, text):
        """The signature and the version, which is 0 in all structures but the object header."""
        expect(self.take(5) == text + b"\0", f"no {text} at {self.at - 5}")


class Image:
    """The bytes of a file, with the widths, the root's address and its place for the end of the file that
    its superblock gives."""

    def __init__(self, data):
        self.data = data
        expect(data[:8] == b"\x89HDF\r\n\x1a\n" and data[8] in (2, 3), "no superblock")
        self.offset_size, self.length_size = data[9], data[10]
        self.undefined = (1 << 8 * self.offset_size) - 1
        at = self.at(12)
        self.end_place = 12 + 2 * self.offset_size
        base, _extension, end, self.root = (at.address() for _ in range(4))
        expect(base == 0 and end == len(data), "base address and end of file")

    def at(self, address):
        return Cursor(self.data, address, self.offset_size, self.length_size)

    def over(self, part):
        return Cursor(part, 0, self.offset_size, self.length_size)


class BasedImage(Image):
    """The bytes of a file from its superblock on. The widths are known; of what the superblock says nothing is used."""

    def __init__(self, data, widths):  # not that of Image, which takes a file without a user block alone
        self.data = data
        self.offset_size, self.length_size = widths
        self.undefined = (1 << 8 * self.offset_size) - 1


def messages(image, address):
    """The messages of a version 2 object header, as (type, bytes)."""
    at = image.at(address)
    expect(at.take(5) == b"OHDR\x02", f"no object header at {address}")
    flags = at.number(1)
    at.take(16 if flags & 0x20 else 0)  # times
    at.take(4 if flags & 0x10 else 0)  # limits of compact storage
    size = at.number(1 << (flags & 3))
    head = 6 if flags & 0x04 else 4
    chunks, found = [(at.at, at.at + size)], []
    for start, end in chunks:  # grows while it is walked
        at = image.at(start)
        while end - at.at >= head:
            kind, size = at.number(1), at.number(2)
            at.take(head - 3)
            part = at.take(size)
            found.append((kind, part))
            if kind == CONTINUATION:
                to = image.over(part)
                start, size = to.address(), to.length()
                expect(image.data[start : start + 4] == b"OCHK", f"no chunk at {start}")
                chunks.append((start + 4, start + size - 4))
    return found


def dense_storage(image, address, kind):
    """Heap and indexes of an object's attributes or links: (heap, B-trees), or None if not dense."""
    part = next((part for found, part in messages(image, address) if found == kind), None)
    if part is None:
        return None
    at = image.over(part)
    expect(at.number(1) == 0, "version of an info message")
    flags = at.number(1)
    if flags & 1:
        at.number(2 if kind == ATTRIBUTE_INFO else 8)  # largest creation order
    heap, names = at.address(), at.address()
    trees = [names, at.address()] if flags & 2 else [names]
    return None if heap == image.undefined else (heap, trees)


def bytes_for(limit):
    """How many bytes a count up to the limit takes."""
    return (limit.bit_length() + 7) // 8


class BTree:
    """A version 2 B-tree: its type, all its records in order, where each lies, and from where to where the
    checksum of each node runs."""

    def __init__(self, image, address):
        at = image.at(address)
        at.signature(b"BTHD")
        self.image, self.kind = image, at.number(1)
        self.node_size, self.record_size = at.number(4), at.number(2)
        self.depth = depth = at.number(2)
        self.split, self.merge = at.number(1), at.number(1)  # in percent
        root, count, total = at.address(), at.number(2), at.length()
        self._measure(depth)
        self.nodes = []
        self.header_span = address, at.at
        self.places = list(self._node(root, count, depth)) if total else []
        self.records = [image.at(place).take(self.record_size) for place in self.places]
        expect(len(self.records) == total, "number of records")

    def _measure(self, depth):
        """Widths of the counts in a node's pointers: records of the child, records below it."""
        room = self.node_size - 10
        below = room // self.record_size
        self.count_width, self.below_widths = bytes_for(below), [0]
        for _ in range(depth):
            pointer = self.image.offset_size + self.count_width + self.below_widths[-1]
            most = (room - pointer) // (self.record_size + pointer)
            below = (most + 1) * below + most
            self.below_widths.append(bytes_for(below))

    def _node(self, address, count, depth):
        """Where the records of a node and of those below it lie, in order."""
        at = self.image.at(address)
        at.signature(b"BTIN" if depth else b"BTLF")
        expect(at.number(1) == self.kind, "type of a node")
        own = [at.at + i * self.record_size for i in range(count)]
        at.take(count * self.record_size)
        for i in range(count + 1):
            if depth:
                child, records = at.address(), at.number(self.count_width)
                at.number(self.below_widths[depth - 1])
                yield from self._node(child, records, depth - 1)
            yield from own[i : i + 1]
        self.nodes.append((address, at.at))


def key_and_id(kind, record):
    """What a record is found by (hash of the name, or creation order), and its heap ID."""
    if kind in (LINK_NAMES, LINK_ORDER):
        width = 4 if kind == LINK_NAMES else 8
        key, heap_id = record[:width], record[width:]
    else:
        expect(kind in (ATTRIBUTE_NAMES, ATTRIBUTE_ORDER), f"B-tree of type {kind}")
        expect(record[8] == 0, "a shared message")
        key, heap_id = record[13:17] if kind == ATTRIBUTE_NAMES else record[9:13], record[:8]
    return int.from_bytes(key, "little"), heap_id


Block = collections.namedtuple("Block", "signature address offset size")  # on a way: its place, heap offset, bytes


Filter = collections.namedtuple("Filter", "number flags name values")
UNDO = {1: zlib.decompress, 3: lambda stored: stored[:-4]}  # deflate; fletcher32, whose sum is behind the bytes


def pipeline(message):
    """Version and filters of a Filter Pipeline message, all of whose bytes they take; a name is None where none is
    stored."""
    at = Cursor(message, 0, 0, 0)
    version, count = at.number(1), at.number(1)
    expect(version in (1, 2) and count <= 32, f"{count} filters of version {version}")
    expect(version == 2 or at.take(6) == bytes(6), "reserved bytes of a filter pipeline")
    filters = []
    for _ in range(count):
        number = at.number(2)
        named = at.number(2) if version == 1 or number >= 256 else 0
        flags, values = at.number(2), at.number(2)
        name = at.take(named)
        expect(not name or name.endswith(b"\0"), f"the filter's name {name}")
        expect(version == 2 or named % 8 == 0, "a name's length")
        data = tuple(at.number(4) for _ in range(values))
        expect(version == 2 or values % 2 == 0 or at.number(4) == 0, "padding of client data")
        filters.append(Filter(number, flags, name.split(b"\0")[0].decode() if name else None, data))
    expect(at.at == len(message), "bytes behind a filter pipeline")
    return version, filters


def undone(stored, filters, mask):
    """Bytes as they were before these filters, but for those whose bit in the mask says that they were skipped."""
    for i, each in reversed(list(enumerate(filters))):
        if not mask >> i & 1:
            stored = UNDO[each.number](stored)
    return stored


def header_length(image, filter_length=0):
    """Bytes of a fractal heap's header: with filters it has the size of a filtered root, its mask, and the filters."""
    filtered = image.length_size + 4 + filter_length if filter_length else 0
    return 26 + 12 * image.length_size + 3 * image.offset_size + filtered


class Heap:
    """A fractal heap: the fields of its header by name and where each lies, its filters, its direct blocks, and its
    indirect blocks as (address, heap offset, rows, indirect blocks above it). Of a filtered heap the direct blocks
    are kept as they were before the filters, by their heap offsets."""

    def __init__(self, image, address):
        self.image, self.address = image, address
        at = image.at(address)
        at.signature(b"FRHP")
        self.fields = {}  # name: place and width
        for (name, _), width in zip(HEADER_FIELDS, field_widths(image.offset_size, image.length_size)):
            self.fields[name] = at.at, width
            setattr(self, name, at.number(width))
        self.filters_at = self.filtered_root = self.filter_mask = 0
        self.filters = []
        if self.filter_length:
            self.filtered_root, self.filter_mask = at.length(), at.number(4)
            self.filters_at = at.at
            self.pipeline_version, self.filters = pipeline(at.take(self.filter_length))
        computed = lookup3(image.data[address : at.at])
        expect(at.number(4) == computed, "header checksum")
        self.length = at.at - address
        expect(self.length == header_length(image, self.filter_length), "length of a header")
        self.indirects, self.unfiltered = [], {}
        self.blocks = sorted(self._blocks())
        self.depth = max((len(above) for _, _, _, above in self.blocks), default=-1)

    def numbers(self):
        """What there is to tell of the header, in the order of FIELD_NAMES."""
        return [getattr(self, name) for name, _ in HEADER_FIELDS] + [getattr(self, name) for name in FILTER_FIELDS]

    def _blocks(self):
        """Every direct block that is there: (heap offset, size, address, indirect blocks above it)."""
        if self.root == self.image.undefined:
            return
        if self.rows == 0:
            yield self._direct(self.root, 0, self.start, (), self.filtered_root, self.filter_mask)
        else:
            yield from self._indirect(self.root, 0, self.rows, ())

    def _block(self, signature, at, offset):
        at.signature(signature)
        expect(at.address() == self.address, "header address of a block")
        expect(at.number((self.bits + 7) // 8) == offset, "heap offset of a block")

    def _direct(self, address, offset, size, above, stored=0, mask=0):
        at = self.image.at(address)
        if self.filter_length:
            block = undone(self.image.data[address : address + stored], self.filters, mask)
            expect(len(block) == size, f"a filtered block of {len(block)} bytes, not {size}")
            sum_at = self.direct_header() - 4
            computed = lookup3(block[:sum_at] + bytes(4) + block[sum_at + 4 :])
            expect(int.from_bytes(block[sum_at : sum_at + 4], "little") == computed, "checksum of a filtered block")
            self.unfiltered[offset] = block
            at = self.image.over(block)
        self._block(b"FHDB", at, offset)
        return offset, size, address, above

    def _indirect(self, address, offset, rows, above):
        at = self.image.at(address)
        self._block(b"FHIB", at, offset)
        self.indirects.append((address, offset, rows, above))
        above += (address,)
        for row in range(rows):
            size = self.start << max(row - 1, 0)
            for _ in range(self.width):
                child = at.address()
                has_sizes = self.filter_length and size <= self.largest_direct
                filtered = (at.length(), at.number(4)) if has_sizes else ()
                if child == self.image.undefined:
                    pass
                elif size <= self.largest_direct:
                    yield self._direct(child, offset, size, above, *filtered)
                else:
                    yield from self._indirect(child, offset, self.child_rows(size), above)
                offset += size

    def has_sums(self):
        """Whether direct blocks have checksums."""
        return bool(self.flags & 2)

    def direct_header(self):
        """Bytes of a direct block's header."""
        return (9 if self.has_sums() else 5) + self.image.offset_size + (self.bits + 7) // 8

    def indirect_size(self, rows):
        """Bytes of an indirect block."""
        return 9 + (rows * self.width + 1) * self.image.offset_size + (self.bits + 7) // 8

    def capacity(self, rows):
        """Bytes in the bodies of all direct slots below so many rows; 0 rows have the root block's."""
        if rows == 0:
            return self.start - self.direct_header()
        total = 0
        for row in range(rows):
            size = self.start << max(row - 1, 0)
            direct = size <= self.largest_direct
            one = size - self.direct_header() if direct else self.capacity(self.child_rows(size))
            total += self.width * one
        return total

    def child_rows(self, size):
        """The rows that fill a slot: they have 1, 1, 2, 4, .. times the first row's bytes."""
        return (size // (self.width * self.start)).bit_length()

    def decode(self, heap_id):
        """Offset and length of a managed ID: the length has the bytes that the smaller of the two sizes needs."""
        at = self.image.over(heap_id)
        at.number(1)
        offset = at.number((self.bits + 7) // 8)
        return offset, at.number(bytes_for(min(self.largest_direct, self.largest_object)))

    def block(self, offset):
        """The direct block that holds a heap offset."""
        return self.blocks[bisect.bisect(self.blocks, (offset, 1 << 64)) - 1]

    def way(self, offset):
        """The blocks on the way to a heap offset, the root first."""
        start, size, address, above = self.block(offset)
        rows = {address: (start, rows) for address, start, rows, _ in self.indirects}
        found = [Block(b"FHIB", at, rows[at][0], self.indirect_size(rows[at][1])) for at in above]
        return found + [Block(b"FHDB", address, start, size)]

    def position(self, offset, length):
        """Where in the file the bytes from a heap offset on lie."""
        expect(not self.filter_length, "objects of a filtered heap lie nowhere in the file")
        start, size, address, _ = self.block(offset)
        expect(start <= offset and offset + length <= start + size, "an object outside of its block")
        return address + offset - start

    def object(self, heap_id):
        """The bytes of a managed object of a filtered heap."""
        offset, length = self.decode(heap_id)
        start, size, _, _ = self.block(offset)
        expect(start <= offset and offset + length <= start + size, "an object outside of its block")
        return self.unfiltered[start][offset - start : offset - start + length]


def rotated(x, k):
    return (x << k | x >> (32 - k)) & 0xFFFFFFFF


def lookup3(data):
    """hashlittle of lookup3.c with initial value 0, byte order little-endian."""
    ones = 0xFFFFFFFF
    a = b = c = (0xDEADBEEF + len(data)) & ones
    if not data:
        return c
    padded = data + bytes(-len(data) % 12)
    for at in range(0, len(padded), 12):
        a = (a + int.from_bytes(padded[at : at + 4], "little")) & ones
        b = (b + int.from_bytes(padded[at + 4 : at + 8], "little")) & ones
        c = (c + int.from_bytes(padded[at + 8 : at + 12], "little")) & ones
        if at + 12 < len(padded):
            for first, second, third in ((4, 6, 8), (16, 19, 4)):
                a, c = (a - c) & ones ^ rotated(c, first), (c + b) & ones
                b, a = (b - a) & ones ^ rotated(a, second), (a + c) & ones
                c, b = (c - b) & ones ^ rotated(b, third), (b + a) & ones
    for first, second, third in ((14, 11, 25), (16, 4, 14)):
        c = ((c ^ b) - rotated(b, first)) & ones
        a = ((a ^ c) - rotated(c, second)) & ones
        b = ((b ^ a) - rotated(a, third)) & ones
    return ((c ^ b) - rotated(b, 24)) & ones
