"""Holds the checked reader to HDF5's own on files that are damaged: bytes of their blocks are changed, and each file is
read by our C functions, by the command, and by HDF5 in a process of its own, since HDF5 1.10 may crash when it closes a
file after it has refused a nested block. Both must refuse the same files, but for what docs/DIFFERENCES.md has as 42: a
heap offset that is not the block's; and as 25 and 30: objects that HDF5 alone refuses.
"""

import collections
import os
import random
import subprocess

import h5py

import written_files
from asked import COMMAND, ask, ask_all
from damaged_copies import checked_answers, sealed
from hdf5_format import expect
from hdf5_heaps import OwnHeap, managed
from made_files import created, is_known

READ, REFUSED, OTHER, ENDED = range(4)  # how a process that reads ends: what it found is right, or not; nothing


def whole(name, data):
    with open(name, "wb") as opened:
        opened.write(data)


def read_apart(read):
    """How a read ends in a process of its own, which ends with its file open."""
    child = os.fork()
    if child == 0:
        status = ENDED
        try:
            status = read()
        finally:
            os._exit(status)
    status = os.waitstatus_to_exitcode(os.waitpid(child, 0)[1])
    expect(status in (READ, REFUSED, OTHER), f"a process that reads ends with {status}")
    return status


# Files that h5py writes


class Attributes:
    """A file of attributes, as h5py wrote it, and one of its heaps."""

    def __init__(self, made, dense):
        self.name, self.dense, self.contents = made.name, dense, made.contents[dense.path]
        self.data = dense.heap.image.data

    def read(self, name, heap_id):
        """How h5py reads the attribute of an ID."""
        key = self.dense.name_of(heap_id)

        def read():
            self.opened = h5py.File(name, "r")  # kept, since HDF5 may crash when it is closed
            owner = self.opened[self.dense.path].id
            try:
                content = written_files.content_read(h5py.h5a.open(owner, key))
            except (KeyError, OSError) as error:
                return REFUSED if "incorrect metadata checksum" in str(error) else OTHER
            return READ if content == self.contents[key.decode()] else OTHER

        return read_apart(read)


def in_blocks(draw, heap, heap_id):
    """Places in the blocks on the way to an object: in each field, and some more."""
    header = 5 + heap.image.offset_size + (heap.bits + 7) // 8
    for block in heap.way(heap.decode(heap_id)[0]):
        ends = {0, 4, 5, header - 1, header, header + 3, block.size - 4, block.size - 1}
        for place in sorted(ends | {draw.randrange(block.size) for _ in range(3)}):
            yield block.address + place


def elsewhere(draw, heap, heap_id):
    """Places in blocks that are on the way to other objects alone."""
    way = {block.address for block in heap.way(heap.decode(heap_id)[0])}
    others = [(address, size) for _, size, address, _ in heap.blocks if address not in way]
    others += [(address, heap.indirect_size(rows)) for address, _, rows, _ in heap.indirects if address not in way]
    for address, size in draw.sample(others, min(len(others), 6)):
        yield address + draw.randrange(size)


def told(program, name, heap, heap_id, data, counts):
    """Whether our readers refuse: both answers in C are those due by the format, and the command says the same of one in
    four files, with the place of the block."""
    due, block = checked_answers(heap, heap_id, data)
    found, _, last = ask_all(program, name, heap.image, heap.address, [heap_id])[0]
    expect((found, last) == (due, block), f"{found}, {last}, not {due}, {block}")
    counts[f"by {due[0]}"] += 1
    counts["told"] += 1
    if counts["told"] % 4 == 0 and os.path.exists(COMMAND):
        words = [COMMAND, "read", "--quiet", name, str(heap.address), heap_id.hex()]
        run = subprocess.run(words, capture_output=True)
        place = f" at {block[1]:,} in the file, heap offset {block[2]:,}, ".encode()
        said = b"" if due[0] == 0 else b"poilures: refused by %d: " % due[0]
        expect(run.stderr.startswith(said) and (due[0] == 0 or place in run.stderr), f"{words}: {run}")
        found = data[due[1] : due[1] + due[2]] if due[0] == 0 else b""
        expect((run.returncode, run.stdout) == (due[0] != 0, found), f"{words}: {run}")
        counts["command"] += 1
    return due[0] != 0


def check_attributes(program, folder, attributes, draw, counts):
    """The deepest object of a heap and another one, with a byte changed at many places."""
    dense, heap = attributes.dense, attributes.dense.heap
    ids = [heap_id for heap_id in dense.places if heap_id[0] >> 4 & 3 == 0]
    if not ids:
        return
    name = os.path.join(folder, "changed.h5")
    deepest = max(ids, key=lambda heap_id: (len(heap.way(heap.decode(heap_id)[0])), heap_id))
    for heap_id in {deepest, draw.choice(ids)}:
        for places, is_on_way in ((in_blocks, True), (elsewhere, False)):
            for at in places(draw, heap, heap_id):
                data = bytearray(attributes.data)
                data[at] ^= 1 << draw.randrange(8)
                whole(name, data)
                refused = told(program, name, heap, heap_id, bytes(data), counts)
                ended = attributes.read(name, heap_id)
                due = (True, REFUSED) if is_on_way else (False, READ)
                expect((refused, ended) == due, f"{at} changed: {refused}, by HDF5 {ended}")
                counts["on the way" if is_on_way else "elsewhere"] += 1
    counts["heaps"] += 1
    counts["depth", heap.depth] += 1
    os.remove(name)


# Heaps that HDF5's own functions make


def hdf5_reads(own, name, heap_id, due):
    """How HDF5's own functions read an object of a heap in a file."""

    def read():
        heap = own.opened(name)
        if not heap:
            return REFUSED
        found = own.read_or_none(heap_id, len(due))
        return REFUSED if found is None else READ if found == due else OTHER

    return read_apart(read)


def changed(heap, way, i, place, bit):
    """The file with one bit of a block changed; and that with the block's checksum made good, unless it is in the entry
    that leads on, which would lead elsewhere."""
    block, width = way[i], heap.image.offset_size
    one = bytearray(heap.image.data)
    one[block.address + place] ^= 1 << bit
    yield one
    entries = 5 + width + (heap.bits + 7) // 8
    begin = entries + max(place - entries, 0) // width * width
    entry = heap.image.data[block.address + begin :][:width]
    if i + 1 == len(way) or place < entries or int.from_bytes(entry, "little") != way[i + 1].address:
        mended = bytearray(one)
        sealed(heap, block, mended)
        yield mended


def is_offset(heap, place):
    """Whether a byte of a block is one of its heap offset."""
    begin = 5 + heap.image.offset_size
    return begin <= place < begin + (heap.bits + 7) // 8


def check_own(program, folder, counts, sizes, **other):
    """A heap with objects of these sizes: each byte of the fields that every block on the way to the last one begins
    with, and some behind, changed with the checksum as it was and made good. HDF5 does not compare a block's heap
    offset, but reckons with it: where no checksum tells of it, it reads other bytes, or none that lie in the block;
    ours refuses."""
    draw = random.Random(f"{sizes} {other}")
    own = OwnHeap(folder, **other)
    objects = {}
    for size in sizes:
        data = draw.randbytes(size)
        objects[own.insert_bytes(data)] = data
    heap_id, due = list(objects.items())[-1]
    heap = own.kept()
    offset, length = heap.decode(heap_id)
    name, stored = own.name + ".changed", heap.position(offset, length)
    way = heap.way(offset)
    for i, block in enumerate(way):
        front = 5 + heap.image.offset_size + (heap.bits + 7) // 8
        places = set(range(front + 4)) | {draw.randrange(block.size) for _ in range(20)}
        for place in sorted(places | {block.size - 4, block.size - 1}):
            for is_mended, data in enumerate(changed(heap, way, i, place, draw.randrange(8))):
                whole(name, data)
                refused = told(program, name, heap, heap_id, bytes(data), counts)
                ended = hdf5_reads(own, name, heap_id, bytes(data[stored : stored + length]))
                has_sum = block.signature == b"FHIB" or heap.has_sums()
                if is_offset(heap, place) and (is_mended or not has_sum):
                    expect(refused, f"{place} of a block, its heap offset")
                    counts["an offset", ended] += 1
                else:
                    expect((refused, ended) in ((True, REFUSED), (False, READ)), f"{place}: {refused}, by HDF5 {ended}")
                    counts["own"] += 1
    os.remove(name)
    check_in_blocks(program, own, heap, counts)
    os.remove(own.name)
    counts["own heaps"] += 1


def check_in_blocks(program, own, heap, counts):
    """Objects that begin in the header of the root, or have no bytes: ours finds them, and HDF5 none (30, 25)."""
    if heap.rows:
        return
    first = heap.direct_header()
    for heap_id in (managed(0, 1), managed(first - 1, 1), managed(0, first + 8), managed(first, 0), managed(0, 0)):
        offset, length = heap.decode(heap_id)
        found = ask(program, own.name, heap.image, heap.address, [heap_id])
        expect(found == [(0, heap.root + offset, length)], f"{heap_id.hex()}: {found}")
        expect(hdf5_reads(own, own.name, heap_id, b"") == REFUSED, f"{heap_id.hex()} by HDF5")
        counts["in headers, or empty"] += 1


def write_nested(made):
    """More objects of as many bytes as HDF5 has in its direct blocks than a root's rows of these hold."""
    made.put_sizes(made.group("nested"), [3900 + i % 100 for i in range(200)])


FILES = [(written_files.write_small, (2, 4)), (written_files.write_small, (8, 8)), (write_nested, (4, 8))]


def check(program, folder):
    """What to print of it."""
    counts = collections.Counter()
    draw = random.Random("changed")
    for write, widths in FILES:
        made = written_files.Made(os.path.join(folder, f"checked_{write.__name__}_{widths[0]}.h5"), widths, False)
        with created(made.name, *widths) as made.file:
            write(made)
        for dense in written_files.dense_objects(made.name)[1]:
            check_attributes(program, folder, Attributes(made, dense), draw, counts)
        os.remove(made.name)
    if is_known():
        for sums in (True, False):
            check_own(program, folder, counts, (50, 40), checksums=sums)
            check_own(program, folder, counts, (1003,), checksums=sums)
            check_own(program, folder, counts, (500, 600, 700), checksums=sums, start=512, bits=32, width=2)
            small = dict(bits=24, largest_direct=4096, largest_object=4000)
            check_own(program, folder, counts, (300,), checksums=sums, **small)
    depths = sorted(depth for depth in range(9) if counts["depth", depth])
    expect(depths == [0, 1, 2], f"depths {depths}")
    expect(not is_known() or counts["an offset", OTHER], "no heap offset by which HDF5 reads other bytes")
    numbers = ", ".join(f"{counts[f'by {n}']} by {n}" for n in (4, 5, 18, 19))
    commanded = f"{counts['command']} by the command, too" if counts["command"] else "the command is not built"
    yield (
        f"checked reads: {counts['heaps']} heaps of h5py's, depth up to {depths[-1]}: {counts['on the way']} bytes of "
        f"blocks on the way changed, refused where h5py refuses; {counts['elsewhere']} of other blocks, read as by h5py"
    )
    own = f"{counts['own heaps']} heaps of HDF5's own functions, {counts['own']} changes refused or read as by HDF5, "
    offsets = [counts["an offset", ended] for ended in (READ, OTHER, REFUSED)]
    own += f"heap offsets that ours refuses, {offsets[0]} read by HDF5, {offsets[1]} read as other bytes, {offsets[2]} "
    own += f"refused; {counts['in headers, or empty']} objects in headers or without bytes that HDF5 alone refuses"
    yield f"checked reads: {own if is_known() else 'own functions skipped, they are known of HDF5 1.10 alone'}"
    yield f"checked reads: refused {numbers}; {commanded}"
