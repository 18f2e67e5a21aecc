"""Holds what docs/DIFFERENCES.md says of HDF5's own library: small heaps, made and read by the functions that it
has for fractal heaps. They are private to it, so they are called only in the version whose declarations stand
here. The numbers are those of the cases."""

import ctypes
import os

import h5py
from h5py import h5a, h5g, h5p, h5s, h5t

import hdf5_format as form
from hdf5_format import expect
from made_files import created, is_known

BODY = 22  # where the body of a direct block begins, at offset size 8 and 40 heap bits, with a checksum


class Parameters(ctypes.Structure):
    """H5HF_create_t, with room for its filters, of which there are none."""

    _fields_ = [
        ("width", ctypes.c_uint),
        ("start", ctypes.c_size_t),
        ("largest_direct", ctypes.c_size_t),
        ("bits", ctypes.c_uint),
        ("start_rows", ctypes.c_uint),
        ("checksums", ctypes.c_bool),
        ("largest_object", ctypes.c_uint32),
        ("id_length", ctypes.c_uint16),
        ("filters", ctypes.c_byte * 512),
    ]


# What docs/RULES.md has as fixed, with the largest object that this allows; IDs as long as they must be.
FIXED = dict(width=4, start=1024, largest_direct=65536, bits=40, start_rows=1)
FIXED.update(checksums=True, largest_object=65536 - BODY, id_length=0)


def functions():
    """HDF5's own functions, with the types that ctypes cannot guess."""
    library = ctypes.CDLL(h5p.__file__)
    library.H5I_object.argtypes = [ctypes.c_int64]
    library.H5CX_set_tag.argtypes = [ctypes.c_uint64]
    library.H5I_object.restype = library.H5HF_create.restype = ctypes.c_void_p
    library.H5HF_create.argtypes = [ctypes.c_void_p] * 2
    library.H5HF_insert.argtypes = [ctypes.c_void_p, ctypes.c_size_t] + [ctypes.c_void_p] * 2
    for name in ("H5HF_get_id_len", "H5HF_get_heap_addr"):
        getattr(library, name).argtypes = [ctypes.c_void_p] * 2
    for name in ("H5HF_read", "H5HF_get_obj_len", "H5HF_get_obj_off"):
        getattr(library, name).argtypes = [ctypes.c_void_p] * 3
    library.H5HF_close.argtypes = [ctypes.c_void_p]
    library.H5HF_open.argtypes = [ctypes.c_void_p, ctypes.c_uint64]
    library.H5HF_open.restype = ctypes.c_void_p
    return library


class OwnHeap:
    """A heap that HDF5 makes in a file of its own; when closed, its fields and blocks are read by the format."""

    def __init__(self, folder, **other):
        self.name = os.path.join(folder, "own.h5")
        file = self._in(created(self.name, 8, 8))
        parameters = Parameters(**{**FIXED, **other})
        self.heap = self.library.H5HF_create(file, ctypes.byref(parameters))
        expect(self.heap, f"no heap with {other}")
        self.id_length = self._told(self.library.H5HF_get_id_len, ctypes.c_size_t)
        self.address = self._told(self.library.H5HF_get_heap_addr, ctypes.c_uint64)

    def _in(self, file):
        """What HDF5's functions know an open file by."""
        self.file, self.library = file, functions()
        self.library.H5CX_push()  # what HDF5's public functions do first
        self.library.H5CX_set_tag(1)
        return self.library.H5I_object(self.file.id.id)

    def _told(self, function, kind, *heap_id):
        number = kind()
        expect(function(self.heap, *heap_id, ctypes.byref(number)) >= 0, function.__name__)
        return number.value

    def insert(self, size):
        """The ID of a new object of so many bytes; None where HDF5 refuses it."""
        return self.insert_bytes(b"x" * size)

    def insert_bytes(self, data):
        """The same of an object of these bytes."""
        heap_id = ctypes.create_string_buffer(64)
        number = self.library.H5HF_insert(self.heap, len(data), data, heap_id)
        return heap_id.raw[: self.id_length] if number >= 0 else None

    def decode(self, heap_id):
        """Offset and length of a managed object."""
        offset = self._told(self.library.H5HF_get_obj_off, ctypes.c_uint64, heap_id)
        return offset, self.length(heap_id)

    def length(self, heap_id):
        return self._told(self.library.H5HF_get_obj_len, ctypes.c_size_t, heap_id)

    def reads(self, heap_id):
        """Whether HDF5 reads an object."""
        return self.library.H5HF_read(self.heap, heap_id, ctypes.create_string_buffer(70000)) >= 0

    def read_bytes(self, heap_id):
        """What HDF5 reads by an ID, as many bytes as it says that the object has."""
        found = ctypes.create_string_buffer(self.length(heap_id))
        expect(self.library.H5HF_read(self.heap, heap_id, found) >= 0, f"HDF5's reading by {heap_id.hex()}")
        return found.raw

    def read_or_none(self, heap_id, length):
        """What HDF5 reads by an ID whose object has so many bytes; None where it refuses."""
        found = ctypes.create_string_buffer(max(length, 1))
        read = self.library.H5HF_read(self.heap, heap_id, found) >= 0
        return found.raw[:length] if read else None

    def opened(self, name):
        """The heap in another file, at the same address, opened by HDF5; nothing where it refuses the header."""
        self.heap = self.library.H5HF_open(self._in(h5py.File(name, "r")), self.address)
        return self.heap

    def kept(self):
        """The heap in its file, which is left."""
        self.library.H5HF_close(self.heap)
        self.library.H5CX_pop()
        self.file.close()
        with open(self.name, "rb") as opened:
            return form.Heap(form.Image(opened.read()), self.address)

    def closed(self):
        heap = self.kept()
        os.remove(self.name)
        return heap

    def opened_with(self, **numbers):
        """The heap opened by HDF5 again, with other numbers in its header."""
        heap = self.kept()
        data = bytearray(heap.image.data)
        for name, number in numbers.items():
            place, width = heap.fields[name]
            data[place : place + width] = number.to_bytes(width, "little")
        end = heap.address + form.header_length(heap.image) - 4
        data[end : end + 4] = form.lookup3(bytes(data[heap.address : end])).to_bytes(4, "little")
        with open(self.name, "wb") as opened:
            opened.write(data)
        self.heap = self.library.H5HF_open(self._in(h5py.File(self.name, "r")), self.address)
        expect(self.heap, f"no heap opened with {numbers}")
        return self


def makes(folder, **other):
    """Whether HDF5 makes a heap of these numbers."""
    try:
        OwnHeap(folder, **other).closed()
    except AssertionError:
        return False
    return True


def managed(offset, length, offset_width=5, length_width=2):
    """A managed ID."""
    return b"\0" + offset.to_bytes(offset_width, "little") + length.to_bytes(length_width, "little")


def check_fields(folder):
    """The fields of managed IDs: whole bytes, as many as heap bits and lengths need (3, 5, 18, 23, 24); by how many
    bytes the length parts from the format's words where the largest direct block is a power of 256, or no object may
    be managed (39, 40)."""
    heap = OwnHeap(folder, bits=12, largest_direct=1024, largest_object=1000)
    expect(heap.decode(bytes([0, 1, 2, 3, 0])) == (513, 3), "12 heap bits")
    heap.closed()
    heap = OwnHeap(folder, bits=64, largest_object=4096)
    expect(heap.insert(100) == managed(25, 100, offset_width=8), "64 heap bits")
    expect(heap.decode(bytes([0, 1, 2, 3, 4, 5, 6, 7, 8, 9, 0])) == (0x0807060504030201, 9), "64 heap bits")
    heap.closed()
    heap = OwnHeap(folder, largest_object=255)
    expect(heap.insert(100) == managed(BODY, 100, length_width=1), "a largest object of 255 bytes")
    heap.closed()
    expect(not makes(folder, largest_object=65536), "a largest object of as many bytes as the largest direct block")
    heap = OwnHeap(folder, id_length=9)
    expect(heap.insert(100) == managed(BODY, 100) + b"\0", "an ID of nine bytes")
    expect(heap.decode(managed(1, 2) + b"\1") == (1, 2), "an ID of nine bytes")
    heap = heap.opened_with(largest_object=65536)
    expect(heap.decode(managed(0, 1) + b"\1") == (0, 1), "a largest direct block of 65,536 bytes")
    heap = heap.opened_with(largest_direct=1 << 24, largest_object=(1 << 32) - 1)
    expect(heap.decode(managed(0, 1) + b"\1") == (0, 65537), "a largest direct block of 2^24 bytes")
    heap = heap.opened_with(largest_direct=256)
    expect(heap.decode(managed(1, 0x302)) == (1, 2), "a largest direct block of 256 bytes")
    heap = heap.opened_with(largest_direct=1)
    expect(heap.decode(managed(1, 0x302)) == (1, 0), "a largest direct block of one byte")
    heap.closed()
    heap = OwnHeap(folder, largest_object=0)
    expect(heap.id_length == 7 and heap.decode(managed(1, 2)) == (1, 2), "no managed objects")
    expect(heap.insert(1)[0] == 0x10, "an object of one byte, where none is managed")
    heap.closed()


def check_kinds(folder):
    """Which objects are tiny, managed and huge, and the two forms of tiny IDs (9, 12, 25, 29, 38)."""
    heap = OwnHeap(folder, id_length=8)
    expect(heap.insert(0) is None, "an empty object")
    expect(heap.insert(1) == b"\x20x" + bytes(6), "an object of one byte")
    expect(heap.insert(7) == b"\x26" + b"x" * 7, "an object of seven bytes")
    expect(heap.insert(8) == managed(BODY, 8), "an object of eight bytes")
    expect(heap.insert(65515)[0] == 0x10, "an object of 65,515 bytes")
    heap.closed()
    heap = OwnHeap(folder, id_length=18)
    expect(heap.insert(10) == b"\x29" + b"x" * 10 + bytes(7), "a tiny object at 18")
    expect(heap.length(b"\x29\x57" + bytes(16)) == 10, "a tiny object at 18")
    heap.closed()
    heap = OwnHeap(folder, id_length=19)
    expect(heap.insert(10) == b"\x20\x09" + b"x" * 10 + bytes(7), "a tiny object at 19")
    heap.closed()
    heap = OwnHeap(folder, checksums=False)
    expect(heap.insert(8) == managed(BODY - 4, 8), "direct blocks without checksums")
    heap.closed()


def check_reads(folder):
    """What HDF5 tests before it reads (2, 16, 25, 30 to 33)."""
    heap = OwnHeap(folder, largest_object=100)
    first = heap.insert(50)
    expect(first == managed(BODY, 50, length_width=1), "an object of 50 bytes")
    expect(heap.insert(100) == managed(BODY + 50, 100, length_width=1), "an object of 100 bytes")
    refused = {
        "of another version": b"\xc0" + first[1:],
        "of another version, tiny": b"\xe0" + first[1:],
        "past its block": managed(1023, 2, length_width=1),
        "behind its block": managed(1024, 1, length_width=1),
        "in a block's header": managed(BODY - 4, 1, length_width=1),
        "at 0": managed(0, 1, length_width=1),
        "without length": managed(BODY, 0, length_width=1),
        "above the largest": managed(BODY, 101, length_width=1),
    }
    for what, heap_id in refused.items():
        expect(not heap.reads(heap_id), f"an object {what}")
    # The lowest four bits are reserved: HDF5 does not look at them.
    for heap_id in (first, b"\x0f" + first[1:]):
        expect(heap.reads(heap_id), "an object of 50 bytes")
    heap.closed()


def spaces(heap):
    return heap.rows, heap.iterator, heap.free_space, heap.managed_space, heap.allocated_space


def check_spaces(folder):
    """Iterator and free space (26, 27); no block without objects."""
    heap = OwnHeap(folder).closed()
    expect(spaces(heap) == (0, 0, 0, 0, 0) and heap.root == heap.image.undefined, "no objects")
    heap = OwnHeap(folder)
    heap.insert(8)
    expect(spaces(heap.closed()) == (0, 0, 1024 - BODY - 8, 1024, 1024), "one direct block")
    heap = OwnHeap(folder)
    expect(heap.insert(1003) == managed(8214, 1003), "an object of 1,003 bytes")
    expect(spaces(heap.closed()) == (3, 10240, 15117, 16384, 2048), "an object of 1,003 bytes")


def check_nested(folder):
    """The rows and entries of nested blocks (21, 22); slots that were passed, and the rows of a root that grows."""
    heap = OwnHeap(folder)
    for offset in (262144, 327680, 393216, 458752):
        expect(heap.insert(65514) == managed(offset + BODY, 65514), "an object in row 7")
    expect(heap.insert(65514) == managed(2359296 + BODY, 65514), "an object in row 10")
    expect(heap.insert(8) == managed(BODY, 8), "an object in a slot that was passed")
    expect(heap.closed().rows == 16, "the rows of a root")
    heap = OwnHeap(folder)
    for row in range(8):
        for _ in range(4):
            heap.insert((1024 << max(row - 1, 0)) - BODY)  # fills its block
    expect(heap.insert(8) == managed(524288 + BODY, 8), "an object in row 8")
    heap = heap.closed()
    found = [(offset, rows) for _, offset, rows, _ in heap.indirects]
    expect(found == [(0, 16), (524288, 6)], "a nested block, found by an entry of the root's row 8")


def check_widths(folder):
    """The sizes of offsets that a file can have (28): a heap of attributes is written and read at each."""
    name = os.path.join(folder, "widths.h5")
    for size in (2, 4, 8, 16):
        with created(name, size, 8) as file:
            file.attrs.update({f"attribute {i}": i for i in range(12)})
        with h5py.File(name, "r") as file:
            found = {key: int(value) for key, value in file.attrs.items()}
        expect(found == {f"attribute {i}": i for i in range(12)}, f"an offset size of {size}")
    os.remove(name)
    for size in (1, 3, 5, 32):
        try:
            h5p.create(h5p.FILE_CREATE).set_sizes(size, 8)
        except ValueError:
            continue
        raise AssertionError(f"an offset size of {size}")


def renamed_is_removed(name, order):
    """Whether HDF5 removes an attribute, in dense storage from the start, that was renamed."""
    with h5py.File(name, "w", libver="latest") as file:
        kind = h5p.create(h5p.GROUP_CREATE)
        kind.set_attr_creation_order(order)
        kind.set_attr_phase_change(0, 0)
        group = h5g.create(file.id, b"group", gcpl=kind)
        h5a.create(group, b"a", h5t.STD_U8LE, h5s.create(h5s.SCALAR))
        h5a.rename(group, b"a", b"b")
        try:
            h5a.delete(group, b"b")
        except KeyError as error:
            expect("record is not in B-tree" in str(error), f"not removed for another cause: {error}")
            return False
    return True


def check_order(folder):
    """An attribute that was renamed cannot be removed where creation order is indexed (41)."""
    name, tracked = os.path.join(folder, "order.h5"), h5p.CRT_ORDER_TRACKED
    for order, due in [(0, True), (tracked, True), (tracked | h5p.CRT_ORDER_INDEXED, False)]:
        expect(renamed_is_removed(name, order) == due, f"creation order {order}")
    os.remove(name)


def check(folder):
    """What to print of it."""
    if not is_known():
        return "HDF5's own functions and numbers: skipped, they are known of HDF5 1.10 alone"
    for part in (check_widths, check_fields, check_kinds, check_reads, check_spaces, check_nested, check_order):
        part(folder)
    return "HDF5's own functions do as docs/DIFFERENCES.md says of them"
