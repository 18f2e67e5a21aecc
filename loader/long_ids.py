"""Reads heaps whose IDs are longer than offset and length need: HDF5 makes them when it is asked, pads the IDs with
zeros, and reads them with any padding. Each object is read by its ID as HDF5 gave it, and with the padding all ones and
random: HDF5 gives its bytes, and we its place."""

import os
import random

from asked import ask
from hdf5_format import expect
from hdf5_heaps import OwnHeap
from made_files import is_known

LENGTHS = (9, 12, 17, 40)  # of IDs, which hold up to 16 bytes themselves, and one of 40 bytes 38
OFFSET_END = 1 + 5  # bytes of an ID up to the length: version and type, offset
SIZES = (41, 1002, 300, 41, 4000, 65514, 250, 60000, 1003, 65514, 65514, 65514, 65514, 100)


def padded(draw, heap_id, fields):
    """The ID with other padding behind so many bytes: all ones, and random bytes."""
    count = len(heap_id) - fields
    expect(heap_id[fields:] == bytes(count), "HDF5's padding")
    return [heap_id[:fields] + padding for padding in (b"\xff" * count, draw.randbytes(count))]


def check_length(program, folder, length, sizes=SIZES, length_bytes=2, **other):
    """A heap with IDs of this length: how many reads by them there were."""
    draw, own = random.Random(f"IDs of {length} bytes"), OwnHeap(folder, id_length=length, **other)
    expect(own.id_length == length, f"IDs of {length} bytes")
    objects = {}
    for size in sizes:
        data = draw.randbytes(size)
        objects[own.insert_bytes(data)] = data
    expect(len(objects) == len(sizes), "IDs that are alike")
    others = {heap_id: padded(draw, heap_id, OFFSET_END + length_bytes) for heap_id in objects}
    for heap_id, data in objects.items():
        for one in (heap_id, *others[heap_id]):
            expect(own.length(one) == len(data), f"HDF5's length by {one.hex()}")
            expect(own.read_bytes(one) == data, f"HDF5's bytes by {one.hex()}")
    heap, count = own.kept(), 0
    for heap_id, data in objects.items():
        asked = [heap_id, *others[heap_id]]
        place = heap.position(*heap.decode(heap_id))
        expect(heap.image.data[place : place + len(data)] == data, "an object in the file")
        found = ask(program, own.name, heap.image, heap.address, asked)
        expect(found == [(0, place, len(data))] * len(asked), f"{heap_id.hex()}: {found}")
        count += len(asked)
    os.remove(own.name)
    return count


def check(program, folder):
    """What to print of it."""
    if not is_known():
        return "IDs longer than they need to be: skipped, HDF5's own functions are known of HDF5 1.10 alone"
    count = sum(check_length(program, folder, length) for length in LENGTHS)
    count += check_length(program, folder, 12, (41, 255, 100, 255, 17), 1, largest_object=255)
    lengths = ", ".join(map(str, LENGTHS))
    paddings = "padding of zeros, ones and random bytes"
    return f"IDs of {lengths} bytes, one heap with lengths of one byte: {count} reads, {paddings}, byte for byte"
