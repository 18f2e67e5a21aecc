"""What real_files.py and written_files.py share in making files with h5py: widths, sizes and values; and whose choices
they know."""

import h5py
import numpy
from h5py import h5f, h5p

WIDTHS = [(8, 8), (8, 4), (4, 8), (4, 4), (2, 8), (2, 4)]  # sizes of offsets and lengths
VERSION = 1, 10  # of HDF5: where the format leaves a choice, another may make another one
EDGES = [1, 2, 60, 900, 3900]  # of the sizes of data; an object above 4,096 bytes is huge


def created(name, offset_size, length_size, oldest=h5f.LIBVER_LATEST):
    """A new file with these widths, of the latest format, or of as old a one as can be."""
    sizes = h5p.create(h5p.FILE_CREATE)
    sizes.set_sizes(offset_size, length_size)
    access = h5p.create(h5p.FILE_ACCESS)
    access.set_libver_bounds(oldest, h5f.LIBVER_LATEST)
    return h5py.File(h5f.create(name.encode(), h5f.ACC_TRUNC, sizes, access))


def is_known():
    """Whether this is the HDF5 of which docs/DIFFERENCES.md tells, whose own numbers the tests have."""
    return h5py.version.hdf5_version_tuple[:2] == VERSION


def some_size(draw):
    low = draw.randrange(len(EDGES) - 1)
    return draw.randrange(EDGES[low], EDGES[low + 1])


def some_value(draw, size):
    """A value of about `size` bytes, of one of the types that hdf5_messages.py knows."""
    data = draw.randbytes(size)
    kind = draw.choice(["<u1", "<u1", "<i4", ">i4", "<u8", "<f8", "text", "scalar", "square", "none"])
    if kind == "text":
        return numpy.array(data.hex()[:size].encode(), dtype=f"S{size}")
    if kind == "scalar":
        return numpy.int32(draw.randrange(1 << 31))
    if kind == "square":
        return numpy.frombuffer(data[: size // 2 * 2], "<u1").reshape(2, size // 2)
    if kind == "none":
        return h5py.Empty("<i4")
    return numpy.frombuffer(data + bytes(-size % 8), "<u1").view(kind)
