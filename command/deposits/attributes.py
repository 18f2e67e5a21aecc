"""What deposit is measured by: reads files, whose names come from standard input, each ended by a zero byte, and writes
each as an attribute of the root group, unsigned bytes, by h5py's low level in HDF5's latest format.
    attributes.py FILE"""

import os
import sys

import numpy
from h5py import h5a, h5f, h5g, h5p, h5s, h5t


def main():
    access = h5p.create(h5p.FILE_ACCESS)
    access.set_libver_bounds(h5f.LIBVER_LATEST, h5f.LIBVER_LATEST)
    file = h5f.create(sys.argv[1].encode(), h5f.ACC_TRUNC, fapl=access)
    root = h5g.open(file, b"/")
    for name in sys.stdin.buffer.read().split(b"\0")[:-1]:
        with open(name, "rb") as opened:
            value = numpy.frombuffer(opened.read(), "u1")
        space = h5s.create_simple(value.shape)
        h5a.create(root, os.path.basename(name), h5t.STD_U8LE, space).write(value)
    file.close()


main()
