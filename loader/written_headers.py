"""Headers of heaps as our writer writes them: the program of write_header.c."""

import os
import subprocess

import hdf5_format as form
from hdf5_format import expect


def written_header(program, image, fields):
    """The bytes of a header with these fields, in header order, in a file of the image's widths. The program of
    write_header.c is beside the one that is named."""
    line = " ".join(str(number) for number in (image.offset_size, image.length_size, *fields))
    beside = os.path.join(os.path.dirname(program), "write_header")
    run = subprocess.run([beside], input=line + "\n", text=True, stdout=subprocess.PIPE, check=True)
    number, length, checksum, digits = run.stdout.split()
    header = bytes.fromhex(digits)
    due = 0, form.header_length(image), form.lookup3(header[:-4])
    expect((int(number), int(length), int(checksum)) == due, f"{number}, {length}, {checksum} for a header, not {due}")
    expect(len(header) == form.header_length(image), "bytes of a header")
    return header
