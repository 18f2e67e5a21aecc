"""Builds the link and attribute messages that must lie in an object's heap, by the HDF5 File Format
Specification, from what h5py tells of the links and attributes. Nothing here reads a heap."""

import numpy
from h5py import h5a, h5l, h5s, h5t

from hdf5_format import LINK_INFO, expect, lookup3


def little(number, width):
    return number.to_bytes(width, "little")


def datatype_message(kind):
    """A datatype, version 1: fixed-point, floating-point (IEEE, 64 bits) or fixed string."""
    size, number = kind.get_size(), kind.get_class()
    if number == h5t.STRING:
        bits, rest = kind.get_strpad() | kind.get_cset() << 4, b""
    elif number == h5t.INTEGER:
        signed = kind.get_sign() == h5t.SGN_2
        bits = (kind.get_order() == h5t.ORDER_BE) | signed << 3
        rest = little(0, 2) + little(8 * size, 2)
    else:
        expect(number == h5t.FLOAT and size == 8, "another datatype")
        bits = 0x3F20  # sign at bit 63, leading 1 implied, little-endian
        rest = little(0, 2) + little(64, 2) + bytes([52, 11, 0, 52]) + little(1023, 4)
    return bytes([0x10 | number]) + little(bits, 3) + little(size, 4) + rest


def dataspace_message(space, length_size):
    """A dataspace, version 2; HDF5's library stores the largest sizes of a simple one, too."""
    kind = {h5s.SCALAR: 0, h5s.SIMPLE: 1, h5s.NULL: 2}[space.get_simple_extent_type()]
    sizes = space.get_simple_extent_dims() if kind == 1 else ()
    head = bytes([2, len(sizes), 1 if kind == 1 else 0, kind])
    return head + b"".join(little(size, length_size) for size in 2 * sizes)


def attribute_message(image, owner, name):
    """(creation order, bytes) of an attribute message, version 3."""
    told, attribute = h5a.get_info(owner, name), h5a.open(owner, name)
    kind, space = attribute.get_type(), attribute.get_space()
    datatype, dataspace = datatype_message(kind), dataspace_message(space, image.length_size)
    data = b""
    if space.get_simple_extent_type() != h5s.NULL:
        read = numpy.empty(attribute.shape, attribute.dtype)
        attribute.read(read, mtype=kind)
        data = read.tobytes()
    sizes = [len(name) + 1, len(datatype), len(dataspace)]
    head = bytes([3, 0]) + b"".join(little(size, 2) for size in sizes) + bytes([told.cset])
    return told.corder, head + name + b"\0" + datatype + dataspace + data


def link_message(image, owner, name):
    """(creation order, bytes) of a link message, version 1."""
    told = owner.links.get_info(name)
    flags, head = 0 if len(name) < 1 << 8 else 1, b""
    if told.type != h5l.TYPE_HARD:
        flags, head = flags | 0x08, bytes([told.type])
    if told.corder_valid:
        flags, head = flags | 0x04, head + little(told.corder, 8)
    if told.cset != h5t.CSET_ASCII:
        flags, head = flags | 0x10, head + bytes([told.cset])
    head = bytes([1, flags]) + head + little(len(name), 1 << (flags & 3)) + name
    if told.type == h5l.TYPE_HARD:
        return told.corder, head + little(told.u, image.offset_size)
    value = owner.links.get_val(name)
    if told.type == h5l.TYPE_EXTERNAL:
        value = b"\0" + b"".join(part + b"\0" for part in value)
    return told.corder, head + little(len(value), 2) + value


def names_of(owner, kind):
    """The names of an object's links or attributes, as bytes."""
    found = []
    if kind == LINK_INFO:
        owner.links.iterate(found.append)
    else:
        h5a.iterate(owner, found.append)
    return found


def due_messages(image, owner, kind):
    """The messages that must be there: by the hash of the name, and by creation order."""
    build = link_message if kind == LINK_INFO else attribute_message
    names = names_of(owner, kind)
    by_hash, by_order = {}, {}
    for name in names:
        order, message = build(image, owner, name)
        by_hash[lookup3(name)] = by_order[order] = message
    expect(len(by_hash) == len(names), "two names with one hash")
    return by_hash, by_order
