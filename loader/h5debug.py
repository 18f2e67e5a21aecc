"""Holds what hdf5_format.py finds in a file to what h5debug, of HDF5's own tools, tells of it."""

import re
import subprocess

from hdf5_format import expect


def run(name, *numbers):
    """h5debug at an address, with the numbers that it needs to know a block there."""
    words = ["h5debug", name, *map(str, numbers)]
    return subprocess.run(words, text=True, stdout=subprocess.PIPE, stderr=subprocess.PIPE)


def told(name, *numbers):
    """What h5debug prints for an address."""
    ended = run(name, *numbers)
    expect(ended.returncode == 0, f"{' '.join(ended.args)}: {ended.stderr}")
    return ended.stdout


def tells(name, *numbers):
    """Whether h5debug reads what stands at an address."""
    return run(name, *numbers).returncode == 0


def hold(text, fields):
    """Holds the named fields of h5debug's text to numbers."""
    found = dict(re.findall(r"^ *(.*?): +(\d+)", text, re.MULTILINE))
    for key, value in fields.items():
        expect(found.get(key) == str(value), f"{key}: {found.get(key)}, not {value}")


def wide(image, address):
    """An address as h5debug prints it: the undefined one is all ones in 64 bits."""
    return (1 << 64) - 1 if address == image.undefined else address


def check_filters(text, heap):
    """Holds what h5debug tells of a heap's filters to what its header has; the size of a filtered root and its mask it
    tells of a direct one alone."""
    if heap.rows == 0:
        fields = {"size of": heap.filtered_root, "Filter mask for": heap.filter_mask}
        fields = {f"{key} root direct block": value for key, value in fields.items()}
        hold(text.replace("Compressed size", "size"), fields)
    count = len(heap.filters)
    expect(re.search(rf"Number of filters: +{count}/{count}$", text, re.MULTILINE), f"{count} filters")
    told = re.split(r"^ +Filter at position \d+ *$", text, flags=re.MULTILINE)[1:]
    expect(len(told) == count, "filters that are told")
    for each, part in zip(heap.filters, told):
        name = f'"{each.name}"' if each.name else "NONE"
        lines = {"Filter identification": f"0x{each.number:04x}", "Filter name": name, "Flags": f"0x{each.flags:04x}"}
        lines["Num CD values"] = str(len(each.values))
        for key, value in lines.items():
            found = re.search(rf"^ +{key}: +(.*?) *$", part, re.MULTILINE)
            expect(found and found[1] == value, f"{key}: {found}, not {value}")
        values = re.findall(r"CD value \d+ +(\d+)", part)
        expect(values == [str(value) for value in each.values], f"client data {values}, not {each.values}")


def check_header(name, heap):
    """Holds the fields of a header to h5debug's."""
    fields = {
        "Free space in managed blocks": heap.free_space,
        "Managed space data block size": heap.managed_space,
        "Total managed space allocated": heap.allocated_space,
        "Offset of managed space iterator": heap.iterator,
        "Number of managed objects in heap": heap.managed_count,
        "Address of free space manager for managed blocks": wide(heap.image, heap.space_manager),
        "Max. size of managed object": heap.largest_object,
        "'Huge' object space used": heap.huge_size,
        "Number of 'huge' objects in heap": heap.huge_count,
        "ID of next 'huge' object": heap.next_huge,
        "Address of v2 B-tree for 'huge' objects": wide(heap.image, heap.huge_tree),
        "'Tiny' object space used": heap.tiny_size,
        "Number of 'tiny' objects in heap": heap.tiny_count,
        "Doubling table width": heap.width,
        "Starting block size": heap.start,
        "Max. direct block size": heap.largest_direct,
        "Max. index size": heap.bits,
        "Starting # of rows in root indirect block": heap.start_rows,
        "Table's root address": wide(heap.image, heap.root),
        "Current # of rows in root indirect block": heap.rows,
    }
    text = told(name, heap.address)
    hold(text, fields)
    wrapped = re.search(r"^'Huge' object IDs have wrapped: +(TRUE|FALSE)$", text, re.MULTILINE)
    expect(wrapped and (wrapped[1] == "TRUE") == bool(heap.flags & 1), f"huge IDs have wrapped: {wrapped}")
    expect(("I/O filter Info" in text) == bool(heap.filter_length), "filters that h5debug tells of")
    if heap.filter_length:
        check_filters(text, heap)


def check_indirect(name, heap, address, offset, rows):
    """Holds an indirect block, with all its entries, to h5debug's."""
    text = told(name, address, heap.address, rows)
    fields = {
        "Address of fractal heap that owns this block": heap.address,
        "Offset of indirect block in heap": offset,
        "Size of indirect block": heap.indirect_size(rows),
        "Current # of rows": rows,
    }
    hold(text, fields)
    at = heap.image.at(address + heap.direct_header() - 4)  # there, a direct block has its checksum
    entries = [wide(heap.image, at.address()) for _ in range(rows * heap.width)]
    found = [int(number) for number in re.findall(r"Col #\d+: +(\d+)", text)]
    expect(found == entries, f"entries of the indirect block at {address}")


def check_direct(name, heap, address, offset, size):
    """Holds a direct block, with all its bytes, to h5debug's."""
    text = told(name, address, heap.address, size)
    fields = {
        "Address of fractal heap that owns this block": heap.address,
        "Offset of direct block in heap": offset,
        "Size of block header": heap.direct_header(),
    }
    hold(text, fields)
    lines = re.findall(r"^ +\d+: ((?: ?[0-9a-f]{2} ){1,16})", text, re.MULTILINE)
    found = bytes.fromhex("".join(lines))
    expect(found == heap.image.data[address : address + size], f"bytes of the direct block at {address}")
