"""Holds `poilures header` to headers that are made here, field by field, by the HDF5 File Format Specification.
    headers.py PROGRAM FOLDER
At all nine pairs of widths: files with headers that have random fields, sound ones and damaged ones, without filters
and with them; every sound one has to be told, by all of them and by its place alone, as a table and as JSON, and every
damaged one has to be refused. What is due are the numbers that were put into the fields. The last line says how many
headers were held."""

import itertools
import json
import os
import random
import subprocess
import sys

sys.path.insert(0, os.path.join(os.path.dirname(os.path.abspath(__file__)), "..", "loader"))
from hdf5_format import FIELD_NAMES, HEADER_FIELDS, expect, field_widths, lookup3, spelled_header, told_fields

WORDS = [  # of the table, in header order
    "length of an ID",
    "length of the filters",
    "flags",
    "largest managed object",
    "next huge ID",
    "index of huge objects",
    "free space",
    "its manager",
    "managed space",
    "allocated space",
    "iterator",
    "managed objects",
    "size of huge objects",
    "huge objects",
    "size of tiny objects",
    "tiny objects",
    "table width",
    "starting block",
    "largest direct block",
    "heap space",
    "rows of a new root",
    "root block",
    "rows of the root",
    "filter information",
    "filtered root",
    "filter mask",
]
PROGRAM, FOLDER = sys.argv[1:]


def run(*words):
    """Exit status, standard output, and the last line of standard error."""
    ended = subprocess.run([PROGRAM, "header", *map(str, words)], capture_output=True, text=True)
    return ended.returncode, ended.stdout, (ended.stderr.splitlines() or [""])[-1]


def some_number(draw, width):
    most = (1 << 8 * width) - 1
    return draw.choice([0, draw.randint(0, min(most, 9999)), draw.randint(0, most), most])


def some_fields(draw, sizes):
    """Numbers for all fields: small ones, ones of every width, all ones; there are no filters."""
    fields = [some_number(draw, width) for width in sizes]
    fields[1] = 0
    return fields


def some_header(draw, sizes, length_size, has_filters):
    """A header's numbers, but for the place of its filters, and its bytes. Most filters are none that are known."""
    fields = some_fields(draw, sizes)
    if not has_filters:
        return fields + [0, 0, 0], spelled_header(fields, sizes)
    information = draw.choice([b"\2\1\1\0\1\0\1\0\6\0\0\0", draw.randbytes(draw.choice([1, 9, 300]))])
    root_size, mask, fields[1] = some_number(draw, length_size), some_number(draw, 4), len(information)
    filtered = root_size.to_bytes(length_size, "little") + mask.to_bytes(4, "little") + information
    return fields + [0, root_size, mask], spelled_header(fields, sizes, filtered)


def share(free, managed):
    """In percent, downward."""
    if managed == 0:
        return "none"
    return "<1%" if 0 < 100 * free < managed else f"{100 * free // managed}%"


def flags_in_words(flags):
    words = "huge IDs have wrapped; " if flags & 1 else "huge IDs have not wrapped; "
    words += "direct blocks have checksums" if flags & 2 else "direct blocks have no checksums"
    return words + (f"; the others, {flags & 252}, are not known" if flags & 252 else "")


def check_table(text, due):
    """Every field has its line, in header order, with its number as it is due."""
    lines = text.splitlines()
    sizes = f"offset size {due['offset_size']}, length size {due['length_size']}"
    expect(lines[0] == f"heap header at {due['position']:,}; {sizes}", lines[0])
    told = len(FIELD_NAMES) if due["io_filter_encoded_length"] else len(HEADER_FIELDS)
    for line, (name, words) in zip(lines[1 : told + 1], zip(FIELD_NAMES, WORDS)):
        found, rest = line[2:24].rstrip(), line[24:].split()
        number = "none" if due[name] is None else f"{due[name]:,}"
        expect((found, rest[0]) == (words, number), f"{line!r}, not {words}: {number}")
    expect(len(lines) >= 24, "lines of a table")
    is_filtered = due["io_filter_encoded_length"] > 0
    expect(any(line.startswith("  filters: ") for line in lines) == is_filtered, f"filters in {text}")
    expect(lines[3].endswith("  " + flags_in_words(due["flags"])), lines[3])
    free = share(due["free_space_managed_blocks"], due["managed_space_in_heap"])
    expect(lines[7].endswith(f"  bytes, share of the managed space: {free}"), lines[7])


def check_sound(name, at, due, options):
    status, out, _ = run(name, at, "--json", *options)
    expect(status == 0 and json.loads(out) == due and out.count("\n") == 1, f"{out} is not {due}")
    status, out, _ = run(name, at, *options)
    expect(status == 0, f"status {status} at {at}")
    check_table(out, due)


def check_refused(name, at, words, options):
    for json_too in ([], ["--json"]):
        answer = run(name, at, *json_too, *options)
        expect(answer == (1, "", f"poilures: refused by {words}"), f"{answer}, not {words}")


def check_pair(offset_size, length_size, has_filters):
    """How many headers were held."""
    kind = " filtered" if has_filters else ""
    draw, sizes = random.Random(f"{offset_size} {length_size}{kind}"), field_widths(offset_size, length_size)
    options = ["--offset-size", offset_size, "--length-size", length_size]
    data, sound, damaged = bytearray(), {}, {}
    for i in range(24):
        data += bytes(draw.choice(b"FRHP") if draw.random() < 0.9 else 0 for _ in range(draw.randrange(60))) + b"."
        fields, header = some_header(draw, sizes, length_size, has_filters)
        header, at = bytearray(header), len(data)
        if has_filters:
            fields[FIELD_NAMES.index("io_filter_information_position")] = at + len(header) - 4 - fields[1]
        if i % 4 == 3:
            stored = int.from_bytes(header[-4:], "little")
            header[draw.randrange(9, len(header) - 4)] ^= 1 << draw.randrange(8)
            damaged[at] = stored, lookup3(bytes(header[:-4]))
        else:
            sound[at] = told_fields(fields, at, offset_size, length_size)
        data += header
    # Random bytes between them begin headers, too.
    chance = [at for at in range(len(data)) if data[at : at + 4] == b"FRHP" and at not in sound and at not in damaged]
    name = os.path.join(FOLDER, f"headers-{offset_size}-{length_size}{kind}")
    with open(name, "wb") as file:
        file.write(data)
    status, out, said = run(name, "--json", *options)
    expect(status == 0 and [json.loads(line) for line in out.splitlines()] == list(sound.values()), "all headers")
    places = ", ".join(f"{at:,}" for at in sorted([*chance, *damaged])[:8])
    expect(said.startswith(f"FRHP stands where no sound header begins: at {places}"), said)
    status, out, _ = run(name, *options)
    tables = out.split("\n\n")
    expect(status == 0 and len(tables) == len(sound), "tables of all headers")
    for table, due in zip(tables, sound.values()):
        check_table(table, due)
    for at, due in sound.items():
        check_sound(name, at, due, options)
    for at, (stored, computed) in damaged.items():
        words = f"7: the header's checksum differs: {stored:08X} is stored, {computed:08X} computed"
        check_refused(name, at, words, options)
    at, due = next(iter(sound.items()))
    filters = due["io_filter_encoded_length"]
    check_cut(name, data, at, at + 5 + sum(sizes) + 4 + (length_size + 4 + filters if filters else 0), options)
    return len(sound), len(damaged)


def check_cut(name, data, at, end, options):
    """One that is cut by a byte ends too early; with no other in the file there is none at all."""
    with open(name + "-cut", "wb") as file:
        file.write(data[: end - 1])
    words = f"1: the bytes end too early: the end expected is {end:,}, and {end - 1:,} bytes are there"
    check_refused(name + "-cut", at, words, options)
    status, out, _ = run(name + "-cut", *options)
    expect((status, out) == (1, ""), "a file without a sound header")


def check_order(sound, cut, sizes, words):
    """The first bytes of a header, by other sizes than its own."""
    name = os.path.join(FOLDER, "header-cut")
    with open(name, "wb") as file:
        file.write(sound[:cut])
    check_refused(name, 0, words, ["--offset-size", sizes[0], "--length-size", sizes[1]])


def too_early(end, there):
    return f"1: the bytes end too early: the end expected is {end}, and {there} bytes are there"


def check_orders():
    """Which test goes before which, by docs/RULES.md: the place where the bytes end, or a size that there is not."""
    sizes = field_widths(8, 8)
    sound = spelled_header(some_fields(random.Random("orders"), sizes), sizes)
    check_order(sound, len(sound), (3, 3), "2: the offset size is 3, not 2, 4 or 8")
    check_order(sound, len(sound), (3, 8), "2: the offset size is 3, not 2, 4 or 8")
    check_order(sound, len(sound), (8, 3), "3: the length size is 3, not 2, 4 or 8")
    check_order(sound, 40, (8, 3), too_early(45, 40))
    check_order(sound, 40, (8, 8), too_early(70, 40))
    check_order(sound, 80, (8, 8), too_early(112, 80))
    check_order(b"", 0, (8, 8), too_early(5, 0))
    version = "5: the version of the heap's header, or of a block, is 1, not 0"
    signature = "4: the heap's header at 0 in the file begins with 46 52 48 51, and not with FRHP, 46 52 48 50"
    check_order(b"FRHQ" + sound[4:], len(sound), (8, 8), signature)
    check_order(b"FRHP\1" + sound[5:], len(sound), (8, 8), version)


pairs = list(itertools.product((2, 4, 8), repeat=2))
plain, filtered = ([check_pair(*pair, has_filters) for pair in pairs] for has_filters in (False, True))
check_orders()
counts = [f"{sum(s for s, _ in held)}{{}} told, {sum(d for _, d in held)} refused" for held in (plain, filtered)]
told = f"{counts[0].format(' headers')}, {len(pairs)} pairs of sizes; of filtered heaps {counts[1].format('')}"
print(f"headers.py: {told}")
