"""Reads every managed object of files that HDF5's own library wrote, through our C functions.
    real_files.py READ_OBJECTS FOLDER
h5py writes files with densely stored attributes and links into the folder. hdf5_format.py finds the heap
IDs and where the objects must lie, hdf5_messages.py rebuilds the bytes that must lie there.
READ_OBJECTS is the program of read_objects.c; those of read_file.c and write_header.c are beside it."""

import collections
import ctypes
import itertools
import os
import random
import shutil
import subprocess
import sys

import h5py
import numpy
from h5py import h5f, h5o, h5p

import checked_files
import filtered_files
import h5debug
import hdf5_format as form
import hdf5_heaps
import long_ids
from asked import COMMAND, ask, ask_all, told_headers, told_of
from damaged_copies import check_copies, checked_answers, damaged_headers
from hdf5_format import expect
from hdf5_messages import due_messages
from made_files import WIDTHS, created, is_known, some_size, some_value
from written_headers import written_header

TYPES = ["managed", "huge", "tiny"]  # of heap IDs
RUST_EXAMPLE = "target/cargo/release/examples/read_file"  # of the Rust crate, where it is built
KINDS = ["empty", "direct", "indirect", "nested"]  # of heaps: no block, or indirect ones above the direct


# Making files


def add_attributes(draw, target, count, size=None):
    """Attributes of about `size` bytes, or of various sizes; some names are not ASCII."""
    for i in range(count):
        name = draw.choice(["attribute {}", "größe {}", "a{}"]).format(i)
        target.attrs.create(name, some_value(draw, size or some_size(draw)))


def add_links(draw, group, count, size=None):
    """Hard, soft and external links, whose names or targets have about `size` bytes or various sizes."""
    for i in range(count):
        text = "x" * (size or some_size(draw))
        name = draw.choice(["link {}", "größe {}"]).format(i)
        kind = draw.randrange(4)
        if kind == 0:
            group[f"{name} {text}"] = group.file["target"]
        elif kind == 1:
            group[f"{name} {text}"] = h5py.SoftLink("/target")
        elif kind == 2:
            group[name] = h5py.SoftLink("/" + text)
        else:
            group[name] = h5py.ExternalLink("other.h5", "/" + text)


def remove_some(draw, mapping):
    """Removes a quarter; later objects go into the gaps."""
    names = list(mapping)
    for name in draw.sample(names, len(names) // 4):
        del mapping[name]


def write_small(file, draw):
    """Direct roots, and indirect roots of direct blocks alone; with 2-byte offsets tiny links."""
    for order in (False, True):
        few = file.create_group(f"few {order}", track_order=order)
        add_attributes(draw, few, 10, size=8)
        add_links(draw, few, 10, size=4)
        some = file.create_group(f"some {order}", track_order=order)
        add_attributes(draw, some, 24, size=90)
        add_links(draw, some, 24, size=60)
    letters = file.create_group("letters")
    for letter in "abcdefghijkl":
        letters[letter] = file["target"]


def write_large(file, draw):
    """Nested indirect blocks, gaps and objects in gaps, and huge objects."""
    many = file.create_group("many")
    add_attributes(draw, many, 1300)
    remove_some(draw, many.attrs)
    for i in range(1200):
        many.attrs.create(f"large {i}", numpy.frombuffer(draw.randbytes(3900 + i % 100), "<u1"))
    for i in range(3):
        many.attrs.create(f"huge {i}", numpy.frombuffer(draw.randbytes(5000 + i), "<u1"))
    add_links(draw, many, 500)
    remove_some(draw, many)
    add_links(draw, file.create_group("long"), 300, size=3800)
    add_attributes(draw, file.create_dataset("set", data=numpy.arange(5), track_order=True), 100)


def written_files(folder):
    """Writes the files one after the other. One with 2-byte offsets cannot be large."""
    for offset_size, length_size in WIDTHS:
        for write in [write_small] if offset_size == 2 else [write_small, write_large]:
            base = f"{write.__name__}_{offset_size}_{length_size}.h5"
            name = os.path.join(folder, base)
            with created(name, offset_size, length_size) as file:
                file.create_group("target")
                write(file, random.Random(base))
            yield name


# Holding the answers to the format


def kind_of(heap):
    return KINDS[min(heap.depth, 2) + 1]


def check_object(heap, heap_id, due, decoded, read, unchecked, block):
    """Holds all answers for an ID to the format, and the bytes there to the message that is due: each object is accepted
    by both readers."""
    expect(len(heap_id) == heap.id_length, "length of an ID")
    kind = heap_id[0] >> 4 & 3
    if kind != 0:
        answers = [decoded, read, unchecked, block]
        expect(answers == [(6, kind, 0)] * 4, f"{answers} for an ID of type {kind}")
        return
    offset, length = heap.decode(heap_id)
    expect(decoded == (0, offset, length), f"{decoded}, not {offset}, {length}")
    place = heap.position(offset, length)
    expect(read == unchecked == (0, place, length), f"{read}, {unchecked}, not {place}, {length}")
    last = heap.way(offset)[-1]
    expect(block == (0, last.address, last.offset), f"{block}, not {last}")
    number, place, length = read
    expect(heap.image.data[place : place + length] == due, f"bytes of {heap_id.hex()}")


def check_command(name, place, heap_id, due):
    """The command finds the widths in the file, and prints an object's bytes; a huge one it does not read. Returns
    what it says beside them; `place` has the words that name the heap's place."""
    words = [COMMAND, "read", name, *place, heap_id.hex()]
    run = subprocess.run(words, stdout=subprocess.PIPE, stderr=subprocess.PIPE)
    answer = (1, b"") if heap_id[0] >> 4 & 3 == 1 else (0, due)
    expect((run.returncode, run.stdout) == answer, f"{' '.join(words)}: {run}")
    return run.stderr.decode()


def check_index(program, name, heap, tree, due, counts):
    """Every ID of an index, whose keys must be those of the messages; returns the IDs."""
    keys, ids = zip(*(form.key_and_id(tree.kind, record) for record in tree.records))
    expect(sorted(keys) == sorted(due), "keys of an index")
    decoded = ask(program, name, heap.image, heap.address, ids, "decode")
    read = ask_all(program, name, heap.image, heap.address, ids)
    for key, heap_id, answer, answers in zip(keys, ids, decoded, read):
        check_object(heap, heap_id, due[key], answer, *answers)
    for key, heap_id in list(zip(keys, ids))[:5] if os.path.exists(COMMAND) else []:
        check_command(name, [str(heap.address)], heap_id, due[key])
        counts["command"] += 1
    numbers = collections.Counter(heap_id[0] >> 4 & 3 for heap_id in ids)
    stored = [heap.managed_count, heap.huge_count, heap.tiny_count]
    expect([numbers[kind] for kind in range(3)] == stored, "numbers of objects")
    return ids


def check_fields(program, name, heap, counts):
    """All fields of a header, from C and by the command."""
    fields = heap.numbers()
    told = ask(program, name, heap.image, heap.address, [b"\0"], "header")
    expect(told == [(0, *fields)], f"{told}, not {fields}")
    counts["headers from C"] += 1
    stored = heap.image.data[heap.address : heap.address + heap.length]
    written = written_header(program, heap.image, told[0][1:][: len(form.HEADER_FIELDS)])
    expect(written == stored, "a header is written as it was read")
    counts["headers written back"] += 1
    if os.path.exists(COMMAND):
        told = told_headers(name, str(heap.address))
        expect(told == [told_of(heap)], f"{told}, not {told_of(heap)}")
    for kind in ("huge", "tiny"):
        size, count = getattr(heap, f"{kind}_size"), getattr(heap, f"{kind}_count")
        expect((size > 0) == (count > 0), f"size and count of {kind} objects")
        counts[f"headers with {kind}"] += count > 0


def check_all_headers(name, heaps, counts):
    """Every heap's header is among those that the command finds, and it tells the same of it."""
    told = {header["position"]: header for header in told_headers(name)}
    expect(list(told) == sorted(told), "headers in their order")
    for heap in heaps:
        expect(told.get(heap.address) == told_of(heap), f"the header at {heap.address}")
    counts["headers found"] += len(told)


def check_heap(program, name, image, owner, kind, counts):
    """The heap of an object's links or attributes, by each of its indexes; None if there is none."""
    dense = form.dense_storage(image, h5o.get_info(owner).addr, kind)
    if dense is None:
        return None
    address, trees = dense
    heap = form.Heap(image, address)
    expect(heap.largest_object == 4096 or not is_known(), "the largest managed object")
    check_fields(program, name, heap, counts)
    for tree, due in zip(trees, due_messages(image, owner, kind)):
        ids = check_index(program, name, heap, form.BTree(image, tree), due, counts)
    heap.ids = [heap_id for heap_id in ids if heap_id[0] >> 4 & 3 == 0]
    if not heap.blocks:
        expect(ask(program, name, image, address, [bytes(7)]) == [(1, 1, 0)], "an undefined root")
    counts.update(TYPES[heap_id[0] >> 4 & 3] for heap_id in ids)
    counts[kind_of(heap)] += 1
    if shutil.which("h5debug"):
        h5debug.check_header(name, heap)
        counts["h5debug"] += 1
    return heap


def check_file(program, name, counts):
    """Every heap of the root group and of the objects in it; returns them."""
    with open(name, "rb") as opened:
        image = form.Image(opened.read())
    heaps = []
    with h5py.File(name, "r") as file:
        expect(h5o.get_info(file.id).addr == image.root, "address of the root group")
        for owner in [file.id] + [h5o.open(file.id, key.encode()) for key in file]:
            for kind in (form.ATTRIBUTE_INFO, form.LINK_INFO):
                heaps.append(check_heap(program, name, image, owner, kind, counts))
    counts["files"] += 1
    heaps = [heap for heap in heaps if heap]
    if os.path.exists(COMMAND):
        check_all_headers(name, heaps, counts)
    return heaps


# Files with a user block, which is before the superblock: addresses count from there


def write_behind(name, block, version, widths):
    """A file with a user block and a superblock of this version. The links of a group that keeps their order are stored
    densely in every one."""
    create, access = h5p.create(h5p.FILE_CREATE), h5p.create(h5p.FILE_ACCESS)
    create.set_userblock(block)
    create.set_sizes(*widths)
    if version == 1:  # that of files whose chunks have B-trees of another size than usual
        set_k = ctypes.CDLL(h5p.__file__).H5Pset_istore_k
        expect(set_k(ctypes.c_int64(create.id), ctypes.c_uint(64)) >= 0, "H5Pset_istore_k")
    oldest = [h5f.LIBVER_EARLIEST, h5f.LIBVER_EARLIEST, h5f.LIBVER_V18, h5f.LIBVER_LATEST]
    access.set_libver_bounds(oldest[version], h5f.LIBVER_LATEST)
    with h5py.File(h5f.create(name.encode(), h5f.ACC_TRUNC, create, access)) as file:
        file.create_group("target")
        group = file.create_group("dense", track_order=True)
        draw = random.Random(f"{block} {version} {widths}")
        add_links(draw, group, 12, size=50)
        add_attributes(draw, group, 12, size=50)


def check_command_behind(name, block, heap, heap_id, due):
    """An object by the command, by the heap's position in the file and by its address, which is what HDF5's tools
    know it by."""
    start = block + heap.position(*heap.decode(heap_id))
    for place in ([str(heap.address + block)], [str(heap.address), "--address"]):
        said = check_command(name, place, heap_id, due)
        expect(f"\nthe base is {block:,}: " in said, f"no base: {said}")
        expect(f" in the file at {start:,}, " in said, f"not at {start}: {said}")
        expect("field" not in said and "open" not in said, said)


def check_header_behind(name, block, heap):
    """The header is told by its position, by its address, and among all."""
    due = told_of(heap, block)
    for place in ([str(heap.address + block)], [str(heap.address), "--address"]):
        expect(told_headers(name, *place) == [due], f"the header at {place} behind a user block")
    expect(due in told_headers(name), "headers behind a user block")


def check_example(program, name, heap, objects):
    """An example, in C or in Rust, which is told the heap's address alone, prints each object's bytes, and nothing by an
    ID that was cut short."""
    for heap_id, due in objects:
        run = subprocess.run([program, name, str(heap.address), heap_id.hex()], capture_output=True)
        expect((run.returncode, run.stdout) == (0, due), f"{program} {name} {heap_id.hex()}: {run}")
    run = subprocess.run([program, name, str(heap.address), objects[0][0][:3].hex()], capture_output=True)
    expect((run.returncode, run.stdout) == (1, b"") and b"the heap's IDs" in run.stderr, f"a short ID: {run}")


def check_named_blocks(program, name, heap, heap_id):
    """A block on the way to an object with a byte changed: an example prints nothing, and names the block by its address
    and its heap offset. Returns how many blocks there are."""
    with open(name, "rb") as opened:
        data = opened.read()
    base, changed, way = len(data) - len(heap.image.data), name + ".changed", heap.way(heap.decode(heap_id)[0])
    for block in way:
        copy = bytearray(data)
        copy[base + block.address + block.size - 1] ^= 1
        with open(changed, "wb") as opened:
            opened.write(copy)
        run = subprocess.run([program, changed, str(heap.address), heap_id.hex()], capture_output=True)
        named = f"; the block at address {block.address}, heap offset {block.offset}\n".encode()
        expect((run.returncode, run.stdout) == (1, b"") and run.stderr.endswith(named), f"not {named}: {run}")
    os.remove(changed)
    return len(way)


def check_behind(programs, name, block, image, owner, kind, counts):
    """Every link or attribute of an object, by the examples and by the command."""
    address, trees = form.dense_storage(image, h5o.get_info(owner).addr, kind)
    heap, tree = form.Heap(image, address), form.BTree(image, trees[0])
    due = due_messages(image, owner, kind)[0]
    objects = [(heap_id, due[key]) for key, heap_id in (form.key_and_id(tree.kind, record) for record in tree.records)]
    expect(len(objects) == 12, "objects behind a user block")
    for language, program in programs.items():
        check_example(program, name, heap, objects)
        counts[f"behind in {language}"] += len(objects)
        counts[f"named in {language}"] += check_named_blocks(program, name, heap, objects[-1][0])
    for heap_id, due in objects if os.path.exists(COMMAND) else []:
        check_command_behind(name, block, heap, heap_id, due)
        counts["behind"] += 1
    if os.path.exists(COMMAND):
        check_header_behind(name, block, heap)
    if shutil.which("h5debug"):
        h5debug.check_header(name, heap)


def check_user_block(programs, name, block, version, widths, counts):
    """A file with a user block. Old files have attributes in a form that hdf5_messages.py does not know; newer ones are
    marked while they are open for writing."""
    write_behind(name, block, version, widths)
    with open(name, "rb") as opened:
        data = opened.read()
    expect(data[block : block + 9] == b"\x89HDF\r\n\x1a\n" + bytes([version]), "superblock behind a user block")
    image, kinds = form.BasedImage(data[block:], widths), [form.LINK_INFO, form.ATTRIBUTE_INFO]
    with h5py.File(name, "r") as file:
        owner = file["dense"].id
        for kind in kinds if version > 1 else kinds[:1]:
            check_behind(programs, name, block, image, owner, kind, counts)
    if os.path.exists(COMMAND):
        check_open(name, version)
    os.remove(name)


def check_open(name, version):
    """The command does not read a file that is open for writing, unless it is not to ask; then it tells of it where the
    superblock does."""
    with h5py.File(name, "r+"):
        words = [COMMAND, "read", name, "0", "00", "--address"]  # no heap, but the superblock is looked at first
        refused = subprocess.run(words, stderr=subprocess.PIPE, text=True)
        expect(refused.returncode == 2 and "a program has it open for writing" in refused.stderr, refused.stderr)
        said = subprocess.run([*words, "--no-lock"], stderr=subprocess.PIPE, text=True).stderr
        expect(("open for writing" in said) == (version > 1), f"open for writing: {said}")


def check_user_blocks(programs, folder, counts):
    """User blocks of two sizes, before superblocks of every version."""
    name = os.path.join(folder, "behind.h5")
    for case in itertools.product((512, 2048), range(4), ((8, 8), (4, 8))):
        check_user_block(programs, name, *case, counts)


# What the examples are given wrongly, and what they cannot print


def one_link(name):
    """A file with a heap of links: address, ID and bytes of one of them."""
    write_behind(name, 512, 3, (8, 8))
    with open(name, "rb") as opened:
        image = form.BasedImage(opened.read()[512:], (8, 8))
    with h5py.File(name, "r") as file:
        group = file["dense"].id
        address, trees = form.dense_storage(image, h5o.get_info(group).addr, form.LINK_INFO)
        due = due_messages(image, group, form.LINK_INFO)[0]
    tree = form.BTree(image, trees[0])
    key, heap_id = form.key_and_id(tree.kind, tree.records[0])
    return address, heap_id.hex(), due[key]


def check_refused(words, to=subprocess.PIPE, line=""):
    """A program that prints nothing, says why, and has no success."""
    run = subprocess.run(words, input=line.encode(), stdout=to, stderr=subprocess.PIPE)
    expect((run.returncode, run.stdout or b"") == (1, b"") and run.stderr, f"{words} {line!r}: {run}")


def check_mistyped(program, programs, folder):
    """Digits that are none, in an ID or an address, name nothing, and a full disk is no success. An address is decimal,
    with zeros before it, too. Returns how many calls were refused."""
    name = os.path.join(folder, "mistyped.h5")
    address, digits, due = one_link(name)
    ids = [digits[:2] + wrong + digits[4:] for wrong in ("1g", "g1", "-1", "+1", " f", "f ", "0x", "..")]
    addresses = [f"{address}x", f"{address} 1", f" {address}", f"-{address}", hex(address), "", "x", str(1 << 64)]
    for example in programs.values():
        run = subprocess.run([example, name, f"0{address}", digits.upper()], stdout=subprocess.PIPE)
        expect((run.returncode, run.stdout) == (0, due), f"{example} by 0{address}: {run}")
        for words in [[str(address), other] for other in ids] + [[other, digits] for other in addresses]:
            check_refused([example, name, *words])
        with open("/dev/full", "wb") as full:
            check_refused([example, name, str(address), digits], full)
    lines = [f"{address} 8 8 {other}\n" for other in ids + [digits + "0"] if " " not in other]  # which ends a word
    for line in lines + [f"x 8 8 {digits}\n"]:
        check_refused([program, name], line=line)
    with open("/dev/full", "wb") as full:
        check_refused([program, name], full, f"{address} 8 8 {digits}\n")
    os.remove(name)
    return len(programs) * (len(ids) + len(addresses) + 1) + len(lines) + 2


# Damaged copies


def unchecked_answer(heap, heap_id, data):
    """What the unchecked reader has to answer: of an indirect block it looks for the signature, and reads its entries up to
    the one that leads on; none of these is damaged here."""
    offset, length = heap.decode(heap_id)
    for block in heap.way(offset)[:-1]:
        if block.address + 4 > len(data):
            return 1, block.address + 4, len(data)
        if data[block.address : block.address + 4] != block.signature:
            return 4, 0, 0
    place = heap.position(offset, length)
    return (0, place, length) if place + length <= len(data) else (1, place + length, len(data))


def changed_blocks(heap, heap_id):
    """Copies with a bit of the signature or of the last byte of a block on the way to an object changed."""
    for block in heap.way(heap.decode(heap_id)[0]):
        for place in (3, block.size - 1):
            copy = bytearray(heap.image.data)
            copy[block.address + place] ^= 1
            yield copy


def cut_files(heap, heap_id):
    """Copies cut in the blocks on the way and in the object, behind all that is read before."""
    data = heap.image.data
    place, length = heap.position(*heap.decode(heap_id)), heap.decode(heap_id)[1]
    needed = heap.address + heap.length  # where all ends that is read before
    for block in heap.way(heap.decode(heap_id)[0]):
        ends = [block.address, block.address + 3, block.address + block.size - 1]
        ends += [place, place + 1, place + length - 1] if block.signature == b"FHDB" else []
        yield from (data[:end] for end in ends if end >= needed and is_cut_plainly(heap, block, end))
        needed = max(needed, block.address + block.size)


def is_cut_plainly(heap, block, end):
    """Not between an indirect block's signature and the entry that leads on, where the unchecked reader has an end of its
    own."""
    return block.signature == b"FHDB" or end <= block.address + 4


def damaged_blocks(heap, heap_id):
    """Copies damaged in the blocks on the way to an object, or cut, each with what the readers have to answer."""
    for copy in itertools.chain(changed_blocks(heap, heap_id), cut_files(heap, heap_id)):
        read, block = checked_answers(heap, heap_id, bytes(copy))
        yield copy, (read, unchecked_answer(heap, heap_id, copy), block)


def check_damage(program, folder, heaps):
    """A small file's first header, and the blocks of all heaps above the deepest and the last object."""
    numbers, first = collections.Counter(), heaps[0]
    if len(first.image.data) < 1 << 20:
        numbers += check_copies(program, first, first.ids[0], folder, damaged_headers(first))
    for heap in (heap for heap in heaps if heap.ids):
        deepest = max(heap.ids, key=lambda x: len(heap.block(heap.decode(x)[0])[3]))
        last = max(heap.ids, key=lambda x: heap.position(*heap.decode(x)))
        for heap_id in (deepest, last):
            copies = damaged_blocks(heap, heap_id)
            numbers += check_copies(program, heap, heap_id, folder, copies)
    return numbers


def report(counts, numbers, filtered, own):
    """Prints what was met; the last line is the sum."""
    copies = ", ".join(f"{count} by {number}" for number, count in sorted(numbers.items()))
    print(
        f"real files: refused: damaged copies, {copies}; {counts['huge']} huge and {counts['tiny']} tiny IDs by 6"
    )
    print(f"real files: {filtered}")
    debugged = f"{counts['h5debug']} headers as it tells them"
    print(f"real files: h5debug: {debugged if counts['h5debug'] else 'skipped, it is not at hand'}")
    commanded = f"by the command {counts['headers found']}" if counts["headers found"] else "the command is not built"
    print(
        f"real files: headers, each field: from C {counts['headers from C']}, {counts['headers with huge']} with huge "
        f"and {counts['headers with tiny']} with tiny objects; {commanded}"
    )
    print(f"real files: headers written back as they were read: {counts['headers written back']}, byte for byte")
    commanded = f"{counts['command']} objects, {counts['behind']} behind user blocks"
    print(f"real files: read by the command: {commanded if counts['command'] else 'skipped, it is not built'}")
    for language in ("C", "Rust"):
        behind = f"{counts[f'behind in {language}']} objects, {counts[f'named in {language}']} damaged blocks named"
        told = behind if counts[f"behind in {language}"] else "skipped, there is no cargo"
        print(f"real files: behind user blocks: from {language}: {told}")
    print(f"real files: mistyped, or printed to a full disk: {counts['mistyped']} calls end with a sentence and 1")
    for line in own:
        print(f"real files: {line}")
    heaps = ", ".join(f"{counts[kind]} {kind}" for kind in KINDS)
    total = sum(counts[kind] for kind in KINDS)
    print(
        f"real files: {counts['files']} files, {total} heaps ({heaps}), "
        f"{counts['managed']} objects read byte for byte"
    )


def main():
    program, folder = sys.argv[1:]
    counts, numbers, depths = collections.Counter(), collections.Counter(), set()
    for name in written_files(folder):
        heaps = check_file(program, name, counts)
        numbers += check_damage(program, folder, heaps)
        depths |= {(heap.image.offset_size, heap.depth) for heap in heaps}
        os.remove(name)
    for due in [(2, 0), (2, 1)] + [(width, depth) for width in (4, 8) for depth in range(4)]:
        expect(due in depths, f"no heap of offset size and depth {due}")
    expect(counts["headers with huge"] and counts["headers with tiny"], "no huge or no tiny objects")
    programs = {"C": os.path.join(os.path.dirname(program), "read_file")}
    if os.path.exists(RUST_EXAMPLE):
        programs["Rust"] = RUST_EXAMPLE
    check_user_blocks(programs, folder, counts)
    counts["mistyped"] = check_mistyped(program, programs, folder)
    filtered = filtered_files.check(program, folder, counts)
    own = [hdf5_heaps.check(folder), long_ids.check(program, folder), *checked_files.check(program, folder)]
    report(counts, numbers, filtered, own)


main()
