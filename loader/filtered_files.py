"""Filtered heaps that HDF5's own library wrote: groups that put their links through filters. It lets a group have
deflate, fletcher32 and filters of the user's own, but none that asks for a dataset's type. A filter of the user's own
has a name, and one that may fail is skipped, so that its bit in the mask is set.

By the format, and as h5debug tells it, hold the three fields of a filtered heap's header and what its filters are; and
that the fields are read rightly is seen by the blocks, from which the links come back."""

import collections
import ctypes
import itertools
import os
import shutil
import subprocess

import h5py
from h5py import h5d, h5f, h5g, h5o, h5p, h5s, h5t, h5z

import h5debug
import hdf5_format as form
from asked import COMMAND, ask, told_headers, told_of
from damaged_copies import check_copies, damaged_headers
from hdf5_format import expect
from hdf5_messages import due_messages
from made_files import created, is_known

OPTIONAL = 1  # the flag of a filter that may fail
DEFLATE, FLETCHER32 = (1, OPTIONAL, (6,)), (3, 0, ())
NAMED, FAILING, UNNAMED = 300, 301, 40000  # filters of our own; the first and the last change nothing
PIPELINES = {
    "deflate": [DEFLATE],
    "fletcher32": [FLETCHER32],
    "fletcher32, deflate": [FLETCHER32, DEFLATE],
    "deflate, fletcher32": [DEFLATE, FLETCHER32],
    "named": [(NAMED, 0, (1, 2, 3))],
    "unnamed": [(UNNAMED, 0, (5, 1 << 31)), FLETCHER32],
    "skipped": [DEFLATE, (FAILING, OPTIONAL, (7,)), FLETCHER32],
    "as many as there can be": [(1, OPTIONAL, (i % 10,)) for i in range(31)] + [FLETCHER32],
}
FORMAT_NAMES = {1: "deflate", 2: "shuffle", 3: "fletcher32", 4: "szip", 5: "nbit", 6: "scaleoffset"}
NAMES = {**FORMAT_NAMES, NAMED: "gauge packer", FAILING: "never", UNNAMED: None}
TOLD = 16  # of more values of a filter h5py tells others than these
OF_DATASETS = [2, 4, 5, 6]  # filters that no group can have
LINKS = {"direct": (10, 4), "indirect": (40, 60), "deep": (300, 3800)}  # how many, and bytes of a target
FILES = [(widths, oldest) for widths in ((8, 8), (8, 4), (4, 8), (4, 4)) for oldest in (1, 2)]
FILES.append(((2, 4), 2))

FUNCTION = ctypes.CFUNCTYPE(
    ctypes.c_size_t,
    ctypes.c_uint,
    ctypes.c_size_t,
    ctypes.POINTER(ctypes.c_uint),
    ctypes.c_size_t,
    ctypes.POINTER(ctypes.c_size_t),
    ctypes.c_void_p,
)


class Class(ctypes.Structure):
    """H5Z_class2_t."""

    _fields_ = [
        ("version", ctypes.c_int),
        ("number", ctypes.c_int),
        ("encoder", ctypes.c_uint),
        ("decoder", ctypes.c_uint),
        ("name", ctypes.c_char_p),
        ("can_apply", ctypes.c_void_p),
        ("set_local", ctypes.c_void_p),
        ("function", FUNCTION),
    ]


# As long as HDF5 knows them.
CHANGES_NOTHING = FUNCTION(lambda flags, count, values, size, room, bytes: size)
FAILS = FUNCTION(lambda flags, count, values, size, room, bytes: 0)
CLASSES = [
    Class(1, NAMED, 1, 1, NAMES[NAMED].encode(), None, None, CHANGES_NOTHING),
    Class(1, FAILING, 1, 1, NAMES[FAILING].encode(), None, None, FAILS),
    Class(1, UNNAMED, 1, 1, None, None, None, CHANGES_NOTHING),
]


def know_filters():
    """To HDF5, and to our own reader of the format."""
    library = ctypes.CDLL(h5p.__file__)
    for each in CLASSES:
        expect(library.H5Zregister(ctypes.byref(each)) >= 0, f"filter {each.number}")
    form.UNDO.update({NAMED: bytes, UNNAMED: bytes})


def made_with(filters):
    """What a group is made with that has these filters. h5py has no call that sets them."""
    made, set_filter = h5p.create(h5p.GROUP_CREATE), ctypes.CDLL(h5p.__file__).H5Pset_filter
    for number, flags, values in filters:
        data = (ctypes.c_uint * max(1, len(values)))(*values)
        done = set_filter(
            ctypes.c_int64(made.id), ctypes.c_int(number), ctypes.c_uint(flags), ctypes.c_size_t(len(values)), data
        )
        expect(done >= 0, f"H5Pset_filter with {number}")
    made.set_link_creation_order(h5p.CRT_ORDER_TRACKED | h5p.CRT_ORDER_INDEXED)
    made.set_attr_creation_order(h5p.CRT_ORDER_TRACKED)  # so that the group's own header is a new one
    return made


def write_file(name, widths, oldest):
    """A group for each pipeline and number of links, in a file in whose messages the filters have version 1 or 2."""
    bound = {1: h5f.LIBVER_EARLIEST, 2: h5f.LIBVER_LATEST}[oldest]
    with created(name, *widths, bound) as file:
        for what, filters in PIPELINES.items():
            for depth, (count, size) in LINKS.items():
                if depth == "deep" and (what != "deflate, fletcher32" or widths[0] == 2):
                    continue
                group = h5py.Group(h5g.create(file.id, f"{depth} {what}".encode(), None, made_with(filters)))
                for i in range(count):
                    group[f"link {i}"] = h5py.SoftLink("/" + f"{i} target "[: size - 1].ljust(size - 1, "x"))


def check_objects(program, name, heap, trees, dues, counts):
    """Every ID is decoded, and none is read; each object is the link that is due. Returns one of the IDs."""
    for tree, due in zip(trees, dues):
        tree = form.BTree(heap.image, tree)
        for key, heap_id in (form.key_and_id(tree.kind, record) for record in tree.records):
            expect(heap.object(heap_id) == due[key], f"the link {heap_id.hex()}")
    ids = [form.key_and_id(tree.kind, record)[1] for record in tree.records]
    expect(len(ids) == heap.managed_count, "managed objects")
    decoded = ask(program, name, heap.image, heap.address, ids, "decode")
    expect(decoded == [(0, *heap.decode(heap_id)) for heap_id in ids], "IDs of a filtered heap")
    expect(ask(program, name, heap.image, heap.address, ids) == [(8, 0, 0)] * len(ids), "reads of a filtered heap")
    if os.path.exists(COMMAND):
        run = subprocess.run([COMMAND, "read", name, str(heap.address), ids[0].hex()], capture_output=True, text=True)
        said = run.returncode == 1 and not run.stdout and "refused by 8: the heap is filtered" in run.stderr
        expect(said and "h5dump" in run.stderr, f"{run}")
    counts["filtered, IDs"] += len(ids)
    return ids[0]


def check_header(program, name, heap, counts):
    """All that there is to tell of the header, from C, by the command, and by h5debug."""
    told = ask(program, name, heap.image, heap.address, [b"\0"], "header")
    expect(told == [(0, *heap.numbers())], f"{told}, not {heap.numbers()}")
    if os.path.exists(COMMAND):
        expect(told_headers(name, str(heap.address)) == [told_of(heap)], f"the header at {heap.address}")
        check_words(name, heap.address, heap.pipeline_version, heap.filters)
        check_mask(name, heap)
    if shutil.which("h5debug"):
        h5debug.check_header(name, heap)
        counts["filtered, h5debug"] += 1


def name_of(each):
    """How the command names a filter."""
    return FORMAT_NAMES.get(each.number) or each.name or "a filter without a name"


def in_words(i, each):
    """How the command tells of a filter."""
    name = name_of(each)
    optional = ", optional" if each.flags & OPTIONAL else ""
    values = ", ".join(str(value) for value in each.values)
    word = "value" if len(each.values) == 1 else "values"
    return f"{i}: {name} (filter {each.number}){optional}, " + (f"{word} {values}" if values else "no values")


def lines_of(name, address):
    """What the command says of a header."""
    words = [COMMAND, "header", "--quiet", name, str(address)]
    run = subprocess.run(words, capture_output=True, text=True)
    expect(run.returncode == 0, f"{run}")
    return [line.strip() for line in run.stdout.splitlines()]


def check_words(name, address, version, filters):
    """The command names the filters with their values, and nothing else of them."""
    due = [f"filters: {len(filters)} in a message of version {version}, put on in this order:"]
    due += [in_words(i, each) for i, each in enumerate(filters)]
    behind = itertools.dropwhile(lambda line: not line.startswith("filters:"), lines_of(name, address))
    told = list(itertools.takewhile(lambda line: not line.startswith("geometry:"), behind))
    expect(told == due, f"{told}, not {due}")


def check_mask(name, heap):
    """The command says by their names and places which filters a direct root skipped."""
    skipped = [f"{name_of(each)}, at place {i}" for i, each in enumerate(heap.filters) if heap.filter_mask >> i & 1]
    due = "the root block skipped " + ("; ".join(skipped) or "no filter")
    if heap.rows:
        due = "the root is no direct block"
    told = [line for line in lines_of(name, heap.address) if line.startswith("filter mask ")]
    expect([line.split(maxsplit=3)[2:] for line in told] == [[f"{heap.filter_mask:,}", due]], f"{told}, not {due}")


def check_group(program, folder, name, image, group, filters, version, counts, damage):
    """The heap of a group's links; how often each number refused a damaged or cut copy, where some are made."""
    address, trees = form.dense_storage(image, h5o.get_info(group.id).addr, form.LINK_INFO)
    heap = form.Heap(image, address)
    stored = [(each.number, each.flags, each.values) for each in heap.filters]
    expect((heap.pipeline_version, stored) == (version, filters), f"{heap.filters} of {heap.pipeline_version}")
    for each in heap.filters:
        due = NAMES[each.number] if version == 1 or each.number >= 256 else None
        expect(each.name == due, f"the name of {each}, not {due}")
    position = address + 26 + 13 * image.length_size + 3 * image.offset_size
    expect(heap.filters_at == position, "where the filters are")
    if heap.rows == 0:
        skipped = sum(1 << i for i, each in enumerate(heap.filters) if each.number == FAILING)
        expect(heap.filtered_root > 0 and heap.filter_mask == skipped, "size and mask of a direct root")
    check_header(program, name, heap, counts)
    heap_id = check_objects(program, name, heap, trees, due_messages(image, group.id, form.LINK_INFO), counts)
    counts[f"filtered, depth {heap.depth}"] += 1
    return check_copies(program, heap, heap_id, folder, damaged_headers(heap)) if damage else collections.Counter()


def check_refused(folder):
    """HDF5 lets no group have the filters that ask for a dataset's type. It finds that when it makes the heap."""
    name = os.path.join(folder, "refused.h5")
    for number in OF_DATASETS:
        with created(name, 8, 8) as file:
            group = h5py.Group(h5g.create(file.id, b"group", None, made_with([(number, OPTIONAL, (2, 0))])))
            try:
                for i in range(10):
                    group[f"link {i}"] = h5py.SoftLink("/target")
            except OSError:
                continue
            expect(False, f"a group with {NAMES[number]}")
    os.remove(name)


def of_datasets(file):
    """Datasets with the filters that no group can have, and of each filter what h5py tells: number, flags, values."""
    for number in OF_DATASETS:
        if not h5z.filter_avail(number):
            continue
        what = NAMES[number]
        made = h5p.create(h5p.DATASET_CREATE)
        made.set_chunk((16,))
        made.set_attr_creation_order(h5p.CRT_ORDER_TRACKED)  # so that its header is a new one
        if what == "scaleoffset":
            made.set_scaleoffset(h5z.SO_INT, 3)
        elif what == "szip":
            made.set_szip(h5z.SZIP_NN_OPTION_MASK, 8)
        else:
            made.set_filter(number, h5z.FLAG_OPTIONAL)
        made.set_deflate(5)
        made.set_fletcher32()
        dataset = h5d.create(file.id, what.encode(), h5t.STD_I32LE, h5s.create_simple((64,)), made)
        made = dataset.get_create_plist()
        told = [made.get_filter(i) for i in range(made.get_nfilters())]
        yield what, dataset, [(number, flags, values[:TOLD]) for number, flags, values, _ in told]


def header_with(information):
    """A sound header with this filter information, at sizes of 8; its other fields are of no matter."""
    fields = [len(information) if name == "filter_length" else 0 for name, _ in form.HEADER_FIELDS]
    return form.spelled_header(fields, form.field_widths(8, 8), bytes(8 + 4) + information)


def check_messages(folder, counts):
    """The messages that HDF5 has in the headers of datasets, in the header of a heap: the command tells of them what
    HDF5 tells of the datasets' filters."""
    name = os.path.join(folder, "datasets.h5")
    for version, bound in ((1, h5f.LIBVER_EARLIEST), (2, h5f.LIBVER_LATEST)):
        with created(name, 8, 8, bound) as file:
            found = {what: (h5o.get_info(dataset).addr, filters) for what, dataset, filters in of_datasets(file)}
        with open(name, "rb") as opened:
            image = form.BasedImage(opened.read(), (8, 8))
        for what, (address, filters) in found.items():
            message = next(part for kind, part in form.messages(image, address) if kind == form.FILTER_PIPELINE)
            stored, read = form.pipeline(message)
            plain = [(each.number, each.flags, each.values[:TOLD]) for each in read]
            expect((stored, plain) == (version, filters), f"{what}: {read}, not {filters}")
            with open(name, "wb") as opened:
                opened.write(header_with(message))
            if os.path.exists(COMMAND):
                check_words(name, 0, version, read)
            counts["filtered, messages"] += 1
    os.remove(name)


def report(counts, numbers):
    """What to print of it."""
    copies = ", ".join(f"{count} by {number}" for number, count in sorted(numbers.items()))
    heaps = ", ".join(f"{counts[f'filtered, depth {depth}']} of depth {depth}" for depth in range(3))
    total = sum(counts[f"filtered, depth {depth}"] for depth in range(3))
    debugged = counts["filtered, h5debug"]
    debugged = f"{debugged} as h5debug tells them" if debugged else "h5debug: skipped, it is not at hand"
    return (
        f"filtered heaps: {total} headers ({heaps}), each number, {debugged}; {counts['filtered, IDs']} IDs decoded, and "
        f"refused by 8; damaged and cut copies, {copies}; {counts['filtered, messages']} messages of datasets"
    )


def check(program, folder, counts):
    """What to print of it."""
    know_filters()
    if is_known():
        check_refused(folder)
    check_messages(folder, counts)
    numbers = collections.Counter()
    for widths, version in FILES:
        name = os.path.join(folder, f"filtered_{widths[0]}_{widths[1]}_{version}.h5")
        write_file(name, widths, version)
        with open(name, "rb") as opened:
            image = form.BasedImage(opened.read(), widths)
        with h5py.File(name, "r") as file:
            for key in file:
                depth, what = key.split(" ", 1)
                damage = depth == "direct" and (widths == (8, 8) or what == "deflate, fletcher32")
                args = image, file[key], PIPELINES[what], version, counts, damage
                numbers += check_group(program, folder, name, *args)
        os.remove(name)
    return report(counts, numbers)
