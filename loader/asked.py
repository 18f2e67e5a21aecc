"""What our C functions and the command answer for the headers and the IDs of a file."""

import json
import subprocess

import hdf5_format as form
from hdf5_format import expect

COMMAND = "target/poilures"  # where it is built


def ask(program, name, image, address, ids, *words):
    """The answers of read_objects for IDs of the heap at an address, as tuples of three numbers."""
    widths = f"{address} {image.offset_size} {image.length_size}"
    lines = "".join(f"{widths} {heap_id.hex()}\n" for heap_id in ids)
    run = subprocess.run(
        [program, name, *words], input=lines, text=True, stdout=subprocess.PIPE, check=True
    )
    answers = [tuple(map(int, line.split())) for line in run.stdout.splitlines()]
    expect(len(answers) == len(ids), "number of answers")
    return answers


def ask_all(program, name, image, address, ids):
    """For each ID three answers: of the checked reader, of the other, and the stopping block."""
    answers = ask(program, name, image, address, ids, "all")
    return [(answer[:3], answer[3:6], answer[6:]) for answer in answers]


def told_headers(name, *words):
    """What the command tells of the headers in a file."""
    run = subprocess.run([COMMAND, "header", "--json", "--quiet", name, *words], capture_output=True, text=True)
    expect(run.returncode == 0, f"headers of {name}: {run}")
    return [json.loads(line) for line in run.stdout.splitlines()]


def told_of(heap, before=0):
    """What has to be told of a heap's header, before which there is a user block of so many bytes."""
    fields = heap.numbers()
    fields[form.FIELD_NAMES.index("io_filter_information_position")] += before if heap.filter_length else 0
    return form.told_fields(fields, heap.address + before, heap.image.offset_size, heap.image.length_size)
