"""Damaged and cut copies of files, and what is due for them by the format and by docs/RULES.md."""

import collections
import functools
import os

import hdf5_format as form
from asked import ask_all
from hdf5_format import expect


def checksum_answer(image, data, address):
    """The refusal of a header that is not as it was sealed: 7, or 1 where its checksum, which stands behind as many bytes
    of filters as it says, is past the file."""
    filter_length = int.from_bytes(data[address + 7 : address + 9], "little")
    end = address + form.header_length(image, filter_length)
    if end > len(data):
        return 1, end, len(data)
    return 7, int.from_bytes(data[end - 4 : end], "little"), form.lookup3(data[address : end - 4])


def by_all(answer):
    """What is due of each reader and of the stopping block, where it is the same: of a header that is refused."""
    return answer, answer, answer


def flipped(heap, at):
    """A copy with one bit of the header flipped, and the answer that is due: 1, 4, 5 or 7."""
    data = bytearray(heap.image.data)
    data[at] ^= 0x40
    if at < heap.address + 4:
        return data, (4, 0, 0)
    if at == heap.address + 4:
        return data, (5, data[at], 0)
    return data, checksum_answer(heap.image, bytes(data), heap.address)


def field_ends(image, filter_length):
    """Where the fields end that parsing tests, in its order; some are tested together, and all that a header has behind
    the root's rows is."""
    offset, length = image.offset_size, image.length_size
    steps = [5, 2, 2, 1, 4, length, offset, 4 * length + offset, length, 4 * length + 2]
    steps += [length, length, 2, 2, offset, 2]
    ends = [sum(steps[: i + 1]) for i in range(len(steps))]
    return ends + [form.header_length(image, filter_length)]


def damaged_headers(heap):
    """Copies flipped at each byte of the header, and cut before it."""
    ends = field_ends(heap.image, heap.filter_length)
    for at in range(heap.address, heap.address + heap.length):
        data, due = flipped(heap, at)
        yield data, by_all(due)
        end = next(end for end in ends if heap.address + end > at)
        yield heap.image.data[:at], by_all((1, heap.address + end, at))


def sealed(heap, block, data):
    """Lays the checksum of a block over it, where it has one."""
    is_direct = block.signature == b"FHDB"
    if is_direct and not heap.has_sums():
        return
    sum_at = block.address + (heap.direct_header() if is_direct else block.size) - 4
    data[sum_at : sum_at + 4] = computed_sum(data, block, sum_at).to_bytes(4, "little")


kept_sum = functools.lru_cache(64)(form.lookup3)  # most blocks of a damaged file are sound, and asked for again


def computed_sum(data, block, sum_at):
    """The checksum that a block has to have: of all before it, or of all of a direct block with itself as zeros."""
    before = bytes(data[block.address : sum_at])
    if block.signature == b"FHIB":
        return kept_sum(before)
    return kept_sum(before + bytes(4) + bytes(data[sum_at + 4 : block.address + block.size]))


def block_answer(heap, block, data):
    """What is due of a block of a file that may be damaged, if all before it are sound: a refusal, or None."""
    end = block.address + block.size
    if end > len(data):
        return 1, end, len(data)
    at = heap.image.over(bytes(data[block.address : end]))
    if at.take(4) != block.signature:
        return 4, 0, 0
    version = at.number(1)
    if version:
        return 5, version, 0
    for wanted, stored in ((heap.address, at.address()), (block.offset, at.number((heap.bits + 7) // 8))):
        if stored != wanted:
            return 19, stored, wanted
    is_direct = block.signature == b"FHDB"
    if is_direct and not heap.has_sums():
        return None
    sum_at = block.address + at.at if is_direct else end - 4
    stored = int.from_bytes(data[sum_at : sum_at + 4], "little")
    computed = computed_sum(data, block, sum_at)
    return None if stored == computed else (18, stored, computed)


def checked_answers(heap, heap_id, data):
    """What the checked reader and its stopping block have to answer by an ID, in a file that is damaged in no more than
    blocks on its way."""
    offset, length = heap.decode(heap_id)
    way = heap.way(offset)
    for block in way:
        answer = block_answer(heap, block, data)
        if answer:
            return answer, (0, block.address, block.offset)
    last = way[-1]
    return (0, last.address + offset - last.offset, length), (0, last.address, last.offset)


def check_copies(program, heap, heap_id, folder, copies):
    """Holds the answers for damaged copies of a file to those due, by each reader; returns how often the checked one
    had each number."""
    name, numbers = os.path.join(folder, "damaged.h5"), collections.Counter()
    for data, dues in copies:
        with open(name, "wb") as opened:
            opened.write(data)
        answers = ask_all(program, name, heap.image, heap.address, [heap_id])
        expect(answers == [dues], f"a damaged copy of {len(data)} bytes: {answers}, not {dues}")
        numbers[dues[0][0]] += 1
        os.remove(name)
    return numbers
