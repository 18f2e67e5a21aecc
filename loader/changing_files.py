"""Has h5py change a file in place while the program reads it.
    changing_files.py POILURES FOLDER SECONDS
A writer switches a note between all A and all B, and each read that the program answers must be the one or the other:
beside a writer that keeps the file open, without the lock of HDF5, and beside one that opens and closes it, with the
lock. Then it is held to whom the program refuses, whom it waits for, and when it gives the lock back. All of it takes
no longer than so many seconds, else there is an error."""

import json
import multiprocessing
import os
import subprocess
import sys
import threading
import time

import h5py
import numpy
from h5py import h5a

from hdf5_format import expect

UNLOCKED, LOCKED = 2000, 200  # answers of a case, at least
READERS = 3
LETTERS = b"AB"
SWITCHED = "note"
FULL = 65479 - len(SWITCHED)  # bytes of a value that fill the largest block, with 34 and the name before them
FILLER = 60000


class Case:
    """A file with a note that is switched, and the words that read it; the value is the last that they print."""

    def __init__(self, program, folder, what, length, fillers, beside, words=None):
        self.program, self.what, self.length = program, what, length
        self.name = os.path.join(folder, what.replace(" ", "-") + ".h5")
        self.words = words or (lambda case: ["get", case.name, SWITCHED])
        # What fills the small blocks, and the largest one before, comes first.
        values = {f"filler {i:03}": b"F" * FILLER for i in range(fillers)}
        values |= {"before": b"F" * (65480 - len("before"))}
        others = {f"beside {i:03}": bytes([i + 1]) * length for i in range(beside)}
        half = beside // 2
        values |= dict(list(others.items())[:half]) | {SWITCHED: LETTERS[:1] * length} | dict(list(others.items())[half:])
        inputs = self.name + ".d"
        os.mkdir(inputs)
        for name, data in values.items():
            with open(os.path.join(inputs, name), "wb") as opened:
                opened.write(data)
        names = "".join(f"{inputs}/{name}\0" for name in values)
        told = self.run(["deposit", "--json", "--files0-from", "-", self.name], input=names.encode())
        expect(told.returncode == 0, told.stderr.decode())
        lines = {line["name"]: line for line in map(json.loads, told.stdout.splitlines())}
        self.id = lines[SWITCHED]["id"]
        blocks = {line["offset"] >> 16 for name, line in lines.items() if name == SWITCHED or name.startswith("beside")}
        expect(len(blocks) == 1, f"{what}: the note and those beside it lie in one block")
        with open(self.name, "rb") as opened:
            self.place = opened.read().index(b"FRHP")

    def run(self, words, **more):
        return subprocess.run([self.program, *words], capture_output=True, **more)

    def read(self, *options):
        """The note as the program gives it, and what it says; None where it is refused."""
        ended = self.run(self.words(self) + list(options))
        expect(ended.returncode in (0, 1), f"{self.what}: {ended.returncode}, {ended.stderr.decode()}")
        if ended.returncode:
            expect(b"refused by 18" in ended.stderr or b"checksum" in ended.stderr, ended.stderr.decode())
            return None
        return ended.stdout[-self.length :]

    def is_whole(self, value):
        return len(value) == self.length and any(value == bytes([letter]) * self.length for letter in LETTERS)


def switch(file, length, turn):
    value = numpy.full(length, LETTERS[turn % 2], numpy.uint8)
    h5a.open(file.id, SWITCHED.encode()).write(value)
    file.flush()


def write_open(name, length, ended, turns):
    """Switches the note in a file that stays open."""
    with h5py.File(name, "r+") as file:
        while not ended.is_set():
            switch(file, length, turns.value)
            turns.value += 1


def write_closing(name, length, ended, turns):
    """Switches the note in a file that is opened and closed each time; where another one has it locked, once more."""
    while not ended.is_set():
        try:
            with h5py.File(name, "r+") as file:
                for _ in range(4):
                    switch(file, length, turns.value)
                    turns.value += 1
        except BlockingIOError:
            pass
        time.sleep(0.002)


class Counts:
    def __init__(self):
        self.answered = self.refused = self.mixed = 0

    def add(self, case, value):
        self.refused += value is None
        self.answered += value is not None
        self.mixed += value is not None and not case.is_whole(value)


def race(case, write, options, due, end):
    """Reads beside a writer until so many reads are answered; how many were, and how often the note was switched."""
    ended, turns = multiprocessing.Event(), multiprocessing.Value("Q", 0)
    writer = multiprocessing.Process(target=write, args=(case.name, case.length, ended, turns), daemon=True)
    counts, failures, lock = Counts(), [], threading.Lock()

    def reader():
        try:
            while counts.answered < due and time.monotonic() < end and not failures:
                value = case.read(*options)
                with lock:
                    counts.add(case, value)
        except Exception as failure:
            failures.append(failure)

    writer.start()
    while not turns.value and writer.is_alive():
        time.sleep(0.001)
    before = turns.value
    readers = [threading.Thread(target=reader) for _ in range(READERS)]
    for thread in readers:
        thread.start()
    for thread in readers:
        thread.join()
    switched = turns.value - before
    ended.set()
    writer.join()
    for failure in failures:
        raise failure
    expect(writer.exitcode == 0, f"{case.what}: the writer ended with {writer.exitcode}")
    expect(counts.answered >= due, f"{case.what}, {options}: {counts.answered} answers in time, {counts.refused} refused")
    expect(switched >= due // 10, f"{case.what}, {options}: the note was switched {switched} times")
    return counts


def full_pipe():
    """Both ends of a pipe that takes no byte until one is read."""
    out, into = os.pipe()
    os.set_blocking(into, False)
    try:
        while True:
            os.write(into, b"." * 4096)
    except BlockingIOError:
        os.set_blocking(into, True)
    return out, into


def open_files(process):
    folder = f"/proc/{process}/fd"
    return [os.readlink(os.path.join(folder, name)) for name in os.listdir(folder)]


def is_asleep(process):
    with open(f"/proc/{process}/stat") as opened:
        return opened.read().rpartition(")")[2].split()[0] == "S"


def wait_for(holds):
    for _ in range(1000):
        if holds():
            return
        time.sleep(0.01)
    expect(False, "what is waited for comes")


def refusals(case):
    """Whom the program refuses and whom it waits for, and that it gives the lock back before it prints."""
    place, id = str(case.place), case.id
    readers = [["get", SWITCHED], ["list"], ["read", place, id, "-q"], ["header", "-q"], ["header", place, "-q"]]
    with_file = lambda words, file: [words[0], file, *words[1:]]
    said = "a program has it open for writing"
    checks = 0

    def check(words, status, file=case.name, **more):
        nonlocal checks
        ended = case.run(with_file(words, file), **more)
        expect(ended.returncode == status, f"{words}: {ended.returncode}, {ended.stderr.decode()}")
        expect((said in ended.stderr.decode()) == (status == 2), f"{words}: {ended.stderr.decode()}")
        expect(status != 2 or not ended.stdout, f"{words}: nothing is printed")
        checks += 1

    with h5py.File(case.name, "r+"):
        for words in readers:
            check(words, 2)
            check([*words, "--no-lock"], 0)
            with open(case.name, "rb") as standard:
                check(words, 0, "-", stdin=standard)
        begin = time.monotonic()
        check(["get", "--wait=1", SWITCHED], 2)
        expect(time.monotonic() - begin >= 1, "it waits for a second")
    with h5py.File(case.name, "r"):
        for words in readers:
            check(words, 0)
    # While what is printed waits for whoever takes it, the file can be opened for writing, and changed.
    for words in [["get", SWITCHED], ["read", place, id]]:
        with h5py.File(case.name, "r+") as file:
            switch(file, case.length, 0)
        out, into = os.pipe()
        printing = subprocess.Popen([case.program, *with_file(words, case.name)], stdout=into, stderr=subprocess.DEVNULL)
        os.close(into)
        first = os.read(out, 1)
        with h5py.File(case.name, "r+") as file:
            switch(file, case.length, 1)
        with os.fdopen(out, "rb") as rest:
            value = (first + rest.read())[-case.length :]
        expect(printing.wait() == 0, f"{words}: it is printed")
        expect(value == LETTERS[:1] * case.length, f"{words}: as it was when it was read")
        checks += 1
    # Nor is it locked while nobody takes what is told of it.
    heard, told = full_pipe()
    words = [case.program, "read", case.name, place, id]
    telling = subprocess.Popen(words, stdout=subprocess.DEVNULL, stderr=told)
    wait_for(lambda: case.name in open_files(telling.pid) and is_asleep(telling.pid))
    with h5py.File(case.name, "r+"):
        os.close(told)
        with os.fdopen(heard, "rb") as rest:
            said = rest.read()
    expect(telling.wait() == 0 and b"managed object" in said, "what is told is told")
    checks += 1
    # One that waits has what was written before it got the lock.
    with h5py.File(case.name, "r+") as file:
        switch(file, case.length, 1)
        waiting = subprocess.Popen([case.program, "get", "--wait", case.name, SWITCHED], stdout=subprocess.PIPE)
        time.sleep(0.1)
        expect(waiting.poll() is None, "it waits")
        switch(file, case.length, 0)
    value = waiting.communicate()[0]
    expect(waiting.returncode == 0 and value == LETTERS[:1] * case.length, "it has what was written last")
    return checks + 1


def main(program, folder, seconds):
    end = time.monotonic() + float(seconds)
    json_words = lambda case: ["read", "--json", "--out", "-", case.name, str(case.place), case.id]
    # Of more than 1 MiB but for the last one, which the program reads at once.
    cases = [
        Case(program, folder, "a note that fills its block", FULL, 20, 0),
        Case(program, folder, "a note among 100 of one block", 600, 20, 99),
        Case(program, folder, "read with JSON", FILLER, 20, 0, json_words),
        Case(program, folder, "a small file", FILLER, 1, 0),
    ]
    told, mixed = [], 0
    for case in cases:
        for write, options, due in [(write_open, ["--no-lock"], UNLOCKED), (write_closing, ["--wait"], LOCKED)]:
            counts = race(case, write, options, due, end)
            refused = f" and {counts.refused} refused" if counts.refused else ""
            told.append(f"{case.what} {' '.join(options)}: {counts.answered} read{refused}, {counts.mixed} mixed")
            mixed += counts.mixed
    checks = refusals(cases[0]) if not mixed else 0
    print(f"changing files: {'; '.join(told)}; {checks} checks of locks held")
    expect(not mixed, f"{mixed} reads gave bytes that never stood there together")


if __name__ == "__main__":
    main(*sys.argv[1:])
