"""What the scripts beside this one read of the repository: the functions and constants of a crate's code, its
definitions, its must-fail edits, and the lists of functions in docs."""
import re
from pathlib import Path

HELPERS = "docs/HELPERS.txt"
LAWS = "For their contract alone"  # so a heading of it begins

FUNCTION = re.compile(r'^( *)(pub(?:\([^)]*\))? )?((?:const |unsafe |extern (?:"[^"]*" )?)*)fn (\w+)', re.M)
BLOCK = re.compile(r"^(?:pub (?:unsafe )?trait (\w+)|(?:unsafe )?impl\b)([^{]*)\{(?:\}|.*?^\})", re.M | re.S)
TRAIT = re.compile(r"^pub (?:unsafe )?trait (\w+)", re.M)
TYPE = re.compile(r"^(pub )?(?:struct|enum|union|(?:unsafe )?trait|type) (\w+)", re.M)
CONSTANT = re.compile(r"^(?:pub )?const (\w+):[^;]*;", re.M)
DEFINITION = re.compile(r"^(?:  )?(?:unfoldable |abbrev )?(?:pub )?(?:(?:record|data) ([^\s:(]+)|([^\s:(]+) :)", re.M)


class Part:
    """A part of a crate's text that has a name: its file, its text, and the lines on which it stands."""

    def __init__(self, file, name, whole, start, end):
        self.file, self.name, self.text = file, name, whole[start:end]
        self.lines = range(line_at(whole, start), line_at(whole, end) + 1)


class Function(Part):
    """A function: its name has that of the type whose method it is. Its text ends before its last line."""

    def __init__(self, file, name, whole, match, public):
        indent, _, kind, _ = match.groups()
        # rt fmt writes an empty body as {}, behind a signature without clauses in its line; a trait's function may have none
        opened = re.compile(rf"\n{indent}\{{|\{{\}}?$|;$", re.M).search(whole, match.start())
        self.has_body = opened[0] != ";"
        whole_body = re.compile(rf"\n{indent}(?:\{{\}}|\}})")
        last = opened if opened[0] in ("{}", ";") else whole_body.search(whole, match.start())
        super().__init__(file, name, whole, match.start(), last.start())
        self.lines = range(self.lines.start, self.lines.stop + 1)
        attributes = re.search(r"(?: *#\[.*\]\n)*\Z", whole[: match.start()])[0]
        self.told_at = range(self.lines.start - attributes.count("\n"), self.lines.stop)  # an error's line
        self.public, self.of_c, self.of_trait = public, "extern" in kind, ""
        self.contract, _, self.body = self.text.partition(f"\n{indent}{{")
        self.asks = re.search(r"^ +requires( \w+)? \{", self.contract, re.M) is not None
        self.is_law = last[0] == f"\n{indent}{{}}" and whole[match.end() :].startswith("()")  # it is given and does nothing


def line_at(text, position):
    return text.count("\n", 0, position) + 1


def subject(head):
    """The trait, if there is one, and the type that an impl names: `Option` for `Option<&T>`, `T` for `&mut a::T`."""
    head = head.replace("->", "")
    while (shorter := re.sub(r"<[^<>]*>", "", head)) != head:
        head = shorter
    trait, _, kind = " ".join(head.split()).partition(" where ")[0].rpartition(" for ")
    return [re.sub(r"&|'\w+|\b(?:mut|dyn)\b|\w+::|\s", "", name) for name in (trait, kind)]


def functions(file, text, traits):
    """The functions of a file. What a type has of a public trait of ours is public, too, and promises what the trait says
    of the ghost members that the type gives; so is what such a trait has with a body."""
    blocks = list(BLOCK.finditer(text))
    for m in FUNCTION.finditer(text):
        function = Function(file, m[4], text, m, m[2] == "pub ")
        block = next((block for block in blocks if block.start() < m.start() < block.end()), None)
        if block and block[1]:
            if function.has_body:
                function.name, function.public = f"{block[1]}::{m[4]}", True
        elif block:
            trait, kind = subject(block[2])
            function.name = f"{kind}::{m[4]}"
            if trait in traits:
                function.public = True
                function.of_trait = "".join(re.findall(r"^ +ghost \w+ = \{[^}]*\};\n", block[0], re.M))
        yield function


def constants(file, text):
    return [Part(file, m[1], text, m.start(), m.end()) for m in CONSTANT.finditer(text)]


def definitions(file, text):
    """The definitions of a file: each begins with its type and ends before the next one; the fields of a record are a
    part of it. Lines of comment are left blank."""
    text = re.sub(r"^ *--.*$", "", text, flags=re.M)
    records = [m.span() for m in re.finditer(r"^(?:pub )?(?:record|data) .*\n(?: .*\n|\n)*", text, re.M)]
    found = [m for m in DEFINITION.finditer(text) if not any(start < m.start() < end for start, end in records)]
    ends = [m.start() - 1 for m in found[1:]] + [len(text)]
    return [Part(file, m[1] or m[2], text, m.start(), end) for m, end in zip(found, ends)]


def names(text, word):
    return re.search(rf"(?<![\w'-]){re.escape(word)}(?![\w'-])", text) is not None


def module_path(file, module):
    """The file of a module that the file names, without its ending."""
    return f"{file[:-3]}/{module}" if Path(file).stem not in ("lib", "main") else f"src/{module}"


def is_proof_of(folder, function):
    """Whether this folder of proofs is that of a function: of a method it is that of its type, wherever the impl stands."""
    if "::" in function.name:
        return f"/{folder}".endswith(f"/{function.name.replace('::', '/')}")
    return folder == module_path(function.file, function.name)[len("src/") :]


def pairs(text):
    """The pairs of an edit, in turn: a file, what stands in it once, and what stands there in the wrong program."""
    file = old = None
    for line in text.splitlines():
        key, _, value = line.partition(":")
        value = value.removeprefix(" ")
        if key == "file":
            file = value.strip()
        elif key == "old" and file and old is None:
            old = value
        elif key == "new" and old:
            yield file, old, value
            old = None
        elif line.strip() and not line.startswith("#"):
            raise ValueError(f"this line of it is not read: {line}")
    if old is not None:
        raise ValueError(f"no `new:` follows its last `old: {old}`")


def said_by(file, line):
    """What a line says: without its comment, and with one blank for many."""
    mark = "--" if file.endswith(".antt") else "//"
    return "" if line.lstrip().startswith(mark) else " ".join(line.split(f" {mark}")[0].split())


class Edit:
    """A wrong program: the lines that say something else in it, each with what it says there. Where it is none, `fault`
    says why. A pair is two texts of one line each, so that no line changes its number."""

    def __init__(self, file, crate):
        text = file.read_text()
        self.name, self.fault = file.stem, None
        self.texts = re.findall(r"^(?:old|new):.*$", text, re.M)
        self.meaning = " ".join(line.lstrip("# ") for line in text.splitlines() if line.startswith("#"))
        before, after = {}, {}
        try:
            for path, old, new in pairs(text):
                if path not in after:
                    before[path] = after[path] = (crate / path).read_text()
                if (times := after[path].count(old)) != 1:
                    raise ValueError(f"its `old: {old}` stands {times} times in {path}, and not once")
                after[path] = after[path].replace(old, new)
        except FileNotFoundError:
            self.fault = f"there is no {path}"
        except ValueError as fault:
            self.fault = str(fault)
        self.changes = {change for path in after for change in changed_lines(path, before[path], after[path])}
        if not self.changes and not self.fault:
            self.fault = "it changes nothing but comments and blanks, if that"


def changed_lines(file, before, after):
    """The lines of a file that say something else afterwards."""
    for number, (line, now) in enumerate(zip(before.split("\n"), after.split("\n")), start=1):
        if line != now and said_by(file, line) != said_by(file, now):
            yield file, number, said_by(file, now)


def visible(code):
    """A test of whether other crates see a public function of this code. One in a module that is not public they see where
    a `pub use` names it or its type or trait, or where its type is public elsewhere in the crate, or is none of its own."""
    uses = " ".join(use for _, text in code for use in re.findall(r"^ *pub use ([^;]+);", text, re.M))
    named = set(re.findall(r"\w+", uses))
    hidden = [module_path(file, module) for file, text in code for module in re.findall(r"^mod (\w+);", text, re.M)
              if f"{module}::*" not in uses]

    def is_hidden(file):
        return file.startswith(tuple(f"{part}{end}" for part in hidden for end in (".rt", "/")))

    types = [(name, bool(pub) and not is_hidden(file)) for file, text in code for pub, name in TYPE.findall(text)]
    of_crate, public = {name for name, _ in types}, {name for name, is_public in types if is_public}

    def seen(f):
        owner, _, method = f.name.rpartition("::")
        return not is_hidden(f.file) or (owner or method) in named | public or owner != "" and owner not in of_crate

    return seen


class Crate:
    def __init__(self, folder, traits):
        def files(pattern):
            return [(str(f.relative_to(folder)), f.read_text()) for f in sorted(folder.glob(pattern))]

        self.name = folder.name
        code = files("src/**/*.rt")
        seen = visible(code)
        self.functions = [f for file, text in code for f in functions(file, text, traits)]
        for f in self.functions:
            f.public = f.public and seen(f)
        self.constants = [part for file, text in code for part in constants(file, text)]
        self.texts = dict(code)
        self.definitions = [d for file, text in files("specs/**/*.antt") for d in definitions(file, text)]
        self.edits = [Edit(f, folder) for f in sorted(folder.glob("must-fail/*.edit"))]


def crates_in(root):
    folders = [folder for folder in sorted((root / "crates").iterdir()) if folder.is_dir()]
    traits = {name for folder in folders for file in folder.glob("src/**/*.rt") for name in TRAIT.findall(file.read_text())}
    return [Crate(folder, traits) for folder in folders]


def public_functions(crates):
    """The public functions, with their crates, by the names of both."""
    return {(crate.name, f.name): (crate, f) for crate in crates for f in crate.functions if f.public}


def laws(root):
    """The laws of docs/HELPERS.txt: crate and name."""
    return {(crate, name) for heading, crate, name in listed(root / HELPERS) if heading.startswith(LAWS)}


def listed(file):
    return listed_in(file.read_text())


def listed_in(text):
    """What a list of docs names, in turn: the comment line above, crate and name."""
    heading = ""
    for line in text.splitlines():
        if line.startswith("#"):
            heading = line.lstrip("# ")
        else:
            crate, _, rest = line.partition(":")
            for name in rest.split():
                yield heading, crate, name
