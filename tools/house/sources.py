"""Reads the sources of the crates: definitions of `specs/`, the names that each cites, and the contracts of functions.

It reads text that `rt fmt` laid out: what begins in the first column begins a definition or an item, and a closing brace
stands where its item began.
"""
import functools
import os
import re

TOP = os.path.dirname(os.path.dirname(os.path.dirname(os.path.abspath(__file__))))
CRATES = os.path.join(TOP, "crates")
ROOMS = ("Model", "Public", "Private")

USE = re.compile(r"(?:pub )?(?:ghost )?use (Rattle[\w.«»]*)(?:\.\{(.*)\})?(?: as (\w+))?;?$")
DEFINES = re.compile(r"(?:(?:pub|abbrev|unfoldable|opaque|record|data)\s+)+(?!mod\b)([^\s:({]+)")
SECTION = re.compile(r"module _ (.*) where$")
WORD = re.compile(r"[^\W\d]\w*(?:\.[^\W\d]\w*)*|[^\s\w(){}\[\],;.]+")


class Definition:
    """A definition, with the comment above it. Its place is a module, such as csi_types.specs.Model.Mode."""

    def __init__(self, module, name, file, first, last, text):
        self.module, self.name, self.file = module, name, file
        self.first, self.last, self.text = first, last, text

    @property
    def crate(self):
        return self.module.split(".")[0]

    @property
    def room(self):
        """The folder of `specs/` that it stands in, or None."""
        parts = self.module.split(".")
        return parts[2] if len(parts) > 3 and parts[2] in ROOMS else None

    @property
    def lines(self):
        return self.last - self.first + 1


def text_of(file):
    with open(file, encoding="utf-8") as it:
        return it.read()


def crates():
    """The names of all crates, as crates.txt lists them."""
    rows = (row.split("#")[0].split(":")[0].split() for row in text_of(os.path.join(TOP, "crates.txt")).split("\n"))
    return [row[0] for row in rows if row]


def files_below(folder, ending):
    for place, folders, names in os.walk(folder):
        folders.sort()
        for name in sorted(names):
            if name.endswith(ending):
                yield os.path.join(place, name)


def module_of(crate, file, folder):
    """The name of a file's module without `Rattle.` in front: csi_types.specs.Model.Mode."""
    below = os.path.relpath(file, os.path.join(CRATES, crate, folder))[: -len(".antt")]
    return ".".join([crate, folder, *below.split(os.sep)])


def joined_uses(lines):
    """Each `use` line, whole, with its number; one may go over several lines."""
    at = 0
    while at < len(lines):
        row = lines[at].strip()
        if row.startswith(("use ", "ghost use ", "pub use ")):
            first = at
            while row.count("{") > row.count("}") and at + 1 < len(lines):
                at += 1
                row += " " + lines[at].strip()
            yield first, at, row
        at += 1


class Imports:
    """What the names of a file stand for."""

    def __init__(self):
        self.names = {}    # name here -> (module, name there)
        self.modules = {}  # alias -> module

    def add(self, row):
        found = USE.match(row)
        if not found:
            return
        module, listed, alias = found.groups()
        module = module[len("Rattle."):] if module.startswith("Rattle.") else module
        if listed is not None:
            for item in listed.split(","):
                words = item.split(" as ")
                if words[0].strip():
                    self.names[words[-1].strip()] = (module, words[0].strip())
        elif alias:
            self.modules[alias] = module
        else:
            module, _, name = module.rpartition(".")
            self.names[name] = (module, name)


def tokens(text):
    """The words of a text, comments left out."""
    for line in text.split("\n"):
        if not line.lstrip().startswith("--"):
            yield from WORD.findall(line.split(" -- ")[0])


class Specs:
    """All definitions of `specs/`, and what each cites."""

    def __init__(self):
        self.definitions = {}  # (module, name) -> Definition
        self.imports = {}      # module -> Imports
        self.files = {}        # module -> file
        self.members = {}      # (module, constructor) -> (module, type)
        for crate in crates():
            for file in files_below(os.path.join(CRATES, crate, "specs"), ".antt"):
                self.read(crate, file)

    def read(self, crate, file):
        module = module_of(crate, file, "specs")
        lines = text_of(file).split("\n")
        if not any(DEFINES.match(row) for row in lines):
            return  # a list of modules
        imports = self.imports[module] = Imports()
        for _, _, row in joined_uses(lines):
            imports.add(row)
        self.files[module] = file
        for first, start, last, name in blocks(lines):
            text = "\n".join(lines[start:last])
            self.definitions[module, name] = Definition(module, name, file, first + 1, last, text)
            for member in members_in(lines[start:last]):
                self.members.setdefault((module, member), (module, name))

    def find(self, module, name):
        """The definition that a name of a module stands for, through what the module hands on, or None."""
        seen = set()
        while (module, name) not in seen:
            seen.add((module, name))
            if (module, name) in self.definitions:
                return module, name
            if (module, name) in self.members:
                return self.members[module, name]
            if module in self.imports and name in self.imports[module].names:
                module, name = self.imports[module].names[name]
            else:
                return None
        return None

    def cited(self, text, imports, module=None):
        """The definitions that a text cites."""
        found = set()
        words = set(tokens(text))
        if "←" in words:
            words.add(">>=")  # what a `do` block stands for
        for word in words:
            found |= self.cited_by_word(word, imports, module)
        return found

    def cited_by_word(self, word, imports, module):
        parts = word.split(".")
        found = set()
        if parts[0] == "Rattle" and len(parts) > 2:
            found.add(self.find(".".join(parts[1:-1]), parts[-1]))
        elif parts[0] in imports.modules and len(parts) > 1:
            found.add(self.find(imports.modules[parts[0]], parts[1]))
        for name in operators_in(word) if not word[0].isalpha() else (parts[0],):
            if name in imports.names:
                found.add(self.find(*imports.names[name]))
            elif module:
                found.add(self.find(module, name))
        found.discard(None)
        return found

    @functools.lru_cache(maxsize=None)
    def below(self, key):
        """The definitions that a definition cites."""
        one = self.definitions[key]
        return frozenset(self.cited(one.text, self.imports[one.module], one.module) - {key})

    def closure(self, keys):
        """These definitions, and all that they rest on."""
        seen, left = set(), list(keys)
        while left:
            key = left.pop()
            if key not in seen:
                seen.add(key)
                left += self.below(key)
        return seen


def citations(specs, crate):
    """Of each file of a crate's `specs/` and `proofs/`: which definitions it imports, or names by an imported module."""
    for folder in ("specs", "proofs"):
        for file in files_below(os.path.join(CRATES, crate, folder), ".antt"):
            text, imports = text_of(file), Imports()
            for _, _, row in joined_uses(text.split("\n")):
                imports.add(row)
            found = {specs.find(*it) for it in imports.names.values()}
            for alias, module in imports.modules.items():
                if module in specs.files:
                    found |= {specs.find(module, name) for name in re.findall(rf"(?<![\w.]){alias}\.(\w+)", text)}
            yield file, found - {None}


def operators_in(word):
    """The names that an operator may have: as it stands, and with holes around it."""
    return word, f"◌{word}◌", f"◌{word}", f"{word}◌"


def members_in(lines):
    """The names that a definition brings with it: the constructors of data, or all that stands in a section (`module _`)."""
    if lines[0].startswith(("pub data", "data")):
        yield from (row.split()[0] for row in lines[1:] if re.match(r"\s+\w+ :", row))
    if lines[0].startswith("module _"):
        yield from (found.group(1) for found in map(DEFINES.match, (row.strip() for row in lines[1:])) if found)


def blocks(lines):
    """Of each definition: where its comment begins, where it begins, the line behind it, and its name. A section is one."""
    starts = []
    for at, row in enumerate(lines):
        found = SECTION.match(row) or DEFINES.match(row)
        if found and not row.startswith(("pub use", "pub mod")):
            starts.append((at, found.group(1)))
    for k, (at, name) in enumerate(starts):
        first = at
        while first > 0 and lines[first - 1].startswith(("--", "infix")):
            first -= 1
        last = starts[k + 1][0] if k + 1 < len(starts) else len(lines)
        while last > at and (not lines[last - 1].strip() or lines[last - 1].startswith(("--", "infix"))):
            last -= 1
        yield first, at, last, name
