"""Reads the functions of the crates: which are public, and the text of their contracts."""
import functools
import os
import re

from house.sources import CRATES, Imports, crates, files_below, joined_uses, text_of

FUNCTION = re.compile(r'(pub(?:\([a-z]+\))? )?(?:const )?(?:unsafe )?(?:extern "C" )?fn (\w+)')
OWNER = re.compile(r"(?:unsafe )?impl(?:<[^{]*?>)? (?:(.+) for )?([\w:]+)")
CLAUSE = re.compile(r"(?:requires|ensures)\b")


class Contract:
    """What a function, a type or a trait says in clauses: its text, the names in scope, and whether callers see it."""

    def __init__(self, crate, file, line, name, public, text, clauses, imports):
        self.crate, self.file, self.line, self.name = crate, file, line, name
        self.public, self.text, self.clauses, self.imports = public, text, clauses, imports


class Everything:
    def __contains__(self, name):
        return True


def exported(crate):
    """The names that a crate's root hands on. A program has none; of it, all that is `pub` is taken as public."""
    file = os.path.join(CRATES, crate, "src", "lib.rt")
    if not os.path.isfile(file):
        return Everything()
    rows = re.findall(r"^pub use ([^;]*);", text_of(file), re.M)
    return {name for row in rows for name in re.findall(r"\w+(?=\s*(?:,|\}|$))", row.strip())}


def contracts():
    """The contracts of all crates."""
    for crate in crates():
        names = exported(crate)
        for file in files_below(os.path.join(CRATES, crate, "src"), ".rt"):
            yield from contracts_in(crate, file, names)


def scope_of(outer, lines, indent):
    """The names of the `ghost use` items that stand at this indentation, beside those around it."""
    inner = Imports()
    inner.names.update(outer.names)
    inner.modules.update(outer.modules)
    for first, _, row in joined_uses(lines):
        if len(lines[first]) - len(lines[first].lstrip()) == indent:
            inner.add(row.removeprefix("ghost "))
    return inner


def block_from(lines, at):
    """The line that closes what begins here: a brace at the same indentation, or the line itself."""
    indent = len(lines[at]) - len(lines[at].lstrip())
    end = at
    while end < len(lines):
        row = lines[end]
        if row.startswith(" " * indent + "}") and end > at:
            return end
        if end == at and row.rstrip().endswith((";", "}")) and row.count("{") == row.count("}"):
            return end
        end += 1
    return len(lines) - 1


def heads(lines, indent):
    """The lines at this indentation that begin an item with a contract: a function, an impl, a trait or a type."""
    at = 0
    while at < len(lines):
        row = lines[at]
        word = row.strip()
        if row.startswith(" " * indent) and not row.startswith(" " * (indent + 1)) and word:
            if FUNCTION.match(word):
                last = function_end(lines, at)
                yield "fn", at, last
                at = last
            elif re.match(r"(?:pub(?:\([a-z]+\))? )?(?:unsafe )?(impl\b|trait |struct |enum |mod \w+ \{)", word):
                last = block_from(lines, at)
                yield "block", at, last
                at = last
        at += 1


def function_end(lines, at):
    """The last line of a function that begins here."""
    indent = len(lines[at]) - len(lines[at].lstrip())
    closes, end = (" " * indent + "}", " " * indent + "{}"), at
    while end < len(lines):
        row = lines[end].rstrip()
        if row in closes:
            return end
        if row.endswith(";") and not row.startswith(" " * (indent + 8)) and opens_no_body(lines, at, end):
            return end
        if end == at and row.endswith("}") and row.count("{") == row.count("}"):
            return end
        end += 1
    return len(lines) - 1


def opens_no_body(lines, first, last):
    indent = len(lines[first]) - len(lines[first].lstrip())
    for row in lines[first:last + 1]:
        if row.rstrip() in (" " * indent + "{", " " * indent + "{}"):
            return False
        if row.rstrip().endswith(" {") and not row.strip().startswith(("ensures", "requires")):
            return False
    return True


def contract_lines(lines, first, last):
    """The lines of a function's signature and clauses."""
    indent = len(lines[first]) - len(lines[first].lstrip())
    for at in range(first, last + 1):
        row = lines[at].rstrip()
        if row in (" " * indent + "{", " " * indent + "{}"):
            return lines[first:at]
        if row.endswith(" {") and not row.strip().startswith(("ensures", "requires", "ghost")):
            return lines[first:at + 1]
    return lines[first:last + 1]


def contracts_in(crate, file, names):
    lines = text_of(file).split("\n")
    scope = scope_of(Imports(), lines, 0)
    for kind, first, last in heads(lines, 0):
        if kind == "fn":
            yield function(crate, file, lines, first, last, scope, lambda pub, name: pub == "pub " and name in names)
        else:
            yield from block(crate, file, lines, first, last, scope, names)


def function(crate, file, lines, first, last, scope, is_public):
    pub, name = FUNCTION.match(lines[first].strip()).groups()
    rows = contract_lines(lines, first, last)
    clauses = sum(1 for row in rows if CLAUSE.match(row.strip()))
    is_exported = 'extern "C"' in lines[first]
    text = "\n".join(row for row in rows if not row.strip().startswith("//"))
    return Contract(crate, file, first + 1, name, is_exported or is_public(pub, name), text, clauses, scope)


def block(crate, file, lines, first, last, scope, names):
    """The contracts in an impl, a trait, a type or a module."""
    head = lines[first].strip()
    inner = scope_of(scope, lines[first:last + 1], len(lines[first]) - len(lines[first].lstrip()) + 4)
    found = OWNER.match(head)
    if found:
        trait, owner = found.groups()
        own = re.match(r"[\w:]+", trait).group(0).split("::")[-1] if trait else None
        seen = owner.split("::")[-1] in names and (own is None or own in names or not is_of_crate(crate, own))
        is_public = (lambda pub, name: seen) if trait else (lambda pub, name: seen and pub == "pub ")
    else:
        name = re.search(r"(?:trait|struct|enum|mod) (\w+)", head).group(1)
        seen = name in names
        is_public = lambda pub, name: seen  # noqa: E731
    for kind, a, b in heads(lines[first + 1:last], len(lines[first]) - len(lines[first].lstrip()) + 4):
        if kind == "fn":
            yield function(crate, file, lines, first + 1 + a, first + 1 + b, inner, is_public)
    rest = "\n".join(ghost_rows(lines, first, last))
    if rest:
        yield Contract(crate, file, first + 1, head.split("{")[0].strip(), seen, rest, 0, inner)


def ghost_rows(lines, first, last):
    """The ghost members of a block: what a trait asks and an impl gives, and what always holds of a type."""
    at = first + 1
    while at < last:
        row = lines[at].strip()
        if row.startswith("ghost ") and not row.startswith("ghost use"):
            depth = 0
            while at < last:
                depth += lines[at].count("{") - lines[at].count("}")
                yield lines[at]
                if depth <= 0 and lines[at].rstrip().endswith((";", ",", "}")):
                    break
                at += 1
        at += 1


@functools.lru_cache(maxsize=None)
def is_of_crate(crate, trait):
    """Whether this crate has a trait of this name."""
    src = os.path.join(CRATES, crate, "src")
    return any(re.search(rf"\btrait {trait}\b", text_of(file)) for file in files_below(src, ".rt"))
