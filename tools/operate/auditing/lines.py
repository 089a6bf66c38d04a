"""Lines of `csi-replay record` as values, read by docs/LINES.md: each object has exactly its keys, each value is within its limits. The rules
that join the rows of a record aren't asked for; what the clauses of an audit look up stands there once."""
import json
from dataclasses import dataclass, field


class Bad(Exception):
    """What is wrong with the input."""


@dataclass
class System:
    """What the records have: a controller's volumes, each node's rows by its id, an orchestrator's rows, or None without its line."""

    controller: list | None = None
    nodes: dict = field(default_factory=dict)
    orchestrator: list | None = None
    listed: list = field(default_factory=list)  # the orchestrator's nodes


# ---- the parts of a line: each takes a value of JSON, and gives what is kept of it


def refuse(right, value):
    shown = json.dumps(value)
    raise Bad(f"{shown if len(shown) <= 60 else shown[:60] + '..'} where {right} is wanted")


def number(least=0, most=2**64 - 1):
    def read(value):
        if type(value) is not int or not least <= value <= most:
            refuse(f"a number from {least} to {most}", value)
        return value

    return read


def text(least, most):
    def read(value):
        try:
            if type(value) is str and least <= len(value.encode()) <= most:
                return value
        except UnicodeEncodeError:  # half of a surrogate pair
            pass
        return refuse(f"a text of {least} to {most} bytes", value)

    return read


def flag(value):
    return value if type(value) is bool else refuse("true or false", value)


def word(*words):
    return lambda value: value if type(value) is str and value in words else refuse(" or ".join(words), value)


def maybe(read):
    return lambda value: None if value is None else read(value)


def listed(read, most):
    def read_all(value):
        if type(value) is not list or len(value) > most:
            refuse(f"a list of at most {most}", value)
        return [read(it) for it in value]

    return read_all


def once(key, read, most):
    """A list in which no two have the same of this."""
    read_all = listed(read, most)

    def read_once(value):
        items, seen = read_all(value), set()
        for it in items:
            if it[key] in seen:
                raise Bad(f"{key} {json.dumps(it[key])} stands there twice")
            seen.add(it[key])
        return items

    return read_once


def with_keys(**parts):
    """An object with exactly these keys."""

    def read(value):
        if type(value) is not dict or value.keys() != parts.keys():
            refuse(f"an object of {', '.join(sorted(parts))}", value)
        return {key: part(value[key]) for key, part in parts.items()}

    return read


BLOCK = with_keys(access=word("block"), mode=number(1, 7))
MOUNT = with_keys(access=word("mount"), fs=text(0, 128), mode=number(1, 7))


def capability(value):
    """Access, fs type and mode."""
    it = (MOUNT if type(value) is dict and "fs" in value else BLOCK)(value)
    return it["access"], it.get("fs"), it["mode"]


NAME, NODE_ID, TARGET = text(1, 128), text(1, 255), text(1, 255)
ROWS, NODES, TARGETS, CAPABILITIES = 4096, 64, 16, 8
KNOWN = word("yes", "no", "maybe")
CALL = with_keys(call=number(), session=number())
WANTED = {  # a goal, as in a schedule
    "create": with_keys(capabilities=listed(capability, CAPABILITIES), limit=number(), name=NAME, required=number()),
    "use": with_keys(capability=capability, name=NAME, node=NODE_ID, readonly=flag, target=TARGET),
    "stop": with_keys(name=NAME, node=NODE_ID, target=TARGET),
    "delete": NAME,
}


def goal(value):
    if type(value) is not dict or len(value) != 1 or (kind := next(iter(value))) not in WANTED:
        refuse("a goal", value)
    return kind, WANTED[kind](value[kind])


# ---- the lines

CONTROLLER = with_keys(
    next_id=number(),
    plugin=word("controller"),
    session=number(),
    volumes=once(
        "name",
        with_keys(
            attached=listed(with_keys(capability=capability, node=NODE_ID, readonly=flag), NODES),
            capabilities=listed(capability, CAPABILITIES),
            capacity=number(1, 2**63 - 1),
            id=number(1),
            last=CALL,
            live=flag,
            name=NAME,
        ),
        ROWS,
    ),
)
NODE = with_keys(
    node=NODE_ID,
    plugin=word("node"),
    session=number(),
    volumes=once(
        "id",
        with_keys(
            id=number(1),
            last=CALL,
            published=listed(with_keys(readonly=flag, target=TARGET), TARGETS),
            staged=maybe(capability),
        ),
        ROWS,
    ),
)
ORCHESTRATOR = with_keys(
    nodes=listed(NODE_ID, NODES),
    plugin=word("orchestrator"),
    session=number(1),
    volumes=once(
        "name",
        with_keys(
            at=once(
                "node",
                with_keys(
                    attached=KNOWN,
                    capability=capability,
                    node=NODE_ID,
                    published=once("target", with_keys(known=KNOWN, target=TARGET), TARGETS),
                    readonly=flag,
                    staged=KNOWN,
                ),
                NODES,
            ),
            capabilities=listed(capability, CAPABILITIES),
            exists=KNOWN,
            goal=maybe(goal),
            id=maybe(number(1)),
            limit=number(),
            name=NAME,
            required=number(),
            tries=number(0, 3),
        ),
        ROWS,
    ),
)
LINES = {"controller": CONTROLLER, "node": NODE, "orchestrator": ORCHESTRATOR}


def without_repeats(pairs):
    if len(dict(pairs)) < len(pairs):
        raise Bad("a key stands in an object twice")
    return dict(pairs)


def whole(digits):
    return int(digits) if digits.isdigit() else refuse("a whole number", digits)


def value_of(line):
    try:
        content = line.decode()
    except UnicodeDecodeError:
        raise Bad("not UTF-8") from None
    how = {"parse_int": whole, "parse_float": whole, "parse_constant": whole}
    try:
        return json.loads(content, object_pairs_hook=without_repeats, **how)
    except (ValueError, RecursionError):
        raise Bad("not JSON") from None


def put(system, line):
    """Adds what a line says; a second line of the same part of a system is refused."""
    value = value_of(line)
    kind = value.get("plugin") if type(value) is dict else None
    if type(kind) is not str or kind not in LINES:
        refuse("a record", value)
    it = LINES[kind](value)
    if kind == "node":
        if it["node"] in system.nodes:
            raise Bad(f"a second line of the node {json.dumps(it['node'])}")
        system.nodes[it["node"]] = it["volumes"]
        return
    if getattr(system, kind) is not None:
        raise Bad(f"a second line of the {kind}")
    setattr(system, kind, it["volumes"])
    if kind == "orchestrator":
        system.listed = it["nodes"]
    elif len({volume["id"] for volume in it["volumes"]}) < len(it["volumes"]):
        raise Bad("an id stands there twice")


def system_of(lines, absent=()):
    """The system that these lines tell, each behind its place, where no node of these ids is there."""
    system = System()
    for place, line in lines:
        try:
            put(system, line)
        except Bad as bad:
            raise Bad(f"{place}: {bad}") from None
    if system.controller is None:
        raise Bad("there is no line of the controller")
    for node in system.listed:
        if node not in system.nodes and node not in absent:
            raise Bad(f"there is no line of the node {json.dumps(node)}, which the orchestrator lists")
    for node in absent:
        if node in system.nodes:
            raise Bad(f"there is a line of the node {json.dumps(node)}, which isn't there")
    return system
