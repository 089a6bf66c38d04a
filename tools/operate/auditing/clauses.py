"""The five clauses of safety (docs/PROVED.md, `Safe`), each as what it finds in the records of a system, in words."""
import itertools
import json

# docs/FRAMES.md, "What a mode allows": those for one node, those that never write, and those of which one node writes.
FOR_ONE_NODE = {1, 2, 6, 7}
READERS_ONLY = {2, 3}
ONE_WRITER = {4}


def shown(capability):
    access, fs, mode = capability
    return f"block/{mode}" if access == "block" else f"mount:{json.dumps(fs)}/{mode}"


def writes(attached):
    return not attached["readonly"] and attached["capability"][2] not in READERS_ONLY


def why_not_both(a, b):
    """Why a volume may not be attached in both of these ways, or None."""
    nodes, modes = [json.dumps(it["node"]) for it in (a, b)], [it["capability"][2] for it in (a, b)]
    if a["node"] == b["node"]:
        return f"to {nodes[0]} twice"
    for mode in modes:
        if mode in FOR_ONE_NODE:
            return f"to {nodes[0]} and {nodes[1]}, though mode {mode} is for one node"
    for mode in modes:
        if mode in ONE_WRITER and writes(a) and writes(b):
            return f"to {nodes[0]} and {nodes[1]}, and writes at both, though mode {mode} is for one writer"
    return None


def two_nodes(system):
    """Two attachments of a volume that may not be together."""
    for volume in system.controller:
        for a, b in itertools.combinations(volume["attached"], 2):
            if why := why_not_both(a, b):
                yield f"volume {volume['id']} is attached {why}"


def staged_unattached(system):
    """A volume that is staged at a node, and isn't attached there in the same capability."""
    attached = {(volume["id"], it["node"], it["capability"]) for volume in system.controller for it in volume["attached"]}
    for node, row in rows(system):
        if row["staged"] is not None and (row["id"], node, row["staged"]) not in attached:
            yield f"volume {row['id']} is staged at {json.dumps(node)} as {shown(row['staged'])}, and isn't attached there so"


def published_unstaged(system):
    """A volume that is published at a target, and isn't staged there. (What is published has the staged capability.)"""
    for node, row in rows(system):
        for it in row["published"]:
            if row["staged"] is None:
                yield f"volume {row['id']} is published at {json.dumps(node)}, {json.dumps(it['target'])}, and isn't staged there"


def deleted_attached(system):
    """A volume that was deleted, and is attached."""
    for volume in system.controller:
        for it in volume["attached"]:
            if not volume["live"]:
                yield f"volume {volume['id']} is attached to {json.dumps(it['node'])}, and was deleted"


def recorded_wrong(system):
    """A thing that is recorded as done, and isn't so; or as undone, and is so. What a record doesn't have is recorded as undone."""
    if system.orchestrator is None:
        return
    so, known = things(system), marks(system.orchestrator)
    for thing in sorted(so | known.keys(), key=lambda it: [part.encode() for part in it]):
        if known.get(thing, "no") == "no" and thing in so:
            yield f"{told(thing)}, which is recorded as undone"
        elif known.get(thing) == "yes" and thing not in so:
            yield f"{told(thing)}: that is recorded as done, and isn't so"


CLAUSES = {
    "TwoNodes": two_nodes,
    "StagedUnattached": staged_unattached,
    "PublishedUnstaged": published_unstaged,
    "DeletedAttached": deleted_attached,
    "RecordedWrong": recorded_wrong,
}


def found(system, clauses=None):
    """A line for each violation, clause by clause."""
    return [f"{name}: {it}" for name, clause in (clauses or CLAUSES).items() for it in clause(system)]


# ---- things


def rows(system):
    """Each row of each node."""
    return ((node, row) for node, volumes in system.nodes.items() for row in volumes)


def things(system):
    """What is so: a name, what is said of it, and where."""
    names = {volume["id"]: volume["name"] for volume in system.controller}
    so = {(volume["name"], "exists") for volume in system.controller if volume["live"]}
    so |= {(volume["name"], "is attached", it["node"]) for volume in system.controller for it in volume["attached"]}
    for node, row in rows(system):
        if row["id"] in names:
            if row["staged"] is not None:
                so.add((names[row["id"]], "is staged", node))
            so |= {(names[row["id"]], "is published", node, it["target"]) for it in row["published"]}
    return so


def marks(volumes):
    """What an orchestrator's record says of each thing that it has."""
    known = {}
    for volume in volumes:
        known[volume["name"], "exists"] = volume["exists"]
        for it in volume["at"]:
            known[volume["name"], "is attached", it["node"]] = it["attached"]
            known[volume["name"], "is staged", it["node"]] = it["staged"]
            known |= {(volume["name"], "is published", it["node"], one["target"]): one["known"] for one in it["published"]}
    return known


def told(thing):
    name, what, *where = thing
    return f"{json.dumps(name)} {what}" + (f" at {', '.join(map(json.dumps, where))}" if where else "")
