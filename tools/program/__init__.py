"""The cases of `tools/check_program`, by subject."""
import os
import sys

sys.path.insert(0, f"{os.path.dirname(os.path.dirname(os.path.realpath(__file__)))}/operate")  # where `auditing` is

from . import (  # noqa: E402
    changes,
    configs,
    devices,
    drawn_recoveries,
    faults,
    full,
    groups,
    help,
    joined,
    kills,
    largest,
    opening,
    orchestrators,
    pages,
    pictures,
    plugins,
    power,
    rebuilding_stops,
    rebuildings,
    records,
    recoveries,
    recovery_stops,
    refused_recoveries,
    rows,
    schedules,
    script,
    shown,
    streams,
    words,
    worlds,
)

# Those that draw nothing, the longest first.
SUBJECTS = (
    *(recovery_stops, rebuilding_stops, refused_recoveries, devices, faults, streams, full, opening, largest, groups, worlds, records, rows, plugins, orchestrators, changes, configs),
    *(recoveries, schedules, words, help, shown, pages, script),
)


def all_cases(seed):
    """Every case, the longest first; those that draw at random begin with this number."""
    yield from kills.cases(seed)
    yield from power.cases(seed)
    yield from joined.cases(seed)
    yield from pictures.cases(seed)
    yield from drawn_recoveries.cases(seed)
    yield from rebuildings.cases(seed)
    for subject in SUBJECTS:
        yield from subject.cases()
