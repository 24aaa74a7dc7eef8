"""The POSIX rule of a zone, from the zone's file."""

import pathlib
import re

from .faults import Stop, quoted

ZONES = pathlib.Path("/usr/share/zoneinfo")
NAME = re.compile(r"[A-Za-z0-9_+-]+(/[A-Za-z0-9_+-]+)*")
EXAMPLE = "--zone takes its rule, such as CET-1CEST,M3.5.0,M10.5.0/3, and --no-zone does without"


def zone_rule(name: str | None) -> str:
    """The POSIX rule of a zone: the last line of its file."""
    if not name:
        raise Stop(f"agency.txt names no agency_timezone; {EXAMPLE}")
    path = ZONES / name if NAME.fullmatch(name) else None
    if path is None or not path.is_file():
        raise Stop(f"there is no zone {quoted(name)} in {ZONES} (Debian package tzdata); {EXAMPLE}")
    lines = path.read_bytes().splitlines()
    rule = lines[-1].decode("ascii", "replace") if lines else ""
    if not rule or not rule.isprintable() or " " in rule:
        raise Stop(f"the file of the zone {name} has no rule at its end; {EXAMPLE}")
    return rule


def rule_of(text: str | None) -> str | None:
    """A POSIX rule as it stands, and of the name of a zone, such as Europe/Berlin, its rule."""
    is_name = text is not None and "/" in text and NAME.fullmatch(text) and (ZONES / text).is_file()
    return zone_rule(text) if is_name else text
