"""What a request asks: its parameters, each once and without control characters, and the line for the planner.

Parameters are texts of any bytes, with surrogate escapes for those that are no UTF-8, so that each stop of a region can be named.
"""

import re
import urllib.parse
from dataclasses import dataclass

from .problems import Problem

LONGEST = 16_384  # bytes of what stands behind `?`
CONTROL = re.compile("[\\x00-\\x1f\\x7f]")
QUERY = ("from", "to", "date", "time", "expr")
WHAT = {
    "from": "where the journey begins: n and an OSM id, s and a stop's name, or @LAT,LON, also behind foot, bike or car",
    "to": "where the journey ends: n and an OSM id, s and a stop's name, or @LAT,LON, also behind foot, bike or car",
    "date": "a date of 8 digits, such as 20240701",
    "time": "HH:MM:SS or HH:MM:SS.mmm",
    "expr": "how to travel, such as foot? (transit foot?)*",
    "window": "how long the window is, HH:MM:SS",
    "kind": "answer or latest",
    "near": "a place, LAT,LON in degrees",
    "name": "a part of a name",
    "most": "how many at most, from 1 to 100",
    "metres": "how far the places of the grid lie apart, from 50 to 100000",
}


def parameters(query: str, known: tuple[str, ...], may_lack: tuple[str, ...] = ()) -> dict[str, str]:
    """The parameters of a request, all that are known but for those that may lack, and no others."""
    if len(query) > LONGEST:
        raise Problem(414, f"what stands behind the question mark has more than {LONGEST} bytes")
    try:
        pairs = urllib.parse.parse_qsl(query, keep_blank_values=True, errors="surrogateescape", max_num_fields=20)
    except ValueError as error:
        raise Problem(400, "there are more parameters than any request has") from error
    found: dict[str, str] = {}
    for name, value in pairs:
        if name not in known:
            raise Problem(400, f"there is no parameter “{name[:40]}” here; there are {', '.join(known)}")
        if name in found:
            raise Problem(400, f"{name} is given twice")
        found[name] = _checked(name, value)
    for name in known:
        if name not in may_lack and not found.get(name):
            raise Problem(400, f"{name} is missing: {WHAT[name]}")
    return found


def _checked(name: str, value: str) -> str:
    """The value, which can't make a second line, and where it is a field of a query line no second field."""
    if CONTROL.search(value):
        raise Problem(400, f"{name} has a line feed or another control character in it")
    if name in QUERY[:-1] and " " in value:
        raise Problem(400, f"{name} has a space in it: it is {WHAT[name]}; in a stop's name a space is written %20%")
    return value


@dataclass(frozen=True)
class Asked:
    """A line for the planner: the command, what stands before the query line, and the query line."""

    command: str
    query: bytes
    before: str = ""

    @property
    def line(self) -> bytes:
        return b" ".join([self.command.encode(), *([self.before.encode()] if self.before else []), self.query])

    def is_reply(self, reply: bytes) -> bool:
        """Whether the reply is one to this line: its first line, or of a certificate the second, names it."""
        first, _, rest = reply.partition(b"\n")
        named = rest.partition(b"\n")[0] if first in CERTIFICATES else first
        return named == b"query " + self.query


CERTIFICATES = (b"modeplan certificate 1", b"modeplan late 1")


def query_line(found: dict[str, str]) -> bytes:
    """The query line of the parameters."""
    return " ".join(found[name] for name in QUERY).encode("utf-8", "surrogateescape")


def search(command: str, query: str) -> Asked:
    """What `/answer`, `/few` and `/latest` ask."""
    return Asked(command, query_line(parameters(query, QUERY)))


def window(query: str) -> Asked:
    """What `/profile` asks: two hours, where no window is given."""
    found = parameters(query, (*QUERY, "window"), ("window",))
    length = found.get("window") or "02:00:00"
    if not re.fullmatch("[0-9]{2}:[0-9]{2}:[0-9]{2}", length) or not "00:00:01" <= length <= "24:00:00":
        raise Problem(400, "window is HH:MM:SS, from 00:00:01 to 24:00:00")
    return Asked("profile", query_line(found), length)


def certificate(query: str) -> Asked:
    """What `/certificate` asks: of an earliest arrival, or of a latest departure."""
    found = parameters(query, (*QUERY, "kind"), ("kind",))
    commands = {"answer": "certify", "latest": "certify-latest"}
    command = commands.get(found.get("kind") or "answer")
    if command is None:
        raise Problem(400, f"kind is {WHAT['kind']}")
    return Asked(command, query_line(found))
