"""The network of a region, in tables: docs/FORMATS.md, "Regions" and "Journeys". That a region keeps its rules is for modeplan to say."""

import datetime
from dataclasses import dataclass, field
from typing import NamedTuple

from certificate_parts.faults import Fault
from certificate_parts.lengths import Place
from certificate_parts.texts import Step
from certificate_parts.zones import BadRule, Zone, read_zone
from region_reader import LETTERS, BadRegion, Region

LEAD_DAYS = 7
HOUR = 3_600_000
YEARS = range(1900, 2200)
RULE = "a zone rule is one as CET-1CEST,M3.5.0,M10.5.0/3, by which there are 22 to 26 hours from noon to noon"
BOARD, ALIGHT = 1, 2  # the flags of a call


class Call(NamedTuple):
    """A call of a trip: at which node, when it arrives and departs in milliseconds from the base of its day, and its flags."""

    node: int
    arrive: int
    depart: int
    flags: int


class Trip(NamedTuple):
    """What runs, by the number of its letter; the days on which it does, as bits; and its calls."""

    letter: int
    days: int
    calls: tuple[Call, ...]


class Arrival(NamedTuple):
    """Where and when something ends that is taken, and its letter, if it has one."""

    node: int
    at: int
    letter: int | None


@dataclass
class Network:
    """Nodes are numbered, road nodes first, then stops, then switches. Times are milliseconds of the region clock."""

    first: datetime.date
    bases: list[int]  # when each day number begins
    modes: list[int] = field(default_factory=list)  # of the road nodes, by number
    ids: list[int] = field(default_factory=list)
    places: list[Place] = field(default_factory=list)
    stops: list[str] = field(default_factory=list)  # their names, a character for each byte
    nodes: int = 0
    arcs: dict[int, dict[int, int]] = field(default_factory=dict)  # by node: the nodes that they lead to, and how long they take
    links: dict[int, dict[int, int]] = field(default_factory=dict)
    trips: list[Trip] = field(default_factory=list)

    def mode(self, node: int) -> int | None:
        """The letter of the road arcs out of a node, or None where it is no road node."""
        return self.modes[node] if node < len(self.modes) else None

    def take(self, step: Step, node: int, at: int) -> Arrival | None:
        """How a step ends that is taken at a node and a time; None where it is none."""
        if step.kind == "wait":
            return Arrival(node, step.numbers[0], None) if at <= step.numbers[0] else None
        if step.kind == "stand":
            return Arrival(node, at, self.mode(node)) if node < len(self.modes) else None
        if step.kind == "ride":
            return self._ride(node, at, *step.numbers)
        ways, letter = (self.arcs, self.mode(node)) if step.kind == "road" else (self.links, None)
        takes = ways.get(node, {}).get(step.numbers[0])
        return None if takes is None else Arrival(step.numbers[0], at + takes, letter)

    def _ride(self, node: int, at: int, trip: int, day: int, board: int, alight: int) -> Arrival | None:
        """On a run that departs no earlier than one is there."""
        if trip >= len(self.trips) or day >= len(self.bases):
            return None
        letter, days, calls = self.trips[trip]
        if not days >> day & 1 or not board < alight < len(calls):
            return None
        on, off, base = calls[board], calls[alight], self.bases[day]
        if on.node != node or not on.flags & BOARD or not off.flags & ALIGHT or at > base + on.depart:
            return None
        return Arrival(off.node, base + off.arrive, letter)


def read_network(path: str) -> Network:
    """The network of the region in a file, in either format."""
    try:
        region = Region(path)
        network = Network(region.first, _bases(path, region))
        for record in region.records({"node", "stop", "switch", "arc", "link", "trip"}):
            _put(network, region, record)
    except BadRegion as fault:
        why = str(fault).removeprefix(f"{path}: ")
        raise Fault(path, f"{why}; {RULE}" if "no such days" in why else why) from None
    except (MemoryError, OSError) as error:
        raise Fault(path, str(error) or "there is no memory for it") from None
    return network


def _bases(path: str, region: Region) -> list[int]:
    """Noon of each day less that of the first lead day."""
    if region.first.year not in YEARS:
        raise Fault(path, f"the first date is {region.first}; it must be one of the years {YEARS[0]} to {YEARS[-1]}")
    days = [region.first + datetime.timedelta(number - LEAD_DAYS) for number in range(LEAD_DAYS + region.count)]
    try:
        zone = read_zone(region.rule) if region.rule is not None else Zone(0)
    except BadRule:
        raise Fault(path, f"“{region.rule}” is no zone rule; {RULE}") from None
    noons = [1000 * zone.noon(day) for day in days]
    if any(not 22 * HOUR <= later - sooner <= 26 * HOUR for sooner, later in zip(noons, noons[1:])):
        raise Fault(path, f"there are no such days by the rule “{region.rule}”; {RULE}")
    return [one - noons[0] for one in noons]


def _put(network: Network, region: Region, record: tuple) -> None:
    """Adds a record."""
    kind, *fields = record
    if kind == "trip":
        network.trips.append(_trip_of(network, region, *fields))
    elif kind in ("arc", "link"):
        start, end, takes = fields
        ways = network.arcs if kind == "arc" else network.links
        ways.setdefault(start, {})[end] = takes
    else:
        network.nodes += 1
        if kind == "node":
            network.modes.append(LETTERS.index(fields[0]))
            network.ids.append(fields[1])
            network.places.append((fields[2], fields[3]))
        elif kind == "stop":
            network.stops.append(fields[0].decode("latin-1"))


def _trip_of(network: Network, region: Region, letter: str, days: int, _name: bytes, calls) -> Trip:
    stops, seconds = len(network.modes), 1000
    known = [Call(stops + stop, seconds * arrive, seconds * depart, flags) for stop, arrive, depart, flags in calls()]
    if days >> len(network.bases):
        raise region.bad("the trip has a day that the region does not have")
    if any(not stops <= call.node < stops + len(network.stops) for call in known):
        raise region.bad("a call of the trip is at a stop that the region does not have")
    return Trip(LETTERS.index(letter), days, tuple(known))
