"""Replies of the planner as JSON: journeys leg by leg, as a traveller reads them; refusals with what would be right; and searches
that were given up."""

import functools
import io

from picture_parts.blocks import Block, Journey, read_blocks
from picture_parts.faults import shown
from picture_parts.legs import LINK, WAIT, Known, Leg, Reader, metres
from picture_parts.names import Names, plain_name

from .asked import Asked
from .atlas import Atlas
from .refusals import STOPPED, refusal

WITHOUT = b"without "
KEPT = 1 << 16  # nodes whose names and places are kept


class Teller:
    """Tells what replies say of one region."""

    def __init__(self, atlas: Atlas, names: Names, most_places: int | None = None) -> None:
        self._atlas, self._names, self._most_places = atlas, names, most_places
        self._reader = Reader("the reply", atlas.days)
        self.node = functools.lru_cache(maxsize=KEPT)(self._node)

    def told(self, asked: Asked, reply: bytes) -> dict:
        """A reply of `answer`, `latest`, `few` or `profile`."""
        text, without = _without(reply)
        block = read_blocks(io.BytesIO(text), "the reply", lambda _: True)[0]
        told = {"query": shown(block.query), "block": reply.decode("utf-8", "replace")}
        if block.refusal is not None:
            return {"kind": "refused", **refusal(block.refusal, self._most_places), **told}
        if block.stopped is not None:
            return {"kind": "stopped", "labels": block.stopped, "reason": STOPPED, **told}
        if not block.journeys and without is None:
            return {"kind": "none", **told}
        known = self._known(block)
        journeys = [self._journey(journey, known) for journey in block.journeys]
        if asked.command in ("answer", "latest"):
            return {"kind": "journey", **told, **journeys[0]}
        return {"kind": "journeys", **told, "without": without, "journeys": journeys}

    def _known(self, block: Block) -> Known:
        found = self._atlas.survey(self._reader.rides([block]))
        return Known(self._reader, self._atlas.days, found, self._names)

    def _journey(self, journey: Journey, known: Known) -> dict:
        legs = self._reader.legs(journey, known.found)
        told = {"depart": str(journey.start_clock), "arrive": str(journey.arrive), "word": journey.word,
                "seconds": self._seconds(journey.start_clock, journey.arrive),
                "legs": [self._leg(leg, known) for leg in legs]}
        return told if journey.boardings is None else {"boardings": journey.boardings, **told}

    def _seconds(self, start, end) -> float:
        return (self._atlas.days.moment(end) - self._atlas.days.moment(start)) / 1000

    def _leg(self, leg: Leg, known: Known) -> dict:
        return {"mode": leg.kind, "from": self.node(leg.path[0]), "to": self.node(leg.path[-1]),
                "departure": str(leg.depart), "arrival": str(leg.arrive), "seconds": self._seconds(leg.depart, leg.arrive),
                "metres": round(metres(leg, known.found)),
                "coordinates": [[lon / 1e7, lat / 1e7] for lat, lon in map(known.found.place, leg.path)],
                "trip": self._trip(leg) if leg.kind not in (LINK, WAIT) and leg.calls else None}

    def _trip(self, leg: Leg) -> dict:
        route, headsign = self._names.route(leg.name)
        date = leg.depart.date
        calls = [{**self.node(call.stop), "arrival": str(self._atlas.days.clock(call.arrive, date)),
                  "departure": str(self._atlas.days.clock(call.depart, date))} for call in leg.calls]
        return {"id": shown(leg.name), "name": plain_name(leg.name), "route": route, "headsign": headsign, "calls": calls}

    def _node(self, node: str) -> dict:
        """A node with its name and its place."""
        number = self._atlas.numbers[node]
        return {"node": shown(node), "name": self._names.node(node),
                "lat": self._atlas.lats[number] / 1e7, "lon": self._atlas.lons[number] / 1e7}


def _without(reply: bytes) -> tuple[bytes, int | None]:
    """The reply without its line `without MS`, which `profile` writes, and that number."""
    query, feed, rest = reply.partition(b"\n")
    if not rest.startswith(WITHOUT):
        return reply, None
    line, _, journeys = rest.partition(b"\n")
    return query + feed + (b"no journey\n" if journeys == b"end\n" else b"") + journeys, int(line[len(WITHOUT):])
