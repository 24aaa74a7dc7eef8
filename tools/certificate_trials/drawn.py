"""Small regions by lot, with queries over them."""

import datetime
import itertools
import random
from dataclasses import dataclass

from region_reader import LETTERS, MODES

# A first date and a count of days, with a rule or without: among them days of 23 and of 25 hours.
DAYS = ("20240304 1", "20240304 2", "20240304 2", "20240330 3 CET-1CEST,M3.5.0,M10.5.0/3", "20240405 3 NZST-12NZDT,M9.5.0,M4.1.0/3",
        "20241025 3 <-02>2<-01>,M3.5.0/-1,M10.5.0/0")
RUNNING = ("bus", "bus", "tram", "rail")
EXPRESSIONS = (
    "foot", "bike", "car", "any*", "foot bus foot", "foot? (transit foot?){0,3}", "(foot|bike)*", "car foot?", "bus bus",
    "foot bike foot?", "bus foot bus", "(bus|tram)+", "foot (bus foot)*", "bike foot bus foot bike?", "any{3}", "foot? bike? car? bus?",
    "transit{2}", "(bus foot)?", "((foot|bus)+ tram?){1,2}", "(foot? bus?)* rail")
DAY = 86400


@dataclass(frozen=True)
class Drawn:
    """The text of a region, and what queries over it are made of."""

    text: str
    ends: list[str]
    dates: list[str]
    departures: list[int]  # of trips, in seconds of a day

    def query(self, dice: random.Random) -> str:
        """A query line; of some the endpoints, the date or the expression are none."""
        seconds = dice.choice(["00", "00", "20", f"{dice.randrange(60):02}.250"])
        clock = f"{dice.choice(['07', '08', '08', '09'])}:{dice.randrange(60):02}:{seconds}"
        if dice.random() < 0.15:  # where the region's first date begins, no earlier departure counts
            clock = f"00:{dice.randrange(12):02}:{seconds}"
        elif self.departures and dice.random() < 0.4:
            clock = str(datetime.timedelta(seconds=dice.choice(self.departures))).zfill(8)
        date = dice.choice(self.dates) if dice.random() < 0.97 else "20200101"
        return f"{dice.choice(self.ends)} {dice.choice(self.ends)} {date} {clock} {dice.choice(EXPRESSIONS)}"


def draw_region(dice: random.Random) -> Drawn:
    """A region of a few layers and lines."""
    ids = range(1, dice.randint(3, 9))
    roads = [(number, mode) for number in ids for mode in range(3) if mode == 0 or dice.random() < 0.5]
    stops, switches = [f"S{number}" for number in range(dice.randint(0, 5))], range(50, 50 + dice.randint(0, 2))
    days = dice.choice(DAYS)
    lines = ["modeplan region 1", f"days {days}"]
    lines += [f"node {MODES[mode]} {number} {_place(dice)}" for number, mode in roads]
    lines += [f"stop {name} {_place(dice)}" for name in stops] + [f"switch {number} {_place(dice)}" for number in switches]
    lines += _arcs(dice, roads) + _links(dice, len(roads), len(stops) + len(switches))
    count = int(days.split(" ")[1])
    trips = [_trip(dice, name, len(stops), count) for name in range(dice.randint(0, 8) if stops else 0)]
    trips += [_later(trip, dice.choice([60, 300, 600, DAY, DAY + 300])) for trip in trips for _ in range(dice.choice([0, 0, 1, 2]))]
    lines += itertools.chain.from_iterable(trips)
    places = ["@48.001,11.001", "@48.0,12", *(f"{mode}@48.001,11.001" for mode in MODES)]
    ends = [f"n{number}" for number in ids] * 6 + [f"s{name}" for name in stops] * 6 + places + ["n77"]
    first = int(days[:8])
    dates = [str(first + day) for day in range(count)] if first % 100 + count < 29 else [str(first)]
    departures = [int(call.split(" ")[3]) % DAY for trip in trips for call in trip[1:]]
    return Drawn("\n".join([*lines, "end", ""]), ends, dates, departures)


def _place(dice: random.Random) -> str:
    return f"{480000000 + dice.randint(0, 40000)} {110000000 + dice.randint(0, 40000)}"


def _arcs(dice: random.Random, roads: list[tuple[int, int]]) -> list[str]:
    pairs = [(a, b) for a in range(len(roads)) for b in range(len(roads)) if a != b and roads[a][1] == roads[b][1]]
    return [f"arc {a} {b} {dice.randint(1, 12) * 20000}" for a, b in pairs if dice.random() < 0.4]


def _links(dice: random.Random, roads: int, others: int) -> list[str]:
    pairs = [pair for v in range(roads) for w in range(roads, roads + others) for pair in ((v, w), (w, v))]
    return [f"link {a} {b} {dice.choice([1, 20, 60, 120]) * 1000}" for a, b in sorted(pairs) if dice.random() < 0.2]


def _later(trip: list[str], seconds: int) -> list[str]:
    """Another trip with the same calls, by so much later."""
    calls = [call.split(" ") for call in trip[1:]]
    return [trip[0], *(f"call {stop} {int(arrive) + seconds} {int(depart) + seconds} {flags}" for _, stop, arrive, depart, flags in calls)]


def _trip(dice: random.Random, name: int, stops: int, days: int) -> list[str]:
    """A trip of some calls, from half past seven or from midnight on; perhaps it runs on the day before, or is a day late."""
    at, running = dice.choice([27000, 27000, 27000, 0]) + dice.randint(0, 60) * 60, dice.getrandbits(days) << 7 or 1 << 7
    if dice.random() < 0.3:
        at, running = at + DAY, running >> dice.choice([1, 1, 0])
    calls = []
    for _ in range(dice.randint(2, 5)):
        leaves = at + dice.choice([0, 0, 30, 60])
        calls.append(f"call {dice.randrange(stops)} {at} {leaves} {dice.choice([3, 3, 3, 1, 2, 0])}")
        at = leaves + dice.choice([0, 60, 120, 300, 600])
    return [f"trip {dice.choice(RUNNING)} {running:x} {len(calls)} t{name}", *calls]
