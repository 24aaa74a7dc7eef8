"""The page: a map and a table for each journey, in one HTML text that needs nothing else."""

import html
import math
import pathlib
from collections.abc import Iterator
from dataclasses import dataclass

from .blocks import Block, Clock, Journey
from .faults import shown
from .legs import LINK, WAIT, Known, Leg, metres, mode_of
from .queries import ends_of, query_of
from .streets import Point

HERE = pathlib.Path(__file__).parent
SHRINK = 10  # how many units of 10^-7 degree of latitude are one unit of the drawing, some 11 cm
MARGIN = 900  # of the drawing, around a journey: some 100 m at least
WORDS = {LINK: "to or from a stop or switch", WAIT: "wait", "foot": "on foot", "bike": "by bike", "car": "by car", "other": "other transit"}
REFUSALS = {
    "shape": "the line is no query: it has fewer than five parts, or FROM or TO is no endpoint; a space in a stop's name is "
             "written %20%",
    "clock": "the date or the time cannot be read",
    "range": "the region's timetable does not have the date",
    "from": "the region does not have the node, the stop or the street where the journey begins",
    "to": "the region does not have the node, the stop or the street where the journey ends",
    "far from": "the place where the journey begins is more than two kilometres from any street (so many millimetres)",
    "far to": "the place where the journey ends is more than two kilometres from any street (so many millimetres)",
    "long": "the expression is longer than 4,096 bytes (so many bytes)",
    "deep": "the expression opens more than 64 parentheses within each other (at this byte, from 0)",
    "syntax": "no expression goes on like this (at this byte of it, from 0)",
    "large": "the expression has more than 200 places for letters (so many)",
}


@dataclass
class Frame:
    """How places become points of the drawing: north is up, and a metre is as long to the east as to the north."""

    lat: int
    lon: int

    def xy(self, place: Point) -> tuple[int, int]:
        east = (place[1] - self.lon + 1_800_000_000) % 3_600_000_000 - 1_800_000_000
        width = max(0.01, math.cos(math.radians(self.lat / 1e7)))
        return round(east * width / SHRINK), round((self.lat - place[0]) / SHRINK)

    def line(self, places: list[Point]) -> str:
        """The points as a path's text, each counted from the one before."""
        x, y, parts = 0, 0, []
        for k, place in enumerate(places):
            to_x, to_y = self.xy(place)
            if k == 0 or (to_x, to_y) != (x, y):
                parts.append(f"{'mM'[k == 0]}{to_x - x} {to_y - y}" if k == 0 else f"l{to_x - x} {to_y - y}")
            x, y = to_x, to_y
        return "".join(parts) + ("h0" if len(parts) == 1 else "")


class Page:
    """Writes the page of some blocks."""

    def __init__(self, title: str, blocks: list[Block], known: Known) -> None:
        self._title, self._blocks, self._reader = title, blocks, known.reader
        self._days, self._found, self._names = known.days, known.found, known.names
        places = [known.found.place(node) for node in known.found.numbers]
        places += [place for block in blocks if not block.journeys for _, _, place in ends_of(block, known.found)]
        self._all = places
        self._frame = Frame(*(sum(axis) // len(places) for axis in zip(*places))) if places else Frame(0, 0)

    def parts(self, near: list[list[Point]], far: list[list[Point]]) -> Iterator[str]:
        """The text of the page, in pieces; the streets are given as chains of places."""
        choices = list(self._choices())
        yield "<!DOCTYPE html>\n" + _tag("html", lang="en") + "\n<head>\n<meta charset='utf-8'>\n"
        yield "<meta name='viewport' content='width=device-width, initial-scale=1'>\n"
        yield "<link rel='icon' href='data:,'>\n"
        yield f"<title>{_text(self._title)}</title>\n<style>\n{(HERE / 'page.css').read_text()}</style>\n</head>\n<body>\n"
        yield f"<header><h1>{_text(self._title)}</h1><p>{self._summary()}</p></header>\n<main>\n"
        yield from self._list(choices)
        yield from self._map(choices, near, far)
        yield "<div id='answers'>\n<p id='said' class='unseen' role='status'></p>\n"
        for number, (block, journey) in enumerate(choices):
            yield self._answer(number, block, journey)
        yield "</div>\n</main>\n"
        yield "<footer><p>Drawn by tools/picture of modeplan. Lengths are those of straight lines between the points of the "
        yield "map. Nothing on this page is proved; the blocks that it was made from are what the planner answers for.</p>"
        yield f"</footer>\n<script>\n{(HERE / 'page.js').read_text()}</script>\n</body>\n</html>\n"

    def _choices(self) -> Iterator[tuple[Block, Journey | None]]:
        """What can be chosen: each journey, and each block that has none."""
        for block in self._blocks:
            yield from ((block, journey) for journey in block.journeys)
            if not block.journeys:
                yield block, None

    def _summary(self) -> str:
        journeys = sum(bool(block.journeys) or block.without is not None for block in self._blocks)
        refused = sum(block.refusal is not None for block in self._blocks)
        stopped = sum(block.stopped is not None for block in self._blocks)
        count = len(self._blocks)
        return (f"{count} {'query' if count == 1 else 'queries'}: {journeys} with a journey, "
                f"{count - journeys - refused - stopped} without, {refused} refused" + (f", {stopped} stopped" if stopped else ""))

    def _list(self, choices: list[tuple[Block, Journey | None]]) -> Iterator[str]:
        yield "<nav aria-label='Queries'>\n<h2>Queries</h2>\n<ol>\n"
        for number, (block, journey) in enumerate(choices):
            ends, expression = self._parts_of(block)
            yield (f"<li value='{block.number}'><button type='button' class='choice' data-choice='{number}' "
                   f"data-link='{_link(block, journey)}'>"
                   f"<b>{_text(expression)}</b><span>{_text(ends)}</span><i>{_text(_result(block, journey))}</i>"
                   "</button></li>\n")
        yield "</ol>\n</nav>\n"

    def _map(self, choices: list[tuple[Block, Journey | None]], near: list[list[Point]], far: list[list[Point]]) \
            -> Iterator[str]:
        yield "<figure>\n<div id='tools' role='group' aria-label='Map'>"
        for key, sign, what in (("in", "+", "Closer"), ("out", "−", "Further away"), ("fit", "⤢", "The whole journey")):
            yield f"<button type='button' data-do='{key}' title='{what}' aria-label='{what}'>{sign}</button>"
        yield ("</div>\n<svg id='map' role='img' tabindex='0' aria-labelledby='map-title map-text' "
               "viewBox='0 0 1000 1000' xmlns='http://www.w3.org/2000/svg'>\n<title id='map-title'>Map of the journey</title>"
               "<desc id='map-text'>The journey's steps over the streets around it. The table has the same in words. "
               "Arrow keys move the map, plus and minus change its scale, 0 shows the whole journey.</desc>\n")
        yield "<g id='streets'>\n"
        for kind, chains in (("far", far), ("near", near)):
            for start in range(0, len(chains), 100):
                yield f"<path class='{kind}' d='{''.join(map(self._frame.line, chains[start:start + 100]))}'/>\n"
        yield "</g>\n"
        for number, (block, journey) in enumerate(choices):
            yield from self._drawing(number, journey) if journey is not None else self._ends(number, block)
        yield "</svg>\n" + self._legend(choices) + "</figure>\n"

    def _drawing(self, number: int, journey: Journey) -> Iterator[str]:
        legs = self._reader.legs(journey, self._found)
        places = [self._found.place(node) for leg in legs for node in leg.path] or [self._found.place(journey.start)]
        yield f"<g class='journey' data-choice='{number}' data-box='{self._box(places)}'>\n"
        for k, leg in enumerate(legs):
            if leg.kind != WAIT:
                line = self._frame.line([self._found.place(node) for node in leg.path])
                yield (f"<g class='leg' data-leg='{k}'><title>{_text(self._told(leg))}</title>"
                       f"<path class='under {_class(leg)}' d='{line}'/><path class='over {_class(leg)}' d='{line}'/></g>\n")
        yield from self._marks(journey, legs)
        yield "</g>\n"

    def _ends(self, number: int, block: Block) -> Iterator[str]:
        """The ends of a query that has no journey, where they have places; else the map shows all that there is."""
        ends = ends_of(block, self._found)
        yield f"<g class='ends' data-choice='{number}' data-box='{self._box([place for _, _, place in ends] or self._all)}'>\n"
        for letter, end, place in ends:
            yield self._letter(letter, place, self._end(end))
        yield "</g>\n"

    def _box(self, places: list[Point]) -> str:
        """The part of the drawing around these places: its corner, its width and its height."""
        xs, ys = zip(*map(self._frame.xy, places or [(self._frame.lat, self._frame.lon)]))
        width, height = max(xs) - min(xs), max(ys) - min(ys)
        margin = max(MARGIN, width // 16, height // 16)
        box = (min(xs) - margin, min(ys) - margin, width + 2 * margin, height + 2 * margin)
        return " ".join(map(str, box))

    def _marks(self, journey: Journey, legs: list[Leg]) -> Iterator[str]:
        """Stops between as dots, waits, names of the stops and switches in use, the start and the end."""
        named: dict[str, str] = {}
        for leg in legs:
            for call in leg.calls[1:-1]:
                clock = self._days.clock(call.arrive, leg.depart.date)
                yield self._mark(call.stop, "<circle class='dot' r='3'/>", f"{self._names.node(call.stop)}, {clock.hms()}")
            for node in (leg.path if leg.kind == LINK else (leg.path[0], leg.path[-1])):
                if node.startswith(("stop:", "switch:")):
                    named.setdefault(node, self._names.node(node))
        end = legs[-1].path[-1] if legs else journey.start
        places = [self._frame.xy(self._found.place(node))[0] for leg in legs for node in leg.path]
        middle = (min(places, default=0) + max(places, default=0)) / 2
        for k, (node, name) in enumerate(named.items()):
            shape = "<circle class='stop' r='5'/>" if node.startswith("stop:") else \
                "<rect class='switch' x='-5' y='-5' width='10' height='10'/>"
            if node in (journey.start, end):
                shape = ""
            left = self._frame.xy(self._found.place(node))[0] <= middle  # a name stands towards the middle of the map
            side = f"x='{9 if left else -9}' y='{(4, 17)[k % 2]}'" + ("" if left else " text-anchor='end'")
            yield self._mark(node, f"{shape}<text {side}>{_text(name)}</text>", name)
        for leg in legs:
            if leg.kind == WAIT:
                text = f"wait {self._span(leg.depart, leg.arrive)}"
                yield self._mark(leg.path[0], "<path class='wait' d='M-5-22h10l-10 14h10z'/>"
                                 f"<text class='waits' x='8' y='-11'>{text}</text>", text)
        for node, letter, clock in ((journey.start, "A", journey.start_clock), (end, "B", journey.arrive)):
            yield self._letter(letter, self._found.place(node), f"{self._names.node(node)}, {clock.hms()}")

    def _letter(self, letter: str, place: Point, what: str) -> str:
        """A for the start, or B for the end."""
        drawn = f"<circle class='end' r='9'/><text class='end' y='4.5'>{letter}</text>"
        return self._drawn(place, drawn, f"{'Start' if letter == 'A' else 'End'}: {what}")

    def _mark(self, node: str, drawn: str, title: str) -> str:
        return self._drawn(self._found.place(node), drawn, title)

    def _drawn(self, place: Point, drawn: str, title: str) -> str:
        x, y = self._frame.xy(place)
        return f"<g class='mark' style='--x:{x}px;--y:{y}px'><title>{_text(title)}</title>{drawn}</g>\n"

    def _told(self, leg: Leg) -> str:
        return (f"{self._by(leg)} from {self._names.node(leg.path[0])}, {leg.depart.hms()}, "
                f"to {self._names.node(leg.path[-1])}, {leg.arrive.hms()}")

    def _by(self, leg: Leg) -> str:
        if leg.calls:
            return f"{leg.kind} {self._names.trip(leg.name)}"
        if leg.kind != LINK:
            return WORDS[leg.kind]
        first, last = mode_of(leg.path[0]), mode_of(leg.path[-1])
        if last in ("stop", "switch"):
            return "change" if first == last else f"to the {last}"
        return f"from the {first}" if first in ("stop", "switch") else "change"

    def _legend(self, choices: list[tuple[Block, Journey | None]]) -> str:
        kinds = {leg.kind: leg for _, journey in choices if journey for leg in self._reader.legs(journey, self._found)}
        items = "".join(f"<li>{_swatch(leg)} {WORDS.get(kind, kind)}</li>" for kind, leg in sorted(kinds.items()))
        return (f"<figcaption><ul>{items}<li><svg class='swatch' viewBox='-10 -10 20 20' aria-hidden='true'>"
                "<circle class='stop' r='5'/></svg> stop</li><li><svg class='swatch' viewBox='-10 -10 20 20' "
                "aria-hidden='true'><rect class='switch' x='-5' y='-5' width='10' height='10'/></svg> switch</li></ul>"
                "</figcaption>\n")

    def _answer(self, number: int, block: Block, journey: Journey | None) -> str:
        head = (f"<section class='answer' data-choice='{number}' aria-labelledby='h{number}'>\n"
                f"<h2 id='h{number}' tabindex='-1'>Query {block.number}</h2>\n<p><code>{_text(block.query)}</code> "
                f"<a href='#{_link(block, journey)}' title='A link to this answer'>#{_link(block, journey)}</a></p>\n")
        if journey is None:
            ends = "" if ends_of(block, self._found) else "<p>Neither end has a place on the map.</p>\n"
            return f"{head}<p class='none'>{_text(self._without(block))}</p>\n{ends}</section>\n"
        legs = self._reader.legs(journey, self._found)
        rows = "".join(self._row(k, leg) for k, leg in enumerate(legs))
        facts = [("Leaves", journey.start_clock), ("Arrives", journey.arrive)]
        told = "".join(f"<dt>{what}</dt><dd data-clock='{clock}'>{_dated(clock)}</dd>" for what, clock in facts)
        whole = self._span(journey.start_clock, journey.arrive)
        told += f"<dt>Takes</dt><dd>{whole}</dd><dt>By</dt><dd class='word'>{' '.join(journey.word) or 'nothing'}</dd>"
        if journey.boardings is not None:
            told += f"<dt>Boardings</dt><dd>{journey.boardings}</dd>"
        if block.without is not None:
            told += f"<dt>Without a ride</dt><dd class='without'>{_minutes(block.without)}</dd>"
        if not legs:
            return f"{head}<dl>{told}</dl>\n<p class='none'>The journey ends where and when it begins.</p>\n</section>\n"
        heads = "".join(f"<th scope='col'>{name}</th>" for name in
                        ("", "By", "From", "To", "Departs", "Arrives", "Min:s", "Length"))
        return (f"{head}<dl>{told}</dl>\n<div class='wide'><table>\n<caption>The journey, leg by leg</caption>\n"
                f"<thead><tr>{heads}</tr></thead>\n<tbody>\n{rows}</tbody>\n</table></div>\n</section>\n")

    def _row(self, k: int, leg: Leg) -> str:
        length = metres(leg, self._found)
        start = _text(self._names.node(leg.path[0])) + self._between(leg)
        cells = [f"<th scope='row'><button type='button' class='show' data-leg='{k}' "
                 f"aria-label='Show part {k + 1} on the map'>{k + 1}</button></th>",
                 f"<td class='by'>{_swatch(leg)} {_text(self._by(leg))}</td>", f"<td class='from'>{start}</td>",
                 f"<td class='to'>{_text(self._names.node(leg.path[-1]))}</td>" if len(leg.path) > 1 else "<td class='to'></td>",
                 f"<td class='time' data-clock='{leg.depart}'>{leg.depart.hms()}</td>",
                 f"<td class='time' data-clock='{leg.arrive}'>{leg.arrive.hms()}</td>",
                 f"<td class='time'>{self._span(leg.depart, leg.arrive)}</td>",
                 f"<td class='time'>{'' if leg.kind == WAIT else _length(length)}</td>"]
        return f"<tr data-kind='{leg.kind}' data-leg='{k}'>{''.join(cells)}</tr>\n"

    def _span(self, start: Clock, end: Clock) -> str:
        """Minutes and seconds between the clocks as they are shown, in whole seconds."""
        seconds = self._days.moment(end) // 1000 - self._days.moment(start) // 1000
        return f"{seconds // 60}:{seconds % 60:02}"

    def _between(self, leg: Leg) -> str:
        """What lies between the ends: a ride's stops, or the switches and stops of a change."""
        if leg.calls[1:-1]:
            stops = "".join(f"<li>{_text(self._names.node(call.stop))}, "
                            f"{self._days.clock(call.arrive, leg.depart.date).hms()}</li>" for call in leg.calls[1:-1])
            count = len(leg.calls) - 2
            return f"<details><summary>{count} {'stop' if count == 1 else 'stops'} between</summary><ol>{stops}</ol></details>"
        via = [self._names.node(node) for node in leg.path[1:-1] if node.startswith(("stop:", "switch:"))]
        return f" <small>by way of {_text(', '.join(via))}</small>" if leg.kind == LINK and via else ""

    def _without(self, block: Block) -> str:
        if block.without is not None:
            return f"Without a ride it takes {_minutes(block.without)}, and none that leaves within the window is quicker."
        if block.stopped is not None:
            return (f"Stopped: the search has more than {block.stopped:,} labels, which is the limit that was given. Whether there is "
                    "a journey was not found out.")
        if block.refusal is None:
            return f"No journey. {self._no_journey()}"
        kind = " ".join(word for word in block.refusal.split(" ") if not word.isdecimal())
        meaning = REFUSALS.get(kind)
        return f"Refused ({shown(block.refusal)})" + (f": {meaning}." if meaning else ".")

    def _parts_of(self, block: Block) -> tuple[str, str]:
        """A query line's ends with its date and time, and its expression; a line that is none as it is."""
        query = query_of(block)
        if query is None:
            return "", shown(block.query)
        return f"{self._end(query.start)} → {self._end(query.end)}, {query.when}", shown(query.expression)

    def _end(self, endpoint: str) -> str:
        """An endpoint of a query line as people are told of it."""
        return self._names.stop(endpoint[1:]) if endpoint.startswith("s") else shown(endpoint)

    def _no_journey(self) -> str:
        """What it means that there is none, by the command that the other blocks come from."""
        journeys = [journey for block in self._blocks for journey in block.journeys]
        if any(block.without is not None or _lists_departures(block) for block in self._blocks):
            return "No way of the region travels like this, or none that leaves within the window."
        if any(journey.depart for journey in journeys):
            return "Nobody who travels like this can leave on the region's days and arrive by the deadline."
        if any(journey.boardings is not None for journey in journeys):
            return "No way of the region travels like this with at most eight boardings, however late it arrives."
        return "No way of the region travels like this, however late it arrives."


def _link(block: Block, journey: Journey | None) -> str:
    """What stands behind # in a link to the answer: the block's number, and of its second journey on that one's."""
    place = block.journeys.index(journey) if journey is not None else 0
    return f"{block.number}.{place + 1}" if place else str(block.number)


def _lists_departures(block: Block) -> bool:
    """Whether the block has several departures, as `profile` lists them."""
    return len(block.journeys) > 1 and block.journeys[0].depart is not None


def _result(block: Block, journey: Journey | None) -> str:
    if block.without is not None and journey is None:
        return f"without a ride, in {_minutes(block.without)}"
    if journey is None and block.stopped is not None:
        return f"stopped at {block.stopped:,} labels"
    if journey is None:
        return "no journey" if block.refusal is None else f"refused {shown(block.refusal)}"
    boardings = "" if journey.boardings is None else \
        f"{journey.boardings} {'boarding' if journey.boardings == 1 else 'boardings'}, "
    leaves = f"leaves {journey.depart.hms()}, " if journey.depart else ""
    return f"{boardings}{leaves}arrives {journey.arrive.hms()}: {' '.join(journey.word) or 'nothing to do'}"


def _tag(name: str, **attributes: str) -> str:
    return f"<{name}{''.join(f' {key}={value!r}' for key, value in attributes.items())}>"


def _text(text: str) -> str:
    return html.escape(shown(text), quote=True)


def _class(leg: Leg) -> str:
    return f"{leg.kind} ride" if leg.calls else leg.kind


def _swatch(leg: Leg) -> str:
    if leg.kind == WAIT:
        return ("<svg class='swatch' viewBox='-17 -22 34 16' aria-hidden='true'>"
                "<path class='wait' d='M-5-21h10l-10 14h10z'/></svg>")
    return (f"<svg class='swatch' viewBox='0 0 34 16' aria-hidden='true'><path class='under {_class(leg)}' d='M2 8h30'/>"
            f"<path class='over {_class(leg)}' d='M2 8h30'/></svg>")


def _minutes(ms: int) -> str:
    """Milliseconds as minutes and whole seconds."""
    return f"{ms // 60_000}:{ms // 1000 % 60:02}"


def _dated(clock: Clock) -> str:
    return f"{clock.date[:4]}-{clock.date[4:6]}-{clock.date[6:]}, {clock.hms()}"


def _length(length: float) -> str:
    return f"{length:.0f} m" if length < 1000 else f"{length / 1000:.1f} km"
