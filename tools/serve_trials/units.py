"""Trials of the parts of the service without a service."""

import pathlib
import re
import tempfile
from array import array

from picture_parts.names import Names
from region_reader import Region
from serve_parts import asked, places
from serve_parts.atlas import Atlas
from serve_parts.problems import Problem
from serve_parts.refusals import REASONS, UNREADABLE, refusal
from serve_parts.replies import Teller
from serve_parts.streets import Streets

from .bench import EXAMPLES, TOOLS, demand, expected

GOOD = "from=n1&to=n3&date=20240304&time=08:00:00&expr=foot"
BAD = {
    GOOD.replace("n3", "n3%0Aanswer+n1"): "control", GOOD.replace("n3", "n3%20n4"): "space", GOOD.replace("n1", ""): "from is missing",
    GOOD + "&from=n2": "twice", GOOD + "&x=1": "no parameter", GOOD.replace("foot", "foot%00"): "control",
    GOOD.replace("foot", "%0D"): "control",
    "a" * 20_000: "bytes", "&".join("a=1" for _ in range(30)): "more parameters", "": "from is missing",
    GOOD.replace("foot", "foot%7F"): "control", GOOD.replace("08:00:00", "08:00:00%20x"): "space",
}


def refused(run, *words: object) -> str:
    """Why a call is refused."""
    try:
        run(*words)
    except Problem as problem:
        demand(400 <= problem.status < 500, f"{words}: {problem.status}")
        return problem.says
    return ""


def try_parameters() -> None:
    demand(asked.search("answer", GOOD).line == b"answer n1 n3 20240304 08:00:00 foot", "a line")
    demand(asked.window(GOOD).line == b"profile 02:00:00 n1 n3 20240304 08:00:00 foot", "a window")
    demand(asked.certificate(GOOD + "&kind=latest").line == b"certify-latest n1 n3 20240304 08:00:00 foot", "a certificate")
    demand(asked.search("answer", GOOD.replace("n1", "s%FF%c3%a4")).query.startswith(b"s\xff\xc3\xa4 n3"), "names of any bytes")
    demand(asked.search("answer", GOOD.replace("foot", "foot+%26+bus")).query.endswith(b"foot & bus"), "an expression with spaces")
    for query, says in BAD.items():
        demand(says in refused(asked.search, "answer", query), f"{query[:80]}: {refused(asked.search, 'answer', query)}")
    for length in ("00:00:00", "24:00:01", "2:00:00", "x"):
        demand("window" in refused(asked.window, f"{GOOD}&window={length}"), f"a window of {length}")
    demand("kind" in refused(asked.certificate, GOOD + "&kind=few"), "a kind")
    for text in ("", "1", "1,2,3", "91,0", "0,181", "nan,0", "inf,0", "x,y", "1e400,0"):
        demand("near" in refused(places.place_of, text), f"near={text}")
    for text in ("0", "101", "-1", "1.5", "x", "9" * 5000, "٣"):
        demand("most" in refused(places.count_of, text), f"most={text[:10]}")


def try_replies_are_their_own() -> None:
    """A reply to another line is none."""
    what = asked.search("answer", GOOD)
    demand(what.is_reply(b"query n1 n3 20240304 08:00:00 foot\nno journey\nend\n"), "a reply")
    demand(not what.is_reply(b"query n1 n4 20240304 08:00:00 foot\nno journey\nend\n"), "a reply to another line")
    demand(not what.is_reply(b"query n1 n3 20240304 08:00:00 foot?\nno journey\nend\n"), "a reply to a longer line")
    what = asked.certificate(GOOD)
    demand(what.is_reply(b"modeplan certificate 1\nquery n1 n3 20240304 08:00:00 foot\nend\n"), "a certificate")
    demand(not what.is_reply(b"modeplan certificate 1\nquery n1 n4 20240304 08:00:00 foot\nend\n"), "another certificate")


def try_reasons() -> None:
    """What is said of refusals is what the planner says of them."""
    source = "".join(path.read_text() for path in (TOOLS.parent / "crates/run_steps/src").glob("*.rt"))
    for kind, (parameter, reason) in REASONS.items():
        demand((UNREADABLE if parameter == "expr" else reason) in source, f"the planner says something else of {kind}")
    seen = {re.sub(" [0-9]+$", "", words) for name in ("foot-town", "town")
            for words in re.findall("^refused (.*)$", (EXAMPLES / name / "expected").read_text(), re.M)}
    demand(seen <= set(REASONS), f"refusals without a reason: {seen - set(REASONS)}")
    demand(refusal("far to 12")["number"] == 12 and refusal("far to 12")["parameter"] == "to", "a number")


def try_atlas() -> int:
    """Each node of a region is found by its name where the region has it, and no other is."""
    count = 0
    for name in ("town", "foot-town", "bike-and-park", "make-region"):
        path = str(EXAMPLES / name / "region")
        atlas, region = Atlas(Region(path)), Region(path)
        for number, (kind, *names, lat, lon) in enumerate(region.records({"node", "stop", "switch"})):
            key = f"{names[0]}:{names[1]}" if kind == "node" else f"{kind}:{names[0] if kind == 'switch' else names[0].decode()}"
            demand(atlas.numbers[key] == number and (atlas.lats[number], atlas.lons[number]) == (lat, lon), f"{name}: {key}")
            count += 1
        for key in ("foot:-5", "stop:", "stop:~", "switch:77777777", "x:1", "foot:x", "foot:" + "9" * 30, "foot"):
            demand(key not in atlas.numbers, f"{name}: {key}")
        demand(len(list(atlas.numbers)) == len(atlas.numbers), f"{name}: how many nodes")
        demand(atlas.box()[0] <= atlas.lats[0] <= atlas.box()[2], f"{name}: its box")
    return count


def try_places() -> None:
    """Stops are found by parts of their names, whatever the case, and by where they are."""
    atlas = Atlas(Region(str(EXAMPLES / "town/region")))
    found = places.Places(atlas, Names(None))
    demand(found.named("FERN", 5)[0]["endpoint"] == "sFernhausen", "a stop by its name")
    demand(len(found.named("de:", 7)) == 7 and found.named("no such stop", 7) == [], "as many as there are")
    stop = found.named("de:09999:127:0:1", 1)[0]
    demand(found.near(stop["lat"], stop["lon"], 3)[0]["metres"] == 0, "the nearest stop")
    far = [one["metres"] for one in found.near(48.0, 11.0, 20)]
    demand(far == sorted(far), "nearest first")


def try_streets() -> None:
    """A region with more streets than a map shows is thinned, and whole cell by cell."""
    lats, lons = array("i", [0, 0, 150_000, 150_000]), array("i", [0, 90_000, 0, 90_000])
    streets = Streets(lats, lons)
    for start, end in ((0, 1), (1, 0), (2, 3)):
        streets.add(start, end)
    streets.end()
    demand(streets.is_whole and sorted(streets.overview) == [[0, 0, 0, 90_000], [150_000, 0, 0, 90_000]], f"{streets.overview}")


def try_profiles() -> None:
    """What a planner says of departures: with journeys, with none worth taking, with none at all."""
    head = b"query sA sB 20240304 07:55:00 foot? bus"
    ride = (b"depart 20240304 08:00:00.000\narrive 20240304 08:00:30.000\nword bus\nfrom stop:A 20240304 08:00:00.000\n"
            b"ride bus 20240304 stop:B 20240304 08:00:30.000 t%20%1\n")
    with tempfile.TemporaryDirectory() as folder:
        path = pathlib.Path(folder, "region")
        path.write_bytes(b"modeplan region 1\ndays 20240304 1\nstop A 0 0\nstop B 0 10\ntrip bus 80 2 t%20%1\ncall 0 28800 28800 1\n"
                         b"call 1 28830 28830 2\nend\n")
        teller = Teller(Atlas(Region(str(path))), Names(None))
    what = asked.Asked("profile", head[6:], "02:00:00")
    told = teller.told(what, head + b"\nwithout 60000\n" + ride + b"end\n")
    demand((told["kind"], told["without"], len(told["journeys"])) == ("journeys", 60_000, 1), f"{told}")
    demand(told["journeys"][0]["legs"][0]["trip"]["name"] == "t 1" and told["journeys"][0]["seconds"] == 30, f"{told['journeys']}")
    told = teller.told(what, head + b"\n" + ride + ride + b"end\n")
    demand((told["kind"], told["without"], len(told["journeys"])) == ("journeys", None, 2), f"{told}")
    told = teller.told(what, head + b"\nwithout 60000\nend\n")
    demand((told["kind"], told["without"], told["journeys"]) == ("journeys", 60_000, []), f"{told}")
    demand(teller.told(what, head + b"\nno journey\nend\n")["kind"] == "none", "no journey")
    demand(teller.told(what, head + b"\nrefused range\nend\n")["fault"] == "range", "a refusal")
    told = teller.told(asked.Asked("answer", head[6:]), head + b"\nstopped 1000000000000\nend\n")
    demand((told["kind"], told["labels"]) == ("stopped", 10 ** 12), f"a search that was stopped: {told}")


def try_names_are_data() -> None:
    """A region whose names are unkind is read as it is."""
    with tempfile.TemporaryDirectory() as folder:
        path = pathlib.Path(folder, "region")
        path.write_bytes(b"modeplan region 1\ndays 20240304 1\nstop <b>\xff 0 0\nstop <b>\xff&'\" 0 10\nend\n")
        atlas = Atlas(Region(str(path)))
        found = places.Places(atlas, Names(None))
        demand(len(found.named("<B>", 5)) == 2, "names that are no UTF-8")
        demand("stop:<b>\udcff&'\"" in atlas.numbers, "a node of such a name")


def run() -> str:
    try_parameters()
    try_replies_are_their_own()
    try_reasons()
    try_places()
    try_streets()
    try_names_are_data()
    try_profiles()
    demand(len(expected("foot-town")) > 20, "the example has blocks")
    return f"units: {try_atlas()} nodes are found by their names, {len(BAD)} faulty requests are told"
