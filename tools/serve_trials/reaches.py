"""Trials of how far one gets: tools/grid, tools/isochrone, and /reach with its button on the page."""

import json
import math
import pathlib
import re
import subprocess
import tempfile
import urllib.parse

from isochrone_parts.bands import MINUTES, Destination, Nearest, bands
from isochrone_parts.grid import METRE, endpoint, grid
from region_reader import Region
from serve_parts.atlas import Atlas

from .api import Description
from .bench import EXAMPLES, TOOLS, Served, answered, demand
from .pages import Browser

REGION = EXAMPLES / "foot-town/region"
ORIGIN, WHEN, HOW = "n1", "20240304 08:00:00", "foot"


def tool(name: str, *words: object) -> subprocess.CompletedProcess:
    return subprocess.run([str(TOOLS / name), *map(str, words)], capture_output=True, text=True, check=False)


def try_grid() -> int:
    """Each place is the middle of a square with a node in it, each node lies in a square with a place, and they are spelled so."""
    count = 0
    for name in ("town", "foot-town"):
        atlas = Atlas(Region(str(EXAMPLES / name / "region")))
        lats, lons = (list(axis[:atlas.first_stop]) for axis in (atlas.lats, atlas.lons))
        for metres in (100, 700):
            places = grid(lats, lons, metres)
            wide = math.cos(math.radians((min(lats) + max(lats)) / 2e7))
            half = metres * METRE / 2 + 2
            for lat, lon in zip(lats, lons):
                demand(any(abs(lat - a) <= half and abs(lon - b) * wide <= half for a, b in places), f"{name}: no place beside {lat},{lon}")
            run = tool("grid", EXAMPLES / name / "region", metres)
            demand(run.returncode == 0 and run.stdout.splitlines() == [endpoint(place) for place in places], f"grid: {run}")
            count += len(places)
    demand(endpoint((-5, 1_800_000_000)) == "@-0.0000005,180.0000000", endpoint((-5, 1_800_000_000)))
    for words in ((REGION, 9), (REGION, "x"), (REGION,)):
        demand(tool("grid", *words).returncode == 2, f"grid {words}")
    demand(tool("grid", "/nowhere", 500).returncode == 1, "a region that is not there")
    return count


def try_bands() -> None:
    """A street has the band of the destination that is nearest to its middle, and none where all are far."""
    destinations = [Destination((0, 0), 0), Destination((0, 1_000), 5 * 60_000), Destination((0, 2_000), 5 * 60_000 + 1),
                    Destination((0, 3_000), None), Destination((0, 4_000), 61 * 60_000)]
    demand([destination.band for destination in destinations] == [0, 0, 1, None, None], "which band")
    found = bands([[0, 0, 0, 900, 0, 900, 0, 900, 0, 900], [0, 50_000, 0, 10]], destinations)
    demand(found[:2] == [[[0, 0, 0, 900, 0, 900]], [[0, 1_800, 0, 900]]] and not any(found[2:]), f"{found}")
    nearest = Nearest(destinations)
    for lon in range(-1_000, 5_000, 130):
        due = min(destinations, key=lambda one: abs(one.place[1] - lon))
        near = nearest.of((0, lon))
        demand(near is due or near is not None and abs(near.place[1] - lon) == abs(due.place[1] - lon), f"the nearest of {lon}")
    demand(nearest.of((90_000, 0)) is None, "a place far from all")
    demand(Nearest([Destination((5, 5), 1)]).of((5, 5)) is not None, "one destination")


def table(program: str, places: list[str]) -> str:
    """The rows of a table from the origin, of what the planner answers."""
    lines = {place: f"{ORIGIN} {place} {WHEN} {HOW}" for place in places}
    blocks = answered(program, REGION, list(lines.values()))
    return "".join(f"{ORIGIN}\t{place}\t{value(blocks[line])}\n" for place, line in lines.items())


def value(block: str) -> str:
    """What a table says where an answer has this block."""
    body = block.split("\n")[1]
    if match := re.fullmatch(r"arrive \d{8} (\d\d):(\d\d):(\d\d)\.(\d{3})", body):
        hours, minutes, seconds, ms = map(int, match.groups())
        return str((((hours - 8) * 60 + minutes) * 60 + seconds) * 1000 + ms)
    return "none" if body == "no journey" else body


def try_isochrone(program: str, browser: Browser) -> str:
    """The tool draws the streets of each band, as GeoJSON and as a page; files that can't be used are told in a line."""
    with tempfile.TemporaryDirectory() as folder:
        rows, out, page = (pathlib.Path(folder, name) for name in ("table", "out.geojson", "out.html"))
        places = tool("grid", REGION, 100).stdout.splitlines()
        rows.write_text("n2\tn1\tnone\n" + table(program, places))
        run = tool("isochrone", REGION, rows, ORIGIN, out)
        demand(run.returncode == 0 and not run.stderr, f"isochrone: {run}")
        features = json.loads(out.read_text())["features"]
        shown = [feature["properties"]["minutes"] for feature in features if feature["properties"]["kind"] == "band"]
        demand(len(shown) > 3 and shown == [minutes for minutes in MINUTES if minutes in shown], f"bands in order: {shown}")
        check_bands(features)
        run = tool("isochrone", REGION, rows, ORIGIN, page)
        demand(run.returncode == 0 and not run.stderr, f"isochrone: {run}")
        browser.driver.get(page.as_uri())
        browser.wait(lambda: len(browser.all("#legend li")) == len(shown), "the legend has the bands")
        browser.shot("isochrone")
        demand(not (said := browser.complaints()), f"the console says {said}")
        return f"{len(features)} features, {try_faults(rows, out)} faults are told"


def check_bands(features: list[dict]) -> None:
    """Looks that each street is as near to a destination of its band as to any."""
    ends = [(feature["geometry"]["coordinates"], feature["properties"]["minutes"]) for feature in features
            if feature["properties"]["kind"] == "destination"]
    for feature in features:
        if feature["properties"]["kind"] != "band":
            continue
        least, most = feature["properties"]["above"], feature["properties"]["minutes"]
        for chain in feature["geometry"]["coordinates"]:
            for one, other in zip(chain, chain[1:]):
                middle = [(a + b) / 2 for a, b in zip(one, other)]
                gaps = sorted((math.hypot((at[0] - middle[0]) * 0.669, at[1] - middle[1]), minutes) for at, minutes in ends)
                near = [minutes for gap, minutes in gaps if gap < gaps[0][0] + 2e-7]
                is_in = [minutes for minutes in near if minutes is not None and (least < minutes or least == 0) and minutes <= most]
                demand(len(is_in) > 0, f"{middle} is in the band of {most}, and not of {near}")


def try_faults(rows: pathlib.Path, out: pathlib.Path) -> int:
    good = rows.read_text()
    cases = {"no row is from n1": "n2\tn1\t5\n", "line 1: this is no row": "n1 n2 5\n", "line 2: this is no row": "n1\tn2\t5\nn1\tn3\t5",
             "neither a number": "n1\tn2\t-5\n", "has no place x": "n1\tx\t5\n", "refused this": "n1\tn2\trefused syntax 5\n"}
    for says, text in cases.items():
        rows.write_text(text)
        out.unlink(missing_ok=True)
        run = tool("isochrone", REGION, rows, ORIGIN, out)
        demand(run.returncode == 1 and says in run.stderr and run.stderr.count("\n") == 1 and not out.exists(), f"{says}: {run}")
    rows.write_text(good)
    demand(tool("isochrone", REGION, rows, ORIGIN, "out").returncode == 2, "an ending that is none")
    demand(tool("isochrone", REGION, "/nowhere", ORIGIN, out).returncode == 1, "a table that is not there")
    return len(cases) + 2


def try_service(program: str, browser: Browser) -> str:
    """/reach and the page's button, where the planner has tables."""
    description = Description((TOOLS / "serve_parts/api.json").read_bytes())
    words = {"from": ORIGIN, "date": WHEN.split()[0], "time": WHEN.split()[1], "expr": HOW, "metres": "300"}
    with Served(program, REGION, "--workers", "1") as service:
        reply = service.get("/reach?" + urllib.parse.urlencode(words))
        description.check("/reach", "get", reply)
        if "matrix" not in service.get("/map").json()["can"]:
            demand(reply.status == 501, "a planner without tables")
            return "/reach is not there"
        told = reply.json()
        demand(told["kind"] == "reach" and told["places"] == told["reached"] > 20, f"{told['places']} places, {told['reached']} reached")
        for name, other in (("from", "n999999"), ("expr", "foot )"), ("time", "8"), ("metres", "5"), ("metres", "x")):
            reply = service.get("/reach?" + urllib.parse.urlencode({**words, name: other}))
            description.check("/reach", "get", reply)
            demand(reply.status == (400 if name == "metres" else 422), f"{name}={other}: {reply.status}")
        browser.open(service.port)
        browser.one("from").send_keys(ORIGIN)
        browser.one("expr").clear()
        browser.one("expr").send_keys(HOW)
        browser.one("reach").click()
        browser.answered()
        demand("one gets to" in browser.text("said") and len(browser.all("#legend li")) > 0, f"how far: {browser.text('said')}")
        browser.shot("reach")
    return f"/reach has {told['reached']} places"


def run(program: str, shots: pathlib.Path | None) -> str:
    count = try_grid()
    try_bands()
    browser = Browser(shots and shots / "reaches")
    try:
        browser.size(1400, 900)
        browser.dark(False)
        drawn = try_isochrone(program, browser)
        told = try_service(program, browser)
    finally:
        browser.driver.quit()
    return f"reaches: {count} places on grids; {drawn}; {told}"
