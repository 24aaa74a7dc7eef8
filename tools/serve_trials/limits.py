"""Trials of the limits on searches, over a stand-in for the planner that tells what it was called with."""

import json
import pathlib
import subprocess
import sys
import tempfile

from .api import WALK, Description
from .bench import EXAMPLES, TOOLS, Served, demand, path_of

LABELS, PLACES, LARGE = 1_000_000_000_000, 20, 300  # the limits, and the places of the expression `large`
WRONG = ("--labels 0", "--labels 1000000000001", "--labels 1e6", "--labels -1", "--places 0", "--places 201", "--places x")

# Stops each search that may be stopped, and refuses the expression `large`, as its options say.
STAND_IN = f"""\
#!{sys.executable}
import sys
words = sys.argv[1:]
with open(__file__ + ".calls", "a") as calls:
    print(*words, file=calls)
if words == ["--help"]:
    sys.exit("requests matrix")
options = dict(zip(words, words[1:]))
places = int(options.get("--places", "200"))
if words[0] == "matrix":
    froms, tos = (open(name).read().splitlines() for name in words[-5:-3])
    cell = "refused large {LARGE}" if words[-1] == "large" and places < {LARGE} else "none"
    print(*(f"{{start}}\\t{{end}}\\t{{cell}}" for start in froms for end in tos), sep="\\n")
else:
    for line in sys.stdin:
        command, _, query = line.strip().partition(" ")
        body = "no journey"
        if command == "profile":
            query = query.partition(" ")[2]
        elif command not in ("answer", "latest", "few", "certify", "certify-latest"):
            query, body = line.strip(), "refused command"
        elif command != "few" and "--labels" in options:
            body = "stopped " + options["--labels"]
        if query.endswith(" large") and places < {LARGE}:
            body = "refused large {LARGE}"
        print("query " + query, body, "end", sep="\\n", flush=True)
"""


def stand_in(folder: str) -> pathlib.Path:
    """The stand-in as a program in the folder."""
    program = pathlib.Path(folder, "modeplan")
    program.write_text(STAND_IN)
    program.chmod(0o755)
    return program


def try_stopped(service: Served, description: Description) -> None:
    """Of what may be stopped it is told that it was, and of nothing else."""
    for command, more in (("answer", {}), ("latest", {}), ("certificate", {"kind": "answer"}), ("certificate", {"kind": "latest"})):
        reply = service.get(path_of(command, WALK, **more))
        description.check(f"/{command}", "get", reply)
        told = reply.json()
        demand((reply.status, told["kind"], told.get("labels")) == (422, "stopped", LABELS), f"{command} {more}: {told}")
        demand(told["block"] == f"query {WALK}\nstopped {LABELS}\nend\n", f"{command}: {told['block']}")
    reply = service.get(path_of("few", WALK))
    demand((reply.status, reply.json()["kind"]) == (200, "none"), f"few: {reply.body!r}")


def try_large(service: Served, description: Description, places: int) -> None:
    """An expression with more places than the limit is refused, and the limit is told."""
    line = WALK.removesuffix("foot") + "large"
    for command in ("answer", "few", "latest", "profile", "certificate"):
        reply = service.get(path_of(command, line))
        description.check(f"/{command}", "get", reply)
        told = reply.json()
        demand((reply.status, told["kind"], told.get("number")) == (422, "refused", LARGE), f"{command}: {told}")
        demand(f"at most {places}" in told["reason"] and told["parameter"] == "expr", f"{command}: {told['reason']}")
    reply = service.send("POST", "/matrix?date=20240304&time=08:00:00&expr=large", json.dumps({"from": ["n1"], "to": ["n3"]}).encode())
    demand(reply.body == f"n1\tn3\trefused large {LARGE}\n".encode(), f"a table: {reply.body!r}")
    reply = service.get("/reach?from=n1&date=20240304&time=08:00:00&expr=large")
    description.check("/reach", "get", reply)
    demand(reply.status == 422 and f"at most {places}" in reply.json()["reason"], f"/reach: {reply.body!r}")


def calls_of(program: pathlib.Path) -> dict[str, set[str]]:
    """The options with which each command was called."""
    found: dict[str, set[str]] = {}
    for line in pathlib.Path(f"{program}.calls").read_text().splitlines():
        words = line.split(" ")
        given = (f"{one} {other}" for one, other in zip(words, words[1:]) if one in ("--labels", "--places"))
        found.setdefault(words[0], set()).add(" ".join(given))
    return found


def try_words() -> None:
    """Limits that are none are told before anything begins."""
    for words in WRONG:
        call = [TOOLS / "serve", EXAMPLES / "foot-town/region", *words.split(" ")]
        run = subprocess.run(call, capture_output=True, text=True, check=False)
        demand(run.returncode == 2 and words.split(" ")[0] in run.stderr, f"{words}: {run.stderr}")


def run() -> str:
    description = Description((TOOLS / "serve_parts/api.json").read_bytes())
    with tempfile.TemporaryDirectory() as folder:
        program, region = stand_in(folder), EXAMPLES / "foot-town/region"
        with Served(str(program), region, "--workers", "1", "--labels", str(LABELS), "--places", str(PLACES)) as service:
            try_stopped(service, description)
            try_large(service, description, PLACES)
        calls = calls_of(program)
        demand(calls["requests"] == {f"--labels {LABELS} --places {PLACES}"}, f"the words of the workers: {calls}")
        demand(calls["matrix"] == {f"--places {PLACES}"}, f"the words of tables: {calls}")
        pathlib.Path(f"{program}.calls").unlink()
        with Served(str(program), region, "--workers", "1") as service:
            demand(service.get(path_of("answer", WALK)).json()["kind"] == "none", "a service without a limit")
            try_large(service, description, 200)
        demand(calls_of(program)["requests"] == {""}, f"no limit is handed on: {calls_of(program)}")
    try_words()
    return "limits: they are handed on, and what is stopped or too large is told"
