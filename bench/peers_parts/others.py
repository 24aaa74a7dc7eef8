"""The libraries that are asked beside modeplan. Each is a program that gets a graph file and prints the seconds that it took to make its graph,
those of a pair, and those of one node to all, and then the milliseconds of each pair, -1 where there is no way."""
import dataclasses
import os
import pathlib
import shutil
import struct
import subprocess
import tempfile
import time


@dataclasses.dataclass
class Peer:
    """What a library took: seconds until it could be asked, milliseconds for a pair and for one to all, megabytes; and what it told."""

    name: str
    ready: float
    pair: float
    every: float | None
    peak: float
    took: list[int | None]


def _asked(name, words, folder):
    told = folder / "peer"
    said = subprocess.run(["/usr/bin/time", "-f", "%M", "-o", told, *words], stdout=subprocess.PIPE, text=True, check=True).stdout
    first, *rest = said.splitlines()
    ready, pair, every = map(float, first.split())
    took = [None if ms == "-1" else int(ms) for ms in rest]
    return Peer(name, ready, 1000 * pair, 1000 * every, int(told.read_text()) / 1024, took)


def _compiled(name, source):
    def ask(graph, parts, folder):
        program = folder / source
        subprocess.run(["g++", "-O2", "-DNDEBUG", "-std=c++17", parts / f"{source}.cpp", "-o", program], check=True)
        return _asked(name, [program, graph], folder)
    return ask


def _in_python(name, kind):
    return lambda graph, parts, folder: _asked(name, ["/usr/bin/python3", parts / "in_python.py", kind, graph], folder)


class Postgres:
    """A PostgreSQL server of its own, in a folder of its own, reached by a socket there."""

    BIN = pathlib.Path("/usr/lib/postgresql/15/bin")

    def __init__(self):
        self._folder = pathlib.Path(tempfile.mkdtemp(prefix="peers-"))
        self._as = ["runuser", "-u", "postgres", "--"] if os.geteuid() == 0 else []
        if self._as:
            shutil.chown(self._folder, "postgres")

    def __enter__(self):
        data = self._folder / "data"
        self._run("initdb", "-D", data, "--auth=trust")
        self._run("pg_ctl", "-D", data, "-w", "-o", f"-k {self._folder} -c listen_addresses=''", "-l", self._folder / "log", "start")
        return self

    def __exit__(self, *_):
        self._run("pg_ctl", "-D", self._folder / "data", "-m", "immediate", "stop")
        shutil.rmtree(self._folder)

    def _run(self, tool, *words, **more):
        return subprocess.run([*self._as, self.BIN / tool, *words], cwd="/", check=True, text=True, stdout=subprocess.PIPE, **more).stdout

    def ask(self, *texts, given=None):
        """What the server answers to these commands, a line a row."""
        commands = [word for text in texts for word in ("-c", text)]
        said = self._run("psql", "-h", self._folder, "-d", "postgres", "-qAt", *commands, **({"input": given} if given else {}))
        return said.splitlines()

    def peak(self):
        """The most memory that any process of the server had, in megabytes."""
        found = [0]
        for status in pathlib.Path("/proc").glob("[0-9]*/status"):
            try:
                text = status.read_text()
            except OSError:
                continue
            if "\nName:\tpostgres" in f"\n{text}":
                found += [int(line.split()[1]) for line in text.splitlines() if line.startswith("VmHWM")]
        return max(found) / 1024


def pg_routing(graph, parts, folder):
    """pgRouting, by the clock, since its server's processes are not ours to measure. It is asked the first tenth of the pairs."""
    whole = pathlib.Path(graph).read_bytes()
    _, arcs, pairs = struct.unpack_from("<3I", whole)
    rows = "\n".join("\t".join(map(str, struct.unpack_from("<3I", whole, 12 + 12 * k))) for k in range(arcs))
    asked = [struct.unpack_from("<2I", whole, 12 + 12 * arcs + 8 * k) for k in range(pairs // 10)]
    quoted = "'select id, source, target, cost from arcs'"
    cost = "select coalesce((select agg_cost from pgr_dijkstraCost({}, {}, {}, true)), {})::int"
    with Postgres() as server:
        laps = [time.perf_counter()]
        server.ask("set client_min_messages = error", "create extension pgrouting cascade",
                   "create table arcs (source int, target int, cost float8, id serial)")
        server.ask("copy arcs (source, target, cost) from stdin", given=rows)
        laps.append(time.perf_counter())
        said = server.ask(*(cost.format(quoted, a, b, 0 if a == b else -1) for a, b in asked))
        laps.append(time.perf_counter())
        server.ask(f"select count(*) from pgr_drivingDistance({quoted}, {asked[0][0]}, 1e12, true)")
        laps.append(time.perf_counter())
        ready, pair, every = (1000 * (b - a) for a, b in zip(laps, laps[1:]))
        took = [None if ms == "-1" else int(ms) for ms in said]
        return Peer("pgRouting", ready / 1000, pair / len(asked), every, server.peak(), took)


OTHERS = (_compiled("LEMON", "lemon"), _compiled("Boost", "boost"), _in_python("SciPy", "scipy"), _in_python("igraph", "igraph"), pg_routing)
