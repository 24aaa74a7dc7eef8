"""How many requests a second are answered, and how long they take: over the sample city of 100, with 1, 2 and 4 workers."""

import pathlib
import re
import shutil
import subprocess
import tempfile

from .bench import TOOLS, Served, demand, path_of

CORNERS = 100
CONNECTIONS_EACH = 4  # of the load, for each worker
SCRIPT = """\
local paths = {}
for line in io.lines("%s") do paths[#paths + 1] = line end
local at = 0
function request()
  at = at %% #paths + 1
  return wrk.format("GET", paths[at])
end
"""


def run(program: str, seconds: int) -> str:
    for tool in ("wrk", "rustc"):
        demand(shutil.which(tool) is not None, f"{tool} is not there")
    with tempfile.TemporaryDirectory() as name:
        folder = pathlib.Path(name)
        paths = make_city(folder)
        print("| Workers | Requests a second | Median | 99th percentile |\n|---|---|---|---|", flush=True)
        for workers in (1, 2, 4):
            with Served(program, folder / "region", "--workers", str(workers)) as service:
                print(f"| {workers} | {measured(service, folder, workers, seconds)} |", flush=True)
    return (f"load: {len(paths)} queries of the sample city of {CORNERS}, {seconds} s each, from {CONNECTIONS_EACH} connections for "
            "each worker")


def make_city(folder: pathlib.Path) -> list[str]:
    """Makes the region of the city, and the script of its queries."""
    subprocess.run(["rustc", "--edition", "2021", "-O", TOOLS.parent / "bench/baseline.rs", "-o", folder / "baseline"], check=True,
                   stderr=subprocess.DEVNULL)
    for name, words in (("region", "sample"), ("queries", "queries")):
        with open(folder / name, "wb") as file:
            subprocess.run([folder / "baseline", words, str(CORNERS)], check=True, stdout=file)
    lines = [line for line in (folder / "queries").read_text().splitlines() if len(line.split(" ", 4)) == 5]
    paths = [path_of("answer", line) for line in lines]
    (folder / "paths").write_text("".join(path + "\n" for path in paths))
    (folder / "script.lua").write_text(SCRIPT % (folder / "paths"))
    return paths


def measured(service: Served, folder: pathlib.Path, workers: int, seconds: int) -> str:
    """A row of the table; each response must be an answer."""
    call = ["wrk", "-t1", f"-c{CONNECTIONS_EACH * workers}", f"-d{seconds}s", "--timeout", "60s", "--latency", "-s", folder / "script.lua",
            f"http://127.0.0.1:{service.port}"]
    said = subprocess.run([str(word) for word in call], capture_output=True, text=True, check=True).stdout
    demand("Non-2xx" not in said and "Socket errors" not in said, f"requests failed: {said}")
    rate, median, last = (re.search(pattern, said, re.M) for pattern in (
        r"^Requests/sec:\s+(\S+)", r"^\s+50%\s+(\S+)", r"^\s+99%\s+(\S+)"))
    demand(bool(rate and median and last), f"wrk says {said}")
    assert rate and median and last
    return f"{float(rate[1]):.0f} | {median[1]} | {last[1]}"
