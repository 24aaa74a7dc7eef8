"""A service that is started for a trial, and how it is asked."""

import http.client
import json
import os
import pathlib
import re
import signal
import subprocess
import tempfile
import time
import urllib.parse

TOOLS = pathlib.Path(__file__).resolve().parent.parent
EXAMPLES = TOOLS.parent / "examples"
READY = 900  # seconds until a service must be ready; the first one may build the program
QUERY = ("from", "to", "date", "time", "expr")


class Failed(Exception):
    """Something is not as it should be."""


def demand(holds: bool, what: str) -> None:
    if not holds:
        raise Failed(what)


class Reply:
    """A response: its status, headers and body."""

    def __init__(self, status: int, headers: http.client.HTTPMessage, body: bytes) -> None:
        self.status, self.headers, self.body = status, headers, body

    def json(self) -> dict:
        return json.loads(self.body)


class Served:
    """A running service over a region, on a port of its own."""

    def __init__(self, program: str, region: object, *words: str) -> None:
        self.notes = tempfile.NamedTemporaryFile("w+", suffix=".notes")
        call = [str(TOOLS / "serve"), str(region), "--port", "0", *words]
        self.process = subprocess.Popen(call, env={**os.environ, "MODEPLAN": program}, stderr=self.notes, stdin=subprocess.DEVNULL)
        self.port = self._wait()

    def _wait(self) -> int:
        end = time.monotonic() + READY
        while time.monotonic() < end:
            if match := re.search(r"http://127\.0\.0\.1:(\d+)/ answers", self.said()):
                return int(match[1])
            demand(self.process.poll() is None, f"the service did not start: {self.said()}")
            time.sleep(0.05)
        raise Failed("the service was not ready in time")

    def said(self) -> str:
        """What the service told people."""
        return pathlib.Path(self.notes.name).read_text()

    def __enter__(self) -> "Served":
        return self

    def __exit__(self, *_: object) -> None:
        if self.process.poll() is None:
            self.process.terminate()
            try:
                self.process.wait(10)
            except subprocess.TimeoutExpired:
                self.process.kill()
                self.process.wait()
        self.notes.close()

    def workers(self) -> list[int]:
        """The processes of the workers."""
        pid = self.process.pid
        return [int(word) for word in pathlib.Path(f"/proc/{pid}/task/{pid}/children").read_text().split()]

    def signal(self, number: signal.Signals) -> None:
        self.process.send_signal(number)

    def get(self, path: str, timeout: float = 60) -> Reply:
        return self.send("GET", path, timeout=timeout)

    def send(self, method: str, path: str, body: bytes | None = None, timeout: float = 60) -> Reply:
        """A request on a connection of its own."""
        connection = http.client.HTTPConnection("127.0.0.1", self.port, timeout=timeout)
        try:
            connection.request(method, path, body)
            response = connection.getresponse()
            return Reply(response.status, response.headers, response.read())
        finally:
            connection.close()

    def metric(self, name: str) -> float:
        """A number of /metrics that has no labels."""
        match = re.search(rf"^modeplan_{name} (\S+)$", self.get("/metrics").body.decode(), re.M)
        demand(match is not None, f"there is no metric {name}")
        assert match is not None
        return float(match[1])


def path_of(command: str, line: str, **more: str) -> str:
    """The address that asks a query line."""
    return f"/{command}?" + urllib.parse.urlencode({**dict(zip(QUERY, line.split(" ", 4))), **more})


def blocks_of(text: str) -> dict[str, str]:
    """The blocks of a text by their query lines."""
    return {block[6:block.index("\n")]: block for block in re.findall(r"^query .*\n(?:(?!end$).*\n)*end\n", text, re.M)}


def expected(name: str) -> dict[str, str]:
    """The blocks of an example whose lines have five fields, as a request has them."""
    found = blocks_of((EXAMPLES / name / "expected").read_text())
    return {line: block for line, block in found.items() if len(fields := line.split(" ", 4)) == 5 and all(fields)}


def answered(program: str, region: object, lines: list[str]) -> dict[str, str]:
    """What the planner answers to these lines without a service."""
    with tempfile.NamedTemporaryFile("w") as queries:
        queries.write("".join(line + "\n" for line in lines))
        queries.flush()
        run = subprocess.run([program, "answer", str(region), queries.name], capture_output=True, text=True, check=False)
    demand(run.returncode == 0, f"answer: {run.stderr}")
    return blocks_of(run.stdout)
