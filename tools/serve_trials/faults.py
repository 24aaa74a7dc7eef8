"""Trials of faults: what is asked gets its own right answer, whatever happens to workers, regions and other clients."""

import collections
import contextlib
import itertools
import os
import pathlib
import random
import signal
import socket
import tempfile
import threading
import time

from .bench import EXAMPLES, Failed, Served, answered, demand, expected, path_of

REGION = EXAMPLES / "foot-town/region"
CLIENTS = 6
MALFORMED = 10_000
PATIENT = 10.0  # seconds within which an answer comes, whatever slow clients do; one of them may take half a minute


class Askers:
    """Clients that ask without a pause, and compare each answer with the one that is due."""

    def __init__(self, service: Served, due) -> None:
        self._service, self._due = service, due
        self._ends = threading.Event()
        self.count = itertools.count()
        self.faults: list[str] = []
        self._threads = [threading.Thread(target=self._ask, args=(number,), daemon=True) for number in range(CLIENTS)]
        self.lines = sorted(expected("foot-town"))

    def __enter__(self) -> "Askers":
        for thread in self._threads:
            thread.start()
        return self

    def __exit__(self, *_: object) -> None:
        self._ends.set()
        for thread in self._threads:
            thread.join(60)

    def _ask(self, number: int) -> None:
        lot = random.Random(number)
        while not self._ends.is_set() and len(self.faults) < 3:
            line = lot.choice(self.lines)
            try:
                reply = self._service.get(path_of("answer", line))
                told = reply.json()
                demand(reply.status in (200, 422), f"{line}: {reply.status} {told}")
                demand(told["block"] == self._due(told["edition"])[line], f"{line}: a wrong answer: {told['block'][:200]}")
                next(self.count)
            except (Failed, OSError, ValueError) as error:
                self.faults.append(f"{line}: {error!r}")

    def check(self, least: int) -> int:
        """How many answers were right; none may be wrong or lost."""
        count = next(self.count)
        demand(not self.faults, f"{len(self.faults)} requests were lost or wrong: {self.faults[0] if self.faults else ''}")
        demand(count >= least, f"only {count} requests were answered")
        return count


def try_workers(program: str) -> str:
    """Workers are killed, some and all at once, and stopped so that they hang."""
    due, ended = expected("foot-town"), 0
    with Served(program, REGION, "--workers", "3", "--seconds", "2") as service:
        with Askers(service, lambda _: due) as askers:
            for number in range(20):
                time.sleep(0.4)
                for worker in service.workers()[:3 if number % 5 == 0 else 1]:
                    ended += ends(worker, signal.SIGKILL)
            for _ in range(3):
                ended += ends(service.workers()[0], signal.SIGSTOP)
                time.sleep(3)
        count = askers.check(100)
        demand(service.metric("workers_hung_total") >= 1, "a worker hung")
        lost, again = service.metric("workers_lost_total"), service.metric("requests_repeated_total")
        wait_for(lambda: service.metric("workers") == 3, "three workers are there again")
    return (f"{count} answers were right while {ended} workers were ended or stopped ({lost:.0f} died at a request); "
            f"{again:.0f} requests were asked again")


def ends(worker: int, number: signal.Signals) -> bool:
    """Sends a worker a signal, where it is still there."""
    with contextlib.suppress(ProcessLookupError):
        os.kill(worker, number)
        return True
    return False


def wait_for(holds, what: str) -> None:
    """Waits until it holds."""
    end = time.monotonic() + 120
    while not holds():
        demand(time.monotonic() < end, f"it never came that {what}")
        time.sleep(0.1)


def try_swaps(program: str) -> str:
    """Regions are swapped while requests are answered; each answer is that of its edition. One that is none changes nothing."""
    with tempfile.TemporaryDirectory() as folder:
        path, other = pathlib.Path(folder, "region"), pathlib.Path(folder, "other")
        texts = [REGION.read_text(), slower(REGION.read_text())]
        other.write_text(texts[1])
        lines = sorted(expected("foot-town"))
        dues = [expected("foot-town"), answered(program, other, lines)]
        demand(dues[0] != dues[1], "two regions that answer alike")
        path.write_text(texts[0])
        with Served(program, path, "--workers", "2") as service:
            with Askers(service, lambda edition: dues[(edition - 1) % 2]) as askers:
                for edition in range(2, 8):
                    put(path, texts[(edition - 1) % 2])
                    service.signal(signal.SIGHUP)
                    wait_for(lambda edition=edition: service.metric("edition") == edition, f"edition {edition} is in use")
                    time.sleep(0.3)
                put(path, "modeplan region 1\nno days\n")
                service.signal(signal.SIGHUP)
                wait_for(lambda: service.metric("renewals_failed_total") == 1, "a region that is none was found")
                time.sleep(0.5)
                for worker in service.workers():  # those that come in their places read the edition's file, not the one of that name
                    os.kill(worker, signal.SIGKILL)
                time.sleep(1)
            count = askers.check(50)
            demand(service.metric("edition") == 7, "the edition stays")
            demand(f"{path}, line 2" in service.said(), f"what is wrong with the region is told: {service.said()[-500:]}")
    return f"{count} answers were those of their editions while six regions were swapped and a seventh was none"


def slower(region: str) -> str:
    """The region with arcs that take longer."""
    words = (line.split(" ") for line in region.split("\n"))
    return "\n".join(" ".join([*fields[:3], str(int(fields[3]) + 1000)] if fields[0] == "arc" else fields) for fields in words)


def put(path: pathlib.Path, text: str) -> None:
    """Puts a file in the place of another, in one step."""
    new = path.with_name("new")
    new.write_text(text)
    new.replace(path)


def malformed(lot: random.Random) -> bytes:
    """A request that is none, or that none can answer."""
    good = b"from=n1&to=n3&date=20240304&time=08:00:00&expr=foot"
    noise = lot.randbytes(lot.randrange(1, 300))
    escaped = b"".join(b"%%%02x" % byte for byte in noise[:60])
    target = lot.choice([
        b"/answer?" + escaped, b"/answer?" + good + b"%0Aready", b"/answer?" + good.replace(b"n3", escaped + b"%0a"),
        b"/answer?" + b"a" * 30_000, b"/answer?" + good + b"&from=n2", b"/few?" + good[:lot.randrange(45)], b"/latest?%zz=%",
        b"/stops?near=" + escaped, b"/stops?name=a&near=0,0", b"/stops?name=a&most=" + b"9" * 4000, b"/matrix?" + good,
        b"/certificate?" + good + b"&kind=%00", b"/profile?" + good + b"&window=" + escaped, b"/../../etc/passwd", b"/%2e%2e/region",
        b"//", b"/streets/99999/1", b"/streets/a/b", b"/" + escaped, b"/main.js/../serve.py", b"*", b"http://x/none"])
    method = lot.choice([b"GET", b"GET", b"GET", b"GET", b"POST", b"PUT", b"DELETE", b"HEAD", b"BREW", b"get"])
    head = lot.choice([b"Host: x\r\n", b"", b"Host: x\r\nContent-Length: -1\r\n", b"Host: x\r\nTransfer-Encoding: x\r\n",
                       b"Host: x\r\n" + noise + b"\r\n", b"Host: x\r\nContent-Length: 5\r\n", b"X: " + b"a" * 40_000 + b"\r\n"])
    whole = method + b" " + target + b" HTTP/1.1\r\n" + head + b"Connection: close\r\n\r\n" + lot.choice([b"", b"[[[[", b'{"from": 1}'])
    return lot.choice([whole, whole, whole, whole, noise, whole[:lot.randrange(len(whole))], whole.replace(b"HTTP/1.1", noise[:8])])


def try_malformed(program: str) -> str:
    """Malformed requests get no answer of the planner, and do nothing to it."""
    due, lot, statuses = expected("foot-town"), random.Random(1), collections.Counter[bytes]()
    with Served(program, REGION, "--workers", "2") as service:
        workers = service.workers()
        with Askers(service, lambda _: due) as askers:
            for number in range(MALFORMED):
                request = malformed(lot)
                status = spoken(service, request)
                statuses[status] += 1
                demand(status == b"" or b"400" <= status < b"500" or status == b"501", f"request {number}, {request[:200]!r}: {status!r}")
        count = askers.check(50)
        demand(service.workers() == workers, "the workers are the same")
        demand(service.metric("workers_started_total") == 2 and service.metric("requests_begun") == 1, "nothing was begun that goes on")
        demand("Traceback" not in service.said(), f"the service failed: {service.said()[-2000:]}")
    told = ", ".join(f"{times} times {status.decode() or 'none'}" for status, times in sorted(statuses.items()))
    return f"{MALFORMED} malformed requests had the status {told}; {count} others had their answers meanwhile"


def spoken(service: Served, request: bytes) -> bytes:
    """The status of the first response to these bytes; none where the connection ends without."""
    with socket.create_connection(("127.0.0.1", service.port), timeout=20) as link, contextlib.suppress(ConnectionError):
        link.sendall(request)
        if b"\r\n\r\n" not in request or b"Content-Length: 5" in request:
            link.shutdown(socket.SHUT_WR)  # there is more to come, or so it seems
        said = b""
        while len(said) < 12 and (piece := link.recv(12 - len(said))):
            said += piece
        return said[9:12]
    return b""


def try_slow(program: str) -> str:
    """Clients that don't end their requests, or take nothing of the responses, hold up no other."""
    line = "sde:09999:127:0:1 sde:09999:139:0:1 20240701 07:20:00 bus"
    block = expected("town")[line]
    with Served(program, EXAMPLES / "town/region", "--workers", "2") as service, contextlib.ExitStack() as links:
        for number in range(300):
            link = links.enter_context(socket.create_connection(("127.0.0.1", service.port), timeout=20))
            link.setsockopt(socket.SOL_SOCKET, socket.SO_RCVBUF, 1024)
            ask = b"GET %b HTTP/1.1\r\nHost: x\r\nAccept-Encoding: identity\r\n\r\n"
            link.sendall((ask[:30], ask % path_of("answer", line).encode(), ask % b"/map" * 10)[number % 3])
        slowest = 0.0
        for _ in range(30):
            begun = time.monotonic()
            demand(service.get(path_of("answer", line)).json()["block"] == block, "a wrong answer")
            slowest = max(slowest, time.monotonic() - begun)
        demand(slowest < PATIENT, f"an answer took {slowest:.1f} s beside slow clients")
    return f"beside 300 slow clients no answer took longer than {slowest:.2f} s"


def try_end(program: str) -> str:
    """What has begun is answered when the service is ended, and nothing is after that."""
    due = expected("foot-town")
    lines, replies = sorted(due)[:12], []
    with Served(program, REGION, "--workers", "2") as service:
        for worker in service.workers():
            os.kill(worker, signal.SIGSTOP)
        asks = [lambda line=line: replies.append((line, service.get(path_of("answer", line)))) for line in lines]
        threads = [threading.Thread(target=ask) for ask in asks]
        for thread in threads:
            thread.start()
        time.sleep(1)
        workers = service.workers()
        service.signal(signal.SIGTERM)
        time.sleep(1)
        for worker in workers:
            os.kill(worker, signal.SIGCONT)
        for thread in threads:
            thread.join(60)
        demand(len(replies) == len(lines), f"{len(replies)} of {len(lines)} requests were answered at the end")
        demand(all(reply.json()["block"] == due[line] for line, reply in replies), "a wrong answer at the end")
        demand(service.process.wait(30) == 0, "the service ends with status 0")
        with contextlib.suppress(ConnectionError):
            service.get("/health")
            raise Failed("the service answers after its end")
        wait_for(lambda: not any(pathlib.Path(f"/proc/{worker}").exists() for worker in workers), "its workers are gone")
    return f"{len(lines)} requests that had begun were answered at the end"


def try_starts(program: str) -> str:
    """A service that can't begin says why, in a line, with status 1."""
    with tempfile.TemporaryDirectory() as folder:
        bad = pathlib.Path(folder, "bad")
        bad.write_text("modeplan region 1\nno days\n")
        for region, words, says in ((bad, (), "line 2"), ("/nowhere", (), "No such file"), (folder, (), "directory"),
                                    (REGION, ("--names", str(bad)), "names")):
            try:
                with Served(program, region, *words):
                    raise Failed(f"a service began over {region}")
            except Failed as failure:
                demand("did not start" in str(failure) and says in str(failure), str(failure))
    return "four services that can't begin said why"


def run(program: str) -> str:
    trials = (try_starts, try_workers, try_swaps, try_malformed, try_slow, try_end)
    said = []
    for trial in trials:
        said.append(trial(program))
        print(f"  {said[-1]}", flush=True)
    return f"faults: {len(said)} trials held"
