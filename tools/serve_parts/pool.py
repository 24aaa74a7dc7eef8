"""Some workers and the requests that wait for one of them.

A worker that dies or is too slow is replaced, and its request is asked again, once.
"""

import asyncio
import contextlib
import logging
from collections.abc import Callable
from dataclasses import dataclass

from .problems import NoStart, Problem
from .workers import Call, Lost, Unasked, Worker

log = logging.getLogger("serve")
START_SECONDS = 900  # until a program must have read its region; a first call may build it
LONGEST_PAUSE = 30.0  # seconds between two attempts to start a worker


@dataclass(frozen=True)
class Limits:
    """How long a search may take in seconds, how many requests may wait, and how many bytes a reply may have."""

    seconds: float = 30.0
    waiting: int = 100
    reply: int = 64 << 20


@dataclass
class Counts:
    """What happened since the service began."""

    started: int = 0
    lost: int = 0
    hung: int = 0
    repeated: int = 0
    turned_away: int = 0


class Pool:
    """Workers over one region."""

    def __init__(self, call: Call, size: int, limits: Limits, counts: Counts) -> None:
        self._call, self._limits, self._counts = call, limits, counts
        self._idle: asyncio.Queue[Worker] = asyncio.Queue()
        self._workers: set[Worker] = set()
        self._beginning: set[Worker] = set()
        self._tasks: set[asyncio.Task] = set()
        self._closed = asyncio.Event()
        self.size, self.waiting = size, 0

    @property
    def alive(self) -> int:
        """How many workers there are that have read the region."""
        return len(self._workers)

    @property
    def pids(self) -> list[int]:
        return [worker.pid for worker in self._workers]

    async def open(self) -> None:
        """Starts the workers: the first alone, since it may build the program, or find that the region is none."""
        try:
            await self._add()
            await asyncio.gather(*(self._add() for _ in range(self.size - 1)))
        except (Lost, TimeoutError) as error:
            await self.close()
            raise NoStart(str(error) or f"the program was not ready within {START_SECONDS} seconds") from error

    async def _add(self) -> None:
        worker = await Worker.start(self._call)
        self._beginning.add(worker)
        try:
            await asyncio.wait_for(worker.greet(), START_SECONDS)
        except BaseException:
            await worker.end()
            raise
        finally:
            self._beginning.discard(worker)
        self._counts.started += 1
        if self._closed.is_set():
            await worker.end()
            return
        self._workers.add(worker)
        self._idle.put_nowait(worker)
        self._begin(self._watch(worker))

    def _begin(self, what) -> None:
        """Begins a task that is kept until it ends."""
        task = asyncio.create_task(what)
        self._tasks.add(task)
        task.add_done_callback(self._tasks.discard)

    async def _watch(self, worker: Worker) -> None:
        """Puts another in the place of a worker that ended."""
        await worker.gone()
        self._workers.discard(worker)
        worker.leave()
        if not self._closed.is_set():
            log.warning("a worker ended: %s", await worker.last_words())
            await self._replace()

    async def _replace(self) -> None:
        pause = 0.1
        while not self._closed.is_set():
            try:
                return await self._add()
            except (Lost, TimeoutError) as error:
                log.error("no worker can be started: %s", error)
            with contextlib.suppress(TimeoutError):
                async with asyncio.timeout(pause):
                    await self._closed.wait()
            pause = min(2 * pause, LONGEST_PAUSE)

    async def ask(self, line: bytes, is_reply: Callable[[bytes], bool]) -> bytes:
        """The reply to a line; `is_reply` says whether it is one of this line, and not of another."""
        if self._idle.empty() and self.waiting >= self._limits.waiting:
            self._counts.turned_away += 1
            raise Problem(503, "too many requests wait; ask again in a moment", 1)
        try:
            return await self._attempt(line, is_reply)
        except (Lost, TimeoutError) as error:
            self._note(error)
            self._counts.repeated += 1
        try:
            return await self._attempt(line, is_reply)
        except Lost as error:
            self._note(error)
            raise Problem(502, "the planner ended twice at this request; it may be asked again", 1) from error
        except TimeoutError as error:
            self._note(error)
            raise Problem(504, f"there was no reply within {self._limits.seconds:g} seconds, in two attempts") from error

    def _note(self, error: Lost | TimeoutError) -> None:
        """Counts and tells a failed attempt."""
        if isinstance(error, Lost):
            self._counts.lost += 1
        else:
            self._counts.hung += 1
        log.warning("a worker was lost at a request: %s", str(error) or "it took too long")

    async def _attempt(self, line: bytes, is_reply: Callable[[bytes], bool]) -> bytes:
        """Asks one worker; one that had died before it could be asked doesn't count."""
        while True:
            worker = await self._take()
            try:
                async with asyncio.timeout(self._limits.seconds):
                    reply = await worker.ask(line, self._limits.reply)
            except Unasked:
                continue
            if reply is not None and not is_reply(reply):
                worker.kill()
                raise Lost("a reply to another line came")
            self._idle.put_nowait(worker)
            if reply is None:
                raise Problem(507, f"the reply has more than {self._limits.reply} bytes")
            return reply

    async def _take(self) -> Worker:
        """The next worker that is free and there."""
        self.waiting += 1
        try:
            async with asyncio.timeout(self._limits.seconds):
                while (worker := await self._idle.get()) not in self._workers:
                    pass
                return worker
        except TimeoutError:
            self._counts.turned_away += 1
            raise Problem(503, "no planner was free in time; ask again in a moment", 5) from None
        finally:
            self.waiting -= 1

    async def close(self) -> None:
        """Ends the workers, which have nothing left to answer."""
        self._closed.set()
        while self._tasks or self._workers:
            await asyncio.gather(*(worker.end() for worker in (*self._workers, *self._beginning)))
            if self._tasks:
                await asyncio.wait(self._tasks, timeout=0.1)
