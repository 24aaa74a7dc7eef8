"""A region in use, with its workers; and how another takes its place while requests are answered."""

import asyncio
import contextlib
import fcntl
import logging
import os
import re
import time
from collections.abc import AsyncIterator
from dataclasses import dataclass, field

from picture_parts.faults import Fault
from picture_parts.names import Names
from region_reader import BadRegion, Region

from .atlas import Atlas
from .bounds import Bounds
from .maps import packed_map
from .places import Places
from .pool import Counts, Limits, Pool
from .problems import NoStart
from .replies import Teller
from .workers import Call

log = logging.getLogger("serve")
FIRST_FILE = 20  # open files of an edition have numbers from here on, which no launcher uses
COMMANDS = ("profile", "matrix")  # what not every planner can
COMMAND_SECONDS = 900


@dataclass(frozen=True)
class Sources:
    """The files by their names, the program, and how large its searches may be."""

    program: str
    region: str
    hierarchy: str | None = None
    names: str | None = None
    bounds: Bounds = Bounds()


@dataclass(frozen=True)
class Open:
    """The files of an edition, which stay open: what is put in their places later is another edition's."""

    files: tuple[int, ...]

    @classmethod
    def of(cls, sources: Sources) -> "Open":
        files: list[int] = []
        for path in (sources.region, sources.hierarchy):
            if path is None:
                continue
            try:
                with open(path, "rb") as file:
                    files.append(fcntl.fcntl(file, fcntl.F_DUPFD_CLOEXEC, FIRST_FILE))
            except (OSError, ValueError) as error:
                cls(tuple(files)).close()
                raise NoStart(f"{path}: {getattr(error, 'strerror', None) or error}") from error
        return cls(tuple(files))

    @property
    def region(self) -> str:
        return f"/dev/fd/{self.files[0]}"

    @property
    def hierarchy(self) -> list[str]:
        """The words that name the hierarchy, if there is one."""
        return ["--hierarchy", f"/dev/fd/{self.files[1]}"] if self.files[1:] else []

    def close(self) -> None:
        for file in self.files:
            os.close(file)

    def shown(self, text: str, sources: Sources) -> str:
        """A text for people, with the files by their names."""
        names = dict(zip(map(str, self.files), (sources.region, sources.hierarchy or "")))
        return re.sub(r"/dev/fd/(\d+)", lambda match: names.get(match[1], match[0]), text)


@dataclass
class Edition:
    """A region with all that answers for it."""

    number: int
    sources: Sources
    files: Open
    atlas: Atlas
    teller: Teller
    places: Places
    pool: Pool
    can: frozenset[str]
    map: bytes
    users: int = 0
    is_old: bool = False
    since: float = field(default_factory=time.time)

    async def close(self) -> None:
        await self.pool.close()
        self.files.close()


async def open_edition(number: int, sources: Sources, size: int, limits: Limits, counts: Counts) -> Edition:
    """Reads the region, starts its workers and waits until they have read it too."""
    files = Open.of(sources)
    words = (sources.program, "requests", files.region, "/dev/stdin", *files.hierarchy, *sources.bounds.of_requests)
    pool = Pool(Call(words, files.files), size, limits, counts)
    try:
        await pool.open()
        atlas = await asyncio.to_thread(lambda: Atlas(Region(files.region)))
        names = Names(sources.names)
        places = Places(atlas, names)
        can = await abilities(sources.program, pool)
        told = {"edition": number, "region": _base(sources.region), "hierarchy": _base(sources.hierarchy), "can": sorted(can)}
        packed = await asyncio.to_thread(packed_map, told, atlas, places)
        teller = Teller(atlas, names, sources.bounds.places)
        return Edition(number, sources, files, atlas, teller, places, pool, can, packed)
    except BaseException as error:
        await pool.close()
        files.close()
        if isinstance(error, (NoStart, BadRegion, Fault)):
            raise NoStart(files.shown(str(error), sources)) from error
        raise


def _base(path: str | None) -> str | None:
    """A file's name without its folder."""
    return path and os.path.basename(path)


async def abilities(program: str, pool: Pool) -> frozenset[str]:
    """Which of the commands that not every planner has are there."""
    profile = await pool.ask(b"profile 00:00:01 x", lambda _: True)
    process = await asyncio.create_subprocess_exec(program, "--help", stdin=asyncio.subprocess.DEVNULL,
                                                   stdout=asyncio.subprocess.DEVNULL, stderr=asyncio.subprocess.PIPE)
    async with asyncio.timeout(COMMAND_SECONDS):
        _, said = await process.communicate()
    has = {"profile": b"\nrefused command\n" not in profile, "matrix": re.search(rb"\bmatrix\b", said) is not None}
    return frozenset(name for name in COMMANDS if has[name])


class Editions:
    """The edition in use, those before it that still answer, and the next one while it is made."""

    def __init__(self, sources: Sources, size: int, limits: Limits) -> None:
        self._sources, self._size, self._limits = sources, size, limits
        self.counts = Counts()
        self.current: Edition | None = None
        self.renewed, self.failed = 0, 0
        self._old: set[Edition] = set()
        self._lock = asyncio.Lock()
        self._is_due = False

    async def open(self) -> None:
        """Opens the first edition."""
        self.current = await self._next(1)

    async def _next(self, number: int) -> Edition:
        return await open_edition(number, self._sources, self._size, self._limits, self.counts)

    async def renew(self) -> None:
        """Reads the files anew, and then answers by them; where they are none, all stays as it is."""
        self._is_due = True
        async with self._lock:
            if not self._is_due or self.current is None:
                return
            self._is_due = False
            try:
                edition = await self._next(self.current.number + 1)
            except (NoStart, MemoryError, OSError) as error:
                self.failed += 1
                log.error("the region that was in use stays, since the new one can't be used: %s", error)
                return
            old, self.current = self.current, edition
            self.renewed += 1
            log.warning("edition %d of %s is in use", edition.number, self._sources.region)
            old.is_old = True
            await self._leave(old)

    @contextlib.asynccontextmanager
    async def use(self) -> AsyncIterator[Edition]:
        """The edition for one request, which stays until the request is answered."""
        edition = self.current
        assert edition is not None
        edition.users += 1
        try:
            yield edition
        finally:
            edition.users -= 1
            await self._leave(edition)

    async def _leave(self, edition: Edition) -> None:
        """Closes an edition that is no longer in use."""
        if edition.is_old and edition.users == 0:
            edition.is_old = False
            await edition.close()

    async def close(self) -> None:
        if self.current is not None:
            await self.current.close()
