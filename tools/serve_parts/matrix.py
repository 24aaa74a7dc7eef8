"""Tables of times: `modeplan matrix` is called for each, and its rows are handed on as they come.

The program runs as fast as it can, and not as fast as the client reads: so a slow client keeps no other from a table.
"""

import asyncio
import contextlib
import json
import os
import signal
import tempfile
from collections.abc import AsyncGenerator
from dataclasses import dataclass

from picture_parts.faults import printed

from .asked import CONTROL, parameters
from .editions import Open, Sources
from .problems import Problem
from .workers import PIECE

AT_A_TIME = 2  # tables that are made at the same time
SECONDS = 120.0  # in which a table must be made
WANTED = 'the body is JSON, {"from": [..], "to": [..]}, with lists of places as a query has them'


@dataclass(frozen=True)
class Table:
    """What a table is asked for: places as lines, and the rest of the query."""

    froms: list[str]
    tos: list[str]
    rest: tuple[str, str, str]


def table_of(query: str, body: bytes, cells: int) -> Table:
    """The table that a request asks for, of at most so many cells."""
    rest = parameters(query, ("date", "time", "expr"))
    try:
        found = json.loads(body)
        froms, tos = _places(found["from"]), _places(found["to"])
    except (ValueError, KeyError, TypeError, RecursionError):
        raise Problem(400, WANTED) from None
    if len(froms) * len(tos) > cells:
        raise Problem(413, f"a table has at most {cells} cells")
    return Table(froms, tos, (rest["date"], rest["time"], rest["expr"]))


def _places(found: object) -> list[str]:
    """A list of lines that are places, and no comments."""
    if not isinstance(found, list) or not found or not all(isinstance(place, str) for place in found):
        raise ValueError
    if any(CONTROL.search(place) or place.startswith("#") or not place for place in found):
        raise ValueError
    return found


def _file_of(lines: list[str]):
    """An open file without a name that has these lines."""
    file = tempfile.TemporaryFile()
    file.write("".join(line + "\n" for line in lines).encode("utf-8", "surrogateescape"))
    file.flush()
    return file


async def pieces(sources: Sources, files: Open, table: Table, slots: asyncio.Semaphore) -> AsyncGenerator[bytes, None]:
    """Pieces of the table, as the program writes them."""
    made: asyncio.Queue[bytes | None] = asyncio.Queue()
    maker = asyncio.create_task(_make(sources, files, table, slots, made))
    try:
        while (piece := await made.get()) is not None:
            yield piece
        await maker
    finally:
        maker.cancel()
        await asyncio.wait({maker})


async def _make(sources: Sources, files: Open, table: Table, slots: asyncio.Semaphore, made: asyncio.Queue) -> None:
    try:
        async with slots, asyncio.timeout(SECONDS):
            await _run(sources, files, table, made)
    except TimeoutError:
        raise Problem(504, f"the table was not made within {SECONDS:g} seconds") from None
    finally:
        made.put_nowait(None)


async def _run(sources: Sources, files: Open, table: Table, made: asyncio.Queue) -> None:
    with _file_of(table.froms) as froms, _file_of(table.tos) as tos:
        names = [f"/dev/fd/{file.fileno()}" for file in (froms, tos)]
        process = await asyncio.create_subprocess_exec(
            sources.program, "matrix", *files.hierarchy, *sources.bounds.of_tables, "--", files.region, *names, *table.rest,
            stdin=asyncio.subprocess.DEVNULL, stdout=asyncio.subprocess.PIPE, stderr=asyncio.subprocess.PIPE, start_new_session=True,
            pass_fds=(*files.files, froms.fileno(), tos.fileno()))
        try:
            said, status = await _read(process, made)
        finally:
            if process.returncode is None:
                with contextlib.suppress(ProcessLookupError):
                    os.killpg(process.pid, signal.SIGKILL)
    if status == 2:
        raise Problem(400, "the planner takes no such words; they must be UTF-8")
    if status != 0:
        raise Problem(502, f"the planner ended: {printed(said.decode('utf-8', 'replace').strip())[-300:]}")


async def _read(process: asyncio.subprocess.Process, made: asyncio.Queue) -> tuple[bytes, int]:
    """Reads what the program writes to its end; answers what it says to people, and its status."""
    assert process.stdout is not None and process.stderr is not None
    notes = asyncio.create_task(process.stderr.read())
    try:
        while piece := await process.stdout.read(PIECE):
            made.put_nowait(piece)
        return await notes, await process.wait()
    finally:
        notes.cancel()
