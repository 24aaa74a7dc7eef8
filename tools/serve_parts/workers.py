"""A resident program: `modeplan requests`, which is asked line by line through a pipe.

A reply ends with the line `end`, and no other line of it is `end`; it comes before the next line is read. So one worker has one
request at a time, and whatever else it says means that it is broken.
"""

import asyncio
import contextlib
import os
import signal
from dataclasses import dataclass

from picture_parts.faults import printed

END = b"\nend\n"
PIECE = 1 << 16
PROBE = b"ready"
UNKNOWN = b"query %b\nrefused command\nend\n"
END_SECONDS = 5.0  # until a program that was killed must be gone
NOTES = 1_000  # bytes that are kept of what a program says to people


class Lost(Exception):
    """The program died, or said what is no reply: what is known of it."""


class Unasked(Lost):
    """The program had died before it could be asked."""


@dataclass(frozen=True)
class Call:
    """How the program is called: its words, and the open files that it reads by their numbers."""

    words: tuple[str, ...]
    files: tuple[int, ...]


class Worker:
    """A program that waits for a line, or answers one."""

    def __init__(self, process: asyncio.subprocess.Process, pipe: int) -> None:
        self._process, self._pipe = process, pipe
        self._notes = b""
        self._listener = asyncio.create_task(self._listen())
        self.busy = False

    @classmethod
    async def start(cls, call: Call) -> "Worker":
        """Starts the program. It is not said that it has read its region: `greet` waits for that."""
        out, pipe = os.pipe()
        os.set_blocking(pipe, False)
        begun = asyncio.create_task(asyncio.create_subprocess_exec(
            *call.words, stdin=out, stdout=asyncio.subprocess.PIPE, stderr=asyncio.subprocess.PIPE, pass_fds=call.files,
            start_new_session=True))
        try:
            return cls(await asyncio.shield(begun), pipe)
        except OSError as error:
            os.close(pipe)
            raise Lost(f"{printed(call.words[0])}: {error.strerror}") from error
        except asyncio.CancelledError:  # a start that is broken off may never end in Python 3.11, so it is awaited
            await cls(await begun, pipe).end()
            raise
        finally:
            os.close(out)

    @property
    def pid(self) -> int:
        return self._process.pid

    async def greet(self) -> None:
        """Waits until the program has read its files and answers."""
        if await self.ask(PROBE, len(PROBE) + 64) != UNKNOWN % PROBE:
            self.kill()
            raise Lost("the program doesn't reply as `modeplan requests` does")

    async def ask(self, line: bytes, most: int) -> bytes | None:
        """The reply to a line, which has no line feed; None where it has more bytes than this. Whatever else happens ends the program."""
        self.busy = True
        try:
            return await self._reply(line, most)
        except BaseException:
            self.kill()
            raise
        finally:
            self.busy = False

    async def _reply(self, line: bytes, most: int) -> bytes | None:
        await self._write(line + b"\n")
        assert self._process.stdout is not None
        reply, is_long = bytearray(), False
        while not reply.endswith(END):
            piece = await self._process.stdout.read(PIECE)
            if not piece:
                raise Lost(await self.last_words())
            reply += piece
            if len(reply) > most:
                is_long = True
                del reply[:-len(END)]
        return None if is_long else bytes(reply)

    async def _write(self, line: bytes) -> None:
        """Writes the line, for which the pipe has room: the program has read all lines before it."""
        try:
            written = os.write(self._pipe, line)
        except OSError as error:
            raise Unasked(await self.last_words()) from error
        if written != len(line):
            raise Lost("the program doesn't read on")

    async def _listen(self) -> None:
        """Keeps the last of what the program says to people."""
        assert self._process.stderr is not None
        while piece := await self._process.stderr.read(PIECE):
            self._notes = (self._notes + piece)[-NOTES:]

    async def last_words(self) -> str:
        """What a program that ended said at last."""
        await asyncio.wait({self._listener}, timeout=1)
        lines = self._notes.decode("utf-8", "replace").splitlines()
        return " / ".join(printed(line) for line in lines[-3:]) or "the program ended, and said nothing"

    async def gone(self) -> None:
        """Waits until the program has ended."""
        await self._process.wait()

    def kill(self) -> None:
        """Ends the program and what it started, at once."""
        self.leave()
        if self._process.returncode is None:
            with contextlib.suppress(ProcessLookupError, PermissionError):
                os.killpg(self._process.pid, signal.SIGKILL)

    async def end(self) -> None:
        """Ends the program, and waits until it is gone."""
        self.kill()
        gone = asyncio.create_task(self.gone())
        await asyncio.wait({gone, self._listener}, timeout=END_SECONDS)

    def leave(self) -> None:
        """Closes the pipe: the program ends when it has answered what it was asked."""
        if self._pipe >= 0:
            os.close(self._pipe)
            self._pipe = -1
