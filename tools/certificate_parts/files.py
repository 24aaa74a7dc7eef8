"""Files that are read whole: to a limit, and not for ever."""

import contextlib
import os
import signal
import stat
from collections.abc import Iterator

from certificate_parts.faults import Fault

MOST = 1 << 30  # bytes of a file, as for modeplan
STREAMED = 1 << 26  # bytes of a pipe or a device
SECONDS = 60  # until the last byte


def read_file(path: str) -> bytes:
    """The bytes of a file, or of a pipe that ends soon."""
    try:
        with _in_time(path), open(path, "rb") as file:
            most = MOST if stat.S_ISREG(os.fstat(file.fileno()).st_mode) else STREAMED
            content = file.read(most + 1)
    except (OSError, ValueError, MemoryError) as error:
        raise Fault(path, getattr(error, "strerror", None) or str(error) or "there is no memory for it") from None
    if len(content) > most:
        raise Fault(path, f"it has more than {most} bytes; a file may have {MOST}, and a pipe {STREAMED}")
    return content


@contextlib.contextmanager
def _in_time(path: str) -> Iterator[None]:
    """Ends what is done with the file when it takes too long."""
    def late(*_: object) -> None:
        raise Fault(path, f"it did not end within {SECONDS} seconds; name a file, or a pipe that somebody writes to")
    before = signal.signal(signal.SIGALRM, late)
    signal.alarm(SECONDS)
    try:
        yield
    finally:
        signal.alarm(0)
        signal.signal(signal.SIGALRM, before)
