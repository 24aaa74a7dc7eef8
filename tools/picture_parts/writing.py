"""Files that are written whole, or not at all."""

import os
import tempfile
from collections.abc import Iterable

from .faults import Fault


def write(path: str, parts: Iterable[str]) -> int:
    """Writes the file whole, or not at all: it gets its name when it is complete. Answers its length in bytes."""
    path = os.path.realpath(path)
    if os.path.exists(path) and not os.path.isfile(path):
        raise Fault(path, None, "this is no file that could be written anew")
    try:
        with tempfile.NamedTemporaryFile("w", encoding="utf-8", dir=os.path.dirname(path), prefix=".picture-", delete=False) as file:
            try:
                file.writelines(parts)
                file.flush()
                size = file.tell()
                os.chmod(file.name, 0o666 & ~_mask())
                os.replace(file.name, path)
            except BaseException:
                os.unlink(file.name)
                raise
    except OSError as error:
        raise Fault(path, None, error.strerror or str(error)) from error
    return size


def _mask() -> int:
    """The rights that new files do not get."""
    kept = os.umask(0)
    os.umask(kept)
    return kept
