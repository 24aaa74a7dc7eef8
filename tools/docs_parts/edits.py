"""Wrong bodies: whether each still fits the file of which it replaces a text."""

import pathlib
from collections.abc import Iterator

from .pages import Fault


def unfit(top: pathlib.Path) -> Iterator[Fault]:
    """The texts of edits that do not stand once in their file."""
    for path in sorted(top.glob("crates/*/must-fail/*.edit")):
        yield from unfit_texts(path, str(path.relative_to(top)))


def unfit_texts(path: pathlib.Path, name: str) -> Iterator[Fault]:
    texts: dict[str, str] = {}
    file = old = ""
    for number, line in enumerate(path.read_text().splitlines(), 1):
        key, _, said = line.partition(": ")
        if key == "file":
            file = said
            source = path.parents[1] / file
            texts.setdefault(file, source.read_text() if source.is_file() else "")
        elif key == "old":
            old, count = said, texts[file].count(said)
            if count != 1:
                yield Fault(name, number, f"this text stands {count} times in {file}")
        elif key == "new":
            texts[file] = texts[file].replace(old, said)
