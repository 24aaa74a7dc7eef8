"""crates.txt: whether each crate names the libraries that its files name, and no others."""

import pathlib
import re
from collections.abc import Iterator

from .pages import Fault

NAMED = re.compile(r"\bRattle\.(\w+)\.|\b(\w+)::")


def unneeded(top: pathlib.Path) -> Iterator[Fault]:
    """The libraries on a crate's line that no file of the crate names. `rt` itself tells which are missing."""
    listed = top / "crates.txt"
    for number, line in enumerate(listed.read_text().splitlines() if listed.is_file() else [], 1):
        crate, colon, libraries = line.partition("#")[0].partition(":")
        if colon:
            named = names_in(top / "crates" / crate.strip())
            for library in libraries.split():
                if library not in named:
                    yield Fault("crates.txt", number, f"no file of {crate.strip()} names {library}")


def names_in(folder: pathlib.Path) -> set[str]:
    """What the files of a crate may name a library by."""
    named: set[str] = set()
    for part, ending in (("src", "rt"), ("specs", "antt"), ("proofs", "antt")):
        for path in (folder / part).rglob(f"*.{ending}"):
            for page, item in NAMED.findall(path.read_text()):
                named |= {page, item}
    return named
