"""The examples: whether the copies that the gate answers are as they are."""

import pathlib
from collections.abc import Iterator

from .pages import Fault

COPIES = pathlib.Path("crates/run_cases/data")


def unlike(top: pathlib.Path) -> Iterator[Fault]:
    """The files of examples/ that have no copy with the same bytes in run_cases's data, and the other way around."""
    for example in sorted(path for path in (top / "examples").glob("*/") if path.is_dir()):
        copy = top / COPIES / example.name
        for name in sorted({path.relative_to(folder) for folder in (example, copy) for path in folder.rglob("*") if path.is_file()}):
            if not alike(example / name, copy / name):
                yield Fault(f"examples/{example.name}/{name}", 1, f"{COPIES / example.name / name} is no copy of it")


def alike(one: pathlib.Path, other: pathlib.Path) -> bool:
    return one.is_file() and other.is_file() and one.read_bytes() == other.read_bytes()
