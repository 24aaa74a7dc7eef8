"""The calls that are mutated: the words of a command, and the files that they name."""

import dataclasses
import pathlib
import subprocess
from collections.abc import Iterator

# The outcomes that a command may end with where its files are there, as docs/COMMANDS.md and docs/BOOK.md have them.
REGION, HIERARCHY, CERTIFICATE, MEMORY = {7}, {9, 10}, {11, 12}, {13}
STATUSES = {
    "compile": {8} | MEMORY,
    "migrate": REGION | MEMORY,
    "contract": REGION | MEMORY,
    "check": REGION | HIERARCHY | MEMORY,
    "answer": REGION | HIERARCHY | MEMORY,
    "few": REGION | MEMORY,
    "latest": REGION | MEMORY,
    "profile": REGION | MEMORY,
    "matrix": REGION | HIERARCHY | MEMORY,
    "requests": REGION | HIERARCHY | MEMORY,
    "certify": REGION | HIERARCHY | MEMORY,
    "verify": REGION | HIERARCHY | CERTIFICATE | MEMORY,
    "certify-latest": REGION | MEMORY,
    "verify-latest": REGION | CERTIFICATE | MEMORY,
    "keep": REGION | CERTIFICATE | MEMORY | {14},
    "recheck": REGION | MEMORY | {14},
    "review": REGION | MEMORY | {14},
    "list": MEMORY | {14},
    "show": MEMORY | {14, 15},
    "drop": MEMORY | {14, 15},
}
MOST_LINES = 3  # query lines of an example that get certificates
MOST_BYTES = 60_000  # examples with a larger region take too long for many runs


@dataclasses.dataclass(frozen=True)
class Call:
    """A command with its words, of which `{name}` stands for the path of a file, and the bytes of these files."""

    command: str
    words: tuple[str, ...]
    files: dict[str, bytes]
    of_book: bool = False

    def statuses(self) -> set[int]:
        return {0} | STATUSES[self.command]


class Program:
    """A proved program, asked for files to begin with."""

    def __init__(self, path: str, folder: pathlib.Path) -> None:
        self.path, self._folder = path, folder

    def out(self, *words: str, **files: bytes) -> bytes:
        """What a call writes that must do its work."""
        for name, text in files.items():
            (self._folder / name).write_bytes(text)
        paths = {name: str(self._folder / name) for name in files}
        run = subprocess.run([self.path, *(word.format(**paths) for word in words)], capture_output=True, check=True)
        return run.stdout


def calls(examples: pathlib.Path, program: Program, book: str | None, folder: pathlib.Path) -> list[Call]:
    """The calls over the examples that are small enough, with what the programs make of them."""
    found = []
    for example in sorted(path for path in examples.iterdir() if (path / "region").exists()):
        region = (example / "region").read_bytes()
        if len(region) <= MOST_BYTES:
            found += _of_region(region, (example / "queries").read_bytes(), program)
        found += [_compile(example) for map_file in example.glob("map.opl") if map_file.stat().st_size <= MOST_BYTES]
    return found + (list(_of_book(examples / "foot-town", program, book, folder)) if book else [])


def _of_region(region: bytes, queries: bytes, program: Program) -> Iterator[Call]:
    """All commands over a region, in both formats, and a file of queries."""
    bytewise = program.out("migrate", "{region}", region=region)
    hierarchy = program.out("contract", "{region}", region=region)
    over = {"region": region, "hierarchy": hierarchy}
    for form in (region, bytewise):
        yield Call("answer", ("answer", "{region}", "{queries}"), {"region": form, "queries": queries})
        yield Call("migrate", ("migrate", "{region}", "--format", "1"), {"region": form})
    for command in ("few", "latest", "profile"):
        yield Call(command, (command, "{region}", "{queries}"), {"region": region, "queries": queries})
    yield Call("contract", ("contract", "{region}", "--keep", "1"), {"region": region})
    yield Call("check", ("check", "{region}", "{hierarchy}"), over)
    yield Call("answer", ("answer", "{region}", "{queries}", "--hierarchy", "{hierarchy}"), {**over, "queries": queries})
    lines = [line for line in queries.decode().splitlines() if line and not line.startswith("#")]
    asked = {**over, "requests": _requests(lines)}
    for limits in ((), ("--places", "3", "--labels", "20")):
        yield Call("requests", ("requests", "{region}", "{requests}", "--hierarchy", "{hierarchy}", *limits), asked)
    yield _matrix(lines, over)
    for line in lines[:MOST_LINES]:
        yield from _of_line(line, region, hierarchy, program)


def _requests(lines: list[str]) -> bytes:
    """Each query line behind the name of a command, of all in turn and of none."""
    commands = ("answer", "few", "latest", "profile 02:00:00", "certify", "certify-latest", "none")
    return "".join(f"{commands[place % len(commands)]} {line}\n" for place, line in enumerate(lines)).encode()


def _matrix(lines: list[str], over: dict[str, bytes]) -> Call:
    """A table from all places where query lines begin to all where they end, by the last line's date, time and expression."""
    fields = [line.split(" ", 4) for line in lines if line.count(" ") >= 4]
    files = {"from": "".join(field[0] + "\n" for field in fields), "to": "".join(field[1] + "\n" for field in fields)}
    asked = [word.replace("{", "{{").replace("}", "}}") for word in fields[-1][2:]]
    words = ("matrix", "{region}", "{from}", "{to}", *asked, "--hierarchy", "{hierarchy}")
    return Call("matrix", words, {**over, **{name: text.encode() for name, text in files.items()}})


def _of_line(line: str, region: bytes, hierarchy: bytes, program: Program) -> Iterator[Call]:
    """The certificates of a query line, made and verified."""
    over = {"region": region, "hierarchy": hierarchy}
    word = line.replace("{", "{{").replace("}", "}}")
    yield Call("certify", ("certify", "{region}", word), {"region": region})
    yield Call("certify-latest", ("certify-latest", "{region}", word), {"region": region})
    plain = program.out("certify", "{region}", word, region=region)
    phases = program.out("certify", "{region}", word, "--hierarchy", "{hierarchy}", **over)
    late = program.out("certify-latest", "{region}", word, region=region)
    yield Call("verify", ("verify", "{region}", "{certificate}"), {"region": region, "certificate": plain})
    words = ("verify", "{region}", "{certificate}", "--hierarchy", "{hierarchy}")
    yield Call("verify", words, {**over, "certificate": phases})
    yield Call("verify-latest", ("verify-latest", "{region}", "{certificate}"), {"region": region, "certificate": late})


def _compile(example: pathlib.Path) -> Call:
    """The region of an example's map and feed."""
    tables = {f"feed/{path.name}": path.read_bytes() for path in sorted((example / "feed").iterdir())}
    words = ("compile", "{map}", "{feed}", "20240701", "1")
    return Call("compile", words, {"map": (example / "map.opl").read_bytes(), **tables})


def _of_book(example: pathlib.Path, program: Program, book: str, folder: pathlib.Path) -> Iterator[Call]:
    """The commands of the book: over a certificate with a book in memory, and over the file of a book."""
    region = (example / "region").read_bytes()
    line = next(line for line in (example / "queries").read_text().splitlines() if line and not line.startswith("#"))
    certificate = program.out("certify", "{region}", line, region=region)
    files = {"region": region, "certificate": certificate}
    yield Call("keep", ("-", "keep", "a", "{region}", "{certificate}"), files, True)
    for name, text in files.items():
        (folder / name).write_bytes(text)
    kept = folder / "kept"
    for name in ("first", "second"):
        words = [book, kept, "keep", name, folder / "region", folder / "certificate"]
        subprocess.run(words, capture_output=True, check=True)
    held = kept.read_bytes()
    for words in (("list",), ("show", "first"), ("drop", "second"), ("recheck", "{region}"), ("review", "{region}")):
        yield Call(words[0], ("{book}", *words), {"book": held, "region": region}, True)
