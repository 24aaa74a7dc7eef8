"""Pages of Markdown: their fenced blocks, their tables, and what they name in code."""

import pathlib
import re
from collections.abc import Iterator
from typing import NamedTuple

SPAN = re.compile(r"(?<!`)`([^`]+)`(?!`)")
LINK = re.compile(r"\]\(([^)\s]+)\)")
MARK = re.compile(r"<!-- (.*) -->$")
# The page that tells of runs in the past.
MEASURED = "docs/BENCHMARKS.md"


class Fault(NamedTuple):
    page: str
    line: int
    says: str

    def __str__(self) -> str:
        return f"{self.page}:{self.line}: {self.says}"


class Span(NamedTuple):
    """What stands in code, with the text before it, as far as the span before."""
    line: int
    text: str
    before: str


class Fence(NamedTuple):
    """A fenced block: the line at which it opens, its language, the comment above it, and how many paragraphs stand
    between it and the block before it, or None where a heading does."""
    line: int
    language: str
    mark: str
    parted: int | None
    lines: list[str]


class Table(NamedTuple):
    """The line of a table's header, the comment above it, and its lines."""
    line: int
    mark: str
    lines: list[str]

    def rows(self) -> Iterator[tuple[int, list[str]]]:
        """The line and the cells of each row, from the header on."""
        for at, line in enumerate(self.lines):
            if at != 1:
                yield self.line + at, [cell.strip() for cell in re.split(r"(?<!\\)\|", line)[1:-1]]


class Page:
    def __init__(self, top: pathlib.Path, name: str) -> None:
        self.name, self.path = name, top / name
        self.fences: list[Fence] = []
        self.tables: list[Table] = []
        self.paragraphs: list[tuple[int, str]] = []
        self.read(self.path.read_text().splitlines())

    def read(self, lines: list[str]) -> None:
        at, parted, mark = 0, None, ""
        while at < len(lines):
            line, end = lines[at], at + 1
            if line.startswith("```"):
                end = next(n for n in range(at + 1, len(lines)) if lines[n].startswith("```"))
                self.fences.append(Fence(at + 1, line[3:].strip(), mark, parted, lines[at + 1:end]))
                end, parted = end + 1, 0
            elif line.startswith("|"):
                end = next((n for n in range(at, len(lines)) if not lines[n].startswith("|")), len(lines))
                self.tables.append(Table(at + 1, mark, lines[at:end]))
                parted = None
            elif line.startswith("#"):
                parted = None
            elif line.strip() and not MARK.match(line):
                end = next((n for n in range(at, len(lines)) if not lines[n].strip() or lines[n].startswith(("```", "|"))), len(lines))
                self.paragraphs.append((at + 1, "\n".join(lines[at:end])))
                parted = None if parted is None else parted + 1
            mark = found[1] if (found := MARK.match(line)) else mark if not line.strip() else ""
            at = end

    def texts(self) -> Iterator[tuple[int, str]]:
        """Each paragraph and each row of a table, with its line."""
        yield from self.paragraphs
        for table in self.tables:
            yield from ((table.line + at, line) for at, line in enumerate(table.lines))

    def links(self) -> Iterator[tuple[int, str]]:
        for line, text in self.texts():
            for found in LINK.finditer(text):
                yield line + text.count("\n", 0, found.start()), found[1]


def spans(line: int, text: str) -> list[Span]:
    """What stands in code in a text that begins at a line."""
    found, end = [], 0
    for span in SPAN.finditer(text):
        found.append(Span(line + text.count("\n", 0, span.start()), " ".join(span[1].split()), " ".join(text[end:span.start()].split())))
        end = span.end()
    return found


def pages(top: pathlib.Path) -> list[Page]:
    names = ["README.md", "CONTRIBUTING.md", *sorted(f"docs/{path.name}" for path in (top / "docs").glob("*.md"))]
    return [Page(top, name) for name in names if (top / name).is_file()]
