"""The help of a program, read from what it says: `--help`, and of each of its commands `COMMAND --help`."""

import dataclasses
import re
import subprocess

HEAD = re.compile(r"(Usage|Commands|Arguments|Options|Example): ?(.*)")
ROW = re.compile(r"  +(\S.*?)(?:  +(\S.*))?")


@dataclasses.dataclass(frozen=True)
class Row:
    """A word, an option or a command, and what is said of it. An option's spellings are such as `-h` and `--help`; its
    value is the name of what it takes, or empty."""

    name: str
    says: str

    def spellings(self) -> list[str]:
        return [part.split(" ")[0] for part in self.name.split(", ")]

    def value(self) -> str:
        return self.name.partition("<")[2].partition(">")[0]


@dataclasses.dataclass(frozen=True)
class Command:
    """A command, or the program itself, with its usage, words, options and an example; `commands` are those of the program,
    and `more` is what it says below."""

    name: str
    about: str
    usage: str
    arguments: list[Row]
    options: list[Row]
    example: str
    commands: list[Row]
    more: str


def read_help(text: str, name: str) -> Command:
    """The help of a command, as clap lays it out: sections with a head each, whose rows have two columns."""
    about, rest = text.split("\n\n", 1)
    found: dict[str, str] = {"Usage": "", "Example": ""}
    rows: dict[str, list[Row]] = {"Commands": [], "Arguments": [], "Options": []}
    more, section = [], ""
    for line in rest.splitlines():
        head = HEAD.fullmatch(line)
        row = ROW.fullmatch(line)
        if head:
            section = head[1]
            found[section] = head[2]
        elif section in rows and row:
            rows[section].append(Row(row[1], row[2] or ""))
        elif line and section in ("Options", "Example"):
            more.append(line)
    return Command(name, about.strip(), found["Usage"], rows["Arguments"], rows["Options"], found["Example"],
                   rows["Commands"], "\n".join(more))


class Program:
    """A program that says what its commands are."""

    def __init__(self, path: str, name: str, before: tuple[str, ...] = ()) -> None:
        """`before` are words that stand before a command, as the name of a book."""
        self.name, self.path = name, path
        self.whole = read_help(self._says("--help"), name)
        self.version = self._says("--version").split()[1]
        self.commands = [read_help(self._says(*before, row.name, "--help"), row.name)
                         for row in self.whole.commands if row.name != "help"]

    def _says(self, *words: str) -> str:
        """What the program says of itself, on standard error, with the status of a faulty call."""
        run = subprocess.run([self.path, *words], capture_output=True, text=True, check=False)
        if run.returncode != 2 or not run.stderr:
            raise SystemExit(f"manual: {self.path} {' '.join(words)} tells no help; it ended with status {run.returncode}")
        return run.stderr
