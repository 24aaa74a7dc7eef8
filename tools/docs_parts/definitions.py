"""The definitions of specs/, and those that stand behind a definition."""

import fnmatch
import pathlib
import re
import subprocess
from collections.abc import Iterable
from typing import NamedTuple

HERE = pathlib.Path(__file__).resolve().parents[2]
HEAD = re.compile(r"^ *(?:abbrev |unfoldable )*pub (?!mod )(?:record |data |unfoldable |abbrev )?([^\s:({]+)")
PRIVATE = re.compile(r"^(?:abbrev|unfoldable) (?!mutual|pub )([^\s:({]+)")
FIELD = re.compile(r"^  pub ")
CONSTRUCTOR = re.compile(r"^  (\w+) : ")
USE = re.compile(r"(?:pub )?use Rattle\.(\w+)\.specs(?:\.([\w.]+?))?(?:\.\{(.*)\}| as (\w+))?$")
# What the page of a folder passes on of the pages in it.
PASSED = re.compile(r"(?:unfoldable )?pub use (\w+)\.\{(.*)\}$")
WORD = re.compile(r"[^\s(){};,λ×.:]+(?:\.[^\s(){};,λ×.:]+)?")
STD = {"std", "core", "logic", "io", "os"}

# Definitions that can be left apart, as CRATE/PAGE.NAME, with what they are about. What spells a text can be judged
# by examples, so those are passed over, and not what they stand on. Zones and places are in no region and no query
# that has none: with them goes what stands behind them alone.
TEXTS = {
    "plain_texts/*": "numbers, names, lines and their spelling",
    "plan_base/LetterNames.*": "the names of letters",
    "plan_base/Modes.mode*": "the modes by their names",
    "geo_length/Degrees.*": "degrees as decimal texts",
    "service_days/Clock.*": "times as clock texts",
    "mode_expression/Tokens.*": "the words of an expression's text",
    "mode_expression/Letters.*": "the names in an expression, and their letters",
    "mode_expression/Grammar.*": "which words are an expression's",
    "mode_expression/Reading.*": "the expression that a text spells, or its fault",
    "region_file/*": "regions as texts and as bytes",
    "run_steps/QueryLines.*": "which lines of a file are query lines",
    "journey/Shapes.[!d]*": "the fields of a query line; all but `departs_at` and its parts: when it departs",
    "journey/Texts.*": "the lines of a block",
    "journey/Blocks.*": "the block of a line",
}
ZONES = {
    "service_days/Zones.zone_days": "the days that a zone rule makes",
}
PLACES = {
    "mode_network/Copies.IsNear*": "the nodes that are nearest to a place",
    "journey/Shapes.place_at": "the place that a text names",
}


class Page(NamedTuple):
    crate: str
    name: str

    def __str__(self) -> str:
        return f"{self.crate}/specs/{self.name}.antt"


class Definition(NamedTuple):
    page: Page
    name: str

    def is_among(self, forms: Iterable[str]) -> bool:
        return any(fnmatch.fnmatchcase(f"{self.page.crate}/{self.page.name}.{self.name}", form) for form in forms)


def kit() -> pathlib.Path | None:
    """The folder of the toolchain's libraries, if its command rt is here."""
    try:
        first = subprocess.run(["rt", "doc"], capture_output=True, text=True, check=True).stdout.strip()
    except (OSError, subprocess.CalledProcessError):
        return None
    return pathlib.Path(first).parent / "rattle"


class Library:
    """The definitions of all crates, and of the ported ones that they name; those of std, and the types of the code
    (`declared`), are none."""

    def __init__(self, top: pathlib.Path = HERE) -> None:
        self.crates = top / "crates"
        self.ported = kit()
        self.uses: dict[Definition, set[str]] = {}
        self.lines: dict[Definition, int] = {}
        self.known: dict[Page, dict[str, Definition | Page]] = {}
        for path in sorted(self.crates.glob("*/specs/**/*.antt")):
            if path.name != "Lib.antt":
                self.open(page_at(path))

    def is_ported(self, crate: str) -> bool:
        return not (self.crates / crate).is_dir()

    def open(self, page: Page) -> dict[str, Definition | Page]:
        """What each word of a page is, by the lines `use` at its head and by its own definitions."""
        if page not in self.known:
            self.known[page] = {}
            path = self.path_of(page)
            if path:
                self.read(page, path.read_text().splitlines())
        return self.known[page]

    def path_of(self, page: Page) -> pathlib.Path | None:
        folder = self.ported if self.is_ported(page.crate) else self.crates
        path = folder and folder / page.crate / "specs" / f"{page.name}.antt"
        return path if path and path.is_file() else None

    def read(self, page: Page, lines: Iterable[str]) -> None:
        known, current, is_record = self.known[page], None, False
        for line in lines:
            code = line.split("--")[0].rstrip()
            if not code:
                current = current if line.strip() and is_record else None
            elif used := USE.match(code):
                self.enter(known, used)
            elif passed := PASSED.match(code):
                self.pass_on(page, passed)
            else:
                head = HEAD.match(code) or PRIVATE.match(code)
                if head and not (current and is_record and FIELD.match(code)):
                    current, is_record = Definition(page, head[1]), " record " in code
                    self.uses[current], self.lines[current] = set(), 0
                    for name in names_of(head[1]):
                        known[name] = current
                if current:
                    self.add(current, code, known, is_record)

    def add(self, current: Definition, code: str, known: dict, is_record: bool) -> None:
        self.uses[current] |= set(WORD.findall(code))
        self.lines[current] += 1
        built = CONSTRUCTOR.match(code)
        if built and not is_record:
            known[built[1]] = current

    def enter(self, known: dict, used: re.Match) -> None:
        crate, name, names, alias = used.groups(default="")
        if crate in STD or name.split(".")[0] == "declared":
            return
        page = Page(crate, name.replace(".", "/") or "Lib")
        bring(known, page, names)
        if alias:
            known[alias] = page

    def pass_on(self, folder: Page, passed: re.Match) -> None:
        name, names = passed.groups()
        bring(self.known[folder], Page(folder.crate, name if folder.name == "Lib" else f"{folder.name}/{name}"), names)

    def found(self, definition: Definition | Page | None) -> Definition | None:
        """Where a word is defined that a page names, which may have it from another page."""
        while isinstance(definition, Definition) and definition not in self.uses:
            further = self.open(definition.page).get(names_of(definition.name)[0])
            definition = further if further != definition or definition in self.uses else None
        return definition if isinstance(definition, Definition) else None

    def behind(self, starts: Iterable[Definition], without: Iterable[str] = ()) -> set[Definition]:
        """All definitions that stand behind some, and these themselves; but for those of some forms, and what stands
        behind them alone."""
        behind: set[Definition] = set()
        todo = list(starts)
        while todo:
            one = todo.pop()
            if one in behind or one.is_among(without):
                continue
            behind.add(one)
            todo += filter(None, map(self.found, self.named(one)))
        return behind

    def named(self, one: Definition) -> Iterable[Definition | Page | None]:
        known = self.known[one.page]
        for word in self.uses[one]:
            front, _, last = word.partition(".")
            of_front = known.get(front)
            if isinstance(of_front, Page):
                yield Definition(of_front, last)
            else:
                yield from (known.get(part) for part in {word, front, last})

    def of(self, name: str) -> set[Definition]:
        """The definitions that CRATE.NAME names."""
        crate, _, last = name.partition(".")
        return {one for one in self.uses if one.page.crate == crate and one.name == last}

    def count(self, found: set[Definition]) -> str:
        pages = len({one.page for one in found})
        return f"{len(found)} definitions on {pages} pages, {sum(self.lines[one] for one in found)} lines"


def bring(known: dict[str, Definition | Page], page: Page, names: str) -> None:
    """Enters names of a page, or of pages below it, as `Page.name`, by the words that stand for them."""
    for item in names.split(", "):
        path, _, other = item.strip().partition(" as ")
        below, _, plain = path.rpartition(".")
        if below.split(".")[0] != "declared":
            home = Page(page.crate, below.replace(".", "/")) if below else page
            for word in names_of(other or plain):
                known[word] = Definition(home, plain)


def page_at(path: pathlib.Path) -> Page:
    parts = path.with_suffix("").parts
    at = len(parts) - 1 - parts[::-1].index("specs")
    return Page(parts[at - 1], "/".join(parts[at + 1:]))


def names_of(name: str) -> list[str]:
    """The words by which a definition is named: `◌⊎◌` by its sign alone."""
    return [part for part in name.split("◌") if part] or [name]
