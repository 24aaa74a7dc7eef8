"""Whether what a page names is there: files and folders, crates, and what stands in crates."""

import functools
import pathlib
import re
from collections.abc import Iterable, Iterator

from .definitions import kit
from .pages import MEASURED, Fault, Page, Span, Table, spans

ITEM = re.compile(r"\b(?:fn|struct|enum|trait|type|const|static|mod|ghost|ensures|requires|let|macro_rules!) +(\w+)")
FIELD = re.compile(r"^ *(?:pub )?(\w+)(?:: |,$| \{$|\()", re.M)
HEAD = re.compile(r"^ *(?:abbrev |unfoldable )*pub (?:record |data )?([^\s:({]+)|^ +(\w+) : ", re.M)
IDENTIFIER = re.compile(r"^[A-Za-z_]\w*(?:(?:::|\.)[A-Za-z_]\w*)*$")
PATH = re.compile(r"^[\w.*<>-]+(?:/[\w.*-]+)*/?$")
PARTS = {"specs", "src", "proofs", "must-fail", "data"}
FILES = (".md", ".antt", ".rt", ".py", ".rs")
JOINS = re.compile(r"^(?:\([^()]*\))?,? ?(?:and|or|with)?$")


class Repository:
    """What there is to be named."""

    def __init__(self, top: pathlib.Path) -> None:
        self.top = top
        self.crates = {path.name for path in (top / "crates").iterdir() if (path / "src").is_dir()}
        self.files = [path for path in top.rglob("*") if ".git" not in path.parts and "out" not in path.parts]

    @functools.cache
    def text(self, crate: str) -> str:
        """All code and all definitions of a crate."""
        folder = self.top / "crates" / crate
        return "\n".join(path.read_text() for part in ("src", "specs") for path in sorted((folder / part).rglob("*.*")))

    @functools.cache
    def names(self, crate: str) -> set[str]:
        """What is defined in a crate: items, fields, variants, clauses, and the definitions of specs/."""
        text = self.text(crate)
        heads = (head for pair in HEAD.findall(text) for head in pair)
        return {*ITEM.findall(text), *FIELD.findall(text), *heads, *(path.stem for path in self.within(crate))}

    @functools.cache
    def clauses(self, crate: str, function: str) -> set[str]:
        """The names of the clauses of all functions of this name in a crate."""
        contracts = re.findall(rf"\bfn {function}\b[^{{;]*?\)(.*?)(?:^ *{{|;$)", self.text(crate), re.M | re.S)
        return {name for contract in contracts for name in re.findall(r"^ +ensures (\w+) ", contract, re.M)}

    def has_function(self, crate: str, name: str) -> bool:
        return bool(re.search(rf"\bfn {re.escape(name)}\b", self.text(crate)))

    def within(self, crate: str) -> Iterator[pathlib.Path]:
        return (path for path in (self.top / "crates" / crate).rglob("*"))

    @functools.cache
    def words(self) -> set[str]:
        """All words of the sources and of the tools."""
        return self.crates.union(*(words_in(path) for name in ("crates", "tools", "bench", "examples")
                                   for path in (self.top / name).rglob("*") if path.is_file() and "out" not in path.parts))

    @functools.cache
    def words_of_kit(self) -> set[str]:
        """The names of the toolchain's libraries, and all words of std."""
        folders = list(ported.iterdir()) if (ported := kit()) else []
        return {folder.name for folder in folders}.union(*(words_in(path) for folder in folders if folder.name.startswith(("std", "core", "logic"))
                                                           for path in folder.rglob("*") if path.is_file()))

    def knows(self, word: str) -> bool:
        return word in self.words() or word in self.words_of_kit()

    def has(self, path: str, crates: Iterable[str]) -> bool:
        """Whether a page may name this as a file or a folder: from the top, beside the pages, or in one of the crates."""
        plain = path.rstrip("/")
        for wanted in (plain, re.sub(r"\b[A-Z][A-Z_-]*\b", "*", plain)):
            ways = [wanted, f"docs/{wanted}", f"crates/{wanted}"]
            ways += [f"crates/{crate}/{part}{wanted}" for crate in crates for part in ("", "src/", "src/**/", "specs/", "proofs/", "proofs/**/")]
            if any(next(self.top.glob(way + ending), None) for way in ways for ending in ("", ".antt", ".rt")):
                return True
        return False


class Names:
    """Looks through the pages for names of what is not there."""

    def __init__(self, top: pathlib.Path) -> None:
        self.repository = Repository(top)

    def faults(self, page: Page) -> Iterator[Fault]:
        for line, target in page.links():
            if not re.match(r"\w+:|#", target) and not (page.path.parent / target.split("#")[0]).exists():
                yield Fault(page.name, line, f"the link leads to {target}, which is not there")
        for line, text in page.texts():
            yield from self.of_text(page, line, text)
        for table in page.tables:
            yield from self.of_table(page, table)

    def of_text(self, page: Page, line: int, text: str) -> Iterator[Fault]:
        found = spans(line, text)
        fronts = {part for span in found for part in span.text.split("/")[:2]}
        crates = sorted(fronts & self.repository.crates)
        for span in found:
            word = span.text.split()[0]
            if self.is_file(word):
                if not self.repository.has(word, self.repository.crates if word.split("/")[0] == "must-fail" else crates or self.repository.crates):
                    yield Fault(page.name, span.line, f"{word} is not there" + (f", nor in {' or '.join(crates)}" if crates else ""))
            elif page.name != MEASURED and IDENTIFIER.match(span.text) and re.search(r"^[^_].*_|[a-z][A-Z]|::", span.text):
                yield from self.unknown(page, span)
        for span, crate in tied(found, self.repository.crates):
            if not self.is_file(span.text):
                yield from self.missing(page, span, crate)

    def is_file(self, word: str) -> bool:
        """Whether a word looks like the path of a file or folder of the repository."""
        if not PATH.match(word) or word.endswith("..") or word.startswith(("./", "-")) or "/out" in word:
            return False
        front = word.split("/")[0]
        return word.endswith(FILES) or "/" in word and (front in PARTS or front in self.repository.crates or (self.repository.top / front).is_dir())

    def unknown(self, page: Page, span: Span) -> Iterator[Fault]:
        for part in re.split(r"::|\.", span.text):
            if not self.repository.knows(part) and not any(part in line for fence in page.fences for line in fence.lines):
                yield Fault(page.name, span.line, f"`{span.text}`: nothing in the sources is called {part}")
        front, _, rest = span.text.partition("::")
        if rest and front in self.repository.crates:
            yield from self.missing(page, span._replace(text=rest), front)

    def missing(self, page: Page, span: Span, crate: str) -> Iterator[Fault]:
        """A name that a page says is of a crate, and is not defined there."""
        for part in re.split(r"::|\.", span.text):
            if IDENTIFIER.match(span.text) and part not in self.repository.names(crate):
                yield Fault(page.name, span.line, f"`{span.text}`: {crate} defines no {part}")

    def of_table(self, page: Page, table: Table) -> Iterator[Fault]:
        rows = list(table.rows())
        head = rows[0][1]
        crates: list[str] = []
        calls: list[str] = []
        for line, cells in rows[1:]:
            named = [span.text for span in spans(line, cells[0])]
            if head[0] == "Crate":
                crates = named or crates
                if page.name != MEASURED:
                    yield from (Fault(page.name, line, f"there is no crate {crate}") for crate in named if crate not in self.repository.crates)
                if head[-1] == "Clause":
                    yield from self.of_clauses(page, line, cells, crates)
            elif head[0] == "Call" and len(cells) > 1:
                crates = [name.split("::")[0] for name in named if name.split("::")[0] in self.repository.crates] or crates
                calls = [name.split("::")[-1] for name in named] or calls
                yield from self.of_clauses(page, line, [cells[0], "", cells[1]], crates)
                yield from self.of_call(page, line, cells[1], calls)
        yield from self.of_definitions(page, head, rows[1:])
        if head[:2] == ["Crate", "Stands on"]:
            told = {span.text for _, cells in rows[1:] for span in spans(0, cells[0])}
            for crate in sorted(self.repository.crates - told):
                yield Fault(page.name, table.line, f"the table has no row for {crate}")

    def of_definitions(self, page: Page, head: list[str], rows: list[tuple[int, list[str]]]) -> Iterator[Fault]:
        """What a table with the head "Definition" names is on the page of the column "In", or in the crate that the head names."""
        for at, title in enumerate(head):
            crate, file = re.search(r"^Definition, of `(\w+)`", title), None
            for line, cells in rows:
                names = [span for span in spans(line, cells[at]) if IDENTIFIER.match(span.text) and not span.before.endswith("std's")]
                if crate:
                    for span in names:
                        yield from self.missing(page, span, crate[1])
                elif title == "Definition" and "In" in head and "`" in cells[at]:
                    file = next((span.text for span in spans(line, cells[head.index("In")])), file)
                    path = self.repository.top / "crates" / (file or "")
                    if path.is_file():
                        yield from (Fault(page.name, line, f"{file} defines no {span.text}") for span in names
                                    if not re.search(rf"\b{span.text}\b", path.read_text()))

    def of_call(self, page: Page, line: int, cell: str, calls: list[str]) -> Iterator[Fault]:
        """The clauses of a cell are among those of the row's calls, whatever crate these are of."""
        had = {name for call in calls for crate in self.repository.crates for name in self.repository.clauses(crate, call)}
        for span in spans(line, cell):
            if had and span.text not in had and not re.search(r"clauses? of$", span.before):
                yield Fault(page.name, line, f"{' and '.join(calls)} has no clause {span.text}")

    def of_clauses(self, page: Page, line: int, cells: list[str], crates: list[str]) -> Iterator[Fault]:
        """What the last cell of a row names stands in one of the row's crates."""
        if not set(crates) <= self.repository.crates:
            return
        defined = set().union(*map(self.repository.names, crates)) if crates else self.repository.words()
        found = spans(line, cells[-1])
        for span in found:
            for part in re.split(r"::|\.", span.text):
                if IDENTIFIER.match(span.text) and part not in defined:
                    yield Fault(page.name, line, f"`{span.text}`: {' and '.join(crates) or 'no crate'} defines no {part}")
        yield from self.of_functions(page, found, crates)

    def of_functions(self, page: Page, found: list[Span], crates: list[str]) -> Iterator[Fault]:
        """Of "`a` and `b` of `call`" the call has these clauses."""
        clauses: list[Span] = []
        is_behind = False
        for span in found:
            call = span.text.split("::")[-1]
            is_call = any(self.repository.has_function(crate, call) for crate in crates)
            if span.before == "of" or is_behind and is_call and span.before in ("and", ","):
                had = set().union(*(self.repository.clauses(crate, call) for crate in crates))
                yield from (Fault(page.name, span.line, f"{span.text} has no clause {clause.text}") for clause in clauses if clause.text not in had)
                is_behind = True
            elif span.before.endswith(" of"):
                clauses = []
            else:
                clauses = [*clauses, span] if not is_behind and JOINS.match(span.before) else [span]
                is_behind = False



def words_in(path: pathlib.Path) -> set[str]:
    is_text = path.suffix in ("", ".rt", ".rs", ".antt", ".py", ".txt", ".css", ".js")
    return set(re.findall(r"\w+", path.read_text(errors="replace"))) if is_text else set()


def tied(found: list[Span], crates: set[str]) -> Iterator[tuple[Span, str]]:
    """The names that a text says are of a crate: `a`, `b` and `c` of `crate`, or `crate` (`a`, `b`) or `crate`: `a`, `b`."""
    own: dict[int, str] = {}
    for at, span in enumerate(found):
        if span.text in crates and re.search(r"^(?:\([^()]*\) )?(?:of|are of|is of)(?: the crate)?$", span.before):
            back = at - 1
            while back >= 0 and found[back].text not in crates:
                own.setdefault(back, span.text)
                if not JOINS.match(found[back].before):
                    break
                back -= 1
    for at, span in enumerate(found):
        if span.text in crates:
            for ahead in range(at + 1, len(found)):
                opens = re.match(r"^(?:\(|:)$" if ahead == at + 1 else r"^[^.;]*$", found[ahead].before)
                if not opens or found[ahead].text in crates or ahead in own:
                    break
                own[ahead] = span.text
    for at, crate in own.items():
        if IDENTIFIER.match(found[at].text):
            yield found[at], crate


def without_reader(found: Iterable[Page]) -> Iterator[Fault]:
    """The pages of docs/ that do not begin with whom they are for, or that README does not list."""
    readme, *others = sorted(found, key=lambda page: page.name != "README.md")
    listed = {span.text for line, text in readme.texts() for span in spans(line, text)}
    for page in others:
        if page.name.startswith("docs/"):
            if not (page.paragraphs and page.paragraphs[0][1].startswith("For who")):
                yield Fault(page.name, 1, "its first lines do not say for whom it is, as \"For whoever ..\"")
            if page.name not in listed:
                yield Fault(readme.name, 1, f"{page.name} is in no list of pages")


def unnamed_tools(top: pathlib.Path, found: Iterable[Page]) -> list[Fault]:
    """The tools and benches that no page names."""
    told = {span.text.split()[0] for page in found for line, text in page.texts() for span in spans(line, text)}
    told |= {line.split()[0] for page in found for fence in page.fences for line in fence.lines if line.strip()}
    names = [f"{folder}/{path.name}" for folder in ("tools", "bench") for path in sorted((top / folder).glob("*")) if path.is_file()]
    return [Fault("CONTRIBUTING.md", 1, f"{name} is named on no page") for name in names if name not in told]
