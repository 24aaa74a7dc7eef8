"""Whether the figures of pages are those that a tool prints now."""

import pathlib
import re
import shlex
import shutil
import subprocess
from collections.abc import Iterator

from .pages import MEASURED, Fault, Page, Table

DEFINITIONS = re.compile(r"([\d,]+) definitions on ([\d,]+) pages")
BODIES = re.compile(r"([\d,]+) wrong bodies")
CRATES = re.compile(r"\b([\d,]+) crates")
KIT = re.compile(r"rattle-kit-\w+ logic \w+")


class Figures:
    def __init__(self, top: pathlib.Path) -> None:
        self.top, self.printed = top, {}
        tried = [path.parts[-3] for path in top.glob("crates/*/must-fail/*.edit")]
        self.bodies = {len(tried)}
        crates = {path.name for path in (top / "crates").iterdir() if (path / "src").is_dir()}
        self.crates = {len(crates), len(set(tried)), len(crates) - len(set(tried))}

    def faults(self, page: Page) -> Iterator[Fault]:
        for table in page.tables:
            if table.mark.startswith("tools/"):
                yield from self.of_table(page, table)
        for line, text in (*page.texts(), *((fence.line + 1, "\n".join(fence.lines)) for fence in page.fences)):
            yield from self.of_kit(page, line, text)
        if page.name != MEASURED:
            for line, text in page.texts():
                yield from self.of_text(page, line, text)

    def of_table(self, page: Page, table: Table) -> Iterator[Fault]:
        """A table under a comment that names a tool is what that prints."""
        wanted = self.told(table.mark)
        for at, (line, want) in enumerate(zip(table.lines + [""] * len(wanted), wanted)):
            if line != want:
                yield Fault(page.name, table.line + at, f"{table.mark} prints another line here: {want}")
                return
        if len(table.lines) > len(wanted):
            yield Fault(page.name, table.line + len(wanted), f"{table.mark} prints no line here")

    def of_kit(self, page: Page, line: int, text: str) -> Iterator[Fault]:
        for found in KIT.finditer(text):
            if shutil.which("rt") and found[0] not in self.told("rt version"):
                yield Fault(page.name, line + text.count("\n", 0, found.start()), f"rt version prints {self.told('rt version')[0]}")

    def told(self, command: str) -> list[str]:
        if command not in self.printed:
            self.printed[command] = subprocess.run(shlex.split(command), cwd=self.top, capture_output=True, text=True, check=True).stdout.splitlines()
        return self.printed[command]

    def of_text(self, page: Page, line: int, text: str) -> Iterator[Fault]:
        joined = " ".join(text.split())
        for found in DEFINITIONS.finditer(joined):
            rows = {tuple(re.findall(r"\| (\d+)", row)[:2]) for row in self.told("tools/definitions --commands")}
            if (found[1].replace(",", ""), found[2]) not in rows:
                yield Fault(page.name, line, f"\"{found[0]}\" is in no row of tools/definitions --commands")
        for pattern, right, what in ((BODIES, self.bodies, "edits are in must-fail"), (CRATES, self.crates, "crates there are, "
                                     "with must-fail and without it")):
            for found in pattern.finditer(joined):
                if int(found[1].replace(",", "") or 0) not in right:
                    yield Fault(page.name, line, f"\"{found[0]}\": {', '.join(map(str, sorted(right)))} {what}")
