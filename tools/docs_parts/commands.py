"""Runs the commands of pages, and compares what they print with what the pages show."""

import functools
import os
import pathlib
import re
import shutil
import signal
import subprocess
import tempfile
from collections.abc import Iterator
from typing import NamedTuple

from .pages import Fault, Fence, Page

RUN = re.compile(r"(?:^|\| )(?:\./modeplan|\./planbook|tools/[\w-]+|examples/check)(?: |$)")
NOT_RUN = re.compile(r"^(?:rt|make|sudo|git|bench/[\w-]+) ?")
WANTS = re.compile(r"^wants (\w+)$")
SYNOPSIS = re.compile(r"^(?:modeplan ([a-z-]+) [A-Z]|\./planbook BOOK)")
SECONDS = 900


class Printed(NamedTuple):
    """What a block of commands left: its outputs and the files that it wrote."""
    status: int
    texts: list[str]


UNTRIED = Printed(1, ["", "it was not run"])


class Commands:
    """The commands of pages in a copy of the checkout, in which these programs are built."""

    def __init__(self, top: pathlib.Path, program: pathlib.Path, planbook: pathlib.Path | None) -> None:
        self.folder = tempfile.TemporaryDirectory(prefix="check-docs.")
        self.copy = pathlib.Path(self.folder.name) / "checkout"
        listed = subprocess.run(["git", "ls-files", "-co", "--exclude-standard", "-z"], cwd=top, capture_output=True, check=True).stdout
        for name in filter(None, listed.decode().split("\0")):
            if (top / name).is_file():
                (self.copy / name).parent.mkdir(parents=True, exist_ok=True)
                shutil.copy(top / name, self.copy / name)
        for crate, built in (("planner_cli", program), ("planbook", planbook)):
            if built:
                (self.copy / "crates" / crate / "out").mkdir(exist_ok=True)
                shutil.copy(built, self.copy / "crates" / crate / "out" / crate)
        self.examples = [path.read_text() for path in sorted((self.copy / "examples").rglob("*")) if path.is_file()]

    def faults(self, page: Page) -> Iterator[Fault]:
        """Runs the blocks of a page in a folder of its own, which has all of the checkout."""
        with tempfile.TemporaryDirectory(dir=self.folder.name) as folder:
            here = pathlib.Path(folder)
            for path in self.copy.iterdir():
                (here / path.name).symlink_to(path)
            seen, last = list(self.examples), None
            for fence in page.fences:
                wanted = WANTS.match(fence.mark)
                if fence.language or fence.mark.startswith("not run"):
                    last = None
                elif wanted and not is_there(wanted[1]):
                    last = UNTRIED
                elif NOT_RUN.match(fence.lines[0]):
                    last = None
                elif found := SYNOPSIS.match(fence.lines[0]):
                    yield from self.of_synopsis(page, fence, found[1])
                    last = None
                elif wanted or any(RUN.search(line) for line in fence.lines):
                    last = self.run(here, fence)
                    seen += last.texts
                    if last.status:
                        yield Fault(page.name, fence.line, f"ends with status {last.status}: {last.texts[1].strip()[-300:]}")
                elif not (last and last.status and fence.parted in (0, 1)):
                    yield from self.of_output(page, fence, last.texts if last and fence.parted in (0, 1) else None, seen)
                    last = None

    def run(self, here: pathlib.Path, fence: Fence) -> Printed:
        before = {path: path.stat().st_mtime_ns for path in here.iterdir() if path.is_file()}
        environment = {**os.environ, "PYTHONDONTWRITEBYTECODE": "1"}
        with subprocess.Popen(["sh", "-e", "-c", "\n".join(fence.lines)], cwd=here, env=environment, stdin=subprocess.DEVNULL,
                              stdout=subprocess.PIPE, stderr=subprocess.PIPE, start_new_session=True) as process:
            try:
                told = process.communicate(timeout=SECONDS)
            except subprocess.TimeoutExpired:
                os.killpg(process.pid, signal.SIGKILL)
                told = process.communicate()
        written = [path for path in sorted(here.iterdir()) if path.is_file() and before.get(path) != path.stat().st_mtime_ns]
        return Printed(process.returncode, [text.decode(errors="replace") for text in (*told, *(path.read_bytes() for path in written))])

    def of_synopsis(self, page: Page, fence: Fence, command: str | None) -> Iterator[Fault]:
        """The options of a call are those of the command's help."""
        words = ["./modeplan", command, "--help"] if command else ["./planbook", "--help"]
        told = subprocess.run(words, cwd=self.copy, capture_output=True, text=True, stdin=subprocess.DEVNULL).stderr
        wanted = set(re.findall(r"--[a-z-]+", fence.lines[0])) | ({command} if command else set())
        for word in sorted(wanted - set(re.findall(r"[a-z-]+", told))):
            yield Fault(page.name, fence.line, f"{' '.join(words)} does not tell of {word}")
        for option in sorted(set(re.findall(r"^ +(--[a-z]+)", told, re.M)) - wanted - {"--help", "--version"}):
            if command:
                yield Fault(page.name, fence.line, f"{' '.join(words)} tells of {option} too")

    def of_output(self, page: Page, fence: Fence, whole: list[str] | None, seen: list[str]) -> Iterator[Fault]:
        """What a block shows is the whole of what the commands before it left, or stands in what was left or in an example."""
        if whole is not None:
            if not any(fits(fence.lines, text, True) for text in whole):
                at, told = first_difference(fence.lines, max(whole, key=lambda text: alike(fence.lines, text.splitlines())).splitlines())
                yield Fault(page.name, fence.line + 1 + at, f"the commands before it print no such line here, but {told}")
        elif not any(fits(fence.lines, text, False) for text in seen):
            yield Fault(page.name, fence.line, "no command before it on the page prints this, and it stands in no example")


@functools.cache
def is_there(module: str) -> bool:
    """Whether Debian's python3 has this module."""
    words = ["/usr/bin/python3", "-c", f"import {module}"]
    return subprocess.run(words, capture_output=True, check=False).returncode == 0


def fits(shown: list[str], text: str, whole: bool) -> bool:
    """Whether a text is as shown, where `..` stands for any lines; or, where it need not be whole, some of its lines are."""
    pattern = re.compile("^" + "".join("(?:.*\n)*?" if line == ".." else re.escape(line) + "\n" for line in shown), re.M)
    ended = text if text.endswith("\n") else text + "\n"
    return bool(pattern.fullmatch(ended) if whole else pattern.search(ended))


def alike(shown: list[str], lines: list[str]) -> int:
    return len(set(shown) & set(lines))


def first_difference(shown: list[str], lines: list[str]) -> tuple[int, str]:
    at = next((n for n, (one, other) in enumerate(zip(shown, lines)) if one != other), min(len(shown), len(lines)))
    return at, repr(lines[at]) if at < len(lines) else "their end"
