"""Files by which whoever wrote them might do harm, and what the command should end with."""

import os
import pathlib
import re
import subprocess
from dataclasses import dataclass

from certificate_parts.files import SECONDS

HEAD = "modeplan region 1\ndays 20240304 1\n"
LONG = "9" * 5000
TOWN = f"{HEAD}node foot 1 0 0\nnode foot 2 0 0\narc 0 1 60000\nend\n"
FRONT = "modeplan certificate 1\nquery n1 n2 20240304 08:00:00 foot\ngraph plain\n"
VALID = f"{FRONT}arrive 633660000\nstart 0 633600000\nroad 1\nlabels 2\n0 0 633600000\n0 5 633600000\nend\n"
NO_BODY = "labels 0\nend\n"


@dataclass(frozen=True)
class Call:
    """Three files, where None is none, and the verdict that is due; None where a file cannot be used."""

    region: str | bytes
    certificate: str | bytes
    verdict: str | None
    hierarchy: str | bytes | None = None


def _region(lines: str) -> str:
    return f"{HEAD}node foot 1 0 0\n{lines}end\n"


def _ruled(rule: str) -> str:
    return TOWN.replace("20240304 1", f"20240304 1 {rule}")


CALLS = [
    Call(TOWN, VALID, "valid"),
    *(Call(_ruled(rule), VALID, None)
      for rule in (":{pipe}", "{pipe}", ":/dev/zero", "Europe/Berlin", "CET-1CEST", LONG, "<+99>-99", "\x1b[31m", "")),
    Call(_ruled("CET-1CEST,M3.5.0,M10.5.0/3"), VALID, "valid"),
    *(Call(_region(line), VALID, None)
      for line in (f"node foot {LONG} 0 0\n", f"arc 0 {LONG} 1\n", "stop A 0 0\ntrip bus ff 1 t\ncall 7 0 0 3\n", "x\n",
                   f"stop A 0 0\ntrip bus ff {LONG} t\n", "stop A 0 0\ntrip bus ffffff 1 t\ncall 0 0 0 3\n")),
    *(Call(region, VALID, None)
      for region in ("", "modeplan region 1\n", HEAD, b"MPREGN02", b"MPREGN02\x01\x34\xd5\xc8" + b"\xff" * 28,
                     "modeplan region 1\ndays 00010101 1\nend\n", "modeplan region 1\ndays 99991231 60\nend\n")),
    Call(_region("arc 0 7 1\narc 7 0 1\narc 0 -1 1\nlink -1 -1 0\n"), VALID, "invalid 1 5"),
    Call(TOWN, "", "bad 1"), Call(TOWN, b"\xff\x00", "bad 1"),
    Call(TOWN, VALID[:-1], "bad 10"), Call(TOWN, VALID + "\n", "bad 11"),
    *(Call(TOWN, f"{FRONT}arrive 633660000\nstart 0 633600000\n{step}\n{NO_BODY}", "bad 6")
      for step in ("road stop:B", f"road {LONG}", f"wait {LONG}", f"ride 0 {LONG} 0 1", "road 4294967296", "stand 0", "road", "ride 0 7 0")),
    Call(TOWN, f"{FRONT}arrive 633660000\nstart 0 633600000\nride 0 4294967295 0 1\n{NO_BODY}", "invalid 4 0"),
    Call(TOWN, f"{FRONT}arrive {LONG}\n", "bad 4"),
    *(Call(TOWN, f"{FRONT}none\nlabels {count}\n", "bad 5") for count in (LONG, 2 ** 64, "01", "")),
    Call(TOWN, f"{FRONT}none\nlabels {2 ** 64 - 1}\n0 0 0\n", "bad 7"),
    Call(TOWN, f"{FRONT}none\nlabels 1\n0 0 {LONG}\nend\n", "bad 6"),
    *(Call(TOWN, VALID.replace("foot", expression), verdict) for expression, verdict in (
        ("foot{" + LONG[:4000] + "}", "invalid 1 8"), ("(" * 65, "invalid 1 7"), ("(" * 64 + "foot" + ")" * 64, "valid"),
        ("{9999}" * 9, "invalid 1 8"), ("((foot{9999}){9999}){9999}", "invalid 1 9"), ("any?{2}", "invalid 1 8"), (LONG, "invalid 1 6"))),
    Call(TOWN, VALID.replace("query n1", f"query n{LONG}"), "invalid 1 1"),
    Call(TOWN, VALID.replace("query n1", f"query @{LONG},0"), "invalid 1 1"),
    *(Call(TOWN, VALID, None, hierarchy)
      for hierarchy in (b"", b"MPHIER01", b"MPHIER01" + b"\xff" * 24, b"MPHIER01" + bytes(20) + b"\xff" * 4, b"MPHIER01" + bytes(25), VALID)),
    Call(TOWN, VALID, "invalid 2 0", b"MPHIER01" + bytes(24)),
    Call(TOWN, VALID.replace("plain", "phases"), "valid", b"MPHIER01" + bytes(24)),  # not sound: it has no entry for the arc
    Call(TOWN, f"modeplan late 1\nquery n1 n2 20240304 08:00:00 foot\nnone\n{NO_BODY}", None, b"MPHIER01" + bytes(24)),
]
PATHS = ("/dev/zero", ".", "none", "a\nb", "\x1b[31mred")  # none of which can be used


def wrongs(command: str, folder: pathlib.Path) -> list[str]:
    """The calls that do not end as they should: with the verdict alone, or with one line on standard error, soon."""
    os.mkfifo(folder / "pipe")
    found = []
    for number, call in enumerate(CALLS):
        words = ["region", "certificate", *(["--hierarchy", "hierarchy"] if call.hierarchy is not None else [])]
        for name, content in zip(("region", "certificate", "hierarchy"), (call.region, call.certificate, call.hierarchy or "")):
            given = content.replace("{pipe}", str(folder / "pipe")).encode("latin-1") if isinstance(content, str) else content
            (folder / name).write_bytes(given)
        found += _wrong(f"hostile call {number}", [command, *words], folder, call.verdict)
    (folder / "region").write_text(TOWN)
    (folder / "certificate").write_text(VALID)
    ways = [words for path in PATHS
            for words in ([path, "certificate"], ["region", path], ["region", "certificate", "--hierarchy", path])]
    for words in [*ways, ["pipe", "certificate"], ["region", "pipe"]]:
        found += _wrong(f"hostile words {words}", [command, *words], folder, None)
    return found


def _wrong(name: str, words: list[str], folder: pathlib.Path, verdict: str | None) -> list[str]:
    """What is wrong with a call, if something is."""
    try:
        done = subprocess.run(words, cwd=folder, capture_output=True, timeout=SECONDS + 30)
    except subprocess.TimeoutExpired:
        return [f"{name}: it does not end"]
    status = {None: 1, "valid": 0, "invalid": 11, "bad": 12}[verdict and verdict.split(" ")[0]]
    note = rb"check-certificate: [^\x00-\x1f\x7f]+\n" if verdict is None else b""
    told = f"{verdict}\n".encode() if verdict else b""
    if done.returncode == status and done.stdout == told and re.fullmatch(note, done.stderr):
        return []
    return [f"{name}: {verdict} is due, and it ended with {done.returncode}: {done.stdout!r} {done.stderr[-300:]!r}"]
