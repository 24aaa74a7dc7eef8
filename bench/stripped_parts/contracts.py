"""What a compiler of plain Rust does not read in a Rattle source."""
import re

CLAUSE = re.compile(r"(requires|ensures)\b")
GHOST_MEMBER = re.compile(r"(pub )?ghost \w+(:| =)")
MODEL = re.compile(r"impl(<[^>]*>)? Model for [^{]*\{")


def past_braces(text: str, start: int) -> int:
    """The place behind the group of braces that begins at or after this one."""
    depth, place = 0, text.index("{", start)
    while True:
        depth += {"{": 1, "}": -1}.get(text[place], 0)
        place += 1
        if depth == 0:
            return place


def past_member(text: str, start: int) -> int:
    """The place behind the comma or semicolon that ends a ghost member."""
    depth, place = 0, start
    while depth > 0 or text[place] not in ",;":
        depth += {"(": 1, "[": 1, "{": 1, ")": -1, "]": -1, "}": -1}.get(text[place], 0)
        place += 1
    return place + 1


def without_contracts(text: str) -> str:
    """The source without ghost items, clauses, tactics and models."""
    while found := MODEL.search(text):
        text = text[: found.start()] + text[past_braces(text, found.end() - 1) :]
    out, place = [], 0
    while place < len(text):
        end = text.find("\n", place) + 1 or len(text)
        line = text[place:end].strip()
        begins = place + len(text[place:end]) - len(text[place:end].lstrip())
        if CLAUSE.match(line):
            place = past_braces(text, begins)
        elif GHOST_MEMBER.match(line):
            place = past_member(text, begins)
        elif line.startswith(("ghost use", "#![tactic", "#[tactic")):
            place = end
        else:
            out.append(text[place:end])
            place = end
    return "".join(out)
