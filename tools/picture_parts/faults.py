"""What can be wrong with a file that was handed in, and how its texts are shown."""

import re


class Fault(Exception):
    """A file that cannot be used: which one, at which line (from 1, if there is one), and why."""

    def __init__(self, file: str, line: int | None, why: str) -> None:
        place = f"{file}: line {line}" if line is not None else file
        super().__init__(f"{place}: {why}")


def printed(text: str) -> str:
    """The text as a terminal may have it: what is no printable character becomes its escape, such as \\x1b."""
    return "".join(sign if sign.isprintable() else sign.encode("unicode_escape", "surrogatepass").decode() for sign in text)


def shown(text: str) -> str:
    """The text as a page may have it: bytes that are no UTF-8, and control characters, become the replacement character."""
    return re.sub("[\\x00-\\x08\\x0b-\\x1f\\x7f-\\x9f\\u202a-\\u202e\\u2066-\\u2069]", "\ufffd",
                  text.encode("utf-8", "surrogateescape").decode("utf-8", "replace"))
