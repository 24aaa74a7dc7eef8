"""What ends a run, and how texts of files are shown."""


class Stop(Exception):
    """What ends the run: one line that says what is wrong and what would be right, and the exit status."""

    def __init__(self, line: str, status: int = 1) -> None:
        super().__init__(line)
        self.status = status


def shown(text: str) -> str:
    """The text as it may be printed: what is no printable character becomes its escape, such as \\x1b or \\u202e."""
    return "".join(sign if sign.isprintable() else sign.encode("unicode_escape", "surrogatepass").decode() for sign in text)


def quoted(text: str) -> str:
    """A field of a file as it may be printed, in quotes, and cut where it is long."""
    return f'"{shown(text[:60])}{".." if len(text) > 60 else ""}"'
