"""What a check may end with besides `valid`."""


class Fault(Exception):
    """A file that cannot be used: which one, and why."""

    def __init__(self, path: str, why: str) -> None:
        super().__init__(f"{path}: {why}")


class BadLine(Exception):
    """The file is no text of a certificate: the first line that may not stand where it does, from 1."""

    def __init__(self, at: int) -> None:
        super().__init__(at)
        self.at = at


class Invalid(Exception):
    """The certificate is not valid: the first clause that fails, and its place."""

    def __init__(self, clause: int, at: int) -> None:
        super().__init__(clause, at)
        self.clause, self.at = clause, at
