"""What keeps a request from an answer, with its HTTP status."""


class Problem(Exception):
    """A request that gets no answer of the planner: the status, what to say, and after how many seconds to ask again."""

    def __init__(self, status: int, says: str, again: int | None = None) -> None:
        super().__init__(says)
        self.status, self.says, self.again = status, says, again


class NoStart(Exception):
    """The service, or a new edition of it, can't begin: why."""
