"""Expressions, and their positions: docs/EXPRESSIONS.md, and docs/SEARCH.md, "The states of an expression"."""

import re
from dataclasses import dataclass
from typing import NamedTuple, Union

from region_reader import LETTERS

BYTES, DEPTH, PLACES = 4096, 64, 200
NAMES = {"any": frozenset(range(len(LETTERS))), "transit": frozenset(range(3, len(LETTERS))),
         **{name: frozenset([number]) for number, name in enumerate(LETTERS)}}
SUFFIXES: dict[str, tuple[int, int | None]] = {"*": (0, None), "+": (1, None), "?": (0, 1)}
END = ""  # the token behind the last


class BadExpression(Exception):
    """The text is no expression, or one that is too large: `long`, `deep`, `syntax` or `large`."""


@dataclass(frozen=True)
class Name:
    """A place for one of some letters."""

    letters: frozenset[int]


@dataclass(frozen=True)
class Choice:
    """One of the parts."""

    parts: list["Form"]


@dataclass(frozen=True)
class Row:
    """The parts one after the other."""

    parts: list["Form"]


@dataclass(frozen=True)
class Repeat:
    """The part so many times; any number of times where there is no most."""

    part: "Form"
    least: int
    most: int | None


Form = Union[Name, Choice, Row, Repeat]


def read_expression(text: str) -> Form:
    """The expression that a text spells; BadExpression where it spells none."""
    if len(text) > BYTES:
        raise BadExpression("long")
    depth = 0
    for sign in text:
        if sign == "(" and depth >= DEPTH:
            raise BadExpression("deep")
        depth += (sign == "(") - (sign == ")")
    form = _Reader(text).whole()
    if places(form) > PLACES:
        raise BadExpression("large")
    return form


def places(form: Form) -> int:
    """How many places for letters there are in it, written out."""
    if isinstance(form, Name):
        return 1
    if isinstance(form, Repeat):
        return places(form.part) * (form.most or 1)
    return sum(places(part) for part in form.parts)


class _Reader:
    """The tokens of a text, read by the grammar."""

    def __init__(self, text: str) -> None:
        self._tokens = re.findall("[a-z]+|[0-9]+|[^ ]", text) + [END]
        self._at = 0

    def whole(self) -> Form:
        form = self._choice()
        self._must(self._tokens[self._at] == END)
        return form

    def _must(self, holds: bool) -> None:
        if not holds:
            raise BadExpression("syntax")

    def _next(self) -> str:
        """The next token. Nothing is taken behind the end."""
        token = self._tokens[self._at]
        self._at += token != END
        return token

    def _takes(self, *tokens: str) -> str | None:
        return self._next() if self._tokens[self._at] in tokens else None

    def _choice(self) -> Form:
        parts = [self._row()]
        while self._takes("|"):
            parts.append(self._row())
        return Choice(parts)

    def _row(self) -> Form:
        parts = [self._item()]
        while re.fullmatch(r"[a-z]+|\(", self._tokens[self._at]):
            parts.append(self._item())
        return Row(parts)

    def _item(self) -> Form:
        if self._takes("("):
            form = self._choice()
            self._must(self._next() == ")")
        else:
            token = self._next()
            self._must(token in NAMES)
            form = Name(NAMES[token])
        suffix = self._takes(*SUFFIXES, "{")
        if suffix is None:
            return form
        return Repeat(form, *(self._bounds() if suffix == "{" else SUFFIXES[suffix]))

    def _bounds(self) -> tuple[int, int]:
        least = most = self._number()
        if self._takes(","):
            most = self._number()
        self._must(self._next() == "}" and most >= max(1, least))
        return least, most

    def _number(self) -> int:
        token = self._next()
        self._must(re.fullmatch("[0-9]{1,4}", token) is not None)
        return int(token)


class _Ends(NamedTuple):
    """Whether a part may be empty, and its first and its last positions, as bits."""

    empty: bool
    first: int
    last: int


class Positions:
    """The position automaton: state 0 is the start, and state p is that position p was read last. Sets of states are bits."""

    def __init__(self, form: Form) -> None:
        self.letters: list[frozenset[int]] = [frozenset()]
        self.follow: list[int] = [0]
        whole = self._written(form)
        self.follow[0] = whole.first
        self.ends = whole.last | whole.empty
        self._by_letter = [sum(1 << p for p, letters in enumerate(self.letters) if letter in letters) for letter in range(len(LETTERS))]

    def after(self, state: int, letter: int) -> list[int]:
        """The states that a letter leads to."""
        return _members(self.follow[state] & self._by_letter[letter])

    def accepts(self, word: list[int]) -> bool:
        """Whether the expression denotes the word."""
        states, known = 1, {}
        for letter in word:
            if (states, letter) not in known:
                follow = 0
                for state in _members(states):
                    follow |= self.follow[state]
                known[states, letter] = follow & self._by_letter[letter]
            states = known[states, letter]
        return states & self.ends != 0

    def _written(self, form: Form) -> _Ends:
        """Numbers the positions of a part from left to right, and says which follow each other in it."""
        if isinstance(form, Name):
            self.letters.append(form.letters)
            self.follow.append(0)
            position = 1 << len(self.letters) - 1
            return _Ends(False, position, position)
        if isinstance(form, Choice):
            parts = [self._written(part) for part in form.parts]
            return _Ends(any(part.empty for part in parts), _union(part.first for part in parts), _union(part.last for part in parts))
        if isinstance(form, Row):
            return self._in_turn([self._written(part) for part in form.parts])
        return self._repeated(form)

    def _repeated(self, form: Repeat) -> _Ends:
        """`a{m,n}` is m times `a`, and then n - m options, each inside the one before it."""
        if form.most is None:
            part = self._written(form.part)
            self._join(part.last, part.first)
            return part._replace(empty=part.empty or form.least == 0)
        parts = [self._written(form.part) for _ in range(form.most)]
        tail = _Ends(True, 0, 0)
        for place in reversed(range(form.most)):
            tail = self._in_turn([parts[place], tail])
            tail = tail._replace(empty=tail.empty or place >= form.least)
        return tail

    def _in_turn(self, parts: list[_Ends]) -> _Ends:
        empty, first, last = True, 0, 0
        for part in parts:
            self._join(last, part.first)
            first |= part.first if empty else 0
            last = part.last | (last if part.empty else 0)
            empty = empty and part.empty
        return _Ends(empty, first, last)

    def _join(self, last: int, first: int) -> None:
        for position in _members(last):
            self.follow[position] |= first


def _union(sets) -> int:
    union = 0
    for one in sets:
        union |= one
    return union


def _members(states: int) -> list[int]:
    """The numbers of the bits that are set."""
    found = []
    while states:
        lowest = states & -states
        found.append(lowest.bit_length() - 1)
        states ^= lowest
    return found
