"""The automata whose states the labels name: docs/SEARCH.md, "The states of an expression" and "Back in time"."""

from collections.abc import Iterable

from certificate_parts.expressions import Positions
from region_reader import LETTERS, MODES


class Collapsed:
    """Reads adjacent equal road letters as one: in state 4q + c the inner state is q, and c tells the road letter that was read last."""

    def __init__(self, moves: list[list[list[int]]], starts: Iterable[int], ends: Iterable[int]) -> None:
        self.states = 4 * len(moves)
        self.starts = [4 * state for state in sorted(starts)]
        self._moves, self._ends = moves, frozenset(ends)
        self._after: dict[tuple[int, int | None], list[int]] = {}
        self._letters: dict[int, frozenset[int]] = {}

    def accepts(self, state: int) -> bool:
        return state // 4 in self._ends

    def after(self, state: int, letter: int | None) -> list[int]:
        """The states after a letter, or after an arc that has none."""
        known = self._after.get((state, letter))
        if known is None:
            known = self._after[state, letter] = self._led_to(state, letter)
        return known

    def letters(self, state: int) -> frozenset[int]:
        """Those that lead somewhere."""
        if state not in self._letters:
            self._letters[state] = frozenset(letter for letter in range(len(LETTERS)) if self.after(state, letter))
        return self._letters[state]

    def _led_to(self, state: int, letter: int | None) -> list[int]:
        inner, last = divmod(state, 4)
        if letter is None or letter + 1 == last:
            return [state]
        road = letter + 1 if letter < len(MODES) else 0
        return [4 * to + road for to in self._moves[inner][letter]]


def forward(positions: Positions) -> Collapsed:
    """Of the words of an expression, from the start on."""
    moves = [[positions.after(state, letter) for letter in range(len(LETTERS))] for state in range(len(positions.follow))]
    return Collapsed(moves, [0], _ends(positions))


def backward(positions: Positions) -> Collapsed:
    """Of the words read from their ends: it starts where the other accepts, accepts where that starts, and each move goes the other way."""
    states = range(len(positions.follow))
    moves: list[list[list[int]]] = [[[] for _ in LETTERS] for _ in states]
    for state in states:
        for letter in range(len(LETTERS)):
            for to in positions.after(state, letter):
                moves[to][letter].append(state)
    return Collapsed(moves, _ends(positions), [0])


def _ends(positions: Positions) -> list[int]:
    return [state for state in range(len(positions.follow)) if positions.ends >> state & 1]
