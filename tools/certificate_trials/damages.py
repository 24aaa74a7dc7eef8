"""Ways to damage a certificate. Some keep its form, so that its clauses are tried; the others need not."""

import random
import re
from collections.abc import Callable

from certificate_trials.drawn import EXPRESSIONS

Damage = Callable[[random.Random, list[str]], list[str]]
ODD = ("", "-1", "01", "+5", "4294967295", "4294967296", "9" * 30, "9" * 31, "7" * 5000, "1e3", " 1")
STEPS = ("stand", "wait 0", "wait 633629000000", "road 0", "road 1", "link 1", "ride 0 7 0 1", "ride 9 9 9 9")
LINES = (*STEPS, "none", "end", "", "graph phases", "graph plain", "road stop:B", "labels 0", "0 0 0", "depart 1", "arrive 1", "start 0 0",
         "modeplan late 1", "modeplan certificate 1", "query x", "x")
FIELDS = ("n1", "n3", "n0", "n-0", "sS0", "sS1", "sNone", "s", "@48,11", "@0,0", "@91,0", "foot@48,11", "bike@0,0", "car@91,0",
          "tram@48,11", "foot@", "x", "", "20240304", "20240305", "20241026", "20240230", "2024", "08:00:00", "08:15:00.500", "23:59:59.999", "24:00:00", "8:00")
TAILS = ("taxi", "any*", "car car", " ", " " * 4097, "(" * 65, "any{201}", "foot{2,1}", "(foot", "foot |", "{3}", "any{0,200}", "(any?){50}",
         "foot)", "\x1b[31m")


def number_moved(dice: random.Random, lines: list[str]) -> list[str]:
    """A number of a line behind the query is a little larger or smaller."""
    return _with_number(dice, lines, lambda number: str(max(0, int(number) + dice.choice([-1, 1, -1, 1, -4, 4, -60000, 60000, 1 << 20]))))


def number_odd(dice: random.Random, lines: list[str]) -> list[str]:
    """A number is another one that is large, or none."""
    return _with_number(dice, lines, lambda _: dice.choice(ODD))


def line_dropped(dice: random.Random, lines: list[str]) -> list[str]:
    at = dice.randrange(len(lines))
    return lines[:at] + lines[at + 1:]


def line_doubled(dice: random.Random, lines: list[str]) -> list[str]:
    at = dice.randrange(len(lines))
    return lines[:at + 1] + lines[at:]


def lines_swapped(dice: random.Random, lines: list[str]) -> list[str]:
    at = dice.randrange(len(lines) - 1)
    return lines[:at] + [lines[at + 1], lines[at]] + lines[at + 2:]


def line_put_in(dice: random.Random, lines: list[str]) -> list[str]:
    at = dice.randrange(len(lines) + 1)
    return lines[:at] + [dice.choice(LINES)] + lines[at:]


def step_put_in(dice: random.Random, lines: list[str]) -> list[str]:
    """A step where steps may stand, which need not be one there."""
    starts = [at for at, line in enumerate(lines) if line.startswith("start ")]
    if not starts:
        return lines
    at = dice.randint(starts[0] + 1, _labels(lines)[0])
    return lines[:at] + [dice.choice(STEPS)] + lines[at:]


def labels_changed(dice: random.Random, lines: list[str]) -> list[str]:
    """A label is dropped, doubled, put in or changed, or two are swapped, and their count stays right."""
    at, labels = _labels(lines)
    change = dice.choice([line_dropped, line_doubled, lines_swapped, _label_moved, _label_put_in])
    if len(labels) < 2:
        change = _label_put_in
    labels = change(dice, labels)
    return [*lines[:at], f"labels {len(labels)}", *labels, "end"]


def label_lost(dice: random.Random, lines: list[str]) -> list[str]:
    """A label is dropped, and their count stays right."""
    at, labels = _labels(lines)
    labels = line_dropped(dice, labels) if labels else labels
    return [*lines[:at], f"labels {len(labels)}", *labels, "end"]


def end_labelled(dice: random.Random, lines: list[str]) -> list[str]:
    """There is a label where the search ends: at the last node of the journey, or in a late certificate at its first."""
    at, labels = _labels(lines)
    start = re.search("(?m)^start ([0-9]+)", "\n".join(lines))
    if not start or not labels:
        return lines
    if lines[2].startswith("graph "):
        nodes = [start[1], *re.findall("(?m)^(?:road|link) ([0-9]+)$", "\n".join(lines))]
        node, state, time = int(nodes[-1]), dice.randrange(4, 16), int(lines[3].split(" ")[1]) - 1
        node = 2 * node + dice.randrange(2) if lines[2] == "graph phases" else node
    else:
        node, state, time = int(start[1]), dice.randrange(4), 0
    rows = {row[:2]: row[2] for row in (tuple(map(int, label.split(" "))) for label in labels)} | {(node, state): time}
    return [*lines[:at], f"labels {len(rows)}", *(f"{v} {q} {t}" for (v, q), t in sorted(rows.items())), "end"]


def labels_gone(_: random.Random, lines: list[str]) -> list[str]:
    return [*lines[:_labels(lines)[0]], "labels 0", "end"]


def none_claimed(_: random.Random, lines: list[str]) -> list[str]:
    """No journey is claimed."""
    results = [at for at, line in enumerate(lines) if re.match("arrive |depart ", line)]
    return [*lines[:results[0]], "none", *lines[_labels(lines)[0]:]] if results else lines


def time_claimed(dice: random.Random, lines: list[str]) -> list[str]:
    """Another arrival is claimed, or another departure, which the line of the start repeats."""
    by, form = dice.choice([-60000, -1, 1, 60000]), "(arrive )([0-9]+)" if lines[2].startswith("graph ") else "(depart |start [0-9]+ )([0-9]+)"
    return lines[:2] + [re.sub(form, lambda found: found[1] + str(max(0, int(found[2]) + by)), line) for line in lines[2:]]


def query_changed(dice: random.Random, lines: list[str]) -> list[str]:
    """A field of the query, or its expression, is another one."""
    fields = lines[1].split(" ", 5)
    if len(fields) < 6:
        return lines
    at = dice.randint(1, 7)
    if at < 5:
        fields[at] = dice.choice(FIELDS)
    else:
        fields[5] = dice.choice(EXPRESSIONS) if at == 5 else fields[5] + dice.choice(TAILS) if at == 6 else dice.choice(TAILS)
    return [lines[0], " ".join(fields), *lines[2:]]


def graph_changed(_: random.Random, lines: list[str]) -> list[str]:
    other = {"graph plain": "graph phases", "graph phases": "graph plain"}
    return [other.get(line, line) for line in lines]


DAMAGES: tuple[Damage, ...] = (
    number_moved, number_moved, number_odd, line_dropped, line_doubled, lines_swapped, line_put_in, step_put_in, step_put_in,
    labels_changed, labels_changed, labels_changed, labels_changed, label_lost, label_lost, label_lost, label_lost, end_labelled,
    labels_gone, none_claimed, time_claimed, query_changed, graph_changed)



def damaged(dice: random.Random, text: str) -> tuple[str, str]:
    """A text that is damaged in one way, and which; in some places bytes are dropped at its end, or stand behind it."""
    damage, lines = dice.choice(DAMAGES), text.split("\n")[:-1]
    ending = dice.choice(["\n"] * 30 + ["", "\n\n", "\nend\n"])
    return "\n".join(damage(dice, lines)) + ending, damage.__name__


def _labels(lines: list[str]) -> tuple[int, list[str]]:
    """Where the labels are counted, and their lines."""
    at = next(at for at, line in enumerate(lines) if line.startswith("labels "))
    return at, lines[at + 1:-1]


def _label_moved(dice: random.Random, labels: list[str]) -> list[str]:
    """A number of one of them is one more or less."""
    at = dice.randrange(len(labels))
    moved = _with_number(dice, ["", "", labels[at]], lambda number: str(max(0, int(number) + dice.choice([-1, 1]))))
    return labels[:at] + moved[2:] + labels[at + 1:]


def _label_put_in(dice: random.Random, labels: list[str]) -> list[str]:
    """In its place, near another one: at its node or beside it, in its state or in another one."""
    rows = [tuple(map(int, row.split(" "))) for row in labels]
    node, state, at = dice.choice(rows or [(0, 0, 633_600_000)])
    label = (max(0, node + dice.choice([-2, -1, 0, 0, 1, 1, 2])), max(0, state + dice.randint(-4, 8)), at + dice.randint(0, 1))
    return [" ".join(map(str, row)) for row in sorted([label, *rows])]


def _with_number(dice: random.Random, lines: list[str], change: Callable[[str], str]) -> list[str]:
    """With one number behind the first two lines changed."""
    numbers = [(at, found) for at, line in enumerate(lines) if at > 1 for found in re.finditer("[0-9]+", line)]
    if not numbers:
        return lines
    at, found = dice.choice(numbers)
    return lines[:at] + [lines[at][:found.start()] + change(found[0]) + lines[at][found.end():]] + lines[at + 1:]
