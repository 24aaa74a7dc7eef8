"""The clauses of certificates: docs/COMMANDS.md, "The clauses of a certificate" and "The clauses of a late certificate"."""

import itertools
import math

from certificate_parts.automata import Collapsed, backward, forward
from certificate_parts.faults import Invalid
from certificate_parts.graphs import Graph, Phases, Plain, ends_of, mirrored
from certificate_parts.hierarchies import Hierarchy
from certificate_parts.network import LEAD_DAYS, Network
from certificate_parts.queries import Query, read_query
from certificate_parts.texts import Certificate, Journey, Kind, Label
from certificate_parts.timetable import patterns_of
from region_reader import MODES


def check(network: Network, hierarchy: Hierarchy | None, certificate: Certificate) -> None:
    """Invalid where the certificate is not valid: the first clause that fails."""
    query = read_query(network, certificate.query)
    if certificate.kind is Kind.LATE:
        _check_late(network, query, certificate)
    else:
        if (certificate.kind is Kind.PHASES) != (hierarchy is not None):
            raise Invalid(2, 0)
        _check_usual(network, hierarchy, query, certificate)


def _check_usual(network: Network, hierarchy: Hierarchy | None, query: Query, certificate: Certificate) -> None:
    arrival: float = math.inf
    if certificate.journey is not None:
        end = _check_journey(network, query, certificate.journey, query.moment)
        _check_end(query, end, end[1] == certificate.journey.arrival)
        arrival = end[1]
    graph, starts, ends = _in_use(network, hierarchy, query)
    _check_labels(graph, forward(query.positions), starts, ends, query.moment, arrival, certificate.labels)


def _in_use(network: Network, hierarchy: Hierarchy | None, query: Query) -> tuple[Graph, list[int], set[int]]:
    """The graph that the labels are of, with its starts and its ends."""
    patterns = patterns_of(network)
    if hierarchy is None:
        return Plain(network, patterns), query.origins, set(query.targets)
    graph = Phases(network, patterns, hierarchy, query.targets)
    return graph, [2 * node for node in query.origins], ends_of(hierarchy, query.targets)


def _check_late(network: Network, query: Query, certificate: Certificate) -> None:
    """The labels are of a search back in time, from the destination at the deadline."""
    deadline, earliest = query.moment, network.bases[LEAD_DAYS]
    before = deadline - earliest + 1
    if certificate.journey is not None:
        end = _check_journey(network, query, certificate.journey, earliest)
        _check_end(query, end, end[1] <= deadline)
        before = deadline - certificate.journey.at
    graph = mirrored(network, patterns_of(network), deadline)
    _check_labels(graph, backward(query.positions), query.targets, set(query.origins), 0, before, certificate.labels)


def _check_journey(network: Network, query: Query, journey: Journey, earliest: int) -> tuple[int, int, list[int]]:
    """Clauses 3 and 4. Answers where and when the journey ends, and its word."""
    node, now = journey.start, journey.at
    word: list[int] = []
    if node not in query.origins or now < earliest:
        raise Invalid(3, 0)
    for place, step in enumerate(journey.steps):
        arrival = network.take(step, node, now)
        if arrival is None:
            raise Invalid(4, place)
        node, now, letter = arrival
        if letter is not None and not (letter < len(MODES) and word[-1:] == [letter]):
            word.append(letter)
    return node, now, word


def _check_end(query: Query, end: tuple[int, int, list[int]], timely: bool) -> None:
    """Clause 5."""
    node, _, word = end
    for place, holds in enumerate((node in query.targets, timely, query.positions.accepts(word))):
        if not holds:
            raise Invalid(5, place)


def _check_labels(graph: Graph, automaton: Collapsed, starts: list[int], ends: set[int], departure: int, before: float,
                  labels: list[Label]) -> None:
    """Clauses 6 to 9."""
    for place, label in enumerate(labels):
        in_range = label.node < graph.nodes and label.state < automaton.states and label.at < before
        if not in_range or place and labels[place - 1][:2] >= label[:2]:
            raise Invalid(6, place)
    listed = {label.node * automaton.states + label.state: label.at for label in labels}
    pairs = itertools.product(starts, automaton.starts) if departure < before else ()
    for place, (node, state) in enumerate(pairs):
        if listed.get(node * automaton.states + state, math.inf) > departure:
            raise Invalid(7, place)
    for place, label in enumerate(labels):
        if label.node in ends and automaton.accepts(label.state):
            raise Invalid(8, place)
    for place, label in enumerate(labels):
        if _leads_past(graph, automaton, before, listed, label):
            raise Invalid(9, place)


def _leads_past(graph: Graph, automaton: Collapsed, before: float, listed: dict[int, int], label: Label) -> bool:
    """Whether something leads on from a label, before a time, to what is not labelled by then."""
    letters = automaton.letters(label.state)
    for node, at, letter in graph.ways(label.node, label.at, before, letters):
        for state in automaton.after(label.state, letter):
            known = listed.get(node * automaton.states + state)
            if known is None or known > at:
                return True
    return False
