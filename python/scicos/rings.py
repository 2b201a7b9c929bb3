"""Rings of a graph: its strongly connected components."""
from __future__ import annotations

from collections.abc import Iterator, Mapping, Set


def components(after: Mapping[int, Set[int]]) -> Iterator[frozenset[int]]:
    """The sets of numbers that lead to each other, those that are led to first; a number alone is one too.

    >>> [sorted(found) for found in components({1: {2}, 2: {3}, 3: {2}})]
    [[2, 3], [1]]
    """
    order: dict[int, int] = {}
    low: dict[int, int] = {}
    kept: list[int] = []
    inside: set[int] = set()
    for root in after:
        if root in order:
            continue
        path = [(root, iter(sorted(after.get(root, ()))))]
        order[root] = low[root] = len(order)
        kept.append(root)
        inside.add(root)
        while path:
            at, further = path[-1]
            to = next(further, None)
            if to is None:
                path.pop()
                if path:
                    low[path[-1][0]] = min(low[path[-1][0]], low[at])
                if low[at] == order[at]:
                    start = kept.index(at)
                    found = frozenset(kept[start:])
                    del kept[start:]
                    inside -= found
                    yield found
            elif to not in order:
                order[to] = low[to] = len(order)
                kept.append(to)
                inside.add(to)
                path.append((to, iter(sorted(after.get(to, ())))))
            elif to in inside:
                low[at] = min(low[at], order[to])


def ringed(after: Mapping[int, Set[int]]) -> set[int]:
    """The numbers that lead back to themselves.

    >>> sorted(ringed({1: {2}, 2: {3}, 3: {2}, 4: {4}}))
    [2, 3, 4]
    """
    return {number for found in components(after) for number in found
            if len(found) > 1 or number in after.get(number, ())}
