"""Coxeter diagrams as texts, as the manual draws them."""
import math

from . import kinds

# A drawing of at most this width has long lines between its nodes.
MOST_WIDE = 100


def diagram(matrix):
    """The lines of a drawing of the Coxeter diagram. A line without a number has the label 3.

    >>> print(*diagram(kinds.named_matrix("D", 5)), sep=chr(10))
    1 --- 2 --- 3 --- 4
                |
                5
    """
    lines = []
    for nodes in kinds.components(matrix):
        joined = {s: {t: matrix[s][t] for t in nodes if matrix[s][t] not in (1, 2)} for s in nodes}
        drawn = tree(joined) if sum(map(len, joined.values())) == 2 * len(nodes) - 2 else ring(joined)
        lines += [""] * bool(lines) + (drawn or listed(joined))
    return lines


def mark(label):
    return "infinity" if label == math.inf else str(label)


def joint(label, short):
    """What stands between two nodes that are joined."""
    if label == 3:
        return " - " if short else " --- "
    return f" ={mark(label)}= "


def row(joined, path):
    """A path of nodes as a line, and where each of them stands in it."""
    for short in (False, True):
        text, places = "", {}
        for s, t in zip(path, [*path[1:], None]):
            places[s] = len(text)
            text += str(s + 1) + (joint(joined[s][t], short) if t is not None else "")
        if len(text) <= MOST_WIDE:
            break
    return text, places


def longest_path(joined, start):
    """A longest path in a tree from a node, where it goes to the nodes of small numbers first."""
    paths, best = [[start]], [start]
    while paths:
        path = paths.pop(0)
        best = path if len(path) > len(best) else best
        paths += [[*path, t] for t in sorted(joined[path[-1]]) if t not in path]
    return best


def tree(joined):
    """A tree as one line, from which paths hang down, or stand up where one hangs there already. None where there are more."""
    best = max((longest_path(joined, s) for s in sorted(joined)), key=len)
    text, places = row(joined, best)
    hanging = {1: [], -1: []}
    for s in best:
        arms = [longest_path({**joined, s: {t: joined[s][t]}}, s)[1:] for t in sorted(joined[s]) if t not in best]
        if len(arms) > 2:
            return None
        for side, arm in zip((1, -1), sorted(arms, key=len, reverse=True)):
            hanging[side].append((places[s], [s, *arm]))
    drawn = len(best) + sum(len(arm) - 1 for side in hanging.values() for _, arm in side)
    if drawn < len(joined):
        return None
    return [*vertical(joined, hanging[-1])[::-1], text, *vertical(joined, hanging[1])]


def vertical(joined, arms):
    """Paths that hang down from places of a line."""
    lines = []
    for depth in range(2 * max((len(arm) - 1 for _, arm in arms), default=0)):
        line = ""
        for place, arm in arms:
            if depth < 2 * len(arm) - 2:
                s, t = arm[depth // 2 : depth // 2 + 2]
                label = joined[s][t]
                line = line.ljust(place) + (str(t + 1) if depth % 2 else "|" + (f" {mark(label)}" if label != 3 else ""))
        lines.append(line)
    return lines


def ring(joined):
    """A ring of nodes: a line, and the way back below it, with the label of that. None for other graphs."""
    if any(len(it) != 2 for it in joined.values()):
        return None
    first = min(joined)
    path = [first, min(joined[first])]
    while len(path) < len(joined):
        path.append(next(t for t in joined[path[-1]] if t not in path))
    text, places = row(joined, path)
    label = joined[path[-1]][first]
    back = places[path[-1]] - 1
    return [text, "|" + " " * back + "|", f"+{(f' {mark(label)} ' if label != 3 else '').center(back, '-')}+"]


def listed(joined):
    """The edges, in lines of a few each."""
    edges = [f"{s + 1}{joint(label, False)}{t + 1}" for s in joined for t, label in joined[s].items() if s < t]
    return [", ".join(edges[at : at + 6]) for at in range(0, len(edges), 6)]


def table(matrix):
    """The lines of a Coxeter matrix, in which 0 is infinity.

    >>> table(kinds.named_matrix("B", 3))
    ['1 3 2', '3 1 4', '2 4 1']
    """
    return [" ".join(str(0 if label == math.inf else label) for label in line) for line in matrix]
