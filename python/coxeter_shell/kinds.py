"""How a group is given: by its type, its Coxeter matrix, or an object of Sage. And what a Coxeter matrix tells of its group."""
import collections
import math
import operator
import re

from .errors import Refusal

MOST_RANK = 16
LABELS = (2, 3, 4, 6, math.inf)

# The least and the greatest number of each named type.
TYPES = {"A": (1, 16), "B": (2, 16), "D": (4, 16), "E": (6, 8), "F": (4, 4), "G": (2, 2), "a": (1, 15)}

# The same of the other affine types, whose node 0 is the last letter; to which node it is joined, and by which label. They are given to
# the program by their matrices.
AFFINE = {"b": (3, 15), "c": (2, 15), "d": (4, 15), "e": (6, 8), "f": (4, 4), "g": (2, 2)}
JOINED = {"b": 2, "c": 1, "d": 2, "e6": 2, "e7": 1, "e8": 8, "f": 1, "g": 2}

# The same of all letters that are taken. C n is the Coxeter group B n.
NAMED = {**TYPES, "C": TYPES["B"], **AFFINE}

# The text of a product of named types.
PRODUCT = re.compile(" *[A-Za-z] *[0-9]+ *([x×] *[A-Za-z] *[0-9]+ *)+")

Kind = collections.namedtuple("Kind", "line matrix nodes cartan", defaults=(None,))
Kind.__doc__ = """A group: the line that sets it, its Coxeter matrix, what Sage calls its nodes, in the order of the letters, and its Cartan
type as a tuple, as ("C", 3) or ("A", 2, 1), where it was given by one."""


def read(kind, rank=None):
    """The group of what CoxeterGroup is given.

    >>> read("B3").line, read(["A", 2, 1]).line, read([[1, 3], [3, 1]]).line
    ('type B 3', 'type a 2', 'matrix 2 3')
    >>> read("g2").line, read("A2xB2").line
    ('matrix 3 6 2 3', 'matrix 4 3 2 2 2 2 4')
    """
    if rank is None and not isinstance(kind, str) and hasattr(kind, "coxeter_matrix"):
        return of_object(kind)
    if isinstance(kind, (list, tuple)) and kind and isinstance(kind[0], str):
        if rank is not None or len(kind) not in (2, 3) or tuple(kind[2:]) not in ((), (1,)):
            raise ValueError(f"{kind!r} is no type: write [\"A\", 3], or [\"A\", 3, 1] for the affine group")
        kind, rank = (kind[0].lower() if len(kind) == 3 else kind[0]), kind[1]
    if isinstance(kind, str) and rank is None and PRODUCT.fullmatch(kind):
        return of_factors([read(it) for it in re.split("[x×]", kind)])
    if isinstance(kind, str):
        return of_words(split(kind) if rank is None else [kind, str(operator.index(rank))], kind)
    if rank is not None:
        raise ValueError("a matrix has its rank in it")
    return of_rows(kind)


def split(text):
    """The words of a text that names a group: "A 3", "A3", "type A 3" or "matrix 3 3 2 4"."""
    words = text.split()
    if words[:1] == ["type"]:
        words.pop(0)
    joined = re.fullmatch("([A-Za-z]+)([0-9]+)", words[0]) if len(words) == 1 else None
    return list(joined.groups()) if joined else words


def of_words(words, kind):
    """The group of a `type` or `matrix` line."""
    if words[:1] == ["matrix"] and len(words) > 1:
        line = " ".join(words)
        size = whole(words[1], line)
        if not 1 <= size <= MOST_RANK:
            raise Refusal(12, line)
        if len(words) != 2 + size * (size - 1) // 2:
            raise Refusal(11, line)
        labels = iter([whole(it, line) for it in words[2:]])
        matrix = [[1] * size for _ in range(size)]
        for s in range(size):
            for t in range(s + 1, size):
                matrix[s][t] = matrix[t][s] = next(labels) or math.inf
        return checked(matrix)
    if len(words) != 2:
        raise ValueError(f"{kind!r} is no group: write \"A 3\" or \"matrix 3 3 2 4\"")
    return of_type(*words)


def of_type(letter, number):
    """The group of a named type."""
    given, letter = letter, "B" if letter == "C" else letter
    line = f"type {letter} {number}"
    rank = whole(number, line)
    least, greatest = NAMED.get(letter, (1, 0))
    if not least <= rank <= greatest:
        raise Refusal(13, line, why_no_type(given, rank))
    if letter in AFFINE:
        nodes = (*range(1, rank + 1), 0)
        return checked(affine_matrix(letter, rank))._replace(nodes=nodes, cartan=(letter.upper(), rank, 1))
    matrix = named_matrix(letter, rank)
    nodes = range(1, len(matrix) + 1)
    cartan = ("A", rank, 1) if letter == "a" else (given, rank)
    return Kind(f"type {letter} {rank}", matrix, (*nodes[:-1], 0) if letter == "a" else tuple(nodes), cartan)


def why_no_type(letter, rank):
    """Why there is no such named type.

    >>> why_no_type("A", 17), why_no_type("E", 9)
    ('groups have rank 1 to 16', 'the types of this letter are E 6 to E 8')
    >>> why_no_type("h", 3)
    'H 3 has a label other than 2, 3, 4, 6 and infinity, and such labels are not taken'
    """
    if letter.upper() in ("H", "I"):
        return f"{letter.upper()} {rank} has a label other than 2, 3, 4, 6 and infinity, and such labels are not taken"
    if letter not in NAMED:
        return f"the letters are {', '.join(sorted(NAMED))}"
    least, greatest = NAMED[letter]
    if rank > greatest and greatest + letter.islower() == MOST_RANK:
        return f"groups have rank 1 to {MOST_RANK}"
    last = f" to {letter} {greatest}" if greatest > least else ""
    return f"the type of this letter is {letter} {least}" if not last else f"the types of this letter are {letter} {least}{last}"


def of_rows(rows):
    """The group of a Coxeter matrix, in which infinity is 0, -1 or math.inf."""
    rows = [[label(it) for it in row] for row in rows]
    size = range(len(rows))
    if any(len(row) != len(rows) for row in rows):
        raise ValueError("a Coxeter matrix has as many columns as rows")
    if any(rows[s][s] != 1 for s in size) or any(rows[s][t] != rows[t][s] for s in size for t in size):
        raise ValueError("a Coxeter matrix is symmetric, and has 1 on its diagonal")
    return checked(rows)


def of_object(kind):
    """The group of a Cartan type, a Coxeter matrix or a Coxeter group of Sage, or of a group of this package.

    The nodes are in Sage's order, but a node 0, as affine types have it, becomes the last letter. A named type is found by
    its Coxeter matrix.
    """
    try:
        matrix = kind.coxeter_matrix()
    except TypeError:
        # Cartan matrices and Dynkin diagrams of Sage leave that to their Cartan types, where they have one.
        given, kind = kind, getattr(kind, "cartan_type", lambda: None)()
        if kind is None or kind is given:
            raise ValueError(f"no Coxeter matrix is known of it: {given!r}") from None
        matrix = kind.coxeter_matrix()
    if not hasattr(matrix, "index_set"):
        return named(of_rows(matrix))
    nodes = sorted(matrix.index_set(), key=lambda node: node == 0)
    found = named(of_rows([[matrix[s, t] for t in nodes] for s in nodes]))
    return found._replace(nodes=tuple(nodes), cartan=cartan_of(kind, found.matrix) or found.cartan)


def cartan_of(kind, matrix):
    """The Cartan type of an object of Sage as a tuple, None where it has none that is known here and has this Coxeter matrix."""
    cartan = kind.cartan_type() if hasattr(kind, "cartan_type") else kind
    letter, number, affine = (getattr(cartan, name, None) for name in ("letter", "n", "affine"))
    if callable(affine):  # the finite types of Sage have a method of this name, which gives another type
        affine = None
    if not isinstance(letter, str) or number is None or affine not in (None, False, 0, 1):
        return None
    found = (letter, int(number), 1) if affine else (letter, int(number))
    try:
        return found if read(list(found)).matrix == matrix else None
    except (ValueError, Refusal):
        return None


def of_factors(factors):
    """The product of some groups, whose letters follow one another."""
    size = sum(len(it.matrix) for it in factors)
    rows = [[1 if s == t else 2 for t in range(size)] for s in range(size)]
    at = 0
    for factor in factors:
        for s, row in enumerate(factor.matrix):
            rows[at + s][at : at + len(row)] = row
        at += len(factor.matrix)
    return checked(rows)


def named(kind):
    """The same group by its name, if it has one."""
    for letter, (least, greatest) in TYPES.items():
        number = len(kind.matrix) - (letter == "a")
        if least <= number <= greatest and named_matrix(letter, number) == kind.matrix:
            return of_type(letter, str(number))
    return kind


def checked(rows):
    """The group of a symmetric matrix, if the program takes its size and its labels."""
    size = range(len(rows))
    labels = [rows[s][t] for s in size for t in range(s + 1, len(rows))]
    line = " ".join(["matrix", str(len(rows)), *(str(0 if it == math.inf else it) for it in labels)])
    if not 1 <= len(rows) <= MOST_RANK:
        raise Refusal(12, line)
    if not all(it in LABELS for it in labels):
        raise Refusal(14, line)
    return Kind(line, tuple(map(tuple, rows)), tuple(range(1, len(rows) + 1)))


def whole(text, line):
    """The number that a word is."""
    if not re.fullmatch("[0-9]{1,9}", text):
        raise Refusal(12, line)
    return int(text)


def label(it):
    """A label of a Coxeter matrix: infinity may be 0, and Sage writes it as -1."""
    return math.inf if it in (0, -1, math.inf) else operator.index(it)


def affine_matrix(letter, number):
    """The Coxeter matrix of an affine type other than A: that of the finite type, with a node more, which is the node 0 of Sage and Bourbaki.

    >>> affine_matrix("c", 2)
    ((1, 4, 4), (4, 1, 2), (4, 2, 1))
    """
    finite = named_matrix("B" if letter == "c" else letter.upper(), number)
    node = JOINED.get(letter) or JOINED[f"{letter}{number}"]
    last = [2] * number
    last[node - 1] = 4 if letter == "c" else 3
    return tuple((*row, label) for row, label in zip(finite, last)) + ((*last, 1),)


def named_matrix(letter, number):
    """The Coxeter matrix of a named type, with the nodes as the manual draws them.

    >>> named_matrix("B", 3)
    ((1, 3, 2), (3, 1, 4), (2, 4, 1))
    """
    size = number + (letter == "a")
    labels = {(s, s + 1): 3 for s in range(1, size)}
    if letter == "B":
        labels[size - 1, size] = 4
    elif letter == "D":
        del labels[size - 1, size]
        labels[size - 2, size] = 3
    elif letter == "E":
        del labels[1, 2], labels[2, 3]
        labels[1, 3] = labels[2, 4] = 3
    elif letter == "F":
        labels[2, 3] = 4
    elif letter == "G":
        labels[1, 2] = 6
    elif letter == "a":
        labels[1, size] = 3 if number > 1 else math.inf
    nodes = range(1, size + 1)
    return tuple(tuple(1 if s == t else labels.get((min(s, t), max(s, t)), 2) for t in nodes) for s in nodes)


# ---- what the matrix tells of the group


def components(matrix):
    """The connected components of the Coxeter diagram, each as the list of its rows' numbers."""
    left, found = set(range(len(matrix))), []
    while left:
        component = todo = {min(left)}
        while todo:
            todo = {t for s in todo for t in left - component if matrix[s][t] != 2}
            component = component | todo
        left -= component
        found.append(sorted(component))
    return found


def finite_type(matrix, nodes):
    """The type of a connected component, as ("B", 3), None where its group is infinite (Humphreys, section 2.7)."""
    size = len(nodes)
    joined = {s: [t for t in nodes if matrix[s][t] not in (1, 2)] for s in nodes}
    labels = sorted(matrix[s][t] for s in nodes for t in joined[s] if s < t)
    ends = [s for s in nodes if len(joined[s]) == 1]
    branches = [s for s in nodes if len(joined[s]) > 2]
    if len(labels) != size - 1 or labels[-1:] == [math.inf]:
        return None
    if labels == [6]:
        return "G", 2
    if labels[-1:] == [4] and labels[-2:-1] != [4] and not branches:
        if any(matrix[s][t] == 4 for s in ends for t in joined[s]):
            return "B", size
        return ("F", 4) if size == 4 else None
    if labels[-1:] not in ([], [3]):
        return None
    if not branches:
        return "A", size
    arms = sorted(arm(joined, branches[0], t) for t in joined[branches[0]])
    if len(branches) > 1 or len(arms) > 3 or arms[0] > 1 or arms[1] > 2:
        return None
    if arms[1] == 1:
        return "D", size
    return ("E", size) if size <= 8 else None


def arm(joined, branch, node):
    """How many nodes there are from this one on, away from a branch node."""
    count, before = 1, branch
    while len(joined[node]) == 2:
        count, before, node = count + 1, node, next(t for t in joined[node] if t != before)
    return count


def cardinality(matrix):
    """How many elements the group of a Coxeter matrix has (Humphreys, section 2.11).

    >>> cardinality(named_matrix("E", 8)), cardinality(named_matrix("a", 2))
    (696729600, inf)
    """
    total = 1
    for nodes in components(matrix):
        found = finite_type(matrix, nodes)
        if found is None:
            return math.inf
        letter, rank = found
        if letter in "ABD":
            total *= {"A": rank + 1, "B": 2**rank, "D": 2 ** (rank - 1)}[letter] * math.factorial(rank)
        else:
            total *= {"E6": 51840, "E7": 2903040, "E8": 696729600, "F4": 1152, "G2": 12}[f"{letter}{rank}"]
    return total


def part(matrix, nodes):
    """The Coxeter matrix of the subgroup that some nodes generate."""
    return tuple(tuple(matrix[s][t] for t in nodes) for s in nodes)


# An integer matrix with at most 16 rows and finite order has at most this order: the order of an element of order k needs a
# row for each unit of phi(p^a), over the powers p^a of primes that divide k exactly, but for p^a = 2.
MOST_ORDER = 840

# Minus the entries of the Cartan matrix above and below its diagonal, by the labels of the Coxeter matrix.
ABOVE = {3: 1, 4: 2, 6: 3, math.inf: 2}
BELOW = {3: 1, 4: 1, 6: 1, math.inf: 2}


def neighbours(matrix):
    """For each node s those t that are joined to it, with minus the entry (s, t) of a Cartan matrix: s takes the root of t to the sum of that
    and so many times the root of s.

    >>> neighbours(named_matrix("B", 2)), neighbours(named_matrix("A", 2))
    ([[(1, 2)], [(0, 1)]], [[(1, 1)], [(0, 1)]])
    """
    size = range(len(matrix))
    return [[(t, (ABOVE if s < t else BELOW)[matrix[s][t]]) for t in size if matrix[s][t] in ABOVE] for s in size]


def order(matrix, word):
    """The order of the element of a word, math.inf where it has none: that of its matrix in a reflection representation.

    The representation has the root basis of a Cartan matrix that belongs to the labels, and integers as entries. It is
    faithful (Kac, "Infinite dimensional Lie algebras", section 3.13).
    """
    size, joined = range(len(matrix)), neighbours(matrix)
    identity = [[int(s == t) for s in size] for t in size]
    columns = [list(it) for it in identity]
    for exponent in range(1, MOST_ORDER + 1):
        for letter in word:
            image = columns[letter - 1]
            for t, entry in joined[letter - 1]:
                columns[t] = [a + entry * b for a, b in zip(columns[t], image)]
            columns[letter - 1] = [-it for it in image]
        if columns == identity:
            return exponent
        if abs(sum(columns[s][s] for s in size)) > len(matrix):
            break  # a matrix of finite order has roots of unity as eigenvalues
    return math.inf
