"""Smooth Schubert varieties, and rationally smooth ones, compared with published numbers, patterns, tangent spaces, and what is reckoned here of
signed permutations."""
import functools
import itertools
import math
import unittest

import reference
from coxeter_shell import CoxeterGroup

# How many of the varieties are smooth, and how many rationally smooth (Richmond and Slofstra 2017, "Staircase diagrams and enumeration of
# smooth Schubert varieties"; Billey and Postnikov 2005 for G 2). The numbers are reckoned here too.
COUNTS = {
    "A 3": (22, 22),
    "A 4": (88, 88),
    "B 2": (7, 8),
    "C 2": (7, 8),
    "B 3": (28, 34),
    "C 3": (28, 34),
    "B 4": (116, 142),
    "C 4": (114, 142),
    "D 4": (108, 108),
    "G 2": (7, 12),
}

# Rational functions are compared by their values at a point, modulo a prime number.
PRIME = 2**61 - 1
POINT = (271828182845904523, 141421356237309504, 314159265358979323, 173205080756887729, 161803398874989484)


def plane(*entries):
    """A root by its coordinates, with zeros behind them."""
    return entries + (0,) * (len(POINT) - len(entries))


def signed(*images):
    """A signed permutation, which takes the coordinate k to the one of this number, with its sign. Further coordinates stay."""
    return images + tuple(range(len(images) + 1, len(POINT) + 1))


def compose(v, w):
    return tuple(v[abs(k) - 1] * (1 if k > 0 else -1) for k in w)


def simple(letter, n):
    """The simple roots of a type in Bourbaki's coordinates, each with its reflection. In the plane of G 2, where the sum of the coordinates is 0,
    that of the long root is minus an exchange."""
    if letter == "G":
        return [(plane(1, -1, 0), signed(2, 1, 3)), (plane(-2, 1, 1), signed(-1, -3, -2))]
    size = n + (letter == "A")
    found = []
    for k in range(1, size):
        root, images = [0] * size, list(range(1, size + 1))
        root[k - 1], root[k] = 1, -1
        images[k - 1], images[k] = k + 1, k
        found.append((plane(*root), signed(*images)))
    if letter in "BC":
        found.append((plane(*[0] * (n - 1), 1 if letter == "B" else 2), signed(*range(1, n), -n)))
    if letter == "D":
        found.append((plane(*[0] * (n - 2), 1, 1), signed(*range(1, n - 1), -n, 1 - n)))
    return found


def value(v, root):
    """The value of v(root) at the point."""
    return sum(entry * POINT[abs(k) - 1] * (1 if k > 0 else -1) for k, entry in zip(v, root)) % PRIME


def reckoned(letter, n):
    """The reduced words of the elements whose varieties are smooth, by Kumar 1996, and of those whose varieties are rationally smooth: the
    number of elements below them of each length is a palindrome (Carrell and Peterson 1994). What is below is what subwords give."""
    letters = simple(letter, n)
    words, todo = {signed(): ()}, [signed()]
    for v in todo:
        for s, (_, turned) in enumerate(letters, 1):
            if compose(v, turned) not in words:
                words[compose(v, turned)] = (*words[v], s)
                todo.append(compose(v, turned))
    # The root of a reflection is positive where the reflection's element makes one of a simple root without making that longer.
    roots = {}
    for v, word in words.items():
        for s, (root, turned) in enumerate(letters, 1):
            if len(words[compose(v, turned)]) > len(word):
                inverse = functools.reduce(compose, (letters[t - 1][1] for t in reversed(word)), signed())
                roots[compose(compose(v, turned), inverse)] = value(v, root)
    smooth, rationally = set(), set()
    for word in words.values():
        coefficients = {signed(): 1}
        for s in word:
            root, turned = letters[s - 1]
            found = {}
            for v, c in coefficients.items():
                share = c * inverse_of(value(v, root)) % PRIME
                for u, more in ((compose(v, turned), share), (v, -share)):
                    found[u] = (found.get(u, 0) + more) % PRIME
            coefficients = found
        lengths = [len(words[v]) for v in coefficients]
        betti = [lengths.count(k) for k in range(len(word) + 1)]
        if betti == betti[::-1]:
            rationally.add(word)
        below = math.prod([r for t, r in roots.items() if t in coefficients])
        if (coefficients[signed()] * below * (-1) ** len(word) - 1) % PRIME == 0:
            smooth.add(word)
    return smooth, rationally


@functools.lru_cache(maxsize=None)
def inverse_of(number):
    return pow(number, -1, PRIME)


class Smooth(unittest.TestCase):
    def test_numbers(self):
        """Those of Richmond and Slofstra, and which ones they are, as it is reckoned here."""
        for kind, numbers in COUNTS.items():
            with self.subTest(kind), CoxeterGroup(kind) as group:
                elements = list(group.elements())
                found = {w for w in elements if group.is_smooth(w)}
                of_rows = {w for w in elements if group.is_rationally_smooth(w)}
                self.assertEqual((len(found), len(of_rows), found <= of_rows), (*numbers, True))
                smooth, rationally = reckoned(kind[0], int(kind[2:]))
                self.assertEqual(found, set(map(group.normal_form, smooth)))
                self.assertEqual(of_rows, set(map(group.normal_form, rationally)))
                # The variety of w^-1 is the same in G, turned round.
                self.assertEqual({group.inverse(w) for w in found}, found)

    def test_by_patterns(self):
        """Lakshmibai and Sandhya 1990, in symmetric groups."""
        for n in (2, 3, 4):
            with CoxeterGroup("A", n) as group:
                for w, word in reference.group(n).words.items():
                    self.assertIs(group.is_smooth(word), reference.is_smooth(w))

    def test_dihedral_groups(self):
        """By hand in B 2, whose last root is short, and in G 2, whose first is: those of length 3 that begin with the short letter are cones.
        G 2 has five, in its lengths 3 to 5 (Billey and Postnikov 2005)."""
        singular = {}
        for kind in ("B 2", "C 2", "G 2"):
            with CoxeterGroup(kind) as group:
                singular[kind] = [group.text(w) for w in group.elements() if not group.is_smooth(w)]
        self.assertEqual((singular["B 2"], singular["C 2"]), (["212"], ["121"]))
        self.assertEqual((len(singular["G 2"]), "121" in singular["G 2"], "212" in singular["G 2"]), (5, True, False))

    def test_parabolic_bundles(self):
        """The longest element of a parabolic subgroup has a smooth variety, and so has a product of different letters."""
        for kind in ("B 4", "C 4", "F 4"):
            with CoxeterGroup(kind) as group:
                for k in range(group.rank + 1):
                    for letters in itertools.combinations(range(1, group.rank + 1), k):
                        self.assertTrue(group.is_smooth(group._longest_of(set(letters))))
                        self.assertTrue(group.is_smooth(letters[::-1]))

    def test_parts_of_a_group(self):
        """In a parabolic subgroup it is as in that group alone: that of the letters 2 and 3 of F 4 is B 2, whose last root is short."""
        with CoxeterGroup("F", 4) as group:
            self.assertEqual([group.is_smooth(w) for w in ("232", "323", "2323")], [True, False, True])
        with CoxeterGroup("F", 4) as group, CoxeterGroup("B", 3) as part, CoxeterGroup("C", 3) as other:
            for w in part.elements():
                self.assertIs(group.is_smooth(w), part.is_smooth(w))
            # The letters 2, 3, 4 are C 3 from its last one on.
            for w in other.elements():
                self.assertIs(group.is_smooth([5 - s for s in w]), other.is_smooth(w))

    def test_refused(self):
        for kind in ([[1, 4], [4, 1]], "A2xB2", "c 2", "a 2"):
            with CoxeterGroup(kind) as group, self.assertRaises(ValueError):
                group.is_smooth("12")
        with CoxeterGroup([[1, 3], [3, 1]]) as group:
            self.assertIs(group.is_smooth("121"), True)
        with CoxeterGroup("A2xD4") as group:
            self.assertIs(group.is_smooth("12"), True)


class AtPoints(unittest.TestCase):
    def test_by_tangent_spaces(self):
        """Lakshmibai and Seshadri 1984, at each point of each variety of S 4; and of some of S 5."""
        for n in (2, 3):
            real = reference.group(n)
            with CoxeterGroup("A", n) as group:
                for w, x in itertools.product(real, repeat=2):
                    if reference.below(x, w):
                        self.assertIs(group.is_rationally_smooth(real.words[w], at=real.words[x]), reference.is_smooth_at(w, x))
                    else:
                        with self.assertRaises(ValueError):
                            group.is_rationally_smooth(real.words[w], at=real.words[x])

    def test_by_reflections(self):
        """Carrell and Peterson 1994: it is rationally smooth at x where for x <= y <= w there are l(w) reflections t with yt <= w."""
        for kind in ("B 3", "G 2"):
            with CoxeterGroup(kind) as group:
                reflections = group.reflections()
                for w in list(group.elements())[::3]:
                    below = set(group.bruhat_interval("e", w))
                    many = {y: sum(group.product(y, t) in below for t in reflections) for y in below}
                    for x in below:
                        wanted = all(many[y] == len(w) for y in group.bruhat_interval(x, w))
                        self.assertIs(group.is_rationally_smooth(w, at=x), wanted)


if __name__ == "__main__":
    unittest.main()
