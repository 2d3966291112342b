"""What is a word or an element of a group in `coxeter_shell.sage`, and the way back to other groups of Sage. It needs Sage."""
import collections.abc
import numbers

from sage.categories.coxeter_groups import CoxeterGroups
from sage.categories.homset import Hom
from sage.categories.morphism import Morphism
from sage.categories.sets_cat import Sets
from sage.combinat.colored_permutations import SignedPermutations
from sage.combinat.permutation import Permutation, Permutations
from sage.combinat.words.finite_word import FiniteWord_class
from sage.groups.perm_gps.permgroup_named import SymmetricGroup
from sage.structure.element import Element


def nodes_in_order(cartan_type):
    """The nodes of a Cartan type in the order of Coxeter 3's letters, by which it takes the first of the reduced words of an element.

        sage: from coxeter_shell.sage import nodes_in_order
        sage: [nodes_in_order(CartanType(it)) for it in (["A", 3], ["B", 3], ["A", 2, 1], ["D", 4, 1], ["E", 6, 1])]
        [[1, 2, 3], [3, 2, 1], [0, 1, 2], [4, 3, 2, 1, 0], [1, 2, 3, 4, 5, 6, 0]]
        sage: nodes_in_order(CartanType(["B", 3]).relabel({1: 7, 2: 8, 3: 9}))
        [9, 8, 7]
    """
    if hasattr(cartan_type, "_relabelling"):
        return [cartan_type._relabelling[node] for node in nodes_in_order(cartan_type._type)]
    nodes = list(cartan_type.index_set())
    if cartan_type.is_irreducible():
        if cartan_type.type() in ("B", "C", "D", "F"):
            return nodes[::-1]
        if cartan_type.type() == "E" and cartan_type.is_affine():
            return nodes[1:] + nodes[:1]
    return nodes


def is_whole(value):
    """Whether a value is a whole number. The truth values of Python are none."""
    return isinstance(value, numbers.Integral) and not isinstance(value, bool)


def word_of(group, given):
    """The list of the nodes of a word, or of a reduced word of an element. What is neither is a TypeError.

        sage: from coxeter_shell.sage import CoxeterGroup
        sage: W = CoxeterGroup(["B", 3])
        sage: W((1, 3)), W(SignedPermutations(3)([3, 2, 1])), W(WeylGroup(["B", 3]).simple_reflection(2))
        ([3, 1], [2, 1, 2], [2])
        sage: W({1, 3})
        Traceback (most recent call last):
        ...
        TypeError: a word is a list or tuple of nodes, and not {1, 3}
        sage: W(WeylGroup(["A", 3]).one())
        Traceback (most recent call last):
        ...
        TypeError: the element is of another group: Weyl Group of type ['A', 3] (as a matrix group acting on the ambient space)
    """
    if isinstance(given, Permutation):
        return word_of_permutation(group, given)
    if isinstance(given, Element) and given.parent() in CoxeterGroups():
        if not is_same(group, given.parent()):
            raise TypeError(f"the element is of another group: {given.parent()}")
        return given.reduced_word()
    if isinstance(given, FiniteWord_class) or isinstance(given, (list, tuple, range, collections.abc.Iterator)) and not isinstance(given, Element):
        return list(given)
    raise TypeError(f"a word is a list or tuple of nodes, and not {given!r}")


def word_of_permutation(group, permutation):
    """A reduced word of a permutation, as Sage has it: permutations are multiplied as maps there."""
    if not is_same(group, Permutations(len(permutation))):
        raise TypeError(f"{permutation} is no element of {group}: it is of the type A {len(permutation) - 1}")
    return permutation.reduced_word()


def is_same(group, other):
    """Whether another Coxeter group has the same nodes and the same Coxeter matrix. What was found last is kept."""
    if group._last_judged[0] is not other:
        mine, theirs = group.coxeter_matrix(), other.coxeter_matrix()
        nodes, given = list(group.index_set()), list(other.index_set())
        if not hasattr(theirs, "index_set"):
            places = {node: place for place, node in enumerate(given)}
        same = set(nodes) == set(given) and len(nodes) == len(given)
        for s in nodes if same else ():
            for t in nodes:
                label = theirs[s, t] if hasattr(theirs, "index_set") else theirs[places[s], places[t]]
                same = same and mine[s, t] == label
        group._last_judged = other, same
    return group._last_judged[1]


def element_of(element, other):
    """The element of another Coxeter group of Sage that has the same Coxeter matrix. Of `Permutations` it is the one with the same reduced
    words, where permutations are multiplied as maps."""
    group = element.parent()
    places = len(group.index_set()) + 1
    same = Permutations(places) if other is Permutations() else other
    if same not in CoxeterGroups() or not is_same(group, same):
        raise TypeError(f"{element} is no element of {other}: it is one of {group}")
    if not issubclass(same.element_class, Permutation):
        return same.from_reduced_word(element.reduced_word())
    values = list(range(1, places + 1))
    for node in element.reduced_word():
        values[node - 1], values[node] = values[node], values[node - 1]
    return other(values)


class Conversion(Morphism):
    """What Sage converts an element by, into another group."""

    def _call_(self, element):
        return element_of(element, self.codomain())

    def _call_with_args(self, element, args=(), kwds=None):
        # Sage gives more arguments where it makes a permutation of a list.
        return self._call_(element)


def register_conversions(group):
    """Sees to it that Sage's permutations are made of the elements of a group, where it has the same Coxeter matrix. Else Sage would take
    an element for the list of its nodes, and that for a permutation."""
    rank = len(group.index_set())
    # They live as long as the group: Sage would make them anew, and without the conversion.
    group._targets = [Permutations()]
    for other in (Permutations(rank + 1), SymmetricGroup(rank + 1), SignedPermutations(rank)):
        if group.is_finite() and is_same(group, other):
            group._targets.append(other)
    for other in group._targets:
        conversion = Conversion(Hom(group, other, Sets()))
        # Sage keeps conversions as long as the other group, and that is for ever: so it has to keep no group of ours.
        conversion._make_weak_references()
        other.register_conversion(conversion)
