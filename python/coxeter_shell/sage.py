"""Sage's interface to Coxeter 3, with the program `coxeter` in the place of Coxeter 3. It needs Sage.

In the place of `from sage.libs.coxeter3.coxeter_group import CoxeterGroup` write

    sage: from coxeter_shell.sage import CoxeterGroup
    sage: W = CoxeterGroup(["A", 3])
    sage: W.kazhdan_lusztig_polynomial([2], [2, 1, 3, 2])
    q + 1

or let Sage itself use it, wherever it uses Coxeter 3:

    sage: import coxeter_shell.sage
    sage: coxeter_shell.sage.register()
    sage: from sage.combinat.root_system.coxeter_group import CoxeterGroup
    sage: CoxeterGroup(["B", 3], implementation="coxeter3")
    Coxeter group of type ['B', 3] implemented by coxeter_shell
"""
import sys
import types
from collections.abc import Hashable

from sage.categories.coxeter_groups import CoxeterGroups
from sage.combinat.root_system.cartan_matrix import CartanMatrix
from sage.combinat.root_system.cartan_type import CartanType, CartanType_abstract
from sage.combinat.root_system.coxeter_matrix import CoxeterMatrix
from sage.combinat.root_system.coxeter_type import CoxeterType
from sage.combinat.root_system.dynkin_diagram import DynkinDiagram_class
from sage.misc.cachefunc import cached_method
from sage.misc.superseded import deprecation
from sage.rings.infinity import infinity
from sage.rings.integer import Integer
from sage.rings.integer_ring import ZZ
from sage.rings.polynomial.polynomial_ring_constructor import PolynomialRing
from sage.sets.family import Family
from sage.structure.element import Element
from sage.structure.element_wrapper import ElementWrapper
from sage.structure.parent import Parent
from sage.structure.richcmp import richcmp
from sage.structure.unique_representation import UniqueRepresentation

from . import group, kinds
from .errors import Refusal
from .program import MOST_OF_WORD
from .sage_cells import CellModule, Cells  # noqa: F401
from .sage_words import element_of, is_whole, nodes_in_order, register_conversions, word_of

# What Sage takes for a Cartan type, though it is a matrix or a graph that has one.
WITH_TYPE = (CartanMatrix, DynkinDiagram_class)

# The module of Sage in whose place this one stands.
REPLACED = "sage.libs.coxeter3.coxeter_group"


def register():
    """Puts this module in the place of Sage's interface to Coxeter 3. From then on Sage's functions use it, as they would use Coxeter 3:
    `CoxeterGroup(.., implementation="coxeter3")`, products in the Kazhdan-Lusztig basis C' of a Hecke algebra, and the cells that are made
    of them. Call it before Sage has made such a group.

        sage: import coxeter_shell.sage
        sage: coxeter_shell.sage.register()
        sage: R.<v> = LaurentPolynomialRing(ZZ)
        sage: Cp = IwahoriHeckeAlgebra("A3", v**2).Cp()
        sage: Cp[2] * Cp[1,2]
        Cp[1,2,1] + Cp[2]
    """
    package = REPLACED.rpartition(".")[0]
    try:
        __import__(package)
    except ImportError:
        sys.modules[package] = types.ModuleType(package)
    sys.modules[REPLACED] = sys.modules[__name__]


def cartan_type_of(given):
    """The Cartan type of what stands for a group: a type, its name, a Cartan matrix, a Dynkin diagram, a Coxeter matrix, or a group of Sage
    that has one of these. What has no Cartan type is a NotImplementedError.

        sage: from coxeter_shell.sage import CoxeterGroup
        sage: CoxeterGroup(CoxeterMatrix(["B", 3]))
        Coxeter group of type ['B', 3] implemented by coxeter_shell
        sage: CoxeterGroup(CartanMatrix("B3")) is CoxeterGroup(DynkinDiagram("B3")) is CoxeterGroup("B3")
        True
        sage: CoxeterGroup(WeylGroup(["C", 3]))
        Coxeter group of type ['C', 3] implemented by coxeter_shell
    """
    if isinstance(given, WITH_TYPE):
        found = given.cartan_type()
    elif isinstance(given, CoxeterMatrix) or hasattr(given, "coxeter_type") and not hasattr(given, "cartan_type"):
        found = given.coxeter_type()
    else:
        try:
            found = CartanType(given)
        except TypeError:
            raise TypeError(f"{given!r} is no Cartan type, and has none") from None
    if isinstance(found, CoxeterType) and hasattr(found, "cartan_type"):
        found = found.cartan_type()
    if not isinstance(found, CartanType_abstract) or isinstance(found, WITH_TYPE):
        raise NotImplementedError("the matrix has no Cartan type: coxeter_shell.CoxeterGroup takes it")
    return found


class CoxeterGroup(Cells, UniqueRepresentation, Parent):
    """The Coxeter group of a Cartan type, of rank 1 to 16, whose labels are 2, 3, 4, 6 and infinity. Its elements are the normal forms of
    Coxeter 3, as words in the nodes of the Cartan type.

    A word is a list, a tuple, an iterator or a word of Sage, whose letters are nodes; it need not be reduced. Elements of Sage's groups
    with the same nodes and Coxeter matrix are taken as well, as of a Weyl group, `CoxeterGroup` in each of its implementations,
    `SymmetricGroup`, `Permutations` and `SignedPermutations`. What is none of these is a TypeError, and a letter that is no node a
    ValueError. The way back is `as_element_of`.

    `program` and the options of the program may be given, as for `coxeter_shell.CoxeterGroup`. `coxeter_shell.CoxeterGroup(W)` is the
    group of that package, which takes elements of W as words; its letters are the nodes, and a node 0 is its last letter.

        sage: from coxeter_shell.sage import CoxeterGroup
        sage: W = CoxeterGroup(["A", 2]); W
        Coxeter group of type ['A', 2] implemented by coxeter_shell
        sage: list(W)
        [[], [1], [2], [1, 2], [2, 1], [1, 2, 1]]
        sage: CoxeterGroup(["H", 3])
        Traceback (most recent call last):
        ...
        NotImplementedError: there is no group of type ['H', 3]: a label of the matrix is not 0, 2, 3, 4 or 6
        sage: TestSuite(W).run()
        sage: TestSuite(CoxeterGroup(["C", 2, 1])).run()
    """

    @staticmethod
    def __classcall__(cls, cartan_type, *args, **options):
        return super().__classcall__(cls, cartan_type_of(cartan_type), *args, **options)

    def __init__(self, cartan_type, **options):
        category = CoxeterGroups()
        if cartan_type.is_finite():
            category = category.Finite()
        Parent.__init__(self, category=category)
        self._cartan_type = cartan_type
        # Sage's methods look for it by this name.
        self._index_set = cartan_type.index_set()
        self._nodes = nodes_in_order(cartan_type)
        self._letters = {node: letter for letter, node in enumerate(self._nodes, 1)}
        self._last_judged = None, False
        matrix = cartan_type.coxeter_matrix()
        try:
            self._shell = group.CoxeterGroup([[matrix[s, t] for t in self._nodes] for s in self._nodes], **options)
        except Refusal as refusal:
            raise NotImplementedError(f"there is no group of type {cartan_type}: {refusal.meaning}") from refusal
        register_conversions(self)

    def _repr_(self):
        return f"Coxeter group of type {self.cartan_type()} implemented by coxeter_shell"

    def __iter__(self):
        """The elements, in ShortLex order."""
        return map(self._element, self._shell.elements())

    # The program has letters, and Sage has nodes. What is public here is in nodes.

    def _element(self, letters):
        """The element of a normal form, which the program has given."""
        made = self.element_class.__new__(self.element_class)
        ElementWrapper.__init__(made, self, tuple([self._nodes[letter - 1] for letter in letters]))
        return made

    def _element_constructor_(self, word):
        return self.element_class(self, word)

    def _find_letter(self, node):
        """The letter of a node, None where it is none. 1.0 and True are no nodes, though they are equal to 1."""
        letter = self._letters.get(node) if isinstance(node, Hashable) else None
        return letter if letter is None or is_whole(node) or not is_whole(self._nodes[letter - 1]) else None

    def _letter(self, node):
        """The letter of a node. What is no node is a ValueError."""
        letter = self._find_letter(node)
        if letter is None:
            raise ValueError(f"{node!r} is no node of {self.cartan_type()}")
        return letter

    def _nodes_of(self, word):
        """The nodes of a word, or of an element."""
        return [self._nodes[self._letter(node) - 1] for node in word_of(self, word)]

    def _word(self, w):
        """The letters of the normal form of a word, or of an element."""
        return tuple([self._letters[node] for node in self(w).value])

    def _node_set(self, letters):
        """The nodes of a set of letters, as a rising tuple."""
        return tuple(sorted(self._nodes[letter - 1] for letter in letters))

    def _product(self, nodes):
        """The letters of the normal form of a list of nodes, which may be longer than the program takes at once."""
        letters = [self._letters[node] for node in nodes]
        return self._shell.product(*(letters[at : at + MOST_OF_WORD] for at in range(0, len(letters), MOST_OF_WORD)))

    def close(self):
        """Ends the program. Another question would start it again."""
        self._shell.close()

    def cartan_type(self):
        """The Cartan type."""
        return self._cartan_type

    def index_set(self):
        """The nodes of the Cartan type. Those of affine types begin with 0.

            sage: from coxeter_shell.sage import CoxeterGroup
            sage: CoxeterGroup(["A", 3, 1]).index_set()
            (0, 1, 2, 3)
        """
        return self.cartan_type().index_set()

    def rank(self):
        """The number of the nodes."""
        return Integer(self._shell.rank)

    @cached_method
    def coxeter_matrix(self):
        """The Coxeter matrix, in the order of `index_set`.

            sage: from coxeter_shell.sage import CoxeterGroup
            sage: CoxeterGroup(["C", 3]).coxeter_matrix()
            [1 3 2]
            [3 1 4]
            [2 4 1]
        """
        matrix, places = self._shell.coxeter_matrix(), [self._letters[node] - 1 for node in self.index_set()]
        rows = [[-1 if matrix[s][t] == infinity else Integer(matrix[s][t]) for t in places] for s in places]
        return CoxeterMatrix(rows, self.index_set())

    def m(self, i, j):
        """A label of the Coxeter matrix. Sage has done away with this method."""
        deprecation(30237, "the .m(i, j) method has been deprecated; use .coxeter_matrix()[i,j] instead.")
        return self.coxeter_matrix()[i, j]

    def root_system(self):
        """The root system of the Cartan type."""
        return self.cartan_type().root_system()

    def is_finite(self):
        """Whether the group is finite."""
        return self._shell.is_finite()

    def cardinality(self):
        """How many elements the group has.

            sage: from coxeter_shell.sage import CoxeterGroup
            sage: CoxeterGroup(["E", 8]).cardinality(), CoxeterGroup(["A", 2, 1]).cardinality()
            (696729600, +Infinity)
        """
        return Integer(self._shell.cardinality()) if self.is_finite() else infinity

    order = cardinality

    def degrees(self):
        """The degrees of the invariants of a finite group, those of each irreducible component as a rising tuple, one after another.

            sage: from coxeter_shell.sage import CoxeterGroup
            sage: CoxeterGroup(["B", 3]).degrees(), CoxeterGroup(["B", 3]).codegrees(), CoxeterGroup("A2xB2").degrees()
            ((2, 4, 6), (0, 2, 4), (2, 3, 2, 4))
        """
        if not self.is_finite():
            raise ValueError("an infinite group has no degrees")
        matrix, found = self._shell.coxeter_matrix(), ()
        for nodes in self.irreducible_component_index_sets():
            part = kinds.part(matrix, [self._letter(node) - 1 for node in nodes])
            found += tuple(map(Integer, group.CoxeterGroup(part).degrees()))
        return found

    @cached_method
    def reflection_index_set(self):
        """The numbers of the reflections of a finite group, from 1 on.

            sage: from coxeter_shell.sage import CoxeterGroup
            sage: CoxeterGroup(["B", 2]).reflection_index_set()
            (1, 2, 3, 4)
        """
        return tuple(map(Integer, range(1, len(self._all_reflections()) + 1)))

    hyperplane_index_set = reflection_index_set

    def reflection(self, number):
        """The reflection of a number, in ShortLex order of the program. `reflections()` is the family of them all.

            sage: from coxeter_shell.sage import CoxeterGroup
            sage: W = CoxeterGroup(["B", 2])
            sage: W.reflection(3), W.reflections()
            ([2, 1, 2], Finite family {1: [2], 2: [1], 3: [2, 1, 2], 4: [1, 2, 1]})
        """
        listed = self._all_reflections()
        if not is_whole(number) or not 1 <= number <= len(listed):
            raise ValueError(f"the reflections have the numbers 1 to {len(listed)}, and not {number!r}")
        return listed[number - 1]

    distinguished_reflection = reflection

    @cached_method
    def _all_reflections(self):
        return list(map(self._element, self._shell.reflections()))

    def one(self):
        """The identity."""
        return self._element(())

    _an_element_ = one

    def simple_reflections(self):
        """The generators, by their nodes.

            sage: from coxeter_shell.sage import CoxeterGroup
            sage: s = CoxeterGroup(["A", 3]).simple_reflections()
            sage: s[2] * s[1] * s[2]
            [1, 2, 1]
        """
        return Family(self.index_set(), lambda node: self([node]))

    gens = simple_reflections

    def from_reduced_word(self, word):
        """The element of a word, which need not be reduced."""
        return self(word)

    def length(self, w):
        """The length of an element."""
        return self(w).length()

    def bruhat_interval(self, u, v):
        """The list of the elements x with u <= x <= v, in ShortLex order.

            sage: from coxeter_shell.sage import CoxeterGroup
            sage: CoxeterGroup(["A", 3]).bruhat_interval([1], [3, 1, 2, 3])
            [[1], [1, 2], [1, 3], [1, 2, 3], [1, 3, 2], [1, 2, 3, 2]]
        """
        return list(map(self._element, self._shell.iter_bruhat_interval(self._word(u), self._word(v))))

    def kazhdan_lusztig_polynomial(self, u, v, constant_term_one=True):
        """The Kazhdan-Lusztig polynomial P(u, v); or, in the convention of Leclerc and Thibon, q^(l(v)-l(u)) P(u, v)(1/q^2).

            sage: from coxeter_shell.sage import CoxeterGroup
            sage: W = CoxeterGroup(["A", 3])
            sage: W.kazhdan_lusztig_polynomial([2], [2, 1, 3, 2], constant_term_one=False)
            q^3 + q
        """
        u, v = self(u), self(v)
        found = self._shell.kazhdan_lusztig_polynomial(self._word(u), self._word(v))
        return self._polynomial(found, v.length() - u.length(), constant_term_one)

    def parabolic_kazhdan_lusztig_polynomial(self, u, v, J, constant_term_one=True):
        """The parabolic Kazhdan-Lusztig polynomial of u and v, the shortest elements of their cosets of W_J: the sum of (-1)^l(z) P(uz, v)
        over the z of W_J.

            sage: from coxeter_shell.sage import CoxeterGroup
            sage: CoxeterGroup(["A", 3]).parabolic_kazhdan_lusztig_polynomial([2], [2, 1, 3, 2], [1, 3])
            q
        """
        if isinstance(J, (str, Element)):
            raise TypeError(f"J is a list or a set of nodes, and not {J!r}")
        u, v, letters = self(u), self(v), [self._letter(node) for node in J]
        if any(w.has_right_descent(node) for w in (u, v) for node in J):
            raise ValueError("u and v have to be minimal coset representatives")
        found = self._shell.parabolic_kazhdan_lusztig_polynomial(self._word(u), self._word(v), letters)
        return self._polynomial(found, v.length() - u.length(), constant_term_one)

    def inverse_kazhdan_lusztig_polynomial(self, u, v):
        """The inverse Kazhdan-Lusztig polynomial Q(u, v).

            sage: from coxeter_shell.sage import CoxeterGroup
            sage: CoxeterGroup(["B", 3]).inverse_kazhdan_lusztig_polynomial([2], [2, 1, 3, 2])
            q + 1
        """
        return self._polynomial(self._shell.inverse_kazhdan_lusztig_polynomial(self._word(u), self._word(v)), 0, True)

    def r_polynomial(self, u, v):
        """The R-polynomial R(u, v).

            sage: from coxeter_shell.sage import CoxeterGroup
            sage: CoxeterGroup(["B", 3]).r_polynomial([], [2, 3])
            q^2 - 2*q + 1
        """
        return self._polynomial(self._shell.r_polynomial(self._word(u), self._word(v)), 0, True)

    def _polynomial(self, found, difference, constant_term_one):
        """A polynomial of the program in Sage, for elements whose lengths differ by so much."""
        if constant_term_one:
            return PolynomialRing(ZZ, "q")(list(found))
        return PolynomialRing(ZZ, "q", sparse=True)({difference - 2 * degree: it for degree, it in enumerate(found) if it})

    class Element(ElementWrapper):
        """An element. It is a list of nodes, its normal form, and `value` is the tuple of them.

            sage: from coxeter_shell.sage import CoxeterGroup
            sage: W = CoxeterGroup(["B", 3])
            sage: w = W([1, 3, 2, 2]); w, w.value
            ([3, 1], (3, 1))
        """

        wrapped_class = tuple

        def __init__(self, parent, word):
            made = parent._element(parent._product(parent._nodes_of(word)))
            ElementWrapper.__init__(self, parent, made.value)

        def _word(self):
            """The letters of the normal form."""
            return self.parent()._word(self)

        def reduced_word(self):
            """The normal form, as the list of its nodes."""
            return list(self.value)

        def _repr_(self):
            return repr(self.reduced_word())

        def __iter__(self):
            return iter(self.reduced_word())

        def __getitem__(self, place):
            return self.reduced_word()[place]

        def __len__(self):
            return len(self.value)

        length = __len__

        def _richcmp_(self, other, op):
            """Words are compared as lists."""
            return richcmp(self.reduced_word(), other.reduced_word(), op)

        def __hash__(self):
            return hash(self.value)

        def _mul_(self, other):
            W = self.parent()
            return W._element(W._shell.product(self._word(), other._word()))

        def __invert__(self):
            W = self.parent()
            return W._element(W._shell.inverse(self._word()))

        inverse = __invert__

        def order(self):
            """The order of the element, which may be infinite.

                sage: from coxeter_shell.sage import CoxeterGroup
                sage: CoxeterGroup(["B", 3])([1, 2, 3]).order(), CoxeterGroup(["A", 1, 1])([0, 1]).order()
                (6, +Infinity)
            """
            found = self.parent()._shell.order(self._word())
            return infinity if found == infinity else Integer(found)

        def as_element_of(self, other):
            """The same element in another Coxeter group of Sage, which has the same nodes and the same Coxeter matrix.

            In a Weyl group, in `SymmetricGroup` and in `SignedPermutations` it is the product of their generators. In `Permutations` it is
            the permutation with the same reduced words, by which permutations are multiplied as maps.

                sage: from coxeter_shell.sage import CoxeterGroup
                sage: w = CoxeterGroup(["A", 3])([1, 2])
                sage: w.as_element_of(SymmetricGroup(4)), w.as_element_of(Permutations(4)), w.as_element_of(WeylGroup(["A", 3], prefix="s"))
                ((1,3,2), [2, 3, 1, 4], s1*s2)
                sage: w.as_element_of(WeylGroup(["B", 3]))
                Traceback (most recent call last):
                ...
                TypeError: [1, 2] is no element of Weyl Group of type ['B', 3] (as a matrix group acting on the ambient space): ...
            """
            return element_of(self, other)

        def to_matrix(self):
            """The matrix in the canonical representation of the group, `canonical_matrix()`."""
            return self.canonical_matrix()

        def bruhat_le(self, other):
            """Whether this element is at most the other one in Bruhat order.

                sage: from coxeter_shell.sage import CoxeterGroup
                sage: W = CoxeterGroup(["A", 3])
                sage: W([1]).bruhat_le([2, 1]), W([1, 2]).bruhat_le([2, 1])
                (True, False)
            """
            W = self.parent()
            return W._shell.bruhat_le(self._word(), W._word(other))

        def coatoms(self):
            """The elements that this one covers in Bruhat order: those of the words without one letter, from the first letter on.

                sage: from coxeter_shell.sage import CoxeterGroup
                sage: CoxeterGroup(["B", 3])([1, 2, 3]).coatoms()
                [[2, 3], [3, 1], [1, 2]]
            """
            W = self.parent()
            word = self._word()
            shorter = (W._shell.normal_form(word[:k] + word[k + 1 :]) for k in range(len(word)))
            return [W._element(it) for it in shorter if len(it) == len(word) - 1]

        def has_right_descent(self, node):
            """Whether the product with the generator of a node is shorter."""
            W = self.parent()
            return W._find_letter(node) in W._shell.right_descents(self._word())

        def has_left_descent(self, node):
            """Whether the product of the generator of a node with this element is shorter."""
            W = self.parent()
            return W._find_letter(node) in W._shell.left_descents(self._word())

        def poincare_polynomial(self):
            """The sum of t^l(x) over the x that are at most this element.

                sage: from coxeter_shell.sage import CoxeterGroup
                sage: CoxeterGroup(["A", 3])([2, 1, 3, 2]).poincare_polynomial()
                t^4 + 4*t^3 + 5*t^2 + 3*t + 1
            """
            return PolynomialRing(ZZ, "t")(list(self.parent()._shell.betti_numbers(self._word())))

        def kazhdan_lusztig_polynomial(self, v):
            """P(u, v) for this element u."""
            return self.parent().kazhdan_lusztig_polynomial(self, v)

        def mu_coefficient(self, v):
            """mu(u, v) for this element u.

                sage: from coxeter_shell.sage import CoxeterGroup
                sage: W = CoxeterGroup(["A", 3])
                sage: W([2]).mu_coefficient([2, 1, 3, 2])
                1
            """
            W = self.parent()
            return Integer(W._shell.mu_coefficient(self._word(), W._word(v)))

        def kazhdan_lusztig_cell(self, side="left"):
            """The set of the elements of the left, right or two-sided cell.

                sage: from coxeter_shell.sage import CoxeterGroup
                sage: sorted(CoxeterGroup(["B", 2])([1]).kazhdan_lusztig_cell())
                [[1], [1, 2, 1], [2, 1]]
            """
            W = self.parent()
            return set(map(W._element, W._shell._cell(side, self._word())))

        def action(self, vector):
            """How this element moves a vector of the root space.

                sage: from coxeter_shell.sage import CoxeterGroup
                sage: W = CoxeterGroup(["B", 3])
                sage: W([1, 2, 3]).action(W.root_system().root_space().an_element())
                -alpha[1] + alpha[2] + alpha[3]
            """
            return self.parent().root_system().root_space().weyl_group().from_reduced_word(self.reduced_word()).action(vector)

        def action_on_rational_function(self, f):
            """How this element moves a rational function, whose variables stand for the simple roots in the order of `index_set`: a
            monomial is the exponential of the sum of its roots.

                sage: from coxeter_shell.sage import CoxeterGroup
                sage: W = CoxeterGroup(["A", 3])
                sage: x, y, z = PolynomialRing(QQ, "x,y,z").fraction_field().gens()
                sage: W([1]).action_on_rational_function(2*x + y + z)
                (x^2*y + x*z + 2)/x
            """
            W = self.parent()
            variables, nodes = f.parent().gens(), W.index_set()
            if len(variables) != len(nodes):
                raise ValueError("the number of generators for the polynomial ring must be the same as the rank of the root system")
            alpha = W.root_system().root_space().basis()

            def moved(polynomial):
                total = 0
                for coefficient, exponents in zip(polynomial.coefficients(), polynomial.exponents()):
                    image = self.action(sum((e * alpha[node] for e, node in zip(exponents, nodes)), W.root_system().root_space().zero()))
                    term = coefficient
                    for variable, node in zip(variables, nodes):
                        term *= variable ** int(image.coefficient(node))
                    total += term
                return total

            return moved(f.numerator()) / moved(f.denominator())
