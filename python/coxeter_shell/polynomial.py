"""Polynomials in one variable with integer coefficients."""
from __future__ import annotations

import functools
import math
import numbers
import operator
import re
import sys
from typing import Any, Iterable, Iterator, Optional, Tuple

# Words have at most 255 letters, so that the program writes no greater degree.
MOST_DEGREE = 255

TERM = re.compile(r"([+-]?)([0-9]*)([qv]?)(?:\^([0-9]+))?")


class Polynomial:
    """A polynomial in q, or in the variable of a subclass.

    `coefficients` is the tuple of its coefficients by rising degree, without zeros at the end.

    It is printed as the program prints it. It is equal to a number where it is constant, to the list or tuple of its
    coefficients, and to a polynomial of Sage where Sage says so.

    >>> p = Polynomial([1, 2, 0, 1])
    >>> p, p.coefficients, p == [1, 2, 0, 1], Polynomial([1]) == 1
    (1+2q+q^3, (1, 2, 0, 1), True, True)
    """

    __slots__ = ("coefficients",)
    coefficients: Tuple[int, ...]
    variable = "q"

    def __init__(self, coefficients: Iterable[int] = ()) -> None:
        if isinstance(coefficients, (dict, set, frozenset, str, bytes)):
            raise TypeError(f"the coefficients are a list by rising degree, and not {coefficients!r}")
        listed = [operator.index(it) for it in coefficients]
        while listed and listed[-1] == 0:
            listed.pop()
        object.__setattr__(self, "coefficients", tuple(listed))

    @classmethod
    @functools.lru_cache(1 << 16)
    def read(cls, text):
        """The polynomial of a text, written just as the program writes it. Another text is a ValueError.

        >>> Polynomial.read("1+2q").coefficients
        (1, 2)
        """
        listed, place = [], 0
        while place < len(text) and text != "0":
            term = TERM.match(text, place)
            sign, number, power, exponent = term.groups()
            degree = int(exponent or 1) if power else 0
            if place == term.end() or degree < len(listed) or degree > MOST_DEGREE:
                break
            listed += [0] * (degree - len(listed)) + [int(f"{sign}{number or 1}")]
            place = term.end()
        found = cls(listed)
        if str(found) != text:
            raise ValueError(f"{text!r} is no polynomial")
        return found

    def degree(self) -> int:
        """The degree, -1 for the zero polynomial.

        >>> Polynomial([0, 0, 5]).degree(), Polynomial().degree()
        (2, -1)
        """
        return len(self.coefficients) - 1

    def valuation(self) -> float:
        """The least degree of a term, math.inf for the zero polynomial.

        >>> Polynomial([0, 0, 5, 1]).valuation(), Polynomial().valuation()
        (2, inf)
        """
        return next((degree for degree, it in enumerate(self.coefficients) if it), math.inf)

    def coefficient(self, degree: int) -> int:
        """The coefficient in this degree, 0 where there is no such term.

        >>> p = Polynomial([1, 2])
        >>> p.coefficient(1), p.coefficient(7), p.coefficient(-1)
        (2, 0, 0)
        """
        degree = operator.index(degree)
        return self.coefficients[degree] if 0 <= degree < len(self.coefficients) else 0

    def __getitem__(self, degree: int) -> int:
        """The same as `coefficient`. There are no negative degrees.

        >>> Polynomial([1, 2])[1], Polynomial([1, 2])[7]
        (2, 0)
        """
        if operator.index(degree) < 0:
            raise IndexError("a polynomial has no negative degrees")
        return self.coefficient(degree)

    def __call__(self, q: Any) -> Any:
        """The value at q, which may be anything that is added to and multiplied by integers.

        >>> p, q = Polynomial([1, 2]), Polynomial([0, 1])
        >>> p(10), p(q * q)
        (21, 1+2q^2)
        """
        value = 0
        for coefficient in reversed(self.coefficients):
            value = value * q + coefficient
        return value

    # ---- arithmetic

    def __add__(self, other: Any) -> Any:
        """The sum with a polynomial or an integer.

        >>> Polynomial([1, 1]) + Polynomial([0, 0, 3]), 1 + Polynomial([0, 1]), Polynomial([1, 1]) - 1
        (1+q+3q^2, 1+q, q)
        """
        if from_sage(other):
            return self.sage() + other
        more = self._terms(other)
        if more is None:
            return NotImplemented
        size = range(max(len(self.coefficients), len(more)))
        return kind_of(self, other)([self.coefficient(it) + (more[it] if it < len(more) else 0) for it in size])

    __radd__ = __add__

    def __sub__(self, other: Any) -> Any:
        return self + -other if isinstance(other, (Polynomial, numbers.Number)) or from_sage(other) else NotImplemented

    def __rsub__(self, other: Any) -> Any:
        return -self + other

    def __neg__(self) -> Any:
        return type(self)([-it for it in self.coefficients])

    def __pos__(self):
        return self

    def __mul__(self, other: Any) -> Any:
        """The product with a polynomial or an integer.

        >>> Polynomial([1, 1]) * Polynomial([1, -1]), 3 * Polynomial([1, 1])
        (1-q^2, 3+3q)
        """
        if from_sage(other):
            return self.sage() * other
        factor = self._terms(other)
        if factor is None:
            return NotImplemented
        product = [0] * (len(self.coefficients) + len(factor))
        for degree, coefficient in enumerate(self.coefficients):
            for place, it in enumerate(factor, degree):
                product[place] += coefficient * it
        return kind_of(self, other)(product)

    __rmul__ = __mul__

    def __pow__(self, exponent: int) -> Any:
        """A power, whose exponent is not negative.

        >>> Polynomial([1, 1]) ** 3
        1+3q+3q^2+q^3
        """
        exponent = operator.index(exponent)
        if exponent < 0:
            raise ValueError("the exponent is negative")
        power = type(self)([1])
        for bit in bin(exponent)[2:]:
            power = power * power * self if bit == "1" else power * power
        return power

    def __eq__(self, other):
        if isinstance(other, Polynomial):
            return self.coefficients == other.coefficients and (self.variable == other.variable or self.degree() < 1)
        if isinstance(other, (list, tuple)):
            return list(self.coefficients) == list(other)
        if isinstance(other, numbers.Number):
            return len(self.coefficients) <= 1 and self.coefficient(0) == other
        if from_sage(other):
            return bool(self.sage() == other)
        return NotImplemented

    def __hash__(self):
        # A constant is equal to a number. Other polynomials are equal to the tuples of their coefficients.
        return hash(self.coefficients if len(self.coefficients) > 1 else self.coefficient(0))

    # The order of the values at large arguments: that of the leading coefficient of the difference.

    def __lt__(self, other: Any) -> Any:
        """Whether the values of this one are less than those of the other at all large arguments. So polynomials in one variable, and
        integers, can be sorted.

        >>> sorted([Polynomial([1, 2]), Polynomial([0, 0, 1]), Polynomial([7]), Polynomial([1, 1])])
        [7, 1+q, 1+2q, q^2]
        """
        return self._compared(other, operator.lt)

    def __le__(self, other: Any) -> Any:
        return self._compared(other, operator.le)

    def __gt__(self, other: Any) -> Any:
        return self._compared(other, operator.gt)

    def __ge__(self, other: Any) -> Any:
        return self._compared(other, operator.ge)

    def _compared(self, other, how):
        if from_sage(other):
            return bool(how(self.sage(), other))
        difference = NotImplemented if self._terms(other) is None else self - other
        return NotImplemented if difference is NotImplemented else how(([*difference.coefficients] or [0])[-1], 0)

    def __bool__(self) -> bool:
        return bool(self.coefficients)

    # There is no length: pandas and numpy would take a polynomial for a list.
    def __iter__(self) -> Iterator[int]:
        return iter(self.coefficients)

    # ---- texts, and other programs

    def __str__(self) -> str:
        return self._written("^{}".format)

    __repr__ = __str__

    def __format__(self, how):
        """The text, laid out as a text is.

        >>> f"{Polynomial([1, 1]):>6}|"
        '   1+q|'
        """
        return format(str(self), how)

    def _written(self, power):
        text = ""
        for degree, coefficient in enumerate(self.coefficients):
            if coefficient:
                unknown = self.variable + power(degree) if degree > 1 else self.variable * degree
                number = "" if unknown and abs(coefficient) == 1 else abs(coefficient)
                text += f"{'-' if coefficient < 0 else '+' if text else ''}{number}{unknown}"
        return text or "0"

    def _latex_(self):
        """The text for LaTeX.

        >>> Polynomial([1, 0, 2])._latex_()
        '1+2q^{2}'
        """
        return self._written("^{{{}}}".format)

    def _repr_latex_(self):
        return f"${self._latex_()}$"

    def sage(self, variable: Optional[str] = None) -> Any:
        """The same as a polynomial of Sage over the integers. It needs Sage."""
        from sage.all import ZZ, PolynomialRing

        return PolynomialRing(ZZ, variable or self.variable)(list(self.coefficients))

    def _sage_(self):
        return self.sage()

    def _polynomial_(self, ring):
        # So does Sage make an element of one of its polynomial rings, as in ZZ['q'](p): as it does of a polynomial of its own.
        return ring(self.sage())

    def _symbolic_(self, ring):
        # So does Sage make a symbolic expression, as in SR(p); and numbers of constants, as in ZZ(p).
        return ring(self.sage())

    _integer_ = _symbolic_

    def _rational_(self):
        from sage.all import QQ

        return QQ(self.sage())

    def __setattr__(self, name, value):
        raise AttributeError("a polynomial can't be changed")

    def __reduce__(self):
        return type(self), (self.coefficients,)

    def _terms(self, other):
        """The coefficients of what this is added to or multiplied by, None for what it is not. Constants have any variable."""
        if isinstance(other, Polynomial):
            same = other.variable == self.variable or other.degree() < 1 or self.degree() < 1
            return other.coefficients if same else None
        try:
            return (operator.index(other),)
        except TypeError:
            return None


def kind_of(one, other):
    """The class of a sum or a product: a constant has the variable of the other."""
    return type(other) if isinstance(other, Polynomial) and one.degree() < 1 <= other.degree() else type(one)


def from_sage(value):
    """Whether the value is an element of Sage, and no integer."""
    module = sys.modules.get("sage.structure.element")
    return module is not None and isinstance(value, module.Element) and not isinstance(value, numbers.Integral)
