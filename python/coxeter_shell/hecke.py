"""Products in the Kazhdan-Lusztig basis C' of the Hecke algebra, by mu and descents."""
from __future__ import annotations

import fractions
import operator
from typing import Any, Dict

from .base import Base, Word
from .tables import ElementDict


class Laurent(dict):
    """A polynomial in v and v^-1 with integer coefficients, where v is q^(1/2). It is a dictionary from exponents to coefficients other than
    0, by rising exponents, which can't be changed; an exponent that it doesn't have has the coefficient 0. `coefficients` is a copy of it.

    >>> p = Laurent({-1: 1, 1: 1})
    >>> p, p * p - 2, p.coefficients, p == Laurent({1: 1, -1: 1}), p(2.0)
    (v^-1+v, v^-2+v^2, {-1: 1, 1: 1}, True, 2.5)
    >>> p[1], p[0], p ** 3, Laurent({2: 1}) ** -1, p > 1000
    (1, 0, v^-3+3v^-1+3v+v^3, v^-2, True)
    """

    # Rings of Laurent polynomials of Sage take such a dictionary, and nothing else that is not Sage's.

    __slots__ = ()

    def __init__(self, coefficients: Any = ()) -> None:
        terms = {operator.index(e): operator.index(c) for e, c in dict(coefficients).items()}
        super().__init__((e, terms[e]) for e in sorted(terms) if terms[e])

    @property
    def coefficients(self):
        """The dictionary from exponents to coefficients.

        >>> Laurent({1: 2, 0: 0}).coefficients
        {1: 2}
        """
        return dict(self)

    def __missing__(self, exponent):
        return 0

    def _refuse(self, *_: Any, **__: Any) -> Any:
        raise AttributeError("a polynomial can't be changed")

    __setitem__ = __delitem__ = __ior__ = __setattr__ = _refuse  # type: ignore[assignment]
    clear = pop = popitem = setdefault = update = _refuse  # type: ignore[assignment]

    def __reduce__(self):
        return Laurent, (dict(self),)

    def __add__(self, other: Any) -> Any:
        more = terms_of(other)
        if more is None:
            return NotImplemented
        return Laurent({e: self.get(e, 0) + more.get(e, 0) for e in {*self, *more}})

    __radd__ = __add__

    def __neg__(self) -> Laurent:
        return Laurent({e: -c for e, c in self.items()})

    def __sub__(self, other: Any) -> Any:
        more = terms_of(other)
        return NotImplemented if more is None else self + -Laurent(more)

    def __rsub__(self, other: Any) -> Any:
        return -self + other

    def __mul__(self, other: Any) -> Any:
        factor = terms_of(other)
        if factor is None:
            return NotImplemented
        product: Dict[int, int] = {}
        for e, c in self.items():
            for f, d in factor.items():
                product[e + f] = product.get(e + f, 0) + c * d
        return Laurent(product)

    __rmul__ = __mul__

    def __pow__(self, exponent: int) -> Laurent:
        """A power. The exponent may be negative where this is v^k or -v^k."""
        exponent = operator.index(exponent)
        base = self
        if exponent < 0:
            if len(self) != 1 or abs(*self.values()) != 1:
                raise ValueError(f"{self} has no inverse")
            base, exponent = Laurent({-e: c for e, c in self.items()}), -exponent
        power = Laurent({0: 1})
        for bit in bin(exponent)[2:]:
            power = power * power * base if bit == "1" else power * power
        return power

    def __call__(self, v: Any) -> Any:
        """The value at v. At an integer it is an integer or a fraction."""
        if not isinstance(v, int):
            return sum(c * v**e for e, c in self.items())
        value = sum((c * fractions.Fraction(v) ** e for e, c in self.items()), fractions.Fraction(0))
        return int(value) if value.denominator == 1 else value

    def __eq__(self, other):
        terms = terms_of(other)
        return NotImplemented if terms is None else dict(self) == {e: c for e, c in terms.items() if c}

    def __ne__(self, other):
        same = self.__eq__(other)
        return same if same is NotImplemented else not same

    def __hash__(self):
        return hash(self.get(0, 0) if set(self) <= {0} else tuple(self.items()))

    # The order of the values at large arguments: that of the leading coefficient of the difference.

    def __lt__(self, other: Any) -> Any:
        return self._compared(other, operator.lt)

    def __le__(self, other: Any) -> Any:
        return self._compared(other, operator.le)

    def __gt__(self, other: Any) -> Any:
        return self._compared(other, operator.gt)

    def __ge__(self, other: Any) -> Any:
        return self._compared(other, operator.ge)

    def _compared(self, other, how):
        more = terms_of(other)
        return NotImplemented if more is None else how([0, *(self - Laurent(more)).values()][-1], 0)

    def __repr__(self):
        text = ""
        for e, c in self.items():
            power = "" if e == 0 else "v" if e == 1 else f"v^{e}"
            number = "" if power and abs(c) == 1 else abs(c)
            text += f"{'-' if c < 0 else '+' if text else ''}{number}{power}"
        return text or "0"

    __str__ = __repr__

    def sage(self, variable: str = "v") -> Any:
        """The same as a Laurent polynomial of Sage over the integers. It needs Sage."""
        from sage.all import ZZ, LaurentPolynomialRing

        return LaurentPolynomialRing(ZZ, variable)(dict(self))

    def _sage_(self):
        return self.sage()

    def _polynomial_(self, ring):
        # So does Sage make an element of one of its polynomial rings, where no exponent is negative.
        return ring(self.sage())

    def _symbolic_(self, ring):
        # So does Sage make a symbolic expression, as in SR(h); and numbers of constants, as in ZZ(h).
        return ring(self.sage())

    _integer_ = _symbolic_

    def _rational_(self):
        from sage.all import QQ

        return QQ(self.sage())


def terms_of(value):
    """The coefficients of a Laurent polynomial or an integer by their exponents, None for other values."""
    if isinstance(value, Laurent):
        return value
    return {0: value} if isinstance(value, int) else None


TWO = Laurent({-1: 1, 1: 1})


class Hecke(Base):
    """The methods of a group on products in its Hecke algebra."""

    def c_prime_product(self, x: Word, y: Word) -> ElementDict:
        """The product of the basis elements C'(x) and C'(y): a dictionary from the z to the coefficients h(x, y, z) other than 0, which are
        Laurent polynomials in v = q^(1/2). Here C'(w) is the sum of v^-l(w) P(z, w) T(z) over the z <= w (Kazhdan and Lusztig 1979).

        It is found by C'(s) C'(w), which is v + v^-1 times C'(w) where sw < w, and else C'(sw) and mu(z, w) C'(z) for the z < w with
        sz < z. So it asks for the row of each w that comes up.

        >>> W = CoxeterGroup("A", 3)
        >>> W.c_prime_product("2", "12"), W.c_prime_product("12", "21")
        ({(2,): 1, (1, 2, 1): 1}, {(1,): v^-1+v, (1, 2, 1): v^-1+v})
        """
        x, y = self.normal_form(x), self.normal_form(y)
        found = self._products_of(x, y, {(): {y: Laurent({0: 1})}}, {})
        return ElementDict(self, sorted(found.items(), key=lambda it: (len(it[0]), it[0])), "coefficient")

    def _products_of(self, x, y, known, rows):
        """C'(x) C'(y), where `known` has such products by x, and `rows` what is known of each w."""
        if x not in known:
            s, shorter = x[0], x[1:]
            total = self._times(s, self._products_of(shorter, y, known, rows), rows)
            # C'(x) is C'(s) C'(sx) without the other terms of that.
            for z, value in self._by_letter(s, shorter, rows):
                if z != x:
                    for w, coefficient in self._products_of(z, y, known, rows).items():
                        total[w] = total.get(w, 0) - value * coefficient
            known[x] = {w: coefficient for w, coefficient in total.items() if coefficient}
        return known[x]

    def _times(self, s, terms, rows):
        """C'(s) times a sum of multiples of C'(w)."""
        total = {}
        for w, coefficient in terms.items():
            for z, value in self._by_letter(s, w, rows):
                total[z] = total.get(z, 0) + value * coefficient
        return total

    def _by_letter(self, s, w, rows):
        """The pairs of a z and its coefficient in C'(s) C'(w)."""
        if w not in rows:
            odd = ((z, p, len(w) - len(z)) for z, p in self.kazhdan_lusztig_basis(w).items() if (len(w) - len(z)) % 2)
            below = [(z, p.coefficient((up - 1) // 2)) for z, p, up in odd if p.degree() == (up - 1) // 2]
            descents = self._answers_of("descents", [w, *(z for z, _ in below)])
            rows[w] = descents[0][0], [(z, value, left) for (z, value), (left, _) in zip(below, descents[1:])]
        mine, below = rows[w]
        if s in mine:
            return [(w, TWO)]
        return [(self.normal_form((s, *w)), 1), *((z, value) for z, value, left in below if s in left)]
