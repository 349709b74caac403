"""Whole numbers that are not known: sums such as 8n + 8, and which inequalities between them follow from others.

A question is decided by Fourier and Motzkin's elimination: the facts and the opposite of what is asked are added up
until no unknown is left. If that is a contradiction, then the answer is yes, for all whole numbers."""

from math import gcd

from terms import Refused


class Undecided(Exception):
    """The code, or a check, asks whether a sum is at least 0, and the facts do not say it."""

    def __init__(self, total):
        super().__init__(f"not decided: {total} >= 0")
        self.total = total


class Lin:
    """constant + the sum of factor * unknown. Two of them are equal if they are the same sum."""

    __slots__ = ("constant", "factors")

    def __init__(self, constant, factors=()):
        self.constant = constant
        self.factors = tuple(sorted(factors))

    def __eq__(self, other):
        if not isinstance(other, Lin):
            return False
        return (self.constant, self.factors) == (other.constant, other.factors)

    def __hash__(self):
        return hash((self.constant, self.factors))

    def __repr__(self):
        parts = [name if k == 1 else f"{k}{name}" for name, k in self.factors]
        if self.constant or not parts:
            parts.append(str(self.constant))
        return " + ".join(parts)

    def __add__(self, other):
        return plus(self, other)

    __radd__ = __add__

    def __sub__(self, other):
        return plus(self, times(other, -1))

    def __rsub__(self, other):
        return plus(other, times(self, -1))

    def __mul__(self, k):
        return times(self, k)

    __rmul__ = __mul__

    def factor(self, name):
        return dict(self.factors).get(name, 0)

    def without(self, name):
        return Lin(self.constant, [pair for pair in self.factors if pair[0] != name])

    def with_value(self, name, v):
        """Returns the sum with a sum in the place of an unknown."""
        return self.without(name) + times(v, self.factor(name))


def unknown(name):
    return Lin(0, [(name, 1)])


def settled(constant, factors):
    """Returns a sum, which is an int if no unknown is left."""
    factors = [(name, k) for name, k in factors.items() if k]
    return Lin(constant, factors) if factors else constant


def parts(v):
    return (v, {}) if isinstance(v, int) else (v.constant, dict(v.factors))


def plus(a, b):
    (c, factors), (d, others) = parts(a), parts(b)
    for name, k in others.items():
        factors[name] = factors.get(name, 0) + k
    return settled(c + d, factors)


def times(v, k):
    c, factors = parts(v)
    return settled(c * k, {name: f * k for name, f in factors.items()})


class Facts:
    """Sums that are at least 0."""

    now = None  # what holds on the run that is followed now

    def __init__(self, sums=()):
        self.sums = tuple(sums)
        self.memo = {}

    def with_(self, *sums):
        return Facts(dict.fromkeys([*self.sums, *sums]))

    def proves(self, total):
        """Whether the sum is at least 0 by these facts."""
        if isinstance(total, int):
            return total >= 0
        if total not in self.memo:
            opposite = -1 - total
            self.memo[total] = contradict([*self.sums, opposite])
        return self.memo[total]

    def decides(self, total):
        """Returns whether the sum is at least 0."""
        if self.proves(total):
            return True
        if self.proves(-1 - total):
            return False
        raise Undecided(total)

    def cases(self, total):
        """Returns the facts with each answer to whether the sum is at least 0."""
        return [self.with_(total), self.with_(-1 - total)]

    def are_possible(self):
        return not contradict(self.sums)

    def is_between(self, v, least, most):
        return self.proves(v - least) and self.proves(most - v)


def tightened(total):
    """Returns constant and factors of an equal condition: whole numbers allow to round the constant down."""
    constant, factors = parts(total)
    divisor = gcd(*factors.values()) if factors else 1
    return constant // divisor, {name: k // divisor for name, k in factors.items()}


def contradict(sums):
    """Whether no numbers make all these sums at least 0. False may also mean that this was not found."""
    rows = []
    for total in sums:
        row = tightened(total)
        if row not in rows:
            rows.append(row)
    while True:
        for constant, factors in rows:
            if not factors and constant < 0:
                return True
        rows = [row for row in rows if row[1]]
        if not rows:
            return False
        name = cheapest(rows)
        # A row is at least 0. So with a negative factor it bounds the unknown from above, and else from below.
        upper = [row for row in rows if row[1].get(name, 0) < 0]
        lower = [row for row in rows if row[1].get(name, 0) > 0]
        rest = [row for row in rows if not row[1].get(name)]
        for a in lower:
            for b in upper:
                row = added_without(name, a, b)
                if row not in rest:
                    rest.append(row)
        if len(rest) > 2000:
            raise Refused("so many inequalities that they are not decided")
        rows = rest


def cheapest(rows):
    """Returns the unknown whose elimination makes the fewest rows."""
    names = sorted({name for _, factors in rows for name in factors})

    def cost(name):
        found = [factors[name] for _, factors in rows if name in factors]
        upper = sum(k < 0 for k in found)
        lower = len(found) - upper
        # An unknown with large factors is eliminated last: then a row like 8u - 8m >= 1 is rounded, to u - m >= 1.
        return max(map(abs, found)) > 1, upper * lower - upper - lower

    return min(names, key=cost)


def added_without(name, a, b):
    """Returns the sum of multiples of two rows in which the unknown is not left. Its factor is positive in a."""
    k = -b[1][name]
    m = a[1][name]
    total = plus(
        times(Lin(a[0], a[1].items()), k),
        times(Lin(b[0], b[1].items()), m),
    )
    return tightened(total)
