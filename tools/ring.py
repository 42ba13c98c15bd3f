#!/usr/bin/env python3
"""Writes calls of `ring` and `prove` (crates/laws/proofs/RingBase.antt and CertificateBase.antt).

  ring.py identity NAME VARIABLES LEFT RIGHT
      A declaration NAME that proves LEFT ≡ RIGHT over ℤ by `ring`.

  ring.py certificate VARIABLES GOAL [HYPOTHESIS ..] [-e EQUATION ..] [-s SQUARE ..] [-d DEGREE]
      A call of `prove` that shows GOAL >= 0 from HYPOTHESIS >= 0 and EQUATION = 0. What it looks for, by linear programming
      over the rationals, is k * GOAL as a sum, with factors that are naturals, of 1, of products of at most DEGREE
      hypotheses (2 unless given), and of the SQUAREs' squares; and of the EQUATIONs times integers and at most two variables.
      The proofs of hypotheses and equations are left as ?hyps and ?eqns.

VARIABLES is a list of names, 'a b c'. Formulas have + - * ^ ( ), names and numerals. Examples:

  ring.py identity square 'a b' '(a + b)^2' 'a^2 + 2*a*b + b^2'
  ring.py certificate 'a b' 'b*b - a*a' 'a' 'b - a'
"""
import itertools
import math
import re
import sys
from fractions import Fraction

import commands

# ---- formulas: ('var', name), ('num', value, text), ('neg', f), ('+', f, g), ('-', f, g), ('*', f, g)

TOKEN = re.compile(r"\s*(\d+|[^\W\d][\w']*|[-+*^()])")


def tokens(text):
    found, at = [], 0
    while at < len(text.rstrip()):
        match = TOKEN.match(text, at)
        if not match:
            sys.exit(f"can't read {text[at:]!r}")
        found.append(match.group(1))
        at = match.end()
    return found


class Parser:
    def __init__(self, text):
        self.text, self.rest = text, tokens(text)

    def peek(self):
        return self.rest[0] if self.rest else None

    def take(self):
        if not self.rest:
            sys.exit(f"{self.text!r} ends too early")
        return self.rest.pop(0)

    def sum(self):
        left = self.product()
        while self.peek() in ("+", "-"):
            left = (self.take(), left, self.product())
        return left

    def product(self):
        left = self.power()
        while self.peek() == "*":
            self.take()
            left = ("*", left, self.power())
        return left

    def power(self):
        if self.peek() == "-":
            self.take()
            return ("neg", self.power())
        base = self.atom()
        if self.peek() != "^":
            return base
        self.take()
        exponent = int(self.take())
        if base[0] == "num":
            return ("num", base[1] ** exponent, f"({base[2]} ^ {exponent})")
        result = base
        for _ in range(exponent - 1):
            result = ("*", result, base)
        return result

    def atom(self):
        token = self.take()
        if token == "(":
            inner = self.sum()
            self.take()
            return inner
        return ("num", int(token), token) if token.isdigit() else ("var", token)


def parse(text):
    parser = Parser(text)
    formula = parser.sum()
    if parser.rest:
        sys.exit(f"can't read {' '.join(parser.rest)!r} in {text!r}")
    return formula


# ---- polynomials: from a monomial, the sorted tuple of its variables, to its coefficient


def add(p, q, factor=1):
    result = dict(p)
    for monomial, c in q.items():
        result[monomial] = result.get(monomial, 0) + factor * c
    return {monomial: c for monomial, c in result.items() if c}


def multiply(p, q):
    result = {}
    for (m, c), (n, d) in itertools.product(p.items(), q.items()):
        key = tuple(sorted(m + n))
        result[key] = result.get(key, 0) + c * d
    return {monomial: c for monomial, c in result.items() if c}


ONE = {(): Fraction(1)}


def polynomial(formula):
    kind = formula[0]
    if kind == "var":
        return {(formula[1],): Fraction(1)}
    if kind == "num":
        return add({}, ONE, formula[1])
    if kind == "neg":
        return add({}, polynomial(formula[1]), -1)
    p, q = polynomial(formula[1]), polynomial(formula[2])
    return multiply(p, q) if kind == "*" else add(p, q, 1 if kind == "+" else -1)


# ---- antt

SUM, PRODUCT, ARGUMENT = 6, 7, 9


def bracket(text, needed):
    return f"({text})" if needed else text


def infix(formula, level, operator, show):
    own = PRODUCT if formula[0] == "*" else SUM
    return bracket(f"{show(formula[1], own)} {operator} {show(formula[2], own + 1)}", level > own)


def integer(formula, level=0):
    """The formula over ℤ."""
    kind = formula[0]
    if kind == "var":
        return formula[1]
    if kind == "num":
        return bracket(f"pos {formula[2]}", level >= ARGUMENT)
    if kind == "neg":
        return bracket(f"negℤ {integer(formula[1], ARGUMENT)}", level >= ARGUMENT)
    return infix(formula, level, kind + "ℤ", integer)


def expression(formula, index, level=0):
    """The formula as an `Expr`."""
    kind = formula[0]
    if kind == "var":
        return bracket(f"var {index[formula[1]]}", level >= ARGUMENT)
    if kind == "num":
        return bracket(f"num {formula[2]}", level >= ARGUMENT)
    if kind == "neg":
        return bracket(f"neg {expression(formula[1], index, ARGUMENT)}", level >= ARGUMENT)
    return infix(formula, level, kind + "ᵉ", lambda part, at: expression(part, index, at))


def listed(items):
    return " ∷ ".join([*items, "[]"])


# ---- linear programming: phase one of the simplex method, exact, by Bland's rule


def pivot(rows, objective, row, column):
    head = rows[row][column]
    rows[row] = [v / head for v in rows[row]]
    for i, other in enumerate(rows):
        if i != row and other[column]:
            rows[i] = [a - other[column] * b for a, b in zip(other, rows[row])]
    return [a - objective[column] * b for a, b in zip(objective, rows[row])]


def solve(columns, target):
    """Factors, none negative, with which the columns add up to the target; or None."""
    n, m = len(columns), len(target)
    rows = []
    for i in range(m):
        sign = -1 if target[i] < 0 else 1
        unit = [Fraction(int(i == k)) for k in range(m)]
        rows.append([sign * c[i] for c in columns] + unit + [sign * target[i]])
    basis = list(range(n, n + m))
    objective = [sum(r[j] for r in rows) for j in range(n)] + [Fraction(0)] * m + [sum(r[-1] for r in rows)]
    while True:
        column = next((j for j in range(n) if objective[j] > 0), None)
        if column is None:
            break
        row = min((i for i in range(m) if rows[i][column] > 0), key=lambda i: (rows[i][-1] / rows[i][column], basis[i]))
        objective = pivot(rows, objective, row, column)
        basis[row] = column
    if objective[-1] != 0:
        return None
    factors = [Fraction(0)] * n
    for place, column in enumerate(basis):
        if column < n:
            factors[column] = rows[place][-1]
    return factors


# ---- certificates


def times(factor, text):
    if text is None:
        return f"nat {factor}"
    return text if factor == 1 else f"nat {factor} ⊠ {bracket(text, '⊠' in text)}"


def equation_term(number, monomial, sign, index):
    def show(factor):
        variables = "".join(f" *ᵉ var {index[v]}" for v in monomial)
        text = f"num {factor}{variables}"
        return f"eqn {number} (neg ({text}))" if sign < 0 else f"eqn {number} ({text})"

    return show


def candidates(names, index, hypotheses, equations, squares, degree):
    """What a certificate may add up: pairs of its polynomial and of a function that writes it with a factor."""
    yield ONE, lambda factor: times(factor, None)
    for size in range(1, degree + 1):
        for chosen in itertools.combinations_with_replacement(range(len(hypotheses)), size):
            product = ONE
            for i in chosen:
                product = multiply(product, polynomial(hypotheses[i]))
            text = " ⊠ ".join(f"hyp {i}" for i in chosen)
            yield product, lambda factor, text=text: times(factor, text)
    for square in squares:
        text = f"sq {expression(square, index, ARGUMENT)}"
        yield multiply(polynomial(square), polynomial(square)), lambda factor, text=text: times(factor, text)
    for number, equation in enumerate(equations):
        for size in range(3):
            for monomial in itertools.combinations_with_replacement(names, size):
                for sign in (1, -1):
                    product = multiply({tuple(sorted(monomial)): Fraction(sign)}, polynomial(equation))
                    yield product, equation_term(number, monomial, sign, index)


def certificate(names, goal, hypotheses, equations, squares, degree):
    index = {name: i for i, name in enumerate(names)}
    goal, hypotheses, equations, squares = parse(goal), *([parse(f) for f in fs] for fs in (hypotheses, equations, squares))
    terms = list(candidates(names, index, hypotheses, equations, squares, degree))
    target = polynomial(goal)
    monomials = sorted({m for p, _ in terms for m in p} | set(target))
    column = lambda p: [p.get(m, Fraction(0)) for m in monomials]
    factors = solve([column(p) for p, _ in terms], column(target))
    if factors is None:
        sys.exit("no certificate of this form")
    k = math.lcm(*(f.denominator for f in factors))
    parts = [write(int(f * k)) for f, (_, write) in zip(factors, terms) if f]
    show = lambda fs: bracket(listed(expression(f, index, PRODUCT) for f in fs), fs)
    print(f"prove ({listed(names)}) {show(hypotheses)} {'?hyps' if hypotheses else 'tt'} {show(equations)} {'?eqns' if equations else 'tt'} {k - 1}")
    print(f"({expression(goal, index)})")
    print(f"({' ⊞ '.join(parts) or 'nat 0'}) tt")


def identity(name, names, left, right):
    left, right = parse(left), parse(right)
    if add(polynomial(left), polynomial(right), -1):
        sys.exit("not the same polynomial")
    index = {v: i for i, v in enumerate(names)}
    variables = " ".join(names)
    print(f"{name} : ({variables} : ℤ) → {integer(left)} ≡ {integer(right)}")
    print(f"{name} {variables} = ring ({listed(names)}) ({expression(left, index)}) ({expression(right, index)}) tt")


def main(arguments):
    if len(arguments) == 5 and arguments[0] == "identity":
        identity(arguments[1], arguments[2].split(), arguments[3], arguments[4])
    elif len(arguments) >= 3 and arguments[0] == "certificate":
        given = {"-h": [], "-e": [], "-s": [], "-d": []}
        current = "-h"
        for argument in arguments[3:]:
            if argument in given:
                current = argument
            else:
                given[current].append(argument)
        degree = int(given["-d"][0]) if given["-d"] else 2
        certificate(arguments[1].split(), arguments[2], given["-h"], given["-e"], given["-s"], degree)
    elif arguments == ["--version"]:
        print(f"sitjorbe {commands.version()}")
    else:
        print(__doc__.strip())


if __name__ == "__main__":
    main(sys.argv[1:])
