#!/usr/bin/env python3
"""Makes the record files that ./bench times, beside this script (./bench is the command, so the files lie here)."""
import pathlib


def term(symbol, *arguments):
    left, right = (arguments + (0, 0))[:2]
    return bytes([ord("T"), len(arguments), symbol >> 8, symbol & 255, left, right, 0, 0])


def statement(kind, relation, left, right, constant=0):
    return bytes([ord(kind), ord(relation), left, right, constant & 255, 0, 0, 0])


def predicate(relation, left, right, constant=0):
    return statement("P", relation, left, right, constant)


def goal(relation, left, right, constant=0):
    return statement("E", relation, left, right, constant)


def question(theory, variables=0):
    return bytes([ord("A"), ord(theory), variables, 0, 0, 0, 0, 0])


def diamonds(count):
    """For each diamond a = b, a = c, b = d, c = d, and d is the next one's a. Goal: first a = last d."""
    records = [term(symbol) for symbol in range(1, 4 * count + 1)]
    for a in range(0, 4 * count, 4):
        b, c, d = a + 1, a + 2, a + 3
        if a > 0:
            records.append(predicate("=", a - 1, a))
        records += [predicate("=", x, y) for x, y in ((a, b), (a, c), (b, d), (c, d))]
    return records + [goal("=", 0, 4 * count - 1), question("U")]


def terms24():
    """Eight names, f of each, and g of each f and the next name; congruence carries equal names to equal terms."""
    f, g = 9, 10
    records = [term(symbol) for symbol in range(1, 9)]
    records += [term(f, name) for name in range(8)]
    records += [term(g, 8 + name, (name + 1) % 8) for name in range(8)]
    pairs = [(0, 1), (2, 3), (4, 5), (6, 7)]
    pairs += [(8, 1), (10, 3), (12, 5), (14, 7)]
    pairs += [(16, 8), (18, 10), (20, 12), (22, 14)]
    pairs += [(17, 9), (19, 11), (1, 2), (5, 6)]
    records += [predicate("=", left, right) for left, right in pairs]
    return records + [goal("=", 16, 18), question("U")]


def variables8():
    """Two rings of four variables: three steps on, each by at most or by below, and back by as much."""
    bounds = []
    for x in (0, 4):
        bounds += [(relation, y, y + 1, -1) for relation in "L<" for y in (x, x + 1, x + 2)]
        bounds += [(relation, x + 3, x, 3) for relation in "L<"]
    records = [predicate(*bound) for bound in bounds]
    return records + [goal("<", 0, 3, 0), question("D", 8)]


FILES = {
    "diamonds1": diamonds(1),
    "diamonds2": diamonds(2),
    "diamonds3": diamonds(3),
    "terms24": terms24(),
    "variables8": variables8(),
}

folder = pathlib.Path(__file__).parent
for name, records in FILES.items():
    (folder / (name + ".rec")).write_bytes(b"".join(records))
