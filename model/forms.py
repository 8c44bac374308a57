"""Accepted sheets: every operation and code, every way into a call, sharing and trimming.

A case is (title, file, expected); expected is the list's T, or lines that stand together in the text, or None
where only the model says it.
"""
from build import sheet
from refusals import A, B, C, D, OTHER, SUM, chain, full, many_calls
from sheet_model import BINARY, BINARY_NAMES, COMMUTING, UNARY_NAMES

ABC = ("times", SUM, C)


def unary_codes():
    for name in UNARY_NAMES:
        yield f"unary {name} of a variable", sheet(("s0", (name, A))), 0
        yield f"unary {name} of a wider side, twice, fused", sheet(
            ("s0", (name, (name, ("minus", SUM, "c4")))), fused=True), 0
        yield f"unary {name} in a right side at a higher base", sheet(("s0", ("gt", (name, SUM), (name, OTHER)))), 0


def binary_codes():
    for name in BINARY_NAMES:
        yield f"binary {name} of variables", sheet(("s0", (name, A, B))), 0
        yield f"binary {name}, wider side left", sheet(("s0", (name, ("gt", A, B), C))), 0
        yield f"binary {name}, wider side right", sheet(("s0", (name, A, ("gt", B, C)))), 0
        yield f"binary {name}, equal sides of number 2, constants", sheet(
            ("m4", (name, ("gt", "c1", "c2"), ("lt", "c3", "c4")))), 0


def fused_codes():
    wide = ("gt", A, B)
    for name in BINARY_NAMES:
        rows = {"variables": (A, B), "constants": ("c1", "c2"), "variable right": (wide, C), "variable left": (C, wide),
                "constant right": (wide, "c3"), "constant left": ("c3", wide), "variable and constant": (A, "c1"),
                "constant and variable": ("c1", A)}
        fusable = name in ("plus", "minus", "times", "divide")
        for title, sides in list(rows.items()) if fusable else list(rows.items())[2:4]:
            yield f"fused {name}, {title}", sheet(("s0", (name, *sides)), fused=True), 0


def places():
    yield "every kind of place", sheet(("s3", ("plus", "s4", ("minus", "m65535", ("times", "p7", "c65535"))))), 0
    yield "every kind of place, fused", sheet(
        ("m3", ("plus", ("minus", ("times", ("divide", "s4", "m9"), "p7"), "c65535"), "s2")), fused=True), 0
    for kind in "smp":
        yield f"choice by {kind}2, variables", sheet(("s0", ("if", kind + "2", A, B))), 0
        yield f"choice by {kind}2, wider true side", sheet(("s0", ("if", kind + "2", SUM, C))), 0
        yield f"choice by {kind}2, wider false side, fused", sheet(("s0", ("if", kind + "2", C, SUM)), fused=True), 0
    yield "a choice of constants is never fused", sheet(("s0", ("if", "p0", "c1", "c2")), fused=True), 0
    yield "a fused variable may be a temporary", sheet(("s0", ("plus", ("gt", A, B), ("f", 7, C))), fused=True), 1
    yield "fused on both levels", sheet(("s0", ("times", ("plus", ABC, D), ("minus", ABC, D))), fused=True), 0
    yield "a statement reads what an earlier one assigned", sheet(("s0", SUM), ("s1", ("times", "s0", "s0"))), 0
    yield "a place assigned twice", sheet(("s0", A), ("s0", B)), 0
    yield "no statements", sheet(), 0


def setup_lines(x, y):
    """The moves before a call with the left argument in register x and the right in y, row by row."""
    if y == 0:
        return ("swap r1 r0",) if x == 1 else ("move r1 r0", f"move r0 r{x}")
    if y == 1:
        return () if x == 0 else (f"move r0 r{x}",)
    if x == 0:
        return (f"move r1 r{y}",)
    return ("move r0 r1", f"move r1 r{y}") if x == 1 else (f"move r1 r{y}", f"move r0 r{x}")


def call_setup():
    """All pairs of Ershov numbers up to 4. Both arguments in one register cannot happen: equal sides part by one."""
    for left in range(1, 5):
        for right in range(1, 5):
            x, y = (left, right - 1) if left == right else (left - 1, right - 1)
            title = f"call of Ershov numbers {left} and {right}: left in r{x}, right in r{y}"
            tree = ("f", 7, full(left), full(right, "c3"))
            lines = (*setup_lines(x, y), "call f7 2", "save v s10")
            yield title, sheet(("s0", tree), scratch=8), lines
            if left + right < 6:
                yield title + ", fused", sheet(("s0", tree), scratch=8, fused=True), lines
    for levels in range(1, 5):
        lines = (f"move r0 r{levels - 1}",)[:levels - 1] + ("call f9 1",)
        yield f"call of one argument in r{levels - 1}", sheet(("s0", ("f", 9, full(levels, name="rem")))), lines


def calls():
    yield "function of a function", sheet(("s0", ("f", 1, ("f", 2, A)))), 2
    yield "functions on both sides", sheet(("s0", ("minus", ("f", 1, A), ("f", 2, B)))), 2
    yield "functions as both arguments", sheet(("s0", ("f", 3, ("f", 1, A), ("f", 2, B)))), 3
    yield "a call between operations", sheet(("s0", ("minus", ("times", A, B), ("f", 2, SUM)))), 1
    yield "calls not shared without sharing", sheet(("s0", ("plus", ("f", 7, A), ("f", 7, A)))), 2
    yield "calls shared in one statement", sheet(("s0", ("plus", ("f", 7, A), ("f", 7, A))), sharing=True), 1
    yield "calls shared over two statements", sheet(("s0", ("f", 7, A)), ("s1", ("f", 7, A)), sharing=True), 1
    yield "calls of same arguments, exchanged", sheet(
        ("s0", ("f", 7, SUM)), ("s1", ("f", 7, ("plus", B, A))), sharing=True), 1
    yield "calls of two same arguments each, weight 5: a shared function", sheet(
        ("s0", ("f", 7, SUM, C)), ("s1", ("f", 7, ("plus", B, A), C)), sharing=True, scratch=3), 2
    yield "calls of two same arguments each, weight 3: a shared call", sheet(
        ("s0", ("f", 7, A, C)), ("s1", ("f", 7, A, C)), sharing=True), 1
    yield "arguments of a call do not commute", sheet(("s0", ("f", 7, SUM, C)), ("s1", ("f", 7, C, SUM)), sharing=True), 2
    yield "another function", sheet(("s0", ("f", 7, A)), ("s1", ("f", 8, A)), sharing=True), 2
    yield "another argument count", sheet(("s0", ("f", 7, A)), ("s1", ("f", 7, A, A)), sharing=True), 2
    yield "another argument", sheet(("s0", ("f", 7, A)), ("s1", ("f", 7, B)), sharing=True), 2
    yield "another constant", sheet(("s0", ("f", 7, "c1")), ("s1", ("f", 7, "c2")), sharing=True), 2
    yield "a constant is no variable of its index", sheet(("s0", ("f", 7, "c0")), ("s1", ("f", 7, "m0")), sharing=True), 2
    yield "another kind of place", sheet(("s0", ("f", 7, "m0")), ("s1", ("f", 7, "p0")), sharing=True), 2
    yield "calls on a shared call", sheet(("s0", ("f", 1, ("f", 2, A))), ("s1", ("f", 1, ("f", 2, A))), sharing=True), 2
    yield "a shared function takes two temporaries", sheet(("s0", ("f", 7, ABC)), ("s1", ("f", 7, ABC)), sharing=True), 3
    yield "a place assigned after it is read: the call is shared all the same", sheet(
        ("m0", ("f", 7, "m0")), ("s1", ("f", 7, "m0")), sharing=True), 1
    yield "calls with weight 5 that are no repeats", sheet(
        ("s0", ("f", 7, SUM, C)), ("s1", ("f", 7, SUM, D)), sharing=True, scratch=3), 2


def same_trees():
    for name in BINARY_NAMES:
        commutes = BINARY[name] in COMMUTING
        yield f"sharing: {name} exchanged at both levels {'is' if commutes else 'is not'} the same tree", sheet(
            ("s0", (name, (name, A, B), C)), ("s1", (name, C, (name, B, A))), sharing=True), int(commutes)
        yield f"sharing: {name} with nothing exchanged", sheet(
            ("s0", (name, (name, A, B), C)), ("s1", (name, (name, A, B), C)), sharing=True), 1
    one, two = ("if", "p0", SUM, C), ("if", "p1", SUM, C)
    yield "sharing: choices by the same place", sheet(("s0", one), ("s1", one), sharing=True), 1
    yield "sharing: a choice's condition place counts", sheet(("s0", one), ("s1", two), sharing=True), 0
    yield "sharing: a choice does not commute", sheet(("s0", one), ("s1", ("if", "p0", C, SUM)), sharing=True), 0
    yield "sharing: plus is no times", sheet(("s0", ABC), ("s1", ("times", ("times", A, B), C)), sharing=True), 0
    yield "sharing: associating otherwise is another tree", sheet(
        ("s0", ("plus", SUM, C)), ("s1", ("plus", A, ("plus", B, C))), sharing=True), 0
    yield "sharing: stack 0 is no memory 0", sheet(
        ("m8", ("times", SUM, "s0")), ("m9", ("times", SUM, "m0")), sharing=True), 0
    yield "sharing: unary code 1 is no function 1", sheet(("s0", chain(5)), ("s1", ("f", 1, chain(4))), sharing=True), 1
    yield "sharing: binary code 1 is no function 1", sheet(
        ("s0", ("plus", SUM, C)), ("s1", ("f", 1, SUM, C)), sharing=True), 1
    yield "sharing: a function of one is no function of two", sheet(
        ("s0", ("f", 1, chain(4))), ("s1", ("f", 1, chain(4), A)), sharing=True), 2
    deep = ("plus", ("abs", ("times", A, ("root", B))), ("if", "p0", ("and", A, B), "c1"))
    turned = ("plus", ("if", "p0", ("and", B, A), "c1"), ("abs", ("times", ("root", B), A)))
    yield "sharing: exchanged at several depths", sheet(("s0", deep), ("s1", turned), sharing=True), 3


def shared_weights():
    rows = [("weight 4, unaries", chain(4), 0), ("weight 5, unaries", chain(5), 1), ("weight 6, unaries", chain(6), 2),
            ("weight 5, a condition counts nothing", ("if", "p0", A, chain(3)), 1),
            ("weight 4, a condition counts nothing", ("if", "p0", A, chain(2)), 0),
            ("weight 5, functions count", ("f", 1, ("f", 2, SUM)), 3), ("weight 4, functions", ("f", 1, SUM), 1)]
    for title, tree, expected in rows:
        yield f"sharing: {title}", sheet(("s0", tree), ("s1", tree), sharing=True), expected
        yield f"without sharing: {title}", sheet(("s0", tree), ("s1", tree)), None
    for times in (1, 2, 3, 4):
        yield f"sharing: met {times} times, one temporary at most", sheet(
            *[(f"s{at}", ("minus", f"m{at + 4}", ABC)) for at in range(times)], sharing=True), int(times > 1)


def shared_order():
    small, large = chain(5), ("minus", ABC, ("divide", D, A))
    yield "sharing: both sides of one node", sheet(("s0", ("minus", ABC, ABC)), sharing=True), 1
    yield "sharing: exchanged on the two sides", sheet(("s0", ("minus", ABC, ("times", C, SUM))), sharing=True), 1
    yield "sharing: larger side first in the walk", sheet(
        ("s0", ("minus", small, large)), ("s1", ("minus", small, large)), sharing=True), 4
    yield "sharing: left first where sides are equal", sheet(
        ("s0", ("minus", ABC, ("divide", OTHER, A))), ("s1", ("minus", ABC, ("divide", OTHER, A))), sharing=True), 3
    yield "sharing: inner trees stored before outer, with later numbers", sheet(
        ("s0", ("neg", ABC)), ("s1", ("neg", ABC)), sharing=True), 2
    yield "sharing: an inner tree met again alone", sheet(
        ("s0", ("neg", ABC)), ("s1", ("neg", ABC)), ("s2", ABC), sharing=True), 2
    yield "sharing: an inner tree that comes up first alone", sheet(
        ("s0", ABC), ("s1", ("neg", ABC)), ("s2", ("neg", ABC)), sharing=True), 2
    yield "sharing: stored before the statement where it first comes up", sheet(
        ("s0", D), ("s1", ("minus", D, ABC)), ("s2", C), ("s3", ("minus", ABC, D)), sharing=True), 1
    yield "sharing: the kept text is gone through, not the one standing there", sheet(
        ("s0", ("plus", ("neg", ABC), ("abs", ("minus", SUM, "c1")))),
        ("s1", ("plus", ("abs", ("minus", ("plus", B, A), "c1")), ("neg", ("times", C, SUM)))), sharing=True), 5
    yield "sharing: second meeting inside one statement, third in another order", sheet(
        ("s0", ("gt", ABC, ("times", C, SUM))), ("s1", ("times", ("plus", B, A), C)), sharing=True), 1
    yield "sharing makes a split needless", sheet(
        ("s0", ABC), ("s1", ("minus", ABC, OTHER)), scratch=2, sharing=True), 1
    yield "the same without sharing", sheet(("s0", ABC), ("s1", ("minus", ABC, OTHER)), scratch=2), 2
    yield "sharing, fused", sheet(("s0", ("plus", ABC, D)), ("s1", ("plus", D, ABC)), sharing=True, fused=True), 2
    yield "sharing with step 8", sheet(("s0", ("neg", ABC)), ("s1", ("neg", ABC)), sharing=True, step=8, first=100), 2


def splits():
    for scratch in range(2, 6):
        for levels in range(scratch, 6):
            yield f"a full tree of Ershov number {levels} at scratch {scratch}", sheet(
                ("s0", full(levels, name="minus")), scratch=scratch), None
    yield "a split of a choice", sheet(("s0", ("if", "p0", SUM, OTHER)), scratch=2), 2
    yield "no split where one side is smaller", sheet(("s0", ("plus", ("plus", SUM, C), D)), scratch=2), 0
    yield "a split tests trimmed sides", sheet(("s0", ("plus", ("f", 1, SUM), OTHER)), scratch=2), 1
    yield "stores follow all that trimming the right side puts out", sheet(
        ("s0", ("minus", SUM, ("divide", ("f", 1, A), D))), scratch=2), 3
    yield "a split inside a split", sheet(
        ("s0", ("minus", ("plus", SUM, OTHER), ("times", SUM, OTHER))), scratch=2), 6
    yield "a split under a call", sheet(("s0", ("f", 1, ("plus", SUM, OTHER))), scratch=2), 3
    yield "a split of shared and unshared sides", sheet(
        ("s0", ("minus", ABC, OTHER)), ("s1", ("minus", OTHER, ABC)), scratch=2, sharing=True), 1
    yield "a split, fused", sheet(("s0", ("times", SUM, OTHER)), scratch=2, fused=True), 2
    yield "splits with step 3", sheet(("s0", ("plus", ("plus", SUM, OTHER), SUM)), scratch=2, step=3), 4


def large():
    deep = [(f"m{at}", chain(64)) for at in range(16)]
    yield "1,024 nodes, 16 times the same chain, with sharing", sheet(*deep, sharing=True), 60
    turned = [(f"m{at}", chain(64, f"p{at}", "cube")) for at in range(16)]
    yield "1,024 nodes, 16 chains, with sharing and nothing to share", sheet(*turned, sharing=True, fused=True), 0
    yield "1,023 nodes in one full tree, all of it shared", sheet(("m0", full(10)), scratch=2, sharing=True), 9
    yield "630 calls, T = 630, a list of 2,550 operations", sheet(*many_calls(10), step=8), 630


GROUPS = (unary_codes, binary_codes, fused_codes, places, call_setup, calls, same_trees, shared_weights, shared_order,
          splits, large)
