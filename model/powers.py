"""Sheets with powers (T-02), accepted and refused.

An accepted case is (title, file, N, T); N counts records of need, and None stands for a number that only the model says. A
refused one is (title, file, expected[, work words, output words]), as in refusals.py; expected may be 0 for accepted.
"""
from build import power_bytes, sheet, statement
from refusals import A, B, C, OTHER, SUM, chain, full
from sheet_model import LOWEST_POWER

HIGHEST_POWER = 2**31 - 1
SIZES = (2, 3, 4, 5, 6, 7, 8, 12, 15, 16, 100, 257, 2**16, 2**30, HIGHEST_POWER)
POWERS = [0, 1, -1, *[power for size in SIZES for power in (size, -size)], LOWEST_POWER]
MODULAR_POWERS = [0, 1, -1, 2, -2, 3, -3, 4, 5, 6, 7, 8, -8, 12, 15, 16, 100, 2**16, -HIGHEST_POWER]


def products(power):
    """A move, a squaring for each digit but the first, and a product for each 1 but one; how many of these are products."""
    size = abs(power)
    return size.bit_length() - 1 + bin(size).count("1") - 1


def length(power, each=1):
    """The operations of an expansion; each product counts so often, under a modulus five times."""
    return 1 if power == 0 else 1 + each * products(power) + (power < 0)


def modular_length(power):
    return length(power, 5 if power > 0 else 1)


def bare_powers():
    for power in POWERS:
        yield f"power {power} of a place", sheet(("m5", ("powi", power, A))), 3 + length(power), 0
        if power < 0:
            yield f"power {power} of a place, flag 4", sheet(("m5", ("powi", power, A)), stable=True), 3 + length(power), 0
    for power in (0, 1, -1, 6, -6):
        for stable in (False, True):
            way = ", flag 4" if stable else ""
            yield f"power {power} of a sum{way}", sheet(("m5", ("powi", power, SUM)), stable=stable), 5 + length(power), 0
            yield f"power {power} in a right side at a higher base{way}", sheet(
                ("m5", ("gt", ("powi", power, SUM), ("powi", power, OTHER))), stable=stable), 9 + 2 * length(power), 0
    yield "powers of powers", sheet(("m5", ("powi", -2, ("powi", 3, ("powi", -1, A))))), 3 + 3 + 3 + 2, 0
    yield "powers of powers, flag 4", sheet(("m5", ("powi", -2, ("powi", 3, ("powi", -1, A)))), stable=True), 11, 0


def modular_powers():
    for power in MODULAR_POWERS:
        yield f"power {power} of a place under a place", sheet(("m5", ("powmod", power, A, B))), 4 + modular_length(power), 0
    for power in (0, 1, -1, 3, -3, 4):
        for title, base, modulus, scratch, others, temps in (
                ("a sum under a place", SUM, C, 2, 6, 0), ("a sum under a sum, 3 registers", SUM, OTHER, 3, 8, 0),
                ("a sum under a sum, 2 registers: both stored", SUM, OTHER, 2, 14, 2),
                ("a place under a sum, stored", A, SUM, 2, 9, 1), ("a sum under a wider tree, stored", SUM, full(3), 4, 15, 1),
                ("a wide tree under a sum", full(3), SUM, 4, 12, 0)):
            yield f"power {power} of {title}", sheet(
                ("m5", ("powmod", power, base, modulus)), scratch=scratch), others + modular_length(power), temps
    for power in (-1, -5):
        yield f"power {power} under a modulus, flag 4: as without", sheet(
            ("m5", ("powmod", power, A, B)), stable=True), 4 + modular_length(power), 0
    yield "powers under a modulus on both sides", sheet(
        ("m5", ("minus", ("powmod", 2, SUM, C), ("powmod", 3, A, B)))), 1 + 4 + 6 + 2 + 11 + 2, 0


def wide_moduli():
    inner = ("powmod", 3, B, SUM)
    yield "a wide modulus that has one itself", sheet(("m5", ("powmod", 2, A, inner))), None, 2
    yield "a base that has a wide modulus", sheet(("m5", ("powmod", 2, inner, A))), None, 1
    yield "a modulus that is a call is a leaf", sheet(("m5", ("powmod", 2, A, ("f", 7, SUM)))), None, 1
    yield "a base that is a call is a leaf", sheet(("m5", ("powmod", 2, ("f", 7, SUM), OTHER))), None, 2
    yield "a modulus that a split leaves wide", sheet(("m5", ("powmod", 2, A, ("plus", SUM, OTHER))), scratch=2), None, 3
    yield "a modulus as wide as the base, as a split leaves both", sheet(
        ("m5", ("powmod", 2, ("plus", SUM, OTHER), ("plus", OTHER, SUM))), scratch=2), None, 6
    yield "the store follows all that trimming the modulus puts out", sheet(
        ("m5", ("powmod", 2, ("f", 1, A), ("minus", ("f", 2, B), C)))), None, 3
    yield "a wide modulus, fused", sheet(("m5", ("powmod", 5, A, SUM)), fused=True), None, 1
    yield "powers are never fused", sheet(("m5", ("powmod", 2, A, "c1")), ("m6", ("powi", 2, A)), fused=True), None, 0
    yield "a sum of a power is fused", sheet(("m5", ("plus", ("powi", 2, A), B)), fused=True), None, 0
    yield "a wide modulus in a call's argument", sheet(("m5", ("f", 7, ("powmod", 2, A, SUM), B))), None, 2
    yield "a wide modulus with step 8", sheet(("m5", ("powmod", 2, A, SUM)), step=8, first=100), None, 1
    yield "stored, its argument is narrower than the scratch count: no 8", sheet(
        ("m5", ("f", 7, ("powmod", 2, A, full(3)), full(3))), scratch=3), None, 2
    yield "a wide modulus for each kind of side", sheet(
        ("m5", ("if", "p0", ("powmod", 2, A, SUM), ("neg", ("powmod", -2, "c1", OTHER))))), None, 2


def shared_powers():
    def pair(one, other):
        return sheet(("m5", one), ("m6", other), sharing=True)

    four = chain(4)
    yield "sharing: a power of weight 5, twice", pair(("powi", 3, four), ("powi", 3, four)), None, 1
    yield "sharing: a power of weight 4, twice", pair(("powi", 3, chain(3)), ("powi", 3, chain(3))), None, 0
    yield "sharing: the lowest power is no other", pair(("powi", LOWEST_POWER, four), ("powi", HIGHEST_POWER, four)), None, 0
    for one, other in ((3, 4), (3, -3), (0, 1), (1, 257), (1, 65537), (-1, -2**24 - 1)):
        yield f"sharing: power {one} is no power {other}", pair(("powi", one, four), ("powi", other, four)), None, 0
        yield f"sharing: power {one} is no power {other}, under a modulus", pair(
            ("powmod", one, SUM, C), ("powmod", other, SUM, C)), None, 0
    yield "sharing: a power under a modulus, twice", pair(("powmod", 3, SUM, C), ("powmod", 3, SUM, C)), None, 1
    yield "sharing: the base's sides exchanged", pair(("powmod", 3, SUM, C), ("powmod", 3, ("plus", B, A), C)), None, 1
    yield "sharing: base and modulus are not exchanged", pair(("powmod", 3, SUM, C), ("powmod", 3, C, SUM)), None, 1
    yield "sharing: a wide modulus, twice: one text, one store", pair(("powmod", 3, C, SUM), ("powmod", 3, C, SUM)), None, 2
    yield "sharing: power 1 is no unary of code 1", pair(("powi", 1, four), ("neg", four)), None, 0
    yield "sharing: power 1 under a modulus is no binary of code 1", pair(
        ("powmod", 1, SUM, C), ("plus", SUM, C)), None, 0
    yield "sharing: power 7 is no function 7", pair(("powi", 7, four), ("f", 7, four)), None, 1
    yield "sharing: a power of a shared tree", pair(("powi", 3, chain(5)), ("powi", 4, chain(5))), None, 1
    yield "sharing: calls of one power", pair(("f", 7, ("powi", 2, A)), ("f", 7, ("powi", 2, A))), None, 1
    yield "sharing: calls of two powers", pair(("f", 7, ("powi", 2, A)), ("f", 7, ("powi", 3, A))), None, 2
    yield "sharing: the larger side first in the walk, here the modulus", pair(
        ("powmod", 2, four, ("powi", 2, full(3))), ("powmod", 2, ("neg", four), ("powi", 2, full(3)))), None, None


ACCEPTED = (bare_powers, modular_powers, wide_moduli, shared_powers)


def cut_powers():
    for name, rest in (("powi", (A,)), ("powmod", (A, B))):
        whole = statement("s0", (name, -3, *rest))
        yield f"5: {name} whole", sheet(whole), 0
        for end in range(3, len(whole)):
            yield f"5: {name} cut to {end} bytes", sheet(whole[:end]), 5
        yield f"5: {name} with a byte left over", sheet(whole + b"\x00"), 5
        yield f"5: {name} cut in its power, the rest a gap", sheet(whole[:7], after=whole[7:]), 5


def lowest_power():
    lowest, head, high = power_bytes(LOWEST_POWER), statement("s0", b"\x09"), "s10"
    yield "11: the power's last byte is there, no more", sheet(head + lowest), 11
    yield "5, not 11: the power without its last byte", sheet(head + lowest[:3]), 5
    yield "11: the whole statement", sheet(("s0", ("powmod", LOWEST_POWER, A, B))), 11
    yield "11: the next power is good", sheet(("s0", ("powmod", LOWEST_POWER + 1, A, B))), 0
    yield "11: the lowest power is good under tag 8", sheet(("s0", ("powi", LOWEST_POWER, A))), 0
    yield "11: its bytes the other way round are 128", sheet(("s0", ("powmod", 128, A, B))), 0
    yield "11: flag 4 changes nothing", sheet(("s0", ("powmod", LOWEST_POWER, A, B)), stable=True), 11
    yield "11 then 5: an unknown tag as base", sheet(head + lowest + b"\x00"), 11
    yield "11 then 7: the base's index", sheet(("s0", ("powmod", LOWEST_POWER, high, B))), 11
    yield "7 then 11: destination", sheet((high, ("powmod", LOWEST_POWER, A, B))), 7
    yield "7 then 11: left side", sheet(("s0", ("plus", high, ("powmod", LOWEST_POWER, A, B)))), 7
    yield "5 then 11: left side", sheet(("s0", ("plus", b"\x00", ("powmod", LOWEST_POWER, A, B)))), 5
    yield "11 then 5: bytes left over", sheet(statement("s0", ("powmod", LOWEST_POWER, A, B)) + b"\x00"), 11
    yield "6 then 11: at the tag of level 65", sheet(("s0", chain(65, head[3:] + lowest))), 6
    yield "11 at level 64", sheet(("s0", chain(64, head[3:] + lowest))), 11
    yield "11 then 6: a base too deep", sheet(("s0", ("powmod", LOWEST_POWER, chain(64), B))), 11
    yield "11 before 8", sheet(("s0", ("f", 7, SUM, OTHER)), ("s1", ("powmod", LOWEST_POWER, A, B)), scratch=2), 11
    faults = {5: ("s0", b"\x0a"), 6: ("s0", chain(65)), 7: (high, "c0")}
    for number, fault in faults.items():
        yield f"{number} then 11: in two statements", sheet(fault, ("s0", ("powmod", LOWEST_POWER, A, B))), number
        yield f"11 then {number}: in two statements", sheet(("s0", ("powmod", LOWEST_POWER, A, B)), fault), 11


def nested(levels, grow):
    tree = A
    for _ in range(levels):
        tree = grow(tree)
    return tree


def power_limits():
    ways = {"powers": lambda t: ("powi", 2, t), "bases": lambda t: ("powmod", 1, t, B),
            "moduli": lambda t: ("powmod", 1, B, t)}
    for name, grow in ways.items():
        yield f"6: depth 65 by {name}", sheet(("s0", nested(64, grow)), first=200), 6
        yield f"6: depth 64 by {name}", sheet(("s0", nested(63, grow)), first=200), 0
    yield "8: powers keep their sides' numbers", sheet(
        ("s0", ("f", 7, ("powi", 2, SUM), ("powmod", 2, SUM, C))), scratch=2), 8
    yield "8: not with one register more", sheet(
        ("s0", ("f", 7, ("powi", 2, SUM), ("powmod", 2, SUM, C))), scratch=3), 0
    wide = ("s0", ("powmod", 2, A, SUM))
    yield "9: a stored modulus is a temporary", sheet(wide, first=65535, step=2), 9
    yield "9: the same fits", sheet(wide, first=65535), 0


def power_room():
    for title, file, count in (("power -6 under tag 8", sheet(("s0", ("powi", -6, A))), 8), (
            "power 3 under a modulus", sheet(("s0", ("powmod", 3, A, B))), 15)):
        yield f"10: {title}, 6 x {count} words", file, 0, 16384, 6 * count
        yield f"10: {title}, 6 x {count} - 1 words", file, 10, 16384, 6 * count - 1
        yield f"10: {title}, room for one operation less", file, 10, 16384, 6 * count - 6
    yield "11 before 10", sheet(("s0", ("powmod", LOWEST_POWER, A, B))), 11, 16384, 0
    yield "1 before 11", sheet(("s0", ("powmod", LOWEST_POWER, A, B))), 1, 16383, 16384


def longest(base, modulus):
    """A power of 301 operations."""
    return ("powmod", HIGHEST_POWER, base, modulus)


def full_powers(levels):
    return A if levels == 1 else longest(full_powers(levels - 1), full_powers(levels - 1))


# Title, file, N: each power has a load and 301 operations; a stored modulus has a record, a save and a load more.
LONG = [
    ("10: one of the longest powers", sheet(("s0", longest(A, B))), 302 + 3),
    ("10: 10 of them, each the base of the next", sheet(("s0", nested(10, lambda t: longest(t, B)))), 10 * 302 + 3),
    ("10: 9 of them, each the modulus of the next", sheet(("s0", nested(9, lambda t: longest(B, t)))), 9 * 305),
    ("10: 511 of them and a power over them: the longest list there is", sheet(
        ("s0", ("powi", -HIGHEST_POWER, full_powers(10))), scratch=2), 155917),
]

REFUSED = (cut_powers, lowest_power, power_limits, power_room)
