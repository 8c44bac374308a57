"""Sheets for every refusal of document 01, 1 to 10, each beside its nearest accepted neighbours.

A case is (title, file, expected[, work words, output words]); expected is a refusal's number, or 0 for accepted.
"""
from build import header, join, number, sheet, statement

A, B, C, D = "m0", "m1", "m2", "m3"
SUM, OTHER = ("plus", A, B), ("plus", C, D)
CALL = ("f", 7, A)
ONE = ("s0", A)


def full(levels, leaf=A, name="plus"):
    """The smallest tree of a given Ershov number."""
    return leaf if levels == 1 else (name, full(levels - 1, leaf, name), full(levels - 1, leaf, name))


def chain(length, leaf=A, name="neg"):
    """Unaries over a leaf: as deep as it has nodes."""
    return leaf if length == 1 else (name, chain(length - 1, leaf, name))


def lent_work():
    good, bad = sheet(ONE), sheet(b"\x09")
    yield "1: no work lent", good, 1, 0, 16384
    yield "1: one word of work too few", good, 1, 16383, 16384
    yield "1: as many words as needed", good, 0, 16384, 16384
    yield "1 before 2: an empty file", b"", 1, 16383, 16384
    yield "1 before 3: no header field is looked at", bytes(8), 1, 16383, 16384
    yield "1 before 5", bad, 1, 16383, 16384
    yield "1 before 10", good, 1, 16383, 0


def file_length():
    for length in range(8):
        yield f"2: {length} bytes", header(0)[:length], 2
    yield "2: 8 bytes are enough", header(0), 0
    yield "2: 16,385 bytes", header(0) + bytes(16377), 2
    yield "2: 16,384 bytes are not too many", header(0) + bytes(16376), 0
    far = header(1) + number(16384 - 7) + number(7)
    yield "2: a statement in the last of 16,384 bytes", far + bytes(16384 - 7 - 12) + statement(*ONE), 0
    yield "2 before 3: 16,385 zero bytes", bytes(16385), 2
    yield "2 before 3: 7 zero bytes", bytes(7), 2


def header_fields():
    for scratch in (0, 1, 33, 128, 255):
        yield f"3: scratch count {scratch}", sheet(ONE, scratch=scratch), 3
    for scratch in (2, 32):
        yield f"3: scratch count {scratch} is in range", sheet(ONE, scratch=scratch), 0
    for flags in (8, 9, 15, 16, 32, 64, 128, 248, 255):
        yield f"3: flags {flags}", join([statement(*ONE)], flags=flags), 3
    for flags in range(8):
        yield f"3: flags {flags} are known", join([statement(*ONE)], flags=flags), 0
    for step in (0, 9, 255):
        yield f"3: step {step}", sheet(ONE, step=step), 3
    for step in (1, 8):
        yield f"3: step {step} is in range", sheet(ONE, step=step), 0
    for zero in (1, 128, 255):
        yield f"3: byte 3 is {zero}", sheet(ONE, zero=zero), 3
    for first in (1, 65535):
        yield f"3: first temporary has no range: {first}", sheet(ONE, first=first), 0
    yield "3: first temporary has no range: 0", sheet(("m5", A), first=0), 0
    yield "3: 256 statements", sheet(*[("s0", "c0")] * 256), 0
    yield "3: 257 statements", sheet(*[("s0", "c0")] * 257), 3
    yield "3: 65,535 statements", header(65535), 3
    yield "3 before 4: 257 pairs cut off", header(257), 3
    yield "3 before 4: bad step, pairs cut off", header(1, step=0), 3
    yield "3 before 5", sheet(b"\x09", scratch=33), 3


def pair_cut_off():
    body = statement(*ONE)
    for length in range(8, 12):
        yield f"4: one pair, {length} bytes of file", sheet(ONE)[:length], 4
    for length in (12, 13, 14, 15):
        yield f"4: two pairs, {length} bytes of file", join([body, body])[:length], 4
    yield "4: 256 pairs, the last one cut off", header(256) + (number(1032) + bytes(2)) * 255 + bytes(3), 4
    yield "4: no pairs, nothing after the header", header(0), 0
    yield "4: no pairs, bytes after the header are a gap", header(0) + b"\xff" * 5, 0


def pair_bounds():
    body = statement(*ONE)
    size, two = len(body), header(2)

    def pairs(*rows, head=two, rest=body + body):
        return head + b"".join(number(offset) + number(length) for offset, length in rows) + rest

    yield "4: offset one before the end of the pair table", pairs((15, size), (16 + size, size)), 4
    yield "4: offset at the end of the pair table", pairs((16, size), (16 + size, size)), 0
    yield "4: offset 0", pairs((0, size), (16 + size, size)), 4
    yield "4: offset 8, in the pair table", pairs((8, size), (16 + size, size)), 4
    yield "4: the last offset is before the end of the table", pairs((16, size), (12, 2)), 4
    yield "4: overlap by one byte", pairs((16, size), (15 + size, size)), 4
    yield "4: the same part twice", pairs((16, size), (16, size)), 4
    yield "4: sorted the other way", pairs((16 + size, size), (16, size)), 4
    yield "4: end one past the file", pairs((16, size), (17 + size, size)), 4
    yield "4: length one too many", pairs((16, size), (16 + size, size + 1)), 4
    yield "4: the first length covers the second offset", pairs((16, size + 1), (16 + size, size)), 4
    yield "4: offset past the file, length 0", pairs((16, size), (17 + 2 * size, 0)), 4
    yield "5, not 4: offset at the end of the file, length 0", pairs((16, size), (16 + 2 * size, 0)), 5
    yield "4: offset + length is 65,536", pairs((16, size), (16 + size, 65520 - size)), 4
    yield "4: offset + length passes 16 bits into the file", pairs((16, size), (16 + size, 65535)), 4
    yield "4: offset 65,535, length 65,535", pairs((16, size), (65535, 65535)), 4
    yield "4: length 0 inside the part before it", pairs((16, size), (15 + size, 0)), 4
    yield "5, not 4: length 0 at the end of the part before it", pairs((16, size), (16 + size, 0)), 5
    yield "5, not 4: length 0 first, the next part at the same byte", pairs((16, 0), (16, size)), 5
    yield "4: gaps before, between and after are ignored", sheet(ONE, ("s1", B), gap=b"\xff\x00", after=b"\x07"), 0
    yield "4 before 5: bad last pair, bad first statement", pairs((16, 3), (0, 3), rest=b"\xff" * 6), 4
    yield "4 before 7: bad last pair, first statement's index too high", pairs(
        (16, 6), (16, 6), rest=statement("s10", "c0")), 4


def unknown_bytes():
    for kind in (0, 3, 4, 255):
        yield f"5: destination of kind {kind}", sheet(bytes([kind, 0, 0]) + b"\x01\x00\x00"), 5
    for kind in (1, 2):
        yield f"5: destination of kind {kind} is good", sheet(bytes([kind, 0, 0]) + b"\x01\x00\x00"), 0
    for tag in (0, 10, 128, 255):
        yield f"5: tag {tag}", sheet(("s0", bytes([tag, 1]) + b"\x01\x00\x00" * 2)), 5
    for code in (0, 22, 255):
        yield f"5: unary code {code}", sheet(("s0", bytes([3, code, 1, 0, 0]))), 5
    for code in (0, 16, 255):
        yield f"5: binary code {code}", sheet(("s0", bytes([4, code, 1, 0, 0, 1, 0, 0]))), 5
    for kind in (0, 4, 255):
        yield f"5: variable of kind {kind}", sheet(("s0", bytes([2, kind, 0, 0]))), 5
        yield f"5: condition of kind {kind}", sheet(("s0", bytes([5, kind, 0, 0, 1, 0, 0, 1, 0, 0]))), 5
    for kind in (1, 2, 3):
        yield f"5: variable of kind {kind} is good", sheet(("s0", bytes([2, kind, 0, 0]))), 0
        yield f"5: condition of kind {kind} is good", sheet(("s0", bytes([5, kind, 0, 0, 1, 0, 0, 1, 0, 0]))), 0
    for function in (0, 255):
        yield f"5: function {function} of one is good", sheet(("s0", ("f", function, A))), 0
        yield f"5: function {function} of two is good", sheet(("s0", ("f", function, A, B))), 0
    yield "5: the right side's tag is 0", sheet(("s0", ("plus", A, b"\x00"))), 5
    yield "5: constant index 65,535 is good", sheet(("s0", "c65535")), 0
    yield "5: memory and parameter index 65,535 are good", sheet(("m65535", "p65535")), 0


def early_end():
    tree = ("if", "p0", ("neg", "c1"), ("plus", ("f", 7, A), ("f", 8, "s1", "c2")))
    whole = statement("s0", tree)
    yield "5: one tree with every tag", sheet(whole), 0
    for length in range(len(whole)):
        yield f"5: the same cut to {length} bytes, at the end of the file", sheet(whole[:length]), 5
    for length in (0, 1, 2, 3, 4, len(whole) - 1):
        yield f"5: the same cut to {length} bytes, the rest a gap", sheet(whole[:length], after=whole[length:]), 5
    yield "5: early end before a good statement", sheet(whole[:-1], whole), 5
    yield "5: early end in the last statement", sheet(whole, whole[:-1]), 5


def left_over():
    whole = statement("s0", SUM)
    yield "5: one byte left over", sheet(whole + b"\x00"), 5
    yield "5: a byte left over that is a tag", sheet(whole + b"\x01"), 5
    yield "5: a second tree left over", sheet(whole + b"\x01\x00\x00"), 5
    yield "5: a second statement left over", sheet(whole + whole), 5
    yield "5: a byte left over after a leaf", sheet(statement("s0", "c0") + b"\x00"), 5
    yield "5: the same bytes as a gap", sheet(whole, after=b"\x00"), 0
    yield "5: bytes left over in the second statement", sheet(ONE, statement("s1", A) + b"\x00"), 5


def depth():
    def spine(levels, grow):
        tree = A
        for _ in range(levels - 1):
            tree = grow(tree)
        return tree

    ways = {"unaries": lambda t: ("neg", t), "left sides": lambda t: ("plus", t, B), "right sides":
            lambda t: ("minus", B, t), "true sides": lambda t: ("if", C, t, B), "false sides":
            lambda t: ("if", C, B, t), "functions of one": lambda t: ("f", 1, t), "right arguments":
            lambda t: ("f", 2, B, t), "left arguments": lambda t: ("f", 2, t, B)}
    for name, grow in ways.items():
        yield f"6: depth 65 by {name}", sheet(("s0", spine(65, grow))), 6
        yield f"6: depth 64 by {name}", sheet(("s0", spine(64, grow))), 0
    bad = [("an unknown tag at level 65 is 5", b"\x00", 5), ("an early end at level 65 is 5", b"", 5),
           ("an unknown code at level 65 comes after 6", b"\x03\x00", 6),
           ("an unknown variable kind at level 65 comes after 6", b"\x02\x00", 6),
           ("a stack index too high at level 65 comes after 6", b"\x02\x01\xff\xff", 6),
           ("an early end just after the tag at level 65 comes after 6", b"\x01", 6)]
    for title, leaf, expected in bad:
        yield f"6: {title}", sheet(("s0", chain(65, leaf))), expected
    yield "6: an unknown code at level 64 is 5", sheet(("s0", chain(64, b"\x03\x00"))), 5
    yield "6: bytes left over after depth 64 are 5", sheet(statement("s0", chain(64)) + b"\x01"), 5
    yield "6: depth 65 in the second statement", sheet(ONE, ("s1", chain(65))), 6


def node_count():
    deep, last = [(f"s{at}", chain(64)) for at in range(15)], "s15"
    yield "6: 1,024 nodes in 16 statements", sheet(*deep, (last, chain(64)), first=16), 0
    yield "6: 1,025 nodes in 17 statements", sheet(*deep, (last, chain(64)), ("m0", "c0"), first=16), 6
    wide = full(10)
    yield "6: 1,023 nodes in one statement", sheet(("m0", wide), scratch=10), 0
    yield "6: 1,024 nodes in one statement", sheet(("m0", ("abs", wide)), scratch=10), 0
    yield "6: 1,025 nodes in one statement", sheet(("m0", ("abs", ("abs", wide))), scratch=10), 6
    yield "6: the 1,025th tag is in the second statement", sheet(("m0", ("abs", wide)), ("m1", A), scratch=10), 6
    yield "6: an unknown tag in the 1,025th place is 5", sheet(("m0", ("abs", wide)), ("m1", b"\x00"), scratch=10), 5
    yield "6: no tag in the 1,025th place is 5", sheet(("m0", ("abs", wide)), ("m1", b""), scratch=10), 5
    yield "6: destination 7 comes before the 1,025th tag", sheet(("m0", ("abs", wide)), ("s9", A), scratch=10, first=9), 7
    halves = (("m0", full(9, name="rem")), ("abs", ("abs", ("if", "p0", full(8), full(8)))))
    yield "6: 1,024 nodes, and a condition, which is none", sheet(halves[0], ("m1", halves[1]), scratch=9), 0
    yield "6: one node more", sheet(halves[0], ("m1", ("abs", halves[1])), scratch=9), 6


def stack_index():
    ways = {"destination": lambda place: (place, "c0"), "variable": lambda place: ("m0", ("neg", place)),
            "condition": lambda place: ("m0", ("if", place, "c0", "c1"))}
    for name, use in ways.items():
        for first in (0, 1, 10, 256, 65535):
            yield f"7: {name} at first temporary {first}", sheet(use(f"s{first}"), first=first), 7
            if first:
                yield f"7: {name} one below {first}", sheet(use(f"s{first - 1}"), first=first), 0
        yield f"7: {name} far above", sheet(use("s65535")), 7
        yield f"7: {name} in memory has no limit", sheet(use("m65535"), first=0), 0
    yield "7: a parameter has no limit", sheet(("m0", ("if", "p65535", "p10", "c0")), first=0), 0
    yield "7: both bytes of the index count", sheet(("m0", "s256"), first=255), 7
    yield "7: both bytes of first temporary count", sheet(("m0", "s255"), first=256), 0


def byte_order():
    high, bad = "s10", b"\x0a"
    yield "7 then 5: destination, then tag", sheet((high, bad)), 7
    yield "5 then 7: parameter destination, then its index", sheet(b"\x03\xff\xff\x01\x00\x00"), 5
    yield "5 then 7: index cut off after its first byte", sheet(b"\x01\xff"), 5
    yield "7 at the index's second byte, then early end", sheet(b"\x01\xff\xff"), 7
    yield "7 then early end: variable", sheet(("s0", ("plus", high, b""))), 7
    yield "5 then 7: left side's tag, right side's index", sheet(("s0", ("plus", bad, high))), 5
    yield "7 then 5: left side's index, right side's tag", sheet(("s0", ("plus", high, bad))), 7
    yield "7 then 5: condition, then side", sheet(("s0", ("if", high, bad, bad))), 7
    yield "7 then 5: bytes left over", sheet(statement("s0", high) + b"\x00"), 7
    yield "7 then 6: destination, then depth", sheet((high, chain(65))), 7
    yield "6 then 7: depth, then index", sheet(("s0", ("plus", chain(65), high))), 6
    yield "7 then 6: index, then depth", sheet(("s0", ("plus", high, chain(65)))), 7
    yield "6 then 5: depth, then tag", sheet(("s0", ("plus", chain(65), bad))), 6
    yield "5 then 6: tag, then depth", sheet(("s0", ("plus", bad, chain(65)))), 5
    faults = {5: ("s0", bad), 6: ("s0", chain(65)), 7: (high, "c0")}
    for one in faults:
        for other in faults:
            if one != other:
                yield f"{one} then {other}: in two statements", sheet(faults[one], faults[other]), one
    yield "7 before 8", sheet(("s0", ("f", 7, SUM, OTHER)), ("s10", A), scratch=2), 7


def wide_calls():
    wide = ("f", 7, SUM, OTHER)
    for scratch in range(2, 10):
        yield f"8: both arguments have {scratch} of {scratch}", sheet(
            ("s0", ("f", 7, full(scratch), full(scratch))), scratch=scratch), 8
        if scratch < 6:
            yield f"8: both arguments have {scratch} of {scratch + 1}", sheet(
                ("s0", ("f", 7, full(scratch), full(scratch))), scratch=scratch + 1), 0
    yield "8: only the left argument has the scratch count", sheet(("s0", ("f", 7, SUM, C)), scratch=2), 0
    yield "8: only the right argument has the scratch count", sheet(("s0", ("f", 7, A, OTHER)), scratch=2), 0
    yield "8: a function of one is never too wide", sheet(("s0", ("f", 7, SUM)), scratch=2), 0
    yield "8: a binary with both sides as wide is split", sheet(("s0", ("plus", SUM, OTHER)), scratch=2), 0
    yield "8: a choice with both sides as wide is split", sheet(("s0", ("if", "p0", SUM, OTHER)), scratch=2), 0
    yield "8: inside a tree", sheet(("s0", ("neg", ("plus", wide, A))), scratch=2), 8
    yield "8: in the second statement", sheet(ONE, ("s1", wide), scratch=2), 8
    yield "8: in an argument of another call", sheet(("s0", ("f", 1, ("f", 2, wide, A))), scratch=2), 8
    yield "8: fused loads change no Ershov number", sheet(("s0", wide), scratch=2, fused=True), 8
    yield "8: an argument that is a call becomes a leaf", sheet(("s0", ("f", 7, ("f", 1, SUM), OTHER)), scratch=2), 0
    yield "8: arguments that splitting leaves wide", sheet(
        ("s0", ("f", 7, ("plus", SUM, OTHER), ("times", SUM, OTHER))), scratch=2), 8
    big = ("plus", ("times", A, B), C)
    yield "8: the same tree twice without sharing", sheet(("s0", ("f", 7, big, big)), scratch=2), 8
    yield "8: the same tree twice with sharing is a leaf twice", sheet(
        ("s0", ("f", 7, big, big)), scratch=2, sharing=True), 0
    yield "8: with sharing, weight 3 is not shared", sheet(("s0", ("f", 7, SUM, SUM)), scratch=2, sharing=True), 8
    yield "8: repeated with sharing, it is emitted once", sheet(("s0", wide), ("s1", wide), scratch=2, sharing=True), 8


def temporaries():
    two = ("s1", ("f", 8, A))
    yield "9: first 65,535, step 1, T = 1", sheet(("s0", CALL), first=65535), 0
    yield "9: first 65,535, step 1, T = 2", sheet(("s0", CALL), two, first=65535), 9
    yield "9: first 65,534, step 1, T = 2", sheet(("s0", CALL), two, first=65534), 0
    for step in range(2, 9):
        yield f"9: step {step}, T = 1 fits", sheet(("s0", CALL), first=65536 - step, step=step), 0
        yield f"9: step {step}, T = 1, first one more", sheet(("s0", CALL), first=65537 - step, step=step), 9
    yield "9: step 8, T = 2 fits", sheet(("s0", CALL), two, first=65520, step=8), 0
    yield "9: step 8, T = 2, first one more", sheet(("s0", CALL), two, first=65521, step=8), 9
    yield "9: no temporaries, first 65,535, step 8", sheet(ONE, first=65535, step=8), 0
    split = ("s0", ("times", SUM, OTHER))
    yield "9: by a split", sheet(split, first=65535, scratch=2), 9
    yield "9: the same split fits", sheet(split, first=65534, scratch=2), 0
    pair = (("s0", ("times", SUM, C)), ("s1", ("times", C, SUM)))
    yield "9: by sharing", sheet(*pair, first=65535, step=2, sharing=True), 9
    yield "9: the same sharing fits", sheet(*pair, first=65534, step=2, sharing=True), 0
    yield "9: the same sheet without sharing", sheet(*pair, first=65535, step=2), 0
    yield "8 before 9", sheet(("s0", ("f", 7, SUM, OTHER)), first=65535, step=8, scratch=2), 8
    yield "9: T = 1,008 at step 8 passes 65,536 by one", sheet(*many_calls(16), first=57473, step=8), 9
    yield "10, not 9: T = 1,008 at step 8 ends at 65,536", sheet(*many_calls(16), first=57472, step=8), 10
    yield "10: 882 calls, T = 882, a list of 3,570 operations", sheet(*many_calls(14), step=8), 10


def many_calls(count):
    """Statements of 63 calls over a leaf, each call on the result of the last."""
    tree = A
    for at in range(63):
        tree = ("f", at, tree)
    return [(f"m{at}", tree) for at in range(count)]


def output_room():
    call, two = sheet(("s0", CALL)), sheet(ONE, ("s1", SUM))
    yield "10: nothing to write, no words lent", header(0), 0, 16384, 0
    for title, file, count in (("one load and save", sheet(ONE), 3), ("a sum", sheet(("s0", SUM)), 5), (
            "a call", call, 7), ("two statements", two, 8), ("a full tree", sheet(("s0", full(7)), scratch=7), 129)):
        yield f"10: {title}, 6 x {count} words", file, 0, 16384, 6 * count
        yield f"10: {title}, 6 x {count} - 1 words", file, 10, 16384, 6 * count - 1
        yield f"10: {title}, 6 x {count} + 1 words", file, 0, 16384, 6 * count + 1
        yield f"10: {title}, room for one operation less", file, 10, 16384, 6 * count - 6
        yield f"10: {title}, no words lent", file, 10, 16384, 0
    yield "9 before 10", sheet(("s0", CALL), first=65535, step=2), 9, 16384, 0
    yield "8 before 10", sheet(("s0", ("f", 7, SUM, OTHER)), scratch=2), 8, 16384, 0
    yield "5 before 10", sheet(b"\x00"), 5, 16384, 0
    yield "2 before 10", b"", 2, 16384, 0


GROUPS = (lent_work, file_length, header_fields, pair_cut_off, pair_bounds, unknown_bytes, early_end, left_over, depth,
          node_count, stack_index, byte_order, wide_calls, temporaries, output_room)
