#!/usr/bin/env -S python3 -B
"""pinned.py: prints the rows of the table of words, crates/definitions/proofs/Pinned.antt, as this implementation answers."""
from build import header, sheet, statement
from refusals import A, B, C, OTHER, SUM, chain
from sheet_model import CONST, IFELSE, LOAD, LOADMATH, LOWEST_POWER, NEED, RET, SAVE, TEMP, WORK_WORDS, answer, line

ROOM = 3  # words lent past a list, and to a refusal
DIGITS = 100  # of a file on a line
ONE = ("s0", A)
WIDE = ("times", SUM, OTHER)

# Title, file: together they have every kind, Temp and Ret, every register field, every kind of place.
LISTS = [
    ("a choice, its condition on every kind of place, the larger side on either", sheet(
        ("s0", ("if", "p513", "c258", A)), ("m65535", ("if", "s1", "p7", SUM)), ("m4", ("if", "m9", SUM, "s3")))),
    ("square, cube, frac and x xor x, at register 1", sheet(
        ("m1", ("minus", ("cube", SUM), "c9")), ("m2", ("frac", ("square", SUM))), ("m3", ("times_i", SUM)))),
    ("rem through Ret, its sides in either order", sheet(("s0", ("rem", A, SUM)), ("s1", ("rem", SUM, "c65535")))),
    ("fused loads and constants, on either side", sheet(
        ("s0", ("times", ("minus", "m258", "c3"), "p2")), ("s1", ("plus", "s5", ("divide", SUM, "c4"))), fused=True)),
    ("calls: a move to Left, an exchange, and moves both ways", sheet(
        ("s0", ("f", 255, ("neg", SUM))), ("s1", ("f", 7, A, B)), ("s2", ("f", 1, SUM, WIDE)), scratch=4, step=3)),
    ("powers: digits above the lowest, closing squarings, x / x, the move alone, and the reciprocal last", sheet(
        ("s0", ("powi", 44, SUM)), ("s1", ("powi", 0, A)), ("s2", ("powi", 1, A)), ("s3", ("powi", -3, A)))),
    ("with stable_math the reciprocal first, but last under a modulus; the lowest power", sheet(
        ("s0", ("powi", -1, SUM)), ("s1", ("powmod", -2, A, B)), ("s2", ("powi", LOWEST_POWER, A)), stable=True)),
    ("under a modulus a rem after every product; a wide modulus is stored, and both sides where both are wide", sheet(
        ("s0", ("powmod", 6, SUM, C)), ("s1", ("powmod", -2, A, SUM)), ("s2", ("powmod", 0, SUM, OTHER)), scratch=2)),
]

# Number, title, file, words of work, words of output.
REFUSALS = [
    (1, "a word of work too few", sheet(ONE), WORK_WORDS - 1, ROOM),
    (2, "seven bytes", header(0)[:7], WORK_WORDS, ROOM),
    (3, "one scratch register", sheet(ONE, scratch=1), WORK_WORDS, ROOM),
    (4, "the pair is cut off", sheet(ONE)[:11], WORK_WORDS, ROOM),
    (5, "a byte left over", sheet(statement(*ONE) + b"\0"), WORK_WORDS, ROOM),
    (6, "a formula of 65 levels", sheet(("s0", chain(65))), WORK_WORDS, ROOM),
    (7, "a temporary as destination", sheet(("s10", A)), WORK_WORDS, ROOM),
    (8, "two wide arguments", sheet(("s0", ("f", 7, SUM, OTHER)), scratch=2), WORK_WORDS, ROOM),
    (9, "temporaries past the last index", sheet(("s0", WIDE), scratch=2, first=65535), WORK_WORDS, ROOM),
    (10, "a word of output too few", sheet(ONE), WORK_WORDS, 17),
    (11, "the lowest power under a modulus", sheet(("s0", ("powmod", LOWEST_POWER, A, B))), WORK_WORDS, ROOM),
]


def literal(file):
    """The file in hexadecimal, as one string or as several that are joined."""
    digits = file.hex()
    parts = [f'"{digits[at:at + DIGITS]}"' for at in range(0, len(digits), DIGITS)]
    return parts[0] if len(parts) == 1 else f"({' ++ '.join(parts)})"


def row(title, file, work, room):
    """A row of the table: the file and what is lent; number, N and T; then every word of the output."""
    result = answer(file, work, room)
    end = 6 * result.operations
    lines = [f"-- {title}", f"answers {literal(file)}",
             f"{work} {room} {result.number} {result.operations} {result.temporaries}"]
    for at in range(0, end, 6):
        words = result.output[at:at + 6]
        lines.append(" ∷ ".join(map(str, words)) + f" ∷ -- {line(words)}")
    lines.append(" ∷ ".join([*map(str, result.output[end:]), "[]"]) + ")")
    lines[3] = "(" + lines[3]
    return lines


def has_all(operations):
    """Whether operations have every kind, Temp and Ret in every field where an expansion puts them, every kind of place."""
    to, one, two = ({op[field] for op in operations} for field in (2, 3, 4))
    places = {op[5] // 65536 for op in operations if op[0] in (LOAD, SAVE, IFELSE, LOADMATH)}
    registers = TEMP in to & two and RET in to & one & two
    return registers and {op[0] for op in operations} == set(range(CONST, NEED + 1)) and places == {1, 2, 3}


def rows():
    lists = [answer(file).output for _, file in LISTS]
    assert has_all([tuple(words[at:at + 6]) for words in lists for at in range(0, len(words), 6) if words[at]])
    for title, file in LISTS:
        size = 6 * answer(file).operations
        yield row(title, file, WORK_WORDS, size + ROOM)
    for number, title, file, work, room in REFUSALS:
        assert answer(file, work, room).number == number, title
        yield row(f"{number}: {title}", file, work, room)


if __name__ == "__main__":
    first = True
    for title, head, *rest in rows():
        print(f"    {title}", f"    {'' if first else '∷ '}{head}", *[f"    {text}" for text in rest], sep="\n")
        first = False
    print("    ∷ []")
