#!/usr/bin/env -S python3 -B
"""vectors.py FILE: writes the recorded vectors, after checking what the case lists say against the model."""
import random
import sys
from itertools import groupby
from typing import NamedTuple

import forms
import powers
import refusals
from build import damaged, random_sheet, sheet
from marked import MARKED, MISTAKES
from refusals import A, B, chain, full
from sheet_model import OUT_WORDS, WORK_WORDS, answer, text, without_needs

MOST_SIZE = 900_000


class Vector(NamedTuple):
    comments: list
    file: bytes
    work: int
    out: int
    expected: str

    def lines(self):
        """The vector as it is recorded; the space after `sheet` is there even when no digits follow."""
        return "".join([*[f"# {comment}\n" for comment in self.comments], f"sheet {self.file.hex()}\n",
                        f"lent {self.work} {self.out}\n", self.expected, "end\n"])


def vector(title, file, work=WORK_WORDS, out=OUT_WORDS, comments=()):
    return Vector([title, *comments], file, work, out, text(answer(file, work, out)))


def need(holds, title):
    if not holds:
        sys.exit(f"the model and the case list differ: {title}")


def needs_of(expected):
    """The numbers of a text's records, one before each statement, which ends with its save."""
    lines = expected.splitlines()
    starts = [after for line, after in zip(lines, lines[1:]) if line.startswith(("ops ", "save "))]
    numbers = [int(line.removeprefix("need ")) for line in lines if line.startswith("need ")]
    return tuple(numbers) if starts == [f"need {number}" for number in numbers] else None


def marked_vectors():
    for title, file, expected, needs in MARKED:
        made = vector(title, file)
        need(text(without_needs(answer(file))) == expected.replace(";", "\n") + "\n", title)
        need(needs_of(made.expected) == needs, title)
        yield made


def mistake_vectors():
    for mistake, name, title, file, first_line in MISTAKES:
        wrong = text(answer(file, variant=mistake))
        comments = [f"a program with this mistake answers {' / '.join(wrong.splitlines())}"]
        made = vector(f"wrong on film, {name}: {title}", file, comments=comments)
        need(made.expected != wrong and text(without_needs(answer(file))).startswith(first_line + "\n"), title)
        yield made


def refusal_vectors():
    for group in (*refusals.GROUPS, *powers.REFUSED):
        for title, file, expected, *lent in group():
            made = vector(title, file, *lent)
            start = f"refused {expected}\n" if expected else "ops "
            need(made.expected.startswith(start), title)
            yield made


def form_vectors():
    for group in forms.GROUPS:
        for title, file, expected in group():
            made = vector(title, file)
            first_line = made.expected.splitlines()[0]
            need(first_line.startswith("ops "), title)
            if isinstance(expected, int):
                need(first_line.endswith(f" temps {expected}"), title)
            elif expected:
                need("\n" + "\n".join(expected) + "\n" in made.expected, title)
            yield made


def room_vectors():
    """The nearest lists on both sides of 16,384 words, records counted and not: 2,730 operations are 16,380 words."""
    for title, dropped, *rest in (
            (" without records", without_needs, ("m1", full(8, B, "rem")), ("m3", full(4, B, "rem"))),
            ("", lambda result: result, ("m1", full(7, B, "rem")), ("m2", full(5, B, "rem")), ("m3", B))):
        trees = [("m0", full(9, name="rem")), *rest]
        base = dropped(answer(sheet(*trees, ("m4", A), scratch=2), out_words=10**6)).operations
        for count in (2730, 2731):
            file = sheet(*trees, ("m4", chain(1 + count - base)), scratch=2)
            need(dropped(answer(file, out_words=10**6)).operations == count, count)
            made = vector(f"10: {count} operations{title}, 16,384 words", file)
            need(made.expected.startswith("refused 10\n" if title or count == 2731 else "ops 2730 "), count)
            yield made
    widest = sheet(("m0", full(10, name="rem")), scratch=2)
    made = vector("10: one tree of 1,023 nodes, a list of 4,088 operations", widest)
    need(made.expected == "refused 10\n", "4,088 operations")
    need(answer(widest, out_words=6 * 4088).operations == 4088, "4,088 operations")
    yield made


def power_vectors():
    for group in powers.ACCEPTED:
        for title, file, operations, temporaries in group():
            made = vector(title, file)
            result = answer(file)
            need(result.number == 0 and operations in (None, result.operations), title)
            need(temporaries in (None, result.temporaries), title)
            yield made
    for title, file, operations in powers.LONG:
        made = vector(f"{title}, {operations} operations", file)
        need(answer(file, out_words=6 * operations).operations == operations, title)
        need(made.expected.startswith("ops " if 6 * operations <= OUT_WORDS else "refused 10\n"), title)
        yield made


def random_vectors():
    rng = random.Random(1958)
    for turn in range(150):
        yield vector(f"random sheet {turn}", random_sheet(rng, rng.choice((10, 20, 30, 40, 60))))
    for turn in range(40):
        yield vector(f"damaged random sheet {turn}", damaged(rng, random_sheet(rng, 20)))
    for turn in range(3):
        yield vector(f"large random sheet {turn}", random_sheet(rng, 1000))
    for turn in range(12):
        yield vector(f"random sheet with powers {turn}", random_sheet(rng, rng.choice((6, 10, 20)), 0.3))
    for turn in range(15):
        yield vector(f"damaged random sheet with powers {turn}", damaged(rng, random_sheet(rng, 10, 0.5)))


def all_vectors():
    for group in (marked_vectors, mistake_vectors, refusal_vectors, room_vectors, form_vectors, power_vectors, random_vectors):
        yield from group()


def summary(vectors):
    kinds = sorted(made.expected.split("\n")[0] if made.expected[0] == "r" else "accepted" for made in vectors)
    return ", ".join(f"{kind} {len(list(same))}" for kind, same in groupby(kinds))


def main():
    if len(sys.argv) != 2:
        sys.exit(__doc__)
    vectors = list(all_vectors())
    recorded = "".join(made.lines() for made in vectors)
    need(len(recorded) < MOST_SIZE, "the file grows too large")
    with open(sys.argv[1], "w", encoding="ascii", newline="\n") as file:
        file.write(recorded)
    print(f"{len(vectors)} vectors, {len(recorded)} bytes: {summary(vectors)}")


if __name__ == "__main__":
    main()
