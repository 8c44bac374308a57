"""Document 01's marked sheets with their texts and needs worked by hand, the differences, powers, and the five mistakes."""
from build import sheet
from refusals import A, B, C, OTHER, SUM
from sheet_model import Variant

ABC, CAB = ("times", SUM, C), ("times", C, SUM)
FORMULA = ("s0", ("plus", A, ("times", B, C)))
EXAMPLE = bytes.fromhex("04 00 01 00 01 00 0A 00 0C 00 13 00 01 00 00 04 01 02 02 00 00 04 03 02 02 01 00 02 02 02 00")
MERGED_CALLS = bytes.fromhex("02010100010000000c001500020000040107000100000100000700010200010200")
LOST_LEFT = bytes.fromhex("03000100010000000c001f0002000007000401010000010000040104010100000100000401010000010000")

POWER_5 = bytes.fromhex("02000100010000000c000b000200000805000000010000")
WIDE_MODULUS = bytes.fromhex("02000100010000000c00130002000009000000000100000401010000010000")
BOTH_STORED = bytes.fromhex("02000100010000000c001800020000090100000004010100000100000401010000010000")
LOWEST = bytes.fromhex("02000100010000000c000b000200000800000080010000")
UNDER_LOWEST = bytes.fromhex("02000100010000000c0008000200000900000080")
CUT_LOWEST = bytes.fromhex("02000100010000000c00070002000009000000")

LOAD_SUM = "load r1 m0;load r0 m1;bi plus r1 r1 r0;"
LOAD_OTHER = "load r1 m2;load r0 m3;bi plus r1 r1 r0;"
WIDE_SUMS = "load r2 m0;load r1 m1;bi plus r2 r2 r1;" + LOAD_OTHER
LOAD_ABC = LOAD_SUM + "load r0 m2;bi times r1 r1 r0;"
BOTH_FROM_S10 = "load r0 s10;save r0 s0;load r0 s10;save r0 s1"
CALL_AB = "load r1 m0;load r0 m1;swap r1 r0;call f7 2;save v s10;load r0 s10;save r0 s0;"
REM_TEMP = "bi divide v t r0;uni floor v v;bi times v v r0;bi minus t t v;"
REM_BASE = "bi divide v r1 r0;uni floor v v;bi times v v r0;bi minus r1 r1 v;"
CALL_BA = "load r1 m1;load r0 m0;swap r1 r0;call f7 2;save v s11;load r0 s11;save r0 s1"

# Title, file, text without records of need: its lines parted by semicolons; the numbers of the records.
MARKED = [
    ("P: the sheet of document 01, s0 = m0 + m1 x m2", EXAMPLE,
     "ops 6 temps 0;load r1 m1;load r0 m2;bi times r1 r1 r0;load r0 m0;bi plus r1 r0 r1;save r1 s0", (2,)),
    ("P: the same sheet, fused", sheet(FORMULA, fused=True),
     "ops 4 temps 0;load r0 m1;loadmath times r1 r0 m2;loadmath plus r1 r1 m0;save r1 s0", (2,)),
    ("P: no statements", sheet(), "ops 0 temps 0", ()),
    ("P: s0 = f7(m0)", sheet(("s0", ("f", 7, A))),
     "ops 5 temps 1;load r0 m0;call f7 1;save v s10;load r0 s10;save r0 s0", (1, 1)),
    ("P: (a+b) x (c+d) at scratch 2", sheet(("s0", ("times", SUM, OTHER)), scratch=2),
     "ops 12 temps 2;" + LOAD_SUM + "save r1 s10;" + LOAD_OTHER + "save r1 s11;"
     "load r1 s10;load r0 s11;bi times r1 r1 r0;save r1 s0", (2, 2, 2)),
    ("P: (a+b) x (c+d) at scratch 3", sheet(("s0", ("times", SUM, OTHER)), scratch=3),
     "ops 8 temps 0;" + WIDE_SUMS + "bi times r2 r2 r1;save r2 s0", (3,)),
    ("P: f7(a+b, c+d) at scratch 2", sheet(("s0", ("f", 7, SUM, OTHER)), scratch=2), "refused 8", ()),
    ("P: f7(a+b, c+d) at scratch 3", sheet(("s0", ("f", 7, SUM, OTHER)), scratch=3),
     "ops 11 temps 1;" + WIDE_SUMS + "move r0 r2;call f7 2;save v s10;load r0 s10;save r0 s0", (3, 1)),
    ("P: two statements of (a+b) x c, with sharing", sheet(("s0", ABC), ("s1", ABC), sharing=True),
     "ops 10 temps 1;" + LOAD_ABC + "save r1 s10;" + BOTH_FROM_S10, (2, 1, 1)),
    ("P: (a+b) x c, then c x (a+b), stored as c x (a+b)", sheet(("s0", ABC), ("s1", CAB), sharing=True),
     "ops 10 temps 1;" + LOAD_SUM + "load r0 m2;bi times r1 r0 r1;save r1 s10;" + BOTH_FROM_S10, (2, 1, 1)),
    ("P: two of root(a+b), weight 4", sheet(("s0", ("root", SUM)), ("s1", ("root", SUM)), sharing=True),
     "ops 10 temps 0;" + LOAD_SUM + "uni root r1 r1;save r1 s0;" + LOAD_SUM + "uni root r1 r1;save r1 s1", (2, 2)),
    ("P: (a+b) - c and c - (a+b)", sheet(("s0", ("minus", SUM, C)), ("s1", ("minus", C, SUM)), sharing=True),
     "ops 12 temps 0;" + LOAD_SUM + "load r0 m2;bi minus r1 r1 r0;save r1 s0;"
     + LOAD_SUM + "load r0 m2;bi minus r1 r0 r1;save r1 s1", (2, 2)),
    ("P: f7(a,b) and f7(b,a), with sharing", sheet(("s0", ("f", 7, A, B)), ("s1", ("f", 7, B, A)), sharing=True),
     "ops 14 temps 2;" + CALL_AB + CALL_BA, (2, 1, 2, 1)),
    ("not marked: first 65,535, step 1, T = 1", sheet(("s0", ("f", 7, A)), first=65535),
     "ops 5 temps 1;load r0 m0;call f7 1;save v s65535;load r0 s65535;save r0 s0", (1, 1)),
    ("not marked: first 65,535, step 1, T = 2", sheet(("s0", ("f", 7, A)), ("s1", ("f", 7, B)), first=65535),
     "refused 9", ()),
    ("difference: f0(c0,c0) + f0(c2,c2) are two calls; the Rust's key merges them and gives T = 1", MERGED_CALLS,
     "ops 14 temps 2;const r1 c0;const r0 c0;swap r1 r0;call f0 2;save v s0;"
     "const r1 c2;const r0 c2;swap r1 r0;call f0 2;save v s1;load r1 s0;load r0 s1;bi plus r1 r1 r0;save r1 m0", (2, 2, 2)),
    ("difference: left argument in r1, right in r2: Left is moved first; the Rust moves Right first and loses it",
     LOST_LEFT, "ops 16 temps 1;const r2 c0;const r1 c0;bi plus r2 r2 r1;const r1 c0;const r0 c0;bi plus r1 r1 r0;"
     "bi plus r2 r2 r1;const r1 c0;const r0 c0;bi plus r1 r1 r0;move r0 r1;move r1 r2;call f0 2;save v s0;"
     "load r0 s0;save r0 m0", (3, 1)),
    ("T-02: c0 ^ 5, its opening move kept", POWER_5,
     "ops 6 temps 0;const r0 c0;move r0 r0;bi times t r0 r0;bi times t t t;bi times r0 r0 t;save r0 m0", (1,)),
    ("T-02: power -2 of m0: move, square, reciprocal", sheet(("s0", ("powi", -2, A))),
     "ops 5 temps 0;load r0 m0;move r0 r0;bi times r0 r0 r0;uni recip r0 r0;save r0 s0", (1,)),
    ("T-02: the same with flag 4: the reciprocal first", sheet(("s0", ("powi", -2, A)), stable=True),
     "ops 5 temps 0;load r0 m0;uni recip r0 r0;move r0 r0;bi times r0 r0 r0;save r0 s0", (1,)),
    ("T-02: power 6 of m0 under m1: a remainder after every product, the square in Temp among them",
     sheet(("s0", ("powmod", 6, A, B))), "ops 19 temps 0;load r1 m0;load r0 m1;move r1 r1;bi times t r1 r1;" + REM_TEMP
     + "bi times r1 r1 t;" + REM_BASE + "bi times r1 r1 r1;" + REM_BASE + "save r1 s0", (2,)),
    ("T-02: power -1 of m0 under m1 is not reduced, nor does it mind flag 4", sheet(
        ("s0", ("powmod", -1, A, B)), stable=True),
     "ops 5 temps 0;load r1 m0;load r0 m1;move r1 r1;uni recip r1 r1;save r1 s0", (2,)),
    ("difference: c0 ^ 0 under c0 + c0: the wide modulus is stored; the Rust divides it by itself", WIDE_MODULUS,
     "ops 8 temps 1;const r1 c0;const r0 c0;bi plus r1 r1 r0;save r1 s0;const r1 c0;load r0 s0;bi divide r1 r1 r1;save r1 m0",
     (2, 2)),
    ("T-02: both sides at the scratch count are both stored", BOTH_STORED,
     "ops 12 temps 2;const r1 c0;const r0 c0;bi plus r1 r1 r0;save r1 s0;const r1 c0;const r0 c0;bi plus r1 r1 r0;save r1 s1;"
     "load r1 s0;load r0 s1;move r1 r1;save r1 m0", (2, 2, 2)),
    ("difference: c0 ^ -2,147,483,648 is 31 squarings; the Rust shifts by 32", LOWEST,
     "ops 35 temps 0;const r0 c0;move r0 r0;" + "bi times r0 r0 r0;" * 31 + "uni recip r0 r0;save r0 m0", (1,)),
    ("T-02: power -2,147,483,648 under a modulus, met at its last byte", UNDER_LOWEST, "refused 11", ()),
    ("T-02: the same without that byte", CUT_LOWEST, "refused 5", ()),
]

BIG = ("plus", ("times", A, B), C)
ROOT = ("root", ABC)

# Mistake, its name in document 01, title, file, the right first line, counted without records of need.
MISTAKES = [
    (Variant(left_at_base=True), "equal sides with left at b", "a - b", sheet(("s0", ("minus", A, B))),
     "ops 4 temps 0"),
    (Variant(left_at_base=True), "equal sides with left at b", "(a+b) x (c+d) at scratch 3",
     sheet(("s0", ("times", SUM, OTHER)), scratch=3), "ops 8 temps 0"),
    (Variant(left_at_base=True), "equal sides with left at b", "f7(a, b)", sheet(("s0", ("f", 7, A, B))),
     "ops 7 temps 1"),
    (Variant(walk_stops=True), "stopping the walk at a repeated tree", "two of root((a+b) x c)",
     sheet(("s0", ROOT), ("s1", ROOT), sharing=True), "ops 13 temps 2"),
    (Variant(walk_stops=True), "stopping the walk at a repeated tree", "root((a+b) x c) - root((a+b) x c)",
     sheet(("s0", ("minus", ROOT, ROOT)), sharing=True), "ops 13 temps 2"),
    (Variant(first_text=True), "keeping the first text", "(a+b) x c, then c x (a+b)",
     sheet(("s0", ABC), ("s1", CAB), sharing=True), "ops 10 temps 1"),
    (Variant(first_text=True), "keeping the first text", "the same with (b+a) inside, met three times",
     sheet(("s0", ABC), ("s1", ("times", C, ("plus", B, A))), ("s2", ABC), sharing=True), "ops 12 temps 1"),
    (Variant(one_side=True), "storing one side only", "(a+b) x (c+d) at scratch 2",
     sheet(("s0", ("times", SUM, OTHER)), scratch=2), "ops 12 temps 2"),
    (Variant(one_side=True), "storing one side only", "a choice of a+b and c+d at scratch 2",
     sheet(("s0", ("if", "p0", SUM, OTHER)), scratch=2), "ops 12 temps 2"),
    (Variant(calls_first=True), "checking calls before sharing", "s0 = a x b + c, s1 = f7(a x b + c, c x d + a)",
     sheet(("s0", BIG), ("s1", ("f", 7, BIG, ("plus", ("times", C, "m3"), A))), scratch=2, sharing=True),
     "ops 18 temps 2"),
    (Variant(calls_first=True), "checking calls before sharing", "f7(x, x) with x = a x b + c",
     sheet(("s0", ("f", 7, BIG, BIG)), scratch=2, sharing=True), "ops 13 temps 2"),
]
