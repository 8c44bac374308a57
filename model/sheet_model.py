"""Document 01 as a program, with T-01 and T-02 of document 02: from the bytes of a spacing sheet to its answer and its text.

Written from the words of the documents, in their order, to be read beside them. Nothing here is fast or clever.
A place is (kind, index); the n-th temporary is (TEMPORARY, n) until its stack index is needed.
"""
from dataclasses import dataclass
from typing import NamedTuple

WORK_WORDS = OUT_WORDS = MOST_BYTES = 16384
MOST_DEPTH, MOST_NODES = 64, 1024
TEMPORARY, STACK, MEMORY, PARAMETER = range(4)

UNARY_NAMES = ("neg not abs abs2 times_i times_neg_i root real_root square cube recip round floor "
               "ceiling trunc frac real imaginary conjugate iszero isnotzero").split()
BINARY_NAMES = "plus minus times divide rem gt geq lt leq eq neq and or xor complex".split()
UNARY = {name: code for code, name in enumerate(UNARY_NAMES, 1)}
BINARY = {name: code for code, name in enumerate(BINARY_NAMES, 1)}
COMMUTING = {BINARY[name] for name in "plus times eq neq and or xor".split()}


@dataclass(frozen=True)
class Variant:
    """The five mistakes that document 01 calls plausible in proof, wrong on film. All off: document 01."""
    left_at_base: bool = False  # equal sides with left at b
    walk_stops: bool = False    # stopping the walk at a repeated tree
    first_text: bool = False    # keeping the first text
    one_side: bool = False      # storing one side only
    calls_first: bool = False   # checking calls before sharing


AS_WRITTEN = Variant()


class Refused(Exception):
    """A refusal with its number."""
    def __init__(self, number):
        super().__init__(number)
        self.number = number


# ---- Trees -------------------------------------------------------------------------------------------------

CONST_TAG, VAR_TAG, UNARY_TAG, BINARY_TAG, CHOICE_TAG, CALL1_TAG, CALL2_TAG, POWER_TAG, MODULAR_TAG = range(1, 10)
ARITY = {CONST_TAG: 0, VAR_TAG: 0, UNARY_TAG: 1, BINARY_TAG: 2, CHOICE_TAG: 2, CALL1_TAG: 1, CALL2_TAG: 2,
         POWER_TAG: 1, MODULAR_TAG: 2}  # a power under a modulus has its base on the left and the modulus on the right
LOWEST_POWER = -2**31


class Tree:
    """A node; `code` is a constant's index, a variable's or condition's place, an operation, a function or a power."""
    __slots__ = ("tag", "code", "sides", "ershov", "weight", "depth", "form")

    def __init__(self, tag, code, *sides):
        self.tag, self.code, self.sides = tag, code, sides
        self.ershov = ershov_number(sides)
        self.weight = 1 + sum(side.weight for side in sides)
        self.depth = 1 + max((side.depth for side in sides), default=0)
        self.form = canonical_form(tag, code, sides)


def ershov_number(sides):
    """Of a node with these sides; a function counts as the unary or binary of its arity."""
    if not sides:
        return 1
    numbers = [side.ershov for side in sides]
    if len(numbers) == 2 and numbers[0] == numbers[1]:
        return numbers[0] + 1
    return max(numbers)


def canonical_form(tag, code, sides):
    """Nested tuples, commuting sides in one order: equal for same trees and for no others."""
    forms = [side.form for side in sides]
    if tag == BINARY_TAG and code in COMMUTING:
        forms.sort()
    return (tag, code, *forms)


def same(one, other):
    """Same tree: equal, allowing the sides of commuting operations to be exchanged at any depth."""
    return one.form == other.form


def temporary(number):
    return Tree(VAR_TAG, (TEMPORARY, number))


# ---- The sheet: checks 2 to 7, and 11 ------------------------------------------------------------------------------

class Assign(NamedTuple):
    place: tuple
    tree: Tree


class Call(NamedTuple):
    place: tuple
    function: int
    arguments: tuple


@dataclass(frozen=True)
class Sheet:
    scratch: int
    sharing: bool
    fused: bool
    stable: bool
    step: int
    first: int
    statements: list

    def word(self, place):
        """The place as a word of the list: index + 65,536 x kind."""
        kind, index = place
        if kind == TEMPORARY:
            kind, index = STACK, self.first + self.step * index
        return index + 65536 * kind


class Reader:
    """Reads the statements' bytes in order; `nodes` counts the tags of the whole sheet."""

    def __init__(self, first):
        self.first, self.nodes = first, 0
        self.part, self.at = b"", 0

    def byte(self, allowed=range(256)):
        """The next byte; an early end, and a byte that is not allowed here, are both 5."""
        if self.at == len(self.part) or self.part[self.at] not in allowed:
            raise Refused(5)
        self.at += 1
        return self.part[self.at - 1]

    def index(self):
        return self.byte() + 256 * self.byte()

    def place(self, kinds):
        kind, index = self.byte(kinds), self.index()
        if kind == STACK and index >= self.first:
            raise Refused(7)
        return (kind, index)

    def power(self, tag):
        """Four bytes in two's complement; the lowest is 11 under a modulus, met at its last byte."""
        power = int.from_bytes([self.byte() for _ in range(4)], "little", signed=True)
        if tag == MODULAR_TAG and power == LOWEST_POWER:
            raise Refused(11)
        return power

    def code(self, tag):
        if tag == CONST_TAG:
            return self.index()
        if tag in (VAR_TAG, CHOICE_TAG):
            return self.place((STACK, MEMORY, PARAMETER))
        if tag == UNARY_TAG:
            return self.byte(UNARY.values())
        if tag == BINARY_TAG:
            return self.byte(BINARY.values())
        if tag in (POWER_TAG, MODULAR_TAG):
            return self.power(tag)
        return self.byte()

    def tree(self, depth=1):
        tag = self.byte(ARITY)
        self.nodes += 1
        if depth > MOST_DEPTH or self.nodes > MOST_NODES:
            raise Refused(6)
        code = self.code(tag)
        return Tree(tag, code, *[self.tree(depth + 1) for _ in range(ARITY[tag])])

    def statement(self, part):
        self.part, self.at = part, 0
        place = self.place((STACK, MEMORY))
        tree = self.tree()
        if self.at < len(part):
            raise Refused(5)
        return Assign(place, tree)


def number_at(file, at):
    return int.from_bytes(file[at:at + 2], "little")


def read_pairs(file, count):
    """The parts of the file that the pairs name."""
    parts, end = [], 8 + 4 * count
    if len(file) < end:
        raise Refused(4)
    for at in range(8, 8 + 4 * count, 4):
        offset, length = number_at(file, at), number_at(file, at + 2)
        if offset < end or offset + length > len(file):
            raise Refused(4)
        end = offset + length
        parts.append(file[offset:end])
    return parts


def read_sheet(file):
    if not 8 <= len(file) <= MOST_BYTES:
        raise Refused(2)
    scratch, flags, step, zero = file[:4]
    count, first = number_at(file, 4), number_at(file, 6)
    if not (2 <= scratch <= 32 and flags <= 7 and 1 <= step <= 8 and zero == 0 and count <= 256):
        raise Refused(3)
    parts = read_pairs(file, count)
    reader = Reader(first)
    statements = [reader.statement(part) for part in parts]
    return Sheet(scratch, bool(flags & 1), bool(flags & 2), bool(flags & 4), step, first, statements)


# ---- eliminate: common subexpressions ----------------------------------------------------------------------

def walk_order(sides):
    """The larger side by Ershov number first, left if equal."""
    if len(sides) == 2 and sides[1].ershov > sides[0].ershov:
        return sides[::-1]
    return sides


def walk(statements, variant):
    """The trees given a temporary, by form: (number, text of the second meeting)."""
    met, given = {}, {}

    def meet(tree):
        if tree.weight >= 5:
            repeated = tree.form in met
            if repeated and tree.form not in given:
                text = met[tree.form] if variant.first_text else tree
                given[tree.form] = (len(given), text)
            if repeated and variant.walk_stops:
                return
            met.setdefault(tree.form, tree)
        for side in walk_order(tree.sides):
            meet(side)

    for statement in statements:
        meet(statement.tree)
    return given


def rewrite(statements, given):
    """The statements over temporaries, each text stored just before the statement where it first comes up."""
    out, stored = [], set()

    def inside(tree):
        return Tree(tree.tag, tree.code, *[rewritten(side) for side in tree.sides])

    def rewritten(tree):
        if tree.form not in given:
            return inside(tree)
        number, text = given[tree.form]
        if number not in stored:
            stored.add(number)
            kept = inside(text)  # stores the inner trees first
            out.append(Assign((TEMPORARY, number), kept))
        return temporary(number)

    for place, tree in statements:
        final = rewritten(tree)
        out.append(Assign(place, final))
    return out


def eliminate(statements, variant=AS_WRITTEN):
    """The rewritten statements and the number of temporaries given out."""
    given = walk(statements, variant)
    return rewrite(statements, given), len(given)


# ---- trim_statements: calls and splits ---------------------------------------------------------------------

class Trimmer:
    def __init__(self, scratch, sharing, temporaries, variant):
        self.scratch, self.sharing, self.variant = scratch, sharing, variant
        self.temporaries, self.calls, self.out = temporaries, {}, []

    def fresh(self):
        self.temporaries += 1
        return self.temporaries - 1

    def store(self, tree):
        number = self.fresh()
        self.out.append(Assign((TEMPORARY, number), tree))
        return temporary(number)

    def call(self, function, arguments):
        key = (function, *[argument.form for argument in arguments])
        if self.sharing and key in self.calls:
            return temporary(self.calls[key])
        number = self.calls[key] = self.fresh()
        self.out.append(Call((TEMPORARY, number), function, arguments))
        return temporary(number)

    def tree(self, tree):
        """Sides first, left then right, then the node."""
        sides = tuple([self.tree(side) for side in tree.sides])
        if tree.tag in (CALL1_TAG, CALL2_TAG):
            return self.call(tree.code, sides)
        if len(sides) == 2 and all(side.ershov == self.scratch for side in sides):
            left = self.store(sides[0])
            right = sides[1] if self.variant.one_side else self.store(sides[1])
            sides = (left, right)
        elif tree.tag == MODULAR_TAG and sides[1].ershov > sides[0].ershov:
            sides = (sides[0], self.store(sides[1]))  # the base would end where such a modulus lies
        return Tree(tree.tag, tree.code, *sides)

    def statement(self, statement):
        final = self.tree(statement.tree)
        self.out.append(Assign(statement.place, final))


def trim(statements, scratch, sharing, temporaries, variant=AS_WRITTEN):
    """The trimmed statements and T, given the temporaries that `eliminate` gave out."""
    trimmer = Trimmer(scratch, sharing, temporaries, variant)
    for statement in statements:
        trimmer.statement(statement)
    return trimmer.out, trimmer.temporaries


def check_calls(trimmed, scratch):
    for statement in trimmed:
        if isinstance(statement, Call) and len(statement.arguments) == 2:
            if all(argument.ershov == scratch for argument in statement.arguments):
                raise Refused(8)


def trimmed_sheet(sheet, variant=AS_WRITTEN):
    """The trimmed statements and T."""
    shared, given = sheet.statements, 0
    if sheet.sharing:
        shared, given = eliminate(sheet.statements, variant)
    return trim(shared, sheet.scratch, sheet.sharing, given, variant)


# ---- Emission ----------------------------------------------------------------------------------------------

CONST, LOAD, SAVE, MOVE, SWAP, UNI, BI, IFELSE, LOADMATH, CONSTMATH, CALL, NEED = range(1, 13)
LEFT, RIGHT, TEMP, RET = 0, 1, 254, 255


def operation(kind, code=0, to=0, s1=0, s2=0, place=0):
    return (kind, code, to, s1, s2, place)


def bi(name, to, s1, s2):
    return operation(BI, BINARY[name], to, s1, s2)


def unary_operations(code, x):
    """The unary applied to register x in place; square, cube, frac and the two turns are expanded."""
    name = UNARY_NAMES[code - 1]
    if name == "square":
        return [bi("times", x, x, x)]
    if name == "cube":
        return [bi("times", TEMP, x, x), bi("times", x, x, TEMP)]
    if name == "frac":
        return [operation(UNI, UNARY["floor"], TEMP, x), bi("minus", x, x, TEMP)]
    if name in ("times_i", "times_neg_i"):
        return [bi("xor", x, x, x)]
    return [operation(UNI, code, x, x)]


def binary_operations(code, to, x, y):
    if code == BINARY["rem"]:
        return [bi("divide", RET, x, y), operation(UNI, UNARY["floor"], RET, RET),
                bi("times", RET, RET, y), bi("minus", to, x, RET)]
    return [operation(BI, code, to, x, y)]


def power_steps(power):
    """A positive power by its binary digits: those above the lowest 1, from low to high, and the zeros below it."""
    digits = f"{power:b}"[::-1]
    zeros = digits.index("1")
    return [digit == "1" for digit in digits[zeros + 1:]], zeros


def positive_power(power, x, modulus=None):
    """Register x becomes its power, through Temp; under a modulus the remainder follows every product."""
    def product(to, left, right):
        reduced = [] if modulus is None else binary_operations(BINARY["rem"], to, to, modulus)
        return [bi("times", to, left, right), *reduced]

    digits, zeros = power_steps(power)
    operations, square = [operation(MOVE, 0, x, x)], x
    for multiplied in digits:
        operations += product(TEMP, square, square)
        square = TEMP
        if multiplied:
            operations += product(x, x, TEMP)
    return operations + product(x, x, x) * zeros


def power_operations(power, x, stable=False, modulus=None):
    """Register x becomes its power; only a positive one is reduced by the modulus, only a bare one minds `stable`."""
    if power == 0:
        return [bi("divide", x, x, x)]
    if power > 0:
        return positive_power(power, x, modulus)
    reciprocal = [operation(UNI, UNARY["recip"], x, x)]
    raised = positive_power(-power, x)
    return reciprocal + raised if stable and modulus is None else raised + reciprocal


def argument_moves(x, y):
    """The two arguments, in registers x and y, go to Left and Right."""
    if (x, y) == (1, 0):
        return [operation(SWAP, 0, 1, 0)]
    left = [operation(MOVE, 0, LEFT, x)] if x != LEFT else []
    right = [operation(MOVE, 0, RIGHT, y)] if y != RIGHT else []
    # Left first only where the left argument lies in register 1, which the right move overwrites.
    return left + right if x == RIGHT else right + left


def fusion(tree):
    """The fused operation's kind, the side to evaluate and the leaf to take from its place; or None."""
    name, (left, right) = BINARY_NAMES[tree.code - 1], tree.sides
    for tag, kind in ((VAR_TAG, LOADMATH), (CONST_TAG, CONSTMATH)):
        if right.tag == tag and name in ("plus", "minus", "times", "divide"):
            return kind, left, right
        if left.tag == tag and name in ("plus", "times"):
            return kind, right, left
    return None


class Emitter:
    def __init__(self, sheet, variant=AS_WRITTEN):
        self.sheet, self.variant = sheet, variant

    def place(self, tree):
        """A leaf's last word: its place, or its constant's index."""
        return tree.code if tree.tag == CONST_TAG else self.sheet.word(tree.code)

    def sides(self, left, right, base):
        """Operations for both sides, and the registers that then hold them."""
        at_left = at_right = base
        left_first = left.ershov >= right.ershov
        if left.ershov == right.ershov:
            if self.variant.left_at_base:
                at_right = base + 1
            else:
                at_left = base + 1
        parts = [self.tree(left, at_left), self.tree(right, at_right)]
        if not left_first:
            parts.reverse()
        return parts[0] + parts[1], at_left + left.ershov - 1, at_right + right.ershov - 1

    def binary(self, tree, base):
        to = base + tree.ershov - 1
        fused = fusion(tree) if self.sheet.fused and tree.tag == BINARY_TAG else None
        if fused:
            kind, other, leaf = fused
            x = base + other.ershov - 1
            return self.tree(other, base) + [operation(kind, tree.code, to, x, 0, self.place(leaf))]
        before, x, y = self.sides(*tree.sides, base)
        if tree.tag == CHOICE_TAG:
            return before + [operation(IFELSE, 0, to, x, y, self.sheet.word(tree.code))]
        if tree.tag == MODULAR_TAG:
            assert to == x != y, "trimming keeps the modulus clear of the base's register"
            return before + power_operations(tree.code, x, modulus=y)
        return before + binary_operations(tree.code, to, x, y)

    def tree(self, tree, base):
        """Evaluation at a base: the value ends in register base + Ershov number - 1."""
        if tree.tag == CONST_TAG:
            return [operation(CONST, 0, base, place=self.place(tree))]
        if tree.tag == VAR_TAG:
            return [operation(LOAD, 0, base, place=self.place(tree))]
        if tree.tag == UNARY_TAG:
            x = base + tree.ershov - 1
            return self.tree(tree.sides[0], base) + unary_operations(tree.code, x)
        if tree.tag == POWER_TAG:
            x = base + tree.ershov - 1
            return self.tree(tree.sides[0], base) + power_operations(tree.code, x, self.sheet.stable)
        return self.binary(tree, base)

    def call(self, call):
        if len(call.arguments) == 2:
            before, x, y = self.sides(*call.arguments, 0)
            moves = argument_moves(x, y)
        else:
            argument, = call.arguments
            before, x = self.tree(argument, 0), argument.ershov - 1
            moves = [operation(MOVE, 0, LEFT, x)] if x != LEFT else []
        return before + moves + [operation(CALL, call.function, s1=len(call.arguments))], RET

    def statement(self, statement):
        """The record of one trimmed statement's need, then its operations, its save among them."""
        if isinstance(statement, Call):
            before, register = self.call(statement)
            need = ershov_number(statement.arguments)
        else:
            before, register = self.tree(statement.tree, 0), statement.tree.ershov - 1
            need = statement.tree.ershov
        save = operation(SAVE, s1=register, place=self.sheet.word(statement.place))
        return [operation(NEED, need), *before, save]


# ---- The answer --------------------------------------------------------------------------------------------

class Answer(NamedTuple):
    number: int
    operations: int
    temporaries: int
    output: list


def list_words(sheet, out_words, variant):
    """The words of the list and T; checks 8 to 10."""
    trimmed, temporaries = trimmed_sheet(sheet, variant)
    checked = trimmed
    if variant.calls_first:
        checked, _ = trim(sheet.statements, sheet.scratch, sheet.sharing, 0, variant)
    check_calls(checked, sheet.scratch)
    if sheet.first + sheet.step * temporaries > 65536:
        raise Refused(9)
    emitter = Emitter(sheet, variant)
    words = [word for statement in trimmed for op in emitter.statement(statement) for word in op]
    if out_words < len(words):
        raise Refused(10)
    return words, temporaries


def answer(file, work_words=WORK_WORDS, out_words=OUT_WORDS, variant=AS_WRITTEN):
    """What the call answers for a file and the lengths of the lent work area and output."""
    try:
        if work_words < WORK_WORDS:
            raise Refused(1)
        words, temporaries = list_words(read_sheet(file), out_words, variant)
    except Refused as refusal:
        return Answer(refusal.number, 0, 0, [0] * out_words)
    return Answer(0, len(words) // 6, temporaries, words + [0] * (out_words - len(words)))


def without_needs(result):
    """The answer with the records of need dropped from its list, and counted without them."""
    end = 6 * result.operations
    kept = [word for at in range(0, end, 6) if result.output[at] != NEED for word in result.output[at:at + 6]]
    return result._replace(operations=len(kept) // 6, output=kept + result.output[end:])


# ---- The printed text --------------------------------------------------------------------------------------

def register_name(register):
    return {TEMP: "t", RET: "v"}.get(register, f"r{register}")


def place_name(word):
    kind, index = divmod(word, 65536)
    return f"{' smp'[kind]}{index}"


def line(op):
    kind, code, to, s1, s2, place = op
    to, one, two, at = register_name(to), register_name(s1), register_name(s2), place_name(place)
    if kind in (BI, LOADMATH, CONSTMATH):
        code = BINARY_NAMES[code - 1]
    elif kind == UNI:
        code = UNARY_NAMES[code - 1]
    return {
        CONST: f"const {to} c{place}", LOAD: f"load {to} {at}", SAVE: f"save {one} {at}",
        MOVE: f"move {to} {one}", SWAP: f"swap {to} {one}", UNI: f"uni {code} {to} {one}",
        BI: f"bi {code} {to} {one} {two}", IFELSE: f"ifelse {to} {one} {two} {at}",
        LOADMATH: f"loadmath {code} {to} {one} {at}", CONSTMATH: f"constmath {code} {to} {one} c{place}",
        CALL: f"call f{code} {s1}", NEED: f"need {code}"}[kind]


def text(result):
    """The text that the program `sheet` prints for an answer."""
    if result.number:
        return f"refused {result.number}\n"
    lines = [f"ops {result.operations} temps {result.temporaries}"]
    for at in range(0, 6 * result.operations, 6):
        lines.append(line(result.output[at:at + 6]))
    return "\n".join(lines) + "\n"
