"""What a sheet is worth, how a list runs, and demand 3 and the claim of T-01 tried on one sheet.

A meaning here is a set of random functions on the whole numbers below SIZE: two different trees have
different values but for rare chance, so a wrong operation shows.
"""
from sheet_model import (
    BI, BINARY, BINARY_TAG, CALL, CHOICE_TAG, COMMUTING, CONST, CONST_TAG, CONSTMATH,
    IFELSE, LEFT, LOAD, LOADMATH, MODULAR_TAG, MOVE, NEED, POWER_TAG, RET, RIGHT, SAVE, SWAP, TEMP, TEMPORARY, UNARY,
    UNARY_NAMES, UNARY_TAG, UNI, VAR_TAG, Assign, Emitter, Refused, check_calls, power_steps, read_sheet, trimmed_sheet)

SIZE = 2147483647


class Cells(dict):
    """A memory or a register file: a random value everywhere; the dictionary holds what was written since."""
    def __init__(self, *seed):
        super().__init__()
        self.seed = seed

    def __missing__(self, at):
        return hash((*self.seed, at)) % SIZE


class Meaning:
    def __init__(self, seed):
        self.seed = seed

    def free(self, *what):
        """A random function's value: `what` is its name and its arguments."""
        return hash((self.seed, *what)) % SIZE

    def constant(self, index):
        return self.free(0, index)

    def unary(self, code, x):
        """The expansions of document 01 fix those they name."""
        name = UNARY_NAMES[code - 1]
        if name == "square":
            return self.binary(BINARY["times"], x, x)
        if name == "cube":
            return self.binary(BINARY["times"], x, self.binary(BINARY["times"], x, x))
        if name == "frac":
            return self.binary(BINARY["minus"], x, self.unary(UNARY["floor"], x))
        if name in ("times_i", "times_neg_i"):
            return self.binary(BINARY["xor"], x, x)
        return self.free(1, code, x)

    def binary(self, code, x, y):
        if code == BINARY["rem"]:
            floor = self.unary(UNARY["floor"], self.binary(BINARY["divide"], x, y))
            return self.binary(BINARY["minus"], x, self.binary(BINARY["times"], floor, y))
        if code in COMMUTING and y < x:
            x, y = y, x
        return self.free(2, code, x, y)

    def product(self, x, y, modulus):
        raised = self.binary(BINARY["times"], x, y)
        return raised if modulus is None else self.binary(BINARY["rem"], raised, modulus)

    def positive_power(self, power, x, modulus=None):
        """The digits above the lowest 1 take x and its squares in turn; each zero below it squares the result."""
        digits, zeros = power_steps(power)
        raised = square = x
        for multiplied in digits:
            square = self.product(square, square, modulus)
            raised = self.product(raised, square, modulus) if multiplied else raised
        for _ in range(zeros):
            raised = self.product(raised, raised, modulus)
        return raised

    def power(self, power, x, stable=False, modulus=None):
        """T-02's expansions: x / x, products, and a reciprocal before or after them."""
        if power == 0:
            return self.binary(BINARY["divide"], x, x)
        if power > 0:
            return self.positive_power(power, x, modulus)
        if stable and modulus is None:
            return self.positive_power(-power, self.unary(UNARY["recip"], x))
        return self.unary(UNARY["recip"], self.positive_power(-power, x))

    def choice(self, condition, true, false):
        return self.free(3, condition, true, false)

    def function(self, code, *arguments):
        return self.free(3 + len(arguments), code, *arguments)


def value(tree, memory, meaning, sheet):
    """The tree's value in a memory; the sheet turns a place into the memory's index and says how negative powers go."""
    sides = [value(side, memory, meaning, sheet) for side in tree.sides]
    if tree.tag == CONST_TAG:
        return meaning.constant(tree.code)
    if tree.tag == VAR_TAG:
        return memory[sheet.word(tree.code)]
    if tree.tag == UNARY_TAG:
        return meaning.unary(tree.code, *sides)
    if tree.tag == BINARY_TAG:
        return meaning.binary(tree.code, *sides)
    if tree.tag == CHOICE_TAG:
        return meaning.choice(memory[sheet.word(tree.code)], *sides)
    if tree.tag == POWER_TAG:
        return meaning.power(tree.code, *sides, stable=sheet.stable)
    if tree.tag == MODULAR_TAG:
        return meaning.power(tree.code, sides[0], modulus=sides[1])
    return meaning.function(tree.code, *sides)


def run_sheet(sheet, memory, meaning):
    for place, tree in sheet.statements:
        memory[sheet.word(place)] = value(tree, memory, meaning, sheet)


def result_of(op, memory, registers, meaning):
    """What an operation puts in its destination register."""
    kind, code, _, s1, s2, place = op
    if kind == CONST:
        return meaning.constant(place)
    if kind == LOAD:
        return memory[place]
    if kind == MOVE:
        return registers[s1]
    if kind == UNI:
        return meaning.unary(code, registers[s1])
    if kind == BI:
        return meaning.binary(code, registers[s1], registers[s2])
    if kind == IFELSE:
        return meaning.choice(memory[place], registers[s1], registers[s2])
    if kind == LOADMATH:
        return meaning.binary(code, registers[s1], memory[place])
    if kind == CONSTMATH:
        return meaning.binary(code, registers[s1], meaning.constant(place))
    raise ValueError(f"no such operation: {op}")


def run_list(words, memory, registers, meaning, spoil):
    """Runs the words; memory changes in place, the registers left are returned. `spoil` seeds what calls leave. It passes over
    records of need, and over any kind that it does not know."""
    for at in range(0, len(words), 6):
        kind, code, to, s1, _, place = op = words[at:at + 6]
        if kind == SAVE:
            memory[place] = registers[s1]
        elif kind == SWAP:
            registers[to], registers[s1] = registers[s1], registers[to]
        elif kind == CALL:
            arguments = [registers[number] for number in (LEFT, RIGHT)[:s1]]
            registers = Cells(spoil, at)
            registers[RET] = meaning.function(code, *arguments)
        elif CONST <= kind < CALL:
            registers[to] = result_of(op, memory, registers, meaning)
    return registers


def reads(tree):
    """The places of a tree's variables and conditions."""
    own = {tree.code} if tree.tag in (VAR_TAG, CHOICE_TAG) else set()
    return own.union(*[reads(side) for side in tree.sides])


def condition_holds(sheet):
    """No statement assigns a place that it or an earlier one reads, or an earlier one assigned."""
    touched = set()
    for place, tree in sheet.statements:
        touched |= reads(tree)
        if place in touched:
            return False
        touched.add(place)
    return True


def words_of(operations):
    return [word for op in operations for word in op]


def check_assignment(assign, operations, sheet, meaning, seed):
    """The first half of demand 3, for one trimmed assignment run from a random memory and registers."""
    memory, registers, last = Cells(seed, 1), Cells(seed, 2), assign.tree.ershov - 1
    expected = value(assign.tree, memory, meaning, sheet)
    left = run_list(words_of(operations), memory, registers, meaning, seed)
    assert all(number <= last for number in left if number < sheet.scratch), "a register above e - 1"
    assert all(number < sheet.scratch or number in (254, 255) for number in left), "no such register"
    assert left[last] == expected, "not the tree's value in register e - 1"
    assert memory == {sheet.word(assign.place): expected}, "not the tree's value in its place"


def check_needs(words, scratch):
    """T-01, from the list alone: a record's number is from 1 to the scratch count, and no operation writes a scratch register
    at or above that of the record last read, a call's own spoiling aside."""
    need = 0
    for at in range(0, len(words), 6):
        kind, code, to, s1, *_ = words[at:at + 6]
        if kind == NEED:
            need = code
            assert 1 <= need <= scratch, "a need that is none"
        written = {SAVE: (), CALL: (), NEED: (), SWAP: (to, s1)}.get(kind, (to,))
        assert all(number < need or number in (TEMP, RET) for number in written), "a register that no record has"


def check_whole(sheet, words, temporaries, meaning, seed):
    """The second half of demand 3: the whole list against the sheet carried out in order."""
    by_sheet, by_list = Cells(seed, 3), Cells(seed, 3)
    run_sheet(sheet, by_sheet, meaning)
    run_list(words, by_list, Cells(seed, 4), meaning, seed)
    own = {sheet.word((TEMPORARY, number)) for number in range(temporaries)}
    left = {place: now for place, now in by_list.items() if place not in own}
    assert left == by_sheet, "not the memory that the sheet leaves"


def check_demand3(file, seed):
    """Tries demand 3 on a file; says how far it applied: unread, refused, assignments or whole."""
    try:
        sheet = read_sheet(file)
    except Refused:
        return "unread"
    trimmed, temporaries = trimmed_sheet(sheet)
    for statement in trimmed:
        if isinstance(statement, Assign):
            assert statement.tree.ershov <= sheet.scratch, "refused for registers"
    try:
        check_calls(trimmed, sheet.scratch)
    except Refused:
        return "refused"
    if sheet.first + sheet.step * temporaries > 65536:
        return "refused"
    meaning, emitter = Meaning(seed), Emitter(sheet)
    groups = [emitter.statement(statement) for statement in trimmed]
    for statement, operations in zip(trimmed, groups):
        if isinstance(statement, Assign):
            check_assignment(statement, operations, sheet, meaning, seed)
    words = [word for group in groups for word in words_of(group)]
    check_needs(words, sheet.scratch)
    if not condition_holds(sheet):
        return "assignments"
    check_whole(sheet, words, temporaries, meaning, seed)
    return "whole"
