"""Building sheets: formulas as nested tuples, a sheet's bytes, and random and damaged sheets.

A leaf is a string ('s0' stack, 'm0' memory, 'p0' parameter, 'c0' constant); a node is a tuple: ('root', x),
('plus', x, y), ('if', place, true side, false side), ('f', number, x) or ('f', number, x, y), ('powi', power, x),
('powmod', power, base, modulus).
"""
from sheet_model import BINARY, COMMUTING, LOWEST_POWER, MODULAR_TAG, POWER_TAG, UNARY

KINDS = {"s": 1, "m": 2, "p": 3}
POWERS = {"powi": POWER_TAG, "powmod": MODULAR_TAG}


def number(value):
    return value.to_bytes(2, "little")


def power_bytes(power):
    return power.to_bytes(4, "little", signed=True)


def place_bytes(name):
    return bytes([KINDS[name[0]]]) + number(int(name[1:]))


def tree_bytes(tree):
    """The tree in prefix order; bytes stand for themselves, so that a damaged tree can be built."""
    if isinstance(tree, bytes):
        return tree
    if isinstance(tree, str):
        return b"\x01" + number(int(tree[1:])) if tree[0] == "c" else b"\x02" + place_bytes(tree)
    name, *rest = tree
    if name == "if":
        head, rest = b"\x05" + place_bytes(rest[0]), rest[1:]
    elif name == "f":
        head, rest = bytes([4 + len(rest), rest[0]]), rest[1:]
    elif name in POWERS:
        head, rest = bytes([POWERS[name]]) + power_bytes(rest[0]), rest[1:]
    else:
        head = bytes([3, UNARY[name]]) if name in UNARY else bytes([4, BINARY[name]])
    return head + b"".join(map(tree_bytes, rest))


def nodes(tree):
    return 1 if isinstance(tree, str) else 1 + sum(nodes(side) for side in tree[1:] if is_tree(side, tree))


def is_tree(side, parent):
    """Whether a member of a tuple is a side: not a function's number or a power, not a choice's place."""
    return not isinstance(side, int) and not (parent[0] == "if" and side is parent[1])


def statement(place, tree):
    return place_bytes(place) + tree_bytes(tree)


def header(count, scratch=4, flags=0, step=1, zero=0, first=10):
    return bytes([scratch, flags, step, zero]) + number(count) + number(first)


def join(parts, head=None, gap=b"", after=b"", **fields):
    """A file from the statements' bytes: header, pairs, parts with a gap before each, and bytes after the last."""
    pairs, body, at = b"", b"", 8 + 4 * len(parts)
    for part in parts:
        at += len(gap)
        pairs += number(at) + number(len(part))
        body += gap + part
        at += len(part)
    return (head or header(len(parts), **fields)) + pairs + body + after


def sheet(*statements, sharing=False, fused=False, stable=False, gap=b"", after=b"", **fields):
    """A file from (place, tree) pairs, in fields of the header by name."""
    parts = [part if isinstance(part, bytes) else statement(*part) for part in statements]
    return join(parts, gap=gap, after=after, flags=sharing + 2 * fused + 4 * stable, **fields)


# ---- Random sheets -----------------------------------------------------------------------------------------

def exchanged(rng, tree):
    """The tree with sides of commuting operations exchanged at random: a same tree."""
    if isinstance(tree, str):
        return tree
    tree = tuple(exchanged(rng, side) if is_tree(side, tree) else side for side in tree)
    if BINARY.get(tree[0]) in COMMUTING and rng.random() < 0.5:
        return (tree[0], tree[2], tree[1])
    return tree


def random_power(rng, lowest):
    """Small, a power of two or one less, of either sign and up to both ends of the range."""
    size = rng.choice((0, 1, 2, 3, 4, 5, rng.randrange(300), 2**rng.randrange(32), 2**rng.randrange(32) - 1))
    return max(lowest, min(rng.choice((size, -size)), 2**31 - 1))


class Grower:
    """Grows random trees; subtrees come back from its pool, so that there is something to share."""

    def __init__(self, rng, powers=0):
        self.rng, self.pool, self.powers = rng, [], powers
        self.calls = rng.choice((0, 0.05, 0.15))
        self.places = [kind + str(index) for kind in "smp" for index in range(3)]

    def leaf(self):
        return f"c{self.rng.randrange(3)}" if self.rng.random() < 0.25 else self.rng.choice(self.places)

    def tree(self, size):
        """A tree of at most `size` nodes."""
        if size <= 1:
            return self.leaf()
        fitting = [tree for tree in self.pool if nodes(tree) <= size]
        if fitting and self.rng.random() < 0.25:
            return exchanged(self.rng, self.rng.choice(fitting))
        tree = self.one(size) if size == 2 or self.rng.random() < 0.2 else self.two(size)
        self.pool.append(tree)
        return tree

    def raises(self):
        """Whether the next node is a power; a sheet without powers draws nothing for it."""
        return self.powers > 0 and self.rng.random() < self.powers

    def one(self, size):
        if self.raises():
            return ("powi", random_power(self.rng, LOWEST_POWER), self.tree(size - 1))
        call = self.rng.random() < self.calls
        head = ("f", self.rng.randrange(2)) if call else (self.rng.choice(list(UNARY)),)
        return (*head, self.tree(size - 1))

    def two(self, size):
        left = self.rng.randint(1, size - 2)
        sides = (self.tree(left), self.tree(size - 1 - left))
        if self.raises():
            return ("powmod", random_power(self.rng, LOWEST_POWER + 1), *sides)
        if self.rng.random() < self.calls:
            return ("f", self.rng.randrange(2), *sides)
        if self.rng.random() < 0.15:
            return ("if", self.rng.choice(self.places), *sides)
        return (self.rng.choice(list(BINARY) + ["plus", "times"] * 5), *sides)


def random_statements(rng, most_nodes, powers):
    """Statements of at most `most_nodes` nodes together; often no place is assigned after it was read."""
    grower, left, statements = Grower(rng, powers), rng.randint(1, most_nodes), []
    fresh = rng.random() < 0.7
    while left > 0 and len(statements) < 256:
        tree = grower.tree(min(left, rng.randint(1, most_nodes)))
        place = rng.choice("sm") + str(5 + len(statements) if fresh else rng.randrange(3))
        statements.append((place, tree))
        grower.places.append(place)
        left -= nodes(tree)
    return statements


def random_sheet(rng, most_nodes, powers=0):
    """A sheet that can be read, though a call may bring it to 8; `powers` is the part of its nodes that are powers."""
    gap = bytes(rng.randrange(256) for _ in range(rng.choice((0, 0, 0, 1, 3))))
    return sheet(*random_statements(rng, most_nodes, powers), scratch=rng.choice((2, 2, 2, 3, 3, 4, 5, 8, 32)),
                 sharing=rng.random() < 0.7, fused=rng.random() < 0.5, step=rng.choice((1, 1, 2, 8)),
                 first=rng.choice((300, 300, 1000)), gap=gap, stable=powers > 0 and rng.random() < 0.5)


def damaged(rng, file):
    """The file with a byte changed, cut out or put in, or cut off at the end."""
    at, way = rng.randrange(len(file)), rng.randrange(4)
    if way == 0:
        return file[:at] + bytes([rng.choice((0, 1, 2, 3, 4, 5, 7, 8, 22, 255))]) + file[at + 1:]
    if way == 1:
        return file[:at] + file[at + 1:]
    if way == 2:
        return file[:at] + bytes([rng.randrange(8)]) + file[at:]
    return file[:at]
