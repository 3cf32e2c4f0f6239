"""Changes of parts. Each takes a source of random choices, a part, and the parts of other modules by their names; it changes the part."""

from fuzz.tree import BYTES, LIST, NUMBER, SEQUENCE, SIZED, Part, copied, parts_of

# numbers at which the printer, the format or an encoding has a limit
LIMITS = (0, 1, 2, 127, 128, 255, 16383, 16384, 50_000, 50_001, 1_000_001, 2**31 - 1, 2**31, 2**32 - 1, 2**32, 2**63, 2**64 - 1, 2**64)
# names that the text has to escape, that equal one another after that, or that are not UTF-8
NAMES = (
    b"", b"a", b"0", b"$", b"#func0", b"a b", b'"', b"\\", b"\n", b"\0", b"\x7f", b"\xc3\xa9", b"\xe2\x80\xae", b"\xf0\x9f\x98\x80", b"(;", b";;",
    b"name", b"producers", b"dylink.0", b"metadata.code.branch_hint", b"\xff", b"\xc3", b"\xed\xa0\x80", b"\xc0\x80", b"n" * 300,
)
LONGEST_NUMBER = 10
MOST_COPIES = 40


def other_number(random, part, _):
    """Gives a number another value: a neighbour, a limit or its negative, or any number of a few bits."""
    value = random.choice((part.value - 1, part.value + 1, random.choice(LIMITS), random.getrandbits(random.randint(1, 7))))
    if part.is_signed and random.random() < 0.5:
        value = -value
    part.value = value if part.is_signed else max(0, value)


def longer_number(random, part, _):
    """Encodes a number, a count or a size in more bytes, often in more than the format allows."""
    part.width = random.randint(2, LONGEST_NUMBER)


def without_item(random, part, _):
    if part.parts:
        del part.parts[random.randrange(len(part.parts))]


def without_items(_, part, __):
    part.parts = []


def with_copies(random, part, _):
    """Repeats an item, usually once."""
    if part.parts:
        at = random.randrange(len(part.parts))
        copies = 1 if random.random() < 0.8 else random.randint(2, MOST_COPIES)
        part.parts[at:at] = [copied(part.parts[at]) for _ in range(copies)]


def with_item(random, part, others):
    """Adds an item of another module."""
    if others.get(part.item):
        part.parts.insert(random.randint(0, len(part.parts)), copied(random.choice(others[part.item])))


def swapped(random, part, _):
    """Moves an item."""
    if part.parts:
        item = part.parts.pop(random.randrange(len(part.parts)))
        part.parts.insert(random.randint(0, len(part.parts)), item)


def replaced(random, part, others):
    """Replaces a part by one of another module."""
    if others.get(part.what):
        other = copied(random.choice(others[part.what]))
        vars(part).update(vars(other))


def wrong_count(random, part, _):
    """Changes the count of a list or the size of a part, but not its contents."""
    part.skew = random.choice((-1, 1, 1, 2, random.choice(LIMITS)))


def other_name(random, part, _):
    part.parts = [Part(BYTES, "characters", data=random.choice(NAMES))]


def other_byte(random, part, _):
    """Changes a byte, or appends one if there is none."""
    data = bytearray(part.data or b"\0")
    data[random.randrange(len(data))] = random.choice((random.getrandbits(8), random.getrandbits(3)))
    part.data = bytes(data)


def is_list(part):
    """Returns whether a part has any number of items."""
    return bool(part.item)


def is_counted(part):
    return part.kind in (LIST, SIZED)


def is_encoded(part):
    return part.kind == NUMBER or is_counted(part)


# The changes with how often they are made, and the parts that each can change. The later ones often make a malformed module.
CHANGES = (
    (8, other_number, lambda part: part.kind == NUMBER),
    (8, with_item, is_list),
    (6, with_copies, is_list),
    (6, without_item, is_list),
    (6, swapped, is_list),
    (8, replaced, lambda part: part.kind == SEQUENCE and not part.item),
    (4, other_name, lambda part: part.what == "name"),
    (3, longer_number, is_encoded),
    (1, without_items, is_list),
    (3, other_byte, lambda part: part.kind == BYTES),
    (1, wrong_count, is_counted),
)
WEIGHTS = [weight for weight, _, _ in CHANGES]


def change(random, module, others):
    """Changes a part of a module."""
    parts = parts_of(module)
    while True:
        _, make, can_change = random.choices(CHANGES, WEIGHTS)[0]
        possible = [part for part in parts if can_change(part)]
        if possible:
            make(random, random.choice(possible), others)
            return
