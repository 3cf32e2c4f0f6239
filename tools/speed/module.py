"""Generates modules of any size: types, imports, functions, exports, elements, data, names. The same size gives the same bytes."""

import random

from body import Body
from encode import FUNCREF, TYPES, counted_i32, custom, listed, section, sized, string, types, unsigned

IMPORTED = 12
WORDS = ("core", "fmt", "alloc", "vec", "string", "iter", "map", "parse", "write", "read", "buffer", "hash", "next", "push", "drop", "index", "pad", "try")
LOCAL_NAMES = ("self", "len", "ptr", "i", "cap", "out", "state", "value", "key", "sp", "tmp", "acc")


class World:
    """The types, functions and globals that the bodies of a module may use."""

    def __init__(self, rng, functions):
        self.globals, self.functions = 6, functions + IMPORTED
        self.types = [drawn_type(rng) for _ in range(24 + functions // 100)]
        self.type_of = [int(rng.random() ** 2 * len(self.types)) for _ in range(self.functions)]
        self.with_result = {}  # the functions with a result of each type
        for index in range(self.functions):
            for kind in self.signature(index)[1]:
                self.with_result.setdefault(kind, []).append(index)

    def signature(self, index):
        return self.types[self.type_of[index]]


def drawn_type(rng):
    """Returns a function type: its parameters, and at most one result."""
    kinds = ("i32", "i32", "i32", "i32", "i64", "f64", "f32", "v128")
    params = [rng.choice(kinds) for _ in range(rng.choice((0, 1, 1, 2, 2, 3, 4, 6)))]
    return params, [rng.choice(kinds)] if rng.random() < 0.6 else []


def function_name(rng, index):
    """Returns a name as compilers give them: plain, mangled, or with characters that an identifier must quote."""
    words = [rng.choice(WORDS) for _ in range(rng.randrange(2, 5))]
    chance = rng.random()
    if chance < 0.2:
        return "_".join(words) + str(index)
    if chance < 0.7:
        return "_ZN" + "".join(f"{len(w)}{w}" for w in words) + f"17h{rng.getrandbits(64):016x}E"
    if chance < 0.9:
        return "::".join(words) + f"::h{rng.getrandbits(64):016x}"
    return f"<{words[0]}::{words[1]} as {'::'.join(words)}>::f{index}"


def local_names(rng, world, index, bodies):
    """Returns the entry of a function's local names."""
    count = len(bodies[index].local_kinds)
    names = [unsigned(i) + string(rng.choice(LOCAL_NAMES) + (str(i) if rng.random() < 0.8 else "")) for i in range(count)]
    return unsigned(index + IMPORTED) + listed(names)


def name_section(rng, world, bodies):
    """Returns the name section: names of the module, of all functions, of the locals of half of the functions, and of a global."""
    functions = [unsigned(i) + string(function_name(rng, i)) for i in range(world.functions)]
    locals_ = [local_names(rng, world, i, bodies) for i in range(len(bodies)) if rng.random() < 0.5]
    globals_ = [unsigned(0) + string("__stack_pointer")]
    return custom("name", section(0, string("speed")) + section(1, listed(functions)) + section(2, listed(locals_)) + section(7, listed(globals_)))


def data_bytes(rng):
    """Returns the bytes of a data segment: text, zeros, small numbers, or random bytes."""
    size, chance = 8 + int(rng.random() ** 3 * 6000), rng.random()
    if chance < 0.4:
        return " ".join(rng.choice(WORDS) for _ in range(size // 6 + 1)).encode()
    if chance < 0.5:
        return bytes(size)
    if chance < 0.7:
        return b"".join(rng.randrange(2000).to_bytes(4, "little") for _ in range(size // 4 + 1))
    if chance < 0.8:
        return "Größe – “quoted”\t\\ \n".encode() * (size // 30 + 1)
    return rng.randbytes(size)


def data_segments(rng, size):
    """Returns data segments of about this many bytes in total. One in ten is passive, the others are active and do not overlap."""
    segments, place = [], 1024
    while place - 1024 < size:
        data = data_bytes(rng)
        segments.append(b"\x01" + sized(data) if rng.random() < 0.1 else b"\x00" + counted_i32(place) + sized(data))
        place += len(data)
    return segments


def imports(world):
    """Returns the imported functions."""
    return [string("env") + string(f"host_{i}") + b"\x00" + unsigned(world.type_of[i]) for i in range(IMPORTED)]


def exports(rng, world):
    """Returns the exports: the memory, and one function in twenty."""
    chosen = [i for i in range(IMPORTED, world.functions) if i % 20 == 0]
    return [string("memory") + b"\x02\x00"] + [string(f"{rng.choice(WORDS)}_{i}") + b"\x00" + unsigned(i) for i in chosen]


def elements(rng, world):
    """Returns the element segments: an active one with one function in three, and a passive one."""
    placed = [unsigned(i) for i in range(IMPORTED, world.functions) if rng.random() < 0.34]
    return [b"\x00" + counted_i32(1) + listed(placed), b"\x01\x00" + listed(placed[:8])]


def module(target, seed=1):
    """Returns a module of about `target` bytes."""
    rng = random.Random(seed)
    world = World(rng, max(1, target // 500))
    bodies = [Body(rng, world, world.signature(i)) for i in range(IMPORTED, world.functions)]
    code = [body.whole(min(rng.lognormvariate(5.0, 0.9), 20000)) for body in bodies]
    signatures = [b"\x60" + types(params) + types(results) for params, results in world.types]
    globals_ = [bytes([TYPES["i32"], 1]) + counted_i32(65536 * i) for i in range(world.globals)]
    data = data_segments(rng, target // 8)
    return b"".join([
        b"\0asm\1\0\0\0",
        section(1, listed(signatures)),
        section(2, listed(imports(world))),
        section(3, listed([unsigned(n) for n in world.type_of[IMPORTED:]])),
        section(4, listed([bytes([FUNCREF, 0]) + unsigned(world.functions)])),
        section(5, listed([b"\x00" + unsigned(64 + target // 65536)])),
        section(6, listed(globals_)),
        section(7, listed(exports(rng, world))),
        section(9, listed(elements(rng, world))),
        section(12, unsigned(len(data))),
        section(10, listed(code)),
        section(11, listed(data)),
        name_section(rng, world, bodies),
        custom("producers", listed([string("processed-by") + listed([string("speed") + string("1")])])),
    ])
