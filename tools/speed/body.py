"""Generates bodies of functions as a compiler might make them: statements over typed expressions, drawn by a seeded random generator."""

import struct

from encode import TYPES, signed, sized, unsigned

BINARY = {
    "i32": range(0x6A, 0x79), "i64": range(0x7C, 0x8B), "f32": range(0x92, 0x99), "f64": range(0xA0, 0xA7), "v128": (78, 80, 81, 174, 177, 181, 240, 242),
}
UNARY = {"i32": range(0x67, 0x6A), "i64": range(0x79, 0x7C), "f32": range(0x8B, 0x92), "f64": range(0x99, 0xA0), "v128": (77, 160, 236)}
# opcodes by the type of their result, each with the type of its operand; those of vectors include a lane index if they have one
CONVERT = {
    "i32": (("i64", b"\xa7"), ("f64", b"\xaa"), ("v128", b"\xfd\x1b\x02"), ("i32", b"\x45"), ("i64", b"\x50")),
    "i64": (("i32", b"\xac"), ("i32", b"\xad"), ("f64", b"\xbd")),
    "f32": (("f64", b"\xb6"), ("i32", b"\xb2")),
    "f64": (("i32", b"\xb7"), ("f32", b"\xbb"), ("i64", b"\xb9")),
    "v128": (("i32", b"\xfd\x11"), ("f64", b"\xfd\x14")),
}
COMPARE = (("i32", range(0x46, 0x50)), ("i64", range(0x51, 0x5B)), ("f64", range(0x61, 0x67)))
# opcodes, each with its greatest alignment as an exponent of 2
LOADS = {
    "i32": ((b"\x28", 2), (b"\x28", 2), (b"\x2c", 0), (b"\x2d", 0), (b"\x2f", 1)), "i64": ((b"\x29", 3), (b"\x31", 0), (b"\x35", 2)),
    "f32": ((b"\x2a", 2),), "f64": ((b"\x2b", 3),), "v128": ((b"\xfd\x00", 4),),
}
STORES = {
    "i32": ((b"\x36", 2), (b"\x36", 2), (b"\x3a", 0), (b"\x3b", 1)), "i64": ((b"\x37", 3), (b"\x3e", 2)),
    "f32": ((b"\x38", 2),), "f64": ((b"\x39", 3),), "v128": ((b"\xfd\x0b", 4),),
}
BITS = (6, 6, 6, 13, 13, 20, 31)
FLOATS = (0.0, 1.0, -1.0, 0.5, 100.0, 3.141592653589793, 1e-9, 6.02e23, float("inf"), float("nan"))


class Body:
    """A body that is being generated: the items that it may use, and its bytes so far."""

    def __init__(self, rng, world, signature):
        self.rng, self.world, self.out = rng, world, bytearray()
        self.params, self.results = signature
        self.declared = [(rng.randrange(1, 6), kind) for kind in ("i32", "i64", "f64", "f32", "v128") if kind == "i32" or rng.random() < 0.3]
        kinds = list(self.params) + [kind for count, kind in self.declared for _ in range(count)]
        self.local_kinds, self.by_kind = kinds, {}
        for index, kind in enumerate(kinds):
            self.by_kind.setdefault(kind, []).append(index)
        self.labels = 0

    def pick(self, items):
        return items[int(self.rng.random() * len(items))]

    # values

    def const(self, kind):
        """Appends a constant."""
        rng = self.rng
        if kind in ("i32", "i64"):
            bits = self.pick(BITS) * (2 if kind == "i64" and rng.random() < 0.3 else 1)
            half = 1 << min(bits, 62)
            self.out += (b"\x41" if kind == "i32" else b"\x42") + signed(rng.randrange(-half, half))
        elif kind == "f32":
            self.out += b"\x43" + (rng.randbytes(4) if rng.random() < 0.3 else struct.pack("<f", self.pick(FLOATS[:7])))
        elif kind == "f64":
            value = struct.pack("<d", self.pick(FLOATS)) if rng.random() < 0.6 else struct.pack("<d", rng.uniform(-1000, 1000))
            self.out += b"\x44" + value
        else:
            self.out += b"\xfd\x0c" + rng.randbytes(16)

    def leaf(self, kind):
        """Appends an operator without operands: a local, a global or a constant."""
        locals_ = self.by_kind.get(kind)
        chance = self.rng.random()
        if locals_ and chance < 0.68:
            self.out += b"\x20" + unsigned(self.pick(locals_))
        elif kind == "i32" and chance < 0.74:
            self.out += b"\x23" + unsigned(int(self.rng.random() * self.world.globals))
        else:
            self.const(kind)

    def memory(self, forms):
        """Appends a load or a store with its alignment and offset."""
        opcode, align = self.pick(forms)
        offset = int(self.rng.random() ** 4 * 4000) if self.rng.random() < 0.9 else 1048576 + int(self.rng.random() * 65536)
        self.out += opcode + unsigned(align if self.rng.random() < 0.8 else 0) + unsigned(offset)

    def plain(self, kind, opcode):
        """Appends an operator without immediates, of vectors with its prefix."""
        self.out += b"\xfd" + unsigned(opcode) if kind == "v128" else bytes([opcode])

    def binary(self, kind, depth):
        self.value(kind, depth - 1)
        self.value(kind, depth - 2)
        self.plain(kind, self.pick(BINARY[kind]))

    def convert(self, kind, depth):
        source, opcode = self.pick(CONVERT[kind])
        self.value(source, depth - 1)
        self.out += opcode

    def select(self, kind, depth):
        self.value(kind, depth - 1)
        self.value(kind, depth - 2)
        self.value("i32", depth - 2)
        self.out += b"\x1b" if kind != "v128" else b"\x1c\x01\x7b"

    def if_value(self, kind, depth):
        """Appends an `if` with a result."""
        self.condition(depth - 1)
        self.out += bytes([0x04, TYPES[kind]])
        self.labels += 1
        self.value(kind, depth - 1)
        self.out.append(0x05)
        self.value(kind, depth - 1)
        self.out.append(0x0B)
        self.labels -= 1

    def condition(self, depth):
        """Appends a comparison in 70% of cases, or any value."""
        if self.rng.random() < 0.3:
            return self.value("i32", depth)
        kind, opcodes = self.pick(COMPARE)
        self.value(kind, depth - 1)
        self.leaf(kind)
        self.out.append(self.pick(opcodes))

    def call(self, index):
        """Appends a call with its operands."""
        for kind in self.world.signature(index)[0]:
            self.value(kind, 1)
        self.out += b"\x10" + unsigned(index)

    def value(self, kind, depth):
        """Appends operators that compute a value of a type. `depth` limits their nesting."""
        chance = self.rng.random()
        if depth <= 0 or chance < 0.15:
            self.leaf(kind)
        elif chance < 0.50:
            self.binary(kind, depth)
        elif chance < 0.74:
            self.value("i32", depth - 2)
            self.memory(LOADS[kind])
        elif chance < 0.80:
            self.value(kind, depth - 1)
            self.plain(kind, self.pick(UNARY[kind]))
        elif chance < 0.88:
            self.convert(kind, depth)
        elif chance < 0.91:
            self.select(kind, depth)
        elif chance < 0.93:
            self.if_value(kind, depth)
        elif chance < 0.96 and kind in self.by_kind:
            self.value(kind, depth - 1)
            self.out += b"\x22" + unsigned(self.pick(self.by_kind[kind]))
        elif self.world.with_result.get(kind):
            self.call(self.pick(self.world.with_result[kind]))
        else:
            self.leaf(kind)

    # statements

    def nested(self, head, depth):
        """Appends the start of a `block`, a `loop`, an `if` or an `else`, with one to four statements."""
        self.out += head
        self.labels += 1
        for _ in range(1 + int(self.rng.random() * 4)):
            self.statement(depth - 1)

    def close(self):
        self.labels -= 1
        self.out.append(0x0B)

    def looped(self, depth):
        """Appends a loop that repeats if a condition holds."""
        self.nested(b"\x03\x40", depth)
        self.condition(2)
        self.out += b"\x0d\x00"
        self.close()

    def branched(self, depth):
        """Appends an `if`, in half of the cases with an `else`."""
        self.condition(2)
        self.nested(b"\x04\x40", depth)
        if self.rng.random() < 0.5:
            self.labels -= 1
            self.nested(b"\x05", depth)
        self.close()

    def switched(self, depth):
        """Appends nested blocks with a `br_table` to them."""
        count = 2 + int(self.rng.random() * 5)
        self.out += b"\x02\x40" * count
        self.labels += count
        self.value("i32", 1)
        self.out += b"\x0e" + unsigned(count - 1) + bytes(range(count))
        for _ in range(count):
            self.close()
            self.statement(depth - 2)

    def assigned(self):
        """Appends an assignment to a local, to a global or to memory."""
        chance = self.rng.random()
        if chance < 0.6:
            index = int(self.rng.random() * len(self.local_kinds))
            self.value(self.local_kinds[index], 3)
            self.out += b"\x21" + unsigned(index)
        elif chance < 0.66:
            self.value("i32", 2)
            self.out += b"\x24" + unsigned(int(self.rng.random() * self.world.globals))
        else:
            kind = self.pick(("i32", "i32", "i32", "i64", "f64", "f32", "v128"))
            self.value("i32", 2)
            self.value(kind, 3)
            self.memory(STORES[kind])

    def called(self):
        """Appends a call and drops its results. One call in ten is indirect."""
        if self.rng.random() < 0.1:
            number = int(self.rng.random() * len(self.world.types))
            for kind in self.world.types[number][0]:
                self.value(kind, 1)
            self.value("i32", 1)
            self.out += b"\x11" + unsigned(number) + b"\x00"
            results = self.world.types[number][1]
        else:
            index = int(self.rng.random() * self.world.functions)
            self.call(index)
            results = self.world.signature(index)[1]
        self.out += b"\x1a" * len(results)

    def statement(self, depth):
        """Appends a statement: operators that leave no value on the stack."""
        chance = self.rng.random()
        if depth <= 0 or chance < 0.5:
            self.assigned()
        elif chance < 0.66:
            self.called()
        elif chance < 0.74 and self.labels:
            self.condition(2)
            self.out += b"\x0d" + unsigned(int(self.rng.random() ** 2 * self.labels))
        elif chance < 0.80:
            self.nested(b"\x02\x40", depth)
            self.close()
        elif chance < 0.86:
            self.looped(depth)
        elif chance < 0.98:
            self.branched(depth)
        else:
            self.switched(depth)

    def whole(self, size):
        """Returns a body of about `size` bytes, with its locals."""
        while len(self.out) < size:
            self.statement(4)
        for kind in self.results:
            self.value(kind, 2)
        self.out.append(0x0B)
        groups = [unsigned(count) + bytes([TYPES[kind]]) for count, kind in self.declared]
        return sized(unsigned(len(groups)) + b"".join(groups) + bytes(self.out))
