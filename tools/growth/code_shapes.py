"""Shapes of code: for each a function that returns a module of about `n` items. Its docstring says what they are."""

import math
import random
import struct

from speed.encode import listed, signed, unsigned

from growth.parts import (
    ADD, ARRAY, BLOCK, CONST, DROP, ELSE, END, EQZ, FIELD, FUNCREF, GREATEST, I32, IF, LOOP, NOP, NO_RESULT, RETURN, TRY, UNREACHABLE, body, branch,
    call, func_type, indexed, local_get, module, new_fixed, one_body, struct_type,
)
from growth.registry import Shapes

CODE_SHAPES = Shapes()
shape = CODE_SHAPES.shape
MOST_LOCALS = 50_000  # the printer's limit for one function
MOST_PARAMS = 1_000  # the limit of validators
ONE_SHORT = MOST_PARAMS - 1


# blocks


@shape()
def blocks_nested(n):
    """nested blocks, and branches to the outermost"""
    return one_body(BLOCK * n + branch(n - 1) * n + END * n)


@shape()
def blocks_in_a_row(n):
    """blocks one after the other"""
    return one_body((BLOCK + END) * n)


@shape()
def loops_nested(n):
    """nested loops, each with a conditional branch"""
    return one_body((LOOP + CONST + b"\x0d\0") * n + END * n)


@shape()
def block_types(n):
    """types, and a block with each"""
    return one_body(b"".join(b"\x02" + signed(i) + END for i in range(n)), types=[func_type()] * n)


@shape()
def block_parameters(n):
    """parameters of blocks, at most 1,000 of each block"""
    count = min(math.isqrt(n), MOST_PARAMS)
    return one_body((CONST * count + b"\x02\0" + DROP * count + END) * (n // count), types=[func_type(count)])


@shape()
def branch_table(n):
    """labels of one branch table, each that of the outermost of 100 blocks"""
    return one_body(BLOCK * 100 + CONST + b"\x0e" + listed([unsigned(99)] * n) + b"\0" + END * 100)


@shape()
def branch_tables(n):
    """branch tables with 10 labels"""
    return one_body(BLOCK * 100 + (CONST + b"\x0e" + listed([unsigned(99)] * 10) + b"\0") * n + END * 100)


@shape()
def ifs_in_a_row(n):
    """conditionals with two cases, one after the other"""
    return one_body((CONST + IF + NOP + ELSE + NOP + END) * n)


@shape()
def ifs_nested(n):
    """conditionals in the first case of one another"""
    return one_body((CONST + IF) * n + END * n)


@shape()
def elses_nested(n):
    """conditionals in the second case of one another"""
    return one_body((CONST + IF + ELSE) * n + END * n)


@shape()
def ifs_as_predicates(n):
    """conditionals that are the predicates of one another"""
    return one_body(CONST + (b"\x04" + I32 + CONST + ELSE + CONST + END) * n + DROP)


@shape()
def catch_clauses(n):
    """catch clauses of one block"""
    clauses = listed([b"\0\0\0", b"\2\0"] * (n // 2))
    return one_body(b"\x1f" + NO_RESULT + clauses + END, types=[func_type()], tags=[b"\0\0"])


@shape()
def try_tables_in_a_row(n):
    """blocks with one catch clause, one after the other"""
    return one_body((b"\x1f" + NO_RESULT + listed([b"\2\0"]) + END) * n)


@shape()
def try_tables_nested(n):
    """nested blocks, each with a catch clause for the label of the function"""
    return one_body(b"".join(b"\x1f" + NO_RESULT + listed([b"\2" + unsigned(i)]) for i in range(n)) + END * n)


@shape(folds=False)
def legacy_catches(n):
    """catches of one legacy block"""
    return one_body(TRY + b"\x07\0" * n + b"\x19" + END, types=[func_type()], tags=[b"\0\0"])


@shape(folds=False)
def legacy_tries_nested(n):
    """nested legacy blocks with a catch"""
    return one_body(TRY * n + (b"\x07\0" + END) * n, types=[func_type()], tags=[b"\0\0"])


@shape(folds=False)
def legacy_delegates(n):
    """nested legacy blocks that delegate outward"""
    return one_body(TRY * n + b"\x18\0" * n)


# operators and their operands


@shape()
def operands_nested(n):
    """operators, each the only operand of the next"""
    return one_body(CONST + EQZ * n + DROP)


@shape()
def operands_left(n):
    """additions, each the left operand of the next"""
    return one_body(CONST + (CONST + ADD) * n + DROP)


@shape()
def operands_right(n):
    """additions, each the right operand of the next"""
    return one_body(CONST * (n + 1) + ADD * n + DROP)


@shape()
def selects(n):
    """typed selections, each the first operand of the next"""
    return one_body(CONST + (CONST * 2 + b"\x1c\1" + I32) * n + DROP)


@shape(valid=False)
def select_types(n):
    """types of one selection"""
    return one_body(CONST * 3 + b"\x1c" + unsigned(n) + I32 * n + DROP)


@shape()
def memory_operands(n):
    """loads with an offset and an alignment, each the address of the next"""
    return one_body(CONST + (b"\x28\1" + unsigned(4096)) * n + DROP, memories=[b"\0\1"])


@shape()
def constants(n):
    """constants of all number types, each dropped"""
    integers = (b"\x41" + signed(-(2**31)), b"\x42" + signed(2**62))
    floats = (b"\x43" + struct.pack("<f", math.pi), b"\x44" + struct.pack("<d", math.pi))
    vector = b"\xfd\x0c" + bytes(range(16))
    return one_body(b"".join(constant + DROP for constant in (*integers, *floats, vector)) * (n // 5))


@shape()
def local_groups(n):
    """groups of one local, at most 50,000 in each function, and uses of the last"""
    count = -(-n // MOST_LOCALS)
    each = n // count
    code = (local_get(each - 1) + DROP) * each
    return module(types=[func_type()], functions=[b"\0"] * count, bodies=[body(code, [b"\1" + I32] * each)] * count)


@shape()
def local_groups_empty(n):
    """groups of no local"""
    return one_body(b"", locals_=[b"\0" + I32] * n)


@shape()
def calls_indirect(n):
    """types, and indirect calls of the last"""
    return one_body((CONST + indexed(b"\x11", n - 1, 0)) * n, types=[func_type()] * n, tables=[FUNCREF + b"\0\1"])


@shape()
def calls_of_two_results(n):
    """calls with two results that an addition takes"""
    return one_body((call(0) + ADD + DROP) * n, callees=[func_type(0, 2)])


@shape()
def casts(n):
    """casts and tests of references to a type"""
    each = b"\xd0\0" + b"\xfb\x17\0" + DROP + b"\xd0\0" + b"\xfb\x14\0" + DROP
    return one_body(each * n, types=[struct_type([])])


# worst cases of the search for operands: a search that passes over nodes without taking them leaves them for the next search


@shape()
def unreachable_drops(n):
    """`drop`s after `unreachable`: each search passes over all earlier ones and finds too few results"""
    return one_body(UNREACHABLE + DROP * n)


@shape()
def nops_drops(n):
    """`nop`s, then as many `drop`s: each search passes over all earlier nodes and finds too few results"""
    return one_body(UNREACHABLE + NOP * n + DROP * n)


@shape()
def constants_short(n):
    """calls of 1,000 parameters after 999 constants: each search passes over all earlier nodes and finds too few results"""
    return one_body(UNREACHABLE + CONST * ONE_SHORT + call(0) * n, callees=[func_type(MOST_PARAMS)])


@shape()
def constants_over(n):
    """calls of 1,000 parameters after 1,001 constants: the first call leaves one constant for the others"""
    return one_body(UNREACHABLE + CONST * (MOST_PARAMS + 1) + call(0) * n + UNREACHABLE, callees=[func_type(MOST_PARAMS)])


@shape()
def two_results_drops(n):
    """a call with two results, then `drop`s: each search exceeds one at the first node"""
    return one_body(UNREACHABLE + call(0) + DROP * n, callees=[func_type(0, 2)])


@shape()
def two_results_nops_drops(n):
    """a call with two results, `nop`s, then as many `drop`s: the first search exceeds one after all `nop`s"""
    return one_body(UNREACHABLE + call(0) + NOP * n + DROP * n, callees=[func_type(0, 2)])


@shape(valid=None)
def overshot_nops(n):
    """a call with two results, `nop`s, then groups in which a `drop` passes over all `nop`s and exceeds one

    That `drop` counts for the greatest number of results. An array of that many elements takes it, and another `drop` the array.
    """
    return one_body(call(0) + NOP * n + (DROP + new_fixed(GREATEST) + DROP) * n, types=[ARRAY + FIELD], callees=[func_type(0, 2)])


@shape(valid=None)
def overshot_constants(n):
    """a call with two results, constants, then groups in which a call of one parameter more exceeds that at the first call

    The greatest number of results is taken as in `overshot_nops`.
    """
    group = call(1) + new_fixed(GREATEST) + DROP
    return one_body(call(0) + CONST * (n - 1) + group * n, types=[ARRAY + FIELD], callees=[func_type(0, 2), func_type(n)])


@shape(valid=None)
def operands_of_powers(n):
    """groups after a call with two results and `nop`s in which calls of 4, 8 or 16 parameters find them, find too few, and exceed them"""
    sizes = [4, 8, 16]
    groups = b"".join(operands_found_and_missed(number, size) for number, size in enumerate(sizes, 1))
    count = n // sum(5 * size - 3 for size in sizes)  # as many operators as `nop`s
    return one_body(call(0) + NOP * n + groups * count, types=[ARRAY + FIELD], callees=[func_type(0, 2), *map(func_type, sizes)])


def operands_found_and_missed(function, size):
    """Returns calls of a function of `size` parameters, each of which leaves no node with results.

    The first finds its operands. The others pass over all nodes before their constants up to a call with two results: the second finds one result
    too few, the third one too many.
    """
    few, over = size - 3, size - 1
    missed = CONST * few + call(function) + DROP * few
    exceeded = CONST * over + call(function) + new_fixed(GREATEST) + DROP + DROP * over
    return CONST * size + call(function) + missed + exceeded


@shape(valid=None)
def arrays_of_too_many(n):
    """arrays of 2^32 - 1 elements, each with one result that none takes"""
    return one_body(UNREACHABLE + new_fixed(GREATEST) * n, types=[ARRAY + FIELD])


@shape()
def returns_short(n):
    """`return`s of 1,000 results after 999 constants"""
    return module(types=[func_type(0, MOST_PARAMS)], functions=[b"\0"], bodies=[body(UNREACHABLE + CONST * ONE_SHORT + RETURN * n)])


@shape()
def branches_short(n):
    """branches with 1,000 values after 999 constants"""
    code = b"\x02\0" + UNREACHABLE + CONST * ONE_SHORT + branch(0) * n + END + DROP * MOST_PARAMS
    return one_body(code, types=[func_type(0, MOST_PARAMS)])


@shape()
def drops_in_blocks(n):
    """blocks with 1,000 `drop`s after `unreachable` in each"""
    return one_body((BLOCK + UNREACHABLE + DROP * ONE_SHORT + END) * max(1, n // MOST_PARAMS))


@shape()
def drops_between_blocks(n):
    """empty blocks, then as many `drop`s"""
    return one_body(UNREACHABLE + (BLOCK + END) * n + DROP * n)


@shape()
def operators_in_no_order(n):
    """operators with up to 16 operands and 2 results in no order, after `unreachable`"""
    callees = [func_type(0, 2), *(func_type(size) for size in (4, 8, 16))]
    kinds = [NOP, DROP, CONST, EQZ, ADD, b"\x1b", *map(call, range(len(callees)))]
    return one_body(UNREACHABLE + b"".join(random.Random(1).choices(kinds, k=n)) + UNREACHABLE, callees=callees)
