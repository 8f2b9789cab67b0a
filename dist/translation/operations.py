"""What each instruction on numbers is in C, by its code: what it takes and gives, and its expression.

An expression is made of those of the operands. `u32` and `u64` are the types of C without a sign, whose arithmetic is
modulo a power of two; `s32` and `s64` are those with a sign, in two's complement, which each compiler named in
portable/README.md has. What C leaves open (shifts by the width and more, division by 0, a floating-point number that
no integer has) is a call of the runtime, runtime.h.
"""
from dataclasses import dataclass

# What binds first in C: a name or a call, a cast, an operator of two operands, a choice.
ATOM, CAST, BINARY, CHOICE = range(4)


@dataclass(frozen=True)
class Operation:
    takes: tuple[str, ...]
    gives: str
    form: str
    binds: int = ATOM
    # An answer of C that is 0 or 1.
    is_fact: bool = False
    # It may end in a trap.
    traps: bool = False


UNSIGNED = {"i32": "u32", "i64": "u64"}
SIGNED = {"i32": "s32", "i64": "s64"}
WIDTH = {"i32": 32, "i64": 64}


def facts(first, kind, names):
    """The comparisons of integers, from this code on."""
    for at, (name, sign) in enumerate(names):
        cast = f"({SIGNED[kind]})" if sign else ""
        yield first + at, Operation((kind, kind), "i32", f"{cast}{{0}} {name} {cast}{{1}}", BINARY, True)


def integers(first, kind):
    """What is computed of integers, from this code on."""
    two, bits = (kind, kind), WIDTH[kind]
    signed, plain = SIGNED[kind], UNSIGNED[kind]
    forms = [
        *[((kind,), f"rud_{name}{bits}({{0}})", ATOM, False) for name in ("clz", "ctz", "popcnt")],
        *[(two, f"{{0}} {name} {{1}}", BINARY, False) for name in "+-*"],
        *[(two, f"rud_{name}{bits}({{0}}, {{1}})", ATOM, True) for name in ("div_s", "div_u", "rem_s", "rem_u")],
        *[(two, f"{{0}} {name} {{1}}", BINARY, False) for name in "&|^"],
        (two, f"{{0}} << ({{1}} & {bits - 1})", BINARY, False),
        (two, f"({plain})(({signed}){{0}} >> ({{1}} & {bits - 1}))", CAST, False),
        (two, f"{{0}} >> ({{1}} & {bits - 1})", BINARY, False),
        *[(two, f"rud_{name}{bits}({{0}}, {{1}})", ATOM, False) for name in ("rotl", "rotr")],
    ]
    for at, (takes, form, binds, traps) in enumerate(forms):
        yield first + at, Operation(takes, kind, form, binds, traps=traps)


COMPARED = [("==", 0), ("!=", 0), ("<", 1), ("<", 0), (">", 1), (">", 0), ("<=", 1), ("<=", 0), (">=", 1), (">=", 0)]
OPERATIONS = {
    0x45: Operation(("i32",), "i32", "{0} == 0", BINARY, True),
    **dict(facts(0x46, "i32", COMPARED)),
    0x50: Operation(("i64",), "i32", "{0} == 0", BINARY, True),
    **dict(facts(0x51, "i64", COMPARED)),
    **{
        0x61 + at: Operation(("f64", "f64"), "i32", f"{{0}} {name} {{1}}", BINARY, True)
        for at, name in enumerate(("==", "!=", "<", ">", "<=", ">="))
    },
    **dict(integers(0x67, "i32")),
    **dict(integers(0x79, "i64")),
    0x99: Operation(("f64",), "f64", "rud_abs({0})"),
    0x9A: Operation(("f64",), "f64", "rud_neg({0})"),
    **{0xA0 + at: Operation(("f64", "f64"), "f64", f"{{0}} {it} {{1}}", BINARY) for at, it in enumerate("+-*/")},
    0xA7: Operation(("i64",), "i32", "(u32){0}", CAST),
    0xAC: Operation(("i32",), "i64", "(u64)(s64)(s32){0}", CAST),
    0xAD: Operation(("i32",), "i64", "(u64){0}", CAST),
    0xB7: Operation(("i32",), "f64", "(f64)(s32){0}", CAST),
    0xB8: Operation(("i32",), "f64", "(f64){0}", CAST),
    0xB9: Operation(("i64",), "f64", "(f64)(s64){0}", CAST),
    0xBA: Operation(("i64",), "f64", "(f64){0}", CAST),
    0xBD: Operation(("f64",), "i64", "rud_octets_of({0})"),
    0xBF: Operation(("i64",), "f64", "rud_of_octets({0})"),
    0xC0: Operation(("i32",), "i32", "(u32)(s32)(s8){0}", CAST),
    0xC1: Operation(("i32",), "i32", "(u32)(s32)(s16){0}", CAST),
    0xC2: Operation(("i64",), "i64", "(u64)(s64)(s8){0}", CAST),
    0xC3: Operation(("i64",), "i64", "(u64)(s64)(s16){0}", CAST),
    0xC4: Operation(("i64",), "i64", "(u64)(s64)(s32){0}", CAST),
}

# Reads and writes of the memory: how many octets, and of which type.
LOADS = {
    0x28: ("i32", "GET32", 4),
    0x29: ("i64", "GET64", 8),
    0x2B: ("f64", "GETF", 8),
    0x2C: ("i32", "(u32)(s32)(s8)GET8", 1),
    0x2D: ("i32", "GET8", 1),
    0x2E: ("i32", "(u32)(s32)(s16)GET16", 2),
    0x2F: ("i32", "GET16", 2),
    0x30: ("i64", "(u64)(s64)(s8)GET8", 1),
    0x31: ("i64", "(u64)GET8", 1),
    0x32: ("i64", "(u64)(s64)(s16)GET16", 2),
    0x33: ("i64", "(u64)GET16", 2),
    0x34: ("i64", "(u64)(s64)(s32)GET32", 4),
    0x35: ("i64", "(u64)GET32", 4),
}
STORES = {
    0x36: ("i32", "PUT32", 4),
    0x37: ("i64", "PUT64", 8),
    0x39: ("f64", "PUTF", 8),
    0x3A: ("i32", "PUT8", 1),
    0x3B: ("i32", "PUT16", 2),
    0x3C: ("i64", "PUT8", 1),
    0x3D: ("i64", "PUT16", 2),
    0x3E: ("i64", "PUT32", 4),
}
