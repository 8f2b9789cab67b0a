#!/usr/bin/env python3
"""Tries the translation on modules made for it, beside the interpreter of wabt: test_translation.py [CC..]

Each operation on each pair of a list of values; programs made at random, whose blocks, branches, calls and changes of
locals, globals and memory come in any order; what must be refused; what must end in the trap. And faults planted in
the translation, each of which the programs must find. CC is a compiler with its words, `cc -O1` if omitted; the first
word may be followed by `@RUNNER`, what runs a program of it.
"""
import os
import random
import re
import shutil
import subprocess
import sys
import tempfile

sys.dont_write_bytecode = True
HERE = os.path.dirname(os.path.realpath(__file__))
sys.path.insert(0, HERE)

# pylint: disable=wrong-import-position
import binary  # noqa: E402
import functions  # noqa: E402
import operations  # noqa: E402
import whole  # noqa: E402

EDGES = {
    "i32": [0, 1, 3, 31, 33, 0x80, 0x8000, 0x7FFFFFFF, 0x80000000, 0x9E3779B9, 0xFFFFFFFF],
    "i64": [0, 1, 3, 63, 65, 0x8080, 0x80000000, 0x100000000, 0x9E3779B97F4A7C15, 0x7FFFFFFFFFFFFFFF,
            0x8000000000000000, 0xFFFFFFFFFFFFFFFF],
}
EDGES["f64"] = [0x0, 0x8000000000000000, 0x3FF0000000000000, 0xBFF8000000000000, 0x3FB999999999999A,
                0x43E0000000000000, 0x7FEFFFFFFFFFFFFF, 0x1, 0x4024000000000000]
NAMES = {
    **{0x45: "i32.eqz", 0x50: "i64.eqz"},
    **{0x46 + at: f"i32.{it}" for at, it in enumerate("eq ne lt_s lt_u gt_s gt_u le_s le_u ge_s ge_u".split())},
    **{0x51 + at: f"i64.{it}" for at, it in enumerate("eq ne lt_s lt_u gt_s gt_u le_s le_u ge_s ge_u".split())},
    **{0x61 + at: f"f64.{it}" for at, it in enumerate("eq ne lt gt le ge".split())},
    **{at + k: f"{kind}.{it}" for at, kind in ((0x67, "i32"), (0x79, "i64")) for k, it in enumerate(
        "clz ctz popcnt add sub mul div_s div_u rem_s rem_u and or xor shl shr_s shr_u rotl rotr".split())},
    **{0x99: "f64.abs", 0x9A: "f64.neg", 0xA0: "f64.add", 0xA1: "f64.sub", 0xA2: "f64.mul", 0xA3: "f64.div"},
    **{0xA7: "i32.wrap_i64", 0xAC: "i64.extend_i32_s", 0xAD: "i64.extend_i32_u"},
    **{0xB7: "f64.convert_i32_s", 0xB8: "f64.convert_i32_u", 0xB9: "f64.convert_i64_s", 0xBA: "f64.convert_i64_u"},
    **{0xBD: "i64.reinterpret_f64", 0xBF: "f64.reinterpret_i64"},
    **{0xC0: "i32.extend8_s", 0xC1: "i32.extend16_s", 0xC2: "i64.extend8_s", 0xC3: "i64.extend16_s"},
    0xC4: "i64.extend32_s",
}
LOADS = {0x28: "i32.load", 0x29: "i64.load", 0x2B: "f64.load", 0x2C: "i32.load8_s", 0x2D: "i32.load8_u",
         0x2E: "i32.load16_s", 0x2F: "i32.load16_u", 0x30: "i64.load8_s", 0x31: "i64.load8_u", 0x32: "i64.load16_s",
         0x33: "i64.load16_u", 0x34: "i64.load32_s", 0x35: "i64.load32_u"}
STORES = {0x36: "i32.store", 0x37: "i64.store", 0x39: "f64.store", 0x3A: "i32.store8", 0x3B: "i32.store16",
          0x3C: "i64.store8", 0x3D: "i64.store16", 0x3E: "i64.store32"}
HEAD = '(module (memory (export "memory") i64 2)\n(global $g (mut i64) (i64.const 77)) (global $h (mut i32) (i32.const 5))\n'
HEAD += '(global $end (export "__heap_base") i64 (i64.const 66048))\n'


def fail(words):
    sys.exit(f"test_translation: {words}")


def as_i64(kind, text):
    return {"i32": f"(i64.extend_i32_u {text})", "i64": text, "f64": f"(i64.reinterpret_f64 {text})"}[kind]


def given(kind, value):
    return f"(f64.reinterpret_i64 (i64.const {value}))" if kind == "f64" else f"({kind}.const {value})"


def is_trap(name, values):
    part = name.split(".")[1]
    width = 1 << (32 if name.startswith("i32") else 64)
    return part[:3] in ("div", "rem") and not name.startswith("f") and (
        values[1] == 0 or part == "div_s" and values[0] == width // 2 and values[1] == width - 1)


def behind(off):
    """An address so far before 66,005: a sum, or a variable."""
    text = f"(i64.add (i64.const {66000 - off}) (i64.extend_i32_u (global.get $h)))"
    return text if off % 2 else f"(local.tee 1 {text})"


def operations_module():
    """A function for each operation, which adds up its answers on all edges: constants on both sides, and values of
    the memory."""
    parts = [HEAD]
    for code, it in operations.OPERATIONS.items():
        name = NAMES[code]
        lines = []
        rows = [[it for it in EDGES[it.takes[0]]]] if len(it.takes) == 1 else [EDGES[it.takes[0]], EDGES[it.takes[1]]]
        pairs = [(a,) for a in rows[0]] if len(rows) == 1 else [(a, b) for a in rows[0] for b in rows[1]]
        for values in pairs:
            if is_trap(name, values):
                continue
            words = [given(kind, value) for kind, value in zip(it.takes, values)]
            stores = "".join(f"({kind}.store (i64.const {66000 + 8 * k}) {word})"
                             for k, (kind, word) in enumerate(zip(it.takes, words)))
            loads = [f"({kind}.load (i64.const {66000 + 8 * k}))" for k, kind in enumerate(it.takes)]
            ways = [words, loads] if len(words) == 1 else [loads, [words[0], loads[1]], [loads[0], words[1]]]
            lines.append(stores)
            for way in ways:
                answer = as_i64(it.gives, f"({name} {' '.join(way)})")
                lines.append(f"(local.set 0 (i64.add (i64.mul (local.get 0) (i64.const 31)) {answer}))")
        parts.append(f'(func (export "o{code}") (result i64) (local i64) {chr(10).join(lines)} (local.get 0))')
    for code, name in LOADS.items():
        kind = name[:3]
        lines = [f"(i64.store (i64.const {66000 + k}) (i64.const {value}))(local.set 0 (i64.add (i64.mul (local.get 0) "
                 f"(i64.const 31)) {as_i64(kind, f'({name} offset={off} {behind(off)})')}))"
                 for value in EDGES["i64"] for k in (5,) for off in (0, 3, 1020, 5000)]
        parts.append(f'(func (export "o{code}") (result i64) (local i64 i64) {chr(10).join(lines)} (local.get 0))')
    for code, name in STORES.items():
        kind = name[:3]
        lines = [f"({name} offset={off} {behind(off)} {given(kind, value)})(local.set 0 "
                 "(i64.add (i64.mul (local.get 0) (i64.const 31)) (i64.load (i64.const 66003))))"
                 for value in EDGES[kind] for off in (0, 3, 1020, 5000)]
        parts.append(f'(func (export "o{code}") (result i64) (local i64 i64) {chr(10).join(lines)} (local.get 0))')
    parts += [arguments(words) for words in range(4)]
    return "".join(parts) + ")"


def arguments(words):
    """A function that gets a number of 64 bits behind so many of 32, and another that gives it what it reads. Where two
    registers hold 64 bits, the words before say which: with a compiler that takes others for a number that stands at
    any address, the answer is another one. The loop keeps the compiler from putting one function into the other."""
    turn = "(local.set $sum (i64.add (i64.mul (local.get $sum) (i64.const 31)) (local.get $wide)))"
    again = "(br_if 0 (i64.lt_u (local.tee $turn (i64.add (local.get $turn) (i64.const 1))) (i64.const 3)))"
    given_words = "".join(f"(i32.const {at + 7}) " for at in range(words))
    calls = "".join(f"(i64.store (i64.const 66005) (i64.const {value}))(local.set 0 (i64.add (i64.mul (local.get 0) "
                    f"(i64.const 31)) (call $taken{words} {given_words}(i64.load (i64.const 66005)))))" for value in EDGES["i64"])
    return (f'(func $taken{words} {"(param i32)" * words} (param $wide i64) (result i64) '
            f'(local $sum i64) (local $turn i64) (loop {turn}{again})(local.get $sum))'
            f'(func (export "o{words}words") (result i64) (local i64) {calls} (local.get 0))')


class Programs:
    """Programs at random. Each function ends: its loops are counted."""

    def __init__(self, seed):
        self.random = random.Random(seed)
        self.functions = []

    def module(self, count):
        text = [HEAD, '(data (i64.const 65600) "some octets to begin with")']
        for at in range(count):
            takes = [self.random.choice(["i32", "i64"]) for _ in range(self.random.randint(0, 3))]
            gives = self.random.choice(["i32", "i64", None])
            text.append(self.function(at, takes, gives))
            self.functions.append((takes, gives))
        for at, (takes, gives) in enumerate(self.functions):
            call = f"(call $f{at} {' '.join(given(kind, self.random.choice(EDGES[kind])) for kind in takes)})"
            body = as_i64(gives, call) if gives else f"{call} (i64.const 0)"
            sums = "(i64.xor (global.get $g) (i64.load (i64.const 65600)))(i64.load (i64.const 65608))"
            text.append(f'(func (export "p{at}") (result i64) {body} {sums} i64.xor i64.add)')
        return "\n".join(text) + ")"

    def function(self, at, takes, gives):
        # The last are what counts the turns of loops, and two addresses.
        self.types = [*takes, *(self.random.choice(["i32", "i64"]) for _ in range(4)), "i32", "i64", "i64"]
        self.counter = len(self.types) - 3
        self.labels, self.budget = [], 120
        words = "".join(f"(param {it})" for it in takes) + (f"(result {gives})" if gives else "")
        own = " ".join(self.types[len(takes) :])
        body = self.statements(0)
        last = self.expression(gives, 3) if gives else ""
        first = "".join(f"(local.set {self.counter + k} (i64.const {65600 + 8 * k}))" for k in (1, 2))
        return f"(func $f{at} {words} (local {own}) {first} {body} {last})"

    def statements(self, depth):
        return " ".join(self.statement(depth) for _ in range(self.random.randint(1, 4)))

    def some_local(self, kind):
        found = [at for at, it in enumerate(self.types[: self.counter]) if it == kind]
        return self.random.choice(found) if found else None

    def statement(self, depth):
        self.budget -= 1
        kind = self.random.choice(["i32", "i64"])
        choice = self.random.randint(-1, 13 if depth < 4 and self.budget > 0 else 6)
        local = self.some_local(kind)
        if choice == -1:
            # An address that is kept, while its local changes to what is read there.
            one, other = (self.counter + self.random.randint(1, 2) for _ in range(2))
            new = f"(i64.add (i64.const 65600) (i64.and (i64.load (local.get {one})) (i64.const 31)))"
            value = f"(block (result i64) (local.set {one} {new}) {self.expression('i64', 2)})"
            return f"(i64.store (local.tee {one} (i64.add (local.get {other}) (i64.const 8))) {value})"
        if choice <= 2 and local is not None:
            return f"(local.set {local} {self.expression(kind, 3)})"
        if choice == 3:
            return f"(global.set $g {self.expression('i64', 3)})"
        if choice in (4, 5):
            name = self.random.choice([it for it in STORES.values() if it.startswith(kind)])
            return f"({name} {self.where()} {self.expression(kind, 3)})"
        if choice == 6:
            return f"(drop {self.expression(kind, 3)})"
        if choice == 7:
            return f"(if {self.expression('i32', 2)} (then {self.statements(depth + 1)}) (else {self.statements(depth + 1)}))"
        if choice in (8, 9):
            self.labels.append(None)
            text = f"(block {self.statements(depth + 1)} {self.leave()} {self.statements(depth + 1)})"
            self.labels.pop()
            return text
        if choice == 10:
            self.labels.append("loop")
            again = f"(local.set {self.counter} (i32.add (local.get {self.counter}) (i32.const 1)))"
            again += f"(br_if 0 (i32.lt_u (local.get {self.counter}) (i32.const 6)))"
            text = f"(loop {self.statements(depth + 1)} {again})"
            self.labels.pop()
            return text
        if choice == 11 and self.functions:
            return self.call_of(None)
        if choice == 12:
            depths = [at for at, it in enumerate(reversed(self.labels)) if it is None]
            if not depths:
                return "(nop)"
            rows = " ".join(str(self.random.choice(depths)) for _ in range(self.random.randint(1, 4)))
            return f"(block (br_table {' '.join(str(int(it) + 1) for it in rows.split())} {self.expression('i32', 2)}))"
        if choice == 13:
            to, size = self.random.randint(65600, 65700), self.random.randint(0, 30)
            if self.random.random() < 0.5:
                return f"(memory.fill (i64.const {to}) {self.expression('i32', 1)} (i64.const {size}))"
            return f"(memory.copy (i64.const {to}) (i64.const {self.random.randint(65600, 65700)}) (i64.const {size}))"
        return "(nop)"

    def leave(self):
        depths = [at for at, it in enumerate(reversed(self.labels)) if it is None]
        if not depths:
            return ""
        at = self.random.choice(depths)
        return f"(br_if {at} {self.expression('i32', 2)})" if self.random.random() < 0.8 else f"(br {at})"

    def where(self):
        """An address, which may stand in a local, and what is added to it."""
        part = f"(i64.and {self.expression('i64', 1)} (i64.const 31))"
        local, other = (self.counter + self.random.randint(1, 2) for _ in range(2))
        start, sign = self.random.randint(65600, 65630), self.random.choice(["add", "sub"])
        beside = f"(i64.{sign} (local.get {other}) (i64.const {self.random.choice([1, 8, 16])}))"
        base = self.random.choice([
            f"(i64.add (i64.const 65600) {part})", f"(i64.const {start})", f"(local.tee {local} {beside})",
            f"(local.tee {local} (i64.add (i64.const 65600) {part}))", f"(local.get {local})", f"(local.get {local})",
        ])
        offset = self.random.choice([0, 0, 1, 8, 8, 1020, 3000])
        return f"offset={offset} {base}" if self.random.random() < 0.5 else base

    def call_of(self, kind):
        found = [at for at, (_, gives) in enumerate(self.functions) if gives == kind]
        if not found:
            return "(nop)" if kind is None else given(kind, 3)
        at = self.random.choice(found[:4])
        return f"(call $f{at} {' '.join(self.expression(it, 1) for it in self.functions[at][0])})"

    def expression(self, kind, depth):
        """An expression; also one that changes something on its way."""
        self.budget -= 1
        choice = self.random.randint(0, 14) if depth and self.budget > 0 else self.random.randint(0, 2)
        local = self.some_local(kind)
        if choice == 0 or local is None and choice in (1, 2, 3):
            return given(kind, self.random.choice(EDGES[kind]))
        if choice in (1, 2):
            return f"(local.get {local})"
        if choice == 3:
            return f"(local.tee {local} {self.expression(kind, depth - 1)})"
        if choice == 4:
            name = self.random.choice([it for it in LOADS.values() if it.startswith(kind)])
            return f"({name} {self.where()})"
        if choice == 5:
            words = " ".join(self.expression(it, depth - 1) for it in (kind, kind, "i32"))
            return f"(select {words})"
        if choice == 6:
            return self.call_of(kind)
        if choice == 7:
            self.labels.append("value")
            text = f"(block (result {kind}) {self.statements(4)} (br_if 0 {self.expression(kind, 1)} {self.expression('i32', 1)}) drop {self.expression(kind, 1)})"
            self.labels.pop()
            return text
        if choice == 8:
            self.labels.append("value")
            arms = [f"{self.statements(4)} {self.expression(kind, 1)}" for _ in range(2)]
            test = self.expression("i32", 1)
            self.labels.pop()
            return f"(if (result {kind}) {test} (then {arms[0]}) (else {arms[1]}))"
        if choice in (10, 11):
            # What is pushed, and then something that changes.
            self.labels.append("value")
            name = self.random.choice([it for it in LOADS.values() if it.startswith(kind)])
            same = f"(local.get {self.counter + self.random.randint(1, 2)})"
            first = self.random.choice([f"({name} {self.where()})", f"({name} {same})", self.expression(kind, 2)])
            put = self.random.choice([it for it in STORES.values() if it.startswith(kind)])
            then = self.random.choice([self.statement(4), f"({put} {same} {self.expression(kind, 2)})",
                                       f"(global.set $g {self.expression('i64', 2)})"])
            if kind == "i64" and then.startswith("(global"):
                first = "(global.get $g)"
            text = f"(block (result {kind}) {first} {then} {self.statement(4)})"
            self.labels.pop()
            return text
        if choice == 9 and kind == "i64":
            return "(global.get $g)"
        found = [(NAMES[code], it) for code, it in operations.OPERATIONS.items()
                 if it.gives == kind and "f64" not in it.takes and not it.traps]
        name, it = self.random.choice(found)
        return f"({name} {' '.join(self.expression(of, depth - 1) for of in it.takes)})"


HARNESS = """
#include <stdio.h>
int main(void) {
    static u8 octets[131072 + RUD_MARGIN];
    rud one = {octets, 131072, RUD_START}, *m = &one;
    size_t k;
    for (k = 0; k < sizeof rud_data / sizeof rud_data[0]; k++) memcpy(octets + rud_data[k].at, rud_data[k].octets, rud_data[k].count);
CALLS    return 0;
}
"""


def wasm_of(text, work):
    with open(f"{work}/it.wat", "w", encoding="utf-8") as file:
        file.write(text)
    subprocess.run(["wat2wasm", "--enable-memory64", f"{work}/it.wat", "-o", f"{work}/it.wasm"], check=True)
    with open(f"{work}/it.wasm", "rb") as file:
        return file.read()


def expected(work):
    """What the interpreter says of each export."""
    said = subprocess.run(["wasm-interp", "--enable-memory64", "--run-all-exports", f"{work}/it.wasm"], capture_output=True, text=True, check=True)
    found = dict(re.findall(r"^(\w+)\(\) => i64:(\d+)$", said.stdout, re.M))
    if not found:
        fail("the interpreter says nothing")
    return found


def translated(octets):
    """A program of C that calls each export."""
    module = binary.read(octets)
    names = whole.names_in_c(module)
    exports = module.exported("function")
    heads, bodies = whole.functions(module, names, exports.values(), (65536, 66048))
    fields, global_names, _ = whole.globals_of(module)
    start = ", ".join(f"{it.value}u" for it in module.globals if it.changes)
    parts = whole.parts_of_runtime()
    used = whole.used_parts(parts, "\n".join(bodies))
    rows = "".join(f'    printf("{name} %llu\\n", (unsigned long long){names[at]}(m));\n' for name, at in exports.items())
    data = whole.data_of(module) if module.data else "static const struct { u32 at, count; const u8 *octets; } rud_data[1] = {{0, 0, NULL}};\n"
    struct = "struct rud { u8 *data; u32 size;" + " ".join(fields) + " };\n" + "\n".join(global_names) + "\n"
    head = "#define RUD_STACK 65536u\n#define RUD_DATA_END 66048u\n"
    blocks = [head, parts["always"], struct, *(parts[it] for it in used if it != "always"), *heads, *bodies, data]
    return "\n".join(blocks) + HARNESS.replace("RUD_START", start).replace("CALLS", rows)


def answers(text, compiler, work):
    """What the program prints, compiled so. Programs made at random have what compilers warn of; that the library as C
    has none is tested by bindings/c/tests/on_portable."""
    words, _, runner = compiler.partition("@")
    with open(f"{work}/it.c", "w", encoding="utf-8") as file:
        file.write(text)
    words = words.split()
    if not words[0].endswith("tcc"):
        words.append("-w")
    subprocess.run([*words, "-x", "c++" if "++" in words[0] else "c", f"{work}/it.c", "-o", f"{work}/it"], check=True)
    said = subprocess.run([*runner.split(), f"{work}/it"], capture_output=True, text=True, check=True)
    return dict(it.split() for it in said.stdout.split("\n") if it)


def differences(text, compilers, work):
    """The exports whose answers differ, with the compiler."""
    octets = wasm_of(text, work)
    wanted, code = expected(work), translated(octets)
    for compiler in compilers:
        found = answers(code, compiler, work)
        if found.keys() != wanted.keys():
            fail(f"{compiler}: other exports")
        yield from ((compiler, name) for name in wanted if wanted[name] != found[name])


def is_seen(text, compilers, work):
    """Whether a fault is seen: another answer, or a test that is missing."""
    try:
        return any(differences(text, compilers, work))
    except binary.Unknown:
        return True


# Faults of a translation: what stands in it, and in whose place.
def faults():
    table = operations.OPERATIONS
    change = functions.Translator.change
    yield "a comparison without its sign", lambda: table.update({0x48: table[0x49]}), table[0x48], lambda it: table.update({0x48: it})
    yield "a shift without its sign", lambda: table.update({0x87: table[0x88]}), table[0x87], lambda it: table.update({0x87: it})

    def without(which):
        def changed(self, what, skip=None):
            if not which(what):
                change(self, what, skip)
        return lambda: setattr(functions.Translator, "change", changed)

    def back(it):
        functions.Translator.change = it

    yield "a value that is read after the memory changed", without(lambda it: it == functions.MEMORY), change, back
    yield "a value that is read after a local changed", without(lambda it: re.fullmatch(r"[av]\d+", it)), change, back
    yield "a value that is read after a global changed", without(lambda it: it.startswith("RUD_G")), change, back
    assign = functions.Translator.assign

    def still_tested(self, name, value):
        tested = dict(self.known.tested)
        assign(self, name, value)
        self.known.tested = {**tested, **self.known.tested}

    def assigned(it):
        functions.Translator.assign = it

    yield "a test that holds after its variable changed", lambda: assigned(still_tested), assign, assigned
    both = functions.Translator.both

    def met(it):
        functions.Translator.both = it

    def one(_, some, others):
        return functions.Known({**some.tested, **others.tested}, others.values)

    yield "a test on one way that holds on all", lambda: met(one), both, met
    def other_sums(self, some, others):
        return functions.Known(both(self, some, others).tested, others.values)

    yield "a sum on one way that holds on all", lambda: met(other_sums), both, met


# Where addresses have 32 bits, the upper half of one is not looked at.
WIDE = "an address above 32 bits"
# Local 0 is an address, 0 at first.
PAST, BACK = "(local.set 0 (i64.const 131072))", "(br_if 0 (i64.lt_u (local.get 0) (i64.const 400000)))"
LOAD = "(drop (i64.load (local.get 0)))"
TRAPS = {
    "past the end": "(drop (i32.load (i64.const 131072)))",
    "an address of two parts past the end": "(drop (i32.load offset=4294967295 (i64.extend_i32_u (global.get $h))))",
    WIDE: "(drop (i32.load (i64.mul (global.get $g) (i64.const 0x100000000))))",
    "a variable past the end": f"{PAST}{LOAD}",
    "a variable that changed after its test": f"{LOAD}{PAST}{LOAD}",
    "a variable that took another one": f"{LOAD}(local.set 1 (i64.const 131072))(local.set 0 (local.get 1)){LOAD}",
    "a variable that a loop changes": f"{LOAD}(loop {LOAD}(local.set 0 (i64.add (local.get 0) (i64.const 65536))){BACK})",
    "a variable that was tested on one way": f"{PAST}(if (i32.eqz (global.get $h)) (then {LOAD})){LOAD}",
    "a variable that was tested past a branch": f"{PAST}(block (br_if 0 (global.get $h)){LOAD}){LOAD}",
    "a variable that was tested in the other branch": f"{PAST}(if (global.get $h) (then (nop)) (else {LOAD})){LOAD}",
    "far behind a variable": "(local.set 0 (i64.const 130000))(drop (i64.load offset=5000 (local.get 0)))",
    "farther behind a variable than it was tested": f"(local.set 0 (i64.const 130000)){LOAD}"
    "(drop (i64.load offset=5000 (local.get 0)))",
    "division by 0": "(drop (i32.div_u (i32.const 1) (i32.sub (global.get $h) (i32.const 5))))",
    "the least by -1": "(drop (i64.div_s (i64.const -9223372036854775808) (i64.sub (global.get $g) (i64.const 78))))",
    "a copy past the end": "(memory.copy (i64.const 131000) (i64.const 0) (i64.const 2000))",
    "a small copy past the end": "(memory.copy (i64.const 0) (i64.const 131072) (i64.const 1))",
    "a fill past the end": "(memory.fill (i64.const 4294967295) (i32.const 0) (i64.const 2000))",
    "a small fill past the end": "(memory.fill (i64.const 131072) (i32.const 0) (i64.const 2))",
    "unreachable": "(unreachable)",
}
REFUSED = {
    "a call through a table": '(table 1 funcref)(elem (i32.const 0) $f)(func $f)(func (export "p") (call_indirect (i32.const 0)))',
    "the size of the memory": '(func (export "p") (drop (memory.size)))',
    "another import": '(import "a" "b" (func $b))(func (export "p") (call $b))',
    "a number of 32 bits with a point": '(func (export "p") (drop (f32.add (f32.const 1) (f32.const 2))))',
    "a start": '(func $s)(start $s)(func (export "p"))',
}


def status_of(text, compiler, work):
    """The status in which a program ends."""
    words, _, runner = compiler.partition("@")
    with open(f"{work}/it.c", "w", encoding="utf-8") as file:
        file.write(text)
    subprocess.run([*words.split(), f"{work}/it.c", "-o", f"{work}/it"], check=True)
    return subprocess.run([*runner.split(), f"{work}/it"], capture_output=True, check=False).returncode


def try_traps(compiler, work):
    is_narrow = status_of("int main(void) { return (int)sizeof(void *); }", compiler, work) == 4
    for name, body in TRAPS.items():
        if is_narrow and name == WIDE:
            continue
        text = translated(wasm_of(f'{HEAD}(func (export "p") (result i64) (local i64 i64) {body} (i64.const 1)))', work))
        text = '#include <stdlib.h>\n#define RUDLAYOG_TRAP() exit(77)\n' + text
        status = status_of(text, compiler, work)
        if status != 77:
            fail(f"{compiler}: no trap, but {status}: {name}")


def try_refusals(work):
    for name, text in REFUSED.items():
        if text.startswith("(import"):
            text = f"(module {text})"
        else:
            text = f"{HEAD}{text})"
        try:
            translated(wasm_of(text, work))
        except binary.Unknown:
            continue
        fail(f"the translation takes {name}")


def main(compilers):
    for tool in ("wat2wasm", "wasm-interp"):
        if not shutil.which(tool):
            print(f"test_translation: passed over: no {tool}")
            return
    with tempfile.TemporaryDirectory() as work:
        try_refusals(work)
        found = [*differences(operations_module(), compilers, work)]
        texts = [Programs(seed).module(40) for seed in range(int(os.environ.get("PROGRAMS", "12")))]
        for text in texts:
            found += differences(text, compilers, work)
        if found:
            fail(f"other answers: {found[:10]}")
        for compiler in compilers:
            try_traps(compiler, work)
        for name, plant, kept, undo in faults():
            plant()
            is_found = any(is_seen(text, compilers[:1], work) for text in [*texts, operations_module()])
            undo(kept)
            if not is_found:
                fail(f"a planted fault is not found: {name}")
    count = len(operations.OPERATIONS) + len(LOADS) + len(STORES)
    print(f"test_translation: {count} operations and {40 * len(texts)} random functions as the interpreter says, with "
          f"{', '.join(compilers)}; {len(TRAPS)} traps, {len(REFUSED)} refusals, 8 planted faults found")


if __name__ == "__main__":
    main(sys.argv[1:] or ["cc -O1"])
