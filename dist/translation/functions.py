"""Translates the functions of a module into C.

The values on the stack of WebAssembly are kept as expressions of C until they are taken. What an expression reads is
known: before a local, a global or the memory changes, and before any branch, each expression that reads it is put into
a variable of its place on the stack. So each value is what it was when it was pushed. Blocks are labels, and branches
`goto`. What is not known here is refused.

An access whose address is a variable is preceded by a test of that variable (`TEST`), but where one was made on each
way to it since the variable changed; the memory is never made shorter. tested.py looks at each of these once more, in
the C that comes of it. An access with another address is tested where it stands.
"""
import re
from dataclasses import dataclass, field

from binary import Reader, Unknown
from operations import ATOM, BINARY, CAST, CHOICE, LOADS, OPERATIONS, STORES

NUMBERS = {"i32": "u32", "i64": "u64", "f64": "f64"}
LETTERS = {"i32": "i", "i64": "j", "f64": "d"}
MASKS = {"i32": 0xFFFFFFFF, "i64": 0xFFFFFFFFFFFFFFFF}
# The longest expression that is kept.
LONGEST = 160
MEMORY = "memory"
# Accesses that begin so far behind an address, at most, are tested by the address alone: the runtime's margin.
MARGIN = 1024
# Accesses that begin farther behind a variable are tested where they stand.
FAR = 65536
VARIABLE = re.compile(r"[avijd]\d+")


@dataclass
class Value:
    """A value on the stack."""
    type: str
    text: str
    binds: int = ATOM
    is_fact: bool = False
    reads: frozenset = frozenset()
    number: int | None = None
    traps: bool = False
    # Where it is a sum with a small constant: the other value, and the constant.
    sum: tuple["Value", int] | None = None

    def is_fixed(self):
        """Whether it is the same at any later time."""
        return not self.reads and not self.traps

    def operand(self):
        if self.number is None and self.is_fact:
            return f"(u32)({self.text})"
        return self.text if self.binds <= CAST else f"({self.text})"

    def left(self):
        """Where its own type decides how C computes."""
        if self.number is not None and self.type == "i64":
            return f"{self.number}ull"
        return self.operand()

    def condition(self):
        return self.text

    def whole(self):
        return self.text


def constant(kind, number):
    if kind == "i64" and number > 0xFFFFFFFF:
        return Value(kind, f"{number}ull" if number < 1 << 63 else f"{number:#x}ull", number=number)
    return Value(kind, f"{number}u", number=number)


class Known:
    """What is known of the variables at one place of a function."""

    def __init__(self, tested=None, values=None):
        # How far behind each variable that is tested the tested octets reach.
        self.tested = dict(tested or {})
        # What each variable is, if it changed: some value of its own, named by a number, and a constant.
        self.values = dict(values or {})

    def copy(self):
        return Known(self.tested, self.values)

    def value(self, name):
        return self.values.get(name, (name, 0))

    def changes(self, name, value):
        self.tested.pop(name, None)
        self.values[name] = value

    def near(self, name, more, end):
        """A tested variable and how far behind it the octets are that stand so far behind a variable, if there is one."""
        value, at = self.value(name)
        for other, reach in self.tested.items():
            its, start = self.value(other)
            # A place on the stack may change before what was taken of the stack is put out.
            is_local = other == name or other[0] in "av"
            if is_local and its == value and 0 <= at + more - start and at + end - start <= reach + MARGIN:
                return other, at + more - start
        return None


@dataclass
class Block:
    """A block that is open."""
    label: str
    is_loop: bool
    gives: tuple[str, ...]
    height: int
    is_used: bool = False
    # What is open of an `if`: its head stands at this line.
    is_if: bool = False
    has_else: bool = False
    # What is known where it is left for its end; and where an `if` began.
    known: Known | None = None
    before: Known | None = None


@dataclass
class Translated:
    """A function in C, in parts."""
    head: str
    lines: list[str]


class Translator:
    """One function."""

    def __init__(self, module, number, names, grows, fixed):
        self.module, self.names, self.grows, self.fixed = module, names, grows, fixed
        self.function = module.functions[number]
        self.number = number
        kind = self.function.kind
        if len(kind.gives) > 1:
            raise Unknown(f"{names[number]}: more than one answer")
        self.types = [*kind.takes, *self.function.locals]
        self.stack, self.blocks, self.lines = [], [], []
        self.labels = 0
        self.places, self.uses_memory, self.uses_module = set(), False, False
        self.is_dead = False
        self.known = Known()
        self.count = 0
        self.frames = {}

    # ---- what is put out
    def put(self, line):
        self.lines.append(line)

    def new_value(self):
        self.count += 1
        return self.count, 0

    def assign(self, name, value):
        """A variable that changes is tested if what it takes is a variable that is."""
        self.put(f"{name} = {value.whole()};")
        reach = self.known.tested.get(value.text)
        if VARIABLE.fullmatch(value.text):
            self.known.changes(name, self.known.value(value.text))
        elif value.sum and VARIABLE.fullmatch(value.sum[0].text):
            its, at = self.known.value(value.sum[0].text)
            self.known.changes(name, (its, at + value.sum[1]))
        else:
            self.known.changes(name, self.new_value())
        if reach is not None:
            self.known.tested[name] = reach

    def test(self, name, reach):
        """Tests a variable, if it is not known to be an address of the array, as far as the octets behind it."""
        if self.known.tested.get(name, -1) < reach:
            reach = max(reach, self.frames.get(name, 0) - MARGIN)
            self.put(f"TEST_FAR({name}, {reach});" if reach else f"TEST({name});")
            self.known.tested[name] = reach

    def both(self, some, others):
        """What is known where two ways meet."""
        tested = {name: min(reach, others.tested[name]) for name, reach in some.tested.items() if name in others.tested}
        values = {}
        for name in sorted({*some.values, *others.values}):
            value = some.value(name)
            values[name] = value if others.value(name) == value else self.new_value()
        return Known(tested, values)

    def local(self, number):
        return f"a{number}" if number < len(self.function.kind.takes) else f"v{number}"

    def place(self, at, kind):
        """The variable of a place on the stack."""
        name = f"{LETTERS[kind]}{at}"
        self.places.add((name, kind))
        return name

    def settle(self, at):
        """Puts a value of the stack into the variable of its place."""
        value = self.stack[at]
        name = self.place(at, value.type)
        if value.text != name:
            self.change(name, skip=at)
            self.assign(name, value)
        self.stack[at] = Value(value.type, name, reads=frozenset([name]))

    def change(self, what, skip=None):
        """Before a variable, a global or the memory changes."""
        for at, value in enumerate(self.stack):
            if at != skip and what in value.reads:
                self.settle(at)

    def settle_all(self):
        for at, value in enumerate(self.stack):
            if not value.is_fixed():
                self.settle(at)

    # ---- the stack
    def push(self, value):
        self.stack.append(value)
        if len(value.text) > LONGEST:
            self.settle(len(self.stack) - 1)

    def pop(self, kind=None):
        value = self.stack.pop()
        if kind and value.type != kind:
            raise Unknown(f"{self.names[self.number]}: {value.type} and not {kind}")
        return value

    # ---- instructions
    def translate(self):
        code = Reader(self.function.code)
        self.sets = sets_of(code, ends=False)
        gives = self.function.kind.gives
        self.blocks.append(Block("end", False, gives, 0))
        while self.blocks:
            self.instruction(code)
        if not code.is_done():
            raise Unknown(f"{self.names[self.number]}: octets after the end")
        return self

    def instruction(self, code):
        number = code.octet()
        if number in OPERATIONS:
            self.compute(OPERATIONS[number])
        elif number in LOADS:
            self.load(LOADS[number], code)
        elif number in STORES:
            self.store(STORES[number], code)
        elif number in INSTRUCTIONS:
            INSTRUCTIONS[number](self, code)
        else:
            raise Unknown(f"{self.names[self.number]}: the instruction {number:#x}")
        if self.is_dead:
            self.skip(code)

    def skip(self, code):
        """Passes over what is never reached, up to the end of the block."""
        depth = 0
        while True:
            number = code.octet()
            if number in (0x02, 0x03, 0x04):
                self.block_type(code)
                depth += 1
            elif number == 0x0B:
                if depth == 0:
                    break
                depth -= 1
            elif number == 0x05 and depth == 0:
                break
            else:
                self.pass_over(number, code)
        self.is_dead = True
        INSTRUCTIONS[number](self, code)

    @staticmethod
    def pass_over(number, code):
        """Reads what stands beside an instruction."""
        if number in OPERATIONS or number in (0x00, 0x01, 0x05, 0x0F, 0x1A, 0x1B):
            return
        if number in LOADS or number in STORES:
            code.number(), code.number()
        elif number in (0x0C, 0x0D, 0x10, 0x20, 0x21, 0x22, 0x23, 0x24):
            code.number()
        elif number in (0x41, 0x42):
            code.signed()
        elif number == 0x44:
            code.some(8)
        elif number == 0x0E:
            for _ in range(code.number() + 1):
                code.number()
        elif number == 0xFC:
            count = {10: 2, 11: 1}.get(code.number())
            if count is None:
                raise Unknown("an instruction of 0xfc")
            code.some(count)
        else:
            raise Unknown(f"the instruction {number:#x}")

    def compute(self, operation):
        values = [self.pop(kind) for kind in reversed(operation.takes)][::-1]
        reads = frozenset().union(*(it.reads for it in values))
        traps = operation.traps or any(it.traps for it in values)
        text = self.written(operation, values)
        parts = self.sum_of(operation, values)
        self.push(Value(operation.gives, text, operation.binds, operation.is_fact, reads, traps=traps, sum=parts))

    @staticmethod
    def sum_of(operation, values):
        """What a value is the sum of, where a small constant is one of the two."""
        if operation.form not in ("{0} + {1}", "{0} - {1}") or values[0].type != "i64" or values[1].number is None:
            return None
        number = values[1].number if "+" in operation.form else -values[1].number
        number = number + (1 << 63) & MASKS["i64"]
        return (values[0], number - (1 << 63)) if abs(number - (1 << 63)) < FAR else None

    @staticmethod
    def written(operation, values):
        form = operation.form
        last = values[-1]
        if form == "{0} == 0" and values[0].is_fact and values[0].number is None:
            return f"!({values[0].text})"
        if last.number is not None and len(values) == 2:
            width = 1 << (32 if last.type == "i32" else 64)
            if " & 31)" in form or " & 63)" in form:
                # The width is a power of two.
                count = last.number % (32 if last.type == "i32" else 64)
                return re.sub(r"\(\{1\} & \d+\)", str(count), form).format(values[0].left())
            if form in ("{0} + {1}", "{0} - {1}") and last.number > width // 2:
                other = "-" if "+" in form else "+"
                return f"{values[0].left()} {other} {width - last.number}u"
            if form.startswith("rud_div_u") and last.number:
                return f"({values[0].left()} / {last.text})"
            if form.startswith("rud_rem_u") and last.number:
                return f"({values[0].left()} % {last.text})"
        return form.format(values[0].left(), *(it.operand() for it in values[1:]))

    def address(self, value, count, code):
        """The address of an access, what is added to it, and whether it is tested; the octets' order is no part of
        the address."""
        code.number()
        more = code.number()
        self.uses_memory = self.uses_module = True
        if value.number is not None:
            at = value.number + more
            return f"{at}u", 0, self.fixed[0] <= at and at + count <= self.fixed[1]
        if value.sum and VARIABLE.fullmatch(value.sum[0].text):
            start = value.sum[1] + more
            if near := self.known.near(value.sum[0].text, start, start + count):
                return *near, True
        if value.sum and 0 <= value.sum[1] and value.sum[1] + more + count <= MARGIN:
            # The first octets of the stack are not for use: no address that the sum may be is below its constant.
            value, more = value.sum[0], value.sum[1] + more
        if not VARIABLE.fullmatch(value.text) or more >= FAR:
            return value.whole(), more, False
        if near := self.known.near(value.text, more, more + count):
            return *near, True
        self.test(value.text, max(0, more + count - MARGIN))
        return value.text, more, True

    @staticmethod
    def named(name, more, count, is_tested):
        """The name of an access."""
        if is_tested:
            return name.replace("GET", "AT").replace("PUT", "SET")
        return name if more + count <= MARGIN else re.sub(r"(GET|PUT)", r"\1_FAR", name)

    def load(self, form, code):
        kind, name, count = form
        value = self.pop("i64")
        at, more, is_tested = self.address(value, count, code)
        text = f"{self.named(name, more, count, is_tested)}({at}, {more})"
        binds = CAST if name[0] == "(" else ATOM
        # The variable in the address may be another one than was given.
        reads = {at} if VARIABLE.fullmatch(at) else value.reads
        self.push(Value(kind, text, binds, reads=frozenset(reads) | {MEMORY}, traps=value.traps or not is_tested))

    def store(self, form, code):
        kind, name, count = form
        it, value = self.pop(kind), self.pop("i64")
        at, more, is_tested = self.address(value, count, code)
        if it.number is not None and count < 8:
            it = constant("i32", it.number & ((1 << 8 * count) - 1))
        cast = "(u32)" if it.type == "i64" and count < 8 else ""
        self.change(MEMORY)
        given = f"{cast}{it.operand() if cast else it.whole()}"
        self.put(f"{self.named(name, more, count, is_tested)}({at}, {more}, {given});")

    # ---- blocks
    def block_type(self, code):
        kind = code.signed()
        if kind == -64:
            return ()
        if -4 <= kind < 0:
            return ({-1: "i32", -2: "i64", -3: "f32", -4: "f64"}[kind],)
        raise Unknown(f"{self.names[self.number]}: a block that takes or gives several values")

    def new_label(self):
        self.labels += 1
        return f"L{self.labels}"

    def block(self, code):
        gives = self.block_type(code)
        self.settle_all()
        self.blocks.append(Block(self.new_label(), False, gives, len(self.stack)))

    def loop(self, code):
        gives = self.block_type(code)
        self.settle_all()
        it = Block(self.new_label(), True, gives, len(self.stack))
        self.blocks.append(it)
        # Of what the loop changes nothing is known where it begins again.
        for name in sorted({*(self.local(number) for number in sets_of(code)), *(name for name, _ in self.places)}):
            self.known.changes(name, self.new_value())
        self.put(f"{it.label}:;")

    def branch(self, code):
        gives = self.block_type(code)
        value = self.pop("i32")
        self.settle_all()
        it = Block(self.new_label(), False, gives, len(self.stack), is_if=True, before=self.known.copy())
        self.blocks.append(it)
        self.put(f"if ({value.condition()}) {{")

    def give(self, block):
        """Puts what a block gives into the variables of its places."""
        count = len(block.gives)
        if not count:
            return
        values = self.stack[-count:]
        for at, (value, kind) in enumerate(zip(values, block.gives)):
            if value.type != kind:
                raise Unknown(f"{self.names[self.number]}: a block gives {value.type} and not {kind}")
            name = self.place(block.height + at, kind)
            if value.text != name:
                self.assign(name, value)

    def arrive(self, block):
        """One more way to the end of a block: what is known there is known on each."""
        block.known = self.known.copy() if block.known is None else self.both(block.known, self.known)

    def gone_to(self, depth):
        """The lines that leave for the block at this depth, with what it gives."""
        block = self.blocks[-1 - depth]
        kept, self.lines = self.lines, []
        known, self.known = self.known, self.known.copy()
        if block is self.blocks[0]:
            count = len(block.gives)
            self.put(f"return {self.stack[-1].whole()};" if count else "return;")
        else:
            block.is_used = True
            if not block.is_loop:
                self.give(block)
                self.arrive(block)
            self.put(f"goto {block.label};")
        lines, self.lines = self.lines, kept
        self.known = known
        return lines

    def other(self, _):
        """The `else` of an `if`."""
        block = self.blocks[-1]
        if not self.is_dead:
            self.give(block)
            self.arrive(block)
        self.is_dead = False
        self.known = block.before.copy()
        block.has_else = True
        del self.stack[block.height :]
        self.put("} else {")

    def end(self, _):
        block = self.blocks[-1]
        if block is self.blocks[0]:
            if not self.is_dead and block.gives:
                self.put(f"return {self.stack[-1].whole()};")
            self.is_dead = False
            self.blocks.pop()
            return
        if not self.is_dead:
            self.give(block)
            self.arrive(block)
        if block.is_if and not block.has_else:
            self.known = block.before
            self.arrive(block)
        self.known = Known() if block.known is None else block.known
        self.is_dead = False
        self.blocks.pop()
        if block.is_if:
            self.put("}")
        if block.is_used and not block.is_loop:
            self.put(f"{block.label}:;")
        if block.is_loop and not block.is_used:
            self.lines.remove(f"{block.label}:;")
        del self.stack[block.height :]
        for kind in block.gives:
            name = self.place(len(self.stack), kind)
            self.stack.append(Value(kind, name, reads=frozenset([name])))

    def dead(self):
        """What follows is never reached."""
        self.is_dead = True
        del self.stack[self.blocks[-1].height :]

    def goes(self, code):
        for line in self.gone_to(code.number()):
            self.put(line)
        self.dead()

    def goes_if(self, code):
        depth, value = code.number(), self.pop("i32")
        for at, it in enumerate(self.stack):
            if it.traps:
                self.settle(at)
        lines = self.gone_to(depth)
        self.put(f"if ({value.condition()}) " + (lines[0] if len(lines) == 1 else f"{{ {' '.join(lines)} }}"))

    def goes_by_table(self, code):
        depths = [code.number() for _ in range(code.number() + 1)]
        value = self.pop("i32")
        self.put(f"switch ({value.condition()}) {{")
        for depth in dict.fromkeys(depths):
            cases = [f"case {at}u:" for at, it in enumerate(depths[:-1]) if it == depth and depth != depths[-1]]
            if depth == depths[-1]:
                cases = ["default:"]
            self.put(f"{' '.join(cases)} {' '.join(self.gone_to(depth))}")
        self.put("}")
        self.dead()

    def returns(self, _):
        for line in self.gone_to(len(self.blocks) - 1):
            self.put(line)
        self.dead()

    def unreachable(self, _):
        self.put("rud_trap();")
        if self.function.kind.gives:
            self.put("return 0;")
        self.dead()

    def nothing(self, _):
        pass

    # ---- variables and calls
    def calls(self, code):
        number = code.number()
        it = self.module.functions[number]
        values = [self.pop(kind) for kind in reversed(it.kind.takes)][::-1]
        for at, value in enumerate(self.stack):
            if value.traps or any(name == MEMORY or name.startswith("RUD_G") for name in value.reads):
                self.settle(at)
        self.uses_module = True
        words = ", ".join(value.whole() for value in values)
        call = f"{self.names[number]}({'RUD_AS ' + words if words else 'RUD_AS0'})"
        if not it.kind.gives:
            self.put(f"{call};")
        else:
            kind, at = it.kind.gives[0], len(self.stack)
            name = self.place(at, kind)
            self.change(name)
            self.assign(name, Value(kind, call))
            self.stack.append(Value(kind, name, reads=frozenset([name])))
        if number in self.grows:
            self.put("RUD_AGAIN")

    def drop(self, _):
        value = self.pop()
        if value.traps:
            self.put(f"(void)({value.text});")

    def select(self, _):
        test = self.pop("i32")
        last = self.pop()
        first = self.pop(last.type)
        reads = test.reads | first.reads | last.reads
        traps = test.traps or first.traps or last.traps
        question = test.text if test.binds <= BINARY else f"({test.text})"
        text = f"{question} ? {first.left()} : {last.left()}"
        self.push(Value(last.type, text, CHOICE, reads=reads, traps=traps))

    def get_local(self, code):
        number = code.number()
        name = self.local(number)
        self.stack.append(Value(self.types[number], name, reads=frozenset([name])))

    def set_local(self, code):
        number = code.number()
        value, name = self.pop(self.types[number]), self.local(number)
        self.change(name)
        # An answer of a call goes where it is wanted at once.
        last = self.lines[-2:] if self.lines and self.lines[-1] == "RUD_AGAIN" else self.lines[-1:]
        place = self.place(len(self.stack), value.type)
        if last and value.text == place and last[0].startswith(f"{place} = "):
            at = len(self.lines) - len(last)
            self.lines[at] = name + self.lines[at][len(place) :]
            self.known.changes(place, self.new_value())
            self.known.changes(name, self.new_value())
        elif value.text != name:
            self.assign(name, value)
            self.is_frame(number, value)

    def tee_local(self, code):
        number = code.number()
        name, kind = self.local(number), self.types[number]
        value = self.pop(kind)
        self.change(name)
        if value.text != name:
            self.assign(name, value)
            self.is_frame(number, value)
        self.stack.append(value if value.number is not None else Value(kind, name, reads=frozenset([name])))

    def is_frame(self, number, value):
        """A local that is set once, to what is taken of the stack: so many octets behind it are there."""
        if (taken := re.fullmatch(r"RUD_G0 - (\d+)u", value.text)) and self.sets.get(number) == 1:
            self.frames[self.local(number)] = int(taken[1])

    def get_global(self, code):
        number = code.number()
        it = self.module.globals[number]
        if not it.changes:
            self.stack.append(constant(it.type, it.value))
            return
        self.uses_module = True
        name = f"RUD_G{number}"
        self.stack.append(Value(it.type, name, reads=frozenset([name])))

    def set_global(self, code):
        number = code.number()
        value = self.pop(self.module.globals[number].type)
        name = f"RUD_G{number}"
        self.uses_module = True
        self.change(name)
        self.put(f"{name} = {value.whole()};")

    def number32(self, code):
        self.stack.append(constant("i32", code.signed() & MASKS["i32"]))

    def number64(self, code):
        self.stack.append(constant("i64", code.signed() & MASKS["i64"]))

    def number_f64(self, code):
        octets = int.from_bytes(code.some(8), "little")
        self.stack.append(Value("f64", f"rud_of_octets({octets:#x}ull)"))

    def bulk(self, code):
        number = code.number()
        count, middle, to = self.pop("i64"), self.pop("i64" if number == 10 else "i32"), self.pop("i64")
        self.change(MEMORY)
        self.uses_memory = self.uses_module = True
        few = "_FEW" if count.number is not None and count.number <= MARGIN else ""
        if number == 10:
            if code.some(2) != b"\0\0":
                raise Unknown("another memory")
            self.put(f"COPY{few}({to.whole()}, {middle.whole()}, {count.whole()});")
        elif number == 11:
            if code.some(1) != b"\0":
                raise Unknown("another memory")
            self.put(f"FILL{few}({to.whole()}, {middle.whole()}, {count.whole()});")
        else:
            raise Unknown(f"{self.names[self.number]}: the instruction 0xfc {number}")

    # ---- the whole
    def head(self):
        kind = self.function.kind
        gives = NUMBERS[kind.gives[0]] if kind.gives else "void"
        words = ", ".join(f"{NUMBERS[it]} a{at}" for at, it in enumerate(kind.takes))
        return f"static {gives} {self.names[self.number]}({'RUD_IT ' + words if words else 'RUD_IT0'})"

    def whole(self):
        body = "\n".join(self.lines)
        named = re.findall(r"\b[avijd]\d+\b", body)
        counts = {}
        for name in named:
            counts[name] = counts.get(name, 0) + 1
        lines = []
        places = sorted(self.places, key=lambda it: (it[1], int(it[0][1:])))
        own = [(f"v{at}", kind) for at, kind in enumerate(self.types)]
        for kind, number in NUMBERS.items():
            wanted = [f"{name} = 0" for name, of in own if of == kind and name in counts]
            wanted += [f"{name} = 0" for name, of in places if of == kind and name in counts]
            for at in range(0, len(wanted), 12):
                lines.append(f"{number} {', '.join(wanted[at:at + 12])};")
        lines.append("RUD_HERE" if self.uses_memory else "RUD_NONE")
        for at in range(len(self.function.kind.takes)):
            if not counts.get(f"a{at}"):
                lines.append(f"(void)a{at};")
        # What is set and never read.
        for name in sorted(it for it in counts if counts[it] == len(re.findall(rf"\b{it} = ", body))):
            lines.append(f"(void){name};")
        body = [it for it in self.lines if it != "RUD_AGAIN" or self.uses_memory]
        return "\n".join([f"{self.head()} {{", *lines, *body, "}"])


INSTRUCTIONS = {
    0x00: Translator.unreachable,
    0x01: Translator.nothing,
    0x02: Translator.block,
    0x03: Translator.loop,
    0x04: Translator.branch,
    0x05: Translator.other,
    0x0B: Translator.end,
    0x0C: Translator.goes,
    0x0D: Translator.goes_if,
    0x0E: Translator.goes_by_table,
    0x0F: Translator.returns,
    0x10: Translator.calls,
    0x1A: Translator.drop,
    0x1B: Translator.select,
    0x20: Translator.get_local,
    0x21: Translator.set_local,
    0x22: Translator.tee_local,
    0x23: Translator.get_global,
    0x24: Translator.set_global,
    0x41: Translator.number32,
    0x42: Translator.number64,
    0x44: Translator.number_f64,
    0xFC: Translator.bulk,
}


def sets_of(code, ends=True):
    """How often each local is set from here on: up to the end of the block that has begun, or of the function."""
    ahead, depth, found = Reader(code.octets), 0, {}
    ahead.at = code.at
    while not ahead.is_done() and depth >= 0:
        number = ahead.octet()
        if number in (0x02, 0x03, 0x04):
            ahead.signed()
            depth += ends
        elif number == 0x0B:
            depth -= ends
        elif number in (0x21, 0x22):
            local = ahead.number()
            found[local] = found.get(local, 0) + 1
        else:
            Translator.pass_over(number, ahead)
    return found


def names_of(module):
    """The names of the functions in C: those of the module, with `_` in the place of what C does not take."""
    taken, names = set(), []
    for number, it in enumerate(module.functions):
        name = re.sub(r"\W+", "_", it.name).strip("_")[:64].strip("_") or f"number_{number}"
        name, count = f"in_{name}", 1
        while (name if count == 1 else f"{name}_{count}") in taken:
            count += 1
        names.append(name if count == 1 else f"{name}_{count}")
        taken.add(names[-1])
    return names


def called(module, number):
    """The functions that one calls."""
    it = module.functions[number]
    code, found = Reader(it.code), set()
    while not code.is_done():
        at = code.octet()
        if at in (0x02, 0x03, 0x04):
            code.signed()
        elif at == 0x10:
            found.add(code.number())
        elif at != 0x0B:
            Translator.pass_over(at, code)
    return found


def calls_of(module):
    """What each function calls."""
    return {number: called(module, number) for number, it in enumerate(module.functions) if not it.imported}


def growing(module, calls):
    """The functions that may move the memory: those that an import is reached from."""
    found = {number for number, it in enumerate(module.functions) if it.imported}
    while True:
        more = {number for number, callees in calls.items() if number not in found and callees & found}
        if not more:
            return found
        found |= more
