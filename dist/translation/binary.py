"""Reads a module of WebAssembly, version 1, whose memory has 64-bit addresses. What is not known here is refused."""
from dataclasses import dataclass, field

TYPES = {0x7F: "i32", 0x7E: "i64", 0x7D: "f32", 0x7C: "f64"}


class Unknown(Exception):
    """Something that the translation does not know."""


@dataclass(frozen=True)
class Kind:
    """What a function takes and gives."""
    takes: tuple[str, ...]
    gives: tuple[str, ...]


@dataclass
class Global:
    type: str
    changes: bool
    value: int


@dataclass
class Function:
    kind: Kind
    name: str = ""
    imported: tuple[str, str] | None = None
    locals: list[str] = field(default_factory=list)
    code: bytes = b""


@dataclass
class Module:
    kinds: list[Kind] = field(default_factory=list)
    functions: list[Function] = field(default_factory=list)
    globals: list[Global] = field(default_factory=list)
    exports: dict[str, tuple[str, int]] = field(default_factory=dict)
    data: list[tuple[int, bytes]] = field(default_factory=list)

    def exported(self, kind):
        """The names of what is exported of a kind, with the number of each."""
        return {name: number for name, (of, number) in self.exports.items() if of == kind}


class Reader:
    """Octets, and where they are read on."""

    def __init__(self, octets):
        self.octets = octets
        self.at = 0

    def is_done(self):
        return self.at >= len(self.octets)

    def octet(self):
        self.at += 1
        return self.octets[self.at - 1]

    def some(self, count):
        self.at += count
        if self.at > len(self.octets):
            raise Unknown("the module is cut off")
        return self.octets[self.at - count : self.at]

    def number(self):
        """A number without a sign, of LEB128."""
        value, shift = 0, 0
        while True:
            octet = self.octet()
            value |= (octet & 127) << shift
            shift += 7
            if octet < 128:
                return value

    def signed(self):
        value, shift = 0, 0
        while True:
            octet = self.octet()
            value |= (octet & 127) << shift
            shift += 7
            if octet < 128:
                return value - (1 << shift) if octet & 64 else value

    def name(self):
        return self.some(self.number()).decode()

    def type(self):
        octet = self.octet()
        if octet not in TYPES:
            raise Unknown(f"the type {octet:#x}")
        return TYPES[octet]

    def types(self):
        return tuple(self.type() for _ in range(self.number()))

    def constant(self, module):
        """A constant expression: one constant, or the value of a global."""
        code = self.octet()
        if code == 0x23:
            value = module.globals[self.number()].value
        elif code == 0x41:
            value = self.signed() & 0xFFFFFFFF
        elif code == 0x42:
            value = self.signed() & 0xFFFFFFFFFFFFFFFF
        else:
            raise Unknown(f"the constant of {code:#x}")
        if self.octet() != 0x0B:
            raise Unknown("a constant of two instructions")
        return value


def read(octets):
    """The module of these octets."""
    if octets[:8] != b"\0asm\1\0\0\0":
        raise Unknown("another form than a module of version 1")
    module, whole, kinds = Module(), Reader(octets[8:]), []
    while not whole.is_done():
        number, part = whole.octet(), Reader(whole.some(whole.number()))
        if number == 0:
            own(module, part)
        elif number == 3:
            kinds = [module.kinds[part.number()] for _ in range(part.number())]
            module.functions += [Function(kind) for kind in kinds]
        elif number in SECTIONS:
            SECTIONS[number](module, part)
        else:
            raise Unknown(f"the section {number}")
        if number and not part.is_done():
            raise Unknown(f"octets after the section {number}")
    return module


def type_section(module, part):
    for _ in range(part.number()):
        if part.octet() != 0x60:
            raise Unknown("a type that is no function")
        module.kinds.append(Kind(part.types(), part.types()))


def import_section(module, part):
    for _ in range(part.number()):
        place = part.name(), part.name()
        if part.octet() != 0:
            raise Unknown(f"the import {place} is no function")
        module.functions.append(Function(module.kinds[part.number()], place[1], place))


def memory_section(_, part):
    """One memory, of 64-bit addresses. Its size is the runtime's."""
    if part.number() != 1 or (flags := part.octet()) not in (4, 5):
        raise Unknown("another memory than one with 64-bit addresses")
    for _ in range(flags - 3):
        part.number()


def table_section(_, part):
    """A table may be there, but nothing may be in it: no function is called through it."""
    for _ in range(part.number()):
        if part.octet() != 0x70:
            raise Unknown("a table that is not of functions")
        for _ in range(1 + (part.octet() & 1)):
            part.number()


def element_section(_, part):
    if part.number():
        raise Unknown("a function in a table")


def global_section(module, part):
    for _ in range(part.number()):
        kind, changes = part.type(), part.octet()
        module.globals.append(Global(kind, changes == 1, part.constant(module)))


def export_section(module, part):
    for _ in range(part.number()):
        name, kind = part.name(), part.octet()
        module.exports[name] = {0: "function", 1: "table", 2: "memory", 3: "global"}[kind], part.number()


def code_section(module, part):
    own = [it for it in module.functions if not it.imported]
    if part.number() != len(own):
        raise Unknown("another number of bodies than of functions")
    for it in own:
        body = Reader(part.some(part.number()))
        for _ in range(body.number()):
            count, kind = body.number(), body.type()
            it.locals += [kind] * count
        it.code = body.octets[body.at :]


def data_section(module, part):
    for _ in range(part.number()):
        if part.number() != 0:
            raise Unknown("data that is not put into the memory at the start")
        at = part.constant(module)
        module.data.append((at, part.some(part.number())))


def data_count(_, part):
    part.number()


def own(module, part):
    """A section of a tool's own: of the names, those of functions are taken; all others change nothing."""
    if part.name() != "name":
        return
    while not part.is_done():
        number, names = part.octet(), Reader(part.some(part.number()))
        if number == 1:
            for _ in range(names.number()):
                function = names.number()
                module.functions[function].name = names.name()


SECTIONS = {
    1: type_section,
    2: import_section,
    4: table_section,
    5: memory_section,
    6: global_section,
    7: export_section,
    9: element_section,
    10: code_section,
    11: data_section,
    12: data_count,
}
