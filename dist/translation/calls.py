"""Makes the calls of the library's header over a translated module, out of the header alone: each value that a call
takes is put into the array of the instance, and what the call gives is taken out of it. Whatever has another form than
those that are known here is refused.

In the module all is laid out as for x86-64, and the header's own tests of that layout are tried here.
"""
import re
from dataclasses import dataclass

from binary import Unknown

SCALARS = {"uint8_t": 1, "uint16_t": 2, "uint32_t": 4, "uint64_t": 8, "int64_t": 8, "size_t": 8, "bool": 1}
# What no longer room changes: the longest text of the call.
MOST = {
    ("rudlayog_memory_apply", "each_room"): "RUDLAYOG_INSTRUCTIONS",
    ("rudlayog_memory_next", "room"): "RUDLAYOG_BLOCK",
    # A report of 255 entries; a longer one still waits, and is asked for again.
    ("rudlayog_memory_report", "room"): "8192u",
    # Each entry has four octets of the packet at least.
    ("rudlayog_report_read", "entries_room"): "packet_length / 4 + 1",
}
AGAIN = ("rudlayog_memory_report",)
# What a call that is refused writes where it is not 0.
OTHERS = {"rudlayog_state": ("kind", "RUDLAYOG_NO_STORE")}
HANDLE = "rudlayog_memory"
ANSWER = "rudlayog_answer"


@dataclass
class Field:
    name: str
    kind: str
    count: int
    at: int
    is_array: bool


@dataclass
class Struct:
    size: int
    align: int
    fields: list[Field]


@dataclass
class Word:
    """One thing that a call takes."""
    text: str
    name: str
    kind: str
    is_const: bool
    is_struct: bool
    is_pointer: bool


def plain(header):
    return re.sub(r"/\*.*?\*/", "", header, flags=re.S)


def constants(header):
    return {name: int(value) for name, value in re.findall(r"\b(RUDLAYOG_\w+) = (\d+)\b", plain(header))}


def structs_of(header):
    """The structs of the header, laid out as for x86-64."""
    known, found = constants(header), {}
    for name, body in re.findall(r"^struct (\w+) \{\n(.*?)^\};", plain(header), re.M | re.S):
        at, align, fields = 0, 1, []
        for line in filter(None, (" ".join(it.split()) for it in body.split(";"))):
            if name == HANDLE:
                continue
            one = re.fullmatch(r"(enum )?(struct )?(\w+) (\w+)(?:\[(\w+)\])?( : 8)?", line)
            if not one or bool(one[1]) != bool(one[6]):
                raise Unknown(f"{name}: {line}")
            kind = "uint8_t" if one[6] else one[3]
            if one[2]:
                size, own = found[kind].size, found[kind].align
            elif kind in SCALARS:
                size = own = SCALARS[kind]
            else:
                raise Unknown(f"{name}: {line}")
            count = 1 if one[5] is None else known.get(one[5]) or int(one[5])
            at = -(-at // own) * own
            fields.append(Field(one[4], ("struct " if one[2] else "") + kind, count, at, one[5] is not None))
            at += size * count
            align = max(align, own)
        found[name] = Struct(-(-at // align) * align, align, fields)
    return found


def test_layout(header, structs):
    """Compares with what the header says of the layout, and tells how many facts it has."""
    count = 0
    for name, size in re.findall(r"sizeof\(struct (\w+)\) == (\d+)", header):
        if name != HANDLE:
            count += 1
            if structs[name].size != int(size):
                raise Unknown(f"the size of {name}: {structs[name].size} and not {size}")
    for name, field, at in re.findall(r"offsetof\(struct (\w+), (\w+)\) == (\d+)", header):
        if name != HANDLE:
            count += 1
            found = next(it.at for it in structs[name].fields if it.name == field)
            if found != int(at):
                raise Unknown(f"the place of {name}.{field}: {found} and not {at}")
    if not count:
        raise Unknown("the header says nothing of its layout")
    return count


def taker(name, struct):
    """What takes a struct out of the array."""
    yield f"static void take_{name}(RUD_IT u32 at, struct {name} *to) {{"
    if any(not it.kind.startswith("struct ") for it in struct.fields):
        yield "    RUD_HERE"
    for it in struct.fields:
        if it.kind.startswith("struct "):
            yield f"    take_{it.kind[7:]}(RUD_AS at + {it.at}u, &to->{it.name});"
            continue
        octets = SCALARS[it.kind]
        if it.is_array:
            yield f"    for (u32 k = 0; k < {it.count}; k++) to->{it.name}[k] = ({it.kind})GET{8 * octets}(at + k * {octets}u, {it.at});"
        else:
            yield f"    to->{it.name} = ({it.kind})GET{8 * octets}(at, {it.at});"
    yield "}\n"


def putter(name, struct):
    """What puts a struct into the array. An enum of a bit field has a sign in some compilers."""
    yield f"static void put_{name}(RUD_IT u32 at, const struct {name} *from) {{"
    yield "    RUD_HERE"
    yield f"    FILL(at, 0, {struct.size});"
    for it in struct.fields:
        if it.kind.startswith("struct "):
            raise Unknown(f"{name}.{it.name} is given")
        octets = SCALARS[it.kind]
        cast = f"(u{8 * octets})"
        if it.is_array:
            yield f"    for (u32 k = 0; k < {it.count}; k++) PUT{8 * octets}(at + k * {octets}u, {it.at}, {cast}from->{it.name}[k]);"
        else:
            yield f"    PUT{8 * octets}(at, {it.at}, {cast}from->{it.name});"
    yield "}\n"


def declared(header):
    """The calls of the header, each with what it takes."""
    for name, words in re.findall(r"^void (rudlayog_\w+)\(([^;]*)\);", plain(header), re.M):
        takes = []
        for text in (" ".join(it.split()) for it in words.split(",")):
            one = re.fullmatch(r"(const )?(struct )?(\w+) (\*?)(\w+)", text)
            if not one or not one[2] and one[3] not in SCALARS:
                raise Unknown(f"{name}: {text}")
            takes.append(Word(text, one[5], one[3], bool(one[1]), bool(one[2]), bool(one[4])))
        yield name, takes


class Call:
    """One call, in parts."""

    def __init__(self, name, takes, structs):
        self.name, self.takes, self.structs = name, takes, structs
        self.before, self.given, self.after, self.refused = [], [], [], []
        self.handle, self.ended, self.has_answer = "NULL", "NULL", False
        self.puts, self.gives = set(), set()
        at = 0
        while at < len(takes):
            at += self.word(takes[at], takes[at + 1] if at + 1 < len(takes) else None)

    def room(self, word, text):
        const = "" if self.name in AGAIN else "const "
        self.before.append(f"{const}u32 {word.name}_at = {text};")
        self.given.append(f"{word.name}_at")

    def word(self, it, then):
        """Takes one word of the call, or two that belong to one another, and tells how many."""
        if it.kind == HANDLE:
            self.handle = it.name
            # A handle that is only read changes where its array moves; it is as it was once the call has ended.
            self.ended = f"(struct {HANDLE} *){it.name}" if it.is_const else it.name
            self.given.append("call.handle")
            return 1
        if not it.is_pointer:
            self.given.append(it.name)
            return 1
        size = self.structs[it.kind].size if it.is_struct else SCALARS[it.kind]
        if it.is_const and it.is_struct:
            self.puts.add(it.kind)
            if then and then.name == "count":
                self.room(it, f"rud_rooms(RUD_AS &call, count, {size})")
                self.before.append("for (size_t k = 0; !call.fails && k < count; k++)")
                self.before.append(f"    put_{it.kind}(RUD_AS {it.name}_at + (u32)k * {size}u, &{it.name}[k]);")
                self.given.append("count")
                return 2
            self.room(it, f"rud_room(RUD_AS &call, {size})")
            self.before.append(f"if (!call.fails) put_{it.kind}(RUD_AS {it.name}_at, {it.name});")
            return 1
        if it.is_const:
            if it.kind != "uint8_t" or not then or then.name != f"{it.name}_length":
                raise Unknown(f"{self.name}: {it.text}")
            self.room(it, f"rud_text(RUD_AS &call, {it.name}, {then.name})")
            self.given.append(then.name)
            return 2
        if then and then.name.endswith("room"):
            return self.buffer(it, then, size)
        return self.result(it, size)

    def buffer(self, it, then, size):
        """A buffer of the caller's: what is written of it."""
        room = then.name
        if most := MOST.get((self.name, room)):
            const = "" if self.name in AGAIN else "const "
            self.before.append(f"{const}size_t most = {room} < (size_t)({most}) ? {room} : (size_t)({most});")
            room = "most"
        self.given_room(it, room, size)
        if it.is_struct:
            self.gives.add(it.kind)
            self.after.append(f"for (u32 k = 0; answer->status == RUDLAYOG_WRITTEN && k < answer->length && k < {room}; k++)")
            self.after.append(f"    take_{it.kind}(RUD_AS {it.name}_at + k * {size}u, &{it.name}[k]);")
        else:
            self.after.append("if (answer->status == RUDLAYOG_WRITTEN)")
            length = f"answer->length < {room} ? answer->length : {room}"
            self.after.append(f"    rud_out(RUD_AS {it.name}, {it.name}_at, {length});")
        return 2

    def given_room(self, it, room, size):
        self.room(it, f"rud_rooms(RUD_AS &call, {room}, {size})")
        self.given.append(room)

    def result(self, it, size):
        """A value that the call writes."""
        self.room(it, f"rud_room(RUD_AS &call, {size})")
        if it.is_struct:
            self.gives.add(it.kind)
            self.refused.append(f"memset({it.name}, 0, sizeof *{it.name});")
            if it.kind in OTHERS:
                self.refused.append(f"{it.name}->{OTHERS[it.kind][0]} = {OTHERS[it.kind][1]};")
            take = f"take_{it.kind}(RUD_AS {it.name}_at, {it.name});"
            if it.kind == ANSWER:
                self.has_answer = True
                self.after.insert(0, take)
            else:
                self.after.append(take)
        else:
            self.refused.append(f"*{it.name} = 0;")
            self.after.append(f"rud_take{8 * size}(RUD_AS {it.name}_at, {it.name});")
        return 1

    def again(self, inner):
        """Calls again with as much room as the text takes, where the caller has that."""
        take = self.after[0]
        yield take
        yield "if (answer->status == RUDLAYOG_TOO_SMALL && most < room && answer->length <= room) {"
        yield "    most = answer->length;"
        yield "    out_at = rud_room(RUD_AS &call, most);"
        yield "    if (!call.fails) {"
        yield f"        {inner}(RUD_AS {', '.join(self.given)});"
        yield "    } else {"
        yield f"        put_refused(RUD_AS answer_at, RUDLAYOG_REFUSED);"
        yield "    }"
        yield "}"

    def lines(self, inner):
        if self.has_answer:
            status = "RUDLAYOG_REFUSED"
            if self.handle != "NULL" and self.name != "rudlayog_memory_open":
                status = f"{self.handle}->is_open ? RUDLAYOG_REFUSED : RUDLAYOG_CLOSED"
            self.refused.append(f"answer->status = {status};")
        yield f"void {self.name}({', '.join(it.text for it in self.takes)}) {{"
        yield "    struct rud_call call;"
        yield f"    RUD_BEGIN({self.handle});"
        yield "    {"
        yield from (f"        {it}" for it in self.before)
        yield "        if (!call.fails) {"
        yield f"            {inner}(RUD_AS {', '.join(self.given)});"
        if self.name in AGAIN:
            yield from (f"            {it}" for it in self.again(inner))
        yield from (f"            {it}" for it in self.after)
        if self.refused:
            yield "        } else {"
            yield from (f"            {it}" for it in self.refused)
        yield "        }"
        yield "    }"
        yield f"    rud_end(RUD_AS &call, {self.ended});"
        yield "}\n"


SCALAR_TAKERS = {
    "put_refused": "u32 refused) {\n    RUD_HERE\n    FILL(at, 0, 48);\n    PUT32(at, 0, refused);",
    "rud_take32": "uint32_t *to) {\n    RUD_HERE\n    *to = GET32(at, 0);",
    "rud_take64": "uint64_t *to) {\n    RUD_HERE\n    *to = GET64(at, 0);",
}


def needed(kinds, structs):
    """The structs that these have, with themselves, in the order of the header."""
    found = {*kinds}
    for name in reversed(structs):
        if name in found:
            found |= {it.kind[7:] for it in structs[name].fields if it.kind.startswith("struct ")}
    return [name for name in structs if name in found]


def made(header, names):
    """The text of these calls; `names` gives the C function of each."""
    structs = structs_of(header)
    facts = test_layout(header, structs)
    calls = [Call(name, takes, structs) for name, takes in declared(header) if name in names]
    if len(calls) != len(names):
        raise Unknown(f"the header has no {', '.join({*names} - {it.name for it in calls})}")
    bodies = [line for it in calls for line in it.lines(names[it.name])]
    lines = []
    for name in needed(frozenset().union(*(it.gives for it in calls)), structs):
        lines += taker(name, structs[name])
    for name in needed(frozenset().union(*(it.puts for it in calls)), structs):
        lines += putter(name, structs[name])
    for name, body in SCALAR_TAKERS.items():
        if any(f"{name}(" in line for line in bodies):
            lines.append(f"static void {name}(RUD_IT u32 at, {body}\n}}\n")
    return "\n".join([*lines, *bodies]), facts
