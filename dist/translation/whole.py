"""Puts a translated module together with what it stands on and the calls of the header: one file of C."""
import os
import re

import calls
import tested
from binary import Kind, Unknown, read
from functions import MARGIN, Translator, calls_of, growing, names_of

HERE = os.path.dirname(os.path.realpath(__file__))
# What a module may import: the heap. The last of each: what it takes.
IMPORTS = {
    ("heap", "rattle_alloc"): ("rud_alloc", Kind(("i64",) * 3, ())),
    ("heap", "rattle_realloc"): ("rud_realloc", Kind(("i64",) * 5, ())),
    ("heap", "rattle_dealloc"): ("rud_dealloc", Kind(("i64",), ())),
}
HEAP_BASE = "__heap_base"


def text_of(name):
    with open(f"{HERE}/{name}", encoding="utf-8") as file:
        return file.read()


def parts_of_runtime():
    """The parts of runtime.h, each with its name, in their order."""
    parts = re.split(r"^@(\w+)\n", text_of("runtime.h"), flags=re.M)
    return dict(zip(parts[1::2], (it.rstrip("\n") + "\n" for it in parts[2::2])))


def used_parts(parts, text):
    """The names of the parts that a text uses, and those that these use."""
    found, todo = {"always", "instance"}, [text]
    while todo:
        words = {*re.findall(r"\w+", todo.pop())}
        more = [name for name in parts if name in words and name not in found]
        found |= {*more}
        todo += [parts[name] for name in more]
    return [name for name in parts if name in found]


def names_in_c(module):
    names = names_of(module)
    for number, it in enumerate(module.functions):
        if it.imported:
            name, kind = IMPORTS.get(it.imported, ("", None))
            if kind != it.kind:
                raise Unknown(f"the import {' '.join(it.imported)} of {it.kind}")
            names[number] = name
    return names


def reached(calls, numbers):
    """The functions that these reach, each after those that it calls where that can be."""
    order, seen = [], set()
    for number in numbers:
        todo = [] if number in seen else [(number, iter(sorted(calls[number])))]
        seen.add(number)
        while todo:
            at, rest = todo[-1]
            step = next((it for it in rest if it not in seen and it in calls), None)
            if step is None:
                order.append(at)
                todo.pop()
            else:
                seen.add(step)
                todo.append((step, iter(sorted(calls[step]))))
    return order


def functions(module, names, exported, fixed):
    """The functions in C, with the declarations of those that are called before they stand."""
    calls = calls_of(module)
    grows = growing(module, calls)
    order = reached(calls, exported)
    made = {number: Translator(module, number, names, grows, fixed).translate() for number in order}
    place = {number: at for at, number in enumerate(order)}
    early = {it for by in order for it in calls[by] if it in place and place[it] >= place[by]}
    heads = [f"{made[it].head()};" for it in order if it in early]
    bodies = [made[it].whole() for it in order]
    for number, body in zip(order, bodies):
        tested.test(names[number], body.split("\n")[1:-1], MARGIN, fixed)
    return heads, bodies


def globals_of(module):
    """The globals that change: their places in an instance, and what they are at the start."""
    numbers = {"i32": "u32", "i64": "u64"}
    changing = [(at, it) for at, it in enumerate(module.globals) if it.changes]
    fields = [f"    {numbers[it.type]} g{at};" for at, it in changing]
    names = [f"#define RUD_G{at} RUD_ME->g{at}" for at, _ in changing]
    starts = " ".join(f"(it)->g{at} = {it.value}u;" for at, it in changing)
    return fields, names, f"#define RUD_START_GLOBALS(it) {starts}"


def data_of(module):
    lines, rows = [], []
    for at, (place, octets) in enumerate(module.data):
        numbers = [str(it) for it in octets]
        lines.append(f"static const u8 rud_data_{at}[] = {{")
        lines += [",".join(numbers[k : k + 32]) + "," for k in range(0, len(numbers), 32)]
        lines.append("};")
        rows.append(f"    {{{place}u, {len(octets)}u, rud_data_{at}}},")
    head = "static const struct {\n    u32 at, count;\n    const u8 *octets;\n} rud_data[] = {"
    return "\n".join([*lines, head, *rows, "};\n"])


def memory_of(module):
    """Where the stack ends and where the heap begins."""
    heap = module.globals[module.exported("global")[HEAP_BASE]].value
    stacks = [it.value for it in module.globals if it.changes and it.type in ("i32", "i64") and it.value]
    start = min(at for at, _ in module.data)
    if len(stacks) != 1 or module.globals[0].value != stacks[0] or not 0 < stacks[0] <= start or max(at + len(it) for at, it in module.data) > heap:
        raise Unknown(f"the places of the stack, the data and the heap: {stacks} {start} {heap}")
    return stacks[0], heap


def made(octets, header, head):
    """The file of C of a module and a header, and what is said of it.
    """
    module = read(octets)
    names = names_in_c(module)
    exports = {name: number for name, number in module.exported("function").items() if name.startswith("rudlayog_")}
    if others := {*module.exports} - {*exports, "memory", HEAP_BASE}:
        raise Unknown(f"the exports {others}")
    stack, heap = memory_of(module)
    heads, bodies = functions(module, names, exports.values(), (stack, heap))
    text, facts = calls.made(header, {name: names[number] for name, number in exports.items()})
    fields, global_names, start = globals_of(module)
    parts = parts_of_runtime()
    if f"#define RUD_MARGIN {MARGIN}\n" not in parts["always"]:
        raise Unknown("the margin of the runtime")
    instance, in_and_out = text_of("instance.h"), text_of("calls.h")
    used = used_parts(parts, "\n".join([*bodies, text, instance, in_and_out]))
    struct = ["enum { RUD_CLASSES = 32 };", "struct rud {", "    u8 *data;", "    u32 size, cut, waiting[RUD_CLASSES];"]
    places = [f"#define RUD_STACK {stack}u", f"#define RUD_DATA_END {heap}u"]
    blocks = [
        head,
        '#define RUDLAYOG_PORTABLE\n#include "rudlayog.h"\n',
        "\n".join(places),
        parts["always"],
        "\n".join([*struct, *fields, "};", *global_names, start, ""]),
        *(parts[it] for it in used if it != "always"),
        instance,
        "/* ---- The functions of the library, by their names. */",
        "\n".join([*heads, ""]),
        "\n\n".join(bodies),
        "\n/* ---- The data of the library. */",
        data_of(module),
        in_and_out,
        "/* ---- The calls of rudlayog.h. */",
        text,
    ]
    longest = max(bodies, key=len)
    said = f"{len(bodies)} functions, the longest of {longest.count(chr(10)) + 1} lines; {len(exports)} calls;"
    return "\n".join(blocks), f"{said} {facts} sizes and places of the header agree"
