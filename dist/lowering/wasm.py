"""Makes of a module that the kit lowered for x86-64 the one that it would lower for wasm64, if the heap of its C
library were an import.

The two lowerings of the kit differ in six points. dist/module compares them on crates that the kit lowers both ways:

1. the target, its data layout, and the attributes of functions;
2. each function first tests that the stack has room, since no page guards its end;
3. each export is guarded, so that no call runs over memory that an earlier trap left half written;
4. a function of C is an import, and writes an answer of two words through a pointer;
5. an atomic is a call of a function that does the same in the one thread that there is;
6. vectors of bytes are shuffled a lane at a time: such code is refused here.

What is not known here, or in source.py, is refused.
"""
import re

from kit import WASM
from lowering import Declared, Function, Unknown
from source import ADDED, COMPARED, HEAP, LOADED, PAIR, TAKEN, attributes, begin, with_atomics

NO_BUILTIN = '"no-builtin-bcmp" "no-builtin-memcmp" "no-builtin-strlen" '
# The whole of a function that calls C: one that has an answer of two words, and one that has none.
CALLS_C = (
    re.compile(
        r"start:\n  %r0 = call \{ i64, i64 \} @(\w+)\((.*)\)\n  %r1 = alloca \[16 x i8\], align 8\n"
        r"  store \{ i64, i64 \} %r0, ptr %r1, align 8\n  %r2 = load i64, ptr %r1, align 8\n"
        r"  store i64 %r2, ptr %a0, align 8\n"
        r"  %r3 = getelementptr i8, ptr %r1, i64 8\n  %r4 = load i64, ptr %r3, align 8\n"
        r"  %r5 = getelementptr i8, ptr %a0, i64 8\n  store i64 %r4, ptr %r5, align 8\n  ret void"
    ),
    re.compile(r"start:\n  call void @(\w+)\((.*)\)\n  ret void"),
)
STANDS = {
    ADDED: r'  \1 = call i64 @"+threads::added"(\2, \3)\n',
    TAKEN: r'  \1 = call i64 @"+threads::taken"(\2, \3)\n',
    LOADED: r'  \1 = call i64 @"+threads::loaded"(\2)\n',
    COMPARED: r'  \5 = call i64 @"+threads::compared"(\2, \3, \4)\n',
}


def retarget(module, exports, kits):
    """Changes the module into that for wasm64, with these exports alone. The functions that stand for atomics are
    those of `kits`, a module that the kit lowered for wasm64."""
    begin(module, exports, WASM, kits.layout)
    module.groups = {name: attributes(words, for_wasm) for name, words in module.groups.items()}
    functions, module.functions = module.functions, {}
    for it in functions.values():
        for made in lowered(it, module):
            module.functions[made.name] = made
    add_helpers(module, kits)
    declare(module)


def for_wasm(first, probes):
    """The attributes of a function of the kit: the words before those on the stack and the target, and those on the
    stack."""
    return f'{first}{NO_BUILTIN}{probes}"target-cpu"="lime1"'


def lowered(it, module):
    """The functions that stand for one of x86-64."""
    if call := call_of_c(it, module):
        it.lines = call
        return [it]
    text = with_atomics(it, STANDS)
    plain = re.sub(r'"[^"]*"', "", text)
    if any(re.search(rf"@{name}\b", plain) for name in HEAP):
        raise Unknown(it.whole())
    it.lines = text.split("\n")[:-1]
    if it.is_internal:
        it.lines = with_test_of_stack(it)
        return [it]
    return guarded(it, module)


def call_of_c(it, module):
    """The lines of a function that calls C, if this is one."""
    text = it.text()
    found = next((found for form in CALLS_C if (found := form.fullmatch(text)) and found[1] in module.declared), None)
    if not found:
        return None
    name, words = found[1], found[2]
    if name not in HEAP:
        raise Unknown(text)
    if module.declared[name].answers == PAIR:
        words = f"ptr %a0, {words}"
    return ["start:", f'  call void @"import {name} from heap"({words})', "  ret void"]


def with_test_of_stack(it):
    """The lines of a function with the test that the stack has room, after the places of its locals."""
    end = next((at for at, line in enumerate(it.lines) if not line), len(it.lines))
    places = [at for at, line in enumerate(it.lines) if " = alloca " in line]
    if it.lines[0] != "start:" or any(at > end for at in places):
        raise Unknown(it.whole())
    at = max(places, default=0) + 1
    test = [
        "  %stack.at = call ptr @llvm.frameaddress.p0(i32 0)",
        "  %stack.number = ptrtoaddr ptr %stack.at to i64",
        "  %stack.ends = icmp slt i64 %stack.number, 16",
        "  br i1 %stack.ends, label %stack.trap, label %stack.ok",
        "",
        "stack.ok:",
    ]
    return [*it.lines[:at], *test, *it.lines[at:], "", "stack.trap:", "  call void @llvm.trap()", "  unreachable"]


def guarded(it, module):
    """An export and the function that does its work."""
    if it.answers != "void" or it.name.startswith('"'):
        raise Unknown(it.whole())
    inner = f'"rattle::export {it.name}"'
    words = ", ".join(re.sub(r"^(\w+) (?:noundef |zeroext |signext )*", r"\1 ", word) for word in it.takes.split(", "))
    guard = ["start:", "  %r0 = call i1 @__rattle_enter()", "  br i1 %r0, label %spent, label %run", ""]
    guard += ["spent:", "  call void @__rattle_trap()", "  unreachable", ""]
    guard += ["run:", f"  call void @{inner}({words})", "  call void @__rattle_leave()", "  ret void"]
    own = module.groups[it.group]
    export = Function(False, "void", it.name, it.takes, group(module, f'{own} "wasm-export-name"="{it.name}"'), guard)
    return [export, Function(True, "void", inner, it.takes, group(module, f"noinline {own}"), it.lines)]


def group(module, words):
    """The name of the group of these attributes."""
    for name, known in module.groups.items():
        if known == words:
            return name
    name = f"#{len(module.groups)}"
    if name in module.groups:
        raise Unknown(f"the numbers of the groups: {sorted(module.groups)}")
    module.groups[name] = words
    return name


def add_helpers(module, kits):
    """Adds the functions that stand for atomics, as the kit's module has them."""
    called = {name for it in [*module.functions.values()] for name in re.findall(r'@("\+threads::\w+")', it.text())}
    for name in sorted(called):
        it = kits.functions[name]
        lines = [re.sub(r"!(\d+)", lambda found: same_note(module, kits, found[0]), line) for line in it.lines]
        module.functions[name] = Function(True, it.answers, name, it.takes, group(module, kits.groups[it.group]), lines)


def same_note(module, kits, name):
    """The module's name of a note that the kit's module has."""
    said = next(line.partition(" = ")[2] for line in kits.notes if line.startswith(f"{name} = "))
    found = next((line for line in module.notes if line.partition(" = ")[2] == said), None)
    if found is None:
        raise Unknown(f"no note {said}")
    return found.partition(" = ")[0]


def declare(module):
    """Declares the imports, the guard, and what the test of the stack calls."""
    for name in [it for it in module.declared if it in HEAP]:
        it = module.declared.pop(name)
        takes = f"ptr noundef, {it.takes}" if it.answers == PAIR else it.takes
        own = group(module, f'nobuiltin nounwind "wasm-import-module"="heap" "wasm-import-name"="{name}"')
        module.declared[f'"import {name} from heap"'] = Declared("void", f'"import {name} from heap"', takes, own)
    plain = group(module, "nounwind")
    more = (("noundef zeroext i1", "__rattle_enter", ""), ("void", "__rattle_leave", ""), ("void", "__rattle_trap", ""))
    for answers, name, takes in (*more, ("ptr", "llvm.frameaddress.p0", "i32 immarg"), ("void", "llvm.trap", "")):
        module.declared.setdefault(name, Declared(answers, name, takes, plain))
