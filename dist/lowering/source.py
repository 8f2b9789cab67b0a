"""What is known of a module that the kit lowered for x86-64, whatever target another one is made for. What is not
known is refused:

- the triple, the data layout, and the attributes of functions;
- the functions that it declares: LLVM's own of no target, and the three of C that give and take memory;
- what a function does: no assembly but the empty barriers around atomics, no atomic but in the four forms that are
  listed, no exception, no variable of a thread.
"""
import re

from kit import X86
from lowering import Unknown

X86_LAYOUT = "e-m:e-p270:32:32-p271:32:32-p272:64:64-i64:64-i128:128-f80:128-n8:16:32:64-S128"
X86_CPU = re.compile(r'(.*?)("probe-stack"="inline-asm" "stack-probe-size"="\d+" )"target-cpu"="x86-64(?:-v2)?"')
PAIR = "{ i64, i64 }"
# The heap: what each function answers and takes.
HEAP = {
    "rattle_alloc": (PAIR, "i64 noundef, i64 noundef"),
    "rattle_realloc": (PAIR, "ptr noundef, i64 noundef, i64 noundef, i64 noundef"),
    "rattle_dealloc": ("void", "ptr noundef"),
}
# LLVM's own functions that are called, up to the types in their names. None is of one target.
INTRINSICS = re.compile(
    r"llvm\.(?:memcpy|memmove|memset|trap|assume|abs|smax|smin|umax|umin|ctlz|cttz|ctpop|bswap|bitreverse|fshl|fshr|"
    r"fabs|arithmetic\.fence|vector\.reduce\.or|(?:[us](?:add|sub|mul)\.with\.overflow)|(?:[us](?:add|sub)\.sat))"
    r"(?:\.[\w.]+)?"
)
# What only one target has, or only code that this repository lacks.
FOREIGN = re.compile(
    r"\batomic|cmpxchg|\basm\b|\bfence\b(?!\.f)|x86|thread_local|"
    r"\b(?:va_arg|musttail|invoke|landingpad|phi|indirectbr|callbr|addrspace|half|bfloat|fp128|ppc_fp128)\b"
)
BARRIER = r'  call void asm sideeffect "", "~\{memory\}"\(\)\n'
ADDED, TAKEN, LOADED, COMPARED = "added", "taken", "loaded", "compared"
ATOMICS = {
    ADDED: re.compile(rf"{BARRIER}  (%r\d+) = atomicrmw add (ptr %\w+), (i64 \S+) seq_cst, align 8\n{BARRIER}"),
    TAKEN: re.compile(rf"{BARRIER}  (%r\d+) = atomicrmw sub (ptr %\w+), (i64 \S+) seq_cst, align 8\n{BARRIER}"),
    LOADED: re.compile(rf"{BARRIER}  (%r\d+) = load atomic i64, (ptr %\w+) seq_cst, align 8\n{BARRIER}"),
    COMPARED: re.compile(
        rf"{BARRIER}  (%r\d+) = cmpxchg (ptr %\w+), (i64 \S+), (i64 \S+) seq_cst seq_cst, align 8\n"
        rf"  (%r\d+) = extractvalue {{ i64, i1 }} \1, 0\n{BARRIER}"
    ),
}


def begin(module, exports, triple, layout):
    """Leaves of a module of the kit for x86-64 what these exports reach, for another target."""
    if (module.triple, module.layout) != (X86, X86_LAYOUT):
        raise Unknown(f"{module.triple} {module.layout}")
    module.keep_reached(exports)
    for name, it in module.declared.items():
        if name in HEAP:
            known = (it.answers, it.takes) == HEAP[name]
        else:
            known = INTRINSICS.fullmatch(name)
        if not known:
            raise Unknown(f"declare {it.answers} @{name}({it.takes})")
    module.triple, module.layout = triple, layout


def attributes(words, of_target):
    """A group of attributes, with those of a target in the place of those of x86-64."""
    if found := X86_CPU.fullmatch(words):
        return of_target(found[1], found[2])
    if '"' in words:
        raise Unknown(words)
    return words


def with_atomics(it, stands):
    """The text of a function with what stands for each atomic; anything else that is not known is refused."""
    text, others = it.text() + "\n", it.text() + "\n"
    for name, pattern in ATOMICS.items():
        text, others = pattern.sub(stands[name], text), pattern.sub("", others)
    if FOREIGN.search(re.sub(r'"[^"]*"', "", others)):
        raise Unknown(it.whole())
    return text


def text_of(module):
    """The text that clang reads."""
    target = f'target datalayout = "{module.layout}"\ntarget triple = "{module.triple}"'
    declared = [f"declare {it.answers} @{it.name}({it.takes}) {it.group}".rstrip() for it in module.declared.values()]
    groups = [f"attributes {name} = {{ {words} }}" for name, words in module.groups.items()]
    functions = [it.whole() for it in module.functions.values()]
    parts = (module.data.values(), declared, groups, module.notes)
    data, declared, groups, notes = ("\n".join(it) for it in parts)
    blocks = [target, data, *functions, declared, groups, notes]
    return "\n\n".join(it for it in blocks if it) + "\n"
