"""Makes of a module that the kit lowered for x86-64 one for another processor of 64 bits, whose octets of a number
stand in the same order.

What is changed is the triple, the data layout, and in the attributes of functions the processor. All else stays, word
for word: `only_named` compares. What x86-64 and these processors may not do alike is refused:

- a call across the border to C that has more than addresses, numbers of 64 bits, and an answer of two such words: the
  conventions of the three agree on these alone;
- a place on the stack, or a step from an address, whose size a data layout decides: all are counted in octets;
- what source.py refuses.
"""
import re
from dataclasses import dataclass

from lowering import Unknown
from source import ADDED, COMPARED, LOADED, TAKEN, attributes, begin, text_of, with_atomics

# Atomics and their barriers stay as they are.
STANDS = {name: r"\g<0>" for name in (ADDED, TAKEN, LOADED, COMPARED)}
PLACE = re.compile(r"  %\S+ = alloca (?:i8|i16|i32|i64|i128|ptr|double|\[\d+ x i8\]), align \d+")
STEP = re.compile(r"  %\S+ = getelementptr (?:inbounds )?(?:nuw )?i8, ptr (?:%\S+|@\S+), i64 \S+")
TAKEN_ALIKE = re.compile(r"(?:(?:ptr|i64) noundef %a\d+(?:, |$))*")
# All vectors but those of octets, of what is said of each octet, and of places of octets: a lane is an octet in memory.
VECTOR = re.compile(r"<(?!(?:16|32|64) x i(?:1|8|32)>)(?:vscale x )?\d+ x ")
# What clang is told of x86-64 alone.
OF_X86 = ("--target=x86_64-unknown-linux-gnu\n", "-march=x86-64\n", "-mllvm\n-no-x86-call-frame-opt\n")


@dataclass(frozen=True)
class Machine:
    """A processor. Its code is for no operating system, and does for Linux too: no access is at an address that its
    width does not divide."""

    name: str
    triple: str
    layout: str
    attributes: str
    flags: tuple[str, ...]
    # The number of the processor and the flags at the head of an object file.
    number: int
    head: int


MACHINES = (
    Machine(
        "aarch64",
        "aarch64-unknown-none-elf",
        "e-m:e-p270:32:32-p271:32:32-p272:64:64-i8:8:32-i16:16:32-i64:64-i128:128-n32:64-S128-Fn32",
        '"target-cpu"="generic" "tune-cpu"="cortex-a53" '
        '"target-features"="+v8a,+fp-armv8,+neon,+strict-align,+fix-cortex-a53-835769"',
        ("-march=armv8-a", "-mno-outline-atomics"),
        183,
        0,
    ),
    Machine(
        "riscv64",
        "riscv64-unknown-none-elf",
        "e-m:e-p:64:64-i64:64-i128:128-n32:64-S128",
        '"target-cpu"="generic-rv64" "target-features"="+64bit,+a,+c,+d,+f,+m,+zicsr,+zifencei"',
        ("-march=rv64gc", "-mabi=lp64d"),
        243,
        5,
    ),
)


def retarget(module, exports, machine):
    """Changes the module into that for a machine, with these exports alone."""
    begin(module, exports, machine.triple, machine.layout)
    for name, words in module.groups.items():
        module.groups[name] = attributes(words, lambda first, probes: f"{first}{probes}{machine.attributes}")
    for it in module.functions.values():
        test(it)


def test(it):
    """Refuses a function that may do something else on another machine."""
    with_atomics(it, STANDS)
    if not it.is_internal and not (it.answers == "void" and TAKEN_ALIKE.fullmatch(it.takes)):
        raise Unknown(f"{it.answers} @{it.name}({it.takes})")
    for line in it.lines:
        if " = alloca " in line and not PLACE.fullmatch(line):
            raise Unknown(line)
        if " = getelementptr " in line and not STEP.fullmatch(line):
            raise Unknown(line)
        if VECTOR.search(line):
            raise Unknown(line)


def words_for(machine, words):
    """What clang is told of a machine, where it was told these words of x86-64."""
    text = "".join(f"{word}\n" for word in words)
    for part in OF_X86:
        if text.count(part) != 1:
            raise Unknown(f"the words of clang: {words}")
        text = text.replace(part, "")
    return [f"--target={machine.triple}", *machine.flags, *text.split("\n")[:-1]]


def only_named(made, first):
    """Whether a module says what another says, word for word, but for the triple, the layout and the processor."""

    def rest(module):
        lines = text_of(module).split("\n")[2:]
        return [re.sub(r' ?"(?:target-cpu|tune-cpu|target-features)"="[^"]*"', "", line) for line in lines]

    return rest(made) == rest(first)
