"""Compares a module that wasm.py made with the one that the kit lowered, function by function: up to the numbers of
registers, labels, groups and notes, and up to the place of the stack's test among the first lines of a function."""
import functools
import re

TEST = re.compile(
    r"  (%[\w.]+) = call ptr @llvm\.frameaddress\.p0\(i32 0\)\n  (%[\w.]+) = ptrtoaddr ptr \1 to i64\n"
    r"  (%[\w.]+) = icmp slt i64 \2, 16\n"
    r"  br i1 \3, label %([\w.]+), label %([\w.]+)\n\n\5:\n"
)


def words_of(module, group):
    """The attributes of a group, in one order."""
    words = module.groups.get(group, "")
    return sorted(re.findall(r'"[^"]*"(?:="[^"]*")?|\w+\([^)]*\)|\w+', words))


def without_test(text):
    """A function's text without the stack's test, and whether it had one."""
    found = TEST.search(text)
    if not found:
        return text, False
    text = text[: found.start()] + text[found.end() :]
    trap, ok = (re.escape(found[at]) for at in (4, 5))
    # Other tests of the function may jump to the same trap.
    if not re.search(rf"%{trap}(?![\w.])", text):
        text, count = re.subn(rf"\n*^{trap}:\n  call void @llvm\.trap\(\)\n  unreachable\n*", "\n\n", text, flags=re.M)
        if count != 1:
            raise ValueError(f"a test of the stack without its trap:\n{text}")
    return re.sub(rf"%{ok}(?![\w.])", "%start", text).rstrip("\n"), True


def renamed(text):
    """A text with registers and labels in the order of their use."""
    names = {}

    def name(found):
        key = found[0].strip("%:")
        new = names.setdefault(key, f"{re.match('[a-z_-]+', key)[0]}{len(names)}")
        return f"%{new}" if found[0].startswith("%") else f"{new}:"

    return re.sub(r"%r\d+\b|%[a-z_-]+\.\d+\b|^[a-z_-]+\.\d+:", name, text, flags=re.M)


def seen(module, it):
    """What is compared of a function."""
    text, tests = without_test(it.text())
    return it.is_internal, it.answers, it.takes, words_of(module, it.group), tests, renamed(text)


def declares(module):
    """What a module declares; what an intrinsic may do is LLVM's own knowledge."""
    return {
        name: name.startswith("llvm.") or (it.answers, it.takes, words_of(module, it.group))
        for name, it in module.declared.items()
    }


def differences(made, kits):
    """What is not the same in two modules, in words."""
    # What no export reaches is not missed.
    kits.keep_reached(kits.exports())
    parts = ("layout", "triple", "data", "notes")
    found = [f"another {what}" for what in parts if getattr(made, what) != getattr(kits, what)]
    ours, theirs = declares(made), declares(kits)
    names = sorted({*ours, *theirs})
    found += [f"another declaration of {name}" for name in names if ours.get(name) != theirs.get(name)]
    for name in sorted({*made.functions, *kits.functions}):
        one, other = made.functions.get(name), kits.functions.get(name)
        if one is None or other is None:
            found.append(f"the function {name} is in one module alone")
        elif seen(made, one) != seen(kits, other):
            found.append(f"another function {name}")
    return found


@functools.cache
def shape(line):
    """The form of an instruction: its operation, types and flags."""
    line = re.sub(r'@"[^"]*"|@(?!llvm)[\w.]+', "@f", line)
    line = re.sub(r"\[\d+ x i8\]", "[N x i8]", re.sub(r"%[\w.-]+", "%", line))
    line = re.sub(r"(?<=[ (])-?\d+(?=[,) ]|$)", "N", line)
    line = re.sub(r"![0-9]+", "!N", re.sub(r"0x[0-9A-F]+|-?\d\.\d+e[+-]\d+", "X", line))
    if "call" in line and "@f(" in line:
        head, _, words = line.partition("@f(")
        line = f"{head}@f({', '.join(sorted(set(re.findall(r'(?:^|, )([ipdf][a-z]*[0-9]*)', words))))})"
    return line.strip()


def share_of_shapes(module, others):
    """How many of a module's instructions have a form that one of the others has too, and how many there are."""
    lines = [line for it in module.functions.values() for line in it.lines if line.startswith("  ")]
    theirs = [line for other in others for it in other.functions.values() for line in it.lines]
    known = {shape(line) for line in theirs if line.startswith("  ")}
    return sum(shape(line) in known for line in lines), len(lines)
