"""Looks once more at a translated function, in C: at each access that is not tested where it stands (`AT..`, `SET..`), was
its variable tested on each way to it, since it changed, and as far? It knows nothing of how the function was made: it
reads the lines, and follows each way through them until nothing more comes of it.
"""
import re

from binary import Unknown

VARIABLE = r"[avijd]\d+"
ACCESS = re.compile(r"\b(?:AT|SET)(8|16|32|64|F)\(")
NEAR = re.compile(rf"({VARIABLE}), (\d+)[,)]")
FIXED = re.compile(r"(\d+)u, 0[,)]")
TEST = re.compile(rf"TEST(?:_FAR)?\(({VARIABLE})(?:, (\d+))?\);")
CHANGE = re.compile(rf"({VARIABLE}) = (.*);")
LABEL = re.compile(r"(L\d+):;")
BRANCH = re.compile(r"(if \(.*\)) \{ (.*) goto (L\d+); \}")
LEAVE = re.compile(r"(if \(.*\)) (goto L\d+|return.*);")
HIDDEN = re.compile(rf"\b{VARIABLE}\s*(?:[-+*/%&|^]|<<|>>)?=(?!=)|\+\+|--")
TYPES = ("u32 ", "u64 ", "f64 ")
SWITCH = re.compile(r"(?:case \d+u: ?)+(.*)|default: ?(.*)")


def parts(lines):
    """The statements, one after another, with braces apart."""
    for line in lines:
        if branch := BRANCH.fullmatch(line):
            yield from (f"{branch[1]} {{", *(f"{it};" for it in branch[2].rstrip(";").split("; ")), f"goto {branch[3]};", "}")
        elif leave := LEAVE.fullmatch(line):
            yield from (f"{leave[1]} {{", f"{leave[2]};", "}")
        elif arm := SWITCH.fullmatch(line):
            yield "arm"
            yield from (f"{it};" for it in (arm[1] or arm[2]).rstrip(";").split("; "))
        else:
            yield line


def closed(statements):
    """Where each brace that opens is closed, and where the `else` of an `if` begins."""
    ends, others, open_ = {}, {}, []
    for at, text in enumerate(statements):
        if text.startswith("}"):
            ends[open_.pop()] = at
        if text.endswith("{"):
            if text == "} else {":
                others[next(it for it, end in ends.items() if end == at)] = at
            open_.append(at)
    if open_:
        raise Unknown("a brace that is not closed")
    return ends, others


def ways(statements):
    """For each statement, those that may follow it."""
    ends, others = closed(statements)
    labels = {it[1]: at for at, text in enumerate(statements) if (it := LABEL.fullmatch(text))}
    switches = [at for at, text in enumerate(statements) if text.startswith("switch (")]
    for at, text in enumerate(statements):
        if text.startswith("goto "):
            yield [labels[text[5:-1]]]
        elif text.startswith("return") or text == "rud_trap();":
            yield []
        elif text == "} else {":
            # From above, the other branch is passed over.
            yield [ends[at] + 1]
        elif text.startswith("if ("):
            yield [at + 1, ends[at] + 1]
        elif at in switches:
            yield [it for it in range(at, ends[at]) if statements[it] == "arm"]
        else:
            yield [at + 1]


def tested_after(text, tested):
    """What is tested once a statement is done."""
    if test := TEST.fullmatch(text):
        return {**tested, test[1]: max(tested.get(test[1], -1), int(test[2] or 0))}
    if change := CHANGE.fullmatch(text):
        rest = {name: reach for name, reach in tested.items() if name != change[1]}
        if change[2] in tested and change[2] != change[1]:
            rest[change[1]] = tested[change[2]]
        return rest
    return tested


def both(some, others):
    return {name: min(reach, others[name]) for name, reach in some.items() if name in others}


def missing(text, tested, margin, fixed):
    """The first access of a statement that is not tested."""
    for access in ACCESS.finditer(text):
        count = {"8": 1, "16": 2, "32": 4}.get(access[1], 8)
        rest = text[access.end() :]
        if near := NEAR.match(rest):
            if tested.get(near[1], -1) < max(0, int(near[2]) + count - margin):
                return text
        elif not (place := FIXED.match(rest)) or not fixed[0] <= int(place[1]) <= fixed[1] - count:
            return text
    return None


def test(name, lines, margin, fixed):
    """Refuses a function in which an access is not tested; the lines are those of its body."""
    statements = list(parts(lines))
    after = list(ways(statements))
    known, todo = {0: {}}, [0]
    while todo:
        at = todo.pop()
        now = tested_after(statements[at], known[at])
        for to in after[at]:
            more = now if to not in known else both(known[to], now)
            if to < len(statements) and (to not in known or more != known[to]):
                known[to] = more
                todo.append(to)
    for at, text in enumerate(statements):
        if not CHANGE.fullmatch(text) and not text.startswith(TYPES) and HIDDEN.search(text):
            raise Unknown(f"{name}: a change in the midst of a line: {text}")
        if at in known and (bad := missing(text, known[at], margin, fixed)):
            raise Unknown(f"{name}: an access that is not tested: {bad}")
