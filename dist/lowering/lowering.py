"""A module of LLVM as text: its functions, what it declares, its data, and the groups of attributes that these name."""
import re
from dataclasses import dataclass, field

HEAD = re.compile(r'define (internal )?([^@]*?) ?@("[^"]+"|[\w.]+)\((.*)\) (#\d+) \{$')
DECLARED = re.compile(r'declare ([^@]*)@("[^"]+"|[\w.]+)\((.*)\)( #\d+)?$')
GROUP = re.compile(r"attributes (#\d+) = \{ (.*) \}$")
DATA = re.compile(r"@([\w.]+) = (?:private|internal) (?:unnamed_addr )?(?:constant|global) ")


class Unknown(Exception):
    """Something of which nobody here knows how it is lowered for another target."""


@dataclass
class Function:
    is_internal: bool
    answers: str
    name: str
    takes: str
    group: str
    lines: list[str]

    def text(self):
        return "\n".join(self.lines)

    def whole(self):
        kind = "internal " if self.is_internal else ""
        return "\n".join([f"define {kind}{self.answers} @{self.name}({self.takes}) {self.group} {{", *self.lines, "}"])


@dataclass
class Declared:
    answers: str
    name: str
    takes: str
    group: str


@dataclass
class Module:
    layout: str = ""
    triple: str = ""
    functions: dict[str, Function] = field(default_factory=dict)
    declared: dict[str, Declared] = field(default_factory=dict)
    data: dict[str, str] = field(default_factory=dict)
    groups: dict[str, str] = field(default_factory=dict)
    notes: list[str] = field(default_factory=list)

    def exports(self):
        return [name for name, it in self.functions.items() if not it.is_internal]

    def reached(self, exports):
        """The names that these exports reach, and theirs."""
        lacking = {*exports} - {*self.exports()}
        if lacking:
            raise Unknown(f"no export {', '.join(sorted(lacking))}")
        reached, todo = set(), [*exports]
        while todo:
            name = todo.pop()
            if name in reached:
                continue
            reached.add(name)
            text = self.functions[name].text() if name in self.functions else self.data.get(name, "")
            todo += re.findall(r'@("[^"]+"|[\w.]+)', text)
        return reached

    def keep_reached(self, exports):
        """Leaves out the functions, data and declarations that these exports do not reach, and all other exports."""
        reached = self.reached(exports)
        for part in (self.functions, self.declared, self.data):
            for name in [it for it in part if it not in reached]:
                del part[name]


def read(text):
    """The module of a text; whatever has another form is refused."""
    module, lines, at = Module(), text.split("\n"), 0
    while at < len(lines):
        line = lines[at]
        at += 1
        if not line or line.startswith((";", "source_filename = ")):
            continue
        if found := re.fullmatch(r'target (datalayout|triple) = "(.*)"', line):
            setattr(module, {"datalayout": "layout", "triple": "triple"}[found[1]], found[2])
        elif found := HEAD.fullmatch(line):
            end = lines.index("}", at)
            body = [re.sub(r" +; (?:preds = .*|No predecessors!)$", "", it) for it in lines[at:end]]
            module.functions[found[3]] = Function(bool(found[1]), found[2], found[3], found[4], found[5], body)
            at = end + 1
        elif found := DECLARED.fullmatch(line):
            module.declared[found[2]] = Declared(found[1].strip(), found[2], found[3], (found[4] or "").strip())
        elif found := GROUP.fullmatch(line):
            module.groups[found[1]] = found[2]
        elif found := DATA.match(line):
            module.data[found[1]] = line
        elif line.startswith("!"):
            module.notes.append(line)
        else:
            raise Unknown(line)
    return module
