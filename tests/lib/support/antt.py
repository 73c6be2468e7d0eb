"""The definitions of specs/, and which of them a text cites: for tests/docs/reading."""
import os
import re

ROOT = os.path.normpath(os.path.join(os.path.dirname(os.path.abspath(__file__)), "../../.."))
NAME = r"[A-Za-z_][\w'-]*"
WORD = re.compile(rf"(?<![\w'.-])({NAME})(?:\.({NAME}))?")
HEAD = re.compile(rf"(?:(?:abbrev|unfoldable)\s+)?(?:pub\s+)?(?:(?:record|data)\s+)?({NAME})(?=[\s:({{])")
OPERATOR = re.compile(r"abbrev pub ◌(\S+)◌ :")
USE = re.compile(r"^\s*(?:ghost |pub )*use\s+(Rattle\.(dfu_\w+)\.specs\.[\w.]+?)(?:\.\{([^}]*)\})?(?:\s+as\s+(\w+))?;?\s*$")


def lines_of(path):
    with open(os.path.join(ROOT, path), encoding="utf-8") as file:
        return file.read().split("\n")


def uses_of(lines):
    """The names that a file takes from specs/ of the crates, each with its file, and the files that it names by another word."""
    names, modules = {}, {}
    for line in lines:
        found = USE.match(line)
        if not found or ".specs.declared." in found[1] or found[1].endswith(".specs.declared"):
            continue
        path = "crates/" + found[2] + "/specs/" + found[1].split(".specs.")[1].replace(".", "/")
        if found[3] is None:
            modules[found[4] or found[1].rsplit(".", 1)[1]] = path
            continue
        for item in found[3].split(","):
            theirs, _, ours = item.strip().partition(" as ")
            names[(ours or theirs).strip()] = (path, theirs.strip())
    return names, modules


class Module:
    """A file of specs/: its definitions, each with its lines, and what it takes from others."""

    def __init__(self, path):
        self.path = path
        lines = lines_of(path)
        self.names, self.modules = uses_of(lines)
        self.lines, self.owner, self.data, self.operators = {}, {}, set(), set()
        name, above, within = None, [], ""
        for line in lines:
            within = "  " if line.startswith("module ") else within
            line = line.removeprefix(within)
            if not line.strip():
                above = []
            elif line.startswith("--"):
                above.append(line)
            elif line[0].isspace():
                self.lines.get(name, []).append(line)
                made = re.match(rf"\s+({NAME}) :", line)
                if name in self.data and made:
                    self.owner[made[1]] = name
            elif OPERATOR.match(line):
                name = OPERATOR.match(line)[1]
                self.operators.add(name)
                self.lines[name], self.owner[name], above = above + [line], name, []
            elif not HEAD.match(line) or name in self.operators and f" {name} " in line:
                self.lines.get(name, []).append(line)
            elif not re.match(r"(?:pub )?use |pub mod |mod |unfolding |infix", line):
                name = HEAD.match(line)[1]
                self.lines.setdefault(name, []).extend(above + [line])
                self.owner[name] = name
                if re.match(r"(?:pub )?data ", line):
                    self.data.add(name)
                above = []


def module_of(path, known={}):
    """The file of a module's path: a file of that name, or a module within the file above it."""
    file = path + ".antt"
    if file not in known:
        known[file] = Module(file) if os.path.exists(os.path.join(ROOT, file)) else None
    return known[file] or (module_of(path.rsplit("/", 1)[0]) if path.count("/") > 3 else None)


def find(path, name):
    """Where a name is defined that a file has: there, or in a file from which that one hands it on."""
    module = module_of(path)
    if module and name not in module.owner and name in module.names:
        return find(*module.names[name])
    return (module.path, module.owner[name]) if module and name in module.owner else None


def cited(words, names, modules, own=None, bound=frozenset()):
    fields_left_out = re.sub(rf"(?:[{{;]\s*|\n\s+){NAME} = ", " ", words)
    for first, second in WORD.findall(fields_left_out):
        if first in bound:
            continue
        if own and first in own.owner:
            yield (own.path, own.owner[first])
        elif first in names:
            yield find(*names[first])
        elif first in modules and second:
            yield find(modules[first], second)
    yield from ((own.path, operator) for operator in (own.operators if own else ()) if f" {operator} " in words)
