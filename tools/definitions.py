"""Reads the definitions of specs/ and the clauses of calls, for the tools of this folder."""
import re
from pathlib import Path

ROOT = Path(__file__).resolve().parent.parent
CRATES = ROOT / "crates"
NAME = re.compile(r"(?<![.\w])([A-Za-z_][\w-]*)(?![\w-])")
HEAD = re.compile(r"^\s*(?:abbrev |unfoldable )?pub (?:(record|data) )?([A-Za-z_][\w-]*)\s*(?=[:({])")
USE = re.compile(r"(?:ghost |unfoldable )*(?:pub )?use Rattle\.(\w+)\.specs\.([\w.]*)(?:\{([^}]*)\})?(?: as (\w+))?")


def without_tests(text):
    """The code of a file without its module of tests."""
    return re.split(r"^#\[cfg\(test\)\]\nmod \w+ \{", text, maxsplit=1, flags=re.M)[0]


class Words:
    """The definitions of all specs/, each by crate, module and name."""

    def __init__(self):
        self.bodies, self.fields, self.local, self.passed, self.modules = {}, {}, {}, {}, {}
        # each definition as it stands in its file, with the comments above it and within
        self.texts = {}
        for path in sorted(CRATES.glob("*/specs/**/*.antt")):
            crate = path.relative_to(CRATES).parts[0]
            module = ".".join(path.relative_to(CRATES / crate / "specs").with_suffix("").parts)
            self.read((crate, module), path.read_text())

    def read(self, place, text):
        names, passed = imports(text)
        self.local[place], self.passed[place] = names, passed
        if place[1] == "Lib":
            for crate, path, parts, renamed in uses(text):
                if not parts:
                    self.modules[place[0], renamed or path.split(".")[-1]] = (crate, path)
        for block in re.split(r"\n\s*\n", text):
            head, comments = None, []
            for line in block.splitlines():
                if line.strip().startswith("--"):
                    comments.append(line)
                    continue
                begun, meaning = HEAD.match(line), line
                if begun and not (head and re.match(r"\s*pub \w+ :", line)):
                    head = (*place, begun[2])
                    self.bodies.setdefault(head, "")
                    self.texts[head] = []
                    if begun[1] == "record":
                        self.fields[head] = []
                elif head in self.fields and re.match(r"\s*pub ([\w-]+) :", line):
                    field, _, meaning = line.strip()[4:].partition(" : ")
                    self.fields[head].append((field, meaning))
                if head:
                    self.bodies[head] += meaning + "\n"
                    self.texts[head] += [*comments, line]
                comments = []

    def find(self, name, place, names):
        """The definition that a name means in a file with these imports."""
        if (*place, name) in self.bodies:
            return (*place, name)
        return self.follow(names[name]) if name in names else None

    def follow(self, target):
        """A definition by where it was imported from, which may have passed it on."""
        crate, module, name = target
        for _ in range(20):
            while (crate, module) in self.modules:
                crate, module = self.modules[crate, module]
            if (crate, module, name) in self.bodies:
                return crate, module, name
            onward = self.passed.get((crate, module), {}).get(name)
            if not onward:
                return None
            crate, module, name = onward
        return None

    def reached(self, text, place, names):
        """All definitions that a text names, directly or through others."""
        found, open_ends = set(), [(text, place, names)]
        while open_ends:
            text, place, names = open_ends.pop()
            for name in set(NAME.findall(text)):
                word = self.find(name, place, names)
                if word and word not in found:
                    found.add(word)
                    open_ends.append((self.bodies[word], word[:2], self.local[word[:2]]))
        return found

    def parts(self, text, place, names):
        """How many facts a clause states: the fields of a record that it is, or one."""
        begun = re.match(r"\s*([A-Z][\w-]*)", text)
        word = begun and self.find(begun[1], place, names)
        if word not in self.fields:
            return 1
        return sum(self.parts(body, word[:2], self.local[word[:2]]) for _, body in self.fields[word])


def uses(text):
    for found in USE.finditer(re.sub(r"--.*", "", text)):
        crate, path, parts, renamed = found.groups()
        yield crate, path.rstrip("."), [part.strip() for part in (parts or "").split(",") if part.strip()], renamed


def imports(text):
    """The names that a file's `use` lines bring in, and those that it passes on, each with where it comes from."""
    names, passed = {}, {}
    for line in text.splitlines():
        for crate, path, parts, _ in uses(line):
            for part in parts:
                source, _, alias = part.partition(" as ")
                module, _, name = ".".join(filter(None, (path, source))).rpartition(".")
                names[alias or name] = (crate, module, name)
                if re.match(r"\s*(unfoldable )?pub use", line):
                    passed[alias or name] = (crate, module, name)
    return names, passed


def clauses(text, at):
    """The `ensures` between the head of a function and its body."""
    found, depth, start = [], 0, None
    while at < len(text):
        begun = re.compile(r"\s*(?:where\b|(requires|ensures)\*?\s*(?:\w+\s*)?\{)").match(text, at)
        if begun and begun[1]:
            depth, start, at = 1, begun.end(), begun.end()
            while depth:
                depth += {"{": 1, "}": -1}.get(text[at], 0)
                at += 1
            if begun[1] == "ensures":
                found.append(text[start:at - 1])
        elif text[at] in "{;":
            return found
        else:
            at += 1
    return found
