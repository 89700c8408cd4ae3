#!/usr/bin/env python3
"""Spells this repository's own definitions and lemmas in snake case, once, after the kit's port.py.

usage: python3 tools/port_names.py [FOLDER]     FOLDER is the top of the repository (here: the current folder)

Names of definitions, lemmas, fields, constructors and variables of specs/ and proofs/ become snake case: `isBlock` is `is_block`,
`entry-ready` is `entry_ready`. Types, facts and modules keep their capitals; names that a file imports from a library keep their
spelling, and so do the functions of src/. Where a lemma would get the name of a definition, it gets `_lem` behind it. A file
specs/Contracts.antt is now specs/NoSecond.antt, and its proofs/Contracts.antt is proofs/NoSecond.antt, since the check makes a module
`specs.contracts` of its own. Comments, must-fail edits and the pages name what is renamed by its new name.
"""
import os
import re
import subprocess
import sys

NAME = re.compile(r"(?<![\w'◌-])[a-z_][\w'-]*")
DECLARED = re.compile(r"^\s*(?:(?:abbrev|unfoldable|pub) )*([a-z][\w'-]*)\s*(?:\{[^}]*\}\s*)?:(?![:=])")
USE = re.compile(r"(?:ghost )?(?:pub )?use ([\w.'◌·-]+?)(?:\.\{([^}]*)\})?(?: as (\w+))?;?\s*$")

# A lemma whose name already was in snake case, where a definition now gets that name: the file that has it, and what imports it from there.
MOVED = {
    "crates/machine/proofs/Colours.antt": {"is_free": "is_free_lem"},
    "crates/theory_promises/proofs/UnitMoves.antt": {"all_sound": "all_sound_lem"},
    "crates/theory_promises/proofs/Instances.antt": {"goes_on": "goes_on_lem"},
    "crates/theory_promises/proofs/Calls.antt": {"read_answer": "read_answer_lem"},
}


def is_odd(name):
    return "-" in name or re.search(r"[A-Z]", name) is not None


def snake(name):
    return re.sub(r"([a-z0-9])([A-Z])", lambda m: m.group(1) + "_" + m.group(2).lower(), name).replace("-", "_")


def files(top, *ends):
    for folder, dirs, names in os.walk(os.path.join(top, "crates")):
        dirs[:] = sorted(d for d in dirs if d != "out")
        for name in sorted(names):
            if name.endswith(ends):
                yield os.path.join(folder, name)


def text_of(path):
    with open(path, encoding="utf-8") as f:
        return f.read()


def split_comment(line, mark):
    """A line's code and its comment. No string of this repository's clauses or proofs has the mark in it."""
    at = re.search(r"(?:^|(?<=\s))" + mark + r"(?=\s|$)", line)
    return (line, "") if at is None else (line[: at.start()], line[at.start() :])


def declared_names(top):
    found = set()
    for path in files(top, ".antt"):
        if os.path.basename(path) == "Proof.antt":
            continue
        for line in text_of(path).splitlines():
            m = DECLARED.match(split_comment(line, "--")[0])
            if m:
                found.add(m.group(1))
    return found


def module_of(path, top):
    parts = os.path.relpath(path, top).split(os.sep)
    return ".".join(["Rattle"] + parts[1:]).removesuffix(".antt")


class Turning:
    def __init__(self, top):
        self.top = top
        self.crates = set(os.listdir(os.path.join(top, "crates")))
        self.declared = declared_names(top)
        plain = {n for n in self.declared if re.search(r"[A-Z]", n) and "-" not in n}
        taken = {snake(n) for n in plain} | {"same_list", "no_block"}
        # lemmas with a dash that would get the name of a definition
        self.lemmas = {n for n in self.declared if "-" in n and snake(n) in taken}
        self.moved = {}
        for path, names in MOVED.items():
            self.moved[module_of(os.path.join(top, path), top)] = names

    def new(self, name):
        if not is_odd(name):
            return name
        return snake(name) + ("_lem" if name in self.lemmas else "")

    def is_own(self, module):
        parts = module.replace("·", ".").split(".")
        return parts[0] in ("crate", "self", "super") or (parts[0] == "Rattle" and len(parts) > 1 and parts[1] in self.crates)

    def uses(self, text):
        """What a file imports: names of libraries, aliases of libraries, its own imports by module."""
        foreign, aliases, own = set(), set(), {}
        for line in text.splitlines():
            m = USE.match(split_comment(line, "--")[0].strip())
            if not m:
                continue
            names = {n.strip().split(" as ")[0] for n in (m.group(2) or "").split(",") if n.strip()}
            if self.is_own(m.group(1)):
                own.setdefault(m.group(1), set()).update(names)
                if m.group(3) == "tie":
                    aliases.add("tie")
            else:
                foreign |= names
                aliases.add(m.group(3) or m.group(1).split(".")[-1])
        return foreign, aliases, own

    def antt(self, path):
        text = text_of(path)
        foreign, aliases, own = self.uses(text)
        local = dict(self.moved.get(module_of(path, self.top), {}))
        for module, names in own.items():
            for old, new in self.moved.get(module, {}).items():
                if old in names:
                    local[old] = new
        walks = os.path.basename(path) == "Proof.antt"
        imported = set().union(*own.values()) if own else set()

        def one(m):
            name = m.group(0)
            before = m.string[: m.start()]
            alias = re.search(r"(?<![\w'.-])(\w+)\.$", before)
            if name in foreign or (alias and alias.group(1) in aliases | foreign):
                return name
            if name in local and not before.endswith("."):
                return local[name]
            if walks and name in self.lemmas and name not in imported:
                return snake(name)
            return self.new(name)

        lines = []
        for line in text.splitlines(keepends=True):
            code, said = split_comment(line, "--")
            own_path = USE.match(code.strip())
            if own_path and not self.is_own(own_path.group(1)):
                lines.append(line)
                continue
            lines.append(self.modules(NAME.sub(one, code)) + self.comment(said))
        return "".join(lines)

    def modules(self, code):
        code = re.sub(r"(Rattle\.\w+\.(?:specs|proofs)\.)Contracts\b", r"\1NoSecond", code)
        return re.sub(r"^((?:pub )?mod )Contracts$", r"\1NoSecond", code, flags=re.M)

    def named(self, text):
        return NAME.sub(lambda m: self.new(m.group(0)) if m.group(0) in self.declared and is_odd(m.group(0)) else m.group(0), text)

    def comment(self, said):
        """In prose a name stands in backquotes or in camel case; in the list at a file's head it stands before the gap."""
        if not said:
            return said
        said = re.sub(r"`[^`]*`", lambda m: self.named(m.group(0)), said)
        m = re.match(r"(--     )(\S.*?)(\s{3,}.*)$", said, flags=re.S)
        if m:
            said = m.group(1) + self.named(m.group(2)) + m.group(3)
        said = re.sub(r"(?<![\w'-])[a-z]\w*[A-Z]\w*", lambda m: self.new(m.group(0)) if m.group(0) in self.declared else m.group(0), said)
        return said.replace("Contracts.antt", "NoSecond.antt")

    def rust(self, path):
        lines = []
        for line in text_of(path).splitlines(keepends=True):
            code, said = split_comment(line, "//")
            parts = re.split(r'("(?:[^"\\]|\\.)*")', code)
            for i in range(0, len(parts), 2):
                parts[i] = re.sub(r"(?<![\w'-])[a-z]\w*[A-Z]\w*", lambda m: self.new(m.group(0)), parts[i])
                parts[i] = self.modules(parts[i])
            lines.append("".join(parts) + re.sub(r"`[^`]*`", lambda m: self.named(m.group(0)), said))
        return "".join(lines)

    def edit(self, path):
        text = text_of(path)
        head = text.splitlines()[0]
        if head.endswith(".rt"):
            return re.sub(r"(?<![\w'-])[a-z]\w*[A-Z]\w*", lambda m: self.new(m.group(0)), text)
        return NAME.sub(lambda m: self.new(m.group(0)) if m.group(0) in self.declared or m.group(0) in ("old", "new", "file") else m.group(0), text)

    def page(self, path):
        text = re.sub(r"`[^`\n]+`", lambda m: self.named(m.group(0)), text_of(path))
        return text.replace("specs/Contracts.antt", "specs/NoSecond.antt").replace("proofs/Contracts.antt", "proofs/NoSecond.antt").replace("`Contracts.antt`", "`NoSecond.antt`")


def write(path, text):
    if text != text_of(path):
        with open(path, "w", encoding="utf-8") as f:
            f.write(text)


def main(argv):
    top = os.path.abspath(argv[0] if argv else ".")
    turning = Turning(top)
    for path in list(files(top, ".antt")):
        write(path, turning.antt(path))
    for path in list(files(top, ".rt")):
        write(path, turning.rust(path))
    for path in list(files(top, ".edit")):
        write(path, turning.edit(path))
    pages = [os.path.join(top, "README.md")] + [os.path.join(top, "docs", n) for n in sorted(os.listdir(os.path.join(top, "docs"))) if n.endswith(".md")]
    for path in pages:
        write(path, turning.page(path))
    for path in list(files(top, "Contracts.antt")):
        if os.path.basename(path) == "Contracts.antt":
            subprocess.run(["git", "mv", os.path.relpath(path, top), os.path.relpath(path.replace("Contracts.antt", "NoSecond.antt"), top)], cwd=top, check=True)
    print(f"{len(turning.declared)} names are declared; lemmas with _lem: {', '.join(sorted(turning.lemmas))}")
    return 0


if __name__ == "__main__":
    raise SystemExit(main(sys.argv[1:]))
