#!/usr/bin/env python3
"""Brings this repository's own definitions, lemmas and record fields from dashes to snake case, as the toolchain's style has it.

usage: python3 tools/snake_names.py [--dry] [TOP]

A definition is what stands at the head of a line of specs/ or of a file of lemmas in proofs/, a parameter there, a field of a
record, what `where` and `let` bind in such files, and the name that an import gives. Names that the library declares, and
names that the check makes (`returns-in_err`, `loop-i-preserved`, steps behind `c.`), keep their dashes. Functions, strings,
inputs and outputs are not touched: of a .rt file only clauses, ghost items and `ghost use` lines are read. A second run
changes nothing.
"""

import collections
import os
import re
import sys

WORD = r"[A-Za-z_ℕℤ][A-Za-z_0-9'ℕℤ]*(?:-[A-Za-z_0-9'ℕℤ]+)*"
NAME = re.compile(r"(?<![\w'◌-])" + WORD + r"(?![\w'◌-])")
HEAD = re.compile(r"^( *)(?:(?:abbrev|unfoldable|pub) )*(?:(?:record|data) )?(" + WORD + r") *(?=:|\(|\{)", re.M)
LET = re.compile(r"\blet (" + WORD + r")(?: *:| *=)")
ALIAS = re.compile(r"^(?:ghost )?use [^\n]*", re.M)
CASE = re.compile(r"^" + WORD + r"((?: [^=\n]*)?) =(?: |$)", re.M)
LIBRARY = re.compile(r"^(?:ghost )?use ((?:Rattle\.std|native|lib|Prim|mir|mathlib)[\w.'-]*)\.\{([^}]*)\}", re.M)

# These would fall together with a name that stands beside them.
OTHERWISE = {
    ("numbers", "block-size"): "block_size_at",
    ("numbers", "block_size"): "block_size_at",
    ("", "chunk-count"): "chunks_in",
    ("", "chunk_count"): "chunks_in",
}


def sources(top):
    for folder, dirs, files in os.walk(os.path.join(top, "crates")):
        dirs[:] = sorted(d for d in dirs if d not in ("out", "target"))
        for f in sorted(files):
            if f.endswith((".rt", ".antt")):
                yield os.path.join(folder, f)


def parts(path):
    """The crate, and what kind of file it is."""
    crate, rest = path.split(os.sep + "crates" + os.sep, 1)[1].split(os.sep, 1)
    if rest.endswith(".rt"):
        return crate, "src"
    if rest.startswith("specs"):
        return crate, "specs"
    return crate, "lemmas" if rest.count(os.sep) == 1 else "answers"


def own_names(files):
    """Names with a dash that this repository declares, and those that it takes from the library."""
    own, fields, library = set(), set(), set()
    for path, text in files.items():
        for _, names in LIBRARY.findall(text):
            library |= {n.split(" as ")[0].strip() for n in names.split(",")}
        for line in ALIAS.findall(text):
            own |= set(re.findall(r" as (" + WORD + r")(?=[,}])", line))
        kind = parts(path)[1]
        if kind == "src":
            continue
        for indent, name in HEAD.findall(text):
            if kind == "answers" and re.search(rf"^(?:abbrev )?(?:pub )?{re.escape(name)} : goal\.", text, re.M):
                continue
            (fields if indent == "  " and kind in ("specs", "lemmas") else own).add(name)
            own.add(name)
        if kind != "answers":
            own |= set(LET.findall(text))
            for parameters in CASE.findall(text):
                own |= set(NAME.findall(parameters))
    return {n for n in own if "-" in n}, {n for n in fields if "-" in n}, library


def spelled(crate, name):
    return OTHERWISE.get((crate, name)) or OTHERWISE.get(("", name)) or name.replace("-", "_")


def turned(text, crate, kind, own, fields, library):
    taken = set()
    for _, names in LIBRARY.findall(text):
        taken |= {n.strip() for n in names.split(",") if " as " not in n}
    odd = {n for (c, n) in OTHERWISE if c in ("", crate)}

    def one(m):
        name, before = m[0], text[: m.start()]
        if name in taken:
            return name
        if kind == "answers" and re.search(r"[\w\])]\.$", before) and name not in fields:
            return name
        if name in odd and "-" not in name and not definition_of(text, m, name, kind):
            return name
        if name in own or name in odd:
            return spelled(crate, name)
        return name

    return NAME.sub(one, text)


def definition_of(text, m, name, kind):
    """Whether a name that is spelled as a function's or a field's is here the definition: it is declared or imported, and no field."""
    line = text[text.rfind("\n", 0, m.start()) + 1 : m.start()]
    if re.search(r"[\w\])}»]\.$", line) or text[m.end() :].startswith(" =") and "record {" in line:
        return False
    declared = re.search(rf"^(?:abbrev )?(?:unfoldable )?(?:pub )?{name} :", text, re.M)
    imported = re.search(rf"^(?:ghost )?use Rattle\.\w+\.specs\.(?:Blocks|Counts)\.\{{[^}}]*(?<![\w-]){name}(?![\w-])", text, re.M)
    if "chunk_count" == name and re.match(r"(?:ghost )?use Rattle\.\w+\.proofs\.", line):
        return False
    return bool(declared or imported)


CLAUSE = re.compile(r"(?:requires|ensures)\s*\*?\s*(?:\w+\s*)?\{|ghost\s*(?:\w+\s*(?::|=)\s*)?\{|ghost use [^\n]*\{")


def clauses(text):
    """The spans of a .rt file that are antt."""
    for m in CLAUSE.finditer(text):
        depth, at = 1, m.end()
        while depth:
            depth += {"{": 1, "}": -1}.get(text[at], 0)
            at += 1
        yield (m.start(), at)


def main():
    dry = "--dry" in sys.argv
    tops = [a for a in sys.argv[1:] if a != "--dry"]
    top = os.path.abspath(tops[0] if tops else ".")
    files = {}
    for path in sources(top):
        with open(path, encoding="utf-8") as f:
            files[path] = f.read()
    own, fields, library = own_names(files)
    own -= library
    fell = collections.defaultdict(set)
    words = {p: set(NAME.findall(t)) for p, t in files.items()}
    for path, text in files.items():
        crate, kind = parts(path)
        for name in own & words[path]:
            new = spelled(crate, name)
            if new in words[path]:
                fell[name].add(os.path.relpath(path, top))
        if kind == "src":
            made, at = "", 0
            for start, end in clauses(text):
                if start < at:
                    continue
                # The whole file decides what is imported, so the clause is turned with its imports before it.
                head = "\n".join(l for l in text.splitlines() if l.startswith("ghost use "))
                piece = turned(head + "\n\0" + text[start:end], crate, kind, own, fields, library).split("\0", 1)[1]
                made += text[at:start] + piece
                at = end
            made += text[at:]
        else:
            made = turned(text, crate, kind, own, fields, library)
        if made != text and not dry:
            with open(path, "w", encoding="utf-8") as f:
                f.write(made)
    print(len(own), "names")
    for name, where in sorted(fell.items()):
        print("stands beside", spelled("", name), ":", name, *sorted(where))


main()
