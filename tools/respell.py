#!/usr/bin/env python3
"""Gives the repository's own definitions and lemmas the spelling of today's Rattle: words in snake case, a dash only
between two names, modules in camel case. Run once, at the top, right after the kit's porting script.

A name that source files declare keeps its spelling. Pages and must-fail edits are turned with the definitions.
"""
import os
import re
import sys

PART = r"[^\s(){}\[\].,;:`\"|⌜⌝←→]+"
PROOFS = ("Proof.antt", "Answers.antt", "Invariants.antt")
# what `Rattle.std` declares and lemmas here speak of
LIBRARY = "length map take drop set get_or replicate append sum list_all cond".split()
# modules whose files are named in snake case, and their new names
MODULES = {"laws": "Laws"}
# lemmas that would fall together with the function they are about
APART = {"count-in": "count_in_lem", "no-task": "no_task_lem", "later-than": "later_than_lem", "no_number": "no_number_lem"}


def files(endings, below=("crates",)):
    for top in below:
        if os.path.isfile(top):
            yield top
        for folder, dirs, names in os.walk(top):
            dirs[:] = sorted(d for d in dirs if d not in ("out", "target", ".git"))
            for name in sorted(names):
                if name.endswith(endings):
                    yield os.path.join(folder, name)


def read(path):
    with open(path, encoding="utf-8") as f:
        return f.read()


def declared():
    """The names that files of specs/ and proofs/ declare, and which of them are definitions and no lemmas."""
    names, definitions = [], set(LIBRARY)
    for path in files(".antt"):
        if "/proofs/" in path and os.path.basename(path) in PROOFS:
            continue
        opened = False
        for line in read(path).split("\n"):
            if re.match(r"\s*(--|use |infix)", line):
                continue
            it = re.match(r"(\s*)((?:unfoldable |abbrev |pub |data |record )*)([^\s:(){}.,;]+)(\s*:(?: |$)|.*)", line)
            if not it:
                continue
            words, name, rest = it.group(2).split(), it.group(3), it.group(4)
            kind = "data" in words or "record" in words
            if kind:
                variants = "data" in words
            if not (kind or rest.lstrip().startswith(":")) or name in ("module", "where"):
                continue
            opened = kind or (opened and it.group(1) != "")
            if name not in names:
                names.append(name)
            if "unfoldable" in words or "abbrev" in words or (opened and not kind and variants):
                definitions.add(name)
    return names, definitions


def snake(word):
    return re.sub(r"(?<=[a-z0-9])([A-Z])", lambda m: "_" + m.group(1).lower(), word)


def respelled(name, definitions):
    if not name[0].islower():
        return name
    parts = name.split("-")
    out = snake(parts[0])
    for left, right in zip(parts, parts[1:]):
        out += ("-" if left in definitions and right in definitions else "_") + snake(right)
    return out


def sources():
    """The words of the source files outside clauses and imports: they keep their spelling."""
    found = set()
    for path in files(".rt"):
        for line in read(path).split("\n"):
            if not re.match(r"\s*(ghost|requires|ensures|//)", line):
                found |= set(re.findall(r"\w+", line))
    return found


def main():
    names, definitions = declared()
    fixed = sources()
    turned = {}
    for name in names:
        new = APART.get(name) or respelled(name, definitions)
        if new != name and name not in fixed:
            turned[name] = new
    everywhere = set()
    for path in files(".antt"):
        everywhere |= set(re.findall(PART, read(path)))
    for name, new in turned.items():
        if new in everywhere and new not in fixed and new not in turned or list(turned.values()).count(new) > 1:
            print(f"falls together: {name} as {new}")
    if "--list" in sys.argv:
        for name, new in turned.items():
            print(name, new)
        return

    def turn(text):
        return re.sub(PART, lambda m: turned.get(m.group(0), m.group(0)), text)

    def modules(text):
        for old, new in MODULES.items():
            text = re.sub(rf"(specs[./]){old}(?=[./`])", rf"\g<1>{new}", text)
            text = re.sub(rf"(?m)^pub mod {old}$", f"pub mod {new}", text)
            text = re.sub(rf"(?<![\w/.]){old}/(?=[A-Z])", f"{new}/", text)
        return text

    for path in files((".antt", ".rt", ".edit")):
        old = read(path)
        new = modules(turn(old))
        if new != old:
            with open(path, "w", encoding="utf-8") as f:
                f.write(new)
    for path in files(".md", ("README.md", "docs", "host", "boards")):
        old = read(path)
        new = modules(re.sub(r"`[^`\n]*`", lambda m: turn(m.group(0)), old))
        if new != old:
            with open(path, "w", encoding="utf-8") as f:
                f.write(new)
    for old, new in MODULES.items():
        for path in list(files(f"/{old}.antt", ("crates",))):
            pass
        for folder, dirs, names_here in list(os.walk("crates")):
            if os.path.basename(folder) == "specs":
                if old + ".antt" in names_here:
                    os.rename(os.path.join(folder, old + ".antt"), os.path.join(folder, new + ".antt"))
                if old in dirs:
                    os.rename(os.path.join(folder, old), os.path.join(folder, new))
    print(f"{len(turned)} names turned")


main()
