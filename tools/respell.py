#!/usr/bin/env python3
"""Brings this repository's own names in specs/, proofs/ and clauses to one spelling: words in snake case, types in camel
case. Run once, at the top, after the kit's port.py: tools/respell.py [--list]. Names of src/ and of the library stay."""
import collections
import os
import re
import sys

NAME = r"[^\s:(){}\[\]=,.;|«»∙λ→×⊎]+"
DECLARED = re.compile(r"^\s*(?:(?:abbrev|unfoldable|pub)\s+)*(" + NAME + r"(?:\s+" + NAME + r")*)\s+:\s(.*)$")
HEAD = re.compile(r"^\s*(?:pub\s+)?(?:data|record)\s+(" + NAME + r")\s")
TOKEN = re.compile(r"(?<![\w'₀-₉-])[A-Za-z_][\w'₀-₉→]*(?:-[\w'₀-₉→]+)*(?![\w'₀-₉-])")
OLD = re.compile(r"[A-Za-z][\w'₀-₉→]*-|[A-Z][a-z]+_")
USE = re.compile(r"^\s*(?:pub\s+)?(?:ghost\s+)?use\s+([^\s{;]+?)\.\{([^}]*)\}", re.M)


def texts():
    for folder, _, names in sorted(os.walk("crates")):
        if "out" in folder.split(os.sep):
            continue
        for name in sorted(names):
            if name.endswith((".antt", ".rt")):
                yield os.path.join(folder, name)


def own_names(path, text):
    """The names with a dash that a file of specs/ or proofs/ declares, but for answers to goals."""
    for line in text.split("\n"):
        if line.lstrip().startswith("--"):
            continue
        head = HEAD.match(line)
        if head:
            yield head.group(1)
        found = DECLARED.match(line)
        if found and not re.match(r"(need|given|goal)\.", found.group(2)):
            words = found.group(1).split()
            if words[0] not in ("data", "record", "let", "module", "use"):
                yield from words
        for inner in re.findall(r"\blet\s+(" + NAME + r")\s+[:=]", line):
            yield inner


def respelled(name):
    if name[0].isupper():
        return "".join(part[:1].upper() + part[1:] for part in re.split("[-_]", name))
    return name.replace("-", "_")


def library_names(text):
    """The names that a file takes from the library or from what Rattle makes."""
    taken = set()
    for module, names in USE.findall(text):
        own = re.match(r"Rattle\.(\w+)\.(specs|proofs)\b", module)
        if own and own.group(1) != "std" and ".Goals" not in module and ".Given" not in module:
            continue
        for name in names.split(","):
            taken.update(name.split(" as "))
    return {name.strip() for name in taken}


def main():
    files = {path: open(path).read() for path in texts()}
    declared = collections.defaultdict(set)
    for path, text in files.items():
        if path.endswith(".antt"):
            for name in own_names(path, text):
                if OLD.match(name):
                    declared[name].add(path)
    new = {name: respelled(name) for name in declared}
    changed = 0
    for path, text in files.items():
        library = library_names(text)
        comment = "//" if path.endswith(".rt") else "--"
        lines = [line if line.lstrip().startswith(comment) else
                 TOKEN.sub(lambda m: m.group(0) if m.group(0) in library else new.get(m.group(0), m.group(0)), line)
                 for line in text.split("\n")]
        after = "\n".join(lines)
        if after != text:
            changed += 1
            if "--list" not in sys.argv:
                open(path, "w").write(after)
    if "--list" in sys.argv:
        for name in sorted(new):
            print(name, new[name], len(declared[name]))
    print(f"respell: {len(new)} names, {changed} files", file=sys.stderr)


main()
