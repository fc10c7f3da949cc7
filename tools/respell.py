#!/usr/bin/env python3
"""Respells the repository's own antt names as today's Rattle spells names: words in snake case, types and modules in camel case, a prime as an apostrophe.

usage: tools/respell.py [--list] [TOP]    once, after port.py; --list only prints the old and new names

Own names are those that specs/ and proofs/ define, without the answers of goals and the proofs of functions, whose names Rattle makes.
"""
import os
import re
import sys

WORD = r"[^\s(){}\[\];.,:\\\"`⌜⌝]+"
HEAD = re.compile(r"^\s*(?:(?:abbrev|unfoldable|pub|private|abstract)\s+)*(?:(?:record|data)\s+)?((?:" + WORD + r"\s+)*?" + WORD + r")((?:\s+[({].*?[)}])*)\s*:\s(.*)$")
MADE = re.compile(r"^(tie|goal)\.|^statement\b|^\{M : Type 1\} → (statement|tie)")
EXTRA = {"Nearer-wf": "Nearer-wf"}  # names whose plain respelling is not wanted: a type's name and what is said of it are joined by a dash


def files(top):
    for folder, dirs, names in os.walk(os.path.join(top, "crates")):
        dirs[:] = sorted(d for d in dirs if d != "out")
        for n in sorted(names):
            if n.endswith((".antt", ".rt", ".edit")):
                yield os.path.join(folder, n)


def odd(name):
    if "◌" in name or not re.match(r"^[A-Za-zℕℤ][\w′'-]*$", name):
        return False
    return "-" in name.strip("-") or "′" in name or re.match(r"^[a-z]+[A-Z]", name) is not None


def foreign(top):
    """The names that are brought in from Rattle's own libraries: they are Rattle's to spell."""
    crates = set(os.listdir(os.path.join(top, "crates")))
    names = set()
    for p in files(top):
        for module, listed in re.findall(r"^(?:pub |ghost )*use ([^{\n]+)\.\{([^}]*)\}", open(p, encoding="utf-8").read(), re.M):
            parts = module.split(".")
            if not (parts[0] == "Rattle" and len(parts) > 1 and parts[1] in crates):
                names.update(re.split(r"[\s,]+| as ", listed))
    return names


def own(top):
    found = set()
    for p in files(top):
        if not p.endswith(".antt"):
            continue
        for line in open(p, encoding="utf-8"):
            if line.lstrip().startswith("--") or " : " not in line:
                continue
            m = HEAD.match(line)
            if not m or MADE.match(m.group(3)):
                continue
            for name in m.group(1).split():
                if odd(name) and not name.endswith("-spec"):
                    found.add(name)
    return found - foreign(top)


def new(name):
    if name in EXTRA:
        return EXTRA[name]
    name = name.replace("′", "'")
    if name[0].isupper():
        return "".join(part[0].upper() + part[1:] for part in name.split("-") if part)
    return re.sub(r"(?<=[a-z0-9])([A-Z])", lambda m: "_" + m.group(1).lower(), name.replace("-", "_"))


def main():
    words = sys.argv[1:]
    listing = "--list" in words
    words = [w for w in words if w != "--list"]
    top = words[0] if words else "."
    names = {n: new(n) for n in own(top)}
    if listing:
        for n in sorted(names):
            print(n, names[n])
        return
    token = re.compile(r"(?<![\w'′◌#-])([A-Za-zℕℤ][\w′'-]*)(?![\w'′◌-])")
    for p in files(top):
        text = open(p, encoding="utf-8").read()
        turned = token.sub(lambda m: names.get(m.group(1), m.group(1)), text)
        if turned != text:
            open(p, "w", encoding="utf-8").write(turned)


main()
