#!/usr/bin/env python3
"""Brings the names that this repository's specs/ and proofs/ declare to one spelling.

usage: python3 tools/respell_names.py [--list]      at the top of the repository

Words, fields, constructors and lemmas: snake case (a-b becomes a_b). Types and facts: upper camel case (Lines-of becomes
LinesOf). Goals keep the names that the check gives them, and so does every name that is imported from a library.
Stops, and writes nothing, where two names would become one. Run once, after the port's own script.
"""

import os
import re
import sys

# Facts (their value is a type) whose names began with a small letter.
FACTS = {"either_way", "asked-crossed", "through"}

NAME = r"[^\s(){}\[\],;.:λ]+"
DECLARED = re.compile(rf"^\s*(?:abbrev )?(?:unfoldable )?(?:pub )?({NAME}) :(?!\S)")
RECORD = re.compile(rf"^\s*(?:pub )?(?:record|data) ({NAME})(?= )")
USE = re.compile(r"^(?:pub )?(?:ghost )?(?:pub )?use ([^\s{]+)\.\{([^}]*)\}")
PART = r"[\w'\-]"
CLAUSE = re.compile(r"^\s*(?:(?:requires|ensures)\*?\b|ghost\b)|\{ *⌜|^\s*(?:pub )?ghost use")


def files(ending):
    for folder, dirs, names in os.walk("crates"):
        dirs[:] = sorted(d for d in dirs if d != "out")
        for n in sorted(names):
            if n.endswith(ending):
                yield os.path.join(folder, n)


def text_of(path):
    with open(path, encoding="utf-8") as f:
        return f.read()


def crate_names():
    return {d for d in os.listdir("crates") if os.path.isdir(os.path.join("crates", d, "src"))}


def is_own(module, crates):
    parts = module.split(".")
    return parts[0] == "Rattle" and len(parts) > 1 and parts[1] in crates


def declared(crates):
    own, lent = {}, set()
    for path in files(".antt"):
        for line in text_of(path).splitlines():
            use = USE.match(line)
            if use:
                for n in use[2].split(","):
                    if " as " in n:
                        own.setdefault(n.split(" as ")[1].strip(), path)
                    elif not is_own(use[1], crates):
                        lent.add(n.strip())
                continue
            found = RECORD.match(line) or DECLARED.match(line)
            if found and not re.search(r": goal\.", line):
                own.setdefault(found[1], path)
    return own, lent


def respelled(name):
    if name in FACTS or name[0].isupper():
        return "".join(p[:1].upper() + p[1:] for p in re.split("[-_]", name))
    return name.replace("-", "_")


def table(own, lent):
    new = {n: respelled(n) for n in own if n not in lent and respelled(n) != n}
    taken = (set(own) | lent) - set(new)
    for n, to in sorted(new.items()):
        if to in taken:
            raise SystemExit(f"respell_names: {n} would fall together with {to}; nothing was written")
        taken.add(to)
    return new


def turned(code, pattern, new):
    return pattern.sub(lambda m: new[m[0]], code)


def main(argv):
    new = table(*declared(crate_names()))
    if argv == ["--list"]:
        print("\n".join(f"{a} {b}" for a, b in sorted(new.items())))
        return 0
    words = "|".join(re.escape(n) for n in sorted(new, key=len, reverse=True))
    # a name behind .auto. is the check's own
    pattern = re.compile(rf"(?<!{PART})(?<!auto\.)(?:{words})(?!{PART})")
    for path in files((".antt", ".rt")):
        out = []
        for line in text_of(path).splitlines(keepends=True):
            if path.endswith(".rt"):
                out.append(turned(line, pattern, new) if CLAUSE.match(line) else line)
            else:
                code = re.split(r"(?<!\S)--(?!\S)", line, maxsplit=1)
                out.append(turned(code[0], pattern, new) + line[len(code[0]):])
        with open(path, "w", encoding="utf-8") as f:
            f.write("".join(out))
    return 0


if __name__ == "__main__":
    sys.exit(main(sys.argv[1:]))
