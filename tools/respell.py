#!/usr/bin/env python3
"""Brings the repository's own names in specs/ and proofs/ to one spelling: types and facts in camel case, all else in snake case.

usage: tools/respell.py    at the top of the repository, once, after the kit's own script
It reads which names the .antt files declare and turns each of them wherever it stands: in .antt and .rt files, in docs, in planted/.
Names that Rattle makes (of goals and steps) stay as they are. It stops, and writes nothing, where two of the names that it turns would fall together, or where one would be that of another
declaration of an .antt file. A function, field or parameter of src/ may have the name of a word of specs/, as in the library.
"""

import os
import re

NAME = r"[^\s(){}\[\];,.:\"⌜⌝`|]+"
DECLARED = re.compile(r"^\s*(?:abbrev |pub |unfoldable |data |record )*(" + NAME + r")(?: [^:=]*)?\s:(?:\s|$)")
MADE = re.compile(r"(returns|loop|then|else|invariant|decreases|overflow|ensures|requires|variant|bound|index|slice|let)-")
OTHERWISE = {"Check-Says": "VerdictsExact"}  # whose own spelling would be that of another name
TOKEN = re.compile(r"(?<![^\s(){}\[\];,.:\"⌜⌝`|])" + NAME)


def files(*ends):
    for top in ("crates", "docs", "planted", "README.md", "examples"):
        if os.path.isfile(top):
            yield top
        for folder, dirs, names in os.walk(top):
            dirs[:] = sorted(d for d in dirs if d != "out")
            for n in sorted(names):
                if n.endswith(ends):
                    yield os.path.join(folder, n)


def read(path):
    with open(path, encoding="utf-8") as f:
        return f.read()


def declared():
    names = set()
    for path in files(".antt", ".rt"):
        for line in read(path).splitlines():
            if line.startswith(("use ", "ghost use ")):
                names.update(re.findall(r" as (" + NAME + r")", line))
    for path in files(".antt"):
        for line in read(path).splitlines():
            m = DECLARED.match(line)
            if m and not line.lstrip().startswith(("use ", "--")) and " : goal." not in line:
                names.add(m.group(1))
    return names


def lent():
    """The names that come from libraries."""
    names = set()
    for path in files(".antt", ".rt"):
        for line in read(path).splitlines():
            m = re.match(r"(?:pub )?(?:ghost )?use ([^\s{]+)\.\{(.*)\}", line)
            crate = m and re.match(r"Rattle\.(\w+)", m.group(1))
            if m and not (crate and os.path.isdir(os.path.join("crates", crate.group(1)))):
                names.update(part.split(" as ")[0].strip() for part in m.group(2).split(","))
    return names


def respelled(name):
    if name in OTHERWISE:
        return OTHERWISE[name]
    if name[0].isupper():
        return "".join(part[:1].upper() + part[1:] for part in name.split("-"))
    return re.sub(r"^getD_", "get_or_", name.replace("-", "_").replace("′", "'"))


def turns():
    own = declared() - lent()
    found = {n: respelled(n) for n in own if ("-" in n or "′" in n) and not MADE.match(n) and not n.startswith(("◌", "-"))}
    found = {n: t for n, t in found.items() if re.fullmatch(r"[\w'‐-]+", n.replace("′", "'"))}
    taken = sorted(n for n, t in found.items() if t in own)
    twice = sorted(n for n, t in found.items() if list(found.values()).count(t) > 1)
    return found, taken, twice


def turn(path, text, names):
    if path.endswith(".md"):
        return re.sub(r"`[^`\n]+`", lambda m: turn("", m.group(0), names), text)
    return TOKEN.sub(lambda m: names.get(m.group(0), m.group(0)), text)


WORDS = {"get_or": "slice_index_or", "ltb": "nat_lt", "leb": "nat_le", "eqb": "nat_eq"}  # as clauses and specs/ write them


def reworded(text):
    """The words that the kit's script left in the older form, with each name imported once."""
    text = TOKEN.sub(lambda m: WORDS.get(m.group(0), m.group(0)), text)
    once = lambda m: m.group(1) + ", ".join(dict.fromkeys(m.group(2).split(", "))) + "}"
    return re.sub(r"^((?:ghost )?use [^\s{]+\.\{)(.*)\}", once, text, flags=re.M)


def main():
    names, taken, twice = turns()
    if taken + twice:
        print("names that would fall together:", " ".join(taken + twice))
        raise SystemExit(1)
    for path in files(".antt", ".rt", ".md", ".edits"):
        old = read(path)
        new = turn(path, old, names)
        if new != old:
            with open(path, "w", encoding="utf-8") as f:
                f.write(new)
    for path in files(".antt", ".rt"):
        if "/specs/" in path or "/src/" in path:
            old = read(path)
            new = reworded(old)
            if new != old:
                with open(path, "w", encoding="utf-8") as f:
                    f.write(new)
    print(len(names), "names turned")


if __name__ == "__main__":
    main()
